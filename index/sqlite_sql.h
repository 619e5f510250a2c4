/* What SQLite is told: tables, triggers, the index. */
#ifndef INDEX_SQLITE_SQL_H
#define INDEX_SQLITE_SQL_H

#define SQLITE_TABLES                                                                                                            \
    "CREATE TABLE IF NOT EXISTS ri_plan(id INTEGER PRIMARY KEY, text TEXT NOT NULL, at REAL NOT NULL);"                          \
    "CREATE TABLE IF NOT EXISTS ri_record(record INTEGER PRIMARY KEY, version INTEGER NOT NULL, gone INTEGER NOT NULL,"          \
    " at REAL NOT NULL);"                                                                                                        \
    "CREATE TABLE IF NOT EXISTS ri_item(seq INTEGER PRIMARY KEY AUTOINCREMENT, record INTEGER NOT NULL,"                         \
    " version INTEGER NOT NULL, name TEXT, word TEXT, text TEXT, at REAL NOT NULL);"                                             \
    "CREATE TABLE IF NOT EXISTS ri_run(record INTEGER PRIMARY KEY, version INTEGER NOT NULL, move INTEGER NOT NULL,"             \
    " at REAL NOT NULL);"                                                                                                        \
    "CREATE TABLE IF NOT EXISTS ri_state(id INTEGER PRIMARY KEY, plan INTEGER NOT NULL, hash TEXT NOT NULL,"                     \
    " ended INTEGER NOT NULL, saved BLOB NOT NULL, UNIQUE(plan, hash));"                                                         \
    "CREATE TABLE IF NOT EXISTS ri_move(id INTEGER PRIMARY KEY, plan INTEGER NOT NULL, before INTEGER NOT NULL,"                 \
    " supplied TEXT NOT NULL, state INTEGER NOT NULL, UNIQUE(plan, before, supplied));"                                          \
    "CREATE TABLE IF NOT EXISTS ri_job(record INTEGER NOT NULL, version INTEGER NOT NULL, what TEXT NOT NULL,"                   \
    " word TEXT NOT NULL, at REAL NOT NULL, due REAL, next REAL, tries INTEGER, PRIMARY KEY(record, what)) WITHOUT ROWID;"       \
    "CREATE INDEX IF NOT EXISTS ri_job_due ON ri_job(due) WHERE due IS NOT NULL;"                                                \
    "CREATE INDEX IF NOT EXISTS ri_job_next ON ri_job(next) WHERE next IS NOT NULL;"                                             \
    "CREATE TABLE IF NOT EXISTS ri_text(record INTEGER NOT NULL, version INTEGER NOT NULL, name TEXT NOT NULL, body TEXT,"       \
    " PRIMARY KEY(record, version, name)) WITHOUT ROWID;"                                                                        \
    "CREATE TABLE IF NOT EXISTS ri_shown(record INTEGER PRIMARY KEY, version INTEGER NOT NULL, form TEXT NOT NULL,"              \
    " edited REAL NOT NULL, first REAL NOT NULL, cause REAL NOT NULL, since REAL NOT NULL, move INTEGER NOT NULL);"              \
    "CREATE INDEX IF NOT EXISTS ri_shown_since ON ri_shown(since);"                                                              \
    "CREATE TABLE IF NOT EXISTS ri_trouble(id INTEGER PRIMARY KEY AUTOINCREMENT, record INTEGER NOT NULL,"                       \
    " version INTEGER NOT NULL, move INTEGER NOT NULL, why TEXT NOT NULL, at REAL NOT NULL);"                                    \
    "CREATE INDEX IF NOT EXISTS ri_trouble_record ON ri_trouble(record);"                                                        \
    "CREATE TABLE IF NOT EXISTS ri_cursor(name TEXT PRIMARY KEY, at INTEGER NOT NULL);"                                          \
    "CREATE TABLE IF NOT EXISTS ri_count(name TEXT PRIMARY KEY, n INTEGER NOT NULL);"                                            \
    "CREATE VIRTUAL TABLE IF NOT EXISTS ri_doc USING fts5(title, body, folded,"                                                  \
    " tokenize = 'unicode61 remove_diacritics 2');"

#define SQLITE_CATALOGUE                                                                                                         \
    "CREATE TABLE IF NOT EXISTS catalogue(id INTEGER PRIMARY KEY, title TEXT, body TEXT, fields TEXT);"

#define SQLITE_NOW "(julianday('now') - 2440587.5) * 86400.0"

/* One edit of the record that `row` names, gone or not: its next version, and the item. */
#define SQLITE_EDIT(row, gone)                                                                                                   \
    " INSERT INTO ri_record(record, version, gone, at) SELECT " row ".%2, 0, 0, 0"                                               \
    " WHERE NOT EXISTS(SELECT 1 FROM ri_record WHERE record = " row ".%2);"                                                      \
    " UPDATE ri_record SET version = version + 1, gone = " gone ", at = " SQLITE_NOW " WHERE record = " row ".%2;"               \
    " INSERT INTO ri_item(record, version, at) SELECT record, version, at FROM ri_record WHERE record = " row ".%2;"

#define SQLITE_TRIGGERS                                                                                                          \
    "DROP TRIGGER IF EXISTS ri_inserted; DROP TRIGGER IF EXISTS ri_updated;"                                                     \
    "DROP TRIGGER IF EXISTS ri_renumbered; DROP TRIGGER IF EXISTS ri_deleted;"                                                   \
    "CREATE TRIGGER ri_inserted AFTER INSERT ON %1 BEGIN" SQLITE_EDIT("NEW", "0") " END;"                                        \
    "CREATE TRIGGER ri_updated AFTER UPDATE ON %1 BEGIN" SQLITE_EDIT("NEW", "0") " END;"                                         \
    "CREATE TRIGGER ri_renumbered AFTER UPDATE ON %1 WHEN OLD.%2 <> NEW.%2 BEGIN" SQLITE_EDIT("OLD", "1") " END;"                \
    "CREATE TRIGGER ri_deleted AFTER DELETE ON %1 BEGIN" SQLITE_EDIT("OLD", "1") " END;"

/* inside CASE, since SQLite may look at what is constant before it looks at WHERE */
#define SQLITE_TEST_LINE                                                                                                         \
    "SELECT id, gone FROM (SELECT CASE WHEN json_valid($1) THEN CASE WHEN json_type($1) = 'object'"                              \
    " AND json_type($1, '$.id') = 'integer' THEN json_extract($1, '$.id') END END AS id,"                                        \
    " CASE WHEN json_valid($1) THEN json_extract($1, '$.gone') END AS gone) WHERE id > 0"

#define SQLITE_TAKE_LINE                                                                                                         \
    "INSERT INTO catalogue(id, title, body, fields) SELECT json_extract($1, '$.id'), json_extract($1, '$.title'),"               \
    " json_extract($1, '$.body'), json_remove($1, '$.id', '$.title', '$.body', '$.gone') WHERE true"                             \
    " ON CONFLICT(id) DO UPDATE SET title = excluded.title, body = excluded.body, fields = excluded.fields"

#define SQLITE_ANSWER_LINE                                                                                                       \
    "INSERT INTO ri_item(record, version, name, word, text, at) SELECT json_extract($1, '$.record'),"                            \
    " json_extract($1, '$.version'), json_extract($1, '$.name'), json_extract($1, '$.word'), json_extract($1, '$.text'), $2"      \
    " FROM (SELECT CASE WHEN json_valid($1) THEN json_type($1, '$.record') = 'integer' AND"                                      \
    " json_type($1, '$.version') = 'integer' AND json_type($1, '$.name') = 'text' END AS good) WHERE good RETURNING 1"

#define SQLITE_SEARCH                                                                                                            \
    "SELECT ri_doc.rowid, ri_doc.title, snippet(ri_doc, 1, char(1), char(2), '…', 16), s.version, s.form, s.first, s.since"      \
    " FROM ri_doc JOIN ri_shown s ON s.record = ri_doc.rowid WHERE ri_doc MATCH $1 ORDER BY rank LIMIT $2"

#define SQLITE_STRAYS                                                                                                            \
    "SELECT rowid FROM ri_doc WHERE rowid > $1 AND rowid NOT IN (SELECT record FROM ri_shown) ORDER BY rowid LIMIT 1"

#define SQLITE_SECOND                                                                                                            \
    "DROP TABLE IF EXISTS ri_doc_new;"                                                                                           \
    "CREATE VIRTUAL TABLE ri_doc_new USING fts5(title, body, folded, tokenize = 'unicode61 remove_diacritics 2');"

#define SQLITE_SWAP "DROP TABLE ri_doc; ALTER TABLE ri_doc_new RENAME TO ri_doc;"

#endif
