/* What PostgreSQL is told: tables, triggers, lanes, the index. */
#ifndef INDEX_POSTGRES_SQL_H
#define INDEX_POSTGRES_SQL_H

#define POSTGRES_INDEX                                                                                                           \
    "(record bigint PRIMARY KEY, title text, body text, folded text, found tsvector GENERATED ALWAYS AS"                         \
    " (to_tsvector('simple', coalesce(title, '') || ' ' || left(coalesce(body, ''), 500000) || ' ' ||"                           \
    " left(coalesce(folded, ''), 200000))) STORED)"

#define POSTGRES_TABLES                                                                                                          \
    "CREATE TABLE IF NOT EXISTS ri_plan(id bigint PRIMARY KEY, text text NOT NULL, at float8 NOT NULL);"                         \
    "CREATE TABLE IF NOT EXISTS ri_record(record bigint PRIMARY KEY, version bigint NOT NULL, gone int NOT NULL,"                \
    " at float8 NOT NULL);"                                                                                                      \
    "CREATE TABLE IF NOT EXISTS ri_lane(id int PRIMARY KEY);"                                                                    \
    "INSERT INTO ri_lane SELECT generate_series(0, 63) ON CONFLICT DO NOTHING;"                                                  \
    "CREATE TABLE IF NOT EXISTS ri_item(seq bigserial PRIMARY KEY, record bigint NOT NULL, version bigint NOT NULL,"             \
    " name text, word text, text text, at float8 NOT NULL,"                                                                      \
    " lane int GENERATED ALWAYS AS ((record % 64)::int) STORED);"                                                                \
    "CREATE INDEX IF NOT EXISTS ri_item_lane ON ri_item(lane, seq);"                                                             \
    "CREATE TABLE IF NOT EXISTS ri_run(record bigint PRIMARY KEY, version bigint NOT NULL, move bigint NOT NULL,"                \
    " at float8 NOT NULL);"                                                                                                      \
    "CREATE TABLE IF NOT EXISTS ri_state(id bigserial PRIMARY KEY, plan bigint NOT NULL, hash text NOT NULL,"                    \
    " ended int NOT NULL, saved bytea NOT NULL, UNIQUE(plan, hash));"                                                            \
    "CREATE TABLE IF NOT EXISTS ri_move(id bigserial PRIMARY KEY, plan bigint NOT NULL, before bigint NOT NULL,"                 \
    " supplied text NOT NULL, state bigint NOT NULL, UNIQUE(plan, before, supplied));"                                           \
    "CREATE TABLE IF NOT EXISTS ri_job(record bigint NOT NULL, version bigint NOT NULL, what text NOT NULL,"                     \
    " word text NOT NULL, at float8 NOT NULL, due float8, next float8, tries int, PRIMARY KEY(record, what));"                   \
    "CREATE INDEX IF NOT EXISTS ri_job_due ON ri_job(due) WHERE due IS NOT NULL;"                                                \
    "CREATE INDEX IF NOT EXISTS ri_job_next ON ri_job(next) WHERE next IS NOT NULL;"

/* a string has at most 4,095 bytes, so these come by themselves */
#define POSTGRES_MORE_TABLES                                                                                                     \
    "CREATE TABLE IF NOT EXISTS ri_text(record bigint NOT NULL, version bigint NOT NULL, name text NOT NULL, body text,"         \
    " PRIMARY KEY(record, version, name));"                                                                                      \
    "CREATE TABLE IF NOT EXISTS ri_shown(record bigint PRIMARY KEY, version bigint NOT NULL, form text NOT NULL,"                \
    " edited float8 NOT NULL, first float8 NOT NULL, cause float8 NOT NULL, since float8 NOT NULL, move bigint NOT NULL);"       \
    "CREATE INDEX IF NOT EXISTS ri_shown_since ON ri_shown(since);"                                                              \
    "CREATE TABLE IF NOT EXISTS ri_trouble(id bigserial PRIMARY KEY, record bigint NOT NULL, version bigint NOT NULL,"           \
    " move bigint NOT NULL, why text NOT NULL, at float8 NOT NULL);"                                                             \
    "CREATE INDEX IF NOT EXISTS ri_trouble_record ON ri_trouble(record);"                                                        \
    "CREATE TABLE IF NOT EXISTS ri_cursor(name text PRIMARY KEY, at bigint NOT NULL);"                                           \
    "CREATE TABLE IF NOT EXISTS ri_count(name text PRIMARY KEY, n bigint NOT NULL);"                                             \
    "CREATE TABLE IF NOT EXISTS ri_doc" POSTGRES_INDEX ";"                                                                       \
    "CREATE INDEX IF NOT EXISTS ri_doc_found ON ri_doc USING gin(found);"

#define POSTGRES_CATALOGUE                                                                                                       \
    "CREATE TABLE IF NOT EXISTS catalogue(id bigint PRIMARY KEY, title text, body text, fields jsonb);"

#define POSTGRES_TRIGGERS                                                                                                        \
    "CREATE OR REPLACE FUNCTION ri_count_edit(number bigint, is_gone int) RETURNS void LANGUAGE plpgsql AS $$ BEGIN"             \
    " INSERT INTO ri_record(record, version, gone, at) VALUES(number, 1, is_gone, extract(epoch FROM clock_timestamp()))"        \
    " ON CONFLICT(record) DO UPDATE SET version = ri_record.version + 1, gone = excluded.gone, at = excluded.at;"                \
    " INSERT INTO ri_item(record, version, at) SELECT record, version, at FROM ri_record WHERE record = number;"                 \
    " END $$;"                                                                                                                   \
    "CREATE OR REPLACE FUNCTION ri_edited() RETURNS trigger LANGUAGE plpgsql AS $$ BEGIN"                                        \
    " IF TG_OP = 'DELETE' THEN PERFORM ri_count_edit(OLD.%2, 1); RETURN NULL; END IF;"                                           \
    " IF TG_OP = 'UPDATE' AND OLD.%2 <> NEW.%2 THEN PERFORM ri_count_edit(OLD.%2, 1); END IF;"                                   \
    " PERFORM ri_count_edit(NEW.%2, 0); RETURN NULL; END $$;"                                                                    \
    "CREATE OR REPLACE FUNCTION ri_queued() RETURNS trigger LANGUAGE plpgsql AS $$ BEGIN NOTIFY ri_item; RETURN NULL; END $$;"   \
    "DROP TRIGGER IF EXISTS ri_edited ON %1; DROP TRIGGER IF EXISTS ri_queued ON ri_item;"                                       \
    "CREATE TRIGGER ri_edited AFTER INSERT OR UPDATE OR DELETE ON %1 FOR EACH ROW EXECUTE FUNCTION ri_edited();"                 \
    "CREATE TRIGGER ri_queued AFTER INSERT ON ri_item FOR EACH STATEMENT EXECUTE FUNCTION ri_queued();"

#define POSTGRES_LINE " FROM (SELECT CAST($1 AS jsonb) AS j) line"

#define POSTGRES_TEST_LINE                                                                                                       \
    "SELECT CAST(j->>'id' AS bigint), CASE WHEN j->'gone' = CAST('true' AS jsonb) THEN 1 ELSE 0 END" POSTGRES_LINE               \
    " WHERE jsonb_typeof(j) = 'object' AND jsonb_typeof(j->'id') = 'number' AND j->>'id' ~ '^[1-9][0-9]{0,17}$'"

#define POSTGRES_TAKE_LINE                                                                                                       \
    "INSERT INTO catalogue(id, title, body, fields) SELECT CAST(j->>'id' AS bigint), j->>'title', j->>'body',"                   \
    " j - 'id' - 'title' - 'body' - 'gone'" POSTGRES_LINE                                                                        \
    " ON CONFLICT(id) DO UPDATE SET title = excluded.title, body = excluded.body, fields = excluded.fields"

#define POSTGRES_DROP_LINE "DELETE FROM catalogue WHERE id = (SELECT CAST(j->>'id' AS bigint)" POSTGRES_LINE ")"

#define POSTGRES_ANSWER_LINE                                                                                                     \
    "INSERT INTO ri_item(record, version, name, word, text, at) SELECT CAST(j->>'record' AS bigint),"                            \
    " CAST(j->>'version' AS bigint), j->>'name', j->>'word', j->>'text', $2" POSTGRES_LINE                                       \
    " WHERE jsonb_typeof(j->'record') = 'number' AND jsonb_typeof(j->'version') = 'number'"                                      \
    " AND jsonb_typeof(j->'name') = 'string' RETURNING 1"

#define POSTGRES_SEARCH                                                                                                          \
    "SELECT d.record, d.title, ts_headline('simple', coalesce(d.body, ''), q, 'MaxWords=16, MinWords=8, StartSel=' || chr(1) ||" \
    " ', StopSel=' || chr(2)), s.version, s.form, s.first, s.since FROM ri_doc d JOIN ri_shown s ON s.record = d.record,"        \
    " websearch_to_tsquery('simple', $1) q WHERE d.found @@ q ORDER BY ts_rank(d.found, q) DESC, d.record LIMIT $2"

#define POSTGRES_LANE                                                                                                            \
    "SELECT id FROM ri_lane WHERE id IN (SELECT lane FROM (SELECT lane FROM ri_item ORDER BY seq LIMIT 500) oldest)"             \
    " LIMIT 1 FOR UPDATE SKIP LOCKED"

#define POSTGRES_STRAYS "SELECT record FROM ri_doc WHERE record > $1 AND record NOT IN (SELECT record FROM ri_shown) ORDER BY record LIMIT 1"

#define POSTGRES_SECOND "DROP TABLE IF EXISTS ri_doc_new; CREATE TABLE ri_doc_new" POSTGRES_INDEX ";"

#define POSTGRES_SWAP                                                                                                            \
    "DROP TABLE ri_doc; ALTER TABLE ri_doc_new RENAME TO ri_doc; CREATE INDEX ri_doc_found ON ri_doc USING gin(found);"

#endif
