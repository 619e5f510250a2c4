/*
 * The database behind a dozen functions: SQLite and PostgreSQL have each a struct store_kind of them, and everything else is
 * written once, in SQL that both take, with $1, $2 for what is lent.
 *
 * An error stays: after one, every call does nothing and finds no row, until the transaction or the savepoint is undone. So
 * errors are looked at where something is committed, and nowhere else.
 */
#ifndef INDEX_STORE_H
#define INDEX_STORE_H

#include <stddef.h>
#include <stdint.h>

struct conf;

enum { VALUES_MOST = 12, WHY_ROOM = 400 };

/* What an error means: the statement is no good, or the database cannot go on (locked, full, away). */
enum { STATEMENT_WRONG = 1, DATABASE_LOST = 2 };

/* A value that is lent to a statement. */
struct value {
    char type; /* i integer, d real, null if it is no number, t text or null, b bytes */
    int64_t integer;
    double real;
    const char *bytes;
    size_t length;
};

struct store;

/* What a statement finds; it lives until its last row was read, or rows_end. */
struct rows;

/* What one item of the queue is. */
struct item {
    int64_t seq, record, version;
    char *name; /* NULL of an edit */
    char *word, *text;
    double at;
};

struct store_kind {
    int (*open)(struct store *store, const struct conf *conf, int readonly);
    void (*close)(struct store *store);
    int (*run)(struct store *store, const char *sql); /* a statement, or several, without values */
    struct rows *(*ask)(struct store *store, const char *sql, const struct value *values, unsigned count);
    int (*next)(struct rows *rows);
    void (*end)(struct rows *rows);
    unsigned (*columns)(struct rows *rows);
    const char *(*column)(struct rows *rows, unsigned column);
    int64_t (*integer)(struct rows *rows, unsigned column);
    double (*real)(struct rows *rows, unsigned column);
    const char *(*word)(struct rows *rows, unsigned column); /* NULL for null */
    const void *(*bytes)(struct rows *rows, unsigned column, size_t *length);
    void (*wait)(struct store *store, double seconds); /* until something is queued, at most so long */
    const char *begin;     /* the statement that begins a transaction which writes */
    const char *schema;    /* the tables, in two parts */
    const char *more_schema;
    const char *triggers;  /* those of the catalogue's table; %1 is the table, %2 its key */
    const char *catalogue; /* the table `catalogue` */
    const char *take_line; /* a line of JSON into it: $1 the line */
    const char *drop_line; /* a line of a record that is gone: $1 the line */
    const char *test_line; /* id and gone of a line: $1; no row if it is no object with an id */
    const char *answer_line; /* an answer of a line of JSON into the queue: $1 the line, $2 the time; a row if it is one */
    const char *put;       /* into the index: record, title, body, folded */
    const char *drop;      /* out of it: record */
    const char *search;    /* $1 what is searched for, $2 how many: record, title, snippet, version, form, first, since */
    const char *document;  /* title, body and folded words in the index: $1 the record */
    const char *strays;    /* the first record after $1 that is in the index and ought not to be */
    const char *newest;    /* the version of a record, held until the transaction ends */
    const char *lock;      /* keeps every worker out until the transaction ends; NULL if a transaction does that by itself */
    const char *lane;      /* claims a lane, or NULL if there is one worker alone */
    const char *items;     /* $1 how many, $2 the lane */
    const char *second;    /* makes the index a second time, as ri_doc_new */
    const char *put_second, *drop_second;
    const char *copy_second; /* a record's document as it stands: $1 */
    const char *swap;      /* puts it into the first one's place */
    const char *probes;    /* a statement that looks through the database itself: a row `ok`, or what is wrong */
    int folds_all;         /* whether accents are folded by the job, too */
};

extern const struct store_kind sqlite_store, postgres_store;

struct store {
    const struct store_kind *kind;
    void *handle;
    void *cache; /* statements */
    int busy;   /* whether the error was that another worker, or an editor, holds what is wanted */
    int failed; /* STATEMENT_WRONG or DATABASE_LOST after an error */
    char why[WHY_ROOM];
};

/* Opens the database that index.conf names; ends the program if that cannot be. */
struct store *store_open(const struct conf *conf, int readonly);
/* The same, but answers NULL, with the reason. */
struct store *store_try(const struct conf *conf, int readonly, char *why);
void store_close(struct store *store);

/* Notes an error. */
void store_fail(struct store *store, int severity, const char *why);

/* A transaction: begun, and ended by a commit that answers whether all went well; if not, all is undone. */
int store_begin(struct store *store);
int store_commit(struct store *store);
void store_undo(struct store *store);

/* A transaction during which no worker does anything. */
int store_begin_alone(struct store *store);

/* Inside it a part with a name: it is kept, or, after an error, undone by itself; then the answer is 0, and the reason told. */
void store_mark(struct store *store, const char *name);
int store_unmark(struct store *store, const char *name, char *why);

/* A statement with values, told by letters: i int64_t, d double, t const char *, b const void * and size_t. */
struct rows *store_ask(struct store *store, const char *sql, const char *types, ...);
void store_do(struct store *store, const char *sql, const char *types, ...);
/* The first column of its first row; the last of these if there is no row. */
int64_t store_integer(struct store *store, int64_t none, const char *sql, const char *types, ...);
char *store_word(struct store *store, const char *sql, const char *types, ...);

int rows_next(struct store *store, struct rows *rows);
void rows_end(struct store *store, struct rows *rows);

#endif
