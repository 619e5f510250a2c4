/* index.conf: what the requests of a plan mean, and where everything is. */
#ifndef INDEX_CONF_H
#define INDEX_CONF_H

#include <stddef.h>

enum { ACTIONS_MOST = 16, ANSWERS_MOST = 8, FORMS_MOST = 64, PARTS_MOST = 8 };

enum action_kind { ACTION_READ, ACTION_WRITE, ACTION_ASK, ACTION_CALL };

/* SQL of the file, with :record and :version made into $1 and $2. */
struct house_sql {
    char *sql;
    const char *types; /* what is lent: "", "i" or "ii" */
    int version_first; /* whether the only number lent is the version */
};

struct action {
    unsigned line;
    char *name;
    enum action_kind kind;
    struct house_sql read;
    char *answers[ANSWERS_MOST]; /* goal variables; of a read they are the columns */
    unsigned answer_count;
    double after; /* seconds until the clock runs out; 0 for none */
    char *late_name, *late_word;
    double within; /* seconds that a program has */
    int tries;
    char *program;
};

struct form {
    unsigned line;
    char *word;
    unsigned part_count; /* 0 for nothing */
    char *parts[PARTS_MOST];
};

struct conf {
    char *path;
    char *folder; /* where the file is, with a slash, or "" */
    char *plan;
    char *store;    /* as the file says it */
    char *database; /* a file, or the words of libpq */
    int postgres;
    int normal; /* synchronous normal */
    char *table, *key;
    struct house_sql text;
    unsigned batch;
    struct action actions[ACTIONS_MOST];
    unsigned action_count;
    struct form forms[FORMS_MOST];
    unsigned form_count;
};

/* Reads the file, or ends the program. */
struct conf *conf_read(const char *path);
void conf_free(struct conf *conf);

/* The action or form of a name, or NULL. */
const struct action *conf_action(const struct conf *conf, const char *name);
const struct form *conf_form(const struct conf *conf, const char *word);

/* A whole file; ends the program if it cannot be read. */
char *file_text(const char *path, size_t *length);

/* Seconds of a time such as 30d; below 0 if it is none. */
double seconds_from(const char *word);

#endif
