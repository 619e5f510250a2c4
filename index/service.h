/* What every command works with: the file, the plan in use, its moves, the database. */
#ifndef INDEX_SERVICE_H
#define INDEX_SERVICE_H

#include "conf.h"
#include "moves.h"
#include "plan.h"
#include "store.h"

/* What was done since the last batch, for `status`. */
struct counts {
    int64_t edits, answers; /* items that were done */
    int64_t late;           /* of a version that was not the record's any more */
    int64_t dropped;        /* answers that nobody waited for */
    int64_t placed;
};

struct service {
    struct conf *conf;
    struct plan *plan;
    struct moves *moves;
    struct store *store;
    struct counts counts;
};

/* Reads index.conf, opens the database and takes the plan in use from it; ends the program if that cannot be. */
void service_open(struct service *service, const char *conf_path, int readonly);
void service_close(struct service *service);

/* Takes the plan that is in use now, if it is another one than before, and index.conf with it. Answers 0 after an error. */
int service_refresh(struct service *service);

/* Puts another plan into use. */
void service_use(struct service *service, struct plan *plan);

/* The plan that was put into the database last; NULL with the reason if there is none. */
struct plan *plan_in_use(struct store *store, char *why);

/* The plan of the file that index.conf names; ends the program if it is refused. */
struct plan *plan_of_file(const char *path);

/* Looks up the columns of each read, which are its answers. Answers 0 and the reason if a statement is no good. */
int service_learn(struct conf *conf, struct store *store, char *why);

/* A statement of the house for a record and a version. */
struct rows *house_ask(struct store *store, const struct house_sql *house, int64_t record, int64_t version);

#endif
