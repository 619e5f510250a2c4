/* Placing. */
#include "place.h"

#include "fold.h"
#include "say.h"

#include <stdlib.h>
#include <string.h>
#include <strings.h>

/* ---- documents ---- */

static void add_part(struct document *document, unsigned number, const char *words)
{
    struct text *into = number == 0 ? &document->title : &document->body;

    if (number > 1)
        text_word(into, "\n");
    text_word(into, words != NULL ? words : "");
}

/* The column of the text's row that has a name, or -1. */
static int column_of(struct store *store, struct rows *rows, const char *name)
{
    unsigned count = store->kind->columns(rows), k;

    for (k = 0; k < count; k++)
        if (strcasecmp(store->kind->column(rows, k), name) == 0)
            return (int)k;
    return -1;
}

void document_make(struct service *service, const struct form *form, int64_t record, int64_t version, struct document *document)
{
    struct store *store = service->store;
    struct rows *rows = house_ask(store, &service->conf->text, record, version);
    int found = rows_next(store, rows);
    unsigned k;

    memset(document, 0, sizeof *document);
    for (k = 0; k < form->part_count; k++) {
        int column = found ? column_of(store, rows, form->parts[k]) : -1;

        if (column >= 0)
            add_part(document, k, store->kind->word(rows, (unsigned)column));
        else {
            char *words = store_word(store, "SELECT body FROM ri_text WHERE record = $1 AND version = $2 AND name = $3", "iit", record,
                                     version, form->parts[k]);

            add_part(document, k, words);
            free(words);
        }
    }
    if (found)
        rows_end(store, rows);
    fold_words(&document->folded, text_of(&document->title), store->kind->folds_all);
    fold_words(&document->folded, text_of(&document->body), store->kind->folds_all);
}

void document_free(struct document *document)
{
    text_free(&document->title);
    text_free(&document->body);
    text_free(&document->folded);
}

/* ---- placing ---- */

static void note_shown(struct store *store, const struct placing *placing)
{
    double time = now();

    store_do(store,
             "INSERT INTO ri_shown(record, version, form, edited, first, cause, since, move) VALUES($1, $2, $3, $4, $5, $6, $7, $8)"
             " ON CONFLICT(record) DO UPDATE SET first = CASE WHEN ri_shown.version = excluded.version THEN ri_shown.first"
             " ELSE excluded.first END, version = excluded.version, form = excluded.form, edited = excluded.edited,"
             " cause = excluded.cause, since = excluded.since, move = excluded.move",
             "iitddddi", placing->record, placing->version, placing->word, placing->edited, time, placing->cause, time, placing->move);
}

int place(struct service *service, const struct placing *placing)
{
    const struct form *form = conf_form(service->conf, placing->word);
    struct store *store = service->store;
    struct document document;

    if (form == NULL)
        return 0;
    store_do(store, store->kind->drop, "i", placing->record);
    if (form->part_count > 0) {
        document_make(service, form, placing->record, placing->version, &document);
        store_do(store, store->kind->put, "ittt", placing->record, text_of(&document.title), text_of(&document.body),
                 text_of(&document.folded));
        document_free(&document);
    }
    note_shown(store, placing);
    service->counts.placed++;
    return 1;
}
