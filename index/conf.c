/* index.conf: a line for each thing. */
#define _POSIX_C_SOURCE 200809L
#include "conf.h"

#include "say.h"

#include <ctype.h>
#include <stdio.h>
#include <stdlib.h>
#include <string.h>

enum { WORDS_MOST = 32, BATCH = 200, BATCH_MOST = 10000, TRIES = 5, TRIES_MOST = 1000 };
#define WITHIN 20.0

/* ---- files ---- */

char *file_text(const char *path, size_t *length)
{
    FILE *file = fopen(path, "rb");
    struct text text = { 0 };
    char part[65536];
    size_t count;

    if (file == NULL)
        quit(NO_FILE, "%s: cannot be read", path);
    text_word(&text, "");
    while ((count = fread(part, 1, sizeof part, file)) > 0)
        text_bytes(&text, part, count);
    if (ferror(file))
        quit(NO_FILE, "%s: cannot be read", path);
    fclose(file);
    if (length != NULL)
        *length = text.length;
    return text.at;
}

static char *folder_of(const char *path)
{
    char *folder = copy_of(path), *slash = strrchr(folder, '/');

    if (slash == NULL)
        folder[0] = 0;
    else
        slash[1] = 0;
    return folder;
}

/* A file that the conf names stands beside it. */
static char *beside(const struct conf *conf, const char *name)
{
    struct text text = { 0 };

    if (name[0] != '/')
        text_word(&text, conf->folder);
    text_word(&text, name);
    return text.at;
}

/* ---- words ---- */

/* What is wrong with a line ends the program. */
static void wrong(const struct conf *conf, unsigned line, const char *what, const char *word)
{
    quit(PLAN_REFUSED, "%s: line %u: %s%s%s", conf->path, line, what, word[0] != 0 ? ": " : "", word);
}

/* Takes the next word off a line; "" at its end. */
static char *next_word(char **rest)
{
    char *word = *rest + strspn(*rest, " \t");
    size_t length = strcspn(word, " \t");

    *rest = word + length;
    if (**rest != 0)
        *(*rest)++ = 0;
    return word;
}

/* A number up to a million, or -1. */
static long whole_number(const char *word)
{
    char *end;
    long number = strtol(word, &end, 10);

    return end != word && *end == 0 && number >= 0 && number <= 1000000 ? number : -1;
}

double seconds_from(const char *word)
{
    static const char units[] = "smhd";
    static const double each[] = { 1, 60, 3600, 86400 };
    char *end;
    double number = strtod(word, &end);
    const char *unit = *end != 0 ? strchr(units, *end) : NULL;

    if (end == word || number < 0 || number > 1e9 || unit == NULL || end[1] != 0)
        return -1;
    return number * each[unit - units];
}

/* ---- SQL ---- */

/* Whether a name such as :record stands here, and not a cast or a longer name. */
static int stands(const char *sql, const char *at, const char *name)
{
    size_t length = strlen(name);

    return strncmp(at, name, length) == 0 && !isalnum((unsigned char)at[length]) && at[length] != '_' &&
           (at == sql || at[-1] != ':');
}

static int names_one(const char *sql, const char *name)
{
    const char *at = sql;

    while ((at = strstr(at, name)) != NULL && !stands(sql, at, name))
        at++;
    return at != NULL;
}

static struct house_sql sql_from(const char *sql)
{
    struct house_sql made = { 0 };
    struct text text = { 0 };
    int record = names_one(sql, ":record"), version = names_one(sql, ":version");
    const char *at;

    for (at = sql; *at != 0; at++)
        if (stands(sql, at, ":record")) {
            text_word(&text, "$1");
            at += strlen(":record") - 1;
        } else if (stands(sql, at, ":version")) {
            text_word(&text, record ? "$2" : "$1");
            at += strlen(":version") - 1;
        } else
            text_bytes(&text, at, 1);
    made.sql = text.at;
    made.types = record && version ? "ii" : record || version ? "i" : "";
    made.version_first = !record;
    return made;
}

/* A statement that reads; anything else is refused. */
static struct house_sql take_sql(const struct conf *conf, unsigned line, char *rest)
{
    rest += strspn(rest, " \t");
    if (strncmp(rest, "SELECT ", 7) != 0 && strncmp(rest, "WITH ", 5) != 0)
        wrong(conf, line, "a SELECT or WITH must stand here", rest);
    return sql_from(rest);
}

/* ---- actions ---- */

/* after TIME NAME = WORD */
static void take_clock(const struct conf *conf, struct action *action, char **rest)
{
    char *time = next_word(rest);
    char *name = next_word(rest), *is = next_word(rest), *word = next_word(rest);

    action->after = seconds_from(time);
    if (action->after <= 0)
        wrong(conf, action->line, "after which time? A number with s, m, h or d", time);
    if (strcmp(is, "=") != 0 || word[0] == 0)
        wrong(conf, action->line, "a clock is `after TIME NAME = WORD`", name);
    action->late_name = copy_of(name);
    action->late_word = copy_of(word);
}

static void take_program(const struct conf *conf, struct action *action, char *rest)
{
    rest += strspn(rest, " \t");
    if (rest[0] == 0)
        wrong(conf, action->line, "a program must stand after the colon", "");
    action->program = copy_of(rest);
}

/* One word of an ask or a call, with what belongs to it; whether the line goes on. */
static int take_term(const struct conf *conf, struct action *action, char **rest)
{
    char *word = next_word(rest);

    if (word[0] == 0)
        return 0;
    if (strcmp(word, "after") == 0)
        take_clock(conf, action, rest);
    else if (strcmp(word, "within") == 0 && action->kind == ACTION_CALL)
        action->within = seconds_from(next_word(rest));
    else if (strcmp(word, "tries") == 0 && action->kind == ACTION_CALL)
        action->tries = (int)whole_number(next_word(rest));
    else if (strcmp(word, ":") == 0 && action->kind == ACTION_CALL) {
        take_program(conf, action, *rest);
        return 0;
    } else if (!isupper((unsigned char)word[0]))
        wrong(conf, action->line, "this is no goal variable", word);
    else if (action->answer_count == ANSWERS_MOST)
        wrong(conf, action->line, "too many answers", word);
    else
        action->answers[action->answer_count++] = copy_of(word);
    return 1;
}

static void take_answers(const struct conf *conf, struct action *action, char *rest)
{
    action->within = WITHIN;
    action->tries = TRIES;
    while (take_term(conf, action, &rest))
        ;
    if (action->answer_count == 0)
        wrong(conf, action->line, "which goal variables does it answer?", action->name);
    if (action->kind == ACTION_CALL && action->program == NULL)
        wrong(conf, action->line, "which program? `: PROGRAM` stands last", action->name);
    if (action->within <= 0 || action->tries < 1 || action->tries > TRIES_MOST)
        wrong(conf, action->line, "within is a time, and tries a number from 1 to 1000", action->name);
}

static void take_action(struct conf *conf, unsigned line, const char *name, char *rest)
{
    struct action *action = &conf->actions[conf->action_count];
    char *kind = next_word(&rest);

    if (conf->action_count == ACTIONS_MOST)
        wrong(conf, line, "a goal has at most 16 variables, so this is too much", name);
    if (conf_action(conf, name) != NULL)
        wrong(conf, line, "the action stands here twice", name);
    action->line = line;
    action->name = copy_of(name);
    conf->action_count++;
    if (strcmp(kind, "read") == 0) {
        action->kind = ACTION_READ;
        action->read = take_sql(conf, line, rest);
    } else if (strcmp(kind, "write") == 0)
        action->kind = ACTION_WRITE;
    else if (strcmp(kind, "ask") == 0 || strcmp(kind, "call") == 0) {
        action->kind = kind[0] == 'a' ? ACTION_ASK : ACTION_CALL;
        take_answers(conf, action, rest);
    } else
        wrong(conf, line, "an action is read, write, ask or call", kind);
}

/* ---- the other lines ---- */

static void take_form(struct conf *conf, unsigned line, char *rest)
{
    struct form *form = &conf->forms[conf->form_count];
    char *word = next_word(&rest), *part;

    if (conf->form_count == FORMS_MOST)
        wrong(conf, line, "too many forms", word);
    if (conf_form(conf, word) != NULL)
        wrong(conf, line, "the form stands here twice", word);
    form->line = line;
    form->word = copy_of(word);
    while ((part = next_word(&rest))[0] != 0) {
        if (form->part_count == PARTS_MOST)
            wrong(conf, line, "too many parts", part);
        form->parts[form->part_count++] = copy_of(part);
    }
    if (form->part_count == 0)
        wrong(conf, line, "a form is `form WORD nothing` or `form WORD PART..`", word);
    if (form->part_count == 1 && strcmp(form->parts[0], "nothing") == 0)
        form->part_count = 0;
    conf->form_count++;
}

static void take_store(struct conf *conf, unsigned line, char *rest)
{
    rest += strspn(rest, " \t");
    conf->store = copy_of(rest);
    if (strncmp(rest, "sqlite:", 7) == 0)
        conf->database = beside(conf, rest + 7);
    else if (strncmp(rest, "postgresql:", 11) == 0) {
        conf->postgres = 1;
        conf->database = copy_of(rest + 11);
    } else
        wrong(conf, line, "a store is sqlite:FILE or postgresql:WORDS", rest);
}

static int is_name(const char *word)
{
    return word[0] != 0 && strspn(word, "abcdefghijklmnopqrstuvwxyzABCDEFGHIJKLMNOPQRSTUVWXYZ0123456789_.") == strlen(word);
}

static void take_catalogue(struct conf *conf, unsigned line, char *rest)
{
    char *table = next_word(&rest), *key = next_word(&rest);

    if (!is_name(table) || !is_name(key))
        wrong(conf, line, "a table and its key must stand here, plain names both", table);
    conf->table = copy_of(table);
    conf->key = copy_of(key);
}

static void take_batch(struct conf *conf, unsigned line, char *rest)
{
    char *word = next_word(&rest);
    long number = whole_number(word);

    if (number < 1 || number > BATCH_MOST)
        wrong(conf, line, "a batch has 1 to 10000 items", word);
    conf->batch = (unsigned)number;
}

static void take_synchronous(struct conf *conf, unsigned line, char *rest)
{
    char *word = next_word(&rest);

    if (strcmp(word, "full") != 0 && strcmp(word, "normal") != 0)
        wrong(conf, line, "synchronous is full or normal", word);
    conf->normal = strcmp(word, "normal") == 0;
}

static void take_line(struct conf *conf, unsigned line, char *rest)
{
    char *word = next_word(&rest);

    if (strcmp(word, "plan") == 0)
        conf->plan = beside(conf, next_word(&rest));
    else if (strcmp(word, "store") == 0)
        take_store(conf, line, rest);
    else if (strcmp(word, "catalogue") == 0)
        take_catalogue(conf, line, rest);
    else if (strcmp(word, "text") == 0)
        conf->text = take_sql(conf, line, rest);
    else if (strcmp(word, "batch") == 0)
        take_batch(conf, line, rest);
    else if (strcmp(word, "synchronous") == 0)
        take_synchronous(conf, line, rest);
    else if (strcmp(word, "form") == 0)
        take_form(conf, line, rest);
    else if (isupper((unsigned char)word[0]))
        take_action(conf, line, word, rest);
    else
        wrong(conf, line, "no line begins so", word);
}

/* ---- the file ---- */

/* The next line with those that go on with it, by a blank in front; NULL at the end. */
static char *whole_line(char **rest, unsigned *line)
{
    char *begin = *rest, *end;

    if (*begin == 0)
        return NULL;
    for (end = begin;; end++) {
        if (*end == 0 || (*end == '\n' && end[1] != ' ' && end[1] != '\t'))
            break;
        if (*end == '\n') {
            *end = ' ';
            ++*line;
        }
    }
    ++*line;
    *rest = *end != 0 ? end + 1 : end;
    *end = 0;
    while (end > begin && isspace((unsigned char)end[-1]))
        *--end = 0;
    return begin;
}

static void demand(const struct conf *conf, const void *what, const char *line)
{
    if (what == NULL)
        quit(PLAN_REFUSED, "%s: there is no line `%s`", conf->path, line);
}

struct conf *conf_read(const char *path)
{
    struct conf *conf = room_for(sizeof *conf);
    char *text = file_text(path, NULL), *rest = text, *line;
    unsigned number = 0, first;

    conf->path = copy_of(path);
    conf->folder = folder_of(path);
    conf->batch = BATCH;
    for (first = number; (line = whole_line(&rest, &number)) != NULL; first = number)
        if (line[0] != 0 && line[0] != '#')
            take_line(conf, first + 1, line);
    free(text);
    demand(conf, conf->plan, "plan FILE");
    demand(conf, conf->store, "store sqlite:FILE");
    demand(conf, conf->table, "catalogue TABLE KEY");
    demand(conf, conf->text.sql, "text SELECT ..");
    return conf;
}

static void free_action(struct action *action)
{
    unsigned k;

    for (k = 0; k < action->answer_count; k++)
        free(action->answers[k]);
    free(action->name);
    free(action->read.sql);
    free(action->late_name);
    free(action->late_word);
    free(action->program);
}

void conf_free(struct conf *conf)
{
    unsigned k, part;

    for (k = 0; k < conf->action_count; k++)
        free_action(&conf->actions[k]);
    for (k = 0; k < conf->form_count; k++) {
        for (part = 0; part < PARTS_MOST; part++)
            free(conf->forms[k].parts[part]);
        free(conf->forms[k].word);
    }
    free(conf->path);
    free(conf->folder);
    free(conf->plan);
    free(conf->store);
    free(conf->database);
    free(conf->table);
    free(conf->key);
    free(conf->text.sql);
    free(conf);
}

const struct action *conf_action(const struct conf *conf, const char *name)
{
    unsigned k;

    for (k = 0; k < conf->action_count; k++)
        if (strcmp(conf->actions[k].name, name) == 0)
            return &conf->actions[k];
    return NULL;
}

const struct form *conf_form(const struct conf *conf, const char *word)
{
    unsigned k;

    for (k = 0; k < conf->form_count; k++)
        if (strcmp(conf->forms[k].word, word) == 0)
            return &conf->forms[k];
    return NULL;
}
