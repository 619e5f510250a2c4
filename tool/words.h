/* Processes, calls and variables of a run in words. */
#ifndef TOOL_WORDS_H
#define TOOL_WORDS_H

#include "session.h"

enum { LINE_ROOM = 1024 };

/* A variable by its name: the goal's as it is, a clause's with its number behind `#`, an output's with `^` and its argument. */
void variable_words(const struct session *session, unsigned variable, char *words);

/* The value of a variable: the name of a constant, or that of the unbound variable. */
void value_words(const struct session *session, unsigned variable, char *words);

/* A literal whose variables begin at a number, by value: `q(five,X#12)`. */
void literal_words(const struct session *session, const struct literal *literal, unsigned base, char *words);

/* What a process works at: a call, an equation, a clause, a goal. */
void work_words(const struct session *session, unsigned process, char *words);

/* Its mode, with the result where it reports or has ended. */
void mode_words(const struct session *session, unsigned process, char *words);

/* The goal that a process names, and the literal, NULL where its tag names none. */
const struct goal *goal_of(const struct session *session, unsigned process);
const struct literal *literal_of(const struct session *session, unsigned process);

/* Tags that name a literal: or-par, the searches, try-clause, input-match and equate. */
int names_literal(unsigned tag);

#endif
