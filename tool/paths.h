/* Paths: their parts, and where they lead. */
#ifndef TOOL_PATHS_H
#define TOOL_PATHS_H

/* A path and what stands behind it; to be freed. */
char *joined(const char *path, const char *end);

/* The last part of a path. */
const char *name_in(const char *path);

/* The folder of a path, by a name that leads to folders alone; to be freed. */
char *folder_of(const char *path);

/*
 * The path of the file beside a place: its name and an ending. A long name gives way to its sum, so that no disk has to take a
 * longer one; two names with one sum would have their tools wait for each other, and no more. To be freed.
 */
char *beside_of(const char *target);

/* Whether two paths lead to one file, links followed; "-" leads to none. */
int is_same_file(const char *left, const char *right);

#endif
