/* Files written whole: beside their places, then renamed. */
#ifndef TOOL_OUTPUTS_H
#define TOOL_OUTPUTS_H

#include "files.h"

/* A file to be written; path NULL for none, "-" for standard output. */
struct output {
    const char *path;
    const struct bytes *bytes;
};

enum { OUTPUTS_MOST = 2 };

/*
 * Ends the tool where a file could not be written now, as far as that can be seen without making one: before anything is read
 * or run that would be lost. NULL is none.
 */
void output_test(const char *path);

/*
 * Writes all files of a command. The bytes of each go into a file beside its place, and when all are on the disk each is
 * renamed, in this order: whatever happens, a path leads to the old bytes or to the new ones, whole, and a disk that is full
 * leaves every old file. Behind each rename the folder is synced, so that a power cut keeps this order, too. What is no file
 * that could be renamed, a device or a pipe, is written as it stands, before the others. Ends the tool where something cannot
 * be done.
 */
void outputs_write(const struct output *outputs, unsigned count);

#endif
