/* Paths. realpath is POSIX, not C99. */
#define _XOPEN_SOURCE 700
#include "paths.h"

#include "files.h"
#include "say.h"

#include <inttypes.h>
#include <stdio.h>
#include <stdlib.h>
#include <string.h>
#include <sys/stat.h>

static const char ending[] = ".rissobarm-new";

/* The most bytes of a name that gets the ending: every disk takes both. And the room of a sum in text. */
enum { PLAIN_MOST = 100, SUM_ROOM = 17 };

char *joined(const char *path, const char *end)
{
    char *both = (char *)malloc(strlen(path) + strlen(end) + 1);

    if (both == NULL)
        quit(NO_FILE, "no memory is left");
    strcpy(both, path);
    strcat(both, end);
    return both;
}

const char *name_in(const char *path)
{
    const char *slash = strrchr(path, '/');

    return slash != NULL ? slash + 1 : path;
}

char *folder_of(const char *path)
{
    char *folder = joined(path, ".");

    strcpy(folder + (name_in(path) - path), ".");
    return folder;
}

char *beside_of(const char *target)
{
    const char *name = name_in(target);
    char sum[SUM_ROOM], *folder, *path, *beside;

    if (strlen(name) <= PLAIN_MOST)
        return joined(target, ending);
    snprintf(sum, sizeof sum, "%016" PRIx64, bytes_sum(name, strlen(name)));
    folder = joined(target, "");
    folder[name - target] = '\0';
    path = joined(folder, sum);
    free(folder);
    beside = joined(path, ending);
    free(path);
    return beside;
}

/* Where a path leads, links followed, to a file that is there or that would be made; NULL where there is no folder for it. */
static char *end_of(const char *path)
{
    char *whole = realpath(path, NULL), *folder, *slashed;

    if (whole != NULL)
        return whole;
    folder = folder_of(path);
    whole = realpath(folder, NULL);
    free(folder);
    if (whole == NULL)
        return NULL;
    slashed = joined(whole, "/");
    free(whole);
    whole = joined(slashed, name_in(path));
    free(slashed);
    return whole;
}

/* What is no file that could be renamed is not lost when it is written to. */
int is_same_file(const char *left, const char *right)
{
    struct stat found;
    char *one, *other;
    int same;

    if (strcmp(left, "-") == 0 || strcmp(right, "-") == 0)
        return 0;
    if (strcmp(left, right) == 0)
        return 1;
    if (stat(left, &found) == 0 && !S_ISREG(found.st_mode))
        return 0;
    one = end_of(left);
    other = end_of(right);
    same = one != NULL && other != NULL && strcmp(one, other) == 0;
    free(one);
    free(other);
    return same;
}
