/*
 * Linked around the calls by which the tool changes files (-Wl,--wrap). The environment has the number of a call, MOMENT, and
 * what happens there, FATE: `kill` ends the tool before the call, of a write when half is written; `fail` makes the call fail,
 * where only those are counted that must not fail, with the number WHY for a reason or for want of room; `stop` sends the tool
 * SIGTERM and goes on; `pause` goes on a little later, `meanwhile` when the command MEANWHILE is done. By the FATE `tell` each
 * call is told on standard error, and goes on.
 */
#define _XOPEN_SOURCE 700
#include <errno.h>
#include <fcntl.h>
#include <signal.h>
#include <stdarg.h>
#include <stdio.h>
#include <stdlib.h>
#include <string.h>
#include <sys/stat.h>
#include <time.h>
#include <unistd.h>

enum { PAUSE = 200000000 };

int __real_open(const char *path, int flags, ...);
ssize_t __real_write(int file, const void *bytes, size_t count);
int __real_ftruncate(int file, off_t length);
int __real_fchmod(int file, mode_t mode);
int __real_fsync(int file);
int __real_close(int file);
int __real_rename(const char *from, const char *to);
int __real_unlink(const char *path);
void __real_sync(void);

/* Whether this call fails; matters is 0 for one that may. */
static int fails(const char *call, int matters)
{
    static long made;
    const struct timespec pause = { 0, PAUSE };
    const char *moment = getenv("MOMENT"), *fate = getenv("FATE"), *why = getenv("WHY");

    if (fate != NULL && strcmp(fate, "tell") == 0)
        fprintf(stderr, "%s\n", call);
    if (moment == NULL || fate == NULL || (!matters && strcmp(fate, "fail") == 0) || ++made != atol(moment))
        return 0;
    if (strcmp(fate, "kill") == 0)
        raise(SIGKILL);
    if (strcmp(fate, "stop") == 0)
        raise(SIGTERM);
    if (strcmp(fate, "pause") == 0)
        nanosleep(&pause, NULL);
    if (strcmp(fate, "meanwhile") == 0 && system(getenv("MEANWHILE")) != 0)
        abort();
    errno = why != NULL ? atoi(why) : ENOSPC;
    return strcmp(fate, "fail") == 0;
}

int __wrap_open(const char *path, int flags, ...)
{
    va_list more;
    int mode;

    va_start(more, flags);
    mode = flags & O_CREAT ? va_arg(more, int) : 0;
    va_end(more);
    return fails("open", 1) ? -1 : __real_open(path, flags, mode);
}

ssize_t __wrap_write(int file, const void *bytes, size_t count)
{
    ssize_t half = __real_write(file, bytes, count / 2), rest;

    if (half < 0 || fails("write", 1))
        return -1;
    rest = __real_write(file, (const char *)bytes + half, count - (size_t)half);
    return rest < 0 ? rest : half + rest;
}

int __wrap_ftruncate(int file, off_t length)
{
    return fails("ftruncate", 1) ? -1 : __real_ftruncate(file, length);
}

int __wrap_fchmod(int file, mode_t mode)
{
    return fails("fchmod", 0) ? -1 : __real_fchmod(file, mode);
}

int __wrap_fsync(int file)
{
    struct stat found;
    int folder = fstat(file, &found) == 0 && S_ISDIR(found.st_mode);

    return fails(folder ? "fsync folder" : "fsync", 1) ? -1 : __real_fsync(file);
}

void __wrap_sync(void)
{
    fails("sync", 0);
    __real_sync();
}

int __wrap_close(int file)
{
    return fails("close", 0) ? -1 : __real_close(file);
}

int __wrap_rename(const char *from, const char *to)
{
    return fails("rename", 1) ? -1 : __real_rename(from, to);
}

int __wrap_unlink(const char *path)
{
    return fails("unlink", 1) ? -1 : __real_unlink(path);
}
