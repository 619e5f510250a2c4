/* Files written whole. open, fcntl, fsync, sync, realpath, sigprocmask and sigsetjmp are POSIX, not C99. */
#define _XOPEN_SOURCE 700
#include "outputs.h"

#include "paths.h"
#include "say.h"
#include "stops.h"

#include <errno.h>
#include <fcntl.h>
#include <setjmp.h>
#include <signal.h>
#include <stdio.h>
#include <stdlib.h>
#include <string.h>
#include <sys/stat.h>
#include <unistd.h>

enum { NEW_MODE = 0666, MODE_BITS = 0777, TRIES_MOST = 1000 };

/* A file on its way: where it goes, links followed, and the file beside that place. */
struct place {
    const char *path; /* as the command has it */
    char *target;
    char *beside;
    int file; /* the file beside; -1 where there is none to be taken away */
    int folder; /* its folder; -1 where that may not be read */
    int stood; /* whether there is an old one */
    int shut; /* whether who owns it may not write to it, which it becomes in its place */
    mode_t mode;
};

static struct place places[OUTPUTS_MOST];
static unsigned place_count;

static void take_away(void)
{
    unsigned k;

    for (k = 0; k < place_count; k++)
        if (places[k].file >= 0)
            unlink(places[k].beside);
}

/* Takes the files beside away again and tells why there is no new one. */
static void give_up(const char *path)
{
    int why = errno;

    take_away();
    quit(NO_FILE, "%s: not written: %s", path, strerror(why));
}

static int write_all(int file, const struct bytes *bytes)
{
    size_t done = 0;
    ssize_t some;

    while (done < bytes->length) {
        some = write(file, bytes->at + done, bytes->length - done);
        if (some < 0 && errno != EINTR)
            return 0;
        done += some > 0 ? (size_t)some : 0;
    }
    return 1;
}

/* ---- what cannot be renamed ---- */

/* Whether a path leads to standard output, a device or a pipe: a file beside it would take its place. */
static int stays_in_place(const char *path)
{
    struct stat found;

    return strcmp(path, "-") == 0 || (stat(path, &found) == 0 && !S_ISREG(found.st_mode) && !S_ISDIR(found.st_mode));
}

static void write_in_place(const struct output *output)
{
    int file;

    if (strcmp(output->path, "-") == 0) {
        fwrite(output->bytes->at, 1, output->bytes->length, stdout);
        if (finish(DONE) != DONE)
            exit(NO_FILE);
        return;
    }
    file = open(output->path, O_WRONLY);
    if (file < 0 || !write_all(file, output->bytes) || close(file) != 0)
        give_up(output->path);
}

/* ---- beside, and in its place ---- */

/* A stop from outside waits until the files are in their places, so that none is left beside. */
static void hold_stops(int how)
{
    sigset_t stops;
    unsigned k;

    sigemptyset(&stops);
    for (k = 0; k < STOPS; k++)
        sigaddset(&stops, stop_signals[k]);
    sigprocmask(how, &stops, NULL);
}

static sigjmp_buf before_wait;

static void end_wait(int number)
{
    (void)number;
    siglongjmp(before_wait, 1);
}

/* A lock that another tool has: here alone a stop is let through, and it leaves the old files. What fcntl says otherwise. */
static int wait_for(int file, struct flock *whole)
{
    static struct sigaction heard[STOPS];
    int done, why;

    if (sigsetjmp(before_wait, 1) != 0) {
        take_away();
        quit(NO_FILE, "%s: not written: stopped while another tool writes it", places[place_count - 1].path);
    }
    stops_hear(end_wait, 0, heard);
    hold_stops(SIG_UNBLOCK);
    done = fcntl(file, F_SETLKW, whole);
    why = errno;
    hold_stops(SIG_BLOCK);
    stops_restore(heard);
    errno = why;
    return done;
}

/*
 * Waits until no other tool holds a file. 0 where that would be for ever, since each of two has what the other wants. Where the
 * disk has no locks, nothing is held.
 */
static int lock(int file)
{
    struct flock whole;
    int done;

    memset(&whole, 0, sizeof whole);
    whole.l_type = F_WRLCK;
    whole.l_whence = SEEK_SET;
    done = fcntl(file, F_SETLK, &whole);
    if (done != 0 && (errno == EAGAIN || errno == EACCES))
        do
            done = wait_for(file, &whole);
        while (done != 0 && errno == EINTR);
    return done == 0 || errno != EDEADLK;
}

static const char second_name[] = "has a second name";

/* Why what stands beside is not used, in words; NULL where it can be what a tool of this user has left or is writing. */
static const char *fault_of(const struct stat *found)
{
    if (!S_ISREG(found->st_mode))
        return "is no plain file";
    if (found->st_uid != geteuid())
        return "belongs to another user";
    return found->st_nlink > 1 ? second_name : NULL;
}

/* Ends the tool where what stands beside has a fault, and leaves that alone. */
static void refuse_beside(const struct place *place, const char *fault)
{
    if (fault == NULL)
        return;
    take_away();
    quit(NO_FILE, "%s: not written: %s beside it %s", place->path, name_in(place->beside), fault);
}

/*
 * Opens what stands beside already. It is looked at before, since an open may wait or do something, and behind, since it may
 * be another by then; nothing is done to it in between. -1 where it cannot be opened, with EAGAIN where it is gone.
 */
static int open_left(const struct place *place)
{
    struct stat found;
    int file;

    if (lstat(place->beside, &found) == 0) {
        refuse_beside(place, fault_of(&found));
        file = open(place->beside, O_RDWR | O_NOFOLLOW | O_NONBLOCK);
        if (file >= 0 && fstat(file, &found) == 0) {
            refuse_beside(place, fault_of(&found));
            return file;
        }
    }
    if (errno == ENOENT)
        errno = EAGAIN;
    return -1;
}

/*
 * Opens the file beside and holds it, so that of two tools one waits for the other. What a tool that was killed left there is
 * used again. The one that was held may have been renamed meanwhile: then there is another by that name, or none.
 */
static int hold(const struct place *place)
{
    struct stat held, named;
    int file, tries;

    for (tries = 0; tries < TRIES_MOST; tries++) {
        file = open(place->beside, O_RDWR | O_CREAT | O_EXCL | O_NOFOLLOW, place->mode);
        if (file < 0 && errno == EEXIST)
            file = open_left(place);
        if (file < 0 && errno == EAGAIN)
            continue;
        if (file < 0 || !lock(file) || fstat(file, &held) != 0)
            return -1;
        if (lstat(place->beside, &named) == 0 && held.st_dev == named.st_dev && held.st_ino == named.st_ino) {
            refuse_beside(place, held.st_nlink > 1 ? second_name : NULL);
            return file;
        }
        close(file);
    }
    errno = EBUSY;
    return -1;
}

/* Ends the tool where two files have one place, by whatever names. */
static void refuse_twice(const struct place *place)
{
    const struct place *other;
    struct stat mine, theirs;

    for (other = places; other < place; other++)
        if (fstat(place->file, &mine) == 0 && fstat(other->file, &theirs) == 0 && mine.st_dev == theirs.st_dev &&
            mine.st_ino == theirs.st_ino) {
            unlink(place->beside);
            quit(USAGE, "%s: not written: %s leads to the same file", place->path, other->path);
        }
}

/* Why there can be no file by that path, by a number of errno; 0 where there can. A link that leads nowhere can be replaced. */
static int hindrance(const char *path)
{
    struct stat found;

    if (path[0] == '\0')
        return ENOENT;
    if (lstat(path, &found) != 0)
        return errno == ENAMETOOLONG ? errno : 0;
    return stat(path, &found) == 0 && S_ISDIR(found.st_mode) ? EISDIR : 0;
}

/* Fills a place in, all but its file. 0 where there is none for a file; errno tells. */
static int find_place(struct place *place, const char *path)
{
    struct stat old;
    int stood = stat(path, &old) == 0;

    place->path = path;
    place->file = -1;
    place->stood = stood;
    place->shut = stood && !(old.st_mode & S_IWUSR);
    place->mode = stood ? (old.st_mode & MODE_BITS) | S_IWUSR : (mode_t)NEW_MODE;
    errno = hindrance(path);
    if (errno != 0)
        return 0;
    place->target = stood ? realpath(path, NULL) : joined(path, "");
    place->beside = place->target != NULL ? beside_of(place->target) : NULL;
    return place->target != NULL;
}

/* Opens the folder of a place, while every file is still the old one. 0 where it cannot be; errno tells. */
static int open_folder(struct place *place)
{
    char *folder = folder_of(place->target);
    int why;

    place->folder = open(folder, O_RDONLY | O_DIRECTORY);
    why = errno;
    free(folder);
    errno = why;
    return place->folder >= 0 || errno == EACCES;
}

/* The mode of a new file. */
static mode_t new_mode(void)
{
    mode_t mask = umask(0);

    umask(mask);
    return NEW_MODE & ~mask;
}

/* All bytes of a file beside its place and on the disk; a file that stood there keeps its mode. */
static void write_beside(const struct output *output)
{
    struct place *place = &places[place_count++];

    if (!find_place(place, output->path) || !open_folder(place))
        give_up(output->path);
    place->file = hold(place);
    if (place->file < 0)
        give_up(place->path);
    refuse_twice(place);
    /* before the bytes: what was left beside may be open to more readers than the file that stood there, or than a new one */
    fchmod(place->file, place->stood ? place->mode : new_mode());
    if (ftruncate(place->file, 0) != 0 || !write_all(place->file, output->bytes) || fsync(place->file) != 0)
        give_up(place->path);
}

/* Has the new name of a file on the disk. 0 where that is not sure; errno tells. Not every disk syncs folders. */
static int sync_folder(const struct place *place)
{
    if (place->folder < 0) {
        sync();
        return 1;
    }
    return fsync(place->folder) == 0 || errno == EINVAL || errno == ENOTSUP;
}

/* Ends the tool where a new name may be lost. What comes behind is not renamed: it might be on the disk without this one. */
static void leave_unsure(const struct place *place)
{
    const char *why = strerror(errno), *rest = place + 1 < places + place_count ? place[1].path : NULL;

    take_away();
    quit(NO_FILE, "%.900s: in its place, but a power cut may undo that: %s%s%.900s", place->path, why,
         rest != NULL ? "; not written: " : "", rest != NULL ? rest : "");
}

static void into_place(struct place *place)
{
    if (rename(place->beside, place->target) != 0)
        give_up(place->path);
    /* not before: what a kill leaves beside could not be opened again */
    if (place->shut && fchmod(place->file, place->mode & ~(mode_t)S_IWUSR) == 0)
        fsync(place->file);
    close(place->file);
    place->file = -1;
    if (!sync_folder(place))
        leave_unsure(place);
    if (place->folder >= 0)
        close(place->folder);
}

static void rename_all(void)
{
    struct place *place;

    for (place = places; place < places + place_count; place++) {
        into_place(place);
        free(place->beside);
        free(place->target);
    }
    place_count = 0;
}

/* ---- before there are bytes ---- */

/* Whether files can be made, and renamed, in the folder of a path. */
static int folder_takes(const char *path)
{
    char *folder = folder_of(path);
    int takes = access(folder, W_OK | X_OK) == 0;

    free(folder);
    return takes;
}

/* Whether hold could open a file beside; errno tells. One that another tool renames meanwhile is none. */
static int could_hold(const struct place *place)
{
    struct stat found;

    if (!folder_takes(place->beside))
        return 0;
    if (lstat(place->beside, &found) != 0)
        return errno == ENOENT;
    refuse_beside(place, fault_of(&found));
    return access(place->beside, R_OK | W_OK) == 0 || errno == ENOENT;
}

/* Whether what stands in a place can be replaced; errno tells. In a shared folder, as /tmp, only by who owns it or that. */
static int could_replace(const struct place *place)
{
    char *name = folder_of(place->target);
    struct stat found, folder;
    int shared = stat(name, &folder) == 0 && (folder.st_mode & S_ISVTX) && geteuid() != 0 && folder.st_uid != geteuid();

    free(name);
    errno = EPERM;
    return !shared || lstat(place->target, &found) != 0 || found.st_uid == geteuid();
}

void output_test(const char *path)
{
    struct place place;

    if (path == NULL || strcmp(path, "-") == 0)
        return;
    if (stays_in_place(path)) {
        if (access(path, W_OK) != 0)
            give_up(path);
        return;
    }
    if (!find_place(&place, path) || !could_hold(&place) || !could_replace(&place))
        give_up(path);
    free(place.target);
    free(place.beside);
}

/* ---- all ---- */

void outputs_write(const struct output *outputs, unsigned count)
{
    unsigned k;

    for (k = 0; k < count; k++)
        if (outputs[k].path != NULL && stays_in_place(outputs[k].path))
            write_in_place(&outputs[k]);
    hold_stops(SIG_BLOCK);
    for (k = 0; k < count; k++)
        if (outputs[k].path != NULL && !stays_in_place(outputs[k].path))
            write_beside(&outputs[k]);
    rename_all();
    hold_stops(SIG_UNBLOCK);
}
