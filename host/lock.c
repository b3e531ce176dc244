/* Locks of places. The lock's file has a mark, so that only what such a program made is removed. It is on the disk with
 * its mark before anything else is made beside the place, and it is removed last: so a new file that stands beside a
 * marked lock was left by a program that was ended there, and one that stands there without is somebody else's. */
#define _DEFAULT_SOURCE /* flock */
#include "lock.h"

#include <errno.h>
#include <fcntl.h>
#include <stdio.h>
#include <stdlib.h>
#include <string.h>
#include <sys/file.h>
#include <sys/stat.h>
#include <unistd.h>

static const char mark[] = "A Ruschoep program works on the file beside this one, and removes this one at its end.\n";
enum { MARK_BYTES = sizeof mark - 1, LOCKS_MAX = 4 };

struct lock {
    bool is_used;
    bool is_marked;
    int folder;
    int file;
    char name[NAME_BYTES];
    char made[2][NAME_BYTES]; /* names of the files that its holder may have made beside the place */
};
static struct lock locks[LOCKS_MAX];

/* The file that was locked is the one that is there: a holder removes it, and another may have had the removed one. */
static bool is_there(const struct lock *lock)
{
    struct stat locked, there;
    return fstat(lock->file, &locked) == 0 && fstatat(lock->folder, lock->name, &there, AT_SYMLINK_NOFOLLOW) == 0
           && locked.st_dev == there.st_dev && locked.st_ino == there.st_ino;
}

bool is_lock_there(const struct place *place)
{
    return place->lock != NULL && is_there(place->lock);
}

/* Whether one of these files is still there, since it could not be removed: then the lock tells whose it is. */
static bool is_needed(const struct lock *lock)
{
    struct stat status;
    return lock->is_marked
           && (fstatat(lock->folder, lock->made[0], &status, AT_SYMLINK_NOFOLLOW) == 0
               || fstatat(lock->folder, lock->made[1], &status, AT_SYMLINK_NOFOLLOW) == 0);
}

static void remove_lock(struct lock *lock)
{
    if (is_there(lock) && !is_needed(lock))
        unlinkat(lock->folder, lock->name, 0); /* while it is still locked: see take */
    close(lock->file);
    lock->is_used = false;
}

static void remove_locks(void)
{
    for (int i = 0; i < LOCKS_MAX; i++)
        if (locks[i].is_used)
            remove_lock(&locks[i]);
}

static struct lock *free_lock(void)
{
    static bool is_prepared;
    if (!is_prepared)
        atexit(remove_locks);
    is_prepared = true;
    for (int i = 0; i < LOCKS_MAX; i++)
        if (!locks[i].is_used)
            return &locks[i];
    abort(); /* no program writes so many files at once */
}

/* What a lock's file has in it: nothing or a part of the mark, where a program was ended before it had written it. */
enum content { CONTENT_UNFINISHED, CONTENT_MARK, CONTENT_OTHER };

static enum content content_of(const struct lock *lock)
{
    char found[MARK_BYTES + 1];
    struct stat status;
    if (fstat(lock->file, &status) != 0 || !S_ISREG(status.st_mode))
        return CONTENT_OTHER;
    ssize_t length = pread(lock->file, found, sizeof found, 0);
    if (length < 0 || length > MARK_BYTES || memcmp(found, mark, (size_t)length) != 0)
        return CONTENT_OTHER;
    return length == MARK_BYTES ? CONTENT_MARK : CONTENT_UNFINISHED;
}

/* Locks the lock's file, which may have to be made; false where another program has. */
static bool take(struct lock *lock, const char *given)
{
    for (;;) {
        lock->file = openat(lock->folder, lock->name, O_RDWR | O_CREAT | O_CLOEXEC | O_NOFOLLOW | O_NONBLOCK, 0666);
        if (lock->file < 0)
            fail(STATUS_UNWRITTEN, "%s: no lock can be made beside it: %s; let this user write in its folder", given,
                 strerror(errno));
        if (flock(lock->file, LOCK_EX | LOCK_NB) != 0) {
            if (errno != EWOULDBLOCK)
                fail(STATUS_UNWRITTEN, "%s: cannot be locked: %s; use a file system that has locks", given,
                     strerror(errno));
            close(lock->file);
            return false;
        }
        if (is_there(lock))
            return true;
        close(lock->file);
    }
}

/* Removes a file that was left beside a place, or fails where nobody can tell whose it is. */
static void clear(const struct place *place, const char *name, bool is_own)
{
    struct stat status;
    if (fstatat(place->folder, name, &status, AT_SYMLINK_NOFOLLOW) != 0 && errno == ENOENT)
        return;
    if (!is_own)
        fail(STATUS_UNUSABLE, "%s: '%s' is in its way, and no program of these has left it there; move it away",
             place->given, name);
    if (unlinkat(place->folder, name, 0) != 0 && errno != ENOENT)
        fail(STATUS_UNWRITTEN, "%s: '%s', left by a run before, cannot be removed: %s; remove it", place->given, name,
             strerror(errno));
}

static void write_mark(const struct place *place, const struct lock *lock)
{
    if (pwrite(lock->file, mark, MARK_BYTES, 0) != MARK_BYTES || fsync(lock->file) != 0
        || (fsync(lock->folder) != 0 && errno != EINVAL)) /* a file system that has no such call */
        fail(STATUS_UNWRITTEN, "%s: no lock can be written beside it: %s; make room on the disk", place->given,
             strerror(errno));
}

bool lock_place(struct place *place)
{
    struct lock *lock = free_lock();
    *lock = (struct lock){ .folder = place->folder };
    memcpy(lock->made[0], place->new_name, NAME_BYTES);
    memcpy(lock->made[1], place->old_name, NAME_BYTES);
    if (snprintf(lock->name, NAME_BYTES, "%s%s", place->name, LOCK_ENDING) >= NAME_BYTES)
        fail(STATUS_UNUSABLE, "%s: the name is too long; choose a shorter one", place->given);
    if (!take(lock, place->given))
        return false;
    enum content content = content_of(lock);
    if (content == CONTENT_OTHER)
        fail(STATUS_UNUSABLE, "%s: '%s' is in its way, and it is no lock; move it away", place->given, lock->name);
    lock->is_used = true;
    lock->is_marked = content == CONTENT_MARK;
    place->lock = lock;
    clear(place, place->new_name, content == CONTENT_MARK);
    clear(place, place->old_name, content == CONTENT_MARK);
    if (content == CONTENT_UNFINISHED)
        write_mark(place, lock);
    lock->is_marked = true;
    return true;
}

void unlock_place(struct place *place)
{
    remove_lock(place->lock);
    place->lock = NULL;
}
