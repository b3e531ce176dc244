/* Files that are read whole, and files that are replaced whole. */
#define _DEFAULT_SOURCE /* flock, readlink */
#include "place.h"
#include "lock.h"

#include <errno.h>
#include <fcntl.h>
#include <limits.h>
#include <stdio.h>
#include <stdlib.h>
#include <string.h>
#include <sys/file.h>
#include <sys/stat.h>
#include <unistd.h>

enum { LINKS_MAX = 40 }; /* one after another; as many as Linux follows */

/* Endings of the names of files that are there only while a program works, beside that of a lock. */
#define NEW_ENDING ".ruschoep-new"
#define OLD_ENDING ".ruschoep-old"

/* ---- Reading ---- */

size_t read_whole(const char *path, uint8_t *buffer, size_t capacity)
{
    bool is_standard = strcmp(path, "-") == 0;
    FILE *file = is_standard ? stdin : fopen(path, "rb");
    if (file == NULL)
        fail(STATUS_UNUSABLE, "%s: %s; name a file that can be read", path, strerror(errno));
    size_t length = fread(buffer, 1, capacity, file);
    bool is_longer = length == capacity && fgetc(file) != EOF;
    if (ferror(file))
        fail(STATUS_UNUSABLE, "%s: cannot be read: %s; name a file that can be read", path, strerror(errno));
    if (is_longer)
        fail(STATUS_UNUSABLE, "%s: over %zu bytes; look whether it is the file that you mean", path, capacity);
    if (!is_standard)
        fclose(file);
    return length;
}

bool is_same_file(const char *one, const char *other)
{
    struct stat first, second;
    return strcmp(one, "-") != 0 && strcmp(other, "-") != 0 && stat(one, &first) == 0 && stat(other, &second) == 0
           && first.st_dev == second.st_dev && first.st_ino == second.st_ino;
}

/* ---- Places ---- */

/* The part of a path before its last name: "." where there is none. */
static void folder_of(const char *path, char folder[PATH_MAX])
{
    const char *slash = strrchr(path, '/');
    size_t length = slash == NULL ? 0 : slash == path ? 1 : (size_t)(slash - path);
    memcpy(folder, length == 0 ? "." : path, length == 0 ? 1 : length);
    folder[length == 0 ? 1 : length] = '\0';
}

/* Follows the link that a path may be: true where it was one. A relative link is relative to its own folder. */
static bool follow(char path[PATH_MAX])
{
    char target[PATH_MAX], folder[PATH_MAX], joined[2 * PATH_MAX];
    ssize_t length = readlink(path, target, sizeof target - 1);
    if (length < 0)
        return false;
    target[length] = '\0';
    folder_of(path, folder);
    if (target[0] == '/')
        snprintf(joined, sizeof joined, "%s", target);
    else
        snprintf(joined, sizeof joined, "%s/%s", folder, target);
    if (strlen(joined) >= PATH_MAX)
        fail(STATUS_UNUSABLE, "%s: the path of its link is too long; give the path that it leads to", path);
    memcpy(path, joined, strlen(joined) + 1);
    return true;
}

/* A name with an ending; fails where it is too long. */
static void join(char joined[NAME_BYTES], const struct place *place, const char *name, const char *ending)
{
    int length = snprintf(joined, NAME_BYTES, "%s%s", name, ending);
    if (length < 0 || length >= NAME_BYTES)
        fail(STATUS_UNUSABLE, "%s: the name is too long; choose a shorter one", place->given);
}

static bool ends_with(const char *name, const char *ending)
{
    size_t length = strlen(name), end = strlen(ending);
    return length >= end && strcmp(name + length - end, ending) == 0;
}

/* The names of a place and of the files that may come to stand beside it. */
static void name_place(struct place *place, const char *name)
{
    if (*name == '\0')
        fail(STATUS_UNUSABLE, "%s: no name of a file; give one", place->given);
    if (ends_with(name, NEW_ENDING) || ends_with(name, OLD_ENDING) || ends_with(name, LOCK_ENDING))
        fail(STATUS_UNUSABLE, "%s: a name that ends so is for files that programs make while they work; choose another",
             place->given);
    join(place->name, place, name, "");
    join(place->new_name, place, name, NEW_ENDING);
    join(place->old_name, place, name, OLD_ENDING);
    join(place->previous, place, name, PREVIOUS_ENDING);
    join(place->damaged, place, name, ".damaged");
}

void find_place(struct place *place, const char *path)
{
    char real[PATH_MAX], folder[PATH_MAX];
    *place = (struct place){ .given = path, .file = -1 };
    if (strlen(path) >= sizeof real)
        fail(STATUS_UNUSABLE, "the path of %zu characters is too long; give a shorter one", strlen(path));
    strcpy(real, path);
    for (int links = 0; follow(real);)
        if (++links == LINKS_MAX)
            fail(STATUS_UNUSABLE, "%s: over %d links one after another; give the path that they lead to", path,
                 LINKS_MAX);
    folder_of(real, folder);
    const char *slash = strrchr(real, '/');
    name_place(place, slash == NULL ? real : slash + 1);
    place->folder = open(folder, O_RDONLY | O_DIRECTORY | O_CLOEXEC);
    if (place->folder < 0)
        fail(STATUS_UNUSABLE, "%s: its folder cannot be used: %s; make it, or name another", path, strerror(errno));
    look_at_place(place);
}

/* Whether a name in the folder leads to this file. */
static bool is_name_of(const struct place *place, const char *name, const struct stat *file)
{
    struct stat found;
    return fstatat(place->folder, name, &found, AT_SYMLINK_NOFOLLOW) == 0 && found.st_dev == file->st_dev
           && found.st_ino == file->st_ino;
}

void look_at_place(struct place *place)
{
    struct stat status;
    place->is_there = fstatat(place->folder, place->name, &status, AT_SYMLINK_NOFOLLOW) == 0;
    if (!place->is_there && errno != ENOENT)
        fail(STATUS_UNUSABLE, "%s: %s; name a file that can be used", place->given, strerror(errno));
    if (!place->is_there)
        return;
    /* a program that was ended while it kept the old file has left that name beside this one */
    unsigned own = 1u + is_name_of(place, place->previous, &status) + is_name_of(place, place->damaged, &status);
    place->has_other_names = status.st_nlink > own;
    if (!S_ISREG(status.st_mode))
        fail(STATUS_UNUSABLE, "%s: not a file that can be replaced; name another", place->given);
    if (faccessat(place->folder, place->name, W_OK, 0) != 0)
        fail(STATUS_UNWRITTEN, "%s: may not be written: %s; let this user write it", place->given, strerror(errno));
}

/* ---- Holding ---- */

/* Whether the held file is the one that is there. It is open, so no other file has its number. */
static bool is_held_there(const struct place *place)
{
    struct stat held;
    if (place->file < 0)
        return fstatat(place->folder, place->name, &held, AT_SYMLINK_NOFOLLOW) != 0 && errno == ENOENT;
    return fstat(place->file, &held) == 0 && is_name_of(place, place->name, &held);
}

bool hold_file(struct place *place)
{
    for (;;) {
        look_at_place(place);
        place->file = openat(place->folder, place->name, O_RDWR | O_CLOEXEC | O_NOFOLLOW);
        if (place->file < 0 && errno != ENOENT)
            fail(STATUS_UNUSABLE, "%s: %s; let this user read and write it", place->given, strerror(errno));
        if (place->file >= 0 && flock(place->file, LOCK_EX | LOCK_NB) != 0) {
            if (errno != EWOULDBLOCK)
                fail(STATUS_UNWRITTEN, "%s: cannot be locked: %s; use a file system that has locks", place->given,
                     strerror(errno));
            return false;
        }
        if (is_held_there(place) && place->is_there == (place->file >= 0))
            break;
        if (place->file >= 0)
            close(place->file);
    }
    place->is_held = true;
    return true;
}

size_t read_held(const struct place *place, uint8_t *buffer, size_t capacity)
{
    size_t length = 0;
    ssize_t more = 1;
    while (more > 0 && length < capacity) {
        more = pread(place->file, buffer + length, capacity - length, (off_t)length);
        if (more < 0)
            fail(STATUS_UNUSABLE, "%s: cannot be read: %s; look after the disk", place->given, strerror(errno));
        length += (size_t)more;
    }
    return length;
}

/* ---- Replacing ---- */

static bool faulty(struct place_fault *fault, const char *what, const char *advice)
{
    if (errno == 0)
        snprintf(fault->what, sizeof fault->what, "%s", what);
    else
        snprintf(fault->what, sizeof fault->what, "%s: %s", what, strerror(errno));
    fault->advice = advice;
    return false;
}

/* A lock that a person has removed lets another program in. */
static bool is_own(const struct place *place, struct place_fault *fault)
{
    if (!is_lock_there(place)) {
        errno = 0;
        return faulty(fault, "its lock was removed while this program had it",
                      "see that no other program uses it, and do this again");
    }
    if (place->is_held && !is_held_there(place)) {
        errno = 0;
        return faulty(fault, "another file was put in its place, or it was removed",
                      "look at the file that is there now ('controller --show'), and do this again");
    }
    return true;
}

static bool write_bytes(int file, const uint8_t *bytes, size_t length)
{
    while (length > 0) {
        ssize_t written = write(file, bytes, length);
        if (written < 0 && errno == EINTR)
            continue;
        if (written < 0)
            return false;
        bytes += written;
        length -= (size_t)written;
    }
    return true;
}

/* Fills the new file and brings it to the disk. */
static bool fill(const struct place *place, int file, const void *bytes, size_t length, struct place_fault *fault)
{
    struct stat old;
    if (!write_bytes(file, bytes, length))
        return faulty(fault, "cannot be written", "make room on the disk, and do this again");
    if (fstatat(place->folder, place->name, &old, AT_SYMLINK_NOFOLLOW) == 0 && fchmod(file, old.st_mode & 07777) != 0)
        return faulty(fault, "its mode cannot be kept", "look after the disk, and do this again");
    if (fsync(file) != 0)
        return faulty(fault, "cannot be brought to the disk", "look after the disk, and do this again");
    if (place->is_held && flock(file, LOCK_EX | LOCK_NB) != 0)
        return faulty(fault, "cannot be locked", "use a file system that has locks");
    return true;
}

/* The old file is called the previous one, instead of the one that was called so. */
static bool keep_previous(const struct place *place, struct place_fault *fault)
{
    if (!place->keeps_previous || !place->is_there)
        return true;
    bool is_linked = linkat(place->folder, place->name, place->folder, place->old_name, 0) == 0;
    bool is_kept = is_linked && renameat(place->folder, place->old_name, place->folder, place->previous) == 0;
    int error = errno;
    if (is_linked)
        unlinkat(place->folder, place->old_name, 0); /* also there where both were names of one file already */
    errno = error;
    return is_kept || faulty(fault, "the file before it cannot be kept",
                             "leave --keep-previous out, or use a file system that has links");
}

bool may_keep_damaged(const struct place *place)
{
    struct stat held, kept;
    return fstatat(place->folder, place->damaged, &kept, AT_SYMLINK_NOFOLLOW) != 0
           || (fstat(place->file, &held) == 0 && is_name_of(place, place->damaged, &held));
}

bool keep_damaged(const struct place *place, struct place_fault *fault)
{
    if (linkat(place->folder, place->name, place->folder, place->damaged, 0) == 0)
        return true;
    if (errno == EEXIST && may_keep_damaged(place))
        return true; /* a program was ended before it could replace it */
    return faulty(fault, "the damaged file cannot be kept beside it, with '.damaged' after its name",
                  "move the file that has that name away, and do this again");
}

/* Puts the new file in the old one's place. */
static bool put(const struct place *place, struct place_fault *fault)
{
    if (!is_own(place, fault) || !keep_previous(place, fault))
        return false;
    if (renameat(place->folder, place->new_name, place->folder, place->name) != 0)
        return faulty(fault, "cannot be replaced", "look after its folder, and do this again");
    return true;
}

/* Removes a new file that could not be put in place, if it is still the one that was made. */
static void remove_new(const struct place *place, int file)
{
    struct stat made;
    if (fstat(file, &made) == 0 && is_name_of(place, place->new_name, &made))
        unlinkat(place->folder, place->new_name, 0);
}

bool replace_file(struct place *place, const void *bytes, size_t length, struct place_fault *fault)
{
    if (!is_own(place, fault))
        return false;
    int file = openat(place->folder, place->new_name, O_WRONLY | O_CREAT | O_EXCL | O_CLOEXEC | O_NOFOLLOW, 0666);
    if (file < 0)
        return faulty(fault, "no new file can be made beside it", "look after its folder, and do this again");
    if (!fill(place, file, bytes, length, fault) || !put(place, fault)) {
        remove_new(place, file);
        close(file);
        return false;
    }
    if (place->file >= 0)
        close(place->file);
    place->file = file; /* it stays open: see is_held_there */
    place->is_there = true;
    if (fsync(place->folder) != 0 && errno != EINVAL) /* a file system that has no such call */
        return faulty(fault, "is replaced, but its folder cannot be brought to the disk",
                      "look after the disk, and see what is there");
    return true;
}

/* ---- Whole files ---- */

/* A device or a pipe is written as it is. */
static bool is_stream(const char *path)
{
    struct stat status;
    return stat(path, &status) == 0 && !S_ISREG(status.st_mode) && !S_ISDIR(status.st_mode);
}

static void write_stream(const char *path, const void *bytes, size_t length)
{
    int file = open(path, O_WRONLY | O_CLOEXEC);
    if (file < 0 || !write_bytes(file, bytes, length) || close(file) != 0)
        fail(STATUS_UNWRITTEN, "%s: cannot be written: %s; name another file", path, strerror(errno));
}

static void begin_whole(struct place *place, const char *path)
{
    find_place(place, path);
    if (!lock_place(place))
        fail(STATUS_UNUSABLE, "%s: another program is writing it; wait until it ends", path);
}

static void end_whole(struct place *place)
{
    if (place->file >= 0)
        close(place->file);
    unlock_place(place);
    close(place->folder);
}

void try_whole(const char *path)
{
    struct place place;
    if (is_stream(path))
        return;
    begin_whole(&place, path);
    end_whole(&place);
}

void write_whole(const char *path, const void *bytes, size_t length)
{
    struct place place;
    struct place_fault fault;
    if (strcmp(path, "-") == 0) {
        fwrite(bytes, 1, length, stdout);
        flush_output();
    } else if (is_stream(path)) {
        write_stream(path, bytes, length);
    } else {
        begin_whole(&place, path);
        if (!replace_file(&place, bytes, length, &fault))
            fail(STATUS_UNWRITTEN, "%s: %s; %s", path, fault.what, fault.advice);
        end_whole(&place);
    }
}
