/* Files that are read whole, and files that are replaced whole: what is there is the old file or the new one, whenever
 * the program or the power ends. */
#ifndef PLACE_H
#define PLACE_H

#include "message.h"

#include <stdint.h>

/* Reads a whole file, or standard input for "-", into a buffer, and gives its length. Fails where it has more bytes. */
size_t read_whole(const char *path, uint8_t *buffer, size_t capacity);

/* Whether two paths lead to one file. "-" is no file. */
bool is_same_file(const char *one, const char *other);

/* Where a file is, or may come to be: links are followed, so that a link stays one. */
#define PREVIOUS_ENDING ".previous"
enum { NAME_BYTES = 256 };
struct lock;
struct place {
    const char *given;          /* the path as it was given, for messages */
    int folder;                 /* a descriptor */
    char name[NAME_BYTES];      /* within the folder */
    char new_name[NAME_BYTES];  /* of the file that is to take its place */
    char old_name[NAME_BYTES];  /* of the old file, till it is called the previous one */
    char previous[NAME_BYTES];  /* what the file before the last replacing is called, where it is kept */
    char damaged[NAME_BYTES];   /* what a damaged file is called, once it is replaced */
    struct lock *lock;          /* null: not locked */
    bool is_there;
    bool has_other_names;       /* hard links, which would keep the old file */
    bool keeps_previous;
    bool is_held;               /* by hold_file */
    int file;                   /* the held file's descriptor; -1 where none is there */
};

/* What went wrong with a replacing, and what to do about it. */
struct place_fault {
    char what[160];
    const char *advice;
};

/* Finds a place and looks what is there. Fails where its folder cannot be had, or its name is of those that programs
 * give to files of their own. */
void find_place(struct place *place, const char *path);

/* Looks anew what is there. Fails where it is something else than a file, or may not be written. */
void look_at_place(struct place *place);

/* Holds the file that is there, or that none is there, of a place that is locked: from now on it is replaced only while
 * it is the one that was held or that replaced it. False where another program holds it. */
bool hold_file(struct place *place);

/* The bytes of the held file, as many as there is room for; gives how many. */
size_t read_held(const struct place *place, uint8_t *buffer, size_t capacity);

/* Replaces the file of a locked place, or makes it, and waits until the disk has it; its mode is kept. False with what
 * went wrong: the old file is as it was, unless only the folder could not be brought to the disk. */
bool replace_file(struct place *place, const void *bytes, size_t length, struct place_fault *fault);

/* Whether the held file can have its damaged name besides: no other file has it. */
bool may_keep_damaged(const struct place *place);

/* Gives the held file its damaged name besides. */
bool keep_damaged(const struct place *place, struct place_fault *fault);

/* Fails where write_whole would fail for the path's sake. */
void try_whole(const char *path);

/* Writes a whole file: to standard output for "-", to a device or pipe as it is, else in the old one's place.
 * Fails where not all of it could be written. */
void write_whole(const char *path, const void *bytes, size_t length);

#endif
