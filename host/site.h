/* A site: the script, or tuned code for it, and the store that a controller lends the engine, and the file that keeps
 * the store. */
#ifndef SITE_H
#define SITE_H

#include "engine.h"
#include "place.h"
#include "store_file.h"
#include "tuned_file.h"

/* Room for a script file: more than it may have, so that a longer one is refused by the engine, and a store or a text
 * is seen for what it is. */
enum { SCRIPT_BYTES_MAX = 1 << 16 };

struct site {
    uint8_t file[SCRIPT_BYTES_MAX];
    uint8_t kinds[ENGINE_CODE_LINES_MAX];
    int64_t operands[ENGINE_CODE_LINES_MAX];
    int64_t slots[ENGINE_SLOTS_LENGTH(ENGINE_CELLS_MAX)];
    uint32_t heads[ENGINE_HEADS_LENGTH(ENGINE_CELLS_MAX)];
    struct engine_lent lent;    /* all of these */
    struct tuned tuned;         /* by which deliveries are worked, where there is some */
    struct store_header header; /* of the store as it is saved */
    struct place place;         /* of the store's file, where it has one */
    bool is_kept;               /* in that file */
    bool is_damaged;            /* that file, which is to be replaced and kept beside */
};

/* Reads a script file and has it translated. Fails where a text or a store was given for it; gives the answer. */
uint64_t take_script(struct site *site, const char *path);

/* Reads tuned code for the script that was taken, whose code has so many lines, and has it checked; gives the answer.
 * Fails where it is damaged, or where it would give other totals than the script. */
uint64_t take_code(struct site *site, const char *path, uint32_t lines);

/* Works a delivery, by the tuned code where there is some. */
uint64_t deliver(struct site *site, const int64_t *readings, size_t count, uint64_t budget);

/* Lends the words of a store of so many cells. */
void lend_cells(struct site *site, size_t cells);

/* The store that is wanted. */
struct wanted {
    const char *path;
    size_t cells;               /* 0: any number */
    bool takes_another_scripts; /* of main's depth */
    bool replaces;              /* the totals come from elsewhere: a damaged store, or one of another depth, will do */
    bool keeps_previous;        /* the store before each save */
};

/* What there is: no store; one that is whole and wanted, which is taken; one that is to be replaced, after it was said
 * what is wrong with it (then its cells are lent where they can be told, and else none). */
enum taking { STORE_ABSENT, STORE_TAKEN, STORE_TO_REPLACE };

/* Takes the file of a store for this program alone, and reads the store where it is there. Fails where it is none that
 * is wanted, or where the file cannot be locked, read or written. */
enum taking take_store(struct site *site, const struct wanted *wanted);

/* Says what is wrong with a store that is to be replaced. Fails where it could not be kept beside. */
void mark_damaged(struct site *site, const char *what);

/* Saves the store in its file, where it has one; a damaged file is kept beside. */
bool save_store(struct site *site, struct place_fault *fault);

#endif
