/* A store kept in flash, for a board without a file system: two records, each with a mark.
 *
 * A record is a row of units of 8 bytes, all numbers with their low byte first:
 *   unit 0              the number of the save, from 1 on (4 bytes), the checksum of the script file (4)
 *   unit 1              the number of cells, S (4), the checksum of unit 0, these 4 bytes and the words (4)
 *   unit 2              the mark: zero, and erased until all else was written and read back
 *   1 + 16 S units      the slots
 *   1 + 2 S units       the heads, two in a unit
 *
 * A record counts where its checksum is right and its mark was begun; of two that count, the one with the higher
 * number. A save writes over the other record, so whenever power fails the one or the other is whole: what was saved
 * before, or what is being saved. The flash must keep a unit that power cut short as it is, whichever of its bits were
 * written. */
#ifndef FLASH_STORE_H
#define FLASH_STORE_H

#include "engine.h"

#include <stdbool.h>

enum { FLASH_RECORDS = 2, FLASH_UNIT = 8 };
#define FLASH_RECORD_UNITS(cells) (5u + 18u * (cells))

/* ---- What the board gives; false where the flash says that it failed ---- */

/* Sets every byte of a record to 255. */
bool flash_erase(unsigned record);

/* Writes a unit that is erased. */
bool flash_program(unsigned record, size_t unit, const uint8_t bytes[FLASH_UNIT]);

void flash_read(unsigned record, size_t unit, uint8_t bytes[FLASH_UNIT]);

/* ---- A store that is kept ---- */

struct flash_keeper {
    struct engine_lent *lent;
    uint32_t script;  /* the checksum of its file */
    unsigned record;  /* that counts */
    uint32_t saves;   /* its number: it only rises, unless a record decayed or an older one was put back */
};

enum flash_found {
    FLASH_STORE,        /* the lent store is what was saved last */
    FLASH_OTHER_SCRIPT, /* it is, and was saved with another script: engine_check and flash_save take it over */
    FLASH_OTHER_CELLS,  /* what was saved is of another number of cells; nothing was read, as in the next two */
    FLASH_EMPTY,        /* nothing was saved yet, but for an opening that power cut short */
    FLASH_DAMAGED       /* no record counts, and there was one: opening the store would lose the totals */
};

/* Looks for the record that counts, and reads it into the lent store. */
enum flash_found flash_load(struct flash_keeper *keeper, struct engine_lent *lent);

/* Saves the lent store; false where the flash failed, and what was saved before still counts. */
bool flash_save(struct flash_keeper *keeper);

/* A start of the board: loads the store and checks it, or opens and saves it where it is empty. Gives what was found;
 * the answer is that of the engine, or 11 where it was not called. False where the board cannot deliver. */
bool flash_start(struct flash_keeper *keeper, struct engine_lent *lent, enum flash_found *found, uint64_t *answer);

/* A delivery that is saved before it is shown. False where it could not be saved: then the store is what it was. */
bool flash_deliver(struct flash_keeper *keeper, const int64_t *readings, size_t count, uint64_t budget,
                   uint64_t *answer);

#endif
