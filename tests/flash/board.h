/* A board's flash in memory, whose power can be cut at any moment of a write or an erase. */
#ifndef BOARD_H
#define BOARD_H

#include "flash_store.h"

#include <setjmp.h>

enum { BOARD_CELLS = 2, BOARD_UNITS = FLASH_RECORD_UNITS(BOARD_CELLS), BOARD_BYTES = BOARD_UNITS * FLASH_UNIT };

/* How a cut leaves what was being written or erased: the byte untouched, half of its bits, or any of the bits of the
 * whole unit or record. */
enum cut { CUT_BEFORE, CUT_HALF, CUT_ANY, CUTS };

struct board {
    uint8_t flash[FLASH_RECORDS][BOARD_BYTES];
    uint8_t worn[FLASH_RECORDS][BOARD_BYTES]; /* bits that cannot be written */
    long until_cut;                           /* bytes that are written or erased before power is cut; under 0: all */
    enum cut cut;
    uint32_t random;
    long bytes;                               /* that were written or erased */
    unsigned written_twice;                   /* units written that were not erased */
    jmp_buf power;                            /* where the board is when its power is cut */
};

extern struct board board;

/* Blank flash, not worn. */
void board_clear(void);

#endif
