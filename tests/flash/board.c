/* The flash of a board. */
#include "board.h"

#include <string.h>

struct board board;

void board_clear(void)
{
    memset(board.flash, 255, sizeof board.flash);
    memset(board.worn, 0, sizeof board.worn);
    board.until_cut = -1;
    board.bytes = 0;
}

/* Some bits (xorshift). */
static uint8_t any_bits(void)
{
    board.random = board.random == 0 ? 1 : board.random;
    board.random ^= board.random << 13;
    board.random ^= board.random >> 17;
    board.random ^= board.random << 5;
    return (uint8_t)(board.random >> 8);
}

/* Whether power is cut at the next byte. */
static bool is_cut(void)
{
    board.bytes++;
    return board.until_cut >= 0 && board.until_cut-- == 0;
}

bool flash_erase(unsigned record)
{
    uint8_t *bytes = board.flash[record];
    for (size_t i = 0; i < BOARD_BYTES; i++) {
        if (is_cut()) {
            bytes[i] |= board.cut == CUT_HALF ? 0x55 : 0;
            for (size_t other = 0; board.cut == CUT_ANY && other < BOARD_BYTES; other++)
                bytes[other] |= any_bits();
            longjmp(board.power, 1);
        }
        bytes[i] = 255;
    }
    return true;
}

bool flash_program(unsigned record, size_t unit, const uint8_t bytes[FLASH_UNIT])
{
    uint8_t *to = board.flash[record] + unit * FLASH_UNIT;
    const uint8_t *worn = board.worn[record] + unit * FLASH_UNIT;
    for (size_t i = 0; i < FLASH_UNIT; i++)
        board.written_twice += to[i] != 255;
    for (size_t i = 0; i < FLASH_UNIT; i++) {
        if (is_cut()) {
            to[i] &= board.cut == CUT_HALF ? bytes[i] | 0x55 : 255;
            for (size_t other = 0; board.cut == CUT_ANY && other < FLASH_UNIT; other++)
                to[other] &= bytes[other] | any_bits();
            longjmp(board.power, 1);
        }
        to[i] &= bytes[i] | worn[i];
    }
    return true;
}

void flash_read(unsigned record, size_t unit, uint8_t bytes[FLASH_UNIT])
{
    memcpy(bytes, board.flash[record] + unit * FLASH_UNIT, FLASH_UNIT);
}
