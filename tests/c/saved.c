/* Saved totals from C: buffers and bytes of each length, with each byte changed, and each bit of their size. */
#include "expect.h"
#include "lent.h"
#include "printed.h"

#include <string.h>

/* Totals {250}: saved into buffers of each length, restored from each length and with each byte changed. */
void test_saved(void)
{
    enum { LENGTH = ENGINE_SAVED_LENGTH(2), SECOND_NUMBER = 13 };
    static const uint8_t wanted[2 * LENGTH] = { 1, 2, 0, 2, 0, [SECOND_NUMBER] = 250 };
    open_printed(2);
    expect(deliver_one(250, 1000) == answer(0, 0, 4, 1), "a store with totals {250}");
    for (size_t length = 0; length <= 2 * LENGTH; length++) {
        bool fits = length >= LENGTH;
        lend_saved(length);
        expect(save_totals() == (fits ? answer(0, 0, 0, 1) : answer(27, 0, 0, 0)), "a buffer of each length");
        expect(code_is_zero_from(fits ? PRINTED_LINES : 0) && totals_are(250), "code and store of a save");
        static const uint8_t zeros[LENGTH];
        expect(memcmp(lent.saved, fits ? wanted : zeros, length) == 0, "the buffer, zero past the totals");
    }
    for (size_t length = 0; length <= 2 * LENGTH; length++) {
        unsigned cells = 1 + (unsigned)length % 3;
        lend_store(ENGINE_SLOTS_LENGTH(cells), ENGINE_HEADS_LENGTH(cells));
        lend_saved(length);
        memcpy(lent.saved, wanted, length);
        bool fits = length == LENGTH;
        expect(restore_totals() == (fits ? answer(0, 0, 0, 1) : answer(27, 0, 0, 0)), "bytes of each length");
        expect(fits ? totals_are(250) : lent.heads[0] == 0x66666666, "the store, as it was after a refusal");
    }
    lend_saved(LENGTH);
    for (size_t i = 0; i < LENGTH; i++) {
        open_printed(1);
        memcpy(lent.saved, wanted, LENGTH);
        lent.saved[i] ^= 128;
        bool is_free_choice = i >= SECOND_NUMBER; /* the number itself */
        expect(restore_totals() == (is_free_choice ? answer(0, 0, 0, 1) : answer(27, 0, 0, 0)), "a byte changed");
        expect((lent.heads[2] == 1) == is_free_choice, "an array of one number, or the empty one that was there");
    }
}

/* Totals {250} in memory that ends with them, with each bit of their size flipped: a restore of as many bytes as they
 * tell reads none past the memory, and is refused. */
void test_saved_length(void)
{
    enum { LENGTH = ENGINE_SAVED_LENGTH(2) };
    static uint8_t longest[ENGINE_SAVED_LENGTH_MAX] = { 3, 0, 16 };
    open_printed(2);
    expect(deliver_one(250, 1000) == answer(0, 0, 4, 1), "a store with totals {250}");
    lend_saved(LENGTH);
    expect(save_totals() == answer(0, 0, 0, 1), "totals saved in just their length");
    expect(engine_saved_length(lent.saved, LENGTH) == LENGTH, "their length");
    expect(engine_saved_length(lent.saved, 2 * LENGTH) == LENGTH, "their length in a longer buffer");
    for (unsigned bit = 0; bit < 16; bit++) {
        lent.saved[1 + bit / 8] ^= (uint8_t)(1 << bit % 8);
        lent.saved_length = engine_saved_length(lent.saved, LENGTH);
        expect(restore_totals() == answer(27, 0, 0, 0), "a bit of their size flipped");
        lent.saved[1 + bit / 8] ^= (uint8_t)(1 << bit % 8);
    }
    for (size_t capacity = 0; capacity < LENGTH; capacity++) {
        lend_saved(capacity);
        memcpy(lent.saved, (const uint8_t[LENGTH]){ 1, 2, 0, 2 }, capacity);
        expect(engine_saved_length(lent.saved, capacity) == 0, "a buffer that ends before them");
    }
    expect(engine_saved_length(longest, sizeof longest) == ENGINE_SAVED_LENGTH_MAX, "the longest there are");
    expect(engine_saved_length(longest, sizeof longest - 1) == 0, "one byte less than that");
}
