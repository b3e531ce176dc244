/* The lent arrays of the tests. */
#include "lent.h"
#include "guard.h"

#include <string.h>

enum { LONGEST = 1 << 16 }; /* bytes of an array, more than any case has */

struct lent lent;
static struct guarded files, kinds, operands, slots, heads, readings, saved;

void lend(void)
{
    files = guard(LONGEST);
    kinds = guard(LONGEST);
    operands = guard(LONGEST);
    slots = guard(LONGEST);
    heads = guard(LONGEST);
    readings = guard(LONGEST);
    saved = guard(LONGEST);
    lend_file(0);
    lend_code(0, 0);
    lend_store(0, 0);
    lend_readings(0);
    lend_saved(0);
}

void lend_file(size_t length)
{
    lent.file = last_bytes(files, length);
    lent.file_length = length;
}

void lend_code(size_t kinds_length, size_t operands_length)
{
    lent.kinds = last_bytes(kinds, kinds_length);
    lent.kinds_length = kinds_length;
    lent.operands = last_bytes(operands, operands_length * sizeof *lent.operands);
    lent.operands_length = operands_length;
    memset(lent.kinds, 0xa5, kinds_length);
    memset(lent.operands, 0x5a, operands_length * sizeof *lent.operands);
}

void lend_store(size_t slots_length, size_t heads_length)
{
    lent.slots = last_bytes(slots, slots_length * sizeof *lent.slots);
    lent.slots_length = slots_length;
    lent.heads = last_bytes(heads, heads_length * sizeof *lent.heads);
    lent.heads_length = heads_length;
    memset(lent.slots, 0x77, slots_length * sizeof *lent.slots);
    memset(lent.heads, 0x66, heads_length * sizeof *lent.heads);
}

void lend_readings(size_t length)
{
    lent.readings = last_bytes(readings, length * sizeof *lent.readings);
    lent.readings_length = length;
}

void lend_saved(size_t length)
{
    lent.saved = last_bytes(saved, length);
    lent.saved_length = length;
    memset(lent.saved, 0xa5, length);
}

uint64_t translate(void)
{
    return engine_translate(lent.file, lent.file_length, lent.kinds, lent.kinds_length, lent.operands,
                            lent.operands_length);
}

uint64_t open_store(void)
{
    return engine_open(lent.file, lent.file_length, lent.kinds, lent.kinds_length, lent.operands,
                       lent.operands_length, lent.slots, lent.slots_length, lent.heads, lent.heads_length);
}

uint64_t check_store(void)
{
    return engine_check(lent.file, lent.file_length, lent.kinds, lent.kinds_length, lent.operands,
                        lent.operands_length, lent.slots, lent.slots_length, lent.heads, lent.heads_length);
}

uint64_t deliver(uint64_t budget)
{
    return engine_deliver(lent.file, lent.file_length, lent.kinds, lent.kinds_length, lent.operands,
                          lent.operands_length, lent.slots, lent.slots_length, lent.heads, lent.heads_length,
                          lent.readings, lent.readings_length, budget);
}

uint64_t save_totals(void)
{
    return engine_save(lent.file, lent.file_length, lent.kinds, lent.kinds_length, lent.operands,
                       lent.operands_length, lent.slots, lent.slots_length, lent.heads, lent.heads_length,
                       lent.saved, lent.saved_length);
}

uint64_t restore_totals(void)
{
    return engine_restore(lent.file, lent.file_length, lent.kinds, lent.kinds_length, lent.operands,
                          lent.operands_length, lent.slots, lent.slots_length, lent.heads, lent.heads_length,
                          lent.saved, lent.saved_length);
}

uint64_t check_code(uint64_t depth)
{
    return engine_check_code(lent.kinds, lent.kinds_length, lent.operands, lent.operands_length, depth);
}

uint64_t deliver_code(uint64_t depth, uint64_t budget)
{
    return engine_deliver_code(lent.kinds, lent.kinds_length, lent.operands, lent.operands_length, depth, lent.slots,
                               lent.slots_length, lent.heads, lent.heads_length, lent.readings, lent.readings_length,
                               budget);
}

bool code_is_zero_from(size_t line)
{
    for (size_t i = line; i < lent.kinds_length; i++)
        if (lent.kinds[i] != 0)
            return false;
    for (size_t i = line; i < lent.operands_length; i++)
        if (lent.operands[i] != 0)
            return false;
    return true;
}
