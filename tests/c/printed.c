/* Document 01's printed script, lent. */
#include "printed.h"
#include "expect.h"
#include "lent.h"

void lend_script(unsigned functions, const struct row *rows, size_t count)
{
    lend_file(ENGINE_FILE_LENGTH(count));
    const unsigned sizes[2] = { functions, (unsigned)count };
    for (unsigned i = 0; i < 4; i++)
        lent.file[i] = (uint8_t)(sizes[i / 2] >> (8 * (i % 2)));
    for (size_t i = 0; i < count; i++) {
        lent.file[4 + i] = rows[i].kind;
        for (unsigned byte = 0; byte < 8; byte++)
            lent.file[4 + count + 8 * i + byte] = (uint8_t)((uint64_t)rows[i].operand >> (8 * byte));
    }
}

static const struct row printed[] = {
    { 0, 258 }, { 1, 256 }, { 1, 257 }, { 12, 0 }, { 11, 0 }, { 3, 0 }, { 9, 1 }, { 4, 0 }, { 10, 0 },
    { 3, 0 },   { 2, 0 },   { 10, 0 },  { 3, 1 },  { 2, 0 },  { 9, 1 }, { 10, 0 }, { 3, 1 }, { 2, 0 },
};

const struct row printed_code[PRINTED_LINES] = {
    { 0, 258 }, { 1, 256 }, { 1, 257 }, { 11, 2 }, { 3, 0 },  { 12, 3 }, { 3, 2 }, { 10, 4 }, { 3, 0 },
    { 2, 0 },   { 15, 0 },  { 10, 5 },  { 3, 1 },  { 2, 0 },  { 15, 1 }, { 4, 6 }, { 3, 4 },  { 3, 5 },
    { 9, 263 }, { 3, 6 },   { 16, 0 },  { 3, 7 },  { 15, 0 }, { 10, 8 }, { 3, 1 }, { 2, 0 },  { 15, 1 },
    { 9, 265 }, { 3, 8 },   { 16, 0 },  { 3, 9 },  { 16, 0 }, { 3, 3 },
};

void lend_printed(void)
{
    lend_script(1, printed, COUNT(printed));
}

void open_printed(unsigned cells)
{
    lend_printed();
    lend_code(ENGINE_CODE_LINES_MAX, ENGINE_CODE_LINES_MAX);
    lend_store(ENGINE_SLOTS_LENGTH(cells), ENGINE_HEADS_LENGTH(cells));
    expect(open_store() == answer(0, 0, 0, 1), "the printed script's store opens");
}

uint64_t deliver_one(int64_t reading, uint64_t budget)
{
    lend_readings(1);
    lent.readings[0] = reading;
    return deliver(budget);
}

bool totals_are(int64_t number)
{
    uint64_t cell = (uint64_t)lent.slots[0];
    return lent.heads[ENGINE_HEADS_OF(cell) + ENGINE_HEAD_LENGTH] == 1 && lent.slots[ENGINE_SLOTS_OF(cell)] == number;
}
