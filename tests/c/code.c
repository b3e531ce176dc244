/* Lent code from C: the check's lines and depths, arrays of each length, the order of the refusals, no lent word
 * changed, and deliveries by the code of a script beside deliveries of the script. */
#include "expect.h"
#include "lent.h"
#include "printed.h"

#include <string.h>

enum { CELLS = 4 };

static uint8_t kept_kinds[ENGINE_CODE_LINES_MAX];
static int64_t kept_operands[ENGINE_CODE_LINES_MAX];
static int64_t kept_slots[ENGINE_SLOTS_LENGTH(CELLS)];
static uint32_t kept_heads[ENGINE_HEADS_LENGTH(CELLS)];

/* Lends the code of the printed script, cut or filled with zeros. */
static void lend_printed_code(size_t kinds, size_t operands)
{
    lend_code(kinds, operands);
    for (size_t i = 0; i < kinds; i++)
        lent.kinds[i] = i < PRINTED_LINES ? printed_code[i].kind : 0;
    for (size_t i = 0; i < operands; i++)
        lent.operands[i] = i < PRINTED_LINES ? printed_code[i].operand : 0;
}

static void keep_code(void)
{
    memcpy(kept_kinds, lent.kinds, lent.kinds_length);
    memcpy(kept_operands, lent.operands, lent.operands_length * sizeof *kept_operands);
}

static void keep_store(void)
{
    memcpy(kept_slots, lent.slots, sizeof kept_slots);
    memcpy(kept_heads, lent.heads, sizeof kept_heads);
}

static bool code_is_kept(void)
{
    return memcmp(kept_kinds, lent.kinds, lent.kinds_length) == 0
           && memcmp(kept_operands, lent.operands, lent.operands_length * sizeof *kept_operands) == 0;
}

static bool store_is_kept(void)
{
    return memcmp(kept_slots, lent.slots, sizeof kept_slots) == 0
           && memcmp(kept_heads, lent.heads, sizeof kept_heads) == 0;
}

/* Code of each length that goes on past its shorter array is refused at the first line past it. */
static void test_lengths(void)
{
    for (size_t length = 0; length <= PRINTED_LINES + 7; length++) {
        bool fits = length >= PRINTED_LINES;
        uint64_t wanted = fits ? answer(0, 0, PRINTED_LINES, 0) : answer(29, (unsigned)length, 0, 0);
        lend_printed_code(length, PRINTED_LINES + 7);
        expect(check_code(1) == wanted, "kinds of each length");
        lend_printed_code(PRINTED_LINES + 7, length);
        expect(check_code(1) == wanted, "operands of each length");
    }
    lend_printed_code(ENGINE_CODE_LINES_MAX + 9, ENGINE_CODE_LINES_MAX + 7);
    expect(check_code(1) == answer(0, 0, PRINTED_LINES, 0), "arrays of over 4,096 lines");
    lent.operands[ENGINE_CODE_LINES_MAX] = 1;
    expect(check_code(1) == answer(29, PRINTED_LINES + 1, 0, 0), "zeros before a word are lines of code");
}

static void test_depths(void)
{
    static const uint64_t others[] = { 0, 2, 4, 5, 257, UINT64_MAX };
    lend_printed_code(PRINTED_LINES, PRINTED_LINES);
    for (size_t i = 0; i < COUNT(others); i++)
        expect(check_code(others[i]) == answer(29, 0, 0, 0), "main's shape is not of this depth");
}

/* Each word of the code changed in turn: it passes or is refused at a line up to its end, no word of it is written, and
 * a delivery is refused alike or leaves a sound store. */
static void test_changed_code(void)
{
    open_printed(CELLS);
    keep_store();
    for (size_t i = 0; i < PRINTED_LINES; i++) {
        for (unsigned bit = 0; bit < 8 + 64; bit++) {
            lend_printed_code(PRINTED_LINES, PRINTED_LINES);
            if (bit < 8)
                lent.kinds[i] ^= (uint8_t)(1 << bit);
            else
                lent.operands[i] = (int64_t)((uint64_t)lent.operands[i] ^ (uint64_t)1 << (bit - 8));
            keep_code();
            uint64_t checked = check_code(1);
            bool passes = checked == answer(0, 0, PRINTED_LINES, 0);
            expect(passes || checked == answer(29, engine_answer_line(checked), 0, 0), "a bit of code changed");
            expect(engine_answer_line(checked) <= PRINTED_LINES, "the line at fault");
            lend_readings(1);
            lent.readings[0] = 7;
            uint64_t delivered = deliver_code(1, 1000);
            expect(code_is_kept(), "the code stays as it was lent");
            bool is_worked = !engine_is_refusal(engine_answer_number(delivered));
            expect(passes ? is_worked : delivered == checked, "a delivery by it");
            expect(passes || store_is_kept(), "a refusal leaves the store");
            lend_code(PRINTED_LINES, PRINTED_LINES);
            expect(engine_answer_number(check_store()) == ENGINE_DONE, "and a delivery a sound one");
            memcpy(lent.slots, kept_slots, sizeof kept_slots);
            memcpy(lent.heads, kept_heads, sizeof kept_heads);
        }
    }
}

/* 29 comes before 10, and 10 before 11; nothing lent is changed. */
static void test_order(void)
{
    open_printed(CELLS);
    lent.heads[ENGINE_HEADS_OF(0)] = 9;
    keep_store();
    lend_printed_code(50, 50);
    keep_code();
    lend_readings(ENGINE_READINGS_MAX + 1);
    memset(lent.readings, 0, lent.readings_length * sizeof *lent.readings);
    expect(deliver_code(2, ENGINE_BUDGET_MAX + 1) == answer(29, 0, 0, 0), "29 first");
    expect(deliver_code(1, 1000) == answer(10, 0, 0, 0), "then 10 for the readings");
    lend_readings(0);
    expect(deliver_code(1, ENGINE_BUDGET_MAX + 1) == answer(10, 0, 0, 0), "and for the budget");
    expect(deliver_code(1, 1000) == answer(11, 0, 0, 0), "then 11");
    expect(code_is_kept() && store_is_kept(), "nothing lent is changed");
}

/* One reading by the script, and then, from the same store, by its code: answers and all words are the same. */
static void compare_delivery(int64_t reading, uint64_t budget)
{
    static int64_t slots[ENGINE_SLOTS_LENGTH(CELLS)];
    static uint32_t heads[ENGINE_HEADS_LENGTH(CELLS)];
    memcpy(slots, lent.slots, sizeof slots);
    memcpy(heads, lent.heads, sizeof heads);
    lend_code(50, 50);
    uint64_t by_script = deliver_one(reading, budget);
    expect(lent.kinds[0] == 0 && lent.operands[0] == 258, "the script's code stands");
    keep_code();
    keep_store();
    memcpy(lent.slots, slots, sizeof slots);
    memcpy(lent.heads, heads, sizeof heads);
    expect(deliver_code(1, budget) == by_script && store_is_kept() && code_is_kept(), "by a script and by its code");
}

static void test_deliveries(void)
{
    open_printed(CELLS);
    for (uint64_t budget = 0; budget <= 7; budget++)
        compare_delivery(250, budget);
    compare_delivery(INT64_MAX, 1000);
    compare_delivery(INT64_MIN, 1000);
    expect(totals_are(INT64_MIN + 750), "those with 4, 6 and 7 steps and the last were done");
}

/* The struct of lent code, and the look at it. */
static void test_code_lent(void)
{
    static int64_t readings[1] = { 250 }, code_operands[PRINTED_LINES], slots[ENGINE_SLOTS_LENGTH(2)];
    static uint8_t code_kinds[PRINTED_LINES], file[4], kinds[1];
    static int64_t operands[1];
    static uint32_t heads[ENGINE_HEADS_LENGTH(2)];
    struct engine_lent all = ENGINE_LENT(file, sizeof file, kinds, operands, slots, heads);
    struct engine_code code = { code_kinds, PRINTED_LINES, code_operands, PRINTED_LINES };
    const struct engine_array beside = { "readings", readings, 1, sizeof *readings };
    for (size_t i = 0; i < PRINTED_LINES; i++) {
        code_kinds[i] = printed_code[i].kind;
        code_operands[i] = printed_code[i].operand;
    }
    open_printed(2);
    memcpy(slots, lent.slots, sizeof slots);
    memcpy(heads, lent.heads, sizeof heads);
    expect(engine_check_code_lent(&all, &code) == answer(29, 0, 0, 0), "for the depth that the struct keeps");
    all.depth = 1;
    expect(engine_check_code_lent(&all, &code) == answer(0, 0, PRINTED_LINES, 0), "check lent code beside the struct");
    expect(engine_deliver_code_lent(&all, &code, readings, 1, 1000) == answer(0, 0, 4, 1), "deliver by it");
    expect(engine_element_of(&all, engine_totals(&all), 0).word == 250, "the totals of that");
    expect(engine_code_fault_with(&all, &code, beside).array == NULL, "nothing is wrong with what is lent");
    code.operands = slots;
    expect(engine_code_fault_with(&all, &code, beside).array != NULL, "code in the store's slots");
    code.operands = NULL;
    expect(strcmp(engine_code_fault_with(&all, &code, beside).array, "code operands") == 0, "no operands");
    all.heads_length--;
    expect(strcmp(engine_code_fault_with(&all, &code, beside).array, "slots") == 0, "no store");
}

void test_code(void)
{
    test_lengths();
    test_depths();
    test_changed_code();
    test_order();
    test_deliveries();
    test_code_lent();
}
