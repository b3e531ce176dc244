/* The static library from C: the trials of document 01 on its printed script, the limits of each argument, damaged
 * files and stores, the deepest deliveries on a small stack, and the test vectors that the arguments name. Every array
 * ends at a page that may not be touched. Exit status 0 where all pass. */
#include "deepest.h"
#include "expect.h"
#include "lent.h"
#include "printed.h"
#include "vectors.h"

#include <stdio.h>
#include <string.h>

static void test_translate(void)
{
    lend_printed();
    for (size_t kinds = 0; kinds < 40; kinds++) {
        size_t operands = kinds % 3 == 0 ? kinds : 4200;
        lend_code(kinds, operands);
        uint64_t found = translate();
        bool fits = kinds >= PRINTED_LINES;
        expect(found == (fits ? answer(0, 0, PRINTED_LINES, 0) : answer(9, 0, 0, 0)), "code arrays of each length");
        expect(code_is_zero_from(fits ? PRINTED_LINES : 0), "zero past the code");
        for (size_t i = 0; fits && i < PRINTED_LINES; i++)
            expect(lent.kinds[i] == printed_code[i].kind && lent.operands[i] == printed_code[i].operand, "a line");
    }
}

static void test_cut_files(void)
{
    uint8_t whole[ENGINE_FILE_LENGTH(PRINTED_NODES)];
    lend_printed();
    memcpy(whole, lent.file, sizeof whole);
    for (size_t length = 0; length < sizeof whole; length++) {
        lend_file(length);
        memcpy(lent.file, whole, length);
        lend_code(50, 50);
        expect(translate() == answer(1, 0, 0, 0) && code_is_zero_from(0), "a cut file");
    }
    lend_file(4);
    memcpy(lent.file, (uint8_t[]){ 1, 0, 0, 0 }, 4);
    expect(translate() == answer(2, 0, 0, 0), "no nodes");
    memcpy(lent.file, (uint8_t[]){ 33, 0, 1, 0 }, 4);
    expect(translate() == answer(2, 0, 0, 0), "33 functions");
    memcpy(lent.file, (uint8_t[]){ 1, 0, 1, 4 }, 4);
    expect(translate() == answer(2, 0, 0, 0), "1,025 nodes");
}

static void test_trials(void)
{
    open_printed(2);
    expect(deliver_one(250, 1000) == answer(0, 0, 4, 1) && totals_are(250), "{250}: 4 steps");
    expect(deliver_one(100, 1000) == answer(0, 0, 6, 1) && totals_are(350), "then {100}: 6 steps, {350}");
    open_printed(2);
    expect(deliver_one(250, 1000) == answer(0, 0, 4, 1), "{250}");
    lend_readings(0);
    expect(deliver(1000) == answer(23, 0, 4, 1) && totals_are(250), "then {}: 23 at step 4");
    open_printed(2);
    expect(deliver_one(250, 3) == answer(21, 0, 3, 1), "budget 3: 21");
    expect(deliver_one(250, 4) == answer(0, 0, 4, 1), "budget 4: done");
    open_printed(1);
    expect(deliver_one(250, 1000) == answer(25, 0, 0, 1), "1 cell: 25 at step 0");
    open_printed(256);
    expect(deliver_one(INT64_MAX, 1000) == answer(0, 254, 4, 1), "the greatest total");
    expect(deliver_one(1, 1000) == answer(24, 254, 5, 1) && totals_are(INT64_MAX), "and {1}: 24 at step 5");
    expect(deliver_one(0, 1000) == answer(0, 254, 6, 1) && totals_are(INT64_MAX), "with {0}: done");
}

static void test_requests(void)
{
    open_printed(2);
    for (size_t count = 1; count <= 20; count++) {
        lend_readings(count);
        memset(lent.readings, 0, count * sizeof *lent.readings);
        unsigned number = engine_answer_number(deliver(1000));
        expect(number == (count <= ENGINE_READINGS_MAX ? ENGINE_DONE : ENGINE_BAD_REQUEST), "16 readings pass");
        expect(code_is_zero_from(number == ENGINE_DONE ? PRINTED_LINES : 0), "the code after 0 and 10");
    }
    expect(deliver_one(1, ENGINE_BUDGET_MAX) == answer(0, 0, 6, 1), "the greatest budget");
    expect(deliver_one(1, ENGINE_BUDGET_MAX + 1) == answer(10, 0, 0, 0), "a greater budget");
    expect(deliver_one(1, UINT64_MAX) == answer(10, 0, 0, 0), "the greatest number as budget");
}

/* Function 1 of a calls itself until its number is 0, by the guard 0 < number; main calls it with the first reading. */
static void test_call_depth(void)
{
    static const struct row rows[] = {
        { 0, 2 },  { 1, 0 }, { 1, 257 }, { 8, 257 }, { 10, 0 }, { 3, 1 }, { 2, 0 },
        { 0, 1 },  { 1, 0 }, { 12, 0 },  { 6, 0 },   { 2, 0 },  { 3, 0 }, { 8, 257 }, { 5, 0 }, { 3, 0 }, { 2, 1 },
        { 2, 7 },
    };
    lend_script(2, rows, COUNT(rows));
    lend_code(100, 100);
    lend_store(ENGINE_SLOTS_LENGTH(1), ENGINE_HEADS_LENGTH(1));
    expect(open_store() == answer(0, 0, 0, 0), "opens without an array");
    uint64_t deep = deliver_one(30, 1000);
    expect(engine_answer_number(deep) == ENGINE_DONE && lent.slots[0] == 7, "call depth 32 passes");
    expect(engine_answer_number(deliver_one(31, 1000)) == ENGINE_CALL_TOO_DEEP, "call depth 33 gives 22");
}

/* The length of {0, 1, 2} replicated as often as the first reading says, which takes 2 cells: a count is judged after
 * the step and before the cell. */
static void test_counts(void)
{
    static const struct row rows[] = {
        { 0, 2 }, { 1, 0 }, { 1, 257 }, { 11, 0 }, { 18, 0 }, { 10, 0 }, { 3, 1 }, { 2, 0 }, { 17, 0 }, { 2, 3 },
    };
    lend_script(1, rows, COUNT(rows));
    lend_code(100, 100);
    for (unsigned cells = 1; cells <= 2; cells++) {
        lend_store(ENGINE_SLOTS_LENGTH(cells), ENGINE_HEADS_LENGTH(cells));
        expect(open_store() == answer(0, 0, 0, 0), "opens without an array");
        bool has_room = cells == 2;
        for (int64_t count = 0; count <= 16; count++) {
            uint64_t wanted = has_room ? answer(0, 0, 4, 0) : answer(25, 0, 3, 0);
            expect(deliver_one(count, 1000) == wanted && (!has_room || lent.slots[0] == count), "counts from 0 to 16");
        }
        expect(deliver_one(17, 1000) == answer(26, cells - 1, 3, 0), "a count of 17 gives 26, before a cell is wanted");
        expect(deliver_one(-1, 1000) == answer(26, cells - 1, 3, 0), "a count of -1 too");
        expect(deliver_one(INT64_MIN, 1000) == answer(26, cells - 1, 3, 0), "and the least number");
        expect(deliver_one(17, 2) == answer(21, cells - 1, 2, 0), "its step comes first");
    }
}

/* An if whose guard is the reading; and the length of a filter of the readings whose guard is the element, after a
 * literal: a guard is judged after the if's step, and after the filter's body, where a wanted cell comes first. */
static void test_guards(void)
{
    static const struct row choice[] = {
        { 0, 258 }, { 1, 256 }, { 1, 257 }, { 12, 0 }, { 10, 0 }, { 3, 1 }, { 2, 0 }, { 9, 0 }, { 9, 1 }, { 2, 7 },
    };
    static const struct row kept[] = {
        { 0, 2 }, { 1, 0 }, { 1, 257 }, { 11, 0 }, { 19, 2 }, { 3, 1 }, { 7, 3 }, { 9, 0 }, { 3, 2 },
    };
    static const int64_t doubtful[] = { 2, -1, INT64_MIN, INT64_MAX };
    lend_script(1, choice, COUNT(choice));
    lend_code(100, 100);
    lend_store(ENGINE_SLOTS_LENGTH(2), ENGINE_HEADS_LENGTH(2));
    expect(open_store() == answer(0, 0, 0, 1), "opens with an array");
    for (size_t i = 0; i < COUNT(doubtful); i++)
        expect(deliver_one(doubtful[i], 1000) == answer(28, 0, 2, 1), "28 after the if's step");
    expect(deliver_one(2, 1) == answer(21, 0, 1, 1), "its step comes first");
    expect(deliver_one(1, 1000) == answer(0, 0, 3, 1), "1 takes the first part");
    expect(deliver_one(0, 1000) == answer(0, 0, 3, 1), "0 takes the second");

    lend_script(1, kept, COUNT(kept));
    for (unsigned cells = 2; cells <= 3; cells++) {
        lend_store(ENGINE_SLOTS_LENGTH(cells), ENGINE_HEADS_LENGTH(cells));
        expect(open_store() == answer(0, 0, 0, 0), "opens without an array");
        bool has_room = cells == 3;
        for (size_t i = 0; i < COUNT(doubtful); i++)
            expect(deliver_one(doubtful[i], 1000) == answer(has_room ? 28 : 25, 0, 3, 0),
                   "28 after the body, a wanted cell first at equal steps");
        expect(!has_room || (deliver_one(1, 1000) == answer(0, 0, 4, 0) && lent.slots[0] == 1), "1 keeps an element");
        expect(!has_room || (deliver_one(0, 1000) == answer(0, 0, 4, 0) && lent.slots[0] == 0), "0 leaves it out");
    }
}

/* The length of {{}, {}, {}}: the readings' cell is free again before the first of four literals, the last of which is
 * the array of the others. So many cells are in use after each budget of steps. */
static void test_lowest(void)
{
    static const struct row rows[] = {
        { 0, 2 }, { 1, 0 }, { 1, 257 }, { 11, 0 }, { 9, 259 }, { 9, 0 }, { 9, 0 }, { 9, 0 },
    };
    static const unsigned in_use[] = { 1, 1, 2, 3, 4, 4 };
    const uint32_t steps = COUNT(in_use) - 1;
    lend_script(1, rows, COUNT(rows));
    lend_code(100, 100);
    for (unsigned cells = ENGINE_CELLS_MIN; cells <= ENGINE_CELLS_MAX; cells++) {
        lend_store(ENGINE_SLOTS_LENGTH(cells), ENGINE_HEADS_LENGTH(cells));
        expect(open_store() == answer(0, 0, 0, 0), "an opening has no lowest level");
        for (uint32_t budget = 0; budget <= steps; budget++) {
            unsigned number = budget == steps ? ENGINE_DONE : ENGINE_OUT_OF_STEPS;
            uint64_t wanted = in_use[budget] <= cells ? answer(number, cells - in_use[budget], budget, 0)
                                                      : answer(25, 0, cells + 1, 0);
            expect(deliver_one(1, budget) == wanted, "the lowest level after each budget of steps");
        }
        expect(check_store() == answer(0, 0, 0, 0), "a check has none");
        expect(deliver_one(1, ENGINE_BUDGET_MAX + 1) == answer(10, 0, 0, 0), "nor has a refusal");
    }
    for (unsigned cells = 2; cells <= ENGINE_CELLS_MAX; cells++) {
        open_printed(cells);
        expect(deliver_one(250, 1000) == answer(0, cells - 2, 4, 1), "the totals' cell and the readings'");
        lend_readings(0);
        expect(deliver(1000) == answer(23, cells - 2, 4, 1), "also where it stops");
        expect(deliver(0) == answer(21, cells - 2, 0, 1), "and where it has no step to take");
    }
}

/* At each call depth 63 ifs and a call take 64 steps and no cell; two literals, 63 reduces of one pass each and a call
 * take 129 steps, and the two cells stay in use. */
static void test_deepest(void)
{
    const uint64_t ifs = answer(22, 255, 64 * ENGINE_CALL_DEPTH_MAX, 0);
    const uint64_t reduces = answer(22, 256 - 2 * ENGINE_CALL_DEPTH_MAX, 129 * ENGINE_CALL_DEPTH_MAX, 0);
    for (int by_code = 0; by_code < 2; by_code++) {
        expect(deliver_deepest(deepest_if_script, by_code) == ifs, "the deepest ifs on ENGINE_STACK_BYTES");
        expect(deliver_deepest(deepest_reduce_script, by_code) == reduces, "the deepest reduces on ENGINE_STACK_BYTES");
    }
}

static void test_store_lengths(void)
{
    lend_printed();
    for (size_t cells = 0; cells <= 257; cells++) {
        for (int more = -1; more <= 1; more++) {
            if (cells == 0 && more < 0)
                continue;
            lend_code(40, 40);
            lend_store(ENGINE_SLOTS_LENGTH(cells), (size_t)((long)ENGINE_HEADS_LENGTH(cells) + more));
            bool fits = more == 0 && cells >= ENGINE_CELLS_MIN && cells <= ENGINE_CELLS_MAX;
            uint64_t found = open_store();
            expect(found == (fits ? answer(0, 0, 0, 1) : answer(11, 0, 0, 0)), "lengths of a store");
            expect(check_store() == found, "a check of the same");
        }
    }
}

/* Each word of a small sound store changed in turn. */
static void test_damaged_store(void)
{
    open_printed(2);
    expect(deliver_one(250, 1000) == answer(0, 0, 4, 1), "a store with totals {250}");
    size_t cell = (size_t)lent.slots[0];
    for (size_t i = 0; i < lent.heads_length; i++) {
        bool is_free_choice = i == ENGINE_HEADS_OF(cell) + ENGINE_HEAD_LENGTH; /* one element more, which is 0 */
        lent.heads[i]++;
        expect(check_store() == (is_free_choice ? answer(0, 0, 0, 1) : answer(11, 0, 0, 0)), "a head changed");
        expect(is_free_choice || deliver_one(1, 1000) == answer(11, 0, 0, 0), "no delivery to it");
        lent.heads[i]--;
    }
    for (size_t i = 0; i < lent.slots_length; i++) {
        bool is_free_choice = i == ENGINE_SLOTS_OF(cell); /* the number itself */
        lent.slots[i] ^= INT64_MIN;
        expect(check_store() == (is_free_choice ? answer(0, 0, 0, 1) : answer(11, 0, 0, 0)), "a slot changed");
        lent.slots[i] ^= INT64_MIN;
    }
    expect(check_store() == answer(0, 0, 0, 1) && totals_are(250), "as it was");
}

int main(int count, char **arguments)
{
    bool agreed = true;
    lend();
    for (int i = 1; i < count; i++)
        agreed &= run_vectors(arguments[i]);
    test_header();
    test_lent();
    test_totals();
    test_faults();
    test_translate();
    test_cut_files();
    test_trials();
    test_requests();
    test_call_depth();
    test_counts();
    test_guards();
    test_lowest();
    test_deepest();
    test_store_lengths();
    test_damaged_store();
    test_saved();
    test_saved_length();
    test_code();
    printf("C link tests: %u passed, %u failed\n", passed, failed);
    return agreed && failed == 0 ? 0 : 1;
}
