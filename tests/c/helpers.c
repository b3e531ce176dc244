/* What the header has beside the calls: the parts of an answer, the sizes, the calls on one struct, the totals by their
 * parts, and the look at what is lent. */
#include "expect.h"
#include "lent.h"
#include "printed.h"

#include <inttypes.h>
#include <stdio.h>
#include <string.h>

void test_header(void)
{
    uint64_t parts = answer(23, 1024, 1000000, 256);
    expect(engine_answer_number(parts) == 23 && engine_answer_node(parts) == 1024, "number and node");
    expect(engine_answer_lowest(parts) == 1024, "the lowest level in the node's place");
    expect(engine_answer_line(parts) == 1024, "and the line of lent code at fault");
    expect(engine_answer_steps(parts) == 1000000 && engine_answer_lines(parts) == 1000000, "steps and lines");
    expect(engine_answer_cells(parts) == 256, "cells");
    expect(strcmp(engine_word(ENGINE_UNKNOWN_NAME), "no such nozzle") == 0, "a word");
    expect(strcmp(engine_word(ENGINE_BAD_COUNT), "bad count") == 0, "the word of 26");
    expect(strcmp(engine_word(ENGINE_BAD_LABEL), "bad label") == 0, "the word of 27");
    expect(strcmp(engine_word(ENGINE_BAD_GUARD), "doubtful switch") == 0, "the word of 28");
    expect(strcmp(engine_word(ENGINE_BAD_CODE), "bad conversion") == 0, "the word of 29");
    expect(strcmp(engine_word(12), "unknown number") == 0, "no word");
    for (unsigned number = 0; number < 256; number++) {
        bool is_refusal = (number >= 1 && number <= 11) || number == 27 || number == 29;
        bool is_stop = (number >= 21 && number <= 26) || number == 28;
        expect(engine_is_refusal(number) == is_refusal && engine_is_stop(number) == is_stop, "refusals and stops");
        bool has_word = strcmp(engine_word(number), "unknown number") != 0;
        expect(has_word == (number == 0 || is_refusal || is_stop), "a word for each number");
    }
    for (unsigned kind = 0; kind < 256; kind++)
        expect(engine_is_node_kind(kind) == (kind <= 13 || (kind >= 17 && kind <= 20)), "kinds of nodes");
    expect(ENGINE_KINDS == ENGINE_KIND_REWRITING_MAP + 1, "all kinds");
    expect(ENGINE_FILE_LENGTH_MAX == 9220, "the longest file");
    expect(ENGINE_SLOTS_LENGTH(256) == 4097 && ENGINE_HEADS_LENGTH(256) == 1025, "the largest store");
    expect(ENGINE_SAVED_LENGTH_MAX == 36867, "the longest saved totals");
    expect(ENGINE_STORE_BYTES(256) == 12 + 144 * 256, "the bytes of the largest store");
    expect(engine_library_version() == ENGINE_VERSION, "the library's version");
    expect(strlen(engine_library_commit()) > 0, "the library's commit");
}

/* What is lent, as the struct has it. */
static struct engine_lent all_lent(void)
{
    return (struct engine_lent){
        .file = lent.file, .file_length = lent.file_length,
        .kinds = lent.kinds, .kinds_length = lent.kinds_length,
        .operands = lent.operands, .operands_length = lent.operands_length,
        .slots = lent.slots, .slots_length = lent.slots_length,
        .heads = lent.heads, .heads_length = lent.heads_length,
    };
}

/* The calls on one struct are the calls. */
void test_lent(void)
{
    open_printed(2);
    struct engine_lent all = all_lent();
    const int64_t readings[1] = { 250 };
    expect(engine_translate_lent(&all) == answer(0, 0, PRINTED_LINES, 0), "translate on the struct");
    expect(engine_deliver_lent(&all, readings, 1, 1000) == answer(0, 0, 4, 1) && totals_are(250), "deliver on it");
    expect(engine_check_lent(&all) == answer(0, 0, 0, 1) && totals_are(250), "check on it");
    uint8_t saved[ENGINE_SAVED_LENGTH(2)];
    expect(engine_save_lent(&all, saved, sizeof saved) == answer(0, 0, 0, 1), "save on it");
    expect(engine_open_lent(&all) == answer(0, 0, 0, 1) && lent.slots[0] == 0, "open on it");
    expect(engine_restore_lent(&all, saved, sizeof saved) == answer(0, 0, 0, 1) && totals_are(250), "restore on it");
    for (size_t i = 0; i < PRINTED_LINES; i++)
        expect(lent.kinds[i] == printed_code[i].kind, "a kind");
    expect(printed_code[10].kind == ENGINE_KIND_RELEASE && printed_code[20].kind == ENGINE_KIND_END, "kinds by name");
}

/* ---- The totals ---- */

/* A value as text, such as "{{1, 2}, {}}"; a word that names no cell is '?'. Gives where the text ends. */
static char *put_value(char *text, const struct engine_lent *of, struct engine_value value)
{
    if (value.depth == 0)
        return text + sprintf(text, "%" PRId64, value.word);
    if (!engine_is_array(of, value))
        return text + sprintf(text, "?");
    text += sprintf(text, "{");
    for (unsigned i = 0; i < engine_length_of(of, value); i++)
        text = put_value(text + sprintf(text, "%s", i > 0 ? ", " : ""), of, engine_element_of(of, value, i));
    return text + sprintf(text, "}");
}

static bool shows(const struct engine_lent *of, const char *wanted)
{
    static char text[1 << 21];
    put_value(text, of, engine_totals(of));
    return strcmp(text, wanted) == 0;
}

/* main(totals, readings) = {readings, {}}: shown after 0, after a stop and after each kind of refusal, when the code
 * arrays are all zero. */
static void test_totals_shown(void)
{
    static const struct row rows[] = { { 0, 514 }, { 1, 512 }, { 1, 257 }, { 9, 258 }, { 3, 1 }, { 9, 0 } };
    static const int64_t readings[ENGINE_READINGS_MAX + 1] = { 250, -7 };
    lend_script(1, rows, COUNT(rows));
    lend_code(100, 100);
    lend_store(ENGINE_SLOTS_LENGTH(8), ENGINE_HEADS_LENGTH(8));
    struct engine_lent all = all_lent();
    expect(engine_open_lent(&all) == answer(0, 0, 0, 1) && all.depth == 2 && shows(&all, "{}"), "totals of an open");
    expect(engine_answer_number(engine_deliver_lent(&all, readings, 2, 1000)) == ENGINE_DONE, "a delivery");
    expect(shows(&all, "{{250, -7}, {}}"), "totals of a delivery");
    expect(engine_answer_number(engine_deliver_lent(&all, readings, 2, 0)) == ENGINE_OUT_OF_STEPS, "a stop");
    expect(shows(&all, "{{250, -7}, {}}"), "totals after a stop");
    expect(engine_deliver_lent(&all, readings, ENGINE_READINGS_MAX + 1, 0) == answer(10, 0, 0, 0), "a refusal");
    expect(lent.operands[0] == 0 && shows(&all, "{{250, -7}, {}}"), "totals after a refusal");
    all.file_length--;
    expect(engine_check_lent(&all) == answer(1, 0, 0, 0) && shows(&all, "{{250, -7}, {}}"), "and after a cut file");
    all.file_length++;
    all.depth = 0;
    expect(engine_check_lent(&all) == answer(0, 0, 0, 3) && shows(&all, "{{250, -7}, {}}"), "a check keeps the depth");
    all.depth = 0;
    expect(engine_answer_number(engine_translate_lent(&all)) == ENGINE_DONE && all.depth == 2, "and a translation");
    expect(engine_element_of(&all, engine_totals(&all), 2).word == 0, "no third element");
}

/* Words that are not sound: nothing outside the store is read, which ends at pages that may not be touched. */
static void test_totals_of_damage(void)
{
    static const int64_t words[] = { -1, 2, INT64_MIN, INT64_MAX };
    lend_store(ENGINE_SLOTS_LENGTH(2), ENGINE_HEADS_LENGTH(2));
    struct engine_lent all = all_lent();
    all.depth = 1;
    for (size_t i = 0; i < COUNT(words); i++) {
        lent.slots[0] = words[i];
        expect(shows(&all, "?") && engine_length_of(&all, engine_totals(&all)) == 0, "a word that names no cell");
    }
    for (int64_t cell = 0; cell < 2; cell++) {
        lent.slots[0] = cell;
        expect(engine_length_of(&all, engine_totals(&all)) == ENGINE_CELL_SLOTS, "a length beyond a cell's slots");
        lent.heads[ENGINE_HEADS_OF(cell) + ENGINE_HEAD_LENGTH] = 1;
        lent.slots[ENGINE_SLOTS_OF(cell)] = 9;
        expect(shows(&all, "{9}"), "a cell by the names of its words");
    }
    for (size_t length = 0; length < ENGINE_SLOTS_LENGTH(2); length++) {
        all.slots_length = length;
        expect(engine_cells(&all) == 0 && shows(&all, "0"), "lengths that are not those of a store");
    }
}

void test_totals(void)
{
    test_totals_shown();
    test_totals_of_damage();
}

/* ---- The look at what is lent ---- */

static int64_t all_operands[50], all_slots[ENGINE_SLOTS_LENGTH(3)], more_slots[ENGINE_SLOTS_LENGTH(5)];
static uint32_t all_heads[ENGINE_HEADS_LENGTH(3)], more_heads[ENGINE_HEADS_LENGTH(5)];
static uint8_t all_file[ENGINE_FILE_LENGTH(PRINTED_NODES)], all_kinds[50];

static bool is_fault(struct engine_fault fault, const char *array, const char *what, const char *other)
{
    return fault.array != NULL && strcmp(fault.array, array) == 0 && strcmp(fault.what, what) == 0
           && strcmp(fault.other, other) == 0;
}

/* Sets one of the struct's members, and gives the fault that is seen. */
#define FAULT_WITH(member, value) (with = lent_well(), with.member = (value), engine_lent_fault(&with))

static struct engine_lent lent_well(void)
{
    struct engine_lent well = ENGINE_LENT(all_file, sizeof all_file, all_kinds, all_operands, all_slots, all_heads);
    return well;
}

static void *astray(void *array)
{
    return (unsigned char *)array + 1;
}

/* Readings lent beside the five arrays. */
static void test_readings_fault(void)
{
    struct engine_lent well = lent_well();
    struct engine_array readings = { "readings", more_slots, 16, sizeof *more_slots };
    expect(engine_lent_fault_with(&well, readings).array == NULL, "readings apart from all");
    readings.first = astray(more_slots);
    expect(is_fault(engine_lent_fault_with(&well, readings), "readings", "is not aligned", ""), "readings astray");
    readings.first = all_slots + ENGINE_SLOTS_LENGTH(3) - 1;
    readings.length = 1;
    expect(is_fault(engine_lent_fault_with(&well, readings), "readings", "overlaps", "slots"), "readings in the slots");
    readings.length = 0;
    expect(engine_lent_fault_with(&well, readings).array == NULL, "no readings overlap nothing");
    readings.first = NULL;
    expect(is_fault(engine_lent_fault_with(&well, readings), "readings", "is null", ""), "null, for no readings too");
}

static void test_overlaps(void)
{
    struct engine_lent with;
    expect(is_fault(FAULT_WITH(file, all_kinds), "kinds", "overlaps", "file"), "the file in the kinds");
    with.kinds_length = 20;
    with.file = all_kinds + 20;
    with.file_length = 30;
    expect(engine_lent_fault(&with).array == NULL, "arrays that touch lie apart");
    with.kinds_length = 21;
    expect(is_fault(engine_lent_fault(&with), "kinds", "overlaps", "file"), "and do not, a byte longer");
    with.kinds = all_kinds + 30;
    with.kinds_length = 20;
    with.file = all_kinds;
    expect(engine_lent_fault(&with).array == NULL, "the other way round too");
    engine_lend_store(&with, more_slots, more_heads, ENGINE_CELLS_MAX + 1);
    expect(engine_cells(&with) == 0, "257 cells are no store");
    expect(is_fault(FAULT_WITH(slots, all_operands), "slots", "overlaps", "operands"), "the slots in the operands");
    void *inside = all_slots;
    expect(is_fault(FAULT_WITH(heads, inside), "heads", "overlaps", "slots"), "heads in the slots");
}

void test_faults(void)
{
    struct engine_lent with = lent_well();
    test_readings_fault();
    test_overlaps();
    expect(with.kinds_length == 50 && with.operands_length == 50 && engine_cells(&with) == 3, "lengths are counted");
    expect(engine_lent_fault(&with).array == NULL, "nothing is wrong");
    engine_lend_store(&with, more_slots, more_heads, 5);
    expect(engine_lent_fault(&with).array == NULL && engine_cells(&with) == 5, "nor with another store");
    expect(is_fault(FAULT_WITH(file, NULL), "file", "is null", ""), "no file");
    expect(is_fault(FAULT_WITH(kinds, NULL), "kinds", "is null", ""), "no kinds");
    expect(is_fault(FAULT_WITH(operands, NULL), "operands", "is null", ""), "no operands");
    expect(is_fault(FAULT_WITH(slots, NULL), "slots", "is null", ""), "no slots");
    expect(is_fault(FAULT_WITH(heads, NULL), "heads", "is null", ""), "no heads");
    expect(is_fault(FAULT_WITH(operands, astray(all_operands)), "operands", "is not aligned", ""), "operands astray");
    expect(is_fault(FAULT_WITH(slots, astray(all_slots)), "slots", "is not aligned", ""), "slots astray");
    expect(is_fault(FAULT_WITH(heads, astray(all_heads)), "heads", "is not aligned", ""), "heads astray");
    with = lent_well();
    with.kinds++;
    with.kinds_length--;
    expect(engine_lent_fault(&with).array == NULL, "bytes are never astray");
    expect(is_fault(FAULT_WITH(file_length, SIZE_MAX), "file", "is longer than the memory after it", ""), "too long");
    expect(is_fault(FAULT_WITH(kinds_length, 0), "kinds", "has no room for a line", ""), "no line of code");
    expect(is_fault(FAULT_WITH(operands_length, 0), "operands", "has no room for a line", ""), "no operand");
    for (size_t length = 0; length < ENGINE_SLOTS_LENGTH(5); length++) {
        bool is_right = length == ENGINE_SLOTS_LENGTH(3);
        struct engine_fault fault = FAULT_WITH(slots_length, length);
        const char *what = "has not the length of a store beside";
        expect(is_right ? fault.array == NULL : is_fault(fault, "slots", what, "heads"), "slots of each length");
    }
}
