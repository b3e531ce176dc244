/* Lent code beside the engine, on the code of made scripts and on changes of it: all that the translator leaves passes;
 * what is changed passes, or is refused at the line that the script tool finds too; and what passes and is tuned from
 * the script's own code gives the script's numbers, steps and totals. Its argument is the number of scripts. */
#include "../../host/code_judge.h"
#include "../../host/tuned_file.h"
#include "../../host/value.h"
#include "made_scripts.h"

#include <stdio.h>
#include <stdlib.h>
#include <string.h>

enum { CHANGES = 12, CELLS = 40, LEAST = 50 /* of each outcome */ };

static struct script script;
static uint8_t file[SCRIPT_FILE_BYTES_MAX], kinds[ENGINE_CODE_LINES_MAX];
static int64_t operands[ENGINE_CODE_LINES_MAX];
static struct tuned tuned;
static unsigned passed, failed, refused[3], tuned_codes, other_codes;

/* A store, and the same once more. */
static struct {
    int64_t slots[ENGINE_SLOTS_LENGTH(CELLS)];
    uint32_t heads[ENGINE_HEADS_LENGTH(CELLS)];
} store, beside;

static void expect(bool is_so, const char *what, unsigned made)
{
    passed += is_so;
    failed += !is_so;
    if (!is_so && failed <= 10)
        printf("failed: script %u: %s\n", made, what);
}

/* ---- Changes ---- */

static void take_out(uint32_t line)
{
    tuned.lines--;
    memmove(tuned.kinds + line, tuned.kinds + line + 1, tuned.lines - line);
    memmove(tuned.operands + line, tuned.operands + line + 1, (tuned.lines - line) * sizeof *tuned.operands);
}

static void put_in(uint32_t line, uint8_t kind, int64_t operand)
{
    memmove(tuned.kinds + line + 1, tuned.kinds + line, tuned.lines - line);
    memmove(tuned.operands + line + 1, tuned.operands + line, (tuned.lines - line) * sizeof *tuned.operands);
    tuned.kinds[line] = kind;
    tuned.operands[line] = operand;
    tuned.lines++;
}

/* A retain or release, counted from a line on and round; the line itself where there is none. */
static uint32_t some_count(uint32_t from)
{
    for (uint32_t i = 0; i < tuned.lines; i++) {
        uint32_t line = (from + i) % tuned.lines;
        if (tuned.kinds[line] == ENGINE_KIND_RETAIN || tuned.kinds[line] == ENGINE_KIND_RELEASE)
            return line;
    }
    return from;
}

/* Moves a retain or release a little, most often; or puts one in, takes a line out, or changes a kind or operand. */
static void change(struct random *random)
{
    uint32_t line = below(random, tuned.lines), count = some_count(line), to;
    uint8_t kind = tuned.kinds[count];
    int64_t operand = tuned.operands[count];
    switch (below(random, 8)) {
    case 0: put_in(line, 14 + (uint8_t)below(random, 2), below(random, 12)); break;
    case 1: take_out(line); break;
    case 2: tuned.operands[line] = below(random, 4) == 0 ? some_number(random) : tuned.operands[line] ^ 1; break;
    case 3: tuned.kinds[line] = (uint8_t)below(random, 23); break;
    default:
        to = count + below(random, 9);
        to = to < 4 ? 0 : to - 4;
        take_out(count);
        put_in(to < tuned.lines ? to : tuned.lines, kind, operand);
        break;
    }
}

/* ---- Deliveries ---- */

static struct value totals_in(struct pool *pool, const int64_t *slots, const uint32_t *heads)
{
    return value_in_store(pool, slots, heads, slots[0], tuned.depth);
}

/* By the code and by the script, each from the same store. */
static void compare_delivery(struct engine_lent *lent, struct random *random, unsigned made, bool is_tuned)
{
    static struct pool pool;
    const struct engine_code code = { tuned.kinds, tuned.lines, tuned.operands, tuned.lines };
    int64_t readings[4] = { some_number(random), some_number(random), 1, 0 };
    size_t count = below(random, 5);
    memcpy(&beside, &store, sizeof store);
    uint64_t by_script = engine_deliver_lent(lent, readings, count, 2000);
    struct engine_lent other = *lent;
    engine_lend_store(&other, beside.slots, beside.heads, CELLS);
    uint64_t by_code = engine_deliver_code_lent(&other, &code, readings, count, 2000);
    unsigned number = engine_answer_number(by_script), found = engine_answer_number(by_code);
    expect(!engine_is_refusal(found), "what passed is worked", made);
    uint64_t checked = engine_check_lent(&other);
    expect(engine_answer_number(checked) == ENGINE_DONE, "it leaves a sound store", made);
    expect(engine_answer_cells(checked) == engine_answer_cells(by_code), "with as many cells as it says", made);
    if (!is_tuned || number == ENGINE_OUT_OF_CELLS || found == ENGINE_OUT_OF_CELLS)
        return;
    expect(number == found && engine_answer_steps(by_script) == engine_answer_steps(by_code), "number, steps", made);
    expect(same_value(totals_in(&pool, store.slots, store.heads), totals_in(&pool, beside.slots, beside.heads)),
           "the totals", made);
    empty_pool(&pool);
}

/* ---- Code ---- */

/* The engine's check and the script tool's; true where the code passes. */
static bool compare_checks(unsigned made)
{
    struct code_fault fault = { .line = 0 };
    bool passes = judge_code(tuned.kinds, tuned.operands, tuned.lines, tuned.depth, &fault);
    uint64_t answer = engine_check_code(tuned.kinds, tuned.lines, tuned.operands, tuned.lines, tuned.depth);
    uint64_t wanted = passes ? (uint64_t)tuned.lines << 24 : ENGINE_BAD_CODE + ((uint64_t)fault.line << 8);
    expect(answer == wanted, passes ? "the tool passes it" : fault.text, made);
    if (!passes)
        refused[fault.test]++;
    return passes && answer == wanted;
}

static void judge(struct engine_lent *lent, struct random *random, unsigned made)
{
    uint32_t lines = engine_answer_lines(engine_translate_lent(lent)), other;
    for (unsigned i = 0; i < CHANGES; i++) {
        /* the call that lent the script left its code there again */
        memcpy(tuned.kinds, kinds, lines);
        memcpy(tuned.operands, operands, lines * sizeof *operands);
        tuned.lines = lines;
        tuned.depth = (unsigned)(operands[0] / 256);
        unsigned changes = i == 0 || lines + 2 > ENGINE_CODE_LINES_MAX ? 0 : 1 + below(random, 2);
        for (; changes > 0; changes--)
            change(random);
        bool is_tuned = is_tuned_from(&tuned, kinds, operands, lines, &other), passes = compare_checks(made);
        expect(i > 0 || (passes && is_tuned), "the translator's code passes", made);
        tuned_codes += passes && is_tuned;
        other_codes += passes && !is_tuned;
        if (passes)
            compare_delivery(lent, random, made, is_tuned);
    }
}

int main(int count, char **arguments)
{
    struct random random = { 20261117 };
    unsigned scripts = count > 1 ? (unsigned)atoi(arguments[1]) : 1000;
    for (unsigned made = 0; made < scripts; made++) {
        make_script(&random, &script);
        size_t length = script_file_of(&script, file);
        struct engine_lent lent = ENGINE_LENT(file, length, kinds, operands, store.slots, store.heads);
        if (engine_answer_number(engine_open_lent(&lent)) == ENGINE_DONE)
            judge(&lent, &random, made);
    }
    for (unsigned test = TEST_OF_FORM; test <= TEST_OF_HOLDS; test++)
        expect(refused[test] >= LEAST, "each test refuses some", refused[test]);
    expect(tuned_codes >= LEAST && other_codes >= LEAST, "some pass", tuned_codes);
    printf("code: %u scripts, %u codes tuned and %u others; refused for form %u, scope %u, holds %u: %u passed, %u"
           " failed\n", scripts, tuned_codes, other_codes, refused[0], refused[1], refused[2], passed, failed);
    return failed == 0 && passed > 0 ? 0 : 1;
}
