/* The meaning of the written nodes and the count of the cells beside the engine, on made scripts and days: numbers,
 * steps, totals and lowest levels must be the engine's, and a 25 must come where a node wants a cell. Its argument is
 * the number of scripts. */
#include "../../host/levels.h"
#include "../../host/meaning.h"
#include "made_scripts.h"

#include <inttypes.h>
#include <stdio.h>
#include <stdlib.h>
#include <string.h>

enum { DELIVERIES = 6, NUMBERS = 32, LEAST = 10 /* of each number */ };

static struct script script;
static uint8_t file[SCRIPT_FILE_BYTES_MAX], kinds[ENGINE_CODE_LINES_MAX];
static int64_t operands[ENGINE_CODE_LINES_MAX], slots[ENGINE_SLOTS_LENGTH(ENGINE_CELLS_MAX)];
static int64_t slots_before[ENGINE_SLOTS_LENGTH(ENGINE_CELLS_MAX)];
static uint32_t heads[ENGINE_HEADS_LENGTH(ENGINE_CELLS_MAX)], heads_before[ENGINE_HEADS_LENGTH(ENGINE_CELLS_MAX)];
static struct levels levels;
static struct code code;
static unsigned found[NUMBERS], passed, failed;

/* The steps that are watched: how many, and the last one's node. */
struct watched {
    uint32_t steps;
    size_t node;
};

static void watch(const struct moment *moment, void *context)
{
    struct watched *watched = context;
    watched->steps += moment->step == watched->steps + 1;
    watched->node = moment->node;
}

static void expect(bool is_so, const char *what, unsigned made, unsigned delivery, uint64_t answer)
{
    passed += is_so;
    failed += !is_so;
    if (!is_so && failed <= 10)
        printf("failed: script %u, delivery %u: %s (the engine: %u after %" PRIu32 " steps, lowest %u)\n", made,
               delivery, what, engine_answer_number(answer), engine_answer_steps(answer), engine_answer_lowest(answer));
}

static bool wants_cell(uint8_t kind)
{
    return kind == ENGINE_KIND_LITERAL || kind == ENGINE_KIND_MAP || kind == ENGINE_KIND_FILTER
           || kind == ENGINE_KIND_IOTA || kind == ENGINE_KIND_REPLICATE;
}

/* A delivery as it was lent, and the engine's answer. */
struct played {
    unsigned made, nth; /* script and delivery */
    size_t cells;
    int64_t readings[ENGINE_READINGS_MAX];
    size_t count;
    uint64_t budget, answer;
};

/* The meaning of the written nodes beside the engine. */
static void compare_meaning(const struct played *p)
{
    static struct pool pool;
    struct watched watched = { 0, 0 };
    unsigned number = engine_answer_number(p->answer), depth = (unsigned)(script.nodes[0].operand / 256);
    uint32_t steps = engine_answer_steps(p->answer);
    struct task task = {
        .script = &script,
        .totals = value_in_store(&pool, slots_before, heads_before, slots_before[0], depth),
        .readings = value_of_numbers(&pool, p->readings, p->count),
        .budget = p->budget,
        .dry_at = number == ENGINE_OUT_OF_CELLS ? steps : NEVER_DRY,
        .watch = watch,
        .context = &watched,
    };
    struct outcome outcome = work_main(&task, &pool);
    struct value totals = value_in_store(&pool, slots, heads, slots[0], depth);
    expect(outcome.number == number, "the meaning's number", p->made, p->nth, p->answer);
    expect(outcome.steps == steps && watched.steps == steps, "the meaning's steps", p->made, p->nth, p->answer);
    expect(same_value(number == ENGINE_DONE ? outcome.result : task.totals, totals), "the totals", p->made, p->nth,
           p->answer);
    if (number == ENGINE_OUT_OF_CELLS && steps > 0)
        expect(outcome.last.node == watched.node && wants_cell(script.nodes[watched.node].kind), "the node of a 25",
               p->made, p->nth, p->answer);
    empty_pool(&pool);
}

/* The count of the cells beside the engine. */
static void compare_cells(const struct played *p)
{
    struct counted_task task = { &code, slots_before, heads_before, p->cells, p->readings, p->count, p->budget };
    work_code(&task, &levels);
    expect(levels.number == engine_answer_number(p->answer) && levels.steps == engine_answer_steps(p->answer),
           "the count's number and steps", p->made, p->nth, p->answer);
    expect(levels.lowest == engine_answer_lowest(p->answer), "the count's lowest level", p->made, p->nth, p->answer);
    if (engine_answer_number(p->answer) == ENGINE_DONE)
        expect(p->cells >= least_cells(&script), "the least cells", p->made, p->nth, p->answer);
}

static void deliver(struct engine_lent *lent, struct random *random, size_t cells, unsigned made, unsigned nth)
{
    struct played p = { .made = made, .nth = nth, .cells = cells };
    p.count = below(random, 5) == 0 ? below(random, 17) : below(random, 4);
    p.budget = below(random, 4) == 0 ? below(random, 30) : 3000;
    for (size_t i = 0; i < p.count; i++)
        p.readings[i] = some_number(random);
    memcpy(slots_before, slots, sizeof slots);
    memcpy(heads_before, heads, sizeof heads);
    p.answer = engine_deliver_lent(lent, p.readings, p.count, p.budget);
    found[engine_answer_number(p.answer)]++;
    compare_meaning(&p);
    compare_cells(&p);
}

static void play(struct random *random, unsigned made)
{
    make_script(random, &script);
    size_t cells = below(random, 3) == 0 ? 1 + below(random, 6) : 4 + below(random, 60);
    struct engine_lent lent = {
        .file = file,
        .file_length = script_file_of(&script, file),
        .kinds = kinds,
        .kinds_length = ENGINE_CODE_LINES_MAX,
        .operands = operands,
        .operands_length = ENGINE_CODE_LINES_MAX,
        .slots = slots,
        .slots_length = ENGINE_SLOTS_LENGTH(cells),
        .heads = heads,
        .heads_length = ENGINE_HEADS_LENGTH(cells),
    };
    uint64_t opened = engine_open_lent(&lent);
    if (engine_answer_number(opened) != ENGINE_DONE) {
        expect(engine_answer_number(opened) == ENGINE_TOO_MANY_NAMES, "a made script is accepted", made, 0, opened);
        return;
    }
    code = code_of(kinds, operands, engine_answer_lines(engine_translate_lent(&lent)));
    for (unsigned i = 1; i <= DELIVERIES; i++)
        deliver(&lent, random, cells, made, i);
}

int main(int count, char **arguments)
{
    static const unsigned wanted[] = { 0, 21, 22, 23, 24, 25, 26, 28 };
    struct random random = { 20261117 };
    unsigned scripts = count > 1 ? (unsigned)atoi(arguments[1]) : 1000;
    for (unsigned made = 0; made < scripts; made++)
        play(&random, made);
    for (size_t i = 0; i < sizeof wanted / sizeof wanted[0]; i++)
        expect(found[wanted[i]] >= LEAST, "each number occurs", wanted[i], found[wanted[i]], wanted[i]);
    printf("meaning: %u scripts, %u deliveries done", scripts, found[0]);
    for (size_t i = 1; i < sizeof wanted / sizeof wanted[0]; i++)
        printf(", %u stopped with %u", found[wanted[i]], wanted[i]);
    printf(": %u passed, %u failed\n", passed, failed);
    return failed == 0 && passed > 0 ? 0 : 1;
}
