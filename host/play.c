/* Playing a day on the engine for a person who tests a script. Each delivery is worked beside the engine on the values
 * of the written nodes, and number, steps and totals must be the same. */
#include "play.h"
#include "levels.h"
#include "place.h"
#include "play_day.h"

#include <inttypes.h>
#include <stdio.h>
#include <string.h>

enum { DAY_BYTES_MAX = 1 << 22 };

struct play {
    const struct script *script;
    const struct play_options *options;
    struct engine_lent lent;
    struct code code;
    unsigned depth;         /* of the totals */
    struct pool pool;       /* the arrays of one delivery */
    unsigned deliveries, done, expected, differing;
    unsigned lowest;        /* level of the day */
    uint32_t steps;         /* the most of a delivery */
    bool ran_dry, was_spent; /* a delivery stopped with 25, with 21 */
};

static uint8_t day_bytes[DAY_BYTES_MAX], file[SCRIPT_FILE_BYTES_MAX];
static int64_t slots[ENGINE_SLOTS_LENGTH(ENGINE_CELLS_MAX)], slots_before[ENGINE_SLOTS_LENGTH(ENGINE_CELLS_MAX)];
static uint32_t heads[ENGINE_HEADS_LENGTH(ENGINE_CELLS_MAX)], heads_before[ENGINE_HEADS_LENGTH(ENGINE_CELLS_MAX)];
static struct levels levels;

/* ---- What differs ---- */

static struct value totals_of(struct play *p)
{
    return value_in_store(&p->pool, slots, heads, slots[0], p->depth);
}

/* The engine's answer, and what the meaning of the nodes or the count of the cells makes of the delivery. */
static void say_disagreement(struct play *p, const char *what, uint64_t answer, unsigned number, uint32_t steps)
{
    complain("delivery %u: the engine answers %u after %" PRIu32 " steps, lowest %u, and %s gives %u after %" PRIu32
             " steps: one of them is at fault; please report it with the script and the day", p->deliveries,
             engine_answer_number(answer), engine_answer_steps(answer), engine_answer_lowest(answer), what, number,
             steps);
    p->differing++;
}

static void say_difference(struct play *p, const struct text *day, const struct expectation *e, unsigned number)
{
    p->differing++;
    if (e->what == EXPECTED_NUMBER || number != ENGINE_DONE)
        complain_in(day, day->line, e->at, "expected %s, and it is %u %s",
                    e->what == EXPECTED_TOTALS ? "these totals" : engine_word(e->number), number, engine_word(number));
    else
        complain_in(day, day->line, e->at, "the totals are not as expected");
    if (e->what == EXPECTED_NUMBER)
        return;
    fputs("  expected  ", stderr);
    write_value(stderr, e->totals);
    fputs("\n  found     ", stderr);
    write_value(stderr, totals_of(p));
    fputc('\n', stderr);
}

/* Whether the answer is as the day expects it. */
static bool is_met(struct play *p, const struct expectation *e, unsigned number)
{
    if (e->what == EXPECTED_NUMBER)
        return number == e->number;
    return number == ENGINE_DONE && same_value(e->totals, totals_of(p));
}

/* ---- Steps ---- */

static void print_watched(const struct moment *moment, void *context)
{
    const struct play *p = context;
    print_step(p->script, moment, levels.free[moment->step - 1]);
}

/* Counts the cells of the delivery that was just worked. */
static void count_cells(struct play *p, const struct delivery *delivery, uint64_t answer)
{
    struct counted_task task = {
        .code = &p->code,
        .slots = slots_before,
        .heads = heads_before,
        .cells = p->options->cells,
        .readings = delivery->readings,
        .count = delivery->count,
        .budget = delivery->budget,
    };
    work_code(&task, &levels);
    if (levels.number != engine_answer_number(answer) || levels.steps != engine_answer_steps(answer)
        || levels.lowest != engine_answer_lowest(answer))
        say_disagreement(p, "the count of its cells", answer, levels.number, levels.steps);
    printf("delivery %u\n", p->deliveries);
    print_steps_head();
}

/* ---- Deliveries ---- */

static void print_delivery(struct play *p, const struct text *day, uint64_t answer)
{
    unsigned number = engine_answer_number(answer);
    printf("delivery %-3u line %-4u %2u %-16s", p->deliveries, day->line, number, engine_word(number));
    if (!engine_is_refusal(number))
        printf("%6" PRIu32 " steps, lowest %3u free", engine_answer_steps(answer), engine_answer_lowest(answer));
    printf("  ");
    write_value(stdout, totals_of(p));
    putchar('\n');
}

/* Works a delivery that was not refused on the values, for the place of a stop. */
static void work_beside(struct play *p, const struct delivery *delivery, struct value totals, uint64_t answer,
                        struct task *task, struct outcome *outcome)
{
    unsigned number = engine_answer_number(answer);
    *task = (struct task){
        .script = p->script,
        .totals = totals,
        .readings = value_of_numbers(&p->pool, delivery->readings, delivery->count),
        .budget = delivery->budget,
        .dry_at = number == ENGINE_OUT_OF_CELLS ? engine_answer_steps(answer) : NEVER_DRY,
        .watch = p->options->traces ? print_watched : NULL,
        .context = p,
    };
    if (p->options->traces)
        count_cells(p, delivery, answer);
    *outcome = work_main(task, &p->pool);
    if (outcome->number != number || outcome->steps != engine_answer_steps(answer))
        say_disagreement(p, "the meaning of its nodes", answer, outcome->number, outcome->steps);
    else if (!same_value(number == ENGINE_DONE ? outcome->result : totals, totals_of(p)))
        say_disagreement(p, "the meaning of its nodes, with other totals,", answer, outcome->number, outcome->steps);
}

static void deliver(struct play *p, const struct text *day, const struct delivery *delivery,
                    const struct expectation *expectation)
{
    struct task task;
    struct outcome outcome = { .number = ENGINE_DONE };
    struct value totals = totals_of(p);
    memcpy(slots_before, slots, sizeof slots);
    memcpy(heads_before, heads, sizeof heads);
    uint64_t answer = engine_deliver_lent(&p->lent, delivery->readings, delivery->count, delivery->budget);
    unsigned number = engine_answer_number(answer);
    p->deliveries++;
    p->done += number == ENGINE_DONE;
    p->ran_dry |= number == ENGINE_OUT_OF_CELLS;
    p->was_spent |= number == ENGINE_OUT_OF_STEPS;
    if (!engine_is_refusal(number)) {
        work_beside(p, delivery, totals, answer, &task, &outcome);
        if (engine_answer_lowest(answer) < p->lowest)
            p->lowest = engine_answer_lowest(answer);
        if (engine_answer_steps(answer) > p->steps)
            p->steps = engine_answer_steps(answer);
    }
    print_delivery(p, day, answer);
    bool expects = expectation->what != EXPECTED_NOTHING, meets = expects && is_met(p, expectation, number);
    p->expected += expects;
    if (engine_is_stop(number) && !meets && outcome.number == number)
        explain_stop(p->script, &outcome, &task);
    if (expects && !meets)
        say_difference(p, day, expectation, number);
}

/* Every faulty line is named before anything is played. */
static void judge(struct play *p, struct text day)
{
    struct delivery delivery;
    struct expectation expectation;
    unsigned faults = 0;
    while (next_line(&day)) {
        faults += expected_delivery_of(&day, 0, p->depth, &p->pool, &delivery, &expectation) == LINE_FAULTY;
        empty_pool(&p->pool);
    }
    if (faults > 0)
        fail(STATUS_UNUSABLE, "%s: %u faulty line%s; nothing was played", day.path, faults, faults == 1 ? "" : "s");
}

static void play_lines(struct play *p, struct text day)
{
    struct delivery delivery;
    struct expectation expectation;
    while (next_line(&day)) {
        if (expected_delivery_of(&day, p->options->budget, p->depth, &p->pool, &delivery, &expectation)
            == LINE_DELIVERY)
            deliver(p, &day, &delivery, &expectation);
        empty_pool(&p->pool);
    }
}

static void print_end(const struct play *p)
{
    printf("day: %u deliver%s, %u done", p->deliveries, p->deliveries == 1 ? "y" : "ies", p->done);
    if (p->expected > 0)
        printf("; %u expected, %u differ%s", p->expected, p->differing, p->differing == 1 ? "s" : "");
    size_t cells = p->ran_dry ? p->options->cells : p->options->cells - p->lowest;
    printf("; %zu cell%s %s", cells, cells == 1 ? " is" : "s are", p->ran_dry ? "too few" : "needed");
    if (p->was_spent)
        printf(", and a budget is too small\n");
    else
        printf(", and %" PRIu32 " step%s\n", p->steps, p->steps == 1 ? "" : "s");
}

int play_day(const struct script *script, uint8_t *kinds, int64_t *operands, const struct play_options *options)
{
    struct play p = { .script = script, .options = options, .depth = (unsigned)(script->nodes[0].operand / 256) };
    p.lent = (struct engine_lent){
        .file = file,
        .file_length = script_file_of(script, file),
        .kinds = kinds,
        .kinds_length = ENGINE_CODE_LINES_MAX,
        .operands = operands,
        .operands_length = ENGINE_CODE_LINES_MAX,
        .slots = slots,
        .slots_length = ENGINE_SLOTS_LENGTH(options->cells),
        .heads = heads,
        .heads_length = ENGINE_HEADS_LENGTH(options->cells),
    };
    struct text day = text_of(options->day, day_bytes, read_whole(options->day, day_bytes, sizeof day_bytes));
    judge(&p, day);
    p.code = code_of(kinds, operands, engine_answer_lines(engine_translate_lent(&p.lent)));
    uint64_t answer = engine_open_lent(&p.lent);
    p.lowest = (unsigned)options->cells - engine_answer_cells(answer);
    play_lines(&p, day);
    print_end(&p);
    return p.differing > 0 ? STATUS_REFUSED : 0;
}
