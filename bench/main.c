/* Measures the eight calls and prints a line for each case: its name and values as KEY=VALUE, for bench/report.
 * Times are of this thread's processor time, in nanoseconds a call: the least of several rounds, many calls each. Where
 * there is a base that knows the script's kinds, its rounds and this library's come in turn, and so do the rounds of
 * cases that are set beside each other. The environment's ROUNDS says how many there are. With --library it tells the
 * library's version and commit, and measures nothing. */
#define _POSIX_C_SOURCE 200809L
#include "calls.h"
#include "stack.h"

#include <inttypes.h>
#include <stdio.h>
#include <stdlib.h>
#include <string.h>
#include <time.h>

enum { ROUNDS = 25, ROUND_NANOSECONDS = 10000000, TURNS_MAX = 3 };

static const struct bench_case cases[] = {
    { "printed_2", printed_script, 2, LINES, 1, 1, ENGINE_DONE, CALLS, false },
    { "printed_2_short", printed_script, 2, 0, 1, 1, ENGINE_DONE, CALLS, false },
    { "printed_256", printed_script, 256, LINES, 1, 1, ENGINE_DONE, CALLS, false },
    { "nodes_1024", large_script, 16, LINES, 1, 1, ENGINE_DONE, CALLS, false },
    { "mixed_1024", mixed_script, 16, LINES, 1, 1, ENGINE_DONE, CALLS, false },
    { "second_1024", second_script, 16, LINES, 1, 1, ENGINE_DONE, CALLS, false },
    { "levels_64", level_script, 16, LINES, 1, 1, ENGINE_DONE, CALLS, false },
    { "functions_32", small_functions_script, 16, LINES, 1, 1, ENGINE_DONE, CALLS, false },
    { "handed_round", handed_round_script, 16, LINES, 1, 1, ENGINE_DONE, CALLS, false },
    { "read_round", read_round_script, 16, LINES, 1, 1, ENGINE_DONE, CALLS, false },
    { "balanced_ifs", balanced_if_script, 16, LINES, 1, 1, ENGINE_DONE, CALLS, false },
    { "maps", map_script, 16, LINES, 1, 1, ENGINE_DONE, CALLS, false },
    { "filters", filter_script, 16, LINES, 1, 1, ENGINE_DONE, CALLS, true },
    { "reduces", reduce_script, 16, LINES, 1, 1, ENGINE_DONE, CALLS, true },
    { "map_chain", map_chain_script, 16, LINES, 1, 1, ENGINE_DONE, CALLS, false },
    { "calls", call_script, 16, LINES, 1, 20, ENGINE_DONE, CALLS, false },
    { "passed_down", passed_down_script, 16, LINES, 1, 1, ENGINE_DONE, CALLS, false },
    { "largest_totals", largest_totals_script, 256, LINES, 1, 1, ENGINE_DONE, CALLS, false },
    { "size_128", size_128_script, 16, 0, 1, 1, ENGINE_DONE, 2, false },
    { "size_256", size_256_script, 16, 0, 1, 1, ENGINE_DONE, 2, false },
    { "size_512", size_512_script, 16, 0, 1, 1, ENGINE_DONE, 2, false },
    { "size_1024", size_1024_script, 16, 0, 1, 1, ENGINE_DONE, 2, false },
    { "skipped_branch", skipped_branch_script, 256, LINES, 16, 1, ENGINE_OUT_OF_STEPS, CALLS, false },
    { "skipped_releases", skipped_release_script, 256, LINES, 16, 1, ENGINE_OUT_OF_STEPS, CALLS, false },
    { "skipped_body", skipped_body_script, 256, LINES, 16, 1, ENGINE_DONE, CALLS, false },
    { "many_arrays", many_arrays_script, 256, LINES, 16, 1, ENGINE_OUT_OF_STEPS, CALLS, false },
    { "many_replicates", many_replicates_script, 256, LINES, 16, 1, ENGINE_OUT_OF_STEPS, CALLS, false },
    { "deep_arrays", deep_array_script, 256, LINES, 1, 0, ENGINE_DONE, 0, false },
    { "deep_bodies", deep_body_script, 256, LINES, 1, 0, ENGINE_DONE, 0, false },
    { "deep_reduces", deep_reduce_script, 256, LINES, 1, 0, ENGINE_DONE, 0, false },
    { "deep_ifs", deep_if_script, 256, LINES, 1, 0, ENGINE_CALL_TOO_DEEP, 0, false },
    { "deep_mixed", deep_mixed_script, 256, LINES, 1, 0, ENGINE_CALL_TOO_DEEP, 0, false },
    { "deepest_ifs", deepest_if_script, 256, LINES, 1, 0, ENGINE_CALL_TOO_DEEP, 0, false },
    { "deepest_reduces", deepest_reduce_script, 256, LINES, 1, 0, ENGINE_CALL_TOO_DEEP, 0, false },
};

static struct bench benches[TURNS_MAX];

/* ---- Time ---- */

static uint64_t now(void)
{
    struct timespec time;
    clock_gettime(CLOCK_THREAD_CPUTIME_ID, &time);
    return (uint64_t)time.tv_sec * 1000000000 + (uint64_t)time.tv_nsec;
}

static uint64_t repeated(const struct timed *timed)
{
    timed->bench->engine = timed->engine;
    uint64_t start = now();
    for (uint64_t i = 0; i < timed->times; i++)
        timed->call->work(timed->bench);
    return now() - start;
}

/* Finds how many times make a round; the last try is the first round. Where a round is long there are few, which take
 * about as long as those of a short one, but two at least. */
static void calibrate(struct timed *timed, uint64_t rounds)
{
    while (timed->least < ROUND_NANOSECONDS) {
        timed->times *= 2;
        timed->least = repeated(timed);
    }
    uint64_t few = 2 * rounds * ROUND_NANOSECONDS / timed->least;
    few = few < 2 ? 2 : few;
    timed->rounds = (few < rounds ? few : rounds) - 1;
}

static void time_round(struct timed *timed)
{
    uint64_t taken = repeated(timed);
    timed->least = taken < timed->least ? taken : timed->least;
    timed->rounds--;
}

/* ---- Cases ---- */

static void demand(const struct timed *timed, unsigned number)
{
    unsigned found = engine_answer_number(timed->bench->answer);
    if (found != number) {
        fprintf(stderr, "%s: %s%s answered %u %s, node %u\n", timed->bench->of->name, timed->engine->mark,
                timed->call->name, found, engine_word(found), engine_answer_node(timed->bench->answer));
        exit(1);
    }
}

/* Finds how many of the libraries know the script's kinds: a base of the first edition refuses those of the second. */
static void find_knowing(struct bench *b)
{
    for (b->knowing = 1; b->knowing < ENGINES; b->knowing++) {
        b->engine = &engines[b->knowing];
        calls[TRANSLATE].work(b);
        if (engine_answer_number(b->answer) == ENGINE_MALFORMED)
            return;
    }
}

/* Prepares what is lent. */
static void prepare(struct bench *b, const struct bench_case *c)
{
    const struct timed first = { &calls[0], &engines[0], b, 1, 0, 0 };
    b->of = c;
    c->script(&b->script);
    b->cells = c->cells;
    b->readings_length = c->readings;
    for (size_t i = 0; i < c->readings; i++)
        b->readings[i] = c->reading;
    b->lines = LINES;
    repeated(&first);
    demand(&first, ENGINE_DONE);
    b->code_lines = engine_answer_lines(b->answer);
    b->lines = c->lines == 0 ? b->code_lines : c->lines;
    memcpy(b->lent_kinds, b->kinds, sizeof b->kinds);
    memcpy(b->lent_operands, b->operands, sizeof b->operands);
    find_knowing(b);
}

/* The number that call `i` must answer. */
static unsigned wanted(const struct bench_case *c, int i)
{
    return i == DELIVER || i == DELIVER_CODE ? c->number : ENGINE_DONE;
}

/* Whether a library before this one answered call `i` the same. Before order 7 the code may have other lines, and the
 * lowest level be another; before order 2 there is none. */
static bool is_same_answer(int i, uint64_t now, uint64_t before)
{
    return engine_answer_number(now) == engine_answer_number(before) &&
           engine_answer_cells(now) == engine_answer_cells(before) &&
           (i == TRANSLATE || engine_answer_steps(now) == engine_answer_steps(before));
}

/* Makes call `i` of each library that has it and knows the script, and finds the rounds if it is timed. The libraries
 * must answer the same. */
static void call_first(struct bench *b, int i, uint64_t rounds)
{
    uint64_t answer = 0;
    for (int e = 0; e < b->knowing && has_call(&engines[e], i); e++) {
        struct timed *t = &b->timed[i][e];
        *t = (struct timed){ &calls[i], &engines[e], b, 1, 0, 0 };
        t->least = repeated(t);
        if (i < b->of->timed)
            calibrate(t, rounds);
        demand(t, wanted(b->of, i));
        if (e > 0 && !is_same_answer(i, answer, b->answer)) {
            fprintf(stderr, "%s: the libraries differ in what %s answers\n", b->of->name, calls[i].name);
            exit(1);
        }
        answer = b->answer;
        if (i == DELIVER) {
            b->steps = engine_answer_steps(answer);
            b->lowest[e] = engine_answer_lowest(answer);
        }
    }
}

/* Keeps the store as the first deliveries left it. */
static void keep_store(struct bench *b)
{
    memcpy(b->kept_slots, b->slots, sizeof b->slots);
    memcpy(b->kept_heads, b->heads, sizeof b->heads);
}

/* One of the other rounds of a case. */
static void time_calls(struct bench *b)
{
    for (int i = 0; i < CALLS; i++)
        for (int e = 0; e < b->knowing; e++)
            if (b->timed[i][e].rounds > 0) {
                time_round(&b->timed[i][e]);
                demand(&b->timed[i][e], wanted(b->of, i));
            }
}

/* The stack that a call takes; it must not be more than the header says. */
static size_t checked_stack(struct bench *b, int i)
{
    size_t stack = stack_of(calls[i].work, b);
    if (stack > ENGINE_STACK_BYTES) {
        fprintf(stderr, "%s: %s takes %zu bytes of stack, and ENGINE_STACK_BYTES is %d\n", b->of->name, calls[i].name,
                stack, ENGINE_STACK_BYTES);
        exit(1);
    }
    return stack;
}

static void show(struct bench *b)
{
    printf("%s nodes=%zu lines=%" PRIu32 " cells=%zu steps=%" PRIu32 " entries=%zu", b->of->name,
           (b->script.length - 4) / 9, b->code_lines, b->cells, b->steps,
           (engine_saved_length(b->saved, sizeof b->saved) - 3) / 9);
    for (int e = 0; e < b->knowing; e++)
        printf(" %slowest=%u", engines[e].mark, b->lowest[e]);
    for (int i = 0; i < b->of->timed; i++)
        for (int e = 0; e < b->knowing && has_call(&engines[e], i); e++)
            printf(" %s%s=%.0f", engines[e].mark, calls[i].name,
                   (double)b->timed[i][e].least / (double)b->timed[i][e].times);
    b->engine = &engines[0];
    for (int i = 0; i < CALLS; i++)
        printf(" %s_stack=%zu", calls[i].name, checked_stack(b, i));
    printf("\n");
    fflush(stdout);
}

/* Measures `count` cases, their rounds in turn so that all see the same of the machine. */
static void measure(const struct bench_case *of, size_t count, uint64_t rounds)
{
    for (size_t n = 0; n < count; n++) {
        prepare(&benches[n], &of[n]);
        for (int i = 0; i < CALLS; i++) {
            call_first(&benches[n], i, rounds);
            if (i == DELIVER)
                keep_store(&benches[n]);
        }
    }
    for (uint64_t round = 0; round < rounds; round++)
        for (size_t n = 0; n < count; n++)
            time_calls(&benches[n]);
    for (size_t n = 0; n < count; n++)
        show(&benches[n]);
}

int main(int count, char **arguments)
{
    if (count == 2 && strcmp(arguments[1], "--library") == 0) {
        printf("version %d.%d, commit %s\n", ENGINE_VERSION_MAJOR, ENGINE_VERSION_MINOR, engine_library_commit());
        return 0;
    }
    const char *asked = getenv("ROUNDS");
    uint64_t rounds = asked == NULL ? ROUNDS : strtoull(asked, NULL, 10);
    if (rounds == 0) {
        fprintf(stderr, "ROUNDS is 0 or no number\n");
        return 2;
    }
    const size_t all = sizeof cases / sizeof *cases;
    for (size_t first = 0, end; first < all; first = end) {
        for (end = first + 1; end < all && cases[end].in_turn && end - first < TURNS_MAX; end++)
            ;
        measure(&cases[first], end - first, rounds);
    }
    return 0;
}
