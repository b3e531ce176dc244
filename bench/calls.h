/* A case of the measurements: what its calls are lent, and the calls themselves. */
#ifndef CALLS_H
#define CALLS_H

#include "engines.h"
#include "scripts.h"

#include <stdbool.h>

enum { LINES = ENGINE_CODE_LINES_MAX };

/* The calls, in the order in which they are made; the first two need no store. */
enum { TRANSLATE, CHECK_CODE, OPEN, CHECK, DELIVER, DELIVER_CODE, SAVE, RESTORE, CALLS };

struct bench_case {
    const char *name;
    void (*script)(struct script *);
    size_t cells;
    size_t lines;        /* of the code arrays; 0: just the code's */
    size_t readings;
    int64_t reading;     /* each of them */
    unsigned number;     /* that a delivery must answer */
    int timed;           /* how many of the calls, the first ones */
    bool in_turn;        /* with the case before */
};

struct call;

/* A call of a library that is timed, in a case. */
struct timed {
    const struct call *call;
    const struct engine *engine;
    struct bench *bench;
    uint64_t times;  /* that make a round long enough */
    uint64_t rounds; /* still to come */
    uint64_t least;  /* time of a round */
};

/* A case: what its calls are lent, on which all libraries work, and what was found. */
struct bench {
    const struct bench_case *of;
    const struct engine *engine;
    struct script script;
    uint8_t kinds[LINES];
    int64_t operands[LINES];
    size_t lines;
    uint8_t lent_kinds[LINES]; /* the script's code, as this library translates it, and lent so to all */
    int64_t lent_operands[LINES];
    int64_t slots[ENGINE_SLOTS_LENGTH(ENGINE_CELLS_MAX)];
    uint32_t heads[ENGINE_HEADS_LENGTH(ENGINE_CELLS_MAX)];
    size_t cells;
    int64_t readings[ENGINE_READINGS_MAX];
    size_t readings_length;
    int64_t kept_slots[ENGINE_SLOTS_LENGTH(ENGINE_CELLS_MAX)]; /* a store with totals, which are saved */
    uint32_t kept_heads[ENGINE_HEADS_LENGTH(ENGINE_CELLS_MAX)];
    uint8_t saved[ENGINE_SAVED_LENGTH_MAX];
    int64_t restored_slots[ENGINE_SLOTS_LENGTH(ENGINE_CELLS_MAX)]; /* a store of its own, so that no call sees it */
    uint32_t restored_heads[ENGINE_HEADS_LENGTH(ENGINE_CELLS_MAX)];
    uint64_t answer;
    int knowing; /* how many of the libraries, the first ones, know the script's kinds */
    struct timed timed[CALLS][ENGINES];
    uint32_t code_lines;
    uint32_t steps;
    unsigned lowest[ENGINES];
};

struct call {
    const char *name;
    void (*work)(void *); /* of a case */
};
extern const struct call calls[CALLS];

/* Whether a library has call `i`. */
bool has_call(const struct engine *engine, int i);

#endif
