/* What is lent to a call, each array at the end of memory of its own, and the eight calls on it. */
#ifndef LENT_H
#define LENT_H

#include "engine.h"

#include <stdbool.h>

struct lent {
    uint8_t *file;
    size_t file_length;
    uint8_t *kinds;
    size_t kinds_length;
    int64_t *operands;
    size_t operands_length;
    int64_t *slots;
    size_t slots_length;
    uint32_t *heads;
    size_t heads_length;
    int64_t *readings;
    size_t readings_length;
    uint8_t *saved;
    size_t saved_length;
};

/* The arrays that every case uses in turn. */
extern struct lent lent;

/* Sets aside the memory. */
void lend(void);

/* Make an array of this length; the code arrays, the store and saved bytes are filled with something else than 0. */
void lend_file(size_t length);
void lend_code(size_t kinds, size_t operands);
void lend_store(size_t slots, size_t heads);
void lend_readings(size_t length);
void lend_saved(size_t length);

uint64_t translate(void);
uint64_t open_store(void);
uint64_t check_store(void);
uint64_t deliver(uint64_t budget);
uint64_t save_totals(void);
uint64_t restore_totals(void);

/* By what the code arrays hold, for main of this depth. */
uint64_t check_code(uint64_t depth);
uint64_t deliver_code(uint64_t depth, uint64_t budget);

/* Whether the code arrays are zero from some line on. */
bool code_is_zero_from(size_t line);

#endif
