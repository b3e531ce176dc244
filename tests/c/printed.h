/* Document 01's printed script, totals {t} and readings {r} giving {t + r}; and scripts as rows of nodes. */
#ifndef PRINTED_H
#define PRINTED_H

#include <stdbool.h>
#include <stddef.h>
#include <stdint.h>

/* A node of a script, or a line of code. */
struct row {
    uint8_t kind;
    int64_t operand;
};

#define COUNT(rows) (sizeof(rows) / sizeof *(rows))

enum { PRINTED_NODES = 18, PRINTED_LINES = 33 };
extern const struct row printed_code[PRINTED_LINES];

/* Lends the script file of some nodes. */
void lend_script(unsigned functions, const struct row *rows, size_t count);
void lend_printed(void);

/* Opens the printed script's store. */
void open_printed(unsigned cells);

/* A delivery of one reading. */
uint64_t deliver_one(int64_t reading, uint64_t budget);

/* Whether the totals are an array of this one number. */
bool totals_are(int64_t number);

#endif
