/* Playing a day on the engine for a person who tests a script: every stop by its place in the text, and every delivery
 * beside what is expected of it. */
#ifndef PLAY_H
#define PLAY_H

#include "meaning.h"

struct play_options {
    const char *day; /* its path */
    size_t cells;
    uint64_t budget;
    bool traces;
};

/* Plays a day on a script that the engine accepts, from a fresh store. The code arrays are lent to the engine again.
 * Gives the exit status: STATUS_REFUSED where something differs from what is expected. */
int play_day(const struct script *script, uint8_t *kinds, int64_t *operands, const struct play_options *options);

/* Says at which node a delivery stopped and why, and what that node's parts gave. */
void explain_stop(const struct script *script, const struct outcome *outcome, const struct task *task);

/* Prints a step with the cells that were free as it was taken. */
void print_step(const struct script *script, const struct moment *moment, unsigned free);
void print_steps_head(void);

#endif
