/* The acts of swap.txt that the other families have not: a store of zeros, words put into it, totals saved and
 * restored. Those that are calls say whether they agree with the line. */
#ifndef SWAP_H
#define SWAP_H

#include <stdbool.h>
#include <stddef.h>
#include <stdint.h>

void lend_clear_store(void);
void put_words(void);
bool make_sound_check(void);
bool make_save(void);
bool make_restore(void);

/* What vectors.c reads of the present line. */
char *word(void); /* null after the last */
uint64_t natural(void);
unsigned digit(char c);
void take_code_lengths(void);
bool entry(size_t *index, int64_t *value);
_Noreturn void unusable(const char *what);

#endif
