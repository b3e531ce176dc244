/* The scripts that are measured. */
#ifndef SCRIPTS_H
#define SCRIPTS_H

#include "engine.h"

struct script {
    uint8_t file[ENGINE_FILE_LENGTH_MAX];
    size_t length;
};

/* Document 01's printed script: totals {t} and readings {r} give {t + r}. */
void printed_script(struct script *script);

/* 1,024 nodes in six functions, all worked by each delivery: sums, and lets within one another. */
void large_script(struct script *script);

/* 1,024 nodes in seven functions, of all kinds of the first edition: 36 maps, 72 ifs, arrays and calls. */
void mixed_script(struct script *script);

/* 1,024 nodes in seven functions, of the second edition: 38 filters, reduces, replicates, and maps of iotas. */
void second_script(struct script *script);

/* 128 to 1,024 nodes: functions of 31 sums, the first of 29. */
void size_128_script(struct script *script);
void size_256_script(struct script *script);
void size_512_script(struct script *script);
void size_1024_script(struct script *script);

/* 32 functions, of which main gives its totals and each other its parameter. */
void small_functions_script(struct script *script);

/* 32 functions, all but main of eight arrays, which each passes to the next, and the last back to the first, each to
 * the place before its own. In the first script the last function also gives one of them as its result, so that all are
 * handed over, one after the other; in the second all are only read. */
void handed_round_script(struct script *script);
void read_round_script(struct script *script);

/* An array of 16 prices that is passed down five calls 4,096 times, and is read by the fifth. */
void passed_down_script(struct script *script);

/* 255 ifs, the ones in both parts of the others. */
void balanced_if_script(struct script *script);

/* An if in the else part of an if, down to level 64. */
void level_script(struct script *script);

/* Four maps within one another, over 11, 16, 16 and 16 elements. */
void map_script(struct script *script);

/* Twelve maps, each of the one before, over an array of 16 numbers that is made anew 256 times. */
void map_chain_script(struct script *script);

/* The maps within one another with filters in their place, each of which keeps all elements, and with reduces.
 * All three take as many steps. */
void filter_script(struct script *script);
void reduce_script(struct script *script);

/* Fibonacci's numbers by two calls each, for the first reading. */
void call_script(struct script *script);

/* Totals of as many entries as can be saved, 4,096: 15 arrays of 16 arrays of 16 times the first reading. In the store
 * three cells have them, and a restore of them takes 256. */
void largest_totals_script(struct script *script);

/* 62 ifs within one another, with a call of the function itself at the innermost: 31 calls below main, then a stop. */
void deep_if_script(struct script *script);

/* The same with 7 maps and 48 ifs in them. */
void deep_mixed_script(struct script *script);

/* 51 maps of the readings within one another, down to level 64: a length is taken of each four, as depths allow. */
void deep_body_script(struct script *script);

/* 63 maps, each of the next one's result. */
void deep_array_script(struct script *script);

/* 63 reduces of the readings within one another, down to level 64. */
void deep_reduce_script(struct script *script);

/* The deepest deliveries that there can be: 63 ifs, or reduces of one element, and a call at level 64, at each of the
 * 32 call depths, then a stop. A map or filter cannot stand at each level: its body's depth is another than its own. */
void deepest_if_script(struct script *script);
void deepest_reduce_script(struct script *script);

/* Deliveries that are slow where a step's time grows with what it passes over; they want 16 readings. Five maps within
 * one another, in whose innermost tree an if never takes its long branch; the same with releases at the start of many
 * branches within the one that is not taken; and four maps, in whose innermost tree a map of the empty array has a long
 * tree. */
void skipped_branch_script(struct script *script);
void skipped_release_script(struct script *script);
void skipped_body_script(struct script *script);

/* Steps that are long themselves: five maps, in whose innermost tree 56 arrays of 16 arrays are made and released, by
 * literals or by replicates. */
void many_arrays_script(struct script *script);
void many_replicates_script(struct script *script);

#endif
