/* The scripts made to be deep, and those made to be slow. */
#include "writer.h"

/* A function of an array and a number that works `maps` maps of the array within one another (two levels each), `ifs`
 * ifs in them, and calls itself at the innermost. With an array of one element and 0 it goes down to the call. */
static void deep_script(struct script *script, int maps, int ifs)
{
    struct writer w = main_of(0);
    call(&w, 1, 2);
    name(&w, 1);
    first_reading(&w);
    function(&w, 2, 0);
    parameter(&w, 0, 1);
    parameter(&w, 1, 0);
    for (int i = 0; i < maps; i++) {
        index_of(&w);
        map(&w, 2);
        name(&w, 0);
    }
    for (int i = 0; i < ifs; i++) {
        if_then_else(&w);
        name(&w, 1);
        number(&w, 0);
    }
    call(&w, 1, 2);
    name(&w, 0);
    name(&w, 1);
    for (int i = 0; i < maps; i++)
        number(&w, 0);
    finish(&w, script);
}

void deep_if_script(struct script *script) { deep_script(script, 0, 62); }

void deep_mixed_script(struct script *script) { deep_script(script, 7, 48); }

void deep_body_script(struct script *script)
{
    struct writer w = main_of(ENGINE_DEPTH_MAX);
    for (int i = 0; i < 51; i++) {
        if (i > 0 && i % ENGINE_DEPTH_MAX == 0)
            length_of(&w);
        map(&w, 2);
        name(&w, 1);
    }
    number(&w, 0);
    finish(&w, script);
}

void deep_array_script(struct script *script)
{
    struct writer w = main_of(1);
    for (int i = 1; i < ENGINE_LEVELS_MAX; i++)
        map(&w, 2);
    name(&w, 1);
    for (int i = 1; i < ENGINE_LEVELS_MAX; i++)
        name(&w, 2);
    finish(&w, script);
}

/* `count` reduces of an array, each in the body of the one before; the innermost body, a number, is to follow. */
static void nested_reduces(struct writer *w, int count, int array)
{
    for (int i = 0; i < count; i++) {
        reduce(w, 2, 3);
        number(w, 0);
        name(w, array);
    }
}

void deep_reduce_script(struct script *script)
{
    struct writer w = main_of(0);
    nested_reduces(&w, ENGINE_LEVELS_MAX - 1, 1);
    name(&w, 2);
    finish(&w, script);
}

/* 63 ifs, each in the else part of the one before, and at level 64 in the last a call of function 1. */
static void ifs_to_call(struct writer *w)
{
    for (int i = 1; i < ENGINE_LEVELS_MAX; i++) {
        if_then_else(w);
        number(w, 0);
        number(w, 0);
    }
    call(w, 1, 0);
}

void deepest_if_script(struct script *script)
{
    struct writer w = main_of(0);
    ifs_to_call(&w);
    function(&w, 0, 0);
    ifs_to_call(&w);
    finish(&w, script);
}

/* A reduce of {{0}}, 62 reduces of its element within one another, and at level 64 in the last a call of function 1. An
 * argument of the call would be at level 65. */
static void reduces_to_call(struct writer *w)
{
    reduce(w, 2, 4);
    number(w, 0);
    literal(w, 1, 1);
    literal(w, 1, 0);
    number(w, 0);
    nested_reduces(w, ENGINE_LEVELS_MAX - 2, 4);
    call(w, 1, 0);
}

void deepest_reduce_script(struct script *script)
{
    struct writer w = main_of(0);
    reduces_to_call(&w);
    function(&w, 0, 0);
    reduces_to_call(&w);
    finish(&w, script);
}

/* ---- Deliveries made to be slow ---- */

/* Begins main with maps of the readings within one another, of each of which the length is taken. The innermost body, a
 * number, is to follow. */
static struct writer nested_maps(int maps)
{
    struct writer w = main_of(0);
    for (int i = 0; i < maps; i++) {
        length_of(&w);
        map(&w, 2);
        name(&w, 1);
    }
    return w;
}

/* 16 times the readings: each takes a retain. */
static void sixteen_by_literal(struct writer *w)
{
    literal(w, 16, 1);
    for (int i = 0; i < 16; i++)
        name(w, 1);
}

static void sixteen_by_replicate(struct writer *w)
{
    replicate(w);
    number(w, 16);
    name(w, 1);
}

/* A number: the length of an array of arrays of 56 arrays of 16 times the readings. */
static void many_arrays(struct writer *w, void (*sixteen)(struct writer *))
{
    length_of(w);
    literal(w, 4, 3);
    for (int i = 0; i < 4 * 14; i++) {
        if (i % 14 == 0)
            literal(w, 14, 2);
        sixteen(w);
    }
}

void skipped_branch_script(struct script *script)
{
    struct writer w = nested_maps(5);
    if_then_else(&w);
    number(&w, 0);
    many_arrays(&w, sixteen_by_literal);
    number(&w, 7);
    finish(&w, script);
}

/* 24 empty arrays, and 25 ifs in the else parts of one another; the innermost else part uses all the arrays, so that
 * each then part, which is long, begins with 24 releases. */
void skipped_release_script(struct script *script)
{
    enum { ARRAYS = 24, IFS = 25, FIRST = 3, LITERAL = ARRAYS / 2 };
    struct writer w = nested_maps(5);
    if_then_else(&w);
    number(&w, 0);
    for (int i = 0; i < ARRAYS; i++) {
        let(&w, FIRST + i);
        literal(&w, 0, 0);
    }
    for (int i = 0; i < IFS; i++) {
        if_then_else(&w);
        number(&w, 0);
        length_of(&w);
        sixteen_by_literal(&w);
    }
    sum(&w);
    for (int i = 0; i < ARRAYS; i++) {
        if (i % LITERAL == 0) {
            length_of(&w);
            literal(&w, LITERAL, 1);
        }
        name(&w, FIRST + i);
    }
    number(&w, 7);
    finish(&w, script);
}

void skipped_body_script(struct script *script)
{
    struct writer w = nested_maps(4);
    length_of(&w);
    map(&w, 3);
    literal(&w, 0, 0);
    many_arrays(&w, sixteen_by_literal);
    finish(&w, script);
}

void many_arrays_script(struct script *script)
{
    struct writer w = nested_maps(5);
    many_arrays(&w, sixteen_by_literal);
    finish(&w, script);
}

void many_replicates_script(struct script *script)
{
    struct writer w = nested_maps(5);
    many_arrays(&w, sixteen_by_replicate);
    finish(&w, script);
}
