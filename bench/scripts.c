/* The scripts of common shapes. */
#include "writer.h"

void printed_script(struct script *script)
{
    struct writer w = main_of(1);
    if_then_else(&w);
    length_of(&w);
    name(&w, 0);
    literal(&w, 1, 0);
    sum(&w);
    index_of(&w);
    name(&w, 0);
    number(&w, 0);
    first_reading(&w);
    literal(&w, 1, 0);
    first_reading(&w);
    finish(&w, script);
}

void small_functions_script(struct script *script)
{
    struct writer w = main_of(1);
    name(&w, 0);
    for (int f = 1; f < ENGINE_FUNCTIONS_MAX; f++) {
        function(&w, 1, 0);
        parameter(&w, 0, 0);
        name(&w, 0);
    }
    finish(&w, script);
}

/* Ifs in both parts of ifs, `height` of them to each number. */
static void balanced_ifs(struct writer *w, int height)
{
    if (height == 0) {
        number(w, 7);
        return;
    }
    if_then_else(w);
    number(w, height % 2);
    balanced_ifs(w, height - 1);
    balanced_ifs(w, height - 1);
}

void balanced_if_script(struct script *script)
{
    struct writer w = main_of(1);
    literal(&w, 1, 0);
    call(&w, 1, 0);
    function(&w, 0, 0);
    balanced_ifs(&w, 8);
    finish(&w, script);
}

/* f(x): `sums` times let x = x + i. */
static void adding_function(struct writer *w, int sums)
{
    function(w, 1, 0);
    parameter(w, 0, 0);
    for (int i = 0; i < sums; i++) {
        let(w, 0);
        sum(w);
        name(w, 0);
        number(w, i);
    }
    name(w, 0);
}

void large_script(struct script *script)
{
    struct writer w = main_of(1);
    literal(&w, 1, 0);
    for (int f = 1; f <= 5; f++)
        call(&w, f, 1);
    index_of(&w);
    name(&w, 1);
    length_of(&w);
    literal(&w, 0, 0);
    for (int f = 1; f <= 5; f++)
        adding_function(&w, f < 5 ? 50 : 49);
    assert(w.nodes == ENGINE_NODES_MAX);
    finish(&w, script);
}

/* f(a, x): `units` times a map of the array a with an if in its tree, and an if whose branches index arrays; then the
 * function `next` of what they gave, if it is not 0. */
static void mixed_function(struct writer *w, int units, int next)
{
    function(w, 2, 0);
    parameter(w, 0, 1);
    parameter(w, 1, 0);
    for (int i = 0; i < units; i++) {
        let(w, 0);
        map(w, 2);
        name(w, 0);
        if_then_else(w);
        less(w);
        name(w, 2);
        name(w, 1);
        sum(w);
        name(w, 2);
        name(w, 1);
        difference(w);
        name(w, 2);
        number(w, 1);
        let(w, 1);
        if_then_else(w);
        less(w);
        length_of(w);
        name(w, 0);
        name(w, 1);
        index_of(w);
        name(w, 0);
        number(w, 0);
        index_of(w);
        literal(w, 2, 0);
        name(w, 1);
        number(w, 3);
        number(w, 1);
    }
    if (next != 0) {
        call(w, next, 2);
        name(w, 0);
    } else {
        sum(w);
        length_of(w);
        name(w, 0);
    }
    name(w, 1);
}

void mixed_script(struct script *script)
{
    struct writer w = main_of(1);
    literal(&w, 1, 0);
    for (int i = 0; i < 4; i++) {
        sum(&w);
        number(&w, i);
    }
    call(&w, 1, 2);
    name(&w, 1);
    number(&w, 5);
    for (int f = 1; f <= 6; f++)
        mixed_function(&w, 6, f < 6 ? f + 1 : 0);
    assert(w.nodes == ENGINE_NODES_MAX);
    finish(&w, script);
}

/* f(a, x): `units` times a filter of the array a, a reduce of it from x, a map of an iota of its length, and a
 * replicate of x; then the function `next` of what they gave, if it is not 0. */
static void second_function(struct writer *w, int units, int next)
{
    function(w, 2, 0);
    parameter(w, 0, 1);
    parameter(w, 1, 0);
    for (int i = 0; i < units; i++) {
        let(w, 0);
        filter(w, 2);
        name(w, 0);
        less(w);
        name(w, 2);
        name(w, 1);
        let(w, 1);
        reduce(w, 3, 2);
        name(w, 1);
        name(w, 0);
        difference(w);
        name(w, 3);
        name(w, 2);
        let(w, 4);
        map(w, 2);
        iota(w);
        length_of(w);
        name(w, 0);
        sum(w);
        name(w, 2);
        name(w, 1);
        let(w, 0);
        replicate(w);
        number(w, 2);
        name(w, 1);
    }
    if (next != 0) {
        call(w, next, 2);
        name(w, 0);
    } else {
        sum(w);
        length_of(w);
        name(w, 0);
    }
    name(w, 1);
}

void second_script(struct script *script)
{
    struct writer w = main_of(1);
    literal(&w, 1, 0);
    for (int i = 0; i < 15; i++) {
        sum(&w);
        number(&w, i);
    }
    call(&w, 1, 2);
    name(&w, 1);
    number(&w, 5);
    for (int f = 1; f <= 6; f++)
        second_function(&w, f <= 2 ? 7 : 6, f < 6 ? f + 1 : 0);
    assert(w.nodes == ENGINE_NODES_MAX);
    finish(&w, script);
}

/* Main adds to its totals what `functions` functions make of the first reading, each from the next one's result. */
static void sized_script(struct script *script, int functions)
{
    struct writer w = main_of(0);
    sum(&w);
    name(&w, 0);
    for (int f = 1; f <= functions; f++)
        call(&w, f, 1);
    first_reading(&w);
    for (int f = 1; f <= functions; f++)
        adding_function(&w, f == 1 ? 29 : 31);
    assert(w.nodes == 128 * (unsigned)functions);
    finish(&w, script);
}

void size_128_script(struct script *script) { sized_script(script, 1); }

void size_256_script(struct script *script) { sized_script(script, 2); }

void size_512_script(struct script *script) { sized_script(script, 4); }

void size_1024_script(struct script *script) { sized_script(script, 8); }

/* `count` ifs, each in the else part of the one before, and none of whose guards holds; `x` is a number's name. */
static void nested_ifs(struct writer *w, int count, int x)
{
    for (int i = 0; i < count; i++) {
        if_then_else(w);
        less(w);
        name(w, x);
        number(w, -i);
        number(w, i);
    }
}

void level_script(struct script *script)
{
    struct writer w = main_of(0);
    let(&w, 2);
    first_reading(&w);
    nested_ifs(&w, 61, 2); /* levels 2 to 62; their numbers stand at 64 */
    sum(&w);
    name(&w, 0);
    name(&w, 2);
    finish(&w, script);
}

void map_script(struct script *script)
{
    struct writer w = main_of(1);
    let(&w, 2);
    counting_literal(&w, 16);
    map(&w, 3);
    counting_literal(&w, 11);
    for (int i = 4; i < 7; i++) { /* names 4, 5 and 6 */
        index_of(&w);
        map(&w, i);
        name(&w, 2);
    }
    sum(&w);
    name(&w, 3);
    name(&w, 6);
    for (int i = 0; i < 3; i++)
        number(&w, 15);
    finish(&w, script);
}

static void equal_literal(struct writer *w, int length, int element)
{
    literal(w, length, 0);
    for (int i = 0; i < length; i++)
        number(w, element);
}

/* The last element that a filter keeps is 1, and so the guard of the filter around it. */
void filter_script(struct script *script)
{
    struct writer w = main_of(1);
    let(&w, 2);
    equal_literal(&w, 16, 1);
    filter(&w, 3);
    equal_literal(&w, 11, 0);
    for (int i = 4; i < 7; i++) { /* names 4, 5 and 6 */
        index_of(&w);
        filter(&w, i);
        name(&w, 2);
    }
    less(&w);
    name(&w, 3);
    name(&w, 6);
    for (int i = 0; i < 3; i++)
        number(&w, 15);
    finish(&w, script);
}

void reduce_script(struct script *script)
{
    struct writer w = main_of(0);
    let(&w, 2);
    counting_literal(&w, 16);
    for (int i = 3; i < 7; i++) { /* names 3 to 6, beside 7 for each running value */
        reduce(&w, 7, i);
        number(&w, 0);
        if (i == 3)
            counting_literal(&w, 11);
        else
            name(&w, 2);
        sum(&w);
        name(&w, 7);
    }
    name(&w, 6);
    finish(&w, script);
}

void map_chain_script(struct script *script)
{
    enum { MAPS = 12 };
    struct writer w = main_of(0);
    let(&w, 2);
    counting_literal(&w, 16);
    for (int i = 3; i < 5; i++) { /* names 3 and 4, beside 7 for each running value */
        reduce(&w, 7, i);
        number(&w, 0);
        name(&w, 2);
        sum(&w);
        name(&w, 7);
    }
    index_of(&w);
    for (int i = 0; i < MAPS; i++)
        map(&w, 5);
    iota(&w);
    number(&w, 16);
    for (int i = 0; i < MAPS; i++) {
        sum(&w);
        name(&w, 5);
        number(&w, 1);
    }
    name(&w, 4);
    finish(&w, script);
}

void largest_totals_script(struct script *script)
{
    static const int lengths[] = { 15, 16, 16 };
    struct writer w = main_of(3);
    for (int i = 0; i < 3; i++) {
        replicate(&w);
        number(&w, lengths[i]);
    }
    first_reading(&w);
    finish(&w, script);
}
