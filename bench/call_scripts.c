/* The scripts of calls. */
#include "writer.h"

void call_script(struct script *script)
{
    struct writer w = main_of(0);
    call(&w, 1, 1);
    first_reading(&w);
    function(&w, 1, 0);
    parameter(&w, 0, 0);
    if_then_else(&w);
    less(&w);
    name(&w, 0);
    number(&w, 2);
    name(&w, 0);
    sum(&w);
    for (int i = 1; i <= 2; i++) {
        call(&w, 1, 1);
        difference(&w);
        name(&w, 0);
        number(&w, i);
    }
    finish(&w, script);
}

void passed_down_script(struct script *script)
{
    enum { FUNCTIONS = 5 };
    struct writer w = main_of(0);
    let(&w, 2);
    counting_literal(&w, 16);
    for (int i = 3; i < 6; i++) { /* names 3 to 5, beside 7 for each running value */
        reduce(&w, 7, i);
        number(&w, 0);
        name(&w, 2);
        sum(&w);
        name(&w, 7);
    }
    call(&w, 1, 2);
    name(&w, 2);
    name(&w, 5);
    for (int f = 1; f <= FUNCTIONS; f++) {
        function(&w, 2, 0);
        parameter(&w, 0, 1);
        parameter(&w, 1, 0);
        if (f < FUNCTIONS)
            call(&w, f + 1, 2);
        else
            index_of(&w);
        name(&w, 0);
        name(&w, 1);
    }
    finish(&w, script);
}

enum { ROUND_PARAMETERS = 8, ROUND_LAST = ENGINE_FUNCTIONS_MAX - 1 };

/* A call of a function with the parameters from `first` on, the ones before it after them. */
static void pass_parameters(struct writer *w, int which, int first)
{
    call(w, which, ROUND_PARAMETERS);
    for (int i = 0; i < ROUND_PARAMETERS; i++)
        name(w, (first + i) % ROUND_PARAMETERS);
}

/* Functions of eight arrays; `depth` is that of what they give, and `give` writes it in the last. */
static void round_script(struct script *script, int depth, void (*give)(struct writer *))
{
    struct writer w = main_of(0);
    if (depth > 0)
        length_of(&w);
    call(&w, 1, ROUND_PARAMETERS);
    for (int i = 0; i < ROUND_PARAMETERS; i++)
        name(&w, 1);
    for (int f = 1; f <= ROUND_LAST; f++) {
        function(&w, ROUND_PARAMETERS, depth);
        for (int i = 0; i < ROUND_PARAMETERS; i++)
            parameter(&w, i, 1);
        if (f < ROUND_LAST)
            pass_parameters(&w, f + 1, 0);
    }
    if_then_else(&w);
    less(&w);
    length_of(&w);
    name(&w, 0);
    number(&w, 1);
    pass_parameters(&w, 1, 1);
    give(&w);
    finish(&w, script);
}

static void first_parameter(struct writer *w) { name(w, 0); }

static void length_of_first(struct writer *w)
{
    length_of(w);
    name(w, 0);
}

void handed_round_script(struct script *script) { round_script(script, 1, first_parameter); }

void read_round_script(struct script *script) { round_script(script, 0, length_of_first); }
