/* Steps and stops of a delivery, by the places of the script's text. */
#include "node_kinds.h"
#include "play.h"

#include <inttypes.h>
#include <stdio.h>

static struct shape shape;

struct phrase {
    char text[160];
};

/* A name by its word, or else by its number. */
static struct phrase name_phrase(struct word word, int64_t name)
{
    struct phrase phrase;
    if (word.length > 0)
        snprintf(phrase.text, sizeof phrase.text, "%s", plain_word(word).text);
    else
        snprintf(phrase.text, sizeof phrase.text, "name %" PRId64, name);
    return phrase;
}

static struct phrase function_phrase(const struct node *call)
{
    struct phrase phrase = name_phrase(call->word, 0);
    if (call->word.length == 0)
        snprintf(phrase.text, sizeof phrase.text, "%" PRId64, call->operand % 256);
    return phrase;
}

/* What a pass binds its second name to, or its only one: the element. */
static struct phrase element_name(const struct node *node)
{
    return pass_names_of(node->kind) == 2 ? name_phrase(node->second, node->operand / 256)
                                          : name_phrase(node->word, node->operand % 256);
}

/* ---- Stops ---- */

/* Why a delivery stopped at a node. */
static struct phrase reason_of(const struct outcome *o, const struct node *node, const struct task *task)
{
    const struct moment *m = &o->last;
    struct phrase phrase = { "" };
    char *text = phrase.text;
    const size_t capacity = sizeof phrase.text;
    struct value one = m->parts->length > 0 ? m->parts->elements[0] : number_value(0);
    struct value two = m->parts->length > 1 ? m->parts->elements[1] : number_value(0);
    switch (o->number) {
    case ENGINE_OUT_OF_STEPS:
        snprintf(text, capacity, "the budget of %" PRIu64 " step%s is used up, and this wants one more", task->budget,
                 task->budget == 1 ? "" : "s");
        break;
    case ENGINE_CALL_TOO_DEEP:
        snprintf(text, capacity, "main and %d calls are at work within each other, and no further one may be",
                 ENGINE_CALL_DEPTH_MAX - 1);
        break;
    case ENGINE_INDEX_OUT_OF_RANGE:
        snprintf(text, capacity, "the position is %" PRId64 ", and the array has %u element%s, counted from 0",
                 two.number, one.list->length, one.list->length == 1 ? "" : "s");
        break;
    case ENGINE_OVERFLOW:
        snprintf(text, capacity, "%" PRId64 " %c %" PRId64 " does not fit 64 bits", one.number,
                 node->kind == ENGINE_KIND_SUM ? '+' : '-', two.number);
        break;
    case ENGINE_OUT_OF_CELLS: snprintf(text, capacity, "no cell is free for its array"); break;
    case ENGINE_BAD_COUNT:
        snprintf(text, capacity, "the count is %" PRId64 ", and it must be within 0 to %d", one.number,
                 ENGINE_CELL_SLOTS);
        break;
    default:
        snprintf(text, capacity, "the guard is %" PRId64 ", and it must be 1 or 0: compare it",
                 m->has_result ? m->result.number : one.number);
        break;
    }
    return phrase;
}

/* What each part of a node gave, and on which line it stands. */
static void explain_parts(const struct script *s, const struct moment *m)
{
    const struct node *node = &s->nodes[m->node];
    size_t at = m->node + 1;
    for (unsigned i = 0; i < m->parts->length; i++, at = shape.after[at])
        complain("  %s, line %u: %s", role_of(node->kind, node->operand, i).text, s->nodes[at].line,
                 show_value(m->parts->elements[i]).text);
    if (m->pass == 0)
        return;
    bool has_two = pass_names_of(node->kind) == 2;
    complain("  pass %u: %s is %s", m->pass, element_name(node).text, show_value(has_two ? m->second : m->first).text);
    if (has_two)
        complain("  so far: %s is %s", name_phrase(node->word, node->operand % 256).text, show_value(m->first).text);
    if (m->has_result)
        complain("  guard, line %u: %s", s->nodes[at].line, show_value(m->result).text);
}

/* The calls that led there, innermost first; equal ones that follow each other are told once. */
static void explain_calls(const struct script *s, const struct outcome *o)
{
    for (unsigned left = o->last.calls, same; left > 0; left -= same) {
        const struct node *call = &s->nodes[o->callers[left - 1]];
        for (same = 1; same < left && o->callers[left - 1 - same] == o->callers[left - 1]; same++)
            continue;
        if (same == 1)
            complain("  in function %s, called on line %u", function_phrase(call).text, call->line);
        else
            complain("  in function %s, called on line %u, %u times within each other", function_phrase(call).text,
                     call->line, same);
    }
}

void explain_stop(const struct script *script, const struct outcome *outcome, const struct task *task)
{
    const struct node *node = &script->nodes[outcome->last.node];
    const unsigned number = outcome->number;
    if (number == ENGINE_OUT_OF_CELLS && outcome->steps == 0) {
        complain("%s: %u %s: no cell is free for the readings, before main begins", script->text.path, number,
                 engine_word(number));
        return;
    }
    find_shape(script, &shape);
    say_at(script, spot_of(node), "%u %s: %s", number, engine_word(number), reason_of(outcome, node, task).text);
    explain_parts(script, &outcome->last);
    explain_calls(script, outcome);
}

/* ---- Steps ---- */

void print_steps_head(void)
{
    printf("   step free   line  node\n");
}

void print_step(const struct script *script, const struct moment *m, unsigned free)
{
    const struct node *node = &script->nodes[m->node];
    printf("%7" PRIu32 " %4u %6u  %*s%s", m->step, free, node->line, (int)(2 * m->calls), "",
           node_kinds[node->kind].word);
    if (node->kind == ENGINE_KIND_CALL)
        printf(" %s", function_phrase(node).text);
    if (m->pass > 0) {
        bool has_two = pass_names_of(node->kind) == 2;
        printf(", pass %u: %s %s", m->pass, element_name(node).text, show_value(has_two ? m->second : m->first).text);
        if (has_two)
            printf(", %s %s", name_phrase(node->word, node->operand % 256).text, show_value(m->first).text);
    }
    for (unsigned i = 0; m->pass == 0 && i < m->parts->length; i++)
        printf("%s %s %s", i == 0 ? ":" : ",", role_of(node->kind, node->operand, i).text,
               show_value(m->parts->elements[i]).text);
    if (m->has_result)
        printf("; gives %s", show_value(m->result).text);
    putchar('\n');
}
