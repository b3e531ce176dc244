/* Warnings of a script that the engine accepts: guards that are no comparisons, and what nothing uses. */
#include "node_kinds.h"
#include "script_bindings.h"

#include <inttypes.h>
#include <stdio.h>

static struct bindings bindings;

/* ---- Guards ---- */

/* Which parts are always 1 or 0, as far as their nodes show it: comparisons, the numbers 1 and 0, what is worked from
 * these by sums and differences, and names and calls that stand for them. A part of another kind is a culprit. The
 * tables of the functions' results and parameters begin with all being so, and are worked until nothing changes. */
struct judgement {
    const struct script *script;
    bool results[ENGINE_FUNCTIONS_MAX];
    bool parameters[ENGINE_FUNCTIONS_MAX][ENGINE_PARAMETERS_MAX];
    bool is_known[ENGINE_NODES_MAX];
    size_t culprits[ENGINE_NODES_MAX]; /* of the known ones: NO_NODE where there is none */
};

static size_t culprit_of(struct judgement *j, size_t node);

static size_t name_culprit(struct judgement *j, size_t node)
{
    size_t binder = bindings.binder[node];
    size_t function = function_of(j->script, &bindings, binder);
    switch (j->script->nodes[binder].kind) {
    case ENGINE_KIND_LET: return culprit_of(j, binder + 1);
    case ENGINE_KIND_PARAMETER:
        return j->parameters[function][binder - bindings.shape.functions[function] - 1] ? NO_NODE : node;
    case ENGINE_KIND_REDUCE: return bindings.is_second[node] ? node : culprit_of(j, binder + 1);
    default: return node;
    }
}

/* The first culprit of two parts. */
static size_t either(struct judgement *j, size_t one, size_t other)
{
    size_t culprit = culprit_of(j, one);
    return culprit != NO_NODE ? culprit : culprit_of(j, other);
}

static size_t find_culprit(struct judgement *j, size_t node)
{
    const struct node *n = &j->script->nodes[node];
    const size_t *after = bindings.shape.after;
    size_t first = node + 1;
    switch (n->kind) {
    case ENGINE_KIND_NUMBER: return n->operand == 0 || n->operand == 1 ? NO_NODE : node;
    case ENGINE_KIND_LESS: return NO_NODE;
    case ENGINE_KIND_NAME: return name_culprit(j, node);
    case ENGINE_KIND_SUM:
    case ENGINE_KIND_DIFFERENCE: return either(j, first, after[first]) == NO_NODE ? NO_NODE : node;
    case ENGINE_KIND_LET: return culprit_of(j, after[first]);
    case ENGINE_KIND_CALL: return j->results[n->operand % 256] ? NO_NODE : node;
    case ENGINE_KIND_IF: return either(j, after[first], after[after[first]]);
    case ENGINE_KIND_REDUCE: return either(j, first, after[after[first]]);
    default: return node;
    }
}

static size_t culprit_of(struct judgement *j, size_t node)
{
    if (!j->is_known[node]) {
        j->culprits[node] = find_culprit(j, node);
        j->is_known[node] = true;
    }
    return j->culprits[node];
}

static bool takes_back(bool *entry, bool is_so)
{
    bool changes = *entry && !is_so;
    *entry = *entry && is_so;
    return changes;
}

/* A round over the tables; whether one of their entries changed. */
static bool judge_functions(struct judgement *j)
{
    const struct script *s = j->script;
    bool changes = false;
    for (size_t i = 0; i < s->count; i++)
        j->is_known[i] = false;
    for (size_t f = 0; f < s->functions; f++) {
        size_t function = bindings.shape.functions[f];
        size_t body = function + 1 + (size_t)(s->nodes[function].operand % 256);
        changes |= takes_back(&j->results[f], culprit_of(j, body) == NO_NODE);
    }
    for (size_t i = 0; i < s->count; i++) {
        if (s->nodes[i].kind != ENGINE_KIND_CALL)
            continue;
        size_t at = i + 1;
        for (int64_t k = 0; k < s->nodes[i].operand / 256; k++, at = bindings.shape.after[at])
            changes |= takes_back(&j->parameters[s->nodes[i].operand % 256][k], culprit_of(j, at) == NO_NODE);
    }
    return changes;
}

/* What a culprit is. */
struct phrase {
    char text[160];
};

static struct phrase culprit_phrase(const struct script *s, size_t node)
{
    const struct node *n = &s->nodes[node], *binder = &s->nodes[bindings.binder[node]]; /* of a name */
    struct phrase phrase;
    switch (n->kind) {
    case ENGINE_KIND_NUMBER: snprintf(phrase.text, sizeof phrase.text, "the number %" PRId64, n->operand); break;
    case ENGINE_KIND_LENGTH: snprintf(phrase.text, sizeof phrase.text, "a length"); break;
    case ENGINE_KIND_INDEX: snprintf(phrase.text, sizeof phrase.text, "an element of an array"); break;
    case ENGINE_KIND_CALL: snprintf(phrase.text, sizeof phrase.text, "what a function gives that is none"); break;
    case ENGINE_KIND_NAME:
        snprintf(phrase.text, sizeof phrase.text, "%s of line %u",
                 binder->kind == ENGINE_KIND_PARAMETER ? "the parameter" : "an element: the name", binder->line);
        break;
    default: snprintf(phrase.text, sizeof phrase.text, "a %s of other numbers", node_kinds[n->kind].word); break;
    }
    return phrase;
}

void warn_of_guards(const struct script *script)
{
    static struct judgement j;
    j = (struct judgement){ .script = script };
    find_bindings(script, &bindings);
    for (size_t f = 0; f < script->functions; f++) {
        j.results[f] = true;
        for (size_t k = 0; k < ENGINE_PARAMETERS_MAX; k++)
            j.parameters[f][k] = f != 0;
    }
    while (judge_functions(&j))
        continue;
    for (size_t i = 0; i < script->count; i++) {
        uint8_t kind = script->nodes[i].kind;
        if (kind != ENGINE_KIND_IF && kind != ENGINE_KIND_FILTER)
            continue;
        size_t guard = kind == ENGINE_KIND_IF ? i + 1 : bindings.shape.after[i + 1];
        size_t culprit = culprit_of(&j, guard);
        if (culprit == NO_NODE)
            continue;
        char from[32] = "";
        if (culprit != guard)
            snprintf(from, sizeof from, " (line %u)", script->nodes[culprit].line);
        warn_at(script, spot_of(&script->nodes[guard]),
                "the guard of the '%s' of line %u is no comparison but %s%s; a guard other than 1 and 0 stops a"
                " delivery with %d", node_kinds[kind].word, script->nodes[i].line,
                culprit_phrase(script, culprit).text, from, ENGINE_BAD_GUARD);
    }
}

/* ---- What nothing uses ---- */

/* A name by its word, or else by its number. */
static struct phrase name_phrase(const struct node *node)
{
    struct phrase phrase;
    if (node->word.length > 0)
        snprintf(phrase.text, sizeof phrase.text, "%s", quote_word(node->word).text);
    else
        snprintf(phrase.text, sizeof phrase.text, "%d", (int)(node->operand % 256));
    return phrase;
}

/* Whether a let's bound part is there to stop a delivery: an element of a literal, as the manual advises. */
static bool is_there_to_stop(const struct script *s, size_t let)
{
    return s->nodes[let + 1].kind == ENGINE_KIND_INDEX && s->nodes[let + 2].kind == ENGINE_KIND_LITERAL;
}

static void warn_of_function(const struct script *s, size_t function)
{
    size_t node = bindings.shape.functions[function];
    if (!bindings.is_called[function]) {
        warn_at(s, spot_of(&s->nodes[node]), "function %zu is called nowhere that main comes to", function);
        return;
    }
    for (size_t i = node + 1; i < bindings.shape.after[node]; i++) {
        const struct node *n = &s->nodes[i];
        if (bindings.is_used[i])
            continue;
        if (n->kind == ENGINE_KIND_PARAMETER && function != 0) /* main has both, used or not */
            warn_at(s, spot_of(n), "nothing uses the parameter %s", name_phrase(n).text);
        if (n->kind == ENGINE_KIND_LET && !is_there_to_stop(s, i))
            warn_at(s, spot_of(n), "nothing uses the name %s of this 'let'; its bound part is worked all the same",
                    name_phrase(n).text);
    }
}

void warn_of_unused_nodes(const struct script *script)
{
    find_bindings(script, &bindings);
    for (size_t function = 0; function < script->functions; function++)
        warn_of_function(script, function);
}
