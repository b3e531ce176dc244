/* The names and depths of a script's parts: a descent over the nodes that says where names are unknown (6) or where
 * depths do not match (7). */
#include "script_depths.h"
#include "node_kinds.h"

#include <stdio.h>
#include <string.h>

enum { NO_DEPTH = -1, NAMES = 256 };

struct binding {
    bool is_known;
    int depth; /* NO_DEPTH where the part that it is bound to has none */
    struct word word; /* by which the text has it */
};

struct descent {
    const struct script *script;
    unsigned number;      /* whose breaches are named */
    size_t lowest;        /* of the nodes that were named */
    size_t at;            /* the next node */
    struct binding names[NAMES];
    size_t functions[ENGINE_FUNCTIONS_MAX]; /* the node of each */
};

/* ---- What is said ---- */

/* A node that breaks the rule of a number. */
__attribute__((format(printf, 4, 5))) static void breach(struct descent *d, unsigned number, size_t node,
                                                         const char *format, ...)
{
    va_list arguments;
    if (d->number != number)
        return;
    if (node < d->lowest)
        d->lowest = node;
    va_start(arguments, format);
    say_refusal_with(d->script, number, spot_of(&d->script->nodes[node]), format, arguments);
    va_end(arguments);
}

struct phrase {
    char text[48];
};

/* A depth in words. */
static struct phrase depth_phrase(int depth)
{
    struct phrase phrase;
    if (depth == 0)
        snprintf(phrase.text, sizeof phrase.text, "a number");
    else
        snprintf(phrase.text, sizeof phrase.text, "an array of depth %d", depth);
    return phrase;
}

/* A name or function by its word, or else by its number. */
static struct phrase name_phrase(const struct node *node)
{
    struct phrase phrase;
    if (node->word.length > 0)
        snprintf(phrase.text, sizeof phrase.text, "%.46s", quote_word(node->word).text);
    else
        snprintf(phrase.text, sizeof phrase.text, "%d", (int)(node->operand % 256));
    return phrase;
}

/* ---- Parts ---- */

static int part_depth(struct descent *d);

/* Takes the next parts of a node, all of them, and says whether each has a depth: a node is judged only then. */
static bool take_parts(struct descent *d, int *depths, unsigned count)
{
    bool have_depths = true;
    for (unsigned i = 0; i < count; i++) {
        depths[i] = part_depth(d);
        have_depths &= depths[i] != NO_DEPTH;
    }
    return have_depths;
}

/* Whether a node's part is of the depth that is wanted. */
static bool fits(struct descent *d, size_t node, unsigned child, int depth, int wanted)
{
    const struct node *n = &d->script->nodes[node];
    if (depth != wanted)
        breach(d, ENGINE_TYPE_MISMATCH, node, "its %s is %s, and %s is wanted",
               role_of(n->kind, n->operand, child).text, depth_phrase(depth).text, depth_phrase(wanted).text);
    return depth == wanted;
}

/* Whether a node's array is one. */
static bool is_array(struct descent *d, size_t node, int depth)
{
    if (depth == 0)
        breach(d, ENGINE_TYPE_MISMATCH, node, "its array is a number");
    return depth > 0;
}

/* The depth of an array whose elements have this one. */
static int depth_over(struct descent *d, size_t node, int element)
{
    if (element < ENGINE_DEPTH_MAX)
        return element + 1;
    breach(d, ENGINE_TYPE_MISMATCH, node, "its result would have depth %d, and %d is the greatest", element + 1,
           ENGINE_DEPTH_MAX);
    return NO_DEPTH;
}

/* The known word that a name's is likely meant to be. */
static struct word nearest_name(const struct descent *d, const struct node *name)
{
    struct word words[NAMES];
    for (size_t i = 0; i < NAMES; i++)
        words[i] = d->names[i].is_known ? d->names[i].word : (struct word){ NULL, 0 };
    return nearest_word(name->word, words, NAMES);
}

static int name_depth(struct descent *d, size_t node)
{
    const struct node *n = &d->script->nodes[node];
    struct binding binding = d->names[n->operand];
    struct word nearest = nearest_name(d, n);
    if (!binding.is_known && nearest.length > 0)
        breach(d, ENGINE_UNKNOWN_NAME, node, "the name %s is not known here; did you mean %s?", name_phrase(n).text,
               quote_word(nearest).text);
    else if (!binding.is_known)
        breach(d, ENGINE_UNKNOWN_NAME, node, "the name %s is not known here", name_phrase(n).text);
    return binding.is_known ? binding.depth : NO_DEPTH;
}

static int arithmetic_depth(struct descent *d, size_t node)
{
    int parts[2];
    if (!take_parts(d, parts, 2))
        return NO_DEPTH;
    bool first = fits(d, node, 0, parts[0], 0), second = fits(d, node, 1, parts[1], 0);
    return first && second ? 0 : NO_DEPTH;
}

/* A part in which a name is bound. */
static int body_depth(struct descent *d, int64_t name, struct word word, int bound)
{
    struct binding *binding = &d->names[name];
    struct binding outer = *binding;
    *binding = (struct binding){ true, bound, word };
    int depth = part_depth(d);
    *binding = outer;
    return depth;
}

static int let_depth(struct descent *d, size_t node)
{
    int bound = part_depth(d);
    int body = body_depth(d, d->script->nodes[node].operand, d->script->nodes[node].word, bound);
    return bound == NO_DEPTH ? NO_DEPTH : body;
}

static int call_depth(struct descent *d, size_t node)
{
    const struct script *s = d->script;
    const struct node *n = &s->nodes[node];
    unsigned given = children_of(n->kind, n->operand);
    size_t called = (size_t)(n->operand % 256);
    int parts[ENGINE_PARAMETERS_MAX];
    bool fit = take_parts(d, parts, given);
    if (called >= s->functions)
        breach(d, ENGINE_UNKNOWN_NAME, node, "there is no function %s: the script has %zu, counted from 0",
               name_phrase(n).text, s->functions);
    if (!fit || called >= s->functions)
        return NO_DEPTH;
    const struct node *function = &s->nodes[d->functions[called]];
    unsigned wanted = (unsigned)(function->operand % 256);
    if (given != wanted) {
        breach(d, ENGINE_TYPE_MISMATCH, node, "%u argument%s, and function %s of line %u takes %u", given,
               given == 1 ? "" : "s", name_phrase(n).text, function->line, wanted);
        return NO_DEPTH;
    }
    for (unsigned i = 0; i < given; i++)
        fit &= fits(d, node, i, parts[i], (int)(function[1 + i].operand / 256));
    return fit ? (int)(function->operand / 256) : NO_DEPTH;
}

static int literal_depth(struct descent *d, size_t node)
{
    int64_t operand = d->script->nodes[node].operand;
    unsigned count = (unsigned)(operand % 256);
    int parts[ENGINE_CELL_SLOTS], element = (int)(operand / 256);
    if (!take_parts(d, parts, count))
        return NO_DEPTH;
    bool fit = true;
    for (unsigned i = 0; i < count; i++)
        fit &= fits(d, node, i, parts[i], element);
    return fit ? element + 1 : NO_DEPTH;
}

static int index_depth(struct descent *d, size_t node)
{
    int parts[2];
    if (!take_parts(d, parts, 2))
        return NO_DEPTH;
    bool has_array = is_array(d, node, parts[0]), has_position = fits(d, node, 1, parts[1], 0);
    return has_array && has_position ? parts[0] - 1 : NO_DEPTH;
}

static int length_depth(struct descent *d, size_t node)
{
    int array = part_depth(d);
    return array != NO_DEPTH && is_array(d, node, array) ? 0 : NO_DEPTH;
}

static int iota_depth(struct descent *d, size_t node)
{
    int count = part_depth(d);
    return count != NO_DEPTH && fits(d, node, 0, count, 0) ? 1 : NO_DEPTH;
}

static int replicate_depth(struct descent *d, size_t node)
{
    int parts[2];
    if (!take_parts(d, parts, 2))
        return NO_DEPTH;
    bool has_count = fits(d, node, 0, parts[0], 0);
    int depth = depth_over(d, node, parts[1]);
    return has_count ? depth : NO_DEPTH;
}

static int if_depth(struct descent *d, size_t node)
{
    int parts[3];
    if (!take_parts(d, parts, 3))
        return NO_DEPTH;
    bool has_guard = fits(d, node, 0, parts[0], 0);
    if (parts[1] != parts[2])
        breach(d, ENGINE_TYPE_MISMATCH, node, "its then part is %s, and its else part %s",
               depth_phrase(parts[1]).text, depth_phrase(parts[2]).text);
    return has_guard && parts[1] == parts[2] ? parts[1] : NO_DEPTH;
}

/* ---- Loops ---- */

/* The depth of an array's element, where there is one. */
static int element_depth(int array)
{
    return array > 0 ? array - 1 : NO_DEPTH;
}

/* A map or filter; over a number it breaks the rule whatever its body. */
static int over_array_depth(struct descent *d, size_t node)
{
    const struct node *n = &d->script->nodes[node];
    int array = part_depth(d);
    int body = body_depth(d, n->operand, n->word, element_depth(array));
    if (array == NO_DEPTH || !is_array(d, node, array) || body == NO_DEPTH)
        return NO_DEPTH;
    if (n->kind == ENGINE_KIND_MAP)
        return depth_over(d, node, body);
    return fits(d, node, 1, body, 0) ? array : NO_DEPTH;
}

/* The body of a reduce: its second name hides an equal first one. */
static int reduce_body_depth(struct descent *d, const struct node *n, int start, int array)
{
    struct binding *first = &d->names[n->operand % 256];
    struct binding outer = *first;
    *first = (struct binding){ true, start, n->word };
    int depth = body_depth(d, n->operand / 256, n->second, element_depth(array));
    *first = outer;
    return depth;
}

/* A reduce; over a number it breaks the rule whatever its body, if its start has a depth. */
static int reduce_depth(struct descent *d, size_t node)
{
    int parts[2];
    bool have_depths = take_parts(d, parts, 2);
    int start = parts[0], array = parts[1];
    int body = reduce_body_depth(d, &d->script->nodes[node], start, array);
    if (!have_depths || !is_array(d, node, array) || body == NO_DEPTH)
        return NO_DEPTH;
    if (body != start)
        breach(d, ENGINE_TYPE_MISMATCH, node, "its start is %s, and its body %s", depth_phrase(start).text,
               depth_phrase(body).text);
    return body == start ? start : NO_DEPTH;
}

/* As deep as the script's levels. */
static int part_depth(struct descent *d)
{
    size_t node = d->at++;
    switch (d->script->nodes[node].kind) {
    case ENGINE_KIND_NAME: return name_depth(d, node);
    case ENGINE_KIND_SUM:
    case ENGINE_KIND_DIFFERENCE:
    case ENGINE_KIND_LESS: return arithmetic_depth(d, node);
    case ENGINE_KIND_LET: return let_depth(d, node);
    case ENGINE_KIND_CALL: return call_depth(d, node);
    case ENGINE_KIND_LITERAL: return literal_depth(d, node);
    case ENGINE_KIND_INDEX: return index_depth(d, node);
    case ENGINE_KIND_LENGTH: return length_depth(d, node);
    case ENGINE_KIND_IF: return if_depth(d, node);
    case ENGINE_KIND_MAP:
    case ENGINE_KIND_FILTER: return over_array_depth(d, node);
    case ENGINE_KIND_IOTA: return iota_depth(d, node);
    case ENGINE_KIND_REPLICATE: return replicate_depth(d, node);
    case ENGINE_KIND_REDUCE: return reduce_depth(d, node);
    default: return 0; /* a number */
    }
}

/* ---- Functions ---- */

static void bind_parameters(struct descent *d, size_t function)
{
    const struct script *s = d->script;
    memset(d->names, 0, sizeof d->names);
    for (; d->at < s->count && s->nodes[d->at].kind == ENGINE_KIND_PARAMETER; d->at++) {
        const struct node *parameter = &s->nodes[d->at];
        struct binding *binding = &d->names[parameter->operand % 256];
        if (binding->is_known)
            breach(d, ENGINE_UNKNOWN_NAME, d->at, "the function of line %u has the parameter name %s twice",
                   s->nodes[function].line, name_phrase(parameter).text);
        else
            *binding = (struct binding){ true, (int)(parameter->operand / 256), parameter->word };
    }
}

static void judge_main(struct descent *d)
{
    const struct node *main_node = d->script->nodes;
    int64_t result = main_node->operand / 256;
    bool is_right = main_node->operand % 256 == 2 && main_node[1].operand / 256 == result
                    && main_node[2].operand / 256 == 1;
    if (!is_right)
        breach(d, ENGINE_TYPE_MISMATCH, 0, "main takes two parameters, the totals of its result's depth (%d) and the"
               " readings of depth 1", (int)result);
}

void explain_depths(const struct script *script, unsigned number, size_t node)
{
    struct descent d = { .script = script, .number = number, .lowest = script->count };
    size_t count = 0;
    for (size_t i = 0; i < script->count; i++)
        if (script->nodes[i].kind == ENGINE_KIND_FUNCTION)
            d.functions[count++] = i;
    judge_main(&d);
    while (d.at < script->count) {
        size_t function = d.at++;
        int wanted = (int)(script->nodes[function].operand / 256);
        bind_parameters(&d, function);
        int depth = part_depth(&d);
        if (depth != NO_DEPTH && depth != wanted)
            breach(&d, ENGINE_TYPE_MISMATCH, function, "its body is %s, and its result is said to be %s",
                   depth_phrase(depth).text, depth_phrase(wanted).text);
    }
    if (d.lowest != node)
        say_refusal(script, number, spot_of(&script->nodes[node]), "the engine refuses this node");
}
