/* Why the engine refused a script, by places of its text. For 6, 7 and 8 every node that breaks the rule is named. */
#include "node_kinds.h"
#include "script.h"
#include "script_depths.h"

#include <inttypes.h>
#include <stdio.h>
#include <string.h>

static struct parentage parentage[SCRIPT_NODES_MAX + 1];

/* ---- 2: sizes ---- */

/* Where the function after so many stands. */
static struct spot spot_of_function(const struct script *s, size_t before)
{
    for (size_t i = 0; i < s->count; i++)
        if (s->nodes[i].kind == ENGINE_KIND_FUNCTION && before-- == 0)
            return spot_of(&s->nodes[i]);
    return s->last;
}

static void explain_sizes(const struct script *s)
{
    const unsigned number = ENGINE_SIZE_OUT_OF_RANGE;
    struct spot given = s->functions_spot;
    if (s->functions == 0)
        say_refusal(s, number, s->functions_are_given ? given : s->last, "there is no function");
    else if (s->functions > ENGINE_FUNCTIONS_MAX)
        say_refusal(s, number, s->functions_are_given ? given : spot_of_function(s, ENGINE_FUNCTIONS_MAX),
                    "%zu functions, and %d are the most", s->functions, ENGINE_FUNCTIONS_MAX);
    if (s->count == 0)
        say_refusal(s, number, s->last, "there is no node");
    else if (s->count > ENGINE_NODES_MAX)
        say_refusal(s, number, spot_of(&s->nodes[ENGINE_NODES_MAX]), "%zu nodes, and %d are the most", s->count,
                    ENGINE_NODES_MAX);
}

/* ---- 3, 4, 5: node by node ---- */

/* What is wanted at a node, or after the last one. */
static void describe_wanted(const struct script *s, size_t node, char *text, size_t capacity)
{
    struct parentage up = parentage[node];
    if (up.parent == NO_PARENT) {
        snprintf(text, capacity, "a function is wanted");
        return;
    }
    const struct node *parent = &s->nodes[up.parent];
    snprintf(text, capacity, "the '%s' of line %u wants its %s", node_kinds[parent->kind].word, parent->line,
             role_of(parent->kind, parent->operand, up.child).text);
}

static void explain_misfit(const struct script *s, size_t node)
{
    const unsigned number = ENGINE_MALFORMED;
    char wanted[96];
    find_parents(s, parentage);
    describe_wanted(s, node, wanted, sizeof wanted);
    if (node >= s->count) {
        say_refusal(s, number, s->last, "the script ends where %s", wanted);
        return;
    }
    uint8_t kind = s->nodes[node].kind;
    struct spot spot = spot_of(&s->nodes[node]);
    if (parentage[node].parent == NO_PARENT && kind == ENGINE_KIND_FUNCTION)
        say_refusal(s, number, spot, "this function is left over: line %u says that there are %zu",
                    s->functions_spot.line, s->functions);
    else if (parentage[node].parent == NO_PARENT && node > 0)
        say_refusal(s, number, spot, "it is left over: the function before it has its parameters and its body, and %s",
                    wanted);
    else if (engine_is_node_kind(kind))
        say_refusal(s, number, spot, "%s, and this is %s %s", wanted,
                    strchr("aeiou", node_kinds[kind].word[0]) == NULL ? "a" : "an", node_kinds[kind].word);
    else
        say_refusal(s, number, spot, "%s, and this is no kind of node that there is", wanted);
}

static void explain_part(const struct script *s, const struct node *node, struct operand_part part, int64_t value)
{
    if (part.what != NULL && (value < 0 || value > part.greatest))
        say_refusal(s, ENGINE_OPERAND_OUT_OF_RANGE, spot_of(node), "%s: %" PRId64 " is not within 0 to %d", part.what,
                    value, part.greatest);
}

static void explain_operand(const struct script *s, const struct node *node)
{
    const struct node_kind *kind = &node_kinds[node->kind];
    bool is_pair = kind->parts == OPERAND_PAIR;
    if (kind->parts == OPERAND_NONE || (is_pair && node->operand < 0)) {
        say_refusal(s, ENGINE_OPERAND_OUT_OF_RANGE, spot_of(node), "its operand is %" PRId64 ", and %s is wanted",
                    node->operand, is_pair ? "0 or more" : "0");
        return;
    }
    explain_part(s, node, kind->low, is_pair ? node->operand % 256 : node->operand);
    if (is_pair)
        explain_part(s, node, kind->high, node->operand / 256);
}

/* ---- 8, 9: what is too much ---- */

static void explain_crowding(const struct script *s)
{
    for (size_t i = 0; i < s->count;) {
        size_t function = i++;
        unsigned names = (unsigned)(s->nodes[function].operand % 256);
        for (; i < s->count && s->nodes[i].kind != ENGINE_KIND_FUNCTION; i++)
            names += is_compound(s->nodes[i].kind) + pass_names_of(s->nodes[i].kind);
        if (names > ENGINE_NEW_NAMES_MAX)
            say_refusal(s, ENGINE_TOO_MANY_NAMES, spot_of(&s->nodes[function]),
                        "this function needs %u names (its parameters, one for each node that costs a step, one more"
                        " for each map or filter, two more for each reduce), and %d are the most", names,
                        ENGINE_NEW_NAMES_MAX);
    }
}

/* Whether the code is too long with the bodies of all functions after the first `whole` cut down to one node. */
static bool is_too_long(const struct script *s, size_t whole)
{
    static struct script cut;
    static uint8_t file[SCRIPT_FILE_BYTES_MAX], kinds[ENGINE_CODE_LINES_MAX];
    static int64_t operands[ENGINE_CODE_LINES_MAX];
    int64_t result = 0; /* depth */
    size_t function = 0;
    cut.count = 0;
    cut.functions = s->functions;
    for (size_t i = 0; i < s->count; i++) {
        const struct node *node = &s->nodes[i];
        if (node->kind == ENGINE_KIND_FUNCTION) {
            function++;
            result = node->operand / 256;
        }
        if (function <= whole || node->kind <= ENGINE_KIND_PARAMETER)
            cut.nodes[cut.count++] = *node;
        else if (s->nodes[i - 1].kind <= ENGINE_KIND_PARAMETER) /* the body begins: a number or an empty array */
            cut.nodes[cut.count++] = result == 0
                ? (struct node){ .kind = ENGINE_KIND_NUMBER }
                : (struct node){ .kind = ENGINE_KIND_LITERAL, .operand = 256 * (result - 1) };
    }
    size_t length = script_file_of(&cut, file);
    uint64_t answer = engine_translate(file, length, kinds, ENGINE_CODE_LINES_MAX, operands, ENGINE_CODE_LINES_MAX);
    return engine_answer_number(answer) == ENGINE_CODE_TOO_LONG;
}

static void explain_length(const struct script *s)
{
    size_t whole = 1;
    while (whole < s->functions && !is_too_long(s, whole))
        whole++;
    say_refusal(s, ENGINE_CODE_TOO_LONG, spot_of_function(s, whole - 1),
                "with this function, number %zu, the code passes %d lines", whole - 1, ENGINE_CODE_LINES_MAX);
}

void explain_refusal(const struct script *script, uint64_t answer)
{
    unsigned number = engine_answer_number(answer);
    size_t node = engine_answer_node(answer);
    switch (number) {
    case ENGINE_SIZE_OUT_OF_RANGE: explain_sizes(script); break;
    case ENGINE_MALFORMED: explain_misfit(script, node); break;
    case ENGINE_OPERAND_OUT_OF_RANGE: explain_operand(script, &script->nodes[node]); break;
    case ENGINE_TOO_DEEP:
        say_refusal(script, number, spot_of(&script->nodes[node]),
                    "it is at level %d, and %d is the last; a part can be moved into a function of its own",
                    ENGINE_LEVELS_MAX + 1, ENGINE_LEVELS_MAX);
        break;
    case ENGINE_UNKNOWN_NAME:
    case ENGINE_TYPE_MISMATCH: explain_depths(script, number, node); break;
    case ENGINE_TOO_MANY_NAMES: explain_crowding(script); break;
    case ENGINE_CODE_TOO_LONG: explain_length(script); break;
    default: say_refusal(script, number, script->last, "the engine refuses the file"); break;
    }
}
