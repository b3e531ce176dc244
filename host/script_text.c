/* From a script's text to its nodes. Every faulty line is named; then the program ends. */
#include "names.h"
#include "node_kinds.h"
#include "place.h"
#include "script.h"

#include <inttypes.h>
#include <stdio.h>
#include <string.h>

/* A text that is being read. */
struct reader {
    struct script *script;
    struct text text;
    unsigned faults;
    bool is_faulty; /* the present line */
};

/* Says what is wrong at a place of the present line, unless something was said of the line already. */
__attribute__((format(printf, 3, 4))) static void fault(struct reader *r, const char *at, const char *format, ...)
{
    va_list arguments;
    if (r->is_faulty)
        return;
    r->is_faulty = true;
    r->faults++;
    va_start(arguments, format);
    complain_in_with(&r->text, r->text.line, at, format, arguments);
    va_end(arguments);
}

/* The place after what was read of the present line. */
static const char *here(const struct reader *r)
{
    return (const char *)r->text.at;
}

/* What is said after a word that is not known: the one that is likely meant. */
struct hint {
    char text[160];
};

static struct hint hint_of(struct word nearest)
{
    struct hint hint = { "" };
    if (nearest.length > 0)
        snprintf(hint.text, sizeof hint.text, "; did you mean %s?", quote_word(nearest).text);
    return hint;
}

/* The definition of a word, or null. */
static struct definition *definition_of(struct script *s, struct word word)
{
    for (size_t i = 0; i < s->defined; i++)
        if (same_word(s->definitions[i].word, word))
            return &s->definitions[i];
    return NULL;
}

/* The defined word that another one is likely meant to be. */
static struct word nearest_definition(const struct script *s, struct word word)
{
    static struct word words[DEFINITIONS_MAX];
    for (size_t i = 0; i < s->defined; i++)
        words[i] = s->definitions[i].word;
    return nearest_word(word, words, s->defined);
}

/* Says why a word is no number. */
static void fault_of_number(struct reader *r, struct word word, enum numeral numeral)
{
    if (numeral == NUMERAL_TOO_LARGE)
        fault(r, word.start, "%s does not fit 64 bits: numbers go from %" PRId64 " to %" PRId64, quote_word(word).text,
              INT64_MIN, INT64_MAX);
    else
        fault(r, word.start, "%s is neither a number nor defined%s", quote_word(word).text,
              hint_of(nearest_definition(r->script, word)).text);
}

/* The next word as a number, or as a word that was defined to be one, which is then left in `*used`; 0 where it is
 * faulty. */
static int64_t number_in(struct reader *r, int64_t least, int64_t greatest, struct word *used)
{
    struct word word;
    int64_t number = 0;
    if (!next_word(&r->text, &word)) {
        fault(r, here(r), "a number is missing");
        return 0;
    }
    enum numeral numeral = numeral_of(word, &number);
    if (numeral != NUMERAL_FITS) {
        struct definition *definition = numeral == NUMERAL_NONE ? definition_of(r->script, word) : NULL;
        if (definition == NULL) {
            fault_of_number(r, word, numeral);
            return 0;
        }
        definition->is_used = true;
        number = definition->number;
        *used = word;
    }
    if (number < least || number > greatest) {
        fault(r, word.start, "%" PRId64 " is not within %" PRId64 " to %" PRId64, number, least, greatest);
        return 0;
    }
    return number;
}

static void define(struct reader *r)
{
    struct script *s = r->script;
    struct definition definition = { .line = r->text.line };
    struct word unused;
    int64_t number;
    const char *at = here(r);
    if (!next_word(&r->text, &definition.word) || numeral_of(definition.word, &number) != NUMERAL_NONE) {
        fault(r, at, "'define' wants a word and a number");
        return;
    }
    const struct definition *before = definition_of(s, definition.word);
    if (before != NULL)
        fault(r, definition.word.start, "%s is defined twice, first on line %u", quote_word(definition.word).text,
              before->line);
    definition.number = number_in(r, INT64_MIN, INT64_MAX, &unused);
    if (s->defined == DEFINITIONS_MAX)
        fault(r, definition.word.start, "over %d definitions", DEFINITIONS_MAX);
    if (!r->is_faulty)
        s->definitions[s->defined++] = definition;
}

/* Reads a node's operand, by its kind. */
static void take_operand(struct reader *r, struct node *node)
{
    switch (node_kinds[node->kind].parts) {
    case OPERAND_VALUE: node->operand = number_in(r, INT64_MIN, INT64_MAX, &node->word); break;
    case OPERAND_NAME: node->operand = number_in(r, 0, 255, &node->word); break;
    case OPERAND_PAIR:
        node->operand = number_in(r, 0, 255, &node->word);
        node->operand += 256 * number_in(r, 0, INT64_MAX / 256, &node->second);
        break;
    case OPERAND_NONE: break;
    }
}

/* Names for the totals: only what is shown depends on them. */
static void take_names(struct reader *r)
{
    struct script *s = r->script;
    struct names names = { 0 };
    struct names_fault why;
    if (s->names_spot.line > 0)
        fault(r, s->last.at, "the totals have names already, on line %u", s->names_spot.line);
    else if (!names_in(&r->text, &names, &why))
        fault(r, why.at, "%s", why.text);
    s->names_spot = s->last;
    s->names_levels = names.levels;
}

/* The names are for totals of main's depth. */
static void judge_names(struct reader *r)
{
    const struct script *s = r->script;
    int64_t depth = s->count > 0 && s->nodes[0].kind == ENGINE_KIND_FUNCTION ? s->nodes[0].operand / 256 : 0;
    if (s->names_spot.line == 0 || r->faults > 0 || s->names_levels == (depth == 0 ? 1 : depth))
        return;
    say_at(s, s->names_spot, "names for totals of depth %u, and main's depth is %" PRId64, s->names_levels, depth);
    r->faults++;
}

/* The kind that a word stands for; ENGINE_KINDS where it stands for none. */
static uint8_t kind_of(struct word word)
{
    uint8_t kind = 0;
    while (kind < ENGINE_KINDS && !(engine_is_node_kind(kind) && word_is(word, node_kinds[kind].word)))
        kind++;
    return kind;
}

/* The word that a line's first word is likely meant to be. */
static struct word nearest_kind(struct word word)
{
    static const char *const others[] = { "define", "functions", "node", "totals" };
    enum { OTHERS = sizeof others / sizeof others[0] };
    struct word words[ENGINE_KINDS + OTHERS];
    for (unsigned kind = 0; kind < ENGINE_KINDS; kind++) {
        const char *known = engine_is_node_kind(kind) ? node_kinds[kind].word : "";
        words[kind] = (struct word){ known, strlen(known) };
    }
    for (size_t i = 0; i < OTHERS; i++)
        words[ENGINE_KINDS + i] = (struct word){ others[i], strlen(others[i]) };
    return nearest_word(word, words, ENGINE_KINDS + OTHERS);
}

/* The node of a line that begins with this word. */
static struct node node_in(struct reader *r, struct word word)
{
    struct node node = { .line = r->text.line, .text = word };
    struct word unused;
    if (word_is(word, "node")) {
        node.kind = (uint8_t)number_in(r, 0, 255, &unused);
        node.operand = number_in(r, INT64_MIN, INT64_MAX, &unused);
        return node;
    }
    node.kind = kind_of(word);
    if (node.kind == ENGINE_KINDS)
        fault(r, word.start, "%s is no kind of node%s", quote_word(word).text, hint_of(nearest_kind(word)).text);
    else
        take_operand(r, &node);
    return node;
}

static void add_node(struct reader *r, struct word word, unsigned indentation)
{
    struct script *s = r->script;
    struct node node = node_in(r, word);
    node.indentation = indentation;
    if (s->count == SCRIPT_NODES_MAX) {
        fault(r, word.start, "over %d nodes", SCRIPT_NODES_MAX);
        return;
    }
    s->nodes[s->count++] = node;
    if (!s->functions_are_given && node.kind == ENGINE_KIND_FUNCTION)
        s->functions++;
}

static void read_line(struct reader *r)
{
    struct word word, unused;
    unsigned columns = indentation(&r->text);
    r->is_faulty = false;
    if (!next_word(&r->text, &word))
        return;
    r->script->last = (struct spot){ r->text.line, word.start };
    if (word_is(word, "define")) {
        define(r);
    } else if (word_is(word, "functions")) {
        r->script->functions = (size_t)number_in(r, 0, 65535, &unused);
        r->script->functions_are_given = true;
        r->script->functions_spot = r->script->last;
    } else if (word_is(word, "totals")) {
        take_names(r);
    } else {
        add_node(r, word, columns);
    }
    if (!r->is_faulty && next_word(&r->text, &word))
        fault(r, word.start, "%s is left over", quote_word(word).text);
}

void parse_text(struct script *script, const char *path, const uint8_t *bytes, size_t length)
{
    struct reader reader = { .script = script, .text = text_of(path, bytes, length) };
    script->text = reader.text;
    script->last = (struct spot){ 1, (const char *)reader.text.begin };
    script->count = script->functions = script->defined = 0;
    script->functions_are_given = false;
    script->names_spot.line = 0;
    while (next_line(&reader.text))
        read_line(&reader);
    judge_names(&reader);
    if (reader.faults > 0)
        fail(STATUS_UNUSABLE, "%s: %u faulty line%s", path, reader.faults, reader.faults == 1 ? "" : "s");
}

void read_text(struct script *script, const char *path, uint8_t *bytes, size_t capacity)
{
    size_t length = read_whole(path, bytes, capacity);
    if (memchr(bytes, 0, length) != NULL)
        fail(STATUS_UNUSABLE, "%s: a script file or other data, where a text is wanted; 'script_tool list' makes a text"
             " of a script file", path);
    parse_text(script, path, bytes, length);
}
