/* A script's code with the meaning of each line in words, and with the names of its text. */
#include "code.h"
#include "node_kinds.h"
#include "script.h"

#include <inttypes.h>
#include <stdio.h>
#include <string.h>

enum { NAMES = ENGINE_NEW_NAMES_MAX, NO_NAME = -1 };

/* What the text calls the new names of each function, and the functions themselves; empty where it has no word. */
static struct word words[ENGINE_FUNCTIONS_MAX][NAMES];
static struct word functions[ENGINE_FUNCTIONS_MAX];

/* ---- Names ---- */

/* A descent that numbers the new names as the translator does. */
struct naming {
    const struct script *script;
    size_t at;       /* the next node */
    size_t function;
    int next;        /* new name */
};

static int new_name(struct naming *n, struct word word)
{
    words[n->function][n->next] = word;
    return n->next++;
}

/* Numbers what is in the next part; gives the new name that is its atom, or NO_NAME where it is a number or a name of
 * the text. */
static int name_part(struct naming *n)
{
    const struct node *node = &n->script->nodes[n->at++];
    const struct word no_word = { NULL, 0 };
    unsigned children = children_of(node->kind, node->operand), before = children - trees_of(node->kind);
    if (node->kind == ENGINE_KIND_CALL && functions[node->operand % 256].length == 0)
        functions[node->operand % 256] = node->word;
    if (node->kind == ENGINE_KIND_LET) {
        int bound = name_part(n);
        if (bound != NO_NAME && words[n->function][bound].length == 0)
            words[n->function][bound] = node->word;
        return name_part(n);
    }
    if (!is_compound(node->kind))
        return NO_NAME;
    for (unsigned i = 0; i < before; i++)
        name_part(n);
    int name = new_name(n, no_word);
    for (unsigned i = 0; i < pass_names_of(node->kind); i++)
        new_name(n, i == 0 ? node->word : node->second);
    for (unsigned i = before; i < children; i++) /* trees */
        name_part(n);
    return name;
}

static void find_names(const struct script *script)
{
    struct naming n = { .script = script };
    functions[0] = (struct word){ "main", 4 };
    for (; n.at < script->count; n.function++) {
        const struct node *function = &script->nodes[n.at++];
        n.next = 0;
        for (int64_t i = 0; i < function->operand % 256; i++)
            new_name(&n, script->nodes[n.at++].word);
        name_part(&n);
    }
}

/* ---- Lines ---- */

/* Code that is being printed. */
struct printing {
    const struct code *code;
    bool (*is_borrowed)[ENGINE_PARAMETERS_MAX]; /* of each function */
    uint32_t at;
    size_t function; /* whose names count */
    int indentation;
};

struct phrase {
    char text[48];
};

static struct phrase word_phrase(struct word word)
{
    struct phrase phrase;
    snprintf(phrase.text, sizeof phrase.text, "%s", plain_word(word).text);
    return phrase;
}

/* A name by its word; with its number, where the function has the word twice; else by its number alone. */
static struct phrase name_phrase(const struct printing *p, int64_t name)
{
    struct word word = words[p->function][name];
    struct phrase phrase = word_phrase(word);
    int uses = 0;
    for (int i = 0; word.length > 0 && i < NAMES; i++)
        uses += same_word(words[p->function][i], word);
    size_t length = strlen(phrase.text);
    if (uses != 1)
        snprintf(phrase.text + length, sizeof phrase.text - length, "%%%d", (int)name);
    return phrase;
}

static struct phrase function_phrase(size_t function)
{
    struct phrase phrase = word_phrase(functions[function]);
    if (functions[function].length == 0)
        snprintf(phrase.text, sizeof phrase.text, "function %zu", function);
    return phrase;
}

/* The atom on a line. */
static struct phrase atom_phrase(const struct printing *p, uint32_t line)
{
    struct phrase phrase;
    if (p->code->kinds[line] == ENGINE_KIND_NAME)
        return name_phrase(p, p->code->operands[line]);
    snprintf(phrase.text, sizeof phrase.text, "%" PRId64, p->code->operands[line]);
    return phrase;
}

/* The columns of the present line before its meaning: its number, kind and operand, and a mark for a retain or
 * release. */
static void begin_line(struct printing *p)
{
    uint8_t kind = p->code->kinds[p->at];
    char mark = kind == ENGINE_KIND_RETAIN ? '+' : kind == ENGINE_KIND_RELEASE ? '-' : ' ';
    printf("%5" PRIu32 " %3u %8" PRId64 " %c %*s", p->at, kind, p->code->operands[p->at], mark, 2 * p->indentation, "");
    p->at++;
}

/* The atoms of a line, each with what it is to it; an argument that the function only reads is lent to it. */
static void print_atoms(struct printing *p, uint32_t line, unsigned count)
{
    uint8_t kind = node_kind_of(p->code->kinds[line]);
    int64_t node_operand = node_operand_of(p->code, line);
    p->indentation += 2;
    for (unsigned i = 0; i < count; i++) {
        struct phrase atom = atom_phrase(p, p->at);
        bool is_lent = kind == ENGINE_KIND_CALL && p->is_borrowed[p->code->operands[line] / 256][i];
        begin_line(p);
        printf("%s: %s%s\n", kind == ENGINE_KIND_END ? "result" : role_of(kind, node_operand, i).text, atom.text,
               is_lent ? ", lent" : "");
    }
    p->indentation -= 2;
}

/* A line of no number: what the tree after it is for. */
static void print_heading(const struct printing *p, const char *what, struct phrase guard, int number)
{
    printf("%20s%*s%s, if %s is %d:\n", "", 2 * p->indentation, "", what, guard.text, number);
}

/* Atoms in a row, between commas. */
static void print_row(const struct printing *p, uint32_t first, unsigned count)
{
    for (unsigned i = 0; i < count; i++)
        printf("%s%s", i == 0 ? "" : ", ", atom_phrase(p, first + i).text);
}

/* What a line does, given that its atoms follow. */
static void print_meaning(const struct printing *p, uint8_t kind, int64_t operand, unsigned atoms)
{
    uint32_t first = p->at;
    struct phrase one = atom_phrase(p, first), two = atom_phrase(p, atoms > 1 ? first + 1 : first);
    struct phrase first_name = name_phrase(p, operand / 256 % 256); /* of a pass */
    if (is_compound(node_kind_of(kind)))
        printf("%s = ", name_phrase(p, operand % 256).text);
    switch (kind) {
    case ENGINE_KIND_SUM: printf("%s + %s", one.text, two.text); break;
    case ENGINE_KIND_DIFFERENCE: printf("%s - %s", one.text, two.text); break;
    case ENGINE_KIND_LESS: printf("1 if %s < %s, else 0", one.text, two.text); break;
    case ENGINE_KIND_CALL:
        printf("%s(", function_phrase((size_t)(operand / 256)).text);
        print_row(p, first, atoms);
        printf(")");
        break;
    case ENGINE_KIND_LITERAL:
        printf("{");
        print_row(p, first, atoms);
        printf("} in a new cell");
        break;
    case ENGINE_KIND_INDEX: printf("%s[%s]", one.text, two.text); break;
    case ENGINE_KIND_LENGTH: printf("length of %s", one.text); break;
    case ENGINE_KIND_IF: printf("one of two trees: the first if %s is 1, the second if it is 0", one.text); break;
    case ENGINE_KIND_IOTA: printf("{0, 1, ..} of length %s in a new cell", one.text); break;
    case ENGINE_KIND_REPLICATE: printf("{%s, %s, ..} of length %s in a new cell", two.text, two.text, one.text); break;
    case ENGINE_KIND_MAP:
        printf("for each %s of %s the tree's result, in a new cell", first_name.text, one.text);
        break;
    case ENGINE_KIND_REWRITING_MAP:
        printf("for each %s of %s the tree's result, in the same cell or, where that is shared, in a new one",
               first_name.text, one.text);
        break;
    case ENGINE_KIND_FILTER:
        printf("each %s of %s for which the tree's result is 1, in a new cell", first_name.text, one.text);
        break;
    case ENGINE_KIND_REDUCE:
        printf("the last %s: first %s, then for each %s of %s the tree's result", first_name.text, one.text,
               name_phrase(p, operand / 65536).text, two.text);
        break;
    case ENGINE_KIND_RETAIN: printf("retain %s", name_phrase(p, operand).text); break;
    case ENGINE_KIND_RELEASE: printf("release %s", name_phrase(p, operand).text); break;
    default: printf("end: gives %s", one.text); break;
    }
    putchar('\n');
}

/* A tree, to its end line and atom. As deep as the script's levels. */
static void print_tree(struct printing *p)
{
    uint8_t kind;
    do {
        uint32_t line = p->at;
        unsigned atoms = atoms_after(p->code, line);
        kind = p->code->kinds[line];
        begin_line(p);
        print_meaning(p, kind, p->code->operands[line], atoms);
        print_atoms(p, line, atoms);
        p->indentation++;
        for (unsigned i = 0; i < trees_of(node_kind_of(kind)); i++) {
            if (kind == ENGINE_KIND_IF)
                print_heading(p, i == 0 ? "then" : "else", atom_phrase(p, line + 1), i == 0);
            p->indentation += kind == ENGINE_KIND_IF;
            print_tree(p);
            p->indentation -= kind == ENGINE_KIND_IF;
        }
        p->indentation--;
    } while (kind != ENGINE_KIND_END);
}

static void print_function(struct printing *p)
{
    unsigned count = p->code->parameters[p->function];
    int64_t depth = p->code->operands[p->at] / 256;
    begin_line(p);
    printf("function %zu, %s: %u parameter%s, result of depth %" PRId64 "\n", p->function,
           function_phrase(p->function).text, count, count == 1 ? "" : "s", depth);
    p->indentation = 2;
    for (unsigned i = 0; i < count; i++) {
        int64_t operand = p->code->operands[p->at];
        const char *held = operand / 256 == 0              ? ""
                           : p->is_borrowed[p->function][i] ? ", borrowed: only read, and the caller keeps it"
                                                            : ", owned";
        begin_line(p);
        printf("parameter %u: %s, of depth %" PRId64 "%s\n", i + 1, name_phrase(p, operand % 256).text, operand / 256,
               held);
    }
    p->indentation = 1;
    print_tree(p);
    p->indentation = 0;
}

void print_code(const struct script *script, const uint8_t *kinds, const int64_t *operands, uint32_t lines)
{
    bool is_borrowed[ENGINE_FUNCTIONS_MAX][ENGINE_PARAMETERS_MAX];
    struct code code = code_of(kinds, operands, lines);
    struct printing p = { &code, is_borrowed, 0, 0, 0 };
    find_names(script);
    find_borrowed(&code, is_borrowed);
    printf(" line kind  operand   meaning (+ retains, - releases)\n");
    for (; p.function < code.count; p.function++)
        print_function(&p);
}
