/* Checks a script by its text: the engine decides, and its refusal is explained; warnings are the host's own. */
#include "script.h"

static uint8_t file[SCRIPT_FILE_BYTES_MAX];
static struct parentage parentage[SCRIPT_NODES_MAX + 1];

/* ---- Warnings ---- */

/* A child is indented deeper than its parent, and as deep as the parent's other children; functions all alike. */
static void warn_of_indentation(const struct script *s)
{
    static size_t first_child[SCRIPT_NODES_MAX]; /* of each node that has one */
    find_parents(s, parentage);
    for (size_t i = 0; i < s->count; i++) {
        const struct node *node = &s->nodes[i];
        size_t parent = parentage[i].parent;
        if (parent != NO_PARENT && parentage[i].child == 0)
            first_child[parent] = i;
        size_t sibling = parent == NO_PARENT ? 0 : first_child[parent];
        if (parent != NO_PARENT && node->indentation <= s->nodes[parent].indentation)
            warn_at(s, spot_of(node), "it stands below line %u in the script, and is not indented deeper",
                    s->nodes[parent].line);
        else if (node->indentation != s->nodes[sibling].indentation)
            warn_at(s, spot_of(node), "it stands beside line %u in the script, and is not indented alike",
                    s->nodes[sibling].line);
    }
}

static void warn_of_unused_words(const struct script *s)
{
    for (size_t i = 0; i < s->defined; i++) {
        const struct definition *definition = &s->definitions[i];
        if (!definition->is_used)
            warn_at(s, (struct spot){ definition->line, definition->word.start }, "%s is defined and not used",
                    quote_word(definition->word).text);
    }
}

static void warn_of_cells(const struct script *s, size_t cells)
{
    size_t least = least_cells(s);
    if (cells != 0 && cells < least)
        warn_at(s, spot_of(&s->nodes[0]), "no delivery can be done on %zu cell%s: at some time of each, at least %zu"
                " are taken", cells, cells == 1 ? "" : "s", least);
}

/* ---- The check ---- */

bool check_script(const struct script *script, size_t cells, uint8_t *kinds, int64_t *operands, uint32_t *lines)
{
    size_t length = script_file_of(script, file);
    uint64_t answer = engine_translate(file, length, kinds, ENGINE_CODE_LINES_MAX, operands, ENGINE_CODE_LINES_MAX);
    bool is_accepted = engine_answer_number(answer) == ENGINE_DONE;
    *lines = engine_answer_lines(answer);
    if (!is_accepted)
        explain_refusal(script, answer);
    warn_of_indentation(script);
    warn_of_unused_words(script);
    if (is_accepted) {
        warn_of_unused_nodes(script);
        warn_of_guards(script);
        warn_of_cells(script, cells);
    }
    return is_accepted;
}
