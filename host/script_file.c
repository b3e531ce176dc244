/* Nodes of a script: their parentage, their bytes in a file, and their text. */
#define _POSIX_C_SOURCE 200809L /* open_memstream */
#include "node_kinds.h"
#include "place.h"
#include "script.h"

#include <inttypes.h>
#include <stdio.h>
#include <stdlib.h>
#include <string.h>

/* ---- Parentage ---- */

void find_parents(const struct script *script, struct parentage *parentage)
{
    size_t parent = NO_PARENT;
    unsigned child = 0; /* of the parent, that comes next */
    for (size_t i = 0; i <= script->count; i++) {
        while (parent != NO_PARENT && child == children_of(script->nodes[parent].kind, script->nodes[parent].operand)) {
            child = parentage[parent].child + 1;
            parent = parentage[parent].parent;
        }
        unsigned level = parent == NO_PARENT ? 0 : parentage[parent].level + 1;
        parentage[i] = (struct parentage){ parent, parent == NO_PARENT ? 0 : child, level };
        if (i < script->count && children_of(script->nodes[i].kind, script->nodes[i].operand) > 0) {
            parent = i;
            child = 0;
        } else {
            child++;
        }
    }
}

void find_shape(const struct script *script, struct shape *shape)
{
    size_t functions = 0;
    for (size_t i = script->count; i-- > 0;) {
        size_t at = i + 1;
        for (unsigned left = children_of(script->nodes[i].kind, script->nodes[i].operand); left > 0; left--)
            at = shape->after[at];
        shape->after[i] = at;
    }
    for (size_t i = 0; i < script->count; i = shape->after[i])
        shape->functions[functions++] = i;
}

/* ---- Files ---- */

size_t script_file_of(const struct script *script, uint8_t bytes[SCRIPT_FILE_BYTES_MAX])
{
    put_number(bytes, script->functions, 2);
    put_number(bytes + 2, script->count, 2);
    for (size_t i = 0; i < script->count; i++) {
        bytes[4 + i] = script->nodes[i].kind;
        put_number(bytes + 4 + script->count + 8 * i, (uint64_t)script->nodes[i].operand, 8);
    }
    return ENGINE_FILE_LENGTH(script->count);
}

/* The nodes of a script file's bytes. */
static void decode_nodes(struct script *script, const char *path, const uint8_t *bytes, size_t length)
{
    if (length < 4)
        fail(STATUS_UNUSABLE, "%s: a script file has 4 bytes or more", path);
    script->functions = (size_t)number_at(bytes, 2);
    script->count = (size_t)number_at(bytes + 2, 2);
    if (length != ENGINE_FILE_LENGTH(script->count))
        fail(STATUS_UNUSABLE, "%s: %zu nodes take %zu bytes, and it has %zu", path, script->count,
             ENGINE_FILE_LENGTH(script->count), length);
    for (size_t i = 0; i < script->count; i++) {
        script->nodes[i].kind = bytes[4 + i];
        script->nodes[i].operand = signed_of(number_at(bytes + 4 + script->count + 8 * i, 8));
    }
}

void read_nodes(struct script *script, const char *path, uint8_t *bytes, size_t capacity)
{
    size_t length = read_whole(path, bytes, capacity);
    if (length > 0 && memchr(bytes, 0, length) == NULL)
        fail(STATUS_UNUSABLE, "%s: a text, where a script file is wanted; 'script_tool assemble' makes one", path);
    decode_nodes(script, path, bytes, length);
}

/* ---- Text ---- */

/* Whether the word and parts of its kind can say a node. */
static bool is_plain(struct node node)
{
    if (!engine_is_node_kind(node.kind))
        return false;
    switch (node_kinds[node.kind].parts) {
    case OPERAND_VALUE: return true;
    case OPERAND_NAME: return node.operand >= 0 && node.operand <= 255;
    case OPERAND_PAIR: return node.operand >= 0;
    case OPERAND_NONE: return node.operand == 0;
    }
    return false;
}

/* A node as text; gives the characters written. */
static int list_node(FILE *file, struct node node)
{
    if (!is_plain(node))
        return fprintf(file, "node %u %" PRId64, node.kind, node.operand);
    const char *word = node_kinds[node.kind].word;
    switch (node_kinds[node.kind].parts) {
    case OPERAND_PAIR: return fprintf(file, "%s %" PRId64 " %" PRId64, word, node.operand % 256, node.operand / 256);
    case OPERAND_NONE: return fprintf(file, "%s", word);
    default: return fprintf(file, "%s %" PRId64, word, node.operand);
    }
}

/* Nodes are indented by their level, as far as children counts tell it; each has its number as a comment. */
static void list_nodes(FILE *file, const struct script *script, const struct parentage *parentage)
{
    enum { LEVELS = 65, COLUMN = 40 };
    size_t functions = 0;
    for (size_t i = 0; i < script->count; i++)
        functions += script->nodes[i].kind == ENGINE_KIND_FUNCTION;
    if (functions != script->functions)
        fprintf(file, "functions %zu\n", script->functions);
    for (size_t i = 0; i < script->count; i++) {
        unsigned level = parentage[i].level < LEVELS ? parentage[i].level : LEVELS;
        int width = fprintf(file, "%*s", (int)(2 * level), "");
        width += list_node(file, script->nodes[i]);
        fprintf(file, "%*s# %zu\n", width < COLUMN ? COLUMN - width : 1, "", i);
    }
}

/* The text of a script's nodes; to be freed. */
static char *listing_of(const struct script *script, const char *path, size_t *length)
{
    static struct parentage parentage[SCRIPT_NODES_MAX + 1];
    char *listing = NULL;
    FILE *file = open_memstream(&listing, length);
    if (file == NULL)
        fail(STATUS_UNWRITTEN, "%s: no memory for the text", path);
    find_parents(script, parentage);
    list_nodes(file, script, parentage);
    if (fclose(file) != 0)
        fail(STATUS_UNWRITTEN, "%s: no memory for the text", path);
    return listing;
}

void write_listing(const struct script *script, const char *path)
{
    size_t length = 0;
    char *listing = listing_of(script, path, &length);
    write_whole(path, listing, length);
    free(listing);
}

void read_either(struct script *script, const char *path, uint8_t *bytes, size_t capacity)
{
    size_t length = read_whole(path, bytes, capacity);
    if (memchr(bytes, 0, length) != NULL) {
        decode_nodes(script, path, bytes, length);
        char *listing = listing_of(script, path, &length);
        if (length > capacity)
            fail(STATUS_UNUSABLE, "%s: its listing has over %zu bytes", path, capacity);
        memcpy(bytes, listing, length);
        free(listing);
    }
    parse_text(script, path, bytes, length);
}
