/* A script's text written anew: indented by its nesting, with its words and its comments as they were. */
#define _POSIX_C_SOURCE 200809L /* open_memstream */
#include "place.h"
#include "script.h"

#include <stdio.h>
#include <stdlib.h>
#include <string.h>

/* A line as it was. */
struct source_line {
    const char *start, *comment, *end; /* `comment` is `end` where there is none */
    bool has_words;
};

struct formatting {
    FILE *out;
    const struct script *script;
    struct parentage *parentage;
    struct text text;
    size_t node;       /* the next one */
    bool is_begun;     /* a line was written */
    bool follows_gap;  /* empty lines came before this one */
};

static struct source_line line_of(struct text text)
{
    struct source_line line = { .start = (const char *)text.at };
    struct word word;
    while (next_word(&text, &word))
        line.has_words = true;
    line.comment = line.end = (const char *)text.at;
    while (line.end < (const char *)text.end && *line.end != '\n')
        line.end++;
    while (line.end > line.comment && strchr(" \t\r", line.end[-1]) != NULL)
        line.end--;
    return line;
}

/* The column of a place, from 0: a tab goes on to the next multiple of 8, and a character of several bytes is one. */
static int column_at(const char *start, const char *at)
{
    int column = 0;
    for (; start < at; start++) {
        if (*start == '\t')
            column = (column / 8 + 1) * 8;
        else
            column += ((unsigned char)*start & 0xc0) != 0x80;
    }
    return column;
}

/* The indentation of the next node. */
static int next_indentation(const struct formatting *f)
{
    unsigned level = f->node < f->script->count ? f->parentage[f->node].level : 0;
    return 2 * (int)(level < ENGINE_LEVELS_MAX + 1 ? level : ENGINE_LEVELS_MAX + 1);
}

/* The words with a blank between them; gives the columns that they take. */
static int write_words(struct formatting *f)
{
    struct text text = f->text;
    struct word word;
    int width = 0;
    while (next_word(&text, &word)) {
        width += fprintf(f->out, "%s", width == 0 ? "" : " ");
        fwrite(word.start, 1, word.length, f->out);
        width += column_at(word.start, word.start + word.length);
    }
    return width;
}

/* A comment beside words stays in its column, if there is room; one of its own line stands as the next node does,
 * unless it began the line. */
static void write_comment(struct formatting *f, const struct source_line *line, int width)
{
    int column = column_at(line->start, line->comment);
    if (line->has_words)
        fprintf(f->out, "%*s", width < column ? column - width : 2, "");
    else if (column > 0)
        fprintf(f->out, "%*s", next_indentation(f), "");
    fwrite(line->comment, 1, (size_t)(line->end - line->comment), f->out);
}

static void write_line(struct formatting *f)
{
    struct source_line line = line_of(f->text);
    bool has_comment = line.comment < line.end;
    bool is_node = f->node < f->script->count && f->script->nodes[f->node].line == f->text.line;
    int width = 0;
    if (!line.has_words && !has_comment) {
        f->follows_gap = f->is_begun;
        return;
    }
    if (f->follows_gap)
        fputc('\n', f->out);
    f->follows_gap = false;
    f->is_begun = true;
    if (is_node)
        width = fprintf(f->out, "%*s", next_indentation(f), "");
    width += write_words(f);
    if (has_comment)
        write_comment(f, &line, width);
    f->node += is_node;
    fputc('\n', f->out);
}

/* The text must say the nodes that it said before. */
static void compare_nodes(const struct script *script, const char *bytes, size_t length)
{
    static struct script again;
    static uint8_t files[2][SCRIPT_FILE_BYTES_MAX];
    parse_text(&again, script->text.path, (const uint8_t *)bytes, length);
    size_t file_length = script_file_of(script, files[0]);
    if (script_file_of(&again, files[1]) != file_length || memcmp(files[0], files[1], file_length) != 0)
        fail(STATUS_UNUSABLE, "%s: its nodes would not be the same; nothing was written", script->text.path);
}

void write_formatted(const struct script *script, const char *path)
{
    static struct parentage parentage[SCRIPT_NODES_MAX + 1];
    char *bytes = NULL;
    size_t length = 0;
    struct formatting f = { .script = script, .parentage = parentage, .text = script->text };
    f.out = open_memstream(&bytes, &length);
    if (f.out == NULL)
        fail(STATUS_UNWRITTEN, "%s: no memory for the text", path);
    find_parents(script, parentage);
    while (next_line(&f.text))
        write_line(&f);
    if (fclose(f.out) != 0)
        fail(STATUS_UNWRITTEN, "%s: no memory for the text", path);
    compare_nodes(script, bytes, length);
    write_whole(path, bytes, length);
    free(bytes);
}
