/* Names for the totals, from a line of a script's text. */
#include "names.h"
#include "place.h"
#include "totals.h"

#include <stdarg.h>
#include <stdio.h>
#include <string.h>

enum { TEXT_BYTES_MAX = 1 << 22 };

__attribute__((format(printf, 3, 4)))
static bool faulty(struct names_fault *fault, struct word part, const char *format, ...)
{
    va_list arguments;
    fault->at = part.start;
    va_start(arguments, format);
    vsnprintf(fault->text, sizeof fault->text, format, arguments);
    va_end(arguments);
    return false;
}

/* The next name, comma or slash on the line; an empty word at its end. */
static struct word next_part(struct text *text)
{
    while (text->at < text->end && (*text->at == ' ' || *text->at == '\t' || *text->at == '\r'))
        text->at++;
    struct word part = { (const char *)text->at, 0 };
    while (text->at < text->end && strchr(" \t\r\n#,/", *text->at) == NULL) {
        text->at++;
        part.length++;
    }
    if (part.length == 0 && text->at < text->end && (*text->at == ',' || *text->at == '/')) {
        text->at++;
        part.length = 1;
    }
    return part;
}

static bool is_mark(struct word part)
{
    return word_is(part, ",") || word_is(part, "/");
}

/* Adds a name to the last level. */
static bool add_name(struct names *names, struct word name, struct names_fault *fault)
{
    unsigned last = names->levels - 1;
    if (name.length == 0 || is_mark(name))
        return faulty(fault, name, "a name is missing: write 'totals NAME / NAME, NAME', a part for each level");
    if (name.length > NAME_LENGTH_MAX)
        return faulty(fault, name, "%s is over %d characters: choose a shorter name", quote_word(name).text,
                      NAME_LENGTH_MAX);
    if (names->level[last].count == ENGINE_CELL_SLOTS)
        return faulty(fault, name, "over %d names for one level: an array has no more elements", ENGINE_CELL_SLOTS);
    names->level[last].words[names->level[last].count++] = name;
    return true;
}

bool names_in(struct text *text, struct names *names, struct names_fault *fault)
{
    *names = (struct names){ .levels = 1 };
    for (;;) {
        if (!add_name(names, next_part(text), fault))
            return false;
        struct word mark = next_part(text);
        if (mark.length == 0)
            return true;
        if (!is_mark(mark))
            return faulty(fault, mark, "before %s a ',' or '/' is missing", quote_word(mark).text);
        if (word_is(mark, "/") && names->levels++ == ENGINE_DEPTH_MAX)
            return faulty(fault, mark, "over %d levels: totals have no more", ENGINE_DEPTH_MAX);
    }
}

void read_names(struct names *names, const char *path, unsigned depth)
{
    static uint8_t bytes[TEXT_BYTES_MAX]; /* in which the words stay */
    struct text text = text_of(path, bytes, read_whole(path, bytes, sizeof bytes));
    struct names_fault fault;
    struct word word;
    while (next_line(&text)) {
        if (!next_word(&text, &word) || !word_is(word, "totals"))
            continue;
        if (!names_in(&text, names, &fault))
            fail(STATUS_UNUSABLE, "%s:%u: %s", path, text.line, fault.text);
        if (names->levels != (depth == 0 ? 1 : depth))
            fail(STATUS_UNUSABLE, "%s:%u: names for totals of depth %u, and main's depth is %u; name its script's text",
                 path, text.line, names->levels, depth);
        return;
    }
    fail(STATUS_UNUSABLE, "%s: no line begins with 'totals'; add one as docs/INSTALLERS.md says, or leave --names out",
         path);
}

/* What a place's position at a level is called; gives the characters. */
static int name_position(const struct names *names, unsigned place, unsigned level, unsigned depth, char *label,
                         size_t capacity)
{
    unsigned position = depth == 0 ? 0 : position_at(place, level, depth);
    unsigned count = names->levels == 0 ? 0 : names->level[level].count;
    const struct word *words = names->level[level].words;
    if (depth == 0)
        return count == 0 ? snprintf(label, capacity, "totals")
                          : snprintf(label, capacity, "%.*s", (int)words[0].length, words[0].start);
    if (count == 1)
        return snprintf(label, capacity, "%.*s %u", (int)words[0].length, words[0].start, position);
    if (position < count)
        return snprintf(label, capacity, "%.*s", (int)words[position].length, words[position].start);
    return snprintf(label, capacity, "[%u]", position);
}

struct label label_of(const struct names *names, unsigned place, unsigned first, unsigned last, unsigned depth)
{
    struct label label = { "" };
    size_t at = 0;
    for (unsigned level = first; level < last; level++) {
        if (level > first && names->levels > 0)
            label.text[at++] = ' ';
        at += (size_t)name_position(names, place, level, depth, label.text + at, sizeof label.text - at);
    }
    return label;
}
