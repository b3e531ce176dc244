/* Text cut into lines and words, messages that show a place of it, numbers in base ten, and bytes. */
#include "text.h"

#include <inttypes.h>
#include <stdio.h>
#include <string.h>

/* ---- Lines and words ---- */

struct text text_of(const char *path, const uint8_t *bytes, size_t length)
{
    static const uint8_t mark[] = { 0xef, 0xbb, 0xbf };
    const uint8_t *begin = length >= sizeof mark && memcmp(bytes, mark, sizeof mark) == 0 ? bytes + sizeof mark : bytes;
    return (struct text){ .path = path, .begin = begin, .at = begin, .end = bytes + length, .line = 0 };
}

bool next_line(struct text *text)
{
    if (text->line > 0) {
        while (text->at < text->end && *text->at != '\n')
            text->at++;
        if (text->at < text->end)
            text->at++;
    }
    text->line++;
    return text->at < text->end;
}

static bool is_blank(uint8_t byte)
{
    return byte == ' ' || byte == '\t' || byte == '\r';
}

unsigned indentation(const struct text *text)
{
    unsigned column = 0;
    for (const uint8_t *at = text->at; at < text->end && is_blank(*at); at++)
        column = *at == '\t' ? (column / 8 + 1) * 8 : column + 1;
    return column;
}

bool next_word(struct text *text, struct word *word)
{
    while (text->at < text->end && is_blank(*text->at))
        text->at++;
    const uint8_t *start = text->at;
    if (start == text->end || *start == '\n' || *start == '#')
        return false;
    while (text->at < text->end && !is_blank(*text->at) && *text->at != '\n' && *text->at != '#')
        text->at++;
    word->start = (const char *)start;
    word->length = (size_t)(text->at - start);
    return true;
}

bool word_is(struct word word, const char *other)
{
    return same_word(word, (struct word){ other, strlen(other) });
}

bool same_word(struct word one, struct word other)
{
    return one.length == other.length && memcmp(one.start, other.start, one.length) == 0;
}

struct quote quote_word(struct word word)
{
    return quote(word.start, word.length);
}

struct plain_word plain_word(struct word word)
{
    struct plain_word plain;
    size_t length = word.length < PLAIN_CHARACTERS_MAX ? word.length : PLAIN_CHARACTERS_MAX;
    for (size_t i = 0; i < length; i++)
        plain.text[i] = word.start[i] > ' ' && word.start[i] <= '~' ? word.start[i] : '?';
    plain.text[length] = '\0';
    return plain;
}

/* ---- Messages ---- */

/* Whether a byte goes on with the character before it (UTF-8). */
static bool goes_on(char byte)
{
    return ((unsigned char)byte & 0xc0) == 0x80;
}

static unsigned column_of(const char *line, const char *at)
{
    unsigned column = 1;
    for (; line < at; line++)
        column += !goes_on(*line);
    return column;
}

/* A line, and below it blanks up to a place, as wide as what is above them, and a caret. */
static void show_line(const char *line, const char *end, const char *at)
{
    enum { SHOWN_MAX = 200 };
    size_t length = 0;
    while (line + length < end && line[length] != '\n' && line[length] != '\r' && length < SHOWN_MAX)
        length++;
    fputs("    ", stderr);
    for (size_t i = 0; i < length; i++)
        fputc(((unsigned char)line[i] < ' ' && line[i] != '\t') || line[i] == 0x7f ? '?' : line[i], stderr);
    fputs("\n    ", stderr);
    for (const char *before = line; before < at && before < line + length; before++)
        if (!goes_on(*before))
            fputc(*before == '\t' ? '\t' : ' ', stderr);
    fputs("^\n", stderr);
}

void complain_in_with(const struct text *text, unsigned line, const char *at, const char *format, va_list arguments)
{
    const char *begin = (const char *)text->begin, *start = at;
    while (start > begin && start[-1] != '\n')
        start--;
    fflush(stdout);
    fprintf(stderr, "%s:%u:%u: ", text->path, line, column_of(start, at));
    vfprintf(stderr, format, arguments);
    fputc('\n', stderr);
    show_line(start, (const char *)text->end, at);
}

void complain_in(const struct text *text, unsigned line, const char *at, const char *format, ...)
{
    va_list arguments;
    va_start(arguments, format);
    complain_in_with(text, line, at, format, arguments);
    va_end(arguments);
}

/* ---- Likeness of words ---- */

enum { ALIKE_MAX = 32 }; /* letters of words that are compared */

/* How many letters are to be put in, left out or changed, or two neighbours swapped, to make one word of another. */
static size_t distance(struct word one, struct word other)
{
    size_t rows[3][ALIKE_MAX + 1]; /* of the words so far: the row before the last, the last and this one */
    size_t *before = rows[0], *last = rows[1], *row = rows[2];
    for (size_t j = 0; j <= other.length; j++)
        row[j] = j;
    for (size_t i = 1; i <= one.length; i++) {
        size_t *oldest = before;
        before = last;
        last = row;
        row = oldest;
        row[0] = i;
        for (size_t j = 1; j <= other.length; j++) {
            size_t least = last[j - 1] + (one.start[i - 1] != other.start[j - 1]);
            least = last[j] + 1 < least ? last[j] + 1 : least;
            least = row[j - 1] + 1 < least ? row[j - 1] + 1 : least;
            if (i > 1 && j > 1 && one.start[i - 1] == other.start[j - 2] && one.start[i - 2] == other.start[j - 1])
                least = before[j - 2] + 1 < least ? before[j - 2] + 1 : least;
            row[j] = least;
        }
    }
    return row[other.length];
}

struct word nearest_word(struct word word, const struct word *others, size_t count)
{
    struct word nearest = { NULL, 0 };
    size_t least = word.length < 6 ? 2 : 3; /* is above what is near */
    if (word.length < 2 || word.length > ALIKE_MAX)
        return nearest;
    for (size_t i = 0; i < count; i++) {
        if (others[i].length == 0 || others[i].length > ALIKE_MAX)
            continue;
        size_t found = distance(word, others[i]);
        if (found < least) {
            least = found;
            nearest = others[i];
        }
    }
    return nearest;
}

/* ---- Numbers in base ten ---- */

enum numeral numeral_of(struct word word, int64_t *number)
{
    bool is_negative = word.length > 0 && word.start[0] == '-';
    size_t first = is_negative ? 1 : 0;
    if (first == word.length)
        return NUMERAL_NONE;
    for (size_t at = first; at < word.length; at++)
        if (word.start[at] < '0' || word.start[at] > '9')
            return NUMERAL_NONE;
    int64_t value = 0; /* at or below 0, since INT64_MIN has no positive partner */
    for (size_t at = first; at < word.length; at++) {
        int digit = word.start[at] - '0';
        if (value < (INT64_MIN + digit) / 10)
            return NUMERAL_TOO_LARGE;
        value = value * 10 - digit;
    }
    if (!is_negative && value == INT64_MIN)
        return NUMERAL_TOO_LARGE;
    *number = is_negative ? value : -value;
    return NUMERAL_FITS;
}

bool number_of(struct word word, int64_t *number)
{
    return numeral_of(word, number) == NUMERAL_FITS;
}

uint64_t option_number(const char *option, const char *argument, uint64_t least, uint64_t greatest)
{
    int64_t number;
    struct word word = { argument, argument == NULL ? 0 : strlen(argument) };
    enum numeral numeral = argument == NULL ? NUMERAL_NONE : numeral_of(word, &number);
    if (numeral == NUMERAL_NONE || (numeral == NUMERAL_FITS && number < 0))
        fail(STATUS_UNUSABLE, "%s: a number is wanted; give one from %" PRIu64 " to %" PRIu64, option, least, greatest);
    if (numeral == NUMERAL_TOO_LARGE)
        fail(STATUS_UNUSABLE, "%s: %s is not within %" PRIu64 " to %" PRIu64 "; give one that is", option,
             quote_word(word).text, least, greatest);
    if ((uint64_t)number < least || (uint64_t)number > greatest)
        fail(STATUS_UNUSABLE, "%s: %" PRId64 " is not within %" PRIu64 " to %" PRIu64 "; give one that is", option,
             number, least, greatest);
    return (uint64_t)number;
}

/* ---- Bytes ---- */

uint64_t number_at(const uint8_t *at, unsigned length)
{
    uint64_t number = 0;
    for (unsigned i = length; i-- > 0;)
        number = number << 8 | at[i];
    return number;
}

void put_number(uint8_t *at, uint64_t number, unsigned length)
{
    for (unsigned i = 0; i < length; i++)
        at[i] = (uint8_t)(number >> (8 * i));
}

int64_t signed_of(uint64_t bits)
{
    return bits <= INT64_MAX ? (int64_t)bits : -(int64_t)(UINT64_MAX - bits) - 1;
}

uint32_t checksum_of(const uint8_t *bytes, size_t length)
{
    uint32_t sum = UINT32_MAX;
    for (size_t i = 0; i < length; i++) {
        sum ^= bytes[i];
        for (int bit = 0; bit < 8; bit++)
            sum = sum >> 1 ^ (sum & 1 ? 0xedb88320u : 0);
    }
    return ~sum;
}
