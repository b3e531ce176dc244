/* Text cut into lines and words, messages that show a place of it, numbers in base ten, and bytes: numbers in them, and
 * their checksum. */
#ifndef TEXT_H
#define TEXT_H

#include "message.h"

#include <stdbool.h>
#include <stddef.h>
#include <stdint.h>

/* Text that is read line by line, word by word. '#' begins a comment. */
struct text {
    const char *path;  /* for messages */
    const uint8_t *begin;
    const uint8_t *at;
    const uint8_t *end;
    unsigned line;     /* number of the present line, from 1 */
};

/* A word of a line. */
struct word {
    const char *start;
    size_t length;
};

/* Begins a text; next_line must come first. A byte order mark is passed over. */
struct text text_of(const char *path, const uint8_t *bytes, size_t length);

/* Goes on to the next line; false after the last. */
bool next_line(struct text *text);

/* The columns before the present line's first word: a tab goes on to the next multiple of 8. To be asked before the
 * first word is taken. */
unsigned indentation(const struct text *text);

/* The next word of the present line; false where there is none. */
bool next_word(struct text *text, struct word *word);

bool word_is(struct word word, const char *other);
bool same_word(struct word one, struct word other);
struct quote quote_word(struct word word);

/* The first characters of a word; others than printable ASCII as '?'. */
enum { PLAIN_CHARACTERS_MAX = 32 };
struct plain_word {
    char text[PLAIN_CHARACTERS_MAX + 1];
};
struct plain_word plain_word(struct word word);

/* Prints "path:line:column: message", then that line and a caret below its place `at`. Columns are counted from 1, in
 * characters. */
void complain_in(const struct text *text, unsigned line, const char *at, const char *format, ...)
    __attribute__((format(printf, 4, 5)));
void complain_in_with(const struct text *text, unsigned line, const char *at, const char *format, va_list arguments);

/* The word among some that one is likely meant to be: one letter apart, or two where it is long. Empty where there is
 * none. */
struct word nearest_word(struct word word, const struct word *others, size_t count);

/* What a word is in base ten. */
enum numeral { NUMERAL_NONE, NUMERAL_FITS, NUMERAL_TOO_LARGE };

/* The number that a word is, where it is one from INT64_MIN to INT64_MAX. */
enum numeral numeral_of(struct word word, int64_t *number);
bool number_of(struct word word, int64_t *number);

/* The number that an option's argument is; fails outside `least` to `greatest`. */
uint64_t option_number(const char *option, const char *argument, uint64_t least, uint64_t greatest);

/* A number in so many bytes, low byte first. */
uint64_t number_at(const uint8_t *at, unsigned length);
void put_number(uint8_t *at, uint64_t number, unsigned length);

/* The signed number with these 64 bits. */
int64_t signed_of(uint64_t bits);

/* The checksum of the host's files: the CRC-32 of zip files and Ethernet. */
uint32_t checksum_of(const uint8_t *bytes, size_t length);

#endif
