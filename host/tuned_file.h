/* Tuned code in a file: lines of code that 'script_tool tune' made of a text, and the engine's check passed. All
 * numbers have their low byte first:
 *
 *   bytes 0 to 7     the mark RUSTUNED
 *   bytes 8, 9       the version of this form, 1
 *   bytes 10, 11     main's depth
 *   bytes 12, 13     the number of lines, N
 *   bytes 14, 15     zero
 *   bytes 16 to 19   the checksum of the lines
 *   bytes 20 to 23   the checksum of bytes 0 to 19
 *   then the lines: N kinds of a byte, N operands of 8 bytes, signed
 *
 * A checksum is that of a store's file. */
#ifndef TUNED_FILE_H
#define TUNED_FILE_H

#include "engine.h"
#include "text.h"

enum { TUNED_HEADER_BYTES = 24, LINE_BYTES = 9 };
#define TUNED_BYTES(lines) (TUNED_HEADER_BYTES + LINE_BYTES * (size_t)(lines))
#define TUNED_BYTES_MAX TUNED_BYTES(ENGINE_CODE_LINES_MAX)

struct tuned {
    uint8_t kinds[ENGINE_CODE_LINES_MAX];
    int64_t operands[ENGINE_CODE_LINES_MAX];
    uint32_t lines; /* 0: there is no tuned code */
    unsigned depth; /* of main */
};

/* Whether bytes begin as tuned code does. */
bool has_tuned_mark(const uint8_t *bytes, size_t length);

/* The bytes of tuned code; gives how many. */
size_t encode_tuned(uint8_t bytes[TUNED_BYTES_MAX], const struct tuned *tuned);

/* Reads tuned code. Fails where there is none, or it is damaged; whether it is right is for the engine to say. */
void read_tuned(struct tuned *tuned, const char *path);

/* Whether tuned code is this other code but for retains and releases, and for whether a map is in its array's own
 * cell: what it gives is then the same. False with its first line that is other, or its number of lines where it ends
 * early. */
bool is_tuned_from(const struct tuned *tuned, const uint8_t *kinds, const int64_t *operands, uint32_t lines,
                   uint32_t *other);

/* How many lines of a kind there are. */
uint32_t lines_of(const struct tuned *tuned, uint8_t kind);

#endif
