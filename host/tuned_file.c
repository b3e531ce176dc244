/* Tuned code in a file. */
#include "tuned_file.h"
#include "place.h"

#include <string.h>

static const char mark[] = "RUSTUNED";
enum {
    MARK_BYTES = 8,
    VERSION = 1,
    AT_VERSION = 8,
    AT_DEPTH = 10,
    AT_LINES = 12,
    AT_ZERO = 14,
    AT_LINES_CHECKSUM = 16,
    AT_CHECKSUM = 20,
    OPERAND_BYTES = 8
};

static const char ADVICE[] = "make it anew with 'script_tool tune', or copy it again";

bool has_tuned_mark(const uint8_t *bytes, size_t length)
{
    return length >= MARK_BYTES && memcmp(bytes, mark, MARK_BYTES) == 0;
}

size_t encode_tuned(uint8_t bytes[TUNED_BYTES_MAX], const struct tuned *tuned)
{
    size_t length = TUNED_BYTES(tuned->lines);
    uint8_t *lines = bytes + TUNED_HEADER_BYTES;
    for (uint32_t i = 0; i < tuned->lines; i++) {
        lines[i] = tuned->kinds[i];
        put_number(lines + tuned->lines + OPERAND_BYTES * (size_t)i, (uint64_t)tuned->operands[i], OPERAND_BYTES);
    }
    memcpy(bytes, mark, MARK_BYTES);
    put_number(bytes + AT_VERSION, VERSION, 2);
    put_number(bytes + AT_DEPTH, tuned->depth, 2);
    put_number(bytes + AT_LINES, tuned->lines, 2);
    put_number(bytes + AT_ZERO, 0, 2);
    put_number(bytes + AT_LINES_CHECKSUM, checksum_of(lines, length - TUNED_HEADER_BYTES), 4);
    put_number(bytes + AT_CHECKSUM, checksum_of(bytes, AT_CHECKSUM), 4);
    return length;
}

/* ---- Reading ---- */

/* The header; each test makes sense once those before it are passed. */
static void judge_header(const char *path, const uint8_t *bytes, size_t length)
{
    if (!has_tuned_mark(bytes, length) && memchr(bytes, 0, length) == NULL)
        fail(STATUS_UNUSABLE, "%s: a text, where tuned code is wanted; 'script_tool tune' makes it of the text of code",
             path);
    if (!has_tuned_mark(bytes, length))
        fail(STATUS_UNUSABLE, "%s: not tuned code: it does not begin with the mark %s; name what 'script_tool tune'"
             " wrote", path, mark);
    if (length < TUNED_HEADER_BYTES)
        fail(STATUS_UNUSABLE, "%s: cut off: it has %zu bytes, and the header alone has %d; %s", path, length,
             TUNED_HEADER_BYTES, ADVICE);
    if (number_at(bytes + AT_CHECKSUM, 4) != checksum_of(bytes, AT_CHECKSUM))
        fail(STATUS_UNUSABLE, "%s: its header is damaged: it has not the checksum that stands in it; %s", path, ADVICE);
    unsigned version = (unsigned)number_at(bytes + AT_VERSION, 2);
    if (version != VERSION)
        fail(STATUS_UNUSABLE, "%s: tuned code of version %u, and this program knows version %d; %s", path, version,
             VERSION, ADVICE);
}

void read_tuned(struct tuned *tuned, const char *path)
{
    static uint8_t bytes[TUNED_BYTES_MAX + 1]; /* one more, so that a longer file is seen to be longer */
    size_t length = read_whole(path, bytes, sizeof bytes);
    judge_header(path, bytes, length);
    tuned->depth = (unsigned)number_at(bytes + AT_DEPTH, 2);
    tuned->lines = (uint32_t)number_at(bytes + AT_LINES, 2);
    if (tuned->depth > ENGINE_DEPTH_MAX || tuned->lines == 0 || tuned->lines > ENGINE_CODE_LINES_MAX
        || number_at(bytes + AT_ZERO, 2) != 0)
        fail(STATUS_UNUSABLE, "%s: its header was made wrong: %u lines, main's depth %u; %s", path,
             (unsigned)tuned->lines, tuned->depth, ADVICE);
    size_t wanted = TUNED_BYTES(tuned->lines);
    if (length != wanted)
        fail(STATUS_UNUSABLE, "%s: %s: %u lines take %zu bytes, and it has %zu; %s", path,
             length < wanted ? "cut off" : "too long", (unsigned)tuned->lines, wanted, length, ADVICE);
    const uint8_t *lines = bytes + TUNED_HEADER_BYTES;
    if (number_at(bytes + AT_LINES_CHECKSUM, 4) != checksum_of(lines, length - TUNED_HEADER_BYTES))
        fail(STATUS_UNUSABLE, "%s: its lines are damaged: they have not the checksum that its header has; %s", path,
             ADVICE);
    for (uint32_t i = 0; i < tuned->lines; i++) {
        tuned->kinds[i] = lines[i];
        tuned->operands[i] = signed_of(number_at(lines + tuned->lines + OPERAND_BYTES * (size_t)i, OPERAND_BYTES));
    }
}

/* ---- Beside the code that it was made of ---- */

/* The next line from one on that is neither a retain nor a release. */
static uint32_t next_work(const uint8_t *kinds, uint32_t lines, uint32_t at)
{
    while (at < lines && (kinds[at] == ENGINE_KIND_RETAIN || kinds[at] == ENGINE_KIND_RELEASE))
        at++;
    return at;
}

static bool is_same_kind(uint8_t one, uint8_t other)
{
    uint8_t map = ENGINE_KIND_MAP, rewriting = ENGINE_KIND_REWRITING_MAP;
    return (one == rewriting ? map : one) == (other == rewriting ? map : other);
}

bool is_tuned_from(const struct tuned *tuned, const uint8_t *kinds, const int64_t *operands, uint32_t lines,
                   uint32_t *other)
{
    uint32_t at = 0, *mine = other;
    for (*mine = 0;; at++, ++*mine) {
        at = next_work(kinds, lines, at);
        *mine = next_work(tuned->kinds, tuned->lines, *mine);
        if (at == lines || *mine == tuned->lines)
            return at == lines && *mine == tuned->lines;
        if (!is_same_kind(kinds[at], tuned->kinds[*mine]) || operands[at] != tuned->operands[*mine])
            return false;
    }
}

uint32_t lines_of(const struct tuned *tuned, uint8_t kind)
{
    uint32_t count = 0;
    for (uint32_t i = 0; i < tuned->lines; i++)
        count += tuned->kinds[i] == kind;
    return count;
}
