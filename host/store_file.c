/* Stores as bytes of a file. */
#include "store_file.h"

#include <stdarg.h>
#include <stdio.h>
#include <string.h>

static const char mark[] = "RUSSTORE";
enum {
    MARK_BYTES = 8,
    VERSION = 2,
    AT_VERSION = 8,
    AT_CELLS = 10,
    AT_DEPTH = 12,
    AT_ZERO = 14,
    AT_SCRIPT = 16,
    AT_WORDS_CHECKSUM = 20,
    AT_DELIVERIES = 24,
    FIRST_HEADER_BYTES = 28, /* of version 1 */
    CHECKSUM_BYTES = 4       /* the last of a header, of those before it */
};

bool has_store_mark(const uint8_t *bytes, size_t length)
{
    return length >= MARK_BYTES && memcmp(bytes, mark, MARK_BYTES) == 0;
}

bool resembles_store(const uint8_t *bytes, size_t length)
{
    size_t compared = length < MARK_BYTES ? length : MARK_BYTES, equal = 0;
    for (size_t i = 0; i < compared; i++)
        equal += bytes[i] == (uint8_t)mark[i];
    return 2 * equal >= compared;
}

size_t encode_store(uint8_t *bytes, const struct store_header *header, const int64_t *slots, const uint32_t *heads)
{
    size_t length = STORE_BYTES(header->cells);
    uint8_t *at = bytes + STORE_HEADER_BYTES;
    for (size_t i = 0; i < ENGINE_SLOTS_LENGTH(header->cells); i++, at += SLOT_BYTES)
        put_number(at, (uint64_t)slots[i], SLOT_BYTES);
    for (size_t i = 0; i < ENGINE_HEADS_LENGTH(header->cells); i++, at += HEAD_BYTES)
        put_number(at, heads[i], HEAD_BYTES);
    memcpy(bytes, mark, MARK_BYTES);
    put_number(bytes + AT_VERSION, VERSION, 2);
    put_number(bytes + AT_CELLS, header->cells, 2);
    put_number(bytes + AT_DEPTH, header->depth, 2);
    put_number(bytes + AT_ZERO, 0, 2);
    put_number(bytes + AT_SCRIPT, header->script, 4);
    put_number(bytes + AT_WORDS_CHECKSUM, checksum_of(bytes + STORE_HEADER_BYTES, length - STORE_HEADER_BYTES), 4);
    put_number(bytes + AT_DELIVERIES, header->deliveries, 8);
    size_t checked = STORE_HEADER_BYTES - CHECKSUM_BYTES;
    put_number(bytes + checked, checksum_of(bytes, checked), CHECKSUM_BYTES);
    return length;
}

static enum store_reading faulty(struct store_fault *fault, enum store_reading reading, const char *format, ...)
{
    va_list arguments;
    va_start(arguments, format);
    vsnprintf(fault->text, sizeof fault->text, format, arguments);
    va_end(arguments);
    return reading;
}

/* The bytes of a header of this version; 0 where this program does not know it. */
static size_t header_bytes(unsigned version)
{
    return version == VERSION ? STORE_HEADER_BYTES : version == 1 ? FIRST_HEADER_BYTES : 0;
}

/* The mark and the version, from which the header's size follows. */
static enum store_reading decode_mark(const uint8_t *bytes, size_t length, size_t *size, struct store_fault *fault)
{
    if (length < FIRST_HEADER_BYTES)
        return faulty(fault, STORE_UNREADABLE, "cut off: it has %zu bytes, and a store's header alone has %d", length,
                      STORE_HEADER_BYTES);
    if (!has_store_mark(bytes, length))
        return faulty(fault, STORE_UNREADABLE, "not a store: it does not begin with the mark %s", mark);
    unsigned version = (unsigned)number_at(bytes + AT_VERSION, 2);
    *size = header_bytes(version);
    if (*size == 0)
        return faulty(fault, STORE_UNREADABLE, "a store of version %u, and this program knows versions 1 and %d",
                      version, VERSION);
    if (length < *size)
        return faulty(fault, STORE_UNREADABLE, "cut off: it has %zu bytes, and a store's header alone has %zu", length,
                      *size);
    return STORE_WHOLE;
}

/* The header, of so many bytes; each test makes sense once those before it are passed. */
static enum store_reading decode_header(const uint8_t *bytes, size_t size, struct store_header *header,
                                        struct store_fault *fault)
{
    size_t checked = size - CHECKSUM_BYTES;
    if (number_at(bytes + checked, CHECKSUM_BYTES) != checksum_of(bytes, checked))
        return faulty(fault, STORE_UNREADABLE, "its header is damaged: it has not the checksum that stands in it");
    header->cells = (size_t)number_at(bytes + AT_CELLS, 2);
    header->depth = (unsigned)number_at(bytes + AT_DEPTH, 2);
    header->script = (uint32_t)number_at(bytes + AT_SCRIPT, 4);
    header->deliveries = size == FIRST_HEADER_BYTES ? 0 : number_at(bytes + AT_DELIVERIES, 8);
    if (header->cells < ENGINE_CELLS_MIN || header->cells > ENGINE_CELLS_MAX || header->depth > ENGINE_DEPTH_MAX
        || number_at(bytes + AT_ZERO, 2) != 0)
        return faulty(fault, STORE_UNREADABLE, "its header was made wrong: %zu cells, main's depth %u", header->cells,
                      header->depth);
    return STORE_WHOLE;
}

enum store_reading decode_store(const uint8_t *bytes, size_t length, struct store_header *header, int64_t *slots,
                                uint32_t *heads, struct store_fault *fault)
{
    size_t size = 0;
    if (decode_mark(bytes, length, &size, fault) != STORE_WHOLE
        || decode_header(bytes, size, header, fault) != STORE_WHOLE)
        return STORE_UNREADABLE;
    size_t words = STORE_BYTES(header->cells) - STORE_HEADER_BYTES, wanted = size + words;
    if (length != wanted)
        return faulty(fault, STORE_UNREADABLE, "%s: a store of %zu cells takes %zu bytes, and it has %zu",
                      length < wanted ? "cut off" : "too long", header->cells, wanted, length);
    const uint8_t *at = bytes + size;
    for (size_t i = 0; i < ENGINE_SLOTS_LENGTH(header->cells); i++, at += SLOT_BYTES)
        slots[i] = signed_of(number_at(at, SLOT_BYTES));
    for (size_t i = 0; i < ENGINE_HEADS_LENGTH(header->cells); i++, at += HEAD_BYTES)
        heads[i] = (uint32_t)number_at(at, HEAD_BYTES);
    if (number_at(bytes + AT_WORDS_CHECKSUM, 4) != checksum_of(bytes + size, words))
        return faulty(fault, STORE_DAMAGED, "its words are damaged: they have not the checksum that its header has");
    return STORE_WHOLE;
}
