/* Answers and totals as text. */
#include "display.h"
#include "engine.h"

#include <inttypes.h>

void print_number(FILE *out, uint64_t answer)
{
    unsigned number = engine_answer_number(answer);
    fprintf(out, "%2u %s", number, engine_word(number));
    if (number >= ENGINE_MALFORMED && number <= ENGINE_TOO_MANY_NAMES)
        fprintf(out, ", node %u", engine_answer_node(answer));
    if (number == ENGINE_BAD_CODE)
        fprintf(out, ", line %u", engine_answer_line(answer));
}

const struct brackets ARRAYS_OF_TEXT = { '{', '}', "?" };
const struct brackets ARRAYS_OF_JSON = { '[', ']', "null" };

/* The recursion is as deep as the value, at most ENGINE_DEPTH_MAX. */
void print_value(FILE *out, const struct brackets *brackets, const int64_t *slots, const uint32_t *heads, size_t cells,
                 int64_t word, unsigned depth)
{
    if (depth == 0) {
        fprintf(out, "%" PRId64, word);
        return;
    }
    if (word < 0 || (uint64_t)word >= cells) {
        fputs(brackets->unknown, out);
        return;
    }
    const int64_t *elements = slots + ENGINE_SLOTS_OF(word);
    uint32_t length = heads[ENGINE_HEADS_OF(word) + ENGINE_HEAD_LENGTH];
    fputc(brackets->before, out);
    for (uint32_t i = 0; i < length && i < ENGINE_CELL_SLOTS; i++) {
        if (i > 0)
            fputs(", ", out);
        print_value(out, brackets, slots, heads, cells, elements[i], depth - 1);
    }
    fputc(brackets->after, out);
}
