/* An engine that answers wrongly, for a script tool that is linked with --wrap=engine_deliver and --wrap of
 * engine_check_code: the tool must say so. WRONG in the environment is what is wrong: number, steps, lowest, totals; or
 * dry: a 25 where no cell is wanted; or line: 29 with line 1. */
#include "engine.h"

#include <stdlib.h>
#include <string.h>

/* The names that the linker gives. */
#define DELIVER(name)                                                                                              \
    uint64_t name(const uint8_t *file, size_t file_length, uint8_t *kinds, size_t kinds_length, int64_t *operands,  \
                  size_t operands_length, int64_t *slots, size_t slots_length, uint32_t *heads, size_t heads_length, \
                  const int64_t *readings, size_t readings_length, uint64_t budget)
DELIVER(__real_engine_deliver);
DELIVER(__wrap_engine_deliver);

DELIVER(__wrap_engine_deliver)
{
    const char *wrong = getenv("WRONG");
    uint64_t answer = __real_engine_deliver(file, file_length, kinds, kinds_length, operands, operands_length, slots,
                                            slots_length, heads, heads_length, readings, readings_length, budget);
    if (wrong == NULL)
        return answer;
    if (strcmp(wrong, "number") == 0)
        return answer + ENGINE_INDEX_OUT_OF_RANGE;
    if (strcmp(wrong, "dry") == 0)
        return answer + ENGINE_OUT_OF_CELLS;
    if (strcmp(wrong, "steps") == 0)
        return answer + ((uint64_t)1 << 24);
    if (strcmp(wrong, "lowest") == 0)
        return answer + ((uint64_t)1 << 8);
    if (strcmp(wrong, "totals") == 0)
        slots[0]++;
    return answer;
}

uint64_t __real_engine_check_code(const uint8_t *kinds, size_t kinds_length, const int64_t *operands,
                                  size_t operands_length, uint64_t depth);
uint64_t __wrap_engine_check_code(const uint8_t *kinds, size_t kinds_length, const int64_t *operands,
                                  size_t operands_length, uint64_t depth);

uint64_t __wrap_engine_check_code(const uint8_t *kinds, size_t kinds_length, const int64_t *operands,
                                  size_t operands_length, uint64_t depth)
{
    const char *wrong = getenv("WRONG");
    if (wrong != NULL && strcmp(wrong, "line") == 0)
        return ENGINE_BAD_CODE + (1 << 8);
    return __real_engine_check_code(kinds, kinds_length, operands, operands_length, depth);
}
