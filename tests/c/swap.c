/* The acts of swap.txt. After each call the code arrays are compared too, and the store where the call may not change
 * it. */
#include "swap.h"
#include "lent.h"

#include <stdlib.h>
#include <string.h>

enum { LINES_MAX = 8192, SLOTS_MAX = 8192, HEADS_MAX = 8192, BYTES_MAX = 1 << 16 };

static int64_t kept_slots[SLOTS_MAX];
static uint32_t kept_heads[HEADS_MAX];

/* ---- The store ---- */

void lend_clear_store(void)
{
    size_t slots = (size_t)natural(), heads = (size_t)natural();
    if (slots > SLOTS_MAX || heads > HEADS_MAX)
        unusable("a store is too long");
    lend_store(slots, heads);
    memset(lent.slots, 0, slots * sizeof *lent.slots);
    memset(lent.heads, 0, heads * sizeof *lent.heads);
}

void put_words(void)
{
    const char *array = word();
    bool is_slots = array != NULL && strcmp(array, "slots") == 0;
    size_t index;
    int64_t value;
    while (entry(&index, &value)) {
        if (index >= (is_slots ? lent.slots_length : lent.heads_length))
            unusable("a word is past the end");
        if (is_slots)
            lent.slots[index] = value;
        else
            lent.heads[index] = (uint32_t)value;
    }
}

static void keep_store(void)
{
    memcpy(kept_slots, lent.slots, lent.slots_length * sizeof *kept_slots);
    memcpy(kept_heads, lent.heads, lent.heads_length * sizeof *kept_heads);
}

static bool store_is_kept(void)
{
    return memcmp(kept_slots, lent.slots, lent.slots_length * sizeof *kept_slots) == 0
           && memcmp(kept_heads, lent.heads, lent.heads_length * sizeof *kept_heads) == 0;
}

/* ---- The code ---- */

/* Whether the code arrays are as a call with this answer leaves them: the script's code, or zero after a refusal. */
static bool has_right_code(uint64_t answer)
{
    static uint8_t kinds[LINES_MAX];
    static int64_t operands[LINES_MAX];
    if (engine_is_refusal(engine_answer_number(answer)))
        return code_is_zero_from(0);
    if (lent.kinds_length > LINES_MAX || lent.operands_length > LINES_MAX)
        unusable("a code array is too long");
    uint64_t code = engine_translate(lent.file, lent.file_length, kinds, lent.kinds_length, operands,
                                     lent.operands_length);
    return engine_answer_number(code) == ENGINE_DONE && memcmp(kinds, lent.kinds, lent.kinds_length) == 0
           && memcmp(operands, lent.operands, lent.operands_length * sizeof *operands) == 0;
}

/* ---- Bytes in pieces ---- */

/* The bytes of the line's rest, in pieces: two digits a byte, or two digits, '*' and how often. Gives how many. */
static size_t take_bytes(uint8_t *bytes)
{
    size_t length = 0;
    char *piece;
    while ((piece = word()) != NULL) {
        const char *star = strchr(piece, '*');
        size_t digits = star == NULL ? strlen(piece) : 2;
        size_t times = star == NULL ? 1 : (size_t)strtoul(star + 1, NULL, 10);
        if (length + digits / 2 * times > BYTES_MAX)
            unusable("too many bytes");
        for (size_t time = 0; time < times; time++)
            for (size_t i = 0; i + 1 < digits; i += 2)
                bytes[length++] = (uint8_t)(16 * digit(piece[i]) + digit(piece[i + 1]));
    }
    return length;
}

/* ---- Calls ---- */

bool make_sound_check(void)
{
    take_code_lengths();
    keep_store();
    uint64_t answer = check_store();
    return answer == natural() && store_is_kept() && has_right_code(answer);
}

bool make_save(void)
{
    static uint8_t wanted[BYTES_MAX];
    take_code_lengths();
    lend_saved((size_t)natural());
    keep_store();
    uint64_t answer = save_totals(), wanted_answer = natural();
    memset(wanted, 0, sizeof wanted);
    bool fits = take_bytes(wanted) <= lent.saved_length;
    return fits && answer == wanted_answer && memcmp(wanted, lent.saved, lent.saved_length) == 0 && store_is_kept()
           && has_right_code(answer);
}

bool make_restore(void)
{
    static uint8_t bytes[BYTES_MAX];
    take_code_lengths();
    uint64_t wanted = natural();
    size_t length = take_bytes(bytes);
    lend_saved(length);
    memcpy(lent.saved, bytes, length);
    keep_store();
    uint64_t answer = restore_totals();
    if (engine_answer_number(answer) == ENGINE_OUT_OF_CELLS) {
        memset(kept_slots, 0, sizeof kept_slots);
        memset(kept_heads, 0, sizeof kept_heads);
    }
    bool is_opened = engine_answer_number(answer) == ENGINE_DONE; /* its words are compared where they are given */
    return answer == wanted && (is_opened || store_is_kept()) && memcmp(bytes, lent.saved, length) == 0
           && has_right_code(answer);
}
