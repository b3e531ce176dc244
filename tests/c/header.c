/* The header on its own, as C and as C++: it is compiled with every warning, and each of its parts is used once. */
#include "engine.h"

#if ENGINE_VERSION_MAJOR != 3 || ENGINE_VERSION != 1000 * ENGINE_VERSION_MAJOR + ENGINE_VERSION_MINOR
#error "the version's parts do not fit each other"
#endif

/* Sizes in #if, as firmware tests what it has room for. */
#define CELLS 64
#if ENGINE_SLOTS_LENGTH(CELLS) != 1025 || ENGINE_HEADS_LENGTH(CELLS) != 257 || ENGINE_STORE_BYTES(CELLS) != 9228
#error "the sizes of a store"
#endif
#if ENGINE_FILE_LENGTH_MAX != 9220 || ENGINE_SAVED_LENGTH_MAX != 36867 || ENGINE_STACK_BYTES < 807896
#error "the sizes of a script, of saved totals and of the stack"
#endif

static uint8_t file[ENGINE_FILE_LENGTH_MAX], kinds[ENGINE_CODE_LINES_MAX];
static int64_t operands[ENGINE_CODE_LINES_MAX], slots[ENGINE_SLOTS_LENGTH(CELLS)];
static uint32_t heads[ENGINE_HEADS_LENGTH(CELLS)];
static int64_t readings[ENGINE_READINGS_MAX];
static uint8_t saved[ENGINE_SAVED_LENGTH_MAX];

/* The calls on the struct, and one on the arrays. */
static uint64_t answers(struct engine_lent *lent)
{
    return engine_translate(file, sizeof file, kinds, sizeof kinds, operands, ENGINE_CODE_LINES_MAX)
           + engine_translate_lent(lent) + engine_open_lent(lent) + engine_check_lent(lent)
           + engine_deliver_lent(lent, readings, ENGINE_READINGS_MAX, ENGINE_BUDGET_MAX)
           + engine_save_lent(lent, saved, sizeof saved)
           + engine_restore_lent(lent, saved, engine_saved_length(saved, sizeof saved));
}

/* The calls by lent code, and those on the struct. */
static uint64_t answers_by_code(const struct engine_lent *lent)
{
    const struct engine_code code = { kinds, sizeof kinds, operands, ENGINE_CODE_LINES_MAX };
    return engine_check_code(kinds, sizeof kinds, operands, ENGINE_CODE_LINES_MAX, lent->depth)
           + engine_deliver_code(kinds, sizeof kinds, operands, ENGINE_CODE_LINES_MAX, lent->depth, lent->slots,
                                 lent->slots_length, lent->heads, lent->heads_length, readings, ENGINE_READINGS_MAX,
                                 ENGINE_BUDGET_MAX)
           + engine_check_code_lent(lent, &code)
           + engine_deliver_code_lent(lent, &code, readings, ENGINE_READINGS_MAX, ENGINE_BUDGET_MAX);
}

/* The totals by their parts, and the words of a cell by their names. */
static unsigned parts(const struct engine_lent *lent)
{
    struct engine_value totals = engine_totals(lent);
    return (unsigned)engine_cells(lent) + (unsigned)engine_is_array(lent, totals) + engine_length_of(lent, totals)
           + engine_element_of(lent, totals, 0).depth + heads[ENGINE_HEADS_OF(0) + ENGINE_HEAD_COUNT]
           + heads[ENGINE_HEADS_OF(0) + ENGINE_HEAD_ELEMENT_DEPTH] + heads[ENGINE_HEADS_OF(0) + ENGINE_HEAD_NEXT_FREE];
}

int main(void)
{
    struct engine_lent lent = ENGINE_LENT(file, sizeof file, kinds, operands, slots, heads);
    const struct engine_array beside = { "readings", readings, ENGINE_READINGS_MAX, sizeof *readings };
    const struct engine_code code = { kinds, sizeof kinds, operands, ENGINE_CODE_LINES_MAX };
    uint64_t answer;
    engine_lend_store(&lent, slots, heads, CELLS);
    if (engine_lent_fault(&lent).array != NULL || engine_lent_fault_with(&lent, beside).array != NULL
        || engine_code_fault_with(&lent, &code, beside).array != NULL)
        return 1;
    answer = answers(&lent) + answers_by_code(&lent);
    return (int)(engine_answer_node(answer) + engine_answer_lowest(answer) + engine_answer_lines(answer)
                 + engine_answer_line(answer)
                 + engine_answer_steps(answer) + engine_answer_cells(answer) + parts(&lent)
                 + (unsigned)engine_is_refusal(engine_answer_number(answer))
                 + (unsigned)engine_is_stop(engine_answer_number(answer)) + (unsigned)*engine_word(ENGINE_DONE)
                 + (unsigned)engine_is_node_kind(ENGINE_KIND_END) + ENGINE_KINDS + engine_library_version()
                 + (unsigned)*engine_library_commit());
}
