/* The calls that are measured, on what a case lends. */
#include "calls.h"

static void translate(void *of)
{
    struct bench *b = of;
    b->answer = b->engine->translate(b->script.file, b->script.length, b->kinds, b->lines, b->operands, b->lines);
}

/* By main's depth: line 0 of the code is main, with its parameters + 256 x the depth of its result. */
static void check_code(void *of)
{
    struct bench *b = of;
    b->answer = b->engine->check_code(b->lent_kinds, b->lines, b->lent_operands, b->lines,
                                      (uint64_t)b->lent_operands[0] / 256);
}

static void open_store(void *of)
{
    struct bench *b = of;
    b->answer = b->engine->open(b->script.file, b->script.length, b->kinds, b->lines, b->operands, b->lines, b->slots,
                                ENGINE_SLOTS_LENGTH(b->cells), b->heads, ENGINE_HEADS_LENGTH(b->cells));
}

static void check_store(void *of)
{
    struct bench *b = of;
    b->answer = b->engine->check(b->script.file, b->script.length, b->kinds, b->lines, b->operands, b->lines, b->slots,
                                 ENGINE_SLOTS_LENGTH(b->cells), b->heads, ENGINE_HEADS_LENGTH(b->cells));
}

static void deliver(void *of)
{
    struct bench *b = of;
    b->answer = b->engine->deliver(b->script.file, b->script.length, b->kinds, b->lines, b->operands, b->lines,
                                   b->slots, ENGINE_SLOTS_LENGTH(b->cells), b->heads, ENGINE_HEADS_LENGTH(b->cells),
                                   b->readings, b->readings_length, ENGINE_BUDGET_MAX);
}

static void deliver_code(void *of)
{
    struct bench *b = of;
    b->answer = b->engine->deliver_code(b->lent_kinds, b->lines, b->lent_operands, b->lines,
                                        (uint64_t)b->lent_operands[0] / 256, b->slots, ENGINE_SLOTS_LENGTH(b->cells),
                                        b->heads, ENGINE_HEADS_LENGTH(b->cells), b->readings, b->readings_length,
                                        ENGINE_BUDGET_MAX);
}

static void save_totals(void *of)
{
    struct bench *b = of;
    b->answer = b->engine->save(b->script.file, b->script.length, b->kinds, b->lines, b->operands, b->lines,
                                b->kept_slots, ENGINE_SLOTS_LENGTH(b->cells), b->kept_heads,
                                ENGINE_HEADS_LENGTH(b->cells), b->saved, sizeof b->saved);
}

static void restore_totals(void *of)
{
    struct bench *b = of;
    b->answer = b->engine->restore(b->script.file, b->script.length, b->kinds, b->lines, b->operands, b->lines,
                                   b->restored_slots, ENGINE_SLOTS_LENGTH(b->cells), b->restored_heads,
                                   ENGINE_HEADS_LENGTH(b->cells), b->saved,
                                   engine_saved_length(b->saved, sizeof b->saved));
}

const struct call calls[CALLS] = {
    [TRANSLATE] = { "translate", translate },
    [CHECK_CODE] = { "check_code", check_code },
    [OPEN] = { "open", open_store },
    [CHECK] = { "check", check_store },
    [DELIVER] = { "deliver", deliver },
    [DELIVER_CODE] = { "deliver_code", deliver_code },
    [SAVE] = { "save", save_totals },
    [RESTORE] = { "restore", restore_totals },
};

bool has_call(const struct engine *engine, int i)
{
    switch (i) {
    case SAVE:
    case RESTORE: return engine->save != NULL && engine->restore != NULL;
    case CHECK_CODE:
    case DELIVER_CODE: return engine->check_code != NULL && engine->deliver_code != NULL;
    default: return true;
    }
}
