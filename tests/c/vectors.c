/* Reads a file of test vectors and runs each case as it is read. A case is lines of a key and its values from `case` to
 * `end`: `file` has a script's bytes, `arrays` the lengths of the code arrays, `answer` the packed answer, `rows` the
 * code; `open` and `deliver` are calls to make, `slots` and `heads` a store's words: before a check, after the
 * deliveries. Cases from before order 3 have other faulty nodes beside an answer, as `nodes`; its own is the lowest.
 * The acts of swap.txt are those of swap.c, and those of code.txt, whose cases have a `depth`, of lent_code.c. */
#include "vectors.h"
#include "lent.h"
#include "lent_code.h"
#include "swap.h"

#include <inttypes.h>
#include <stdio.h>
#include <stdlib.h>
#include <string.h>

enum { LINE_BYTES = 1 << 16, NAME_BYTES = 64 };

#define LEVEL_BITS ((uint64_t)0xffff << 8) /* of a delivery's lowest level */

struct run {
    FILE *file;
    char line[LINE_BYTES];
    char *at; /* what is left of the line */
    char name[NAME_BYTES];
    bool lacks_lowest; /* the file's deliveries have no lowest level */
    bool is_deliver;  /* the case opens a store and delivers to it */
    bool is_translate;
    bool is_code;     /* the case is of lent code */
    bool agrees;
    uint64_t answer;  /* the engine's */
    uint64_t wanted;
    unsigned cases, differ;
};

static struct run run;

_Noreturn void unusable(const char *what)
{
    fprintf(stderr, "%s: %s\n", run.name, what);
    exit(2);
}

/* ---- Words of a line ---- */

char *word(void)
{
    while (*run.at == ' ')
        run.at++;
    if (*run.at == '\0')
        return NULL;
    char *start = run.at;
    while (*run.at != ' ' && *run.at != '\0')
        run.at++;
    if (*run.at == ' ')
        *run.at++ = '\0';
    return start;
}

static char *wanted_word(void)
{
    char *found = word();
    if (found == NULL)
        unusable("a value is missing");
    return found;
}

uint64_t natural(void)
{
    return strtoull(wanted_word(), NULL, 10);
}

static bool next_line(void)
{
    if (fgets(run.line, LINE_BYTES, run.file) == NULL)
        return false;
    size_t length = strlen(run.line);
    if (length + 1 == LINE_BYTES)
        unusable("a line is too long");
    if (length > 0 && run.line[length - 1] == '\n')
        run.line[length - 1] = '\0';
    run.at = run.line;
    return true;
}

void need_line(void)
{
    if (!next_line())
        unusable("a row is missing");
}

/* ---- Parts of a case ---- */

unsigned digit(char c)
{
    return c <= '9' ? (unsigned)(c - '0') : (unsigned)(c - 'a' + 10);
}

static void take_file(void)
{
    char *digits = word();
    size_t length = digits == NULL ? 0 : strlen(digits) / 2;
    lend_file(length);
    for (size_t i = 0; i < length; i++)
        lent.file[i] = (uint8_t)(16 * digit(digits[2 * i]) + digit(digits[2 * i + 1]));
}

void take_code_lengths(void)
{
    size_t kinds = (size_t)natural();
    size_t operands = (size_t)natural();
    lend_code(kinds, operands);
}

/* The next word INDEX=VALUE of the line; false after the last. */
bool entry(size_t *index, int64_t *value)
{
    char *found = word();
    if (found == NULL)
        return false;
    char *equals = strchr(found, '=');
    if (equals == NULL)
        unusable("INDEX=VALUE is wanted");
    *index = (size_t)strtoull(found, NULL, 10);
    *value = strtoll(equals + 1, NULL, 10);
    return true;
}

/* Fills a store array that was lent with the words of the line. */
static void take_words(size_t length, bool is_slots)
{
    size_t index;
    int64_t value;
    if (is_slots)
        memset(lent.slots, 0, length * sizeof *lent.slots);
    else
        memset(lent.heads, 0, length * sizeof *lent.heads);
    while (entry(&index, &value)) {
        if (index >= length)
            unusable("a word is past the end");
        if (is_slots)
            lent.slots[index] = value;
        else
            lent.heads[index] = (uint32_t)value;
    }
}

/* Compares a store array with the words of the line; all others are 0. */
static void compare_words(size_t length, bool is_slots)
{
    size_t at = 0, index;
    int64_t value;
    while (entry(&index, &value)) {
        if (index >= length)
            unusable("a word is past the end");
        for (; at < index; at++)
            run.agrees &= (is_slots ? lent.slots[at] : lent.heads[at]) == 0;
        run.agrees &= (is_slots ? lent.slots[at] : (int64_t)lent.heads[at]) == value;
        at++;
    }
    for (; at < length; at++)
        run.agrees &= (is_slots ? lent.slots[at] : lent.heads[at]) == 0;
}

static void compare_rows(void)
{
    uint64_t rows = natural();
    run.answer = translate();
    run.is_translate = true;
    for (uint64_t i = 0; i < rows; i++) {
        need_line();
        uint64_t kind = natural();
        int64_t operand = strtoll(wanted_word(), NULL, 10);
        if (i < lent.kinds_length && i < lent.operands_length)
            run.agrees &= lent.kinds[i] == kind && lent.operands[i] == operand;
        else
            run.agrees = false;
    }
    run.agrees &= code_is_zero_from((size_t)rows);
}

/* The deliveries of the base and of order 1 were written before an answer had the lowest level: those that are not
 * refused agree in all but its place. */
static bool is_earlier(const char *path)
{
    const char *slash = strrchr(path, '/');
    const char *name = slash == NULL ? path : slash + 1;
    return strcmp(name, "deliver.txt") == 0 || strcmp(name, "deliver_1.txt") == 0;
}

static bool is_delivered(uint64_t answer, uint64_t wanted)
{
    bool is_free = run.lacks_lowest && !engine_is_refusal(engine_answer_number(wanted));
    uint64_t left_out = is_free ? LEVEL_BITS : 0;
    return (answer & ~left_out) == (wanted & ~left_out);
}

void take_readings(void)
{
    int64_t readings[64];
    size_t count = 0;
    char *found;
    while ((found = word()) != NULL) {
        if (count == sizeof readings / sizeof *readings)
            unusable("too many readings");
        readings[count++] = strtoll(found, NULL, 10);
    }
    lend_readings(count);
    memcpy(lent.readings, readings, count * sizeof *readings);
}

static void make_delivery(void)
{
    take_code_lengths();
    uint64_t budget = natural();
    uint64_t wanted = natural();
    take_readings();
    run.agrees &= is_delivered(deliver(budget), wanted);
}

static void make_opening(void)
{
    take_code_lengths();
    run.agrees &= open_store() == natural();
}

/* ---- Cases ---- */

static void begin_case(void)
{
    snprintf(run.name, sizeof run.name, "%s", wanted_word());
    run.is_deliver = run.is_translate = run.is_code = false;
    run.agrees = true;
    run.cases++;
}

/* A check changes no word of the store. */
static void make_check(void)
{
    static int64_t slots[8192];
    static uint32_t heads[8192];
    if (lent.slots_length > 8192 || lent.heads_length > 8192)
        unusable("a store is too long");
    memcpy(slots, lent.slots, lent.slots_length * sizeof *slots);
    memcpy(heads, lent.heads, lent.heads_length * sizeof *heads);
    run.answer = check_store();
    run.agrees &= memcmp(slots, lent.slots, lent.slots_length * sizeof *slots) == 0;
    run.agrees &= memcmp(heads, lent.heads, lent.heads_length * sizeof *heads) == 0;
}

static void end_case(void)
{
    if (!run.is_deliver && !run.is_code) {
        if (!run.is_translate)
            make_check();
        run.agrees &= run.answer == run.wanted;
    }
    if (!run.agrees) {
        run.differ++;
        printf("  %s differs\n", run.name);
    }
}

static void take_store_words(bool is_slots)
{
    if (run.is_deliver) {
        compare_words(is_slots ? lent.slots_length : lent.heads_length, is_slots);
        return;
    }
    size_t length = (size_t)natural();
    if (is_slots)
        lend_store(length, 0);
    else {
        /* the slots stay where they are, and as they are */
        static int64_t kept[8192];
        size_t slots = lent.slots_length;
        if (slots > 8192)
            unusable("a store is too long");
        memcpy(kept, lent.slots, slots * sizeof *kept);
        lend_store(slots, length);
        memcpy(lent.slots, kept, slots * sizeof *kept);
    }
    take_words(length, is_slots);
}

/* A line of a case of lent code, whose keys mean other things there; false where it is as in other cases. */
static bool take_code_line(const char *key)
{
    if (strcmp(key, "depth") == 0) {
        run.is_code = true;
        take_depth();
        return true;
    }
    if (!run.is_code)
        return false;
    if (strcmp(key, "rows") == 0)
        take_rows();
    else if (strcmp(key, "again") == 0)
        repeat_rows();
    else if (strcmp(key, "check") == 0)
        run.agrees &= make_code_check();
    else if (strcmp(key, "deliver") == 0)
        run.agrees &= make_code_delivery();
    else
        return false;
    return true;
}

static void take_line(void)
{
    const char *key = word();
    if (key == NULL || strcmp(key, "note") == 0 || strcmp(key, "nodes") == 0 || take_code_line(key))
        return;
    if (strcmp(key, "case") == 0)
        begin_case();
    else if (strcmp(key, "file") == 0)
        take_file();
    else if (strcmp(key, "arrays") == 0)
        take_code_lengths();
    else if (strcmp(key, "answer") == 0)
        run.wanted = natural();
    else if (strcmp(key, "rows") == 0)
        compare_rows();
    else if (strcmp(key, "cells") == 0) {
        size_t cells = (size_t)natural();
        run.is_deliver = true;
        lend_store(ENGINE_SLOTS_LENGTH(cells), ENGINE_HEADS_LENGTH(cells));
    } else if (strcmp(key, "store") == 0) {
        run.is_deliver = true; /* its words are compared where they are given */
        lend_clear_store();
    } else if (strcmp(key, "put") == 0)
        put_words();
    else if (strcmp(key, "check") == 0)
        run.agrees &= make_sound_check();
    else if (strcmp(key, "save") == 0)
        run.agrees &= make_save();
    else if (strcmp(key, "restore") == 0)
        run.agrees &= make_restore();
    else if (strcmp(key, "open") == 0)
        make_opening();
    else if (strcmp(key, "deliver") == 0)
        make_delivery();
    else if (strcmp(key, "slots") == 0)
        take_store_words(true);
    else if (strcmp(key, "heads") == 0)
        take_store_words(false);
    else if (strcmp(key, "end") == 0)
        end_case();
    else
        unusable("an unknown key");
}

bool run_vectors(const char *path)
{
    memset(&run, 0, sizeof run);
    run.lacks_lowest = is_earlier(path);
    run.file = fopen(path, "r");
    if (run.file == NULL) {
        perror(path);
        exit(2);
    }
    while (next_line())
        take_line();
    fclose(run.file);
    printf("%s: %u cases, %u differ\n", path, run.cases, run.differ);
    return run.cases > 0 && run.differ == 0;
}
