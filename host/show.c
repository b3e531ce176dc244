/* A store as text or JSON. */
#include "show.h"
#include "diagnosis.h"
#include "display.h"
#include "report_json.h"

#include <inttypes.h>
#include <string.h>

static struct site site;
static uint8_t bytes[STORE_BYTES_MAX + 1];
static struct totals totals;

/* ---- Who names whom ---- */

/* Goes on to the next place that names a cell: a slot of a cell, from slot 0 of cell 0; false where there is none. */
struct holder {
    size_t cell;
    uint32_t slot;
};

static bool next_holder(const struct words *w, size_t named, struct holder *holder)
{
    for (; holder->cell < w->cells; holder->cell++, holder->slot = 0) {
        struct head head = head_of(w, holder->cell);
        for (; head.count > 0 && head.depth > 0 && holder->slot < elements_count(head); holder->slot++)
            if (elements_of(w, holder->cell)[holder->slot] == (int64_t)named)
                return true;
    }
    return false;
}

static bool is_named_by_totals(const struct words *w, size_t cell)
{
    return w->depth > 0 && w->slots[0] == (int64_t)cell;
}

static void print_cell(const struct words *w, size_t cell)
{
    struct head head = head_of(w, cell);
    bool is_of_totals = is_named_by_totals(w, cell);
    const char *before = is_of_totals ? " and" : ", named by";
    printf("cell %-7zu count %" PRIu32 "%s", cell, head.count, is_of_totals ? ", named by the totals" : "");
    for (struct holder holder = { 0, 0 }; next_holder(w, cell, &holder); holder.slot++, before = " and")
        printf("%s cell %zu slot %" PRIu32, before, holder.cell, holder.slot);
    printf("; %" PRIu32 " %s", head.length, head.depth > 0 ? "cells" : "numbers");
    if (head.depth > 0)
        printf(" of element depth %" PRIu32, head.depth - 1);
    for (uint32_t i = 0; i < elements_count(head); i++)
        printf("%s %" PRId64, i == 0 ? ":" : ",", elements_of(w, cell)[i]);
    putchar('\n');
}

static void print_cell_object(const struct words *w, size_t cell)
{
    struct head head = head_of(w, cell);
    bool is_of_totals = is_named_by_totals(w, cell);
    const char *before = is_of_totals ? ", " : "";
    begin_object("cell");
    put_count("cell", cell);
    put_count("count", head.count);
    printf(", \"named_by\": [%s", is_of_totals ? "\"totals\"" : "");
    for (struct holder holder = { 0, 0 }; next_holder(w, cell, &holder); holder.slot++, before = ", ")
        printf("%s[%zu, %" PRIu32 "]", before, holder.cell, holder.slot);
    putchar(']');
    put_count("length", head.length);
    put_count("element_depth", head.depth);
    fputs(", \"elements\": [", stdout);
    for (uint32_t i = 0; i < elements_count(head); i++)
        printf("%s%" PRId64, i == 0 ? "" : ", ", elements_of(w, cell)[i]);
    putchar(']');
    end_object();
}

static void print_cells(const struct form *form, const struct words *w)
{
    size_t taken = 0;
    for (size_t cell = 0; cell < w->cells; cell++)
        taken += head_of(w, cell).count > 0;
    if (form->is_json) {
        begin_object("cells");
        put_count("cells_taken", taken);
        put_count("cells", w->cells);
        put_count("first_free", w->heads[0]);
        end_object();
    } else {
        printf("cells        %zu of %zu taken", taken, w->cells);
        if (w->heads[0] < w->cells)
            printf(", first free cell %" PRIu32, w->heads[0]);
        putchar('\n');
    }
    for (size_t cell = 0; cell < w->cells; cell++)
        if (head_of(w, cell).count > 0)
            (form->is_json ? print_cell_object : print_cell)(w, cell);
}

/* ---- The check ---- */

/* A script of this depth that gives the totals back: the check of a store depends on main's depth alone. */
static void take_plain_script(unsigned depth)
{
    enum { NODES = 4 };
    const uint8_t kinds[NODES] = { ENGINE_KIND_FUNCTION, ENGINE_KIND_PARAMETER, ENGINE_KIND_PARAMETER,
                                   ENGINE_KIND_NAME };
    const unsigned operands[NODES] = { 2 + 256 * depth, 256 * depth, 1 + 256, 0 };
    memset(site.file, 0, ENGINE_FILE_LENGTH(NODES));
    site.file[0] = 1;
    site.file[2] = NODES;
    memcpy(site.file + 4, kinds, NODES);
    for (size_t i = 0; i < NODES; i++) {
        site.file[4 + NODES + 8 * i] = (uint8_t)operands[i];
        site.file[4 + NODES + 8 * i + 1] = (uint8_t)(operands[i] >> 8);
    }
    site.lent = (struct engine_lent){
        .file = site.file,
        .file_length = ENGINE_FILE_LENGTH(NODES),
        .kinds = site.kinds,
        .kinds_length = ENGINE_CODE_LINES_MAX,
        .operands = site.operands,
        .operands_length = ENGINE_CODE_LINES_MAX,
    };
}

/* Takes the script that the store is checked for, and says whether it is the store's own. */
static void take_checked_script(const struct form *form, const char *script, const struct store_header *found)
{
    if (script == NULL) {
        take_plain_script(found->depth);
        return;
    }
    uint64_t answer = take_script(&site, script);
    bool is_done = engine_answer_number(answer) == ENGINE_DONE, is_own = site.header.script == found->script;
    if (form->is_json) {
        begin_object("script");
        put_answer(answer);
        if (is_done) {
            put_count("depth", site.header.depth);
            put_truth("own", is_own);
        }
        end_object();
        return;
    }
    printf("script       ");
    print_number(stdout, answer);
    if (is_done)
        printf(", main's depth %u, %s", site.header.depth, is_own ? "the store's own" : "not the store's own");
    putchar('\n');
}

static void say_rule(const char *rule)
{
    printf("broken rule  %s\n", rule);
}

static void say_rule_object(const char *rule)
{
    begin_object("broken rule");
    put_string("rule", rule, strlen(rule));
    end_object();
}

static void print_check(const struct form *form, uint64_t answer, const struct words *words)
{
    void (*say)(const char *) = form->is_json ? say_rule_object : say_rule;
    if (form->is_json) {
        begin_object("check");
        put_answer(answer);
        end_object();
    } else {
        printf("check        ");
        print_number(stdout, answer);
        putchar('\n');
    }
    if (engine_answer_number(answer) == ENGINE_UNSOUND_STORE && diagnose(say, words) == 0)
        say("none for the store's own depth of main");
}

/* ---- The store ---- */

static void print_header(const struct form *form, const char *path, const struct store_header *found)
{
    if (form->is_json) {
        begin_object("store");
        put_string("path", path, strlen(path));
        put_count("cells", found->cells);
        put_count("deliveries", found->deliveries);
        put_count("depth", found->depth);
        put_checksum("script", found->script);
        end_object();
        return;
    }
    printf("store        %s: %zu cells, %" PRIu64 " deliver%s, main's depth %u, script's checksum %08" PRIx32 "\n",
           path, found->cells, found->deliveries, found->deliveries == 1 ? "y" : "ies", found->depth, found->script);
}

static void print_totals(const struct form *form, const struct store_header *found)
{
    site.header.depth = found->depth; /* and not the checked script's */
    if (form->is_json) {
        begin_object("totals");
        put_totals(&site);
        put_names(form->names);
        end_object();
        return;
    }
    printf("totals       ");
    print_value(stdout, &ARRAYS_OF_TEXT, site.slots, site.heads, found->cells, site.slots[0], found->depth);
    putchar('\n');
    if (form->names->levels > 0) {
        gather_totals(&totals, &site.lent, found->depth);
        print_named_totals(form->names, &totals);
    }
}

int show_store(const struct form *form, const char *path, const char *script, const char *text)
{
    struct store_header found;
    struct store_fault fault;
    struct names names = { 0 };
    struct form named = { form->is_json, false, &names };
    size_t length = read_whole(path, bytes, sizeof bytes);
    enum store_reading reading = decode_store(bytes, length, &found, site.slots, site.heads, &fault);
    if (reading == STORE_UNREADABLE)
        fail(STATUS_UNUSABLE, "%s: %s; name a store, put a copy back, or restore saved totals", path, fault.text);
    if (text != NULL)
        read_names(&names, text, found.depth);
    print_header(form, path, &found);
    if (reading == STORE_DAMAGED)
        complain("%s: %s; put a copy back, or restore saved totals", path, fault.text);
    take_checked_script(form, script, &found);
    lend_cells(&site, found.cells);
    struct words words = { site.slots, site.heads, found.cells, found.depth };
    uint64_t answer = engine_check_lent(&site.lent);
    print_check(form, answer, &words);
    print_totals(&named, &found);
    print_cells(form, &words);
    flush_output();
    if (engine_answer_number(answer) != ENGINE_DONE)
        return STATUS_REFUSED;
    return reading == STORE_DAMAGED ? STATUS_UNUSABLE : 0;
}
