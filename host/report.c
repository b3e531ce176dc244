/* What the controller prints, for a person; as JSON it is report_json.c's matter. */
#include "report.h"
#include "display.h"
#include "report_json.h"

#include <inttypes.h>
#include <signal.h>
#include <stdio.h>
#include <stdlib.h>
#include <string.h>

enum { LABEL_COLUMNS = 14, COLUMNS = 100 };

bool needs_totals(const struct form *form)
{
    return form->is_json || form->shows_changes;
}

static void print_totals(const struct site *site)
{
    print_value(stdout, &ARRAYS_OF_TEXT, site->slots, site->heads, site->header.cells, site->slots[0],
                site->header.depth);
    putchar('\n');
}

/* ---- Script and store ---- */

void report_script(const struct form *form, const struct site *site, uint32_t lines)
{
    size_t nodes = (site->lent.file_length - 4) / 9;
    if (form->is_json) {
        begin_object("script");
        put_count("nodes", nodes);
        put_count("lines", lines);
        put_count("depth", site->header.depth);
        put_names(form->names);
        end_object();
        return;
    }
    printf("script       %zu nodes, %" PRIu32 " lines of code\n", nodes, lines);
}

void report_code(const struct form *form, const struct site *site)
{
    const struct tuned *tuned = &site->tuned;
    uint32_t retains = lines_of(tuned, ENGINE_KIND_RETAIN), releases = lines_of(tuned, ENGINE_KIND_RELEASE);
    if (form->is_json) {
        begin_object("code");
        put_count("lines", tuned->lines);
        put_count("retains", retains);
        put_count("releases", releases);
        end_object();
        return;
    }
    printf("code         tuned: %" PRIu32 " lines, %" PRIu32 " retains and %" PRIu32 " releases\n", tuned->lines,
           retains, releases);
}

static void print_store_object(const struct site *site, const char *what, uint64_t answer, const uint32_t *checksum)
{
    begin_object(what);
    put_answer(answer);
    put_count("cells_taken", engine_answer_cells(answer));
    put_count("cells", site->header.cells);
    put_count("deliveries", site->header.deliveries);
    if (checksum != NULL)
        put_checksum("check_value", *checksum);
    put_totals(site);
    end_object();
}

void report_store(const struct form *form, const struct site *site, const char *what, uint64_t answer,
                  const uint32_t *checksum)
{
    char value[32] = "", deliveries[48];
    if (form->is_json) {
        print_store_object(site, what, answer, checksum);
        return;
    }
    if (checksum != NULL)
        snprintf(value, sizeof value, "check value %08" PRIx32, *checksum);
    snprintf(deliveries, sizeof deliveries, "%" PRIu64 " deliver%s", site->header.deliveries,
             site->header.deliveries == 1 ? "y" : "ies");
    printf("%-12s  0 done     %20s %4u of %zu cells, %-15s  ", what, value, engine_answer_cells(answer),
           site->header.cells, deliveries);
    print_totals(site);
    flush_output();
}

void report_refusal(const struct form *form, const char *what, uint64_t answer, const char *reason)
{
    if (form->is_json) {
        begin_object(what);
        put_answer(answer);
        put_string("reason", reason, strlen(reason));
        end_object();
        exit(STATUS_REFUSED);
    }
    printf("%-12s ", what);
    print_number(stdout, answer);
    printf(": %s\n", reason);
    flush_output();
    exit(STATUS_REFUSED);
}

/* ---- A delivery ---- */

/* A line of parts that goes on below, after the comma of the next part, where that one would pass the last column. */
static void put_part(size_t *column, const char *part)
{
    if (*column > LABEL_COLUMNS && *column + strlen(part) + 1 > COLUMNS) {
        if (*part == ',')
            putchar(*part++);
        printf("\n%*s", LABEL_COLUMNS, "");
        *column = LABEL_COLUMNS;
        part += strspn(part, " ");
    }
    fputs(part, stdout);
    *column += strlen(part);
}

/* What the day's text says of a delivery, as far as it fits a line; '?' for what is not printable ASCII. */
static void print_comment(size_t *column, struct word comment)
{
    char part[COLUMNS - LABEL_COLUMNS + 1];
    size_t length = comment.length < sizeof part - 3 ? comment.length : sizeof part - 3;
    memcpy(part, "  ", 2);
    for (size_t i = 0; i < length; i++)
        part[2 + i] = comment.start[i] >= ' ' && comment.start[i] <= '~' ? comment.start[i] : '?';
    part[2 + length] = '\0';
    put_part(column, part);
}

/* The readings, a budget that is not the day's, and what the day's text says of the delivery. */
static void print_readings(const struct delivery *delivery, bool is_unchanged)
{
    char part[64];
    size_t column = LABEL_COLUMNS;
    printf("%*s", LABEL_COLUMNS, "");
    put_part(&column, delivery->count == 0 ? "no readings" : "readings");
    for (size_t i = 0; i < delivery->count; i++) {
        snprintf(part, sizeof part, " %" PRId64, delivery->readings[i]);
        put_part(&column, part);
    }
    if (delivery->has_own_budget) {
        snprintf(part, sizeof part, ", budget %" PRIu64, delivery->budget);
        put_part(&column, part);
    }
    if (is_unchanged)
        put_part(&column, ": no change");
    if (delivery->comment.length > 0)
        print_comment(&column, delivery->comment);
    putchar('\n');
}

/* Numbers of the totals, a line for those of one array. */
struct rows {
    const struct names *names;
    unsigned depth;
    unsigned array; /* the place of the array whose line it is; PLACES before the first */
    size_t column;
};

static void put_row(struct rows *rows, unsigned place, const char *value)
{
    char part[2 * LABEL_BYTES];
    unsigned outer = rows->depth == 0 ? 0 : rows->depth - 1;
    struct label label = label_of(rows->names, place, outer, outer + 1, rows->depth);
    bool is_first = rows->array != place >> 4;
    if (is_first) {
        struct label head = label_of(rows->names, place, 0, outer, rows->depth);
        printf("%s%*s", rows->array == PLACES ? "" : "\n", LABEL_COLUMNS, "");
        rows->column = LABEL_COLUMNS;
        rows->array = place >> 4;
        snprintf(part, sizeof part, "%s%s", head.text, outer > 0 ? ":" : "");
        put_part(&rows->column, part);
    }
    snprintf(part, sizeof part, "%s%s %s", !is_first ? ", " : outer > 0 ? " " : "", label.text, value);
    put_part(&rows->column, part);
}

static void end_rows(const struct rows *rows)
{
    if (rows->array != PLACES)
        putchar('\n');
}

static void print_changes(const struct names *names, struct comparison totals)
{
    struct rows rows = { names, totals.after->depth, PLACES, 0 };
    struct change change;
    char value[64];
    while (next_change(&totals, &change)) {
        snprintf(value, sizeof value, "%" PRId64 " -> %" PRId64, change.before, change.after);
        put_row(&rows, change.place, value);
    }
    end_rows(&rows);
}

void print_named_totals(const struct names *names, const struct totals *totals)
{
    struct rows rows = { names, totals->depth, PLACES, 0 };
    char value[32];
    for (size_t i = 0; i < totals->count; i++) {
        snprintf(value, sizeof value, "%" PRId64, totals->list[i].number);
        put_row(&rows, totals->list[i].place, value);
    }
    end_rows(&rows);
}

/* A delivery's steps, cells taken and lowest level; spaces where it was refused. */
static void print_columns(const struct site *site, uint64_t answer)
{
    char columns[96];
    int width = snprintf(columns, sizeof columns, "%7" PRIu32 " steps %4u of %zu cells, lowest %3u free",
                         engine_answer_steps(answer), engine_answer_cells(answer), site->header.cells,
                         engine_answer_lowest(answer));
    printf("%*s", width, engine_is_refusal(engine_answer_number(answer)) ? "" : columns);
}

void report_delivery(const struct form *form, const struct site *site, const struct played *played)
{
    unsigned number = engine_answer_number(played->answer);
    struct change change;
    if (form->is_json) {
        print_delivery_object(form, site, played);
        return;
    }
    printf("delivery %-3" PRIu64 " %2u ", played->number, number);
    if (form->shows_changes && engine_is_refusal(number)) {
        fputs(engine_word(number), stdout);
    } else {
        printf("%-15s ", engine_word(number));
        print_columns(site, played->answer);
    }
    if (form->shows_changes) {
        struct comparison totals = played->totals;
        putchar('\n');
        print_readings(played->delivery, !next_change(&totals, &change));
        print_changes(form->names, played->totals);
    } else {
        fputs("  ", stdout);
        print_totals(site);
    }
    flush_output();
}

/* ---- The day ---- */

void report_day(const struct form *form, const struct site *site, const struct day_result *day)
{
    if (form->is_json) {
        print_day_object(site, day);
        return;
    }
    printf("day          %u deliveries, %u done%s", day->count, day->done,
           day->is_checked ? ", every check passed" : "");
    if (day->faulty > 0)
        printf(", %u faulty line%s not played", day->faulty, day->faulty == 1 ? "" : "s");
    if (day->signal != 0)
        printf(", ended by %s", day->signal == SIGINT ? "SIGINT" : "SIGTERM");
    if (day->done + day->stopped > 0)
        printf("; lowest %u of %zu cells free: %zu needed today", day->lowest, site->header.cells,
               site->header.cells - day->lowest);
    putchar('\n');
    flush_output();
}
