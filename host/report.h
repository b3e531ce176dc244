/* What the controller prints: lines for a person, or an object of JSON a line for a program. */
#ifndef REPORT_H
#define REPORT_H

#include "day.h"
#include "names.h"
#include "site.h"
#include "totals.h"

/* How things are shown. */
struct form {
    bool is_json;
    bool shows_changes;        /* a delivery's readings and what changed, in place of all totals */
    const struct names *names; /* of the totals */
};

/* A delivery that was played. */
struct played {
    uint64_t number; /* over the store's life, from 1 */
    const struct delivery *delivery;
    uint64_t answer;
    struct comparison totals; /* before and after it, where they are wanted */
};

/* A day that was played. */
struct day_result {
    unsigned count; /* deliveries */
    unsigned done;
    unsigned stopped;
    unsigned lowest; /* level of all that were not refused */
    unsigned faulty; /* lines of standard input that were not played */
    bool is_checked; /* after each delivery */
    int signal;      /* that ended it; 0: none */
};

/* Whether what is printed needs a delivery's totals as numbers at places. */
bool needs_totals(const struct form *form);

void report_script(const struct form *form, const struct site *site, uint32_t lines);

/* The tuned code by which deliveries are worked. */
void report_code(const struct form *form, const struct site *site);

/* A store at rest: the cells that an answer says are taken, how many deliveries it has had, and the totals. The
 * checksum of saved totals is null where there are none. */
void report_store(const struct form *form, const struct site *site, const char *what, uint64_t answer,
                  const uint32_t *checksum);

/* Ends the program with an answer other than 0 to what was to be done, why, and what to do. */
_Noreturn void report_refusal(const struct form *form, const char *what, uint64_t answer, const char *reason);

/* The numbers of the totals by their names, a line for those of one array. */
void print_named_totals(const struct names *names, const struct totals *totals);

void report_delivery(const struct form *form, const struct site *site, const struct played *played);
void report_day(const struct form *form, const struct site *site, const struct day_result *day);

#endif
