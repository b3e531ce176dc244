/* The controller's arguments. */
#ifndef OPTIONS_H
#define OPTIONS_H

#include <stdbool.h>
#include <stddef.h>
#include <stdint.h>

enum { DEFAULT_CELLS = 64, DEFAULT_BUDGET = 10000 };

struct options {
    const char *script;   /* null only where a store is to be shown */
    const char *day;      /* "-" for standard input; null: no day, only totals are moved */
    const char *store;    /* null: the store is not kept */
    const char *plot;     /* null: no picture */
    const char *restored; /* saved totals to begin with; null: none */
    const char *saved;    /* where the totals are saved at the end; null: nowhere */
    const char *shown;    /* the store that is to be shown; null: a day is to be played */
    const char *names;    /* a script's text with names for the totals; null: none */
    const char *code;     /* tuned code, by which deliveries are worked; null: the script's own */
    size_t cells;         /* 0: as the store has, or DEFAULT_CELLS */
    uint64_t budget;
    bool checks;
    bool takes_another_scripts; /* store */
    bool keeps_previous;        /* the store before the last save */
    bool has_expected;          /* saved totals must have this checksum */
    uint32_t expected;
    bool shows_changes;
    bool is_json;
};

/* Reads the arguments. Fails where they cannot be used, and ends the program where help is asked for. */
struct options options_of(int count, char **arguments);

#endif
