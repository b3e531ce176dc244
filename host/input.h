/* Standard input line by line as it comes, and signals that ask the program to end, which wait for a good moment. */
#ifndef INPUT_H
#define INPUT_H

#include <stdbool.h>
#include <stddef.h>
#include <stdint.h>

/* From now on SIGINT and SIGTERM are held back, but for those that the program was told to ignore. */
void hold_signals(void);

/* The signal of those that has come; 0 where none has. */
int signal_that_came(void);

struct input_line {
    const uint8_t *bytes; /* valid until the next line is asked for */
    size_t length;
    bool has_end;         /* its line end; only the last line may be without */
};

/* Waits for the next line; false at the end, or where a signal came. Fails where it cannot be read. */
bool next_input_line(struct input_line *line);

#endif
