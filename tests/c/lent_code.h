/* The acts of code.txt that the other families have not: a depth, the rows of lent code, and the two calls by it. Those
 * that are calls say whether they agree with the line. */
#ifndef LENT_CODE_H
#define LENT_CODE_H

#include <stdbool.h>

void take_depth(void);
void take_rows(void);
void repeat_rows(void);
bool make_code_check(void);
bool make_code_delivery(void);

/* What vectors.c reads of the present line, beside what swap.h has; and the next line. */
void need_line(void);
void take_readings(void);

#endif
