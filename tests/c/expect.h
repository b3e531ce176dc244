/* The tests, counted, and the answers that they want. */
#ifndef EXPECT_H
#define EXPECT_H

#include <stdbool.h>
#include <stdint.h>

extern unsigned passed, failed;

/* Counts a test, and says where one fails. */
void expect(bool holds, const char *what);

/* An answer by its parts; the second is a refusal's node or line, or a delivery's lowest level. */
uint64_t answer(unsigned number, unsigned node, uint32_t count, unsigned cells);

/* The files of tests beside main.c. */
void test_header(void);
void test_lent(void);
void test_totals(void);
void test_faults(void);
void test_saved(void);
void test_saved_length(void);
void test_code(void);

#endif
