/* The acts of code.txt. After each call the lent code is compared too, which no call writes. */
#include "lent_code.h"
#include "lent.h"
#include "swap.h"

#include <stdlib.h>
#include <string.h>

enum { ROWS_MAX = 8192 };

static uint64_t depth;
static uint8_t kinds[ROWS_MAX]; /* all rows, also those past the lent arrays; zero past the last */
static int64_t operands[ROWS_MAX];
static size_t rows;

void take_depth(void)
{
    depth = natural();
}

/* ---- Rows ---- */

static void put_row(uint8_t kind, int64_t operand)
{
    if (rows == ROWS_MAX)
        unusable("too many rows");
    kinds[rows] = kind;
    operands[rows++] = operand;
}

/* The lent arrays are the rows, cut or filled with zeros. */
static void lend_rows(void)
{
    if (lent.kinds_length > ROWS_MAX || lent.operands_length > ROWS_MAX)
        unusable("a code array is too long");
    memcpy(lent.kinds, kinds, lent.kinds_length);
    memcpy(lent.operands, operands, lent.operands_length * sizeof *operands);
}

void repeat_rows(void)
{
    size_t times = (size_t)natural(), last = (size_t)natural();
    if (last > rows)
        unusable("fewer rows than are to be repeated");
    for (size_t i = 0; i < times * last; i++)
        put_row(kinds[rows - last], operands[rows - last]);
    lend_rows();
}

void take_rows(void)
{
    size_t left = (size_t)natural();
    memset(kinds, 0, sizeof kinds);
    memset(operands, 0, sizeof operands);
    rows = 0;
    while (left > 0) {
        need_line();
        char *kind = word();
        if (kind != NULL && strcmp(kind, "again") == 0) {
            repeat_rows();
            continue;
        }
        char *operand = word();
        if (operand == NULL)
            unusable("a row has a kind and an operand");
        put_row((uint8_t)strtoul(kind, NULL, 10), strtoll(operand, NULL, 10));
        left--;
    }
    lend_rows();
}

/* ---- Calls ---- */

static bool code_is_kept(void)
{
    return memcmp(kinds, lent.kinds, lent.kinds_length) == 0
           && memcmp(operands, lent.operands, lent.operands_length * sizeof *operands) == 0;
}

bool make_code_check(void)
{
    uint64_t answer = check_code(depth);
    return answer == natural() && code_is_kept();
}

bool make_code_delivery(void)
{
    uint64_t budget = natural(), wanted = natural();
    take_readings();
    return deliver_code(depth, budget) == wanted && code_is_kept();
}
