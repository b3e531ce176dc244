/* A day with what is expected of it. A line is cut at '=>': the part before it is the controller's. */
#include "play_day.h"
#include "engine.h"

#include <string.h>

/* What stands after '=>', as it is read. */
struct reader {
    const struct text *text;
    struct pool *pool;
    const char *at, *end;
    bool is_faulty;
};

static bool fault(struct reader *r, const char *what)
{
    if (!r->is_faulty)
        complain_in(r->text, r->text->line, r->at, "%s", what);
    r->is_faulty = true;
    return false;
}

static void pass_blanks(struct reader *r)
{
    while (r->at < r->end && (*r->at == ' ' || *r->at == '\t' || *r->at == '\r'))
        r->at++;
}

/* Whether the next character is this one; then it is taken. */
static bool takes(struct reader *r, char character)
{
    pass_blanks(r);
    if (r->at == r->end || *r->at != character)
        return false;
    r->at++;
    return true;
}

/* The next characters up to a blank, a comma or a brace. */
static struct word next_token(struct reader *r)
{
    pass_blanks(r);
    struct word word = { r->at, 0 };
    while (word.start + word.length < r->end && strchr(" \t\r,{}", word.start[word.length]) == NULL)
        word.length++;
    return word;
}

static bool read_number(struct reader *r, int64_t *number)
{
    struct word word = next_token(r);
    switch (numeral_of(word, number)) {
    case NUMERAL_NONE: return fault(r, word.length == 0 ? "a number is missing" : "a number is wanted");
    case NUMERAL_TOO_LARGE: return fault(r, "the number does not fit 64 bits");
    case NUMERAL_FITS: break;
    }
    r->at += word.length;
    return true;
}

/* A value of this depth: a number, or elements in braces, between commas. */
static bool read_value(struct reader *r, unsigned depth, struct value *value)
{
    struct value elements[ENGINE_CELL_SLOTS];
    unsigned count = 0;
    pass_blanks(r);
    if (depth == 0)
        return read_number(r, &value->number);
    if (!takes(r, '{'))
        return fault(r, "an array is wanted, in braces, as deep as the totals are");
    while (!takes(r, '}')) {
        if (count > 0 && !takes(r, ','))
            return fault(r, "a comma or a closing brace is missing");
        if (count == ENGINE_CELL_SLOTS)
            return fault(r, "an array has 16 elements or fewer");
        elements[count] = (struct value){ NULL, 0 };
        if (!read_value(r, depth - 1, &elements[count++]))
            return false;
    }
    struct list *list = new_list(r->pool, count);
    for (unsigned i = 0; i < count; i++)
        list->elements[i] = elements[i];
    *value = list_value(list);
    return true;
}

/* A number of the service display that a delivery can have. */
static bool read_stop(struct reader *r, unsigned *number)
{
    int64_t found;
    pass_blanks(r);
    const char *start = r->at;
    if (!read_number(r, &found))
        return false;
    *number = found >= 0 && found < 256 ? (unsigned)found : 255;
    if (*number == ENGINE_DONE || *number == ENGINE_BAD_REQUEST || engine_is_stop(*number))
        return true;
    r->at = start;
    return fault(r, "no number that a delivery can have: 0, 10, 21 to 26 and 28 are these");
}

/* '{..}' is what the totals are; a bare number too where they are one, and else the number of the answer, as it is
 * everywhere after 'stop'. */
static bool read_expectation(struct reader *r, unsigned depth, struct expectation *expectation)
{
    struct word word = next_token(r);
    expectation->at = r->at;
    expectation->what = EXPECTED_TOTALS;
    if (word_is(word, "stop")) {
        r->at += word.length;
        expectation->what = EXPECTED_NUMBER;
    } else if (depth > 0 && (r->at == r->end || *r->at != '{')) {
        expectation->what = EXPECTED_NUMBER;
    }
    bool is_read = expectation->what == EXPECTED_NUMBER ? read_stop(r, &expectation->number)
                                                        : read_value(r, depth, &expectation->totals);
    pass_blanks(r);
    if (is_read && r->at != r->end)
        return fault(r, "this is left over");
    return is_read;
}

enum line_content expected_delivery_of(struct text *text, uint64_t budget, unsigned depth, struct pool *pool,
                                       struct delivery *delivery, struct expectation *expectation)
{
    const uint8_t *end = text->at;
    while (end < text->end && *end != '\n' && *end != '#')
        end++;
    const uint8_t *mark = expectation_in(text);
    *expectation = (struct expectation){ .what = EXPECTED_NOTHING };
    if (mark == NULL)
        return delivery_of(text, budget, delivery);
    struct text before = *text;
    before.end = mark;
    enum line_content content = delivery_of(&before, budget, delivery);
    struct reader r = { text, pool, (const char *)mark, (const char *)end, content == LINE_FAULTY };
    if (content == LINE_EMPTY)
        fault(&r, "before '=>' the readings are missing; 'none' stands for no readings");
    r.at += strlen("=>");
    return !r.is_faulty && read_expectation(&r, depth, expectation) ? LINE_DELIVERY : LINE_FAULTY;
}
