/* The deliveries of a day as text. */
#include "day.h"
#include "engine.h"

static enum line_content faulty(const struct text *text, const char *what)
{
    complain_at(text->path, text->line, "%s", what);
    return LINE_FAULTY;
}

static enum line_content faulty_word(const struct text *text, struct word word, const char *what)
{
    complain_at(text->path, text->line, "%s %s", quote_word(word).text, what);
    return LINE_FAULTY;
}

/* The line's rest after 'budget'. */
static enum line_content budget_of(struct text *text, struct delivery *delivery)
{
    struct word word;
    int64_t number;
    if (!next_word(text, &word))
        return faulty(text, "after 'budget' a number is missing; write one");
    switch (numeral_of(word, &number)) {
    case NUMERAL_NONE: return faulty_word(text, word, "is no budget: a number is wanted");
    case NUMERAL_TOO_LARGE: return faulty_word(text, word, "is no budget: it does not fit 64 bits; write less");
    case NUMERAL_FITS: break;
    }
    if (number < 0)
        return faulty_word(text, word, "is no budget: it is below 0; write 0 or more");
    delivery->budget = (uint64_t)number;
    delivery->has_own_budget = true;
    if (next_word(text, &word))
        return faulty_word(text, word, "follows the budget, and nothing may; write the readings before it");
    return LINE_DELIVERY;
}

static enum line_content add_reading(const struct text *text, struct word word, struct delivery *delivery)
{
    int64_t number;
    switch (numeral_of(word, &number)) {
    case NUMERAL_NONE: return faulty_word(text, word, "is no reading: a number is wanted");
    case NUMERAL_TOO_LARGE: return faulty_word(text, word, "is no reading: it does not fit 64 bits; write less");
    case NUMERAL_FITS: break;
    }
    if (delivery->count == LINE_READINGS_MAX) {
        complain_at(text->path, text->line, "over %d readings; write at most %d", LINE_READINGS_MAX,
                    ENGINE_READINGS_MAX);
        return LINE_FAULTY;
    }
    delivery->readings[delivery->count++] = number;
    return LINE_DELIVERY;
}

/* The line's words. */
static enum line_content words_of(struct text *text, struct delivery *delivery)
{
    struct word word;
    bool is_none = false;
    enum line_content content = LINE_EMPTY;
    while (content != LINE_FAULTY && next_word(text, &word)) {
        if (word_is(word, "budget"))
            return content == LINE_EMPTY ? faulty(text, "'budget' stands after the readings, or after 'none'")
                                         : budget_of(text, delivery);
        if (is_none)
            return faulty_word(text, word, "follows 'none', which stands for no readings; write one or the other");
        is_none = word_is(word, "none");
        if (is_none && content != LINE_EMPTY)
            return faulty(text, "'none' follows a reading, and it stands for no readings; leave it out");
        content = is_none ? LINE_DELIVERY : add_reading(text, word, delivery);
    }
    return content;
}

const uint8_t *expectation_in(const struct text *text)
{
    for (const uint8_t *at = text->at; at + 1 < text->end && *at != '\n' && *at != '#'; at++)
        if (at[0] == '=' && at[1] == '>')
            return at;
    return NULL;
}

/* The line's words before '=>'; what follows is passed over. */
static enum line_content words_before(struct text *text, const uint8_t *mark, struct delivery *delivery)
{
    struct text before = *text;
    struct word word;
    before.end = mark;
    enum line_content content = words_of(&before, delivery);
    text->at = mark;
    while (next_word(text, &word))
        continue;
    if (content == LINE_EMPTY)
        return faulty(text, "before '=>' the readings are missing; 'none' stands for no readings");
    return content;
}

enum line_content delivery_of(struct text *text, uint64_t budget, struct delivery *delivery)
{
    const uint8_t *mark = expectation_in(text);
    delivery->count = 0;
    delivery->budget = budget;
    delivery->has_own_budget = false;
    enum line_content content = mark == NULL ? words_of(text, delivery) : words_before(text, mark, delivery);
    const uint8_t *end = text->at;
    while (end < text->end && *end != '\n' && *end != '\r')
        end++;
    delivery->comment = (struct word){ (const char *)text->at, (size_t)(end - text->at) };
    return content;
}

unsigned judge_day(struct text text)
{
    struct delivery delivery;
    unsigned count = 0;
    while (next_line(&text))
        count += delivery_of(&text, 0, &delivery) == LINE_FAULTY;
    return count;
}
