/* Two records in flash. Nothing is kept in memory but the store itself: a record is written and read unit by unit. */
#include "flash_store.h"

#include <string.h>

/* ---- Numbers and checksums ---- */

static void put_number(uint8_t *bytes, uint64_t number, unsigned count)
{
    for (unsigned i = 0; i < count; i++)
        bytes[i] = (uint8_t)(number >> (8 * i));
}

static uint64_t number_at(const uint8_t *bytes, unsigned count)
{
    uint64_t number = 0;
    for (unsigned i = 0; i < count; i++)
        number |= (uint64_t)bytes[i] << (8 * i);
    return number;
}

/* The CRC-32 of zip and Ethernet, of more bytes after those of `sum`; it begins with 0. */
static uint32_t checksum_of(uint32_t sum, const uint8_t *bytes, size_t length)
{
    sum = ~sum;
    for (size_t i = 0; i < length; i++) {
        sum ^= bytes[i];
        for (int bit = 0; bit < 8; bit++)
            sum = sum & 1 ? sum >> 1 ^ 0xedb88320 : sum >> 1;
    }
    return ~sum;
}

/* ---- A record, unit by unit ---- */

enum { LABEL_UNIT = 0, SUM_UNIT = 1, MARK_UNIT = 2, FIRST_WORDS = 3 };

static size_t units_of(const struct engine_lent *lent)
{
    return FLASH_RECORD_UNITS(engine_cells(lent));
}

static void make_label(const struct flash_keeper *keeper, uint32_t saves, uint8_t bytes[FLASH_UNIT])
{
    put_number(bytes, saves, 4);
    put_number(bytes + 4, keeper->script, 4);
}

/* The words of a unit, from FIRST_WORDS on. */
static void make_words(const struct engine_lent *lent, size_t unit, uint8_t bytes[FLASH_UNIT])
{
    const size_t heads = FIRST_WORDS + lent->slots_length;
    memset(bytes, 0, FLASH_UNIT);
    if (unit < heads)
        put_number(bytes, (uint64_t)lent->slots[unit - FIRST_WORDS], 8);
    else
        for (size_t i = 0; i < 2 && 2 * (unit - heads) + i < lent->heads_length; i++)
            put_number(bytes + 4 * i, lent->heads[2 * (unit - heads) + i], 4);
}

static void take_words(struct engine_lent *lent, size_t unit, const uint8_t bytes[FLASH_UNIT])
{
    const size_t heads = FIRST_WORDS + lent->slots_length;
    if (unit < heads)
        lent->slots[unit - FIRST_WORDS] = (int64_t)number_at(bytes, 8);
    else
        for (size_t i = 0; i < 2 && 2 * (unit - heads) + i < lent->heads_length; i++)
            lent->heads[2 * (unit - heads) + i] = (uint32_t)number_at(bytes + 4 * i, 4);
}

/* ---- Loading ---- */

static bool is_erased(unsigned record, size_t unit)
{
    uint8_t bytes[FLASH_UNIT];
    flash_read(record, unit, bytes);
    for (int i = 0; i < FLASH_UNIT; i++)
        if (bytes[i] != 255)
            return false;
    return true;
}

static bool is_blank(const struct engine_lent *lent, unsigned record)
{
    for (size_t unit = 0; unit < units_of(lent); unit++)
        if (!is_erased(record, unit))
            return false;
    return true;
}

/* The checksum of a record that is of as many cells as the lent store. */
static uint32_t record_sum(const struct engine_lent *lent, unsigned record)
{
    uint8_t bytes[FLASH_UNIT];
    flash_read(record, LABEL_UNIT, bytes);
    uint32_t sum = checksum_of(0, bytes, FLASH_UNIT);
    flash_read(record, SUM_UNIT, bytes);
    sum = checksum_of(sum, bytes, 4);
    for (size_t unit = FIRST_WORDS; unit < units_of(lent); unit++) {
        flash_read(record, unit, bytes);
        sum = checksum_of(sum, bytes, FLASH_UNIT);
    }
    return sum;
}

static uint64_t cells_of(unsigned record)
{
    uint8_t bytes[FLASH_UNIT];
    flash_read(record, SUM_UNIT, bytes);
    return number_at(bytes, 4);
}

/* The number of a record that counts, and 0 of one that does not. */
static uint32_t saves_of(const struct engine_lent *lent, unsigned record)
{
    uint8_t label[FLASH_UNIT], bytes[FLASH_UNIT];
    if (is_erased(record, MARK_UNIT) || cells_of(record) != engine_cells(lent))
        return 0;
    flash_read(record, LABEL_UNIT, label);
    flash_read(record, SUM_UNIT, bytes);
    return number_at(bytes + 4, 4) == record_sum(lent, record) ? (uint32_t)number_at(label, 4) : 0;
}

/* Whether a record looks like that of a store of another number of cells; its checksum was not tested. */
static bool is_of_other_cells(const struct engine_lent *lent, unsigned record)
{
    uint64_t cells = cells_of(record);
    return !is_erased(record, MARK_UNIT) && cells >= ENGINE_CELLS_MIN && cells <= ENGINE_CELLS_MAX
           && cells != engine_cells(lent);
}

enum flash_found flash_load(struct flash_keeper *keeper, struct engine_lent *lent)
{
    uint8_t bytes[FLASH_UNIT];
    const uint32_t saves[FLASH_RECORDS] = { saves_of(lent, 0), saves_of(lent, 1) };
    keeper->lent = lent;
    keeper->script = checksum_of(0, lent->file, lent->file_length);
    keeper->record = saves[0] > saves[1] ? 0 : 1; /* where none counts, record 0 is the first to be written */
    keeper->saves = saves[keeper->record];
    if (keeper->saves == 0 && (is_of_other_cells(lent, 0) || is_of_other_cells(lent, 1)))
        return FLASH_OTHER_CELLS;
    if (keeper->saves == 0)
        return is_blank(lent, 1) ? FLASH_EMPTY : FLASH_DAMAGED;
    for (size_t unit = FIRST_WORDS; unit < units_of(lent); unit++) {
        flash_read(keeper->record, unit, bytes);
        take_words(lent, unit, bytes);
    }
    flash_read(keeper->record, LABEL_UNIT, bytes);
    return number_at(bytes + 4, 4) == keeper->script ? FLASH_STORE : FLASH_OTHER_SCRIPT;
}

/* ---- Saving ---- */

/* Writes a unit and reads it back. */
static bool write_unit(unsigned record, size_t unit, const uint8_t bytes[FLASH_UNIT])
{
    uint8_t found[FLASH_UNIT];
    if (!flash_program(record, unit, bytes))
        return false;
    flash_read(record, unit, found);
    return memcmp(found, bytes, FLASH_UNIT) == 0;
}

/* Writes all of a record but its mark. */
static bool write_record(const struct flash_keeper *keeper, unsigned record, uint32_t saves)
{
    uint8_t bytes[FLASH_UNIT];
    make_label(keeper, saves, bytes);
    if (!write_unit(record, LABEL_UNIT, bytes))
        return false;
    for (size_t unit = FIRST_WORDS; unit < units_of(keeper->lent); unit++) {
        make_words(keeper->lent, unit, bytes);
        if (!write_unit(record, unit, bytes))
            return false;
    }
    return true;
}

/* The checksum of what write_record writes, and of the number of cells between. */
static uint32_t store_sum(const struct flash_keeper *keeper, uint32_t saves, uint8_t cells[4])
{
    uint8_t bytes[FLASH_UNIT];
    make_label(keeper, saves, bytes);
    uint32_t sum = checksum_of(checksum_of(0, bytes, FLASH_UNIT), cells, 4);
    for (size_t unit = FIRST_WORDS; unit < units_of(keeper->lent); unit++) {
        make_words(keeper->lent, unit, bytes);
        sum = checksum_of(sum, bytes, FLASH_UNIT);
    }
    return sum;
}

bool flash_save(struct flash_keeper *keeper)
{
    static const uint8_t mark[FLASH_UNIT];
    const unsigned record = 1 - keeper->record;
    const uint32_t saves = keeper->saves + 1;
    uint8_t bytes[FLASH_UNIT];
    if (!is_blank(keeper->lent, record) && !flash_erase(record))
        return false;
    put_number(bytes, engine_cells(keeper->lent), 4);
    put_number(bytes + 4, store_sum(keeper, saves, bytes), 4);
    if (!write_record(keeper, record, saves) || !write_unit(record, SUM_UNIT, bytes))
        return false;
    flash_program(record, MARK_UNIT, mark); /* whatever it says: the record counts as soon as the mark was begun */
    if (saves_of(keeper->lent, record) != saves)
        return false;
    keeper->record = record;
    keeper->saves = saves;
    return true;
}

/* ---- A board ---- */

bool flash_start(struct flash_keeper *keeper, struct engine_lent *lent, enum flash_found *found, uint64_t *answer)
{
    *answer = ENGINE_UNSOUND_STORE;
    *found = flash_load(keeper, lent);
    if (*found == FLASH_STORE)
        *answer = engine_check_lent(lent);
    else if (*found == FLASH_EMPTY)
        *answer = engine_open_lent(lent);
    return engine_answer_number(*answer) == ENGINE_DONE && (*found == FLASH_STORE || flash_save(keeper));
}

bool flash_deliver(struct flash_keeper *keeper, const int64_t *readings, size_t count, uint64_t budget,
                   uint64_t *answer)
{
    *answer = engine_deliver_lent(keeper->lent, readings, count, budget);
    if (engine_answer_number(*answer) != ENGINE_DONE) /* the totals are as they were */
        return true;
    if (flash_save(keeper))
        return true;
    flash_load(keeper, keeper->lent); /* the store as it was saved before */
    return false;
}
