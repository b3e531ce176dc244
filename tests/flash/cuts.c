/* The example of a store in flash: power cut at every byte of every write and erase, and again at the start after it;
 * flash that is worn, records that decay, and another script. The script is document 01's printed one, with totals {sum
 * of the first readings}, so the totals tell which deliveries are in them. Exit status 0 where all pass. */
#include "board.h"
#include "expect.h"

#include <stdio.h>
#include <string.h>

enum { DELIVERIES = 4, NODES = 18, LINES = 33, BUDGET = 1000 };

/* What a day's deliveries read, and the totals before the first and after each. */
static const int64_t readings[DELIVERIES] = { 1, 10, 100, 1000 };
static const int64_t sums[DELIVERIES + 1] = { 0, 1, 11, 111, 1111 };

static const uint8_t kinds_of_nodes[NODES] = { 0, 1, 1, 12, 11, 3, 9, 4, 10, 3, 2, 10, 3, 2, 9, 10, 3, 2 };
static const uint16_t operands_of_nodes[NODES] = { 258, 256, 257, 0, 0, 0, 1, 0, 0, 0, 0, 0, 1, 0, 1, 0, 1, 0 };

/* A board's memory. */
static uint8_t file[ENGINE_FILE_LENGTH(NODES)], kinds[LINES];
static int64_t operands[LINES], slots[ENGINE_SLOTS_LENGTH(BOARD_CELLS)];
static uint32_t heads[ENGINE_HEADS_LENGTH(BOARD_CELLS)];
static struct engine_lent lent;
static struct flash_keeper keeper;
static bool was_open;   /* the first start ended */
static unsigned shown;  /* deliveries that were shown */

static void write_script(void)
{
    file[0] = 1;
    file[2] = NODES;
    for (unsigned i = 0; i < NODES; i++) {
        file[4 + i] = kinds_of_nodes[i];
        file[4 + NODES + 8 * i] = (uint8_t)operands_of_nodes[i];
        file[5 + NODES + 8 * i] = (uint8_t)(operands_of_nodes[i] >> 8);
    }
}

/* Power comes back: the memory has anything in it, and the board starts. */
static bool power_up(enum flash_found *found)
{
    const struct engine_lent fresh = ENGINE_LENT(file, sizeof file, kinds, operands, slots, heads);
    uint64_t answer;
    memset(slots, 0xa5, sizeof slots);
    memset(heads, 0x5a, sizeof heads);
    lent = fresh;
    return flash_start(&keeper, &lent, found, &answer);
}

/* The deliveries in the totals, or -1 where these are other totals. */
static int delivered(void)
{
    struct engine_value totals = engine_totals(&lent);
    int64_t sum = engine_element_of(&lent, totals, 0).word;
    for (int i = 0; i <= DELIVERIES; i++)
        if (totals.depth == 1 && sum == sums[i] && engine_length_of(&lent, totals) == (i > 0))
            return i;
    return -1;
}

/* Starts, and makes the deliveries that the totals lack, until the day is over or power is cut; false where the board
 * does not start, has lost a delivery that was shown, or does not keep one. */
static bool play(void)
{
    enum flash_found found;
    if (!power_up(&found))
        return false;
    was_open = true;
    int first = delivered();
    if (first < (int)shown)
        return false;
    shown = (unsigned)first; /* as the board shows its totals at each start */
    for (int i = first; i < DELIVERIES; i++) {
        uint64_t answer;
        if (!flash_deliver(&keeper, &readings[i], 1, BUDGET, &answer) || engine_answer_number(answer) != ENGINE_DONE)
            return false;
        shown = (unsigned)i + 1;
    }
    return true;
}

/* Plays until power is cut after so many bytes; false where the day is over before. */
static bool play_until(long cut, enum cut how)
{
    board.until_cut = cut;
    board.cut = how;
    if (setjmp(board.power) == 0) {
        play();
        board.until_cut = -1;
        return false;
    }
    board.until_cut = -1;
    return true;
}

/* After a cut: what was shown is in the totals, and at most the delivery that was being saved beside it. */
static void expect_nothing_lost(void)
{
    enum flash_found found;
    bool was_started = was_open;
    expect(power_up(&found), "the board starts after a cut");
    expect(found == FLASH_STORE || (found == FLASH_EMPTY && !was_started), "it finds its store");
    int kept = delivered();
    expect(kept >= 0 && (unsigned)kept >= shown && (unsigned)kept <= shown + 1, "what was shown is kept");
}

static void expect_whole_day(void)
{
    enum flash_found found;
    expect(play() && delivered() == DELIVERIES, "the day goes on");
    expect(power_up(&found) && found == FLASH_STORE && delivered() == DELIVERIES, "and is kept");
}

/* Begins with blank flash. */
static void begin(void)
{
    board_clear();
    was_open = false;
    shown = 0;
}

static unsigned test_cuts(void)
{
    unsigned cuts = 0;
    for (int how = 0; how < CUTS; how++)
        for (long cut = 0;; cut++, cuts++) {
            begin();
            if (!play_until(cut, (enum cut)how))
                break;
            expect_nothing_lost();
            expect_whole_day();
        }
    return cuts;
}

/* Cut a second time, at every byte that is written after the first. */
static unsigned test_second_cuts(void)
{
    enum { APART = 401 };
    unsigned cuts = 0;
    for (long first = 0;; first += APART)
        for (long second = 0;; second++, cuts++) {
            begin();
            if (!play_until(first, CUT_ANY))
                return cuts;
            if (!play_until(second, CUT_ANY))
                break;
            expect_nothing_lost();
            expect_whole_day();
        }
}

/* One worn bit in each unit of the record to be written: the delivery is not shown, unless the unit's byte has that bit
 * anyway, or it is one of the mark's, and the store is as it was. */
static void test_worn(void)
{
    enum flash_found found;
    unsigned refused = 0;
    for (size_t byte = 0; byte < BOARD_BYTES; byte++) {
        begin();
        expect(play(), "a day");
        board.worn[1 - keeper.record][byte] = 4;
        uint64_t answer;
        int64_t one = 1;
        uint32_t saves = keeper.saves;
        bool is_kept = flash_deliver(&keeper, &one, 1, BUDGET, &answer);
        int64_t sum = sums[DELIVERIES] + is_kept;
        refused += !is_kept;
        expect(engine_element_of(&lent, engine_totals(&lent), 0).word == sum, "the totals, as they were if not kept");
        expect(keeper.saves == saves + is_kept, "the number of the save");
        expect(is_kept || board.flash[1 - keeper.record][2 * FLASH_UNIT] == 255, "no mark on what was read back wrong");
        expect(power_up(&found) && found == FLASH_STORE, "a start");
        expect(engine_element_of(&lent, engine_totals(&lent), 0).word == sum, "the same totals after it");
    }
    expect(refused > BOARD_BYTES / 2, "worn flash was noticed");
    begin();
    expect(play(), "a day");
    memset(board.worn[1 - keeper.record] + 2 * FLASH_UNIT, 255, FLASH_UNIT);
    uint64_t answer;
    expect(!flash_deliver(&keeper, &readings[0], 1, BUDGET, &answer) && delivered() == DELIVERIES, "a mark all worn");
}

/* Each bit of a record flipped: the totals are those of the other record, or, by a bit of the mark, as they were. */
static void test_decay(void)
{
    enum flash_found found;
    begin();
    expect(play(), "a day");
    const uint32_t saves = keeper.saves;
    const unsigned newest = keeper.record;
    for (unsigned record = 0; record < FLASH_RECORDS; record++)
        for (size_t bit = 0; bit < 8 * BOARD_BYTES; bit++) {
            uint8_t *byte = &board.flash[record][bit / 8];
            *byte ^= (uint8_t)(1 << bit % 8);
            bool is_mark = bit / 8 / FLASH_UNIT == 2;
            bool is_older = record == newest && !is_mark;
            expect(power_up(&found) && found == FLASH_STORE, "a start with a bit flipped");
            expect(delivered() == DELIVERIES - is_older && keeper.saves == saves - is_older, "the whole record");
            *byte ^= (uint8_t)(1 << bit % 8);
        }
}

/* A script that reads the totals at another position: the board does not go on by itself, and can take the store
 * over. */
static void test_new_script(void)
{
    enum flash_found found;
    file[4 + NODES + 8 * 10]++;
    expect(!power_up(&found) && found == FLASH_OTHER_SCRIPT, "another script");
    expect(engine_check_lent(&lent) == (uint64_t)1 << 48 && delivered() == DELIVERIES, "its totals can be taken over");
    expect(flash_save(&keeper) && power_up(&found) && found == FLASH_STORE, "and were");
    expect(delivered() == DELIVERIES, "as they are");
    file[4 + NODES + 8 * 10]--;
    expect(!power_up(&found) && found == FLASH_OTHER_SCRIPT, "the script before is now another one");
}

/* What is there and cannot be taken is left as it is. */
static void test_others(void)
{
    enum flash_found found;
    begin();
    expect(power_up(&found) && found == FLASH_EMPTY && delivered() == 0, "blank flash is opened");
    expect(play(), "a day");
    test_new_script();
    static int64_t more_slots[ENGINE_SLOTS_LENGTH(BOARD_CELLS - 1)];
    static uint32_t more_heads[ENGINE_HEADS_LENGTH(BOARD_CELLS - 1)];
    struct engine_lent other = ENGINE_LENT(file, sizeof file, kinds, operands, more_slots, more_heads);
    expect(flash_load(&keeper, &other) == FLASH_OTHER_CELLS && more_heads[0] == 0, "another number of cells");
    for (unsigned record = 0; record < FLASH_RECORDS; record++)
        board.flash[record][BOARD_BYTES - 1] ^= 1;
    expect(!power_up(&found) && found == FLASH_DAMAGED, "both records damaged");
    expect(keeper.saves == 0 && heads[0] == 0x5a5a5a5a, "and nothing was read");
}

int main(void)
{
    write_script();
    unsigned cuts = test_cuts(), second_cuts = test_second_cuts();
    expect(cuts > 3 * 5 * BOARD_BYTES, "power was cut at every byte");
    test_worn();
    test_decay();
    test_others();
    expect(board.written_twice == 0, "no unit was written that was not erased");
    printf("store in flash: %u cuts, %u of them after another; %u passed, %u failed\n", cuts + second_cuts, second_cuts,
           passed, failed);
    return failed == 0 ? 0 : 1;
}
