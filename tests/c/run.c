/* searchroom_run. */
#include "given.h"
#include <string.h>

/* The run is refused with this number, whatever its tables hold, and alters nothing. */
static void expect_refused(Given given, unsigned number)
{
    Tables tables = filled(9);
    expect_run_refused(&given, &tables, number);
}

static void parish_in_order(void)
{
    Given given = parish_run(0);
    Tables tables = filled(0);
    uint64_t word = run_given(&given, &tables);
    EXPECT_EQ(searchroom_refusal(word), SEARCHROOM_ACCEPTED);
    EXPECT_EQ(searchroom_found(word), 2);
    EXPECT_EQ(searchroom_second(word), 0);
    EXPECT_EQ(searchroom_look_count(word), 6);
    EXPECT_EQ(tables.listed[0], 5);
    EXPECT(memcmp(tables.looks, (const uint8_t[]){7, 1, 6}, 3) == 0);
    EXPECT(are_all(0, tables.tally, 7) && tables.tally[7] == 6 && are_all(0, tables.tally + 8, TALLY - 8));
    EXPECT_EQ(searchroom_row_bytes(3), 1);
    EXPECT_EQ(searchroom_row_bytes(9), 2);
    EXPECT_EQ(searchroom_bit(tables.listed, 1), 0);
    EXPECT_EQ(searchroom_bit(tables.listed, 2), 1);
}

static void parish_in_reverse(void)
{
    Given given = parish_run(0);
    Tables tables = filled(0);
    given.order = backward;
    uint64_t word = run_given(&given, &tables);
    EXPECT_EQ(searchroom_found(word), 2);
    EXPECT_EQ(searchroom_look_count(word), 7);
    EXPECT_EQ(tables.listed[0], 5);
}

/* Year not from 1700 to 1799: of 1701, 1822 and a blank the second alone is listed, and each is looked at. */
static void undated_is_not_outside_the_century(void)
{
    static const uint8_t outside[] = {80, 0, 10, 0, 128, 0, 0, 6, 0xA4, 0, 0, 7, 7}, order[] = {0};
    Given parish = parish_run(0);
    Given given = {parish.catalogue, parish.catalogue_len, outside, sizeof outside, order, sizeof order, 0, 1, 1, TALLY};
    Tables tables = filled(0);
    uint64_t word = run_given(&given, &tables);
    EXPECT_EQ(searchroom_refusal(word), SEARCHROOM_ACCEPTED);
    EXPECT_EQ(searchroom_found(word), 1);
    EXPECT_EQ(searchroom_look_count(word), 3);
    EXPECT_EQ(tables.listed[0], 2);
    EXPECT_EQ(tables.looks[0], 7);
}

/* Four names find each other, whichever is sought and by each kind, and not the fifth. */
static void found_with_or_without_the_accent(void)
{
    enum { NAMES = 5, LEN = 5, SLOT = 24 };
    static const char *const names[NAMES] = {"Andre", "ANDRE", "Andr\xE9", "ANDR\xC9", "Andr\xF8"};
    static const uint8_t order[] = {0};
    uint8_t made[9 + NAMES * SLOT] = {67, 0, 3, 0, NAMES, 1, 84, 0, NAMES * SLOT};
    for (unsigned entry = 0; entry < NAMES; entry++) {
        made[9 + SLOT * entry] = LEN;
        memcpy(made + 10 + SLOT * entry, names[entry], LEN);
    }
    for (unsigned sought = 0; sought < 4; sought++) {
        for (uint8_t kind = 2; kind <= 4; kind++) {
            uint8_t asked[5 + LEN] = {80, 0, 2 + LEN, 0, kind};
            memcpy(asked + 5, names[sought], LEN);
            Given given = {made, sizeof made, asked, sizeof asked, order, sizeof order, 0, 1, 1, TALLY};
            Tables tables = filled(0);
            uint64_t word = run_given(&given, &tables);
            EXPECT_EQ(searchroom_refusal(word), SEARCHROOM_ACCEPTED);
            EXPECT_EQ(searchroom_found(word), 4);
            EXPECT_EQ(tables.listed[0], 15);
            for (unsigned entry = 0; entry < NAMES; entry++) {
                word = searchroom_outcome(made, sizeof made, asked, sizeof asked, entry, 0);
                EXPECT_EQ(searchroom_answer(word), entry < 4 ? SEARCHROOM_YES : SEARCHROOM_NO);
            }
        }
    }
}

static void longer_tables_keep_their_further_bytes(void)
{
    Given given = parish_run(0);
    Tables tables = filled(FILL);
    given.listed_len = 40;
    given.looks_len = 90;
    uint64_t word = run_given(&given, &tables);
    EXPECT_EQ(searchroom_found(word), 2);
    EXPECT_EQ(tables.listed[0], 5);
    EXPECT(memcmp(tables.looks, (const uint8_t[]){7, 1, 6}, 3) == 0);
    EXPECT(are_all(FILL, tables.listed + 1, 39) && are_all(FILL, tables.looks + 3, 87));
}

static void orders_that_are_none(void)
{
    static const uint8_t repeated[] = {0, 0, 2};
    Given given = parish_run(0);
    given.order_len--;
    expect_refused(given, SEARCHROOM_BAD_ORDER);
    given = parish_run(0);
    given.order = repeated;
    expect_refused(given, SEARCHROOM_BAD_ORDER);
}

static void tables_that_are_too_short(void)
{
    Given given = parish_run(0);
    given.listed_len--;
    expect_refused(given, SEARCHROOM_SHORT_TABLE);
    given = parish_run(0);
    given.looks_len--;
    expect_refused(given, SEARCHROOM_SHORT_TABLE);
}

static void earlier_of_two_refusals_decides(void)
{
    Given worse = parish_run(15);
    worse.tally_len--;
    expect_refused(worse, SEARCHROOM_BAD_TALLY);
    worse.reader = 16;
    expect_refused(worse, SEARCHROOM_NO_SUCH_READER);
    worse.looks_len--;
    expect_refused(worse, SEARCHROOM_SHORT_TABLE);
    worse.order_len--;
    expect_refused(worse, SEARCHROOM_BAD_ORDER);
    worse.question_len--;
    expect_refused(worse, SEARCHROOM_QUESTION_FIELD);
    worse.catalogue_len--;
    expect_refused(worse, SEARCHROOM_CATALOGUE_FIELD);
}

void run_cases(void)
{
    read_parish();
    CASE(parish_in_order);
    CASE(parish_in_reverse);
    CASE(undated_is_not_outside_the_century);
    CASE(found_with_or_without_the_accent);
    CASE(longer_tables_keep_their_further_bytes);
    CASE(orders_that_are_none);
    CASE(tables_that_are_too_short);
    CASE(earlier_of_two_refusals_decides);
    free_parish();
}
