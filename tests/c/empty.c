/* Slices of 0 bytes, given as NULL: each call, with every choice of its slices empty. */
#include "given.h"
#include <string.h>

/* A slice as a call is given it. */
typedef struct {
    uint8_t *bytes;
    size_t len;
} Slice;

/* A slice that a call takes where it is not empty, and the number of the refusal where it is and no earlier slice is
   refused: SEARCHROOM_ACCEPTED where the call needs no byte of it. */
typedef struct {
    const uint8_t *bytes;
    size_t len;
    unsigned number;
} Taken;

enum { MOST = 6 /* slices of a call */ };

static uint64_t check_catalogue(const Slice *given) { return searchroom_check_catalogue(given[0].bytes, given[0].len); }

static uint64_t check_question(const Slice *given)
{
    return searchroom_check_question(given[0].bytes, given[0].len, given[1].bytes, given[1].len);
}

static uint64_t outcome(const Slice *given)
{
    return searchroom_outcome(given[0].bytes, given[0].len, given[1].bytes, given[1].len, 0, 0);
}

static uint64_t run(const Slice *given)
{
    return searchroom_run(given[0].bytes, given[0].len, given[1].bytes, given[1].len, given[2].bytes, given[2].len, 0,
                          given[3].bytes, given[3].len, given[4].bytes, given[4].len, given[5].bytes, given[5].len);
}

static uint64_t copy(const Slice *given)
{
    return searchroom_copy(given[0].bytes, given[0].len, given[1].bytes, given[1].len, given[2].bytes, given[2].len,
                           given[3].bytes, given[3].len);
}

static uint64_t typed(const Slice *given)
{
    return searchroom_typed(given[0].bytes, given[0].len, given[1].bytes, given[1].len, given[2].bytes, given[2].len);
}

/* With no slice empty the call is accepted. With one or more empty the first that is refused decides the number, every
   result is zero, and no lent byte is altered. */
static void expect_empty_taken(uint64_t (*call)(const Slice *given), const Taken *taken, unsigned count)
{
    for (unsigned empty = 0; empty < 1u << count; empty++) {
        Slice given[MOST];
        unsigned number = SEARCHROOM_ACCEPTED;
        for (unsigned at = count; at-- > 0;) {
            int is_empty = empty >> at & 1;
            given[at].bytes = is_empty ? NULL : lend(taken[at].bytes, taken[at].len);
            given[at].len = is_empty ? 0 : taken[at].len;
            if (is_empty && taken[at].number != SEARCHROOM_ACCEPTED)
                number = taken[at].number;
        }
        uint64_t word = call(given);
        EXPECT_EQ(empty == 0 ? searchroom_refusal(word) : word, number);
        for (unsigned at = 0; at < count; at++)
            if (given[at].bytes != NULL) {
                EXPECT(empty == 0 || memcmp(given[at].bytes, taken[at].bytes, taken[at].len) == 0);
                give_back(given[at].bytes, given[at].len);
            }
    }
}

/* The slices of a run, and what empty tables are answered. */
static void expect_empty_taken_by_run(const Given *asked, unsigned empty_table)
{
    Tables tables = filled(FILL);
    const Taken taken[] = {
        {asked->catalogue, asked->catalogue_len, SEARCHROOM_CATALOGUE_FIELD},
        {asked->question, asked->question_len, SEARCHROOM_QUESTION_FIELD},
        {asked->order, asked->order_len, SEARCHROOM_BAD_ORDER},
        {tables.listed, asked->listed_len, empty_table},
        {tables.looks, asked->looks_len, empty_table},
        {tables.tally, asked->tally_len, SEARCHROOM_BAD_TALLY},
    };
    expect_empty_taken(run, taken, 6);
}

/* The slices of a copy of the same run into so many bytes, and what an empty output is answered. */
static void expect_empty_taken_by_copy(const Given *asked, size_t output_len, unsigned empty_output)
{
    Tables tables = filled(FILL);
    const Taken taken[] = {
        {asked->catalogue, asked->catalogue_len, SEARCHROOM_CATALOGUE_FIELD},
        {asked->question, asked->question_len, SEARCHROOM_QUESTION_FIELD},
        {asked->order, asked->order_len, SEARCHROOM_BAD_ORDER},
        {tables.looks, output_len, empty_output},
    };
    expect_empty_taken(copy, taken, 4);
}

static void empty_to_be_checked(void)
{
    Given parish = parish_run(0);
    const Taken taken[] = {
        {parish.catalogue, parish.catalogue_len, SEARCHROOM_CATALOGUE_FIELD},
        {parish.question, parish.question_len, SEARCHROOM_QUESTION_FIELD},
    };
    expect_empty_taken(check_catalogue, taken, 1);
    expect_empty_taken(check_question, taken, 2);
    expect_empty_taken(outcome, taken, 2);
}

static void empty_to_run_and_copy(void)
{
    Given parish = parish_run(0);
    expect_empty_taken_by_run(&parish, SEARCHROOM_SHORT_TABLE);
    expect_empty_taken_by_copy(&parish, 6 * SEARCHROOM_COPY_FIELD_BYTES, SEARCHROOM_SHORT_OUTPUT);
}

static void empty_to_be_typed(void)
{
    static const char text[] = PARISH_TEXT;
    Given parish = parish_run(0);
    Tables tables = filled(FILL);
    const Taken taken[] = {
        {parish.catalogue, parish.catalogue_len, SEARCHROOM_CATALOGUE_FIELD},
        {(const uint8_t *)text, strlen(text), SEARCHROOM_MISSPELLED},
        {tables.looks, parish.question_len, SEARCHROOM_SHORT_TYPED_OUTPUT},
    };
    expect_empty_taken(typed, taken, 3);
}

/* Where there are no entries, empty tables and an empty output are long enough. Where there are entries and all are
   withdrawn, an empty output is: there are no looks. */
static void empty_and_long_enough(void)
{
    static const uint8_t nobody[] = {67, 0, 3, 0, 0, 1, 78, 0, 0}, blank[] = {80, 0, 2, 0, 1}, order[] = {0};
    static const uint8_t withdrawn[] = {67, 0, 3, 0, 1, 1, 78, 0, 4, 0, 0, 6, 0xA5, 87, 0, 1, 1};
    Given asked = {nobody, sizeof nobody, blank, sizeof blank, order, sizeof order, 0, 1, 1, TALLY};
    expect_empty_taken_by_run(&asked, SEARCHROOM_ACCEPTED);
    expect_empty_taken_by_copy(&asked, 1, SEARCHROOM_ACCEPTED);
    asked.catalogue = withdrawn;
    asked.catalogue_len = sizeof withdrawn;
    expect_empty_taken_by_run(&asked, SEARCHROOM_SHORT_TABLE);
    expect_empty_taken_by_copy(&asked, 1, SEARCHROOM_ACCEPTED);
}

void empty_cases(void)
{
    read_parish();
    CASE(empty_to_be_checked);
    CASE(empty_to_run_and_copy);
    CASE(empty_to_be_typed);
    CASE(empty_and_long_enough);
    free_parish();
}
