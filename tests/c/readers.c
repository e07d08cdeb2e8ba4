/* The reader of a run, and that reader's number in the tally. */
#include "given.h"
#include <string.h>

enum { READERS = SEARCHROOM_READERS, LOOKS = 6 /* of the parish's run */ };

/* The parish's run of the reader is refused with this number and alters nothing. */
static void expect_refused(uint64_t reader, Tables *tables, unsigned number)
{
    Given given = parish_run(reader);
    expect_run_refused(&given, tables, number);
}

/* The parish's run of the reader is accepted and lists what it lists for every reader. */
static void expect_accepted(uint64_t reader, Tables *tables)
{
    Given given = parish_run(reader);
    memset(tables->listed, FILL, sizeof tables->listed);
    memset(tables->looks, FILL, sizeof tables->looks);
    uint64_t word = run_given(&given, tables);
    EXPECT_EQ(searchroom_refusal(word), SEARCHROOM_ACCEPTED);
    EXPECT_EQ(searchroom_found(word), 2);
    EXPECT_EQ(searchroom_look_count(word), LOOKS);
    EXPECT(tables->listed[0] == 5 && memcmp(tables->looks, (const uint8_t[]){7, 1, 6}, 3) == 0);
}

static void expect_numbers(const uint64_t *numbers, const uint8_t *tally)
{
    for (unsigned reader = 0; reader < READERS; reader++)
        EXPECT_EQ(searchroom_tally_of(tally, reader), numbers[reader]);
}

static void put_number(uint8_t *tally, unsigned reader, uint64_t number)
{
    for (unsigned byte = 8; byte-- > 0; number >>= 8)
        tally[8 * reader + byte] = (uint8_t)number;
}

static void number_of_each_reader(void)
{
    uint8_t tally[TALLY];
    EXPECT_EQ(TALLY, 8 * READERS);
    for (unsigned byte = 0; byte < TALLY; byte++)
        tally[byte] = (uint8_t)(0x80 + byte);
    EXPECT_EQ(searchroom_tally_of(tally, 0), UINT64_C(0x8081828384858687));
    EXPECT_EQ(searchroom_tally_of(tally, 1), UINT64_C(0x88898A8B8C8D8E8F));
    EXPECT_EQ(searchroom_tally_of(tally, 15), UINT64_C(0xF8F9FAFBFCFDFEFF));
}

static void each_reader_alone(void)
{
    for (unsigned reader = 0; reader < READERS; reader++) {
        Tables tables = filled(FILL);
        expect_accepted(reader, &tables);
        unsigned last = 8 * reader + 7;
        EXPECT_EQ(tables.tally[last], FILL + LOOKS);
        EXPECT(are_all(FILL, tables.tally, last));
        EXPECT(are_all(FILL, tables.tally + last + 1, sizeof tables.tally - last - 1));
    }
}

static void readers_that_there_are_not(void)
{
    static const uint64_t readers[] = {16, 17, 256, UINT64_C(1) << 32, (UINT64_C(1) << 32) + 3, UINT64_C(1) << 61, UINT64_MAX};
    Tables tables = filled(FILL);
    for (size_t at = 0; at < sizeof readers / sizeof *readers; at++)
        expect_refused(readers[at], &tables, SEARCHROOM_NO_SUCH_READER);
}

/* A number can grow to 2^64 - 1, and not by one look more; the numbers beside it still grow then. */
static void number_is_filled_and_not_passed(void)
{
    for (unsigned reader = 0; reader < READERS; reader++) {
        unsigned before = (reader + READERS - 1) % READERS, after = (reader + 1) % READERS;
        Tables tables = filled(0);
        put_number(tables.tally, reader, UINT64_MAX - LOOKS + 1);
        expect_refused(reader, &tables, SEARCHROOM_BAD_TALLY);
        put_number(tables.tally, reader, UINT64_MAX - LOOKS);
        expect_accepted(reader, &tables);
        expect_refused(reader, &tables, SEARCHROOM_BAD_TALLY);
        expect_accepted(before, &tables);
        expect_accepted(after, &tables);
        uint64_t due[READERS] = {0};
        due[reader] = UINT64_MAX;
        due[before] = due[after] = LOOKS;
        expect_numbers(due, tables.tally);
    }
}

/* Where there are no entries there are no looks, and a full number need not grow. */
static void full_number_and_no_looks(void)
{
    static const uint8_t nobody[] = {67, 0, 3, 0, 0, 1, 78, 0, 0}, blank[] = {80, 0, 2, 0, 1}, order[] = {0};
    Given given = {nobody, sizeof nobody, blank, sizeof blank, order, sizeof order, 5, 0, 0, TALLY};
    uint64_t numbers[READERS] = {0};
    Tables tables = filled(0);
    numbers[5] = UINT64_MAX;
    put_number(tables.tally, 5, UINT64_MAX);
    EXPECT_EQ(run_given(&given, &tables), SEARCHROOM_ACCEPTED);
    expect_numbers(numbers, tables.tally);
}

static void tallies_of_other_lengths(void)
{
    static const size_t lengths[] = {0, 8, 120, 127, 129, 136, 256};
    Tables tables = filled(0);
    for (size_t at = 0; at < sizeof lengths / sizeof *lengths; at++) {
        Given first = parish_run(0), last = parish_run(15);
        first.tally_len = last.tally_len = lengths[at];
        expect_run_refused(&first, &tables, SEARCHROOM_BAD_TALLY);
        expect_run_refused(&last, &tables, SEARCHROOM_BAD_TALLY);
    }
}

/* From zeros, each run lent the tally as the last left it. In the other order the run has a look more. */
static void sums_over_a_sequence_of_runs(void)
{
    Tables tables = filled(0);
    uint64_t sums[READERS] = {0};
    for (unsigned turn = 0; turn < 1000; turn++) {
        Given given = parish_run(turn * 7 % 18); /* 16 and 17 among them */
        unsigned more = turn % 5 == 0;
        given.order = more ? backward : forward;
        uint64_t word = run_given(&given, &tables);
        EXPECT_EQ(searchroom_refusal(word), given.reader < READERS ? SEARCHROOM_ACCEPTED : SEARCHROOM_NO_SUCH_READER);
        if (given.reader < READERS)
            sums[given.reader] += LOOKS + more;
        expect_numbers(sums, tables.tally);
    }
}

void readers_cases(void)
{
    read_parish();
    CASE(number_of_each_reader);
    CASE(each_reader_alone);
    CASE(readers_that_there_are_not);
    CASE(number_is_filled_and_not_passed);
    CASE(full_number_and_no_looks);
    CASE(tallies_of_other_lengths);
    CASE(sums_over_a_sequence_of_runs);
    free_parish();
}
