/* searchroom_copy. How the fields of one entry follow each other is left open, so no case looks at their sequence. */
#include "../../include/searchroom.h"
#include "case.h"
#include <stdlib.h>
#include <string.h>

enum { FIELD = SEARCHROOM_COPY_FIELD_BYTES, PARISH = 6 * FIELD };

static uint8_t *catalogue, *question;
static size_t catalogue_len, question_len;
static const uint8_t forward[] = {0, 1, 2}, backward[] = {2, 1, 0}, repeated[] = {0, 0, 2};

/* The output afterwards. */
static uint8_t output[SEARCHROOM_COPY_BYTES];

/* The copy of a question into so many bytes against an unreadable page, which are filled with one byte. */
static uint64_t copy_asked(const uint8_t *asked, size_t asked_len, const uint8_t *order, size_t order_len, size_t output_len)
{
    memset(output, FILL, sizeof output);
    uint8_t *lent = lend(output, output_len);
    uint64_t word = searchroom_copy(catalogue, catalogue_len, asked, asked_len, order, order_len, lent, output_len);
    memcpy(output, lent, output_len);
    give_back(lent, output_len);
    return word;
}

/* That of the parish's question. */
static uint64_t copy(const uint8_t *order, size_t order_len, size_t output_len)
{
    return copy_asked(question, question_len, order, order_len, output_len);
}

static int unaltered_from(size_t at) { return are_all(FILL, output + at, sizeof output - at); }

static void expect_refused(const uint8_t *order, size_t order_len, size_t output_len, unsigned number)
{
    EXPECT_EQ(copy(order, order_len, output_len), number);
    EXPECT(unaltered_from(0));
}

static void expect_accepted(uint64_t word, size_t written)
{
    EXPECT_EQ(searchroom_refusal(word), SEARCHROOM_ACCEPTED);
    EXPECT_EQ(searchroom_first(word), 0);
    EXPECT_EQ(searchroom_second(word), 0);
    EXPECT_EQ(searchroom_written(word), written);
    EXPECT(unaltered_from(written));
}

/* Are these the two fields of a pair, in either sequence? */
static int are_pair(const uint8_t *fields, const uint8_t *pair)
{
    return memcmp(fields, pair, 2 * FIELD) == 0 ||
           (memcmp(fields, pair + FIELD, FIELD) == 0 && memcmp(fields + FIELD, pair, FIELD) == 0);
}

void expect_parish_fields(uint8_t entries, const uint8_t *fields)
{
    static const uint8_t pairs[][2 * FIELD] = {
        {76, 0, 4, 0, 0, 0, 1, 76, 0, 4, 0, 0, 1, 1}, /* 1701 is in the century, "Ash" begins with "ash" */
        {76, 0, 4, 0, 1, 0, 0, 76, 0, 4, 0, 1, 2, 0}, /* 1822 is not, and is no blank */
        {76, 0, 4, 0, 2, 0, 2, 76, 0, 4, 0, 2, 2, 1}, /* the blank: neither in the century nor outside it */
    };
    for (unsigned entry = 0; entry < 3; entry++)
        if (searchroom_bit(&entries, entry)) {
            EXPECT(are_pair(fields, pairs[entry]));
            fields += 2 * FIELD;
        }
}

static void parish_copied(void)
{
    static const size_t lengths[] = {PARISH, PARISH + 1, PARISH + FIELD, SEARCHROOM_COPY_BYTES};
    for (size_t i = 0; i < sizeof lengths / sizeof *lengths; i++) {
        expect_accepted(copy(forward, sizeof forward, lengths[i]), PARISH);
        expect_parish_fields(7, output);
    }
}

/* The fields tell the looks table of a run, and what searchroom_outcome answers. */
static void expect_as_run(const uint8_t order[3])
{
    uint8_t listed[1], looks[3], tally[SEARCHROOM_TALLY_BYTES] = {0};
    uint64_t ran = searchroom_run(catalogue, catalogue_len, question, question_len, order, 3, 0, listed, sizeof listed, looks,
                                  sizeof looks, tally, sizeof tally);
    uint64_t word = copy(order, 3, SEARCHROOM_COPY_BYTES);
    expect_accepted(word, FIELD * (size_t)searchroom_look_count(ran));
    uint8_t told[3] = {0};
    unsigned before = 0;
    for (size_t at = 0; at < searchroom_written(word); at += FIELD) {
        unsigned entry = searchroom_copied_entry(output + at), condition = searchroom_copied_condition(output + at);
        EXPECT(before <= entry && entry < 3 && condition < 3);
        EXPECT_EQ(searchroom_copied_outcome(output + at),
                  searchroom_answer(searchroom_outcome(catalogue, catalogue_len, question, question_len, entry, condition)));
        told[condition % 3] |= (uint8_t)(1 << entry % 8);
        before = entry;
    }
    EXPECT(memcmp(told, looks, sizeof looks) == 0);
}

static void copy_tells_the_run(void)
{
    expect_as_run(forward);
    expect_as_run(backward);
}

/* Kind 129, year not blank: the outcome told is that of the opposite. */
static void opposite_tells_its_own_outcome(void)
{
    static const uint8_t not_blank[] = {80, 0, 2, 0, 129}, order[] = {0};
    static const uint8_t fields[] = {76, 0, 4, 0, 0, 0, 1, 76, 0, 4, 0, 1, 0, 1, 76, 0, 4, 0, 2, 0, 0};
    expect_accepted(copy_asked(not_blank, sizeof not_blank, order, sizeof order, sizeof fields), sizeof fields);
    EXPECT(memcmp(output, fields, sizeof fields) == 0);
}

/* Any of, and then all of: year from 1700 to 1799, year not so. At the blank both answer blank; all-of is settled by one. */
static void condition_and_its_opposite_at_a_blank(void)
{
    uint8_t asked[] = {79, 0, 26,
                       80, 0, 10, 0, 0, 0, 0, 6, 0xA4, 0, 0, 7, 7,
                       80, 0, 10, 0, 128, 0, 0, 6, 0xA4, 0, 0, 7, 7};
    static const uint8_t order[] = {0, 1};
    static const uint8_t blanks[2 * FIELD] = {76, 0, 4, 0, 2, 0, SEARCHROOM_BLANK, 76, 0, 4, 0, 2, 1, SEARCHROOM_BLANK};
    expect_accepted(copy_asked(asked, sizeof asked, order, sizeof order, 5 * FIELD), 5 * FIELD);
    EXPECT(are_pair(output + 3 * FIELD, blanks));
    asked[0] = 65;
    expect_accepted(copy_asked(asked, sizeof asked, order, sizeof order, 4 * FIELD), 4 * FIELD);
    EXPECT(memcmp(output + 3 * FIELD, blanks, FIELD) == 0);
}

static void field_is_taken_apart(void)
{
    static const uint8_t field[FIELD] = {76, 0, 4, 0x07, 0xFE, 63, 2};
    EXPECT_EQ(searchroom_copied_entry(field), 2046);
    EXPECT_EQ(searchroom_copied_condition(field), 63);
    EXPECT_EQ(searchroom_copied_outcome(field), SEARCHROOM_BLANK);
}

static void copies_refused_alter_nothing(void)
{
    for (size_t len = 0; len < PARISH; len++)
        expect_refused(forward, sizeof forward, len, SEARCHROOM_SHORT_OUTPUT);
    expect_refused(backward, sizeof backward, PARISH, SEARCHROOM_SHORT_OUTPUT);
    expect_refused(forward, 2, PARISH, SEARCHROOM_BAD_ORDER);
    expect_refused(repeated, sizeof repeated, PARISH, SEARCHROOM_BAD_ORDER);
    expect_refused(repeated, sizeof repeated, 0, SEARCHROOM_BAD_ORDER);
    question_len--;
    expect_refused(repeated, sizeof repeated, 0, SEARCHROOM_QUESTION_FIELD);
    question_len++;
    catalogue_len--;
    expect_refused(repeated, sizeof repeated, 0, SEARCHROOM_CATALOGUE_FIELD);
    catalogue_len++;
}

static void no_entries_no_fields(void)
{
    static const uint8_t nobody[] = {67, 0, 3, 0, 0, 1, 78, 0, 0}, blank[] = {80, 0, 2, 0, 1}, order[] = {0};
    for (size_t len = 0; len <= 2; len++) {
        memset(output, FILL, sizeof output);
        uint8_t *lent = lend(output, len);
        EXPECT_EQ(searchroom_copy(nobody, sizeof nobody, blank, sizeof blank, order, sizeof order, lent, len), 0);
        EXPECT(memcmp(lent, output, len) == 0);
        give_back(lent, len);
    }
}

void copy_cases(void)
{
    catalogue = read_file("examples/parish/catalogue.bin", &catalogue_len);
    question = read_file("examples/parish/question.bin", &question_len);
    CASE(parish_copied);
    CASE(copy_tells_the_run);
    CASE(opposite_tells_its_own_outcome);
    CASE(condition_and_its_opposite_at_a_blank);
    CASE(field_is_taken_apart);
    CASE(copies_refused_alter_nothing);
    CASE(no_entries_no_fields);
    free(catalogue);
    free(question);
}
