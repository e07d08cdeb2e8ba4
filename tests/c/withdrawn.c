/* The mark at the end of a catalogue, and what each call does about a withdrawn entry. */
#include "../../include/searchroom.h"
#include "case.h"
#include <stdlib.h>
#include <string.h>

enum { FIELD = SEARCHROOM_COPY_FIELD_BYTES, UNMARKED = 96, MOST = UNMARKED + 8 /* two marks */ };

/* The parish's catalogue with what is put after its columns, hard against an unreadable page; and its question. */
static uint8_t *catalogue, *question;
static size_t catalogue_len, question_len;
static const uint8_t order[] = {0, 1, 2};
static const char text[] = PARISH_TEXT;

/* What a run and a copy of the parish were lent, afterwards. */
typedef struct {
    uint8_t listed[1], looks[3], tally[SEARCHROOM_TALLY_BYTES], output[6 * FIELD];
} Lent;

static void put_after_columns(const uint8_t *bytes, size_t len)
{
    uint8_t whole[MOST];
    memcpy(whole, catalogue, UNMARKED);
    memcpy(whole + UNMARKED, bytes, len);
    give_back(catalogue, catalogue_len);
    catalogue_len = UNMARKED + len;
    catalogue = lend(whole, catalogue_len);
}

static void put_mark(uint8_t mark) { put_after_columns((const uint8_t[]){87, 0, 1, mark}, 4); }

static uint64_t run(Lent *lent)
{
    return searchroom_run(catalogue, catalogue_len, question, question_len, order, sizeof order, 0, lent->listed,
                          sizeof lent->listed, lent->looks, sizeof lent->looks, lent->tally, sizeof lent->tally);
}

static uint64_t copy(Lent *lent)
{
    return searchroom_copy(catalogue, catalogue_len, question, question_len, order, sizeof order, lent->output,
                           sizeof lent->output);
}

static uint64_t outcome(unsigned entry, unsigned condition)
{
    return searchroom_outcome(catalogue, catalogue_len, question, question_len, entry, condition);
}

/* Every call gives this number, and none alters what it was lent. */
static void expect_refused(const uint8_t *after_columns, size_t len, unsigned number)
{
    Lent lent;
    memset(&lent, FILL, sizeof lent);
    put_after_columns(after_columns, len);
    EXPECT_EQ(searchroom_check_catalogue(catalogue, catalogue_len), number);
    EXPECT_EQ(searchroom_check_question(catalogue, catalogue_len, question, question_len), number);
    EXPECT_EQ(outcome(0, 0), number);
    EXPECT_EQ(run(&lent), number);
    EXPECT_EQ(copy(&lent), number);
    EXPECT_EQ(searchroom_typed(catalogue, catalogue_len, (const uint8_t *)text, strlen(text), lent.output,
                               sizeof lent.output), number);
    EXPECT(are_all(FILL, (const uint8_t *)&lent, sizeof lent));
}

#define EXPECT_REFUSED(number, ...)                                     \
    do {                                                                \
        static const uint8_t after_columns[] = {__VA_ARGS__};           \
        expect_refused(after_columns, sizeof after_columns, number);    \
    } while (0)

static void each_refusal_of_the_mark(void)
{
    EXPECT_REFUSED(SEARCHROOM_CATALOGUE_FIELD, 87);
    EXPECT_REFUSED(SEARCHROOM_CATALOGUE_FIELD, 87, 0);
    EXPECT_REFUSED(SEARCHROOM_CATALOGUE_FIELD, 87, 0, 1);
    EXPECT_REFUSED(SEARCHROOM_CATALOGUE_FIELD, 87, 0, 2, 8);
    EXPECT_REFUSED(SEARCHROOM_BAD_MARK, 87, 0, 0);
    EXPECT_REFUSED(SEARCHROOM_BAD_MARK, 87, 0, 2, 0, 0);
    EXPECT_REFUSED(SEARCHROOM_BAD_MARK, 87, 0, 1, 0x08);
    EXPECT_REFUSED(SEARCHROOM_BAD_MARK, 87, 0, 1, 0x81);
    EXPECT_REFUSED(SEARCHROOM_BAD_MARK, 87, 0, 1, 0x08, 0);
    EXPECT_REFUSED(SEARCHROOM_CATALOGUE_LEFT_OVER, 86);
    EXPECT_REFUSED(SEARCHROOM_CATALOGUE_LEFT_OVER, 88, 0, 1, 0);
    EXPECT_REFUSED(SEARCHROOM_CATALOGUE_LEFT_OVER, 87, 0, 1, 0, 0);
    EXPECT_REFUSED(SEARCHROOM_CATALOGUE_LEFT_OVER, 87, 0, 1, 1, 87, 0, 1, 1);
}

/* The bits of the entries still in the house are those that they have without a mark, worked by hand: entries 0 and 2 are
   listed, condition 0 is looked at everywhere, condition 1 at entry 0, condition 2 at the others. */
static void each_mark_of_the_parish(void)
{
    for (uint8_t mark = 0; mark < 8; mark++) {
        Lent lent = {{0}, {0}, {0}, {0}};
        memset(lent.output, FILL, sizeof lent.output);
        uint8_t house = (uint8_t)(7 & ~mark);
        unsigned present = searchroom_bit(&house, 0) + searchroom_bit(&house, 1) + searchroom_bit(&house, 2);
        put_mark(mark);
        EXPECT_EQ(searchroom_entries(searchroom_check_catalogue(catalogue, catalogue_len)), 3);
        uint64_t word = run(&lent);
        EXPECT_EQ(searchroom_refusal(word), SEARCHROOM_ACCEPTED);
        EXPECT_EQ(searchroom_found(word), searchroom_bit(&house, 0) + searchroom_bit(&house, 2));
        EXPECT_EQ(searchroom_look_count(word), 2 * present);
        EXPECT_EQ(lent.listed[0], 5 & house);
        EXPECT(lent.looks[0] == (7 & house) && lent.looks[1] == (1 & house) && lent.looks[2] == (6 & house));
        EXPECT_EQ(searchroom_tally_of(lent.tally, 0), 2 * present);
        EXPECT(are_all(0, lent.tally + 8, sizeof lent.tally - 8));
        word = copy(&lent);
        size_t written = 2 * present * FIELD;
        EXPECT_EQ(searchroom_refusal(word), SEARCHROOM_ACCEPTED);
        EXPECT_EQ(searchroom_written(word), written);
        expect_parish_fields(house, lent.output);
        EXPECT(are_all(FILL, lent.output + written, sizeof lent.output - written));
    }
}

/* Outcomes, the check of a question and a typed question are as without the mark. */
static void other_calls_go_on_as_before(void)
{
    uint8_t output[SEARCHROOM_TYPED_BYTES];
    put_mark(7);
    EXPECT_EQ(searchroom_answer(outcome(0, 0)), SEARCHROOM_YES);
    EXPECT_EQ(searchroom_answer(outcome(1, 0)), SEARCHROOM_NO);
    EXPECT_EQ(searchroom_refusal(outcome(1, 0)), SEARCHROOM_ACCEPTED);
    EXPECT_EQ(searchroom_answer(outcome(2, 0)), SEARCHROOM_BLANK);
    EXPECT_EQ(outcome(3, 0), SEARCHROOM_NO_SUCH_PLACE);
    EXPECT_EQ(searchroom_conditions(searchroom_check_question(catalogue, catalogue_len, question, question_len)), 3);
    uint64_t word = searchroom_typed(catalogue, catalogue_len, (const uint8_t *)text, strlen(text), output, sizeof output);
    EXPECT_EQ(searchroom_written(word), question_len);
    EXPECT(memcmp(output, question, question_len) == 0);
}

static void mark_of_no_entries(void)
{
    static const uint8_t no_bytes[] = {67, 0, 3, 0, 0, 1, 78, 0, 0, 87, 0, 0};
    static const uint8_t one_byte[] = {67, 0, 3, 0, 0, 1, 78, 0, 0, 87, 0, 1, 0};
    static const uint8_t no_column[] = {67, 0, 3, 0, 0, 1, 87, 0, 0};
    uint64_t word = searchroom_check_catalogue(no_bytes, sizeof no_bytes);
    EXPECT_EQ(searchroom_refusal(word), SEARCHROOM_ACCEPTED);
    EXPECT_EQ(searchroom_columns(word), 1);
    EXPECT_EQ(searchroom_check_catalogue(one_byte, sizeof one_byte), SEARCHROOM_BAD_MARK);
    EXPECT_EQ(searchroom_check_catalogue(no_column, sizeof no_column), SEARCHROOM_COLUMN_FORM);
}

/* As many entries as there can be, and a mark as long as can be: every third entry is withdrawn. */
static void longest_mark(void)
{
    enum { entries = SEARCHROOM_MAX_ENTRIES, column = 6 + 3 + 4 * entries, size = column + 3 + SEARCHROOM_MARK_BYTES };
    static const uint8_t not_blank[] = {80, 0, 2, 0, 129}, first[] = {0};
    static uint8_t made[size], listed[SEARCHROOM_LISTED_BYTES], looks[SEARCHROOM_LISTED_BYTES];
    uint8_t tally[SEARCHROOM_TALLY_BYTES] = {0};
    memcpy(made, (const uint8_t[]){67, 0, 3, entries / 256, entries % 256, 1, 78, 4 * entries / 256, 0}, 9);
    memcpy(made + column, (const uint8_t[]){87, SEARCHROOM_MARK_BYTES / 256, SEARCHROOM_MARK_BYTES % 256}, 3);
    uint8_t *mark = made + column + 3;
    for (unsigned entry = 0; entry < entries; entry += 3)
        mark[entry / 8] |= (uint8_t)(1 << entry % 8);
    uint64_t word = searchroom_run(made, size, not_blank, sizeof not_blank, first, sizeof first, 0, listed, sizeof listed,
                                   looks, sizeof looks, tally, sizeof tally);
    EXPECT_EQ(searchroom_refusal(word), SEARCHROOM_ACCEPTED);
    EXPECT_EQ(searchroom_found(word), entries - (entries + 2) / 3);
    EXPECT_EQ(searchroom_look_count(word), searchroom_found(word));
    for (unsigned entry = 0; entry < entries; entry++)
        EXPECT(searchroom_bit(listed, entry) == (entry % 3 != 0) && searchroom_bit(looks, entry) == (entry % 3 != 0));
}

void withdrawn_cases(void)
{
    uint8_t *parish = read_file("examples/parish/catalogue.bin", &catalogue_len);
    catalogue = lend(parish, catalogue_len);
    free(parish);
    question = read_file("examples/parish/question.bin", &question_len);
    CASE(each_refusal_of_the_mark);
    CASE(each_mark_of_the_parish);
    CASE(other_calls_go_on_as_before);
    CASE(mark_of_no_entries);
    CASE(longest_mark);
    give_back(catalogue, catalogue_len);
    free(question);
}
