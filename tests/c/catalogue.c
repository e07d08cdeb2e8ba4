/* searchroom_check_catalogue. */
#include "../../include/searchroom.h"
#include "case.h"
#include <stdlib.h>
#include <string.h>

/* The check of bytes that end at an unreadable page; also sees that the bytes stay. */
static uint64_t check(const uint8_t *bytes, size_t len)
{
    uint8_t *lent = lend(bytes, len);
    uint64_t word = searchroom_check_catalogue(lent, len);
    EXPECT(len == 0 || memcmp(lent, bytes, len) == 0);
    give_back(lent, len);
    return word;
}

static void parish_is_accepted(void)
{
    size_t len;
    uint8_t *bytes = read_file("examples/parish/catalogue.bin", &len);
    uint64_t word = check(bytes, len);
    EXPECT_EQ(len, 96);
    EXPECT_EQ(searchroom_refusal(word), SEARCHROOM_ACCEPTED);
    EXPECT_EQ(searchroom_entries(word), 3);
    EXPECT_EQ(searchroom_columns(word), 2);
    EXPECT_EQ(searchroom_third(word), 0);
    free(bytes);
}

static void parish_cut_is_refused(void)
{
    size_t len;
    uint8_t *bytes = read_file("examples/parish/catalogue.bin", &len);
    for (size_t end = 0; end < len; end++)
        EXPECT_EQ(check(bytes, end), SEARCHROOM_CATALOGUE_FIELD);
    free(bytes);
}

static void each_refusal(void)
{
    static const uint8_t header[] = {66, 0, 3, 0, 1, 1};
    static const uint8_t entries[] = {67, 0, 3, 0x08, 0x01, 1};
    static const uint8_t no_column[] = {67, 0, 3, 0, 1, 0};
    static const uint8_t columns[] = {67, 0, 3, 0, 1, 17};
    static const uint8_t column[] = {67, 0, 3, 0, 1, 1, 78, 0, 3, 0, 0, 0};
    static const uint8_t slot[] = {67, 0, 3, 0, 1, 1, 84, 0, 24, 2, 'a', 'b', 0, 0, 0, 0, 0,
                                   0,  0, 0, 0, 0, 0, 0,  0, 0,  0, 0,   0,   0, 0, 0, 1};
    static const uint8_t left_over[] = {67, 0, 3, 0, 0, 1, 78, 0, 0, 0};
    EXPECT_EQ(check(header, 0), SEARCHROOM_CATALOGUE_FIELD);
    EXPECT_EQ(check(header, sizeof header), SEARCHROOM_CATALOGUE_HEADER);
    EXPECT_EQ(check(entries, sizeof entries), SEARCHROOM_CATALOGUE_LIMITS);
    EXPECT_EQ(check(no_column, sizeof no_column), SEARCHROOM_CATALOGUE_LIMITS);
    EXPECT_EQ(check(columns, sizeof columns), SEARCHROOM_CATALOGUE_LIMITS);
    EXPECT_EQ(check(column, sizeof column), SEARCHROOM_COLUMN_FORM);
    EXPECT_EQ(check(slot, sizeof slot), SEARCHROOM_TEXT_SLOT);
    EXPECT_EQ(check(left_over, sizeof left_over), SEARCHROOM_CATALOGUE_LEFT_OVER);
    EXPECT_EQ(searchroom_entries(check(left_over, sizeof left_over - 1)), 0);
    EXPECT_EQ(searchroom_columns(check(left_over, sizeof left_over - 1)), 1);
}

/* Without a mark, and with the mark that makes a catalogue the largest. */
static void most_columns_and_entries(void)
{
    enum { column = 3 + 24 * SEARCHROOM_MAX_ENTRIES, unmarked = 6 + SEARCHROOM_MAX_COLUMNS * column };
    static const size_t lengths[] = {unmarked, SEARCHROOM_CATALOGUE_BYTES};
    uint8_t *bytes = calloc(SEARCHROOM_CATALOGUE_BYTES, 1);
    if (bytes == NULL)
        abort();
    memcpy(bytes, (const uint8_t[]){67, 0, 3, 0x08, 0x00, SEARCHROOM_MAX_COLUMNS}, 6);
    for (size_t c = 0; c < SEARCHROOM_MAX_COLUMNS; c++)
        memcpy(bytes + 6 + c * column, (const uint8_t[]){84, 0xC0, 0x00}, 3);
    memcpy(bytes + unmarked, (const uint8_t[]){87, 0x01, 0x00}, 3);
    for (size_t i = 0; i < 2; i++) {
        uint64_t word = check(bytes, lengths[i]);
        EXPECT_EQ(searchroom_refusal(word), SEARCHROOM_ACCEPTED);
        EXPECT_EQ(searchroom_entries(word), SEARCHROOM_MAX_ENTRIES);
        EXPECT_EQ(searchroom_columns(word), SEARCHROOM_MAX_COLUMNS);
    }
    bytes[unmarked - 1] = 1;
    EXPECT_EQ(check(bytes, unmarked), SEARCHROOM_TEXT_SLOT);
    free(bytes);
}

static void packed_word_is_taken_apart(void)
{
    const uint64_t word = UINT64_C(0xABCDEF567890123F);
    EXPECT_EQ(searchroom_refusal(word), 0x3F);
    EXPECT_EQ(searchroom_first(word), 0x9012);
    EXPECT_EQ(searchroom_second(word), 0x5678);
    EXPECT_EQ(searchroom_third(word), 0xABCDEF);
}

static void every_refusal_has_a_text(void)
{
    enum { program_alone = 19 };
    for (unsigned number = SEARCHROOM_ACCEPTED; number <= SEARCHROOM_NO_SUCH_READER; number++)
        if (number != program_alone)
            EXPECT(strcmp(searchroom_refusal_text(number), searchroom_refusal_text(255)) != 0);
}

void catalogue_cases(void)
{
    CASE(parish_is_accepted);
    CASE(parish_cut_is_refused);
    CASE(each_refusal);
    CASE(most_columns_and_entries);
    CASE(packed_word_is_taken_apart);
    CASE(every_refusal_has_a_text);
}
