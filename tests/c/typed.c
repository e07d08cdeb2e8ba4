/* searchroom_typed. */
#include "../../include/searchroom.h"
#include "case.h"
#include <stdio.h>
#include <stdlib.h>
#include <string.h>

static const char parish[] = PARISH_TEXT;

static uint8_t *catalogue, *question;
static size_t catalogue_len, question_len;

/* The output afterwards. */
static uint8_t output[2 * SEARCHROOM_TYPED_BYTES];

/* Reads a text of so many bytes into so many bytes, which are filled with one byte; both end at an unreadable page. */
static uint64_t read_bytes(const char *text, size_t text_len, size_t output_len)
{
    memset(output, FILL, sizeof output);
    uint8_t *lent_text = lend((const uint8_t *)text, text_len), *lent = lend(output, output_len);
    uint64_t word = searchroom_typed(catalogue, catalogue_len, lent_text, text_len, lent, output_len);
    EXPECT(text_len == 0 || memcmp(lent_text, text, text_len) == 0);
    memcpy(output, lent, output_len);
    give_back(lent_text, text_len);
    give_back(lent, output_len);
    return word;
}

static int unaltered_from(size_t at) { return are_all(FILL, output + at, sizeof output - at); }

static void expect_read(const char *text, const uint8_t *bytes, size_t len)
{
    uint64_t word = read_bytes(text, strlen(text), sizeof output);
    EXPECT_EQ(searchroom_refusal(word), SEARCHROOM_ACCEPTED);
    EXPECT_EQ(searchroom_first(word), 0);
    EXPECT_EQ(searchroom_second(word), 0);
    EXPECT_EQ(searchroom_written(word), len);
    EXPECT(memcmp(output, bytes, len) == 0);
    EXPECT(unaltered_from(len));
}

static void expect_refused(const char *text, size_t output_len, unsigned number)
{
    EXPECT_EQ(read_bytes(text, strlen(text), output_len), number);
    EXPECT(unaltered_from(0));
}

/* A condition's payload. */
#define EXPECT_CONDITION(text, ...)                                        \
    do {                                                                   \
        static const uint8_t payload[] = {__VA_ARGS__};                    \
        uint8_t field[3 + sizeof payload] = {80, 0, sizeof payload};       \
        memcpy(field + 3, payload, sizeof payload);                        \
        expect_read(text, field, sizeof field);                            \
    } while (0)

static void parish_typed(void)
{
    expect_read(parish, question, question_len);
    for (size_t len = 0; len < question_len; len++)
        expect_refused(parish, len, SEARCHROOM_SHORT_TYPED_OUTPUT);
    EXPECT_EQ(searchroom_written(read_bytes(parish, strlen(parish), question_len)), question_len);
    EXPECT(memcmp(output, question, question_len) == 0);
    for (size_t len = 0; len < strlen(parish); len++)
        EXPECT_EQ(read_bytes(parish, len, sizeof output), SEARCHROOM_MISSPELLED);
    /* The zero at the end of a string in C is no part of the text. */
    EXPECT_EQ(read_bytes(parish, sizeof parish, sizeof output), SEARCHROOM_MISSPELLED);
}

static void each_condition(void)
{
    EXPECT_CONDITION("c0 in 1700..1799", 0, 0, 0, 0, 6, 0xA4, 0, 0, 7, 7);
    EXPECT_CONDITION("c0 blank", 0, 1);
    EXPECT_CONDITION("c1 is \"ash\"", 1, 2, 'a', 's', 'h');
    EXPECT_CONDITION("c1 starts \"ash\"", 1, 3, 'a', 's', 'h');
    EXPECT_CONDITION("c1 has \"\\22\\5C\\E9 \"", 1, 4, '"', '\\', 0xE9, ' ');
    EXPECT_CONDITION("c1 blank", 1, 5);
    EXPECT_CONDITION("not c0 in 0..4294967294", 0, 128, 0, 0, 0, 0, 255, 255, 255, 254);
    EXPECT_CONDITION("not c1 blank", 1, 133);
}

static void misspelled(void)
{
    static const char *const texts[] = {
        "", "all()", "c0 blank\n", " c0 blank", "all(c0 blank, c1 blank)", "all(c0 blank,)", "not all(c0 blank)", "c00 blank",
        "c256 blank", "c0 in 01..2", "c0 in 0..4294967296", "c1 is \"\\41\"", "c1 is \"\\e9\"", "c1 is \"\xE9\"", "c1 is \"ash",
    };
    for (size_t i = 0; i < sizeof texts / sizeof *texts; i++)
        expect_refused(texts[i], sizeof output, SEARCHROOM_MISSPELLED);
}

/* Spelled well, and refused as the question is; before that comes the spelling, before all the catalogue. */
static void each_other_refusal(void)
{
    expect_refused("all(any(all(any(all(any(all(any(all(c0 blank)))))))))", 0, SEARCHROOM_TOO_DEEP);
    expect_refused("c2 blank", 0, SEARCHROOM_BAD_CONDITION);
    expect_refused("c1 is \"\"", sizeof output, SEARCHROOM_BAD_CONDITION);
    expect_refused("c0 in 2..1", sizeof output, SEARCHROOM_BAD_CONDITION);
    expect_refused("all(c0 blank,c0 blank)", sizeof output, SEARCHROOM_REPEATED_CONDITION);
    expect_refused("all(c0 blank,c0 blank) ", 0, SEARCHROOM_MISSPELLED);
    catalogue_len--;
    expect_refused("", 0, SEARCHROOM_CATALOGUE_FIELD);
    expect_refused(parish, sizeof output, SEARCHROOM_CATALOGUE_FIELD);
    catalogue_len++;
}

/* An any-of group of so many different conditions: year from 0 to 999, from 1 to 999 and so on. */
static void put_conditions(char *text, unsigned count)
{
    text += sprintf(text, "any(c0 in 0..999");
    for (unsigned low = 1; low < count; low++)
        text += sprintf(text, ",c0 in %u..999", low);
    sprintf(text, ")");
}

static void limits_of_typed_questions(void)
{
    static char text[SEARCHROOM_MAX_TYPED + 2];
    put_conditions(text, SEARCHROOM_MAX_CONDITIONS);
    EXPECT_EQ(searchroom_written(read_bytes(text, strlen(text), sizeof output)), 3 + 13 * SEARCHROOM_MAX_CONDITIONS);
    put_conditions(text, SEARCHROOM_MAX_CONDITIONS + 1);
    expect_refused(text, sizeof output, SEARCHROOM_TOO_MANY_CONDITIONS);
    /* A text as long as can be, and one byte longer. */
    memset(text, 'a', sizeof text);
    memcpy(text, "c1 is \"", 7);
    text[SEARCHROOM_MAX_TYPED - 1] = '"';
    EXPECT_EQ(read_bytes(text, SEARCHROOM_MAX_TYPED, sizeof output), SEARCHROOM_BAD_CONDITION);
    text[SEARCHROOM_MAX_TYPED - 1] = 'a';
    text[SEARCHROOM_MAX_TYPED] = '"';
    EXPECT_EQ(read_bytes(text, SEARCHROOM_MAX_TYPED + 1, sizeof output), SEARCHROOM_MISSPELLED);
    /* As many groups in each other as such a text can hold. */
    enum { DEEPEST = 3275 };
    char *at = text;
    for (unsigned group = 0; group < DEEPEST; group++)
        at += sprintf(at, "all(");
    at += sprintf(at, "c0 blank");
    memset(at, ')', DEEPEST);
    size_t len = (size_t)(at - text) + DEEPEST;
    EXPECT_EQ(read_bytes(text, len, sizeof output), SEARCHROOM_TOO_DEEP);
    EXPECT_EQ(read_bytes(text, len - 1, sizeof output), SEARCHROOM_MISSPELLED);
}

void typed_cases(void)
{
    catalogue = read_file("examples/parish/catalogue.bin", &catalogue_len);
    question = read_file("examples/parish/question.bin", &question_len);
    CASE(parish_typed);
    CASE(each_condition);
    CASE(misspelled);
    CASE(each_other_refusal);
    CASE(limits_of_typed_questions);
    free(catalogue);
    free(question);
}
