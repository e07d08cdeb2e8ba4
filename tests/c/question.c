/* searchroom_check_question and searchroom_outcome. */
#include "../../include/searchroom.h"
#include "case.h"
#include <stdlib.h>
#include <string.h>

/* The parish's catalogue. */
static uint8_t *catalogue;
static size_t catalogue_len;

/* The check of question bytes that end at an unreadable page; also sees that the bytes stay. */
static uint64_t check(const uint8_t *question, size_t len)
{
    uint8_t *lent_catalogue = lend(catalogue, catalogue_len);
    uint8_t *lent = lend(question, len);
    uint64_t word = searchroom_check_question(lent_catalogue, catalogue_len, lent, len);
    EXPECT(memcmp(lent_catalogue, catalogue, catalogue_len) == 0);
    EXPECT(len == 0 || memcmp(lent, question, len) == 0);
    give_back(lent_catalogue, catalogue_len);
    give_back(lent, len);
    return word;
}

/* So many groups inside each other round a condition. */
static uint64_t check_nested(unsigned depth)
{
    uint8_t bytes[256] = {0};
    size_t at = 0;
    for (unsigned level = depth; level > 0; level--) {
        bytes[at] = level % 2 == 0 ? 65 : 79;
        bytes[at + 2] = (uint8_t)(3 * (level - 1) + 5);
        at += 3;
    }
    memcpy(bytes + at, (const uint8_t[]){80, 0, 2, 0, 1}, 5);
    return check(bytes, at + 5);
}

/* An any-of group of so many different conditions: year from 0 to 0, 1, 2 and so on. */
static uint64_t check_conditions(unsigned count)
{
    enum { condition = 13 };
    uint8_t bytes[3 + 100 * condition] = {0};
    size_t len = condition * (size_t)count;
    bytes[0] = 79;
    bytes[1] = (uint8_t)(len >> 8);
    bytes[2] = (uint8_t)len;
    for (unsigned c = 0; c < count; c++) {
        memcpy(bytes + 3 + condition * c, (const uint8_t[]){80, 0, 10}, 3);
        bytes[3 + condition * c + 12] = (uint8_t)c;
    }
    return check(bytes, 3 + len);
}

static void parish_question(void)
{
    size_t len;
    uint8_t *question = read_file("examples/parish/question.bin", &len);
    uint64_t word = check(question, len);
    EXPECT_EQ(len, 32);
    EXPECT_EQ(searchroom_refusal(word), SEARCHROOM_ACCEPTED);
    EXPECT_EQ(searchroom_conditions(word), 3);
    EXPECT_EQ(word >> 24, 0);
    for (size_t end = 0; end < len; end++)
        EXPECT_EQ(check(question, end), SEARCHROOM_QUESTION_FIELD);
    free(question);
}

static void limits_of_questions(void)
{
    EXPECT_EQ(searchroom_conditions(check_nested(SEARCHROOM_MAX_DEPTH)), 1);
    EXPECT_EQ(check_nested(SEARCHROOM_MAX_DEPTH + 1), SEARCHROOM_TOO_DEEP);
    EXPECT_EQ(searchroom_conditions(check_conditions(SEARCHROOM_MAX_CONDITIONS)), SEARCHROOM_MAX_CONDITIONS);
    EXPECT_EQ(check_conditions(SEARCHROOM_MAX_CONDITIONS + 1), SEARCHROOM_TOO_MANY_CONDITIONS);
}

static void each_refusal(void)
{
    static const uint8_t tag[] = {66, 0, 2, 0, 1};
    static const uint8_t empty[] = {65, 0, 0};
    static const uint8_t kind[] = {80, 0, 2, 0, 6};
    static const uint8_t twice[] = {79, 0, 10, 80, 0, 2, 0, 1, 80, 0, 2, 0, 1};
    static const uint8_t left_over[] = {80, 0, 2, 0, 1, 0};
    EXPECT_EQ(check(tag, 0), SEARCHROOM_QUESTION_FIELD);
    EXPECT_EQ(check(tag, sizeof tag), SEARCHROOM_UNKNOWN_TAG);
    EXPECT_EQ(check(empty, sizeof empty), SEARCHROOM_EMPTY_GROUP);
    EXPECT_EQ(check(kind, sizeof kind), SEARCHROOM_BAD_CONDITION);
    EXPECT_EQ(check(twice, sizeof twice), SEARCHROOM_REPEATED_CONDITION);
    EXPECT_EQ(check(left_over, sizeof left_over), SEARCHROOM_QUESTION_LEFT_OVER);
    EXPECT_EQ(searchroom_check_question(tag, 0, tag, sizeof tag), SEARCHROOM_CATALOGUE_FIELD);
}

/* Refusal 13 compares bytes as they are given: "Andre" and "Andr\xE9" find the same and are two conditions. */
static void conditions_that_differ_by_an_accent(void)
{
    uint8_t two[] = {79, 0, 20, 80, 0, 7, 1, 2, 'A', 'n', 'd', 'r', 'e', 80, 0, 7, 1, 2, 'A', 'n', 'd', 'r', 0xE9};
    EXPECT_EQ(searchroom_conditions(check(two, sizeof two)), 2);
    two[sizeof two - 1] = 'e';
    EXPECT_EQ(check(two, sizeof two), SEARCHROOM_REPEATED_CONDITION);
}

static void parish_outcomes(void)
{
    static const unsigned expected[3][3] = {{SEARCHROOM_YES, SEARCHROOM_NO, SEARCHROOM_BLANK},
                                            {SEARCHROOM_YES, SEARCHROOM_YES, SEARCHROOM_BLANK},
                                            {SEARCHROOM_NO, SEARCHROOM_NO, SEARCHROOM_YES}};
    size_t len;
    uint8_t *question = read_file("examples/parish/question.bin", &len);
    for (unsigned c = 0; c < 3; c++) {
        for (unsigned e = 0; e < 3; e++) {
            uint64_t word = searchroom_outcome(catalogue, catalogue_len, question, len, e, c);
            EXPECT_EQ(searchroom_refusal(word), SEARCHROOM_ACCEPTED);
            EXPECT_EQ(searchroom_answer(word), expected[c][e]);
            EXPECT_EQ(word >> 24, 0);
        }
    }
    free(question);
}

/* Each kind and its opposite at 1701 and "Ash", and where year and parish are blank. */
static void each_kind_at_values_and_at_blanks(void)
{
    enum { YES = SEARCHROOM_YES, NO = SEARCHROOM_NO, BLANK = SEARCHROOM_BLANK, OPPOSITE = 128 };
    static const struct {
        uint8_t len, payload[10];
        unsigned at_value[2], at_blank[2];
    } kinds[] = {
        {10, {0, 0, 0, 0, 6, 0xA4, 0, 0, 7, 7}, {YES, NO}, {BLANK, BLANK}}, /* from 1700 to 1799 */
        {2, {0, 1}, {NO, YES}, {YES, NO}},
        {5, {1, 2, 'a', 's', 'h'}, {YES, NO}, {BLANK, BLANK}},
        {4, {1, 3, 'a', 's'}, {YES, NO}, {BLANK, BLANK}},
        {4, {1, 4, 's', 'h'}, {YES, NO}, {BLANK, BLANK}},
        {2, {1, 5}, {NO, YES}, {YES, NO}},
    };
    for (size_t i = 0; i < sizeof kinds / sizeof *kinds; i++) {
        uint8_t question[3 + sizeof kinds->payload] = {80, 0, kinds[i].len};
        memcpy(question + 3, kinds[i].payload, kinds[i].len);
        for (unsigned turned = 0; turned < 2; turned++) {
            question[4] = (uint8_t)(kinds[i].payload[1] + turned * OPPOSITE);
            size_t len = 3 + (size_t)kinds[i].len;
            uint64_t at_value = searchroom_outcome(catalogue, catalogue_len, question, len, 0, 0);
            uint64_t at_blank = searchroom_outcome(catalogue, catalogue_len, question, len, 2, 0);
            EXPECT_EQ(searchroom_refusal(at_value) + searchroom_refusal(at_blank), SEARCHROOM_ACCEPTED);
            EXPECT_EQ(searchroom_answer(at_value), kinds[i].at_value[turned]);
            EXPECT_EQ(searchroom_answer(at_blank), kinds[i].at_blank[turned]);
        }
    }
}

static void no_such_entry_or_condition(void)
{
    static const uint64_t beyond[] = {3, UINT64_C(1) << 32, UINT64_MAX};
    size_t len;
    uint8_t *question = read_file("examples/parish/question.bin", &len);
    for (size_t i = 0; i < sizeof beyond / sizeof *beyond; i++) {
        EXPECT_EQ(searchroom_outcome(catalogue, catalogue_len, question, len, beyond[i], 0), SEARCHROOM_NO_SUCH_PLACE);
        EXPECT_EQ(searchroom_outcome(catalogue, catalogue_len, question, len, 0, beyond[i]), SEARCHROOM_NO_SUCH_PLACE);
    }
    EXPECT_EQ(searchroom_outcome(catalogue, catalogue_len, question, 0, UINT64_MAX, 0), SEARCHROOM_QUESTION_FIELD);
    free(question);
}

void question_cases(void)
{
    catalogue = read_file("examples/parish/catalogue.bin", &catalogue_len);
    CASE(parish_question);
    CASE(limits_of_questions);
    CASE(each_refusal);
    CASE(conditions_that_differ_by_an_accent);
    CASE(parish_outcomes);
    CASE(each_kind_at_values_and_at_blanks);
    CASE(no_such_entry_or_condition);
    free(catalogue);
}
