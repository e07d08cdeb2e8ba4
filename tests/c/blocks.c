/* searchroom_run and searchroom_copy where the entries fill blocks of 64, or nearly do. The last column ends at an unreadable
   page. */
#include "../../include/searchroom.h"
#include "case.h"
#include <string.h>

enum { MOST = 2048, SLOT = 24, LONGEST = 23, CONDITIONS = 3, FURTHER = 9, FIELD = SEARCHROOM_COPY_FIELD_BYTES };

/* All of: the number from 2 to 5; any of: the text does not contain "bY", the text is blank. */
static const uint8_t question[] = {65, 0, 28, 80, 0, 10, 0, 0, 0, 0, 0, 2, 0, 0, 0, 5,
                                   79, 0, 12, 80, 0, 4, 1, 132, 'b', 'Y', 80, 0, 2, 1, 5};
static const uint8_t order[CONDITIONS] = {0, 1, 2};

static uint8_t made[6 + 3 + 4 * MOST + 3 + SLOT * MOST];
static uint8_t filled[CONDITIONS * MOST * FIELD + FURTHER];

/* The entries are of few sorts, so that neighbours differ; their texts are as long as can be or end with what is sought. The
   number 6 stands for a blank. Entry 191 has it, and entry 127 a blank text: each is the last of its block. */
enum { NUMBER_BLANK = 6 };
static unsigned number_of(unsigned entry) { return entry * 5 / 3 % 8; }
static unsigned length_of(unsigned entry) { return (entry * 7 + 23) % (LONGEST + 1); }
static int has_by(unsigned entry) { return entry % 3 != 0 && length_of(entry) >= 2; }

static size_t make(unsigned entries)
{
    const uint8_t first[] = {67, 0, 3, (uint8_t)(entries / 256), (uint8_t)entries, 2};
    size_t at = sizeof first;
    memcpy(made, first, at);
    const unsigned sizes[] = {4, SLOT};
    for (int column = 0; column < 2; column++) {
        unsigned payload = sizes[column] * entries;
        made[at++] = column == 0 ? 78 : 84;
        made[at++] = (uint8_t)(payload / 256);
        made[at++] = (uint8_t)payload;
        memset(made + at, 0, payload);
        for (unsigned entry = 0; entry < entries; entry++) {
            uint8_t *slot = made + at + sizes[column] * entry;
            if (column == 0) {
                slot[3] = (uint8_t)number_of(entry);
                if (slot[3] == NUMBER_BLANK)
                    memset(slot, 0xFF, 4);
                continue;
            }
            slot[0] = (uint8_t)length_of(entry);
            memset(slot + 1, 'b', slot[0]);
            if (has_by(entry))
                slot[slot[0]] = entry % 2 == 0 ? 'y' : 'Y';
        }
        at += payload;
    }
    return at;
}

/* What the conditions answer at an entry, and at which of them a look is due. */
typedef struct {
    unsigned outcomes[CONDITIONS], due[CONDITIONS];
} Entry;

static Entry expected(unsigned entry)
{
    unsigned number = number_of(entry), blank = length_of(entry) == 0;
    unsigned in_range = number == NUMBER_BLANK ? SEARCHROOM_BLANK : number >= 2 && number <= 5;
    unsigned without_by = blank ? SEARCHROOM_BLANK : !has_by(entry);
    unsigned open = in_range == SEARCHROOM_YES;
    return (Entry){{in_range, without_by, blank}, {1, open, open && without_by != SEARCHROOM_YES}};
}

static unsigned looks_at(Entry is) { return is.due[0] + is.due[1] + is.due[2]; }

/* What each bit of the tables must be, entry by entry. */
static void expect_entry(unsigned entry, const uint8_t *listed, const uint8_t *looks, size_t row)
{
    Entry is = expected(entry);
    for (unsigned condition = 0; condition < CONDITIONS; condition++)
        EXPECT_EQ(searchroom_bit(looks + condition * row, entry), is.due[condition]);
    EXPECT_EQ(searchroom_bit(listed, entry), is.outcomes[0] == SEARCHROOM_YES &&
                                                 (is.outcomes[1] == SEARCHROOM_YES || is.outcomes[2] == SEARCHROOM_YES));
}

/* The fields of one entry, one for each due look, in any sequence. Gives the place after them. */
static const uint8_t *expect_fields(unsigned entry, const uint8_t *field)
{
    Entry is = expected(entry);
    for (unsigned left = looks_at(is); left > 0; left--, field += FIELD) {
        unsigned condition = searchroom_copied_condition(field);
        EXPECT(memcmp(field, (const uint8_t[]){76, 0, 4}, 3) == 0);
        EXPECT_EQ(searchroom_copied_entry(field), entry);
        EXPECT(condition < CONDITIONS && is.due[condition]);
        EXPECT_EQ(searchroom_copied_outcome(field), is.outcomes[condition % CONDITIONS]);
        is.due[condition % CONDITIONS] = 0;
    }
    return field;
}

static void expect_copy(unsigned entries, const uint8_t *catalogue, size_t catalogue_len)
{
    size_t written = 0;
    for (unsigned entry = 0; entry < entries; entry++)
        written += FIELD * looks_at(expected(entry));
    size_t output_len = written + FURTHER;
    uint8_t *output = lend(filled, output_len);
    uint64_t word = searchroom_copy(catalogue, catalogue_len, question, sizeof question, order, sizeof order, output,
                                    output_len);
    EXPECT_EQ(searchroom_refusal(word), SEARCHROOM_ACCEPTED);
    EXPECT_EQ(searchroom_written(word), written);
    const uint8_t *field = output;
    for (unsigned entry = 0; entry < entries; entry++)
        field = expect_fields(entry, field);
    EXPECT(are_all(FILL, output + written, FURTHER));
    give_back(output, output_len);
}

static void expect_run(unsigned entries)
{
    memset(filled, FILL, sizeof filled);
    size_t catalogue_len = make(entries), row = searchroom_row_bytes(entries);
    size_t listed_len = row + FURTHER, looks_len = CONDITIONS * row + FURTHER;
    uint8_t *catalogue = lend(made, catalogue_len);
    uint8_t *listed = lend(filled, listed_len), *looks = lend(filled, looks_len);
    uint8_t tally[SEARCHROOM_TALLY_BYTES] = {0};
    uint64_t word = searchroom_run(catalogue, catalogue_len, question, sizeof question, order, sizeof order, 1, listed,
                                   listed_len, looks, looks_len, tally, sizeof tally);
    EXPECT_EQ(searchroom_refusal(word), SEARCHROOM_ACCEPTED);
    unsigned found = 0, looked = 0;
    for (unsigned entry = 0; entry < entries; entry++) {
        expect_entry(entry, listed, looks, row);
        found += searchroom_bit(listed, entry);
        for (unsigned condition = 0; condition < CONDITIONS; condition++)
            looked += searchroom_bit(looks + condition * row, entry);
    }
    EXPECT_EQ(searchroom_found(word), found);
    EXPECT_EQ(searchroom_look_count(word), looked);
    EXPECT_EQ(searchroom_tally_of(tally, 1), looked);
    for (unsigned bit = entries; bit < 8 * row; bit++)
        EXPECT_EQ(searchroom_bit(listed, bit) + searchroom_bit(looks + 2 * row, bit), 0);
    EXPECT(are_all(FILL, listed + row, FURTHER) && are_all(FILL, looks + CONDITIONS * row, FURTHER));
    expect_copy(entries, catalogue, catalogue_len);
    give_back(catalogue, catalogue_len);
    give_back(listed, listed_len);
    give_back(looks, looks_len);
}

static void sizes_around_multiples_of_64(void)
{
    for (unsigned entries = 0; entries <= MOST; entries++)
        if (entries <= 130 || (entries + 1) % 64 <= 2)
            expect_run(entries);
}

void blocks_cases(void) { CASE(sizes_around_multiples_of_64); }
