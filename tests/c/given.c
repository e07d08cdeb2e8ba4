#include "given.h"
#include <stdlib.h>
#include <string.h>

/* So many bytes are known before each lent table. */
enum { BEFORE = 8 };

const uint8_t forward[3] = {0, 1, 2}, backward[3] = {2, 1, 0};

static uint8_t *catalogue, *question;
static size_t catalogue_len, question_len;

Tables filled(uint8_t byte)
{
    Tables tables;
    memset(&tables, byte, sizeof tables);
    return tables;
}

static uint8_t *lend_table(const uint8_t *table, size_t len)
{
    uint8_t bytes[BEFORE + SEARCHROOM_LOOKS_BYTES];
    memset(bytes, FILL, BEFORE);
    memcpy(bytes + BEFORE, table, len);
    return lend(bytes, BEFORE + len) + BEFORE;
}

static void take_back(uint8_t *table, uint8_t *lent, size_t len)
{
    EXPECT(are_all(FILL, lent - BEFORE, BEFORE));
    memcpy(table, lent, len);
    give_back(lent - BEFORE, BEFORE + len);
}

uint64_t run_given(const Given *given, Tables *tables)
{
    uint8_t *listed = lend_table(tables->listed, given->listed_len);
    uint8_t *looks = lend_table(tables->looks, given->looks_len);
    uint8_t *tally = lend_table(tables->tally, given->tally_len);
    uint64_t word = searchroom_run(given->catalogue, given->catalogue_len, given->question, given->question_len, given->order,
                                   given->order_len, given->reader, listed, given->listed_len, looks, given->looks_len,
                                   tally, given->tally_len);
    take_back(tables->listed, listed, given->listed_len);
    take_back(tables->looks, looks, given->looks_len);
    take_back(tables->tally, tally, given->tally_len);
    return word;
}

void expect_run_refused(const Given *given, Tables *tables, unsigned number)
{
    Tables before = *tables;
    EXPECT_EQ(run_given(given, tables), number);
    EXPECT(memcmp(tables, &before, sizeof before) == 0);
}

void read_parish(void)
{
    catalogue = read_file("examples/parish/catalogue.bin", &catalogue_len);
    question = read_file("examples/parish/question.bin", &question_len);
}

void free_parish(void)
{
    free(catalogue);
    free(question);
}

Given parish_run(uint64_t reader)
{
    return (Given){catalogue, catalogue_len, question, question_len, forward, sizeof forward, reader, 1, 3, TALLY};
}
