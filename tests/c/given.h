/* A run as a case gives it to searchroom_run, and the parish's. */
#ifndef GIVEN_H
#define GIVEN_H

#include "../../include/searchroom.h"
#include "case.h"

enum { TALLY = SEARCHROOM_TALLY_BYTES };

/* All that a run is given, but for what its tables hold. */
typedef struct {
    const uint8_t *catalogue;
    size_t catalogue_len;
    const uint8_t *question;
    size_t question_len;
    const uint8_t *order;
    size_t order_len;
    uint64_t reader;
    size_t listed_len, looks_len, tally_len;
} Given;

/* What the tables hold, before a run and afterwards. It is lent as much of their fronts as the lengths say. */
typedef struct {
    uint8_t listed[SEARCHROOM_LISTED_BYTES], looks[SEARCHROOM_LOOKS_BYTES], tally[2 * TALLY];
} Tables;

/* Tables of this byte. */
Tables filled(uint8_t byte);

/* Makes the run. Each table is lent hard against an unreadable page; the bytes before it must stay. */
uint64_t run_given(const Given *given, Tables *tables);

/* The run is refused with this number and alters nothing. */
void expect_run_refused(const Given *given, Tables *tables, unsigned number);

/* Reads the parish's files, before the first run of it, and frees what they hold, after the last. */
void read_parish(void);
void free_parish(void);

/* The parish's run of a reader in the order 0, 1, 2, with tables just long enough. */
Given parish_run(uint64_t reader);

/* The numbers of the parish's conditions, as they stand and in reverse. */
extern const uint8_t forward[3], backward[3];

#endif
