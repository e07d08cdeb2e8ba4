/* Test cases in C: each is a function that expects things; a case passes if all that it expects holds. */
#ifndef CASE_H
#define CASE_H

#include <stddef.h>
#include <stdint.h>

/* Fails the case that is running unless the two numbers are equal. */
#define EXPECT_EQ(actual, expected) expect_eq((uint64_t)(actual), (uint64_t)(expected), #actual, __FILE__, __LINE__)

/* Fails the case that is running unless the condition holds. */
#define EXPECT(condition) expect_eq((condition) ? 1u : 0u, 1u, #condition, __FILE__, __LINE__)

void expect_eq(uint64_t actual, uint64_t expected, const char *what, const char *file, int line);

/* Runs a case and counts it as passed or failed. */
void run_case(const char *name, void (*body)(void));

#define CASE(body) run_case(#body, body)

/* A copy of bytes whose end lies hard against an unreadable page: to read or write past it is a fault. */
uint8_t *lend(const uint8_t *bytes, size_t len);
void give_back(uint8_t *lent, size_t len);

/* The bytes of a file, which must be there; the caller frees them. */
uint8_t *read_file(const char *path, size_t *len);

/* What lent bytes are filled with, to see which are written. */
enum { FILL = 0x5A };

/* Is every one of these bytes that one? */
int are_all(uint8_t one, const uint8_t *bytes, size_t len);

/* The question of the parish as staff type it. */
#define PARISH_TEXT "any(all(c0 in 1700..1799,c1 starts \"ash\"),c0 blank)"

/* Expects the fields that a copy of the parish in the order 0, 1, 2 has for these entries, given as a row of bits (copy.c). */
void expect_parish_fields(uint8_t entries, const uint8_t *fields);

/* The cases of the release, of each call, and those of the readers, of the mark and of empty slices. */
void version_cases(void);
void catalogue_cases(void);
void question_cases(void);
void run_cases(void);
void readers_cases(void);
void blocks_cases(void);
void copy_cases(void);
void typed_cases(void);
void withdrawn_cases(void);
void empty_cases(void);

#endif
