/* Runs every case from the root of the repository and prints how many passed and failed. */
#define _DEFAULT_SOURCE
#include "case.h"
#include <inttypes.h>
#include <stdio.h>
#include <stdlib.h>
#include <string.h>
#include <sys/mman.h>

static const size_t page = 4096;
static unsigned passed, failed;
static int case_failed;

void expect_eq(uint64_t actual, uint64_t expected, const char *what, const char *file, int line)
{
    if (actual == expected)
        return;
    printf("%s:%d: %s is %" PRIu64 ", not %" PRIu64 "\n", file, line, what, actual, expected);
    case_failed = 1;
}

void run_case(const char *name, void (*body)(void))
{
    case_failed = 0;
    body();
    printf("%s ... %s\n", name, case_failed ? "FAILED" : "ok");
    if (case_failed)
        failed++;
    else
        passed++;
}

static size_t pages_for(size_t len) { return (len + page - 1) / page * page; }

uint8_t *lend(const uint8_t *bytes, size_t len)
{
    uint8_t *start = mmap(NULL, pages_for(len) + page, PROT_READ | PROT_WRITE, MAP_PRIVATE | MAP_ANONYMOUS, -1, 0);
    if (start == MAP_FAILED || mprotect(start + pages_for(len), page, PROT_NONE) != 0) {
        perror("lend");
        exit(2);
    }
    uint8_t *lent = start + pages_for(len) - len;
    if (len > 0)
        memcpy(lent, bytes, len);
    return lent;
}

void give_back(uint8_t *lent, size_t len) { munmap(lent + len - pages_for(len), pages_for(len) + page); }

int are_all(uint8_t one, const uint8_t *bytes, size_t len)
{
    size_t at = 0;
    while (at < len && bytes[at] == one)
        at++;
    return at == len;
}

uint8_t *read_file(const char *path, size_t *len)
{
    enum { most = 1 << 20 };
    FILE *file = fopen(path, "rb");
    uint8_t *bytes = malloc(most);
    if (file == NULL || bytes == NULL) {
        perror(path);
        exit(2);
    }
    *len = fread(bytes, 1, most, file);
    fclose(file);
    return bytes;
}

int main(void)
{
    version_cases();
    catalogue_cases();
    question_cases();
    run_cases();
    readers_cases();
    blocks_cases();
    copy_cases();
    typed_cases();
    withdrawn_cases();
    empty_cases();
    printf("%u passed, %u failed\n", passed, failed);
    return failed == 0 ? 0 : 1;
}
