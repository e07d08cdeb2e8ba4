/*
 * A small reading room: checks a catalogue and a question, runs the question for a reader, and prints the entries found, how
 * often each condition was looked at, the reader's tally, and the steward's copy: every look with its outcome.
 *
 *     reading_room FOLDER [READER]
 *
 * The folder holds catalogue.bin, question.bin and order.bin. The reader is 0 to 15, 0 where none is named.
 */
#include <inttypes.h>
#include <searchroom.h>
#include <stdio.h>
#include <stdlib.h>
#include <string.h>

/* A file's bytes. */
typedef struct {
    uint8_t *bytes;
    size_t len;
} File;

/* How much a catalogue and a question hold; the entries that are present are those not withdrawn. */
typedef struct {
    unsigned entries, columns, present, conditions;
} Size;

/* Reads a file of the folder; ends the program where it cannot be read. Of a catalogue it reads the most columns and the
   longest field behind them: a longer one is refused as the whole would be. */
static File read_file(const char *folder, const char *name)
{
    char path[4096];
    if (snprintf(path, sizeof path, "%s/%s", folder, name) >= (int)sizeof path) {
        fprintf(stderr, "%s: the folder's name is too long\n", folder);
        exit(2);
    }
    enum { most = SEARCHROOM_CATALOGUE_BYTES + 65535 };
    FILE *stream = fopen(path, "rb");
    File file = {malloc(most), 0};
    if (stream == NULL || file.bytes == NULL) {
        perror(path);
        exit(2);
    }
    file.len = fread(file.bytes, 1, most, stream);
    if (ferror(stream)) {
        perror(path);
        exit(2);
    }
    fclose(stream);
    return file;
}

/* Gives back an accepted word; says why and ends the program where the call was refused. */
static uint64_t accepted(const char *call, uint64_t word)
{
    unsigned refusal = searchroom_refusal(word);
    if (refusal != SEARCHROOM_ACCEPTED) {
        printf("%s refused %u: %s\n", call, refusal, searchroom_refusal_text(refusal));
        exit(1);
    }
    return word;
}

/* The number of entries that have a one in a row. */
static unsigned ones(const uint8_t *row, unsigned entries)
{
    unsigned count = 0;
    for (unsigned e = 0; e < entries; e++)
        count += searchroom_bit(row, e);
    return count;
}

/* The number of withdrawn entries of an accepted catalogue: the ones of the mark, if one follows the last column. */
static unsigned withdrawn(File catalogue, unsigned entries, unsigned columns)
{
    enum { head = 3 };
    size_t at = head + 3; /* after the first field */
    for (unsigned c = 0; c < columns; c++)
        at += head + catalogue.bytes[at + 1] * 256u + catalogue.bytes[at + 2];
    return at == catalogue.len ? 0 : ones(catalogue.bytes + at + head, entries);
}

/* Prints the number of entries and columns, and of withdrawn entries if there are any. */
static void print_size(Size size)
{
    printf("%u entries in %u columns", size.entries, size.columns);
    if (size.present < size.entries)
        printf(", %u withdrawn", size.entries - size.present);
    printf("\n");
}

/* Prints the listed entries of a run, and at how many entries each condition was looked at. */
static void print_run(uint64_t ran, Size size, const uint8_t *listed, const uint8_t *looks)
{
    printf("%u found:", searchroom_found(ran));
    for (unsigned e = 0; e < size.entries; e++)
        if (searchroom_bit(listed, e))
            printf(" %u", e);
    printf("\n%u looks instead of %u:\n", (unsigned)searchroom_look_count(ran), size.present * size.conditions);
    size_t row = searchroom_row_bytes(size.entries);
    for (unsigned c = 0; c < size.conditions; c++)
        printf("  condition %u at %u entries\n", c, ones(looks + c * row, size.entries));
}

/* Prints the looks of a copy, a line for each entry. How the looks of one entry follow each other is left open, so they are
   gathered first and printed by condition number. */
static void print_copy(const uint8_t *copy, size_t len)
{
    static const char *const words[] = {[SEARCHROOM_NO] = "no", [SEARCHROOM_YES] = "yes", [SEARCHROOM_BLANK] = "blank"};
    for (size_t at = 0; at < len;) {
        const char *outcomes[SEARCHROOM_MAX_CONDITIONS] = {NULL};
        unsigned entry = searchroom_copied_entry(copy + at);
        for (; at < len && searchroom_copied_entry(copy + at) == entry; at += SEARCHROOM_COPY_FIELD_BYTES)
            outcomes[searchroom_copied_condition(copy + at)] = words[searchroom_copied_outcome(copy + at)];
        printf("  entry %u", entry);
        const char *before = ": ";
        for (unsigned c = 0; c < SEARCHROOM_MAX_CONDITIONS; c++)
            if (outcomes[c] != NULL) {
                printf("%scondition %u %s", before, c, outcomes[c]);
                before = ", ";
            }
        printf("\n");
    }
}

/* Is the word a number in decimal? */
static int is_number(const char *word) { return *word != '\0' && word[strspn(word, "0123456789")] == '\0'; }

/* Checks the catalogue and the question, and prints how much the catalogue holds. */
static Size check(File catalogue, File question)
{
    Size size = {0};
    uint64_t word = accepted("catalogue", searchroom_check_catalogue(catalogue.bytes, catalogue.len));
    size.entries = searchroom_entries(word);
    size.columns = searchroom_columns(word);
    size.present = size.entries - withdrawn(catalogue, size.entries, size.columns);
    print_size(size);
    word = accepted("question", searchroom_check_question(catalogue.bytes, catalogue.len, question.bytes, question.len));
    size.conditions = searchroom_conditions(word);
    return size;
}

/* Runs the question for the reader and prints what was found, and the reader's number in the tally. */
static void run(File catalogue, File question, File order, uint64_t reader, Size size)
{
    /* Tables that are long enough for any run. */
    static uint8_t listed[SEARCHROOM_LISTED_BYTES], looks[SEARCHROOM_LOOKS_BYTES];
    /* The tally starts at zeros here; a real room keeps it and lends it to the next run. */
    static uint8_t tally[SEARCHROOM_TALLY_BYTES];
    uint64_t ran = accepted("run", searchroom_run(catalogue.bytes, catalogue.len, question.bytes, question.len,
                                                  order.bytes, order.len, reader, listed, sizeof listed,
                                                  looks, sizeof looks, tally, sizeof tally));
    print_run(ran, size, listed, looks);
    printf("tally of reader %" PRIu64 ": %" PRIu64 "\n", reader, searchroom_tally_of(tally, reader));
}

/* Makes the steward's copy of the same run and prints it. */
static void copy(File catalogue, File question, File order)
{
    static uint8_t output[SEARCHROOM_COPY_BYTES];
    uint64_t copied = accepted("copy", searchroom_copy(catalogue.bytes, catalogue.len, question.bytes, question.len,
                                                       order.bytes, order.len, output, sizeof output));
    printf("the steward's copy, %u bytes:\n", (unsigned)searchroom_written(copied));
    print_copy(output, searchroom_written(copied));
}

int main(int argc, char **argv)
{
    if (argc < 2 || argc > 3 || (argc == 3 && !is_number(argv[2]))) {
        fprintf(stderr, "usage: %s FOLDER [READER]\n", argv[0]);
        return 2;
    }
    /* A number over 2^64 - 1 becomes that one, which is no reader's either. */
    uint64_t reader = argc == 3 ? strtoull(argv[2], NULL, 10) : 0;
    File catalogue = read_file(argv[1], "catalogue.bin");
    File question = read_file(argv[1], "question.bin");
    File order = read_file(argv[1], "order.bin");

    Size size = check(catalogue, question);
    run(catalogue, question, order, reader, size);
    copy(catalogue, question, order);

    free(catalogue.bytes);
    free(question.bytes);
    free(order.bytes);
    return 0;
}
