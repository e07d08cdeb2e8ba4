/*
 * Types a question: reads it as text and writes the bytes that `consult` and the reading room take.
 *
 *     typed FOLDER TEXT    the question is TEXT; in a shell put it between single quotes
 *     typed FOLDER         the question is read from the standard input; a newline at its end is no part of it
 *
 * The folder holds catalogue.bin. Where the question is accepted, question.bin is written there. Where it is refused, the reason
 * is printed, and an earlier question.bin stays. order.bin is never written. It must hold as many numbers as `typed` reports
 * conditions, from 0 on each once, or `consult` and the reading room refuse it (15): if it does not, a line says so.
 */
#include <errno.h>
#include <searchroom.h>
#include <stdio.h>
#include <stdlib.h>
#include <string.h>

enum { PATH = 4096 };

/* Says what went wrong with a file and ends the program. */
static void fail(const char *path)
{
    fprintf(stderr, "%s: %s\n", path, strerror(errno));
    exit(2);
}

/* Puts together the path of a file in the folder. */
static void join(char path[PATH], const char *folder, const char *name)
{
    if (snprintf(path, PATH, "%s/%s", folder, name) >= PATH) {
        fprintf(stderr, "%s: the folder's name is too long\n", folder);
        exit(2);
    }
}

/* Reads what a stream has, and closes it. */
static size_t read_stream(FILE *stream, const char *name, void *bytes, size_t most)
{
    size_t len = fread(bytes, 1, most, stream);
    if (ferror(stream))
        fail(name);
    fclose(stream);
    return len;
}

/* Reads catalogue.bin of the folder. */
static size_t read_catalogue(const char *folder, uint8_t *bytes, size_t most)
{
    char path[PATH];
    join(path, folder, "catalogue.bin");
    FILE *stream = fopen(path, "rb");
    if (stream == NULL)
        fail(path);
    return read_stream(stream, path, bytes, most);
}

/* Reads the text from the standard input, without the newline at its end. */
static size_t read_text(char *text, size_t most)
{
    size_t len = read_stream(stdin, "standard input", text, most);
    return len > 0 && text[len - 1] == '\n' ? len - 1 : len;
}

/* Writes question.bin whole or not at all: beside it first, then in its place. */
static void write_question(const char *folder, const uint8_t *bytes, size_t len)
{
    char path[PATH], beside[PATH];
    join(path, folder, "question.bin");
    join(beside, folder, "question.bin.new");
    FILE *stream = fopen(beside, "wb");
    if (stream == NULL)
        fail(beside);
    if (fwrite(bytes, 1, len, stream) != len || fclose(stream) != 0 || rename(beside, path) != 0) {
        int reason = errno; /* of the one that failed, after which none is called */
        remove(beside);
        errno = reason;
        fail(path);
    }
}

/* Says so if the folder has an order.bin that is no running order of the question's conditions. */
static void check_order(const char *folder, const uint8_t *catalogue, size_t catalogue_len,
                        const uint8_t *question, size_t question_len, unsigned conditions)
{
    char path[PATH];
    join(path, folder, "order.bin");
    FILE *stream = fopen(path, "rb");
    if (stream == NULL)
        return;
    static uint8_t order[1 << 20];
    size_t len = read_stream(stream, path, order, sizeof order);
    /* The engine is the judge: a copy without room for a byte checks the order and writes nothing. */
    uint64_t word = searchroom_copy(catalogue, catalogue_len, question, question_len, order, len, NULL, 0);
    if (searchroom_refusal(word) != SEARCHROOM_BAD_ORDER)
        return;
    if (len != conditions)
        fprintf(stderr, "order.bin has %u number%s, this question has %u condition%s", (unsigned)len, len == 1 ? "" : "s",
                conditions, conditions == 1 ? "" : "s");
    else
        fprintf(stderr, "order.bin does not hold each condition number once");
    fprintf(stderr, ": consult and reading_room will refuse it (%u)\n", (unsigned)SEARCHROOM_BAD_ORDER);
}

int main(int argc, char **argv)
{
    if (argc != 2 && argc != 3) {
        fprintf(stderr, "usage: %s FOLDER TEXT\n       %s FOLDER < FILE\n", argv[0], argv[0]);
        return 2;
    }
    /* Room for the most columns and the longest field behind them: a longer file is refused as the whole would be. */
    static uint8_t catalogue[SEARCHROOM_CATALOGUE_BYTES + 65535];
    size_t catalogue_len = read_catalogue(argv[1], catalogue, sizeof catalogue);
    static char input[SEARCHROOM_MAX_TYPED + 2]; /* the longest text, a newline, and a byte that shows that there is more */
    const char *text = argc == 3 ? argv[2] : input;
    size_t text_len = argc == 3 ? strlen(text) : read_text(input, sizeof input);

    uint8_t question[SEARCHROOM_TYPED_BYTES];
    uint64_t word = searchroom_typed(catalogue, catalogue_len, (const uint8_t *)text, text_len, question, sizeof question);
    unsigned refusal = searchroom_refusal(word);
    if (refusal != SEARCHROOM_ACCEPTED) {
        printf("refused %u: %s\n", refusal, searchroom_refusal_text(refusal));
        return 1;
    }
    size_t len = searchroom_written(word);
    write_question(argv[1], question, len);
    unsigned conditions = searchroom_conditions(searchroom_check_question(catalogue, catalogue_len, question, len));
    printf("question.bin has %u bytes, conditions %u\n", (unsigned)len, conditions);
    check_order(argv[1], catalogue, catalogue_len, question, len, conditions);
    return 0;
}
