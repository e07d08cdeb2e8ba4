/* Checks a catalogue file and says how much it holds, or why it is refused. */
#include <searchroom.h>
#include <stdio.h>

/* Room for the most columns and the longest field behind them: a longer file is refused as the whole would be. */
static uint8_t catalogue[SEARCHROOM_CATALOGUE_BYTES + 65535];

int main(int argc, char **argv)
{
    if (argc != 2) {
        fprintf(stderr, "usage: %s CATALOGUE\n", argv[0]);
        return 2;
    }
    FILE *file = fopen(argv[1], "rb");
    if (file == NULL) {
        perror(argv[1]);
        return 2;
    }
    size_t len = fread(catalogue, 1, sizeof catalogue, file);
    if (ferror(file)) {
        perror(argv[1]);
        return 2;
    }
    fclose(file);

    uint64_t word = searchroom_check_catalogue(catalogue, len);
    unsigned refusal = searchroom_refusal(word);
    if (refusal != SEARCHROOM_ACCEPTED) {
        printf("refused %u: %s\n", refusal, searchroom_refusal_text(refusal));
        return 1;
    }
    printf("entries %u columns %u\n", searchroom_entries(word), searchroom_columns(word));
    return 0;
}
