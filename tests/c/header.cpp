// The header as a C++ program includes it, twice.
#include "../../include/searchroom.h"
#include "../../include/searchroom.h"

int main()
{
    const uint8_t bytes[] = {67, 0, 3, 0, 0, 1, 78, 0, 0}, blank[] = {80, 0, 2, 0, 1}, order[] = {0};
    uint8_t output[SEARCHROOM_COPY_FIELD_BYTES];
    uint64_t checked = searchroom_check_catalogue(bytes, sizeof bytes);
    uint64_t copied = searchroom_copy(bytes, sizeof bytes, blank, sizeof blank, order, sizeof order, output, sizeof output);
    const uint8_t text[] = {'c', '0', ' ', 'b', 'l', 'a', 'n', 'k'};
    uint64_t typed = searchroom_typed(bytes, sizeof bytes, text, sizeof text, output, sizeof output);
    uint8_t listed[1], looks[1], tally[SEARCHROOM_TALLY_BYTES] = {0};
    tally[15] = 9;
    uint64_t ran = searchroom_run(bytes, sizeof bytes, blank, sizeof blank, order, sizeof order, 1, listed, sizeof listed,
                                  looks, sizeof looks, tally, sizeof tally);
    bool counted = ran == SEARCHROOM_ACCEPTED && searchroom_tally_of(tally, 1) == 9;
    bool written = copied == SEARCHROOM_ACCEPTED && searchroom_written(typed) == 5;
    return searchroom_columns(checked) == 1 && written && counted ? 0 : 1;
}
