/* The release: its number, which #if compares, and its text. */
#include "../../include/searchroom.h"
#include "case.h"
#include <stdio.h>

#if SEARCHROOM_VERSION_NUMBER < 701
#error "#if finds no number of this release or a later one"
#endif

static void number_and_text_of_the_release(void)
{
    unsigned major = 0, minor = 0, patch = 0;
    char after;
    EXPECT_EQ(sscanf(SEARCHROOM_VERSION, "%u.%u.%u%c", &major, &minor, &patch, &after), 3);
    EXPECT(minor < 100 && patch < 100);
    EXPECT_EQ(SEARCHROOM_VERSION_NUMBER, major * 10000 + minor * 100 + patch);
}

void version_cases(void) { CASE(number_and_text_of_the_release); }
