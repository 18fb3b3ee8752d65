/* Writes an image to standard output: a timetable, a holiday calendar and a zone list.

   usage: make_image >FILE

   The timetable and the calendar are protected, so that the image has a parity plane for each. */
#include <inttypes.h>
#include <stdio.h>
#include <stdlib.h>
#include "kw.h"

_Static_assert(sizeof(kw_row) == 8, "a row is 8 bytes");
_Static_assert(offsetof(kw_row, kind) == 0, "the kind comes first");
_Static_assert(offsetof(kw_row, flags) == 2, "then the flags");
_Static_assert(offsetof(kw_row, words) == 4, "then the words");

enum { TIMETABLE = 1, CALENDAR = 2, ZONES = 3 };
enum { WORDS = 9 + 4 + 2, ROOM = 1024 };

static const kw_row plan[] = {
    {TIMETABLE, KW_FLAG_PROTECTED, 9},
    {CALENDAR, KW_FLAG_PROTECTED, 4},
    {ZONES, 0, 2},
};

int main(void) {
    static uint8_t payload[8 * WORDS], out[ROOM];
    uint64_t answer[KW_WRITE_NUMBERS];
    for (size_t i = 0; i < sizeof payload; i++) payload[i] = (uint8_t)(7 * i + 1);
    uint32_t number =
        kw_write(plan, sizeof plan / sizeof *plan, payload, sizeof payload, out, sizeof out, answer);
    if (number != KW_OK) {
        fprintf(stderr, "make_image: refused, %s (%" PRIu32 "), detail %" PRIu64 "\n",
                kw_refusal_name(number), number, answer[KW_DETAIL]);
        return EXIT_FAILURE;
    }
    size_t length = (size_t)answer[KW_WRITE_LENGTH];
    if (fwrite(out, 1, length, stdout) != length || fflush(stdout) != 0) {
        perror("make_image");
        return EXIT_FAILURE;
    }
    return EXIT_SUCCESS;
}
