/* What firmware does with an image: parse it, scan it, mend it, parse it afresh, find what it needs. What
   scrub would say stands beside it.

   usage: firmware FILE

   Prints what each call says, and `load` if mend called the image whole, and it then parses and has a
   holiday calendar; the file itself is never written. Exit status 0 if it says so. In firmware, whatever
   approved the image would have a say before that, over the mended bytes. */
#include <inttypes.h>
#include <stdio.h>
#include <stdlib.h>
#include <string.h>
#include "kw.h"

enum { CALENDAR = 2 }; /* the kind that make_image.c gives it */

static void refused(const char *call, uint32_t number, uint64_t detail) {
    printf("%s: refused, %s (%" PRIu32 "), detail %" PRIu64 "\n", call, kw_refusal_name(number),
           number, detail);
}

/* 1 if the image is accepted. */
static int parse(const uint8_t *image, size_t len) {
    uint64_t answer[KW_PARSE_NUMBERS];
    uint32_t number = kw_parse(image, len, answer);
    if (number != KW_OK) {
        refused("parse", number, answer[KW_DETAIL]);
        return 0;
    }
    printf("parse: %" PRIu64 " regions, header copies %s\n", answer[KW_PARSE_REGIONS],
           answer[KW_PARSE_SCRUB_WANTED] != 0 ? "damaged" : "agree");
    return 1;
}

/* The calendar's bytes in an image, and how many they are; NULL if it has none. */
static const uint8_t *calendar(const uint8_t *image, size_t len, size_t *bytes) {
    uint64_t answer[KW_REGION_NUMBERS];
    if (kw_region(image, len, CALENDAR, answer) != KW_OK || answer[KW_REGION_FOUND] == 0)
        return NULL;
    *bytes = (size_t)(answer[KW_REGION_PAST] - answer[KW_REGION_FIRST]);
    return image + answer[KW_REGION_FIRST];
}

/* Prints a report, or that there is none. */
static void report(const char *call, const uint64_t answer[KW_REPORT_NUMBERS]) {
    if (answer[KW_REPORT_GIVEN] == 0)
        printf("%s: nothing\n", call);
    else
        printf("%s: %" PRIu64 " words, %" PRIu64 " corrected, %" PRIu64 " uncorrectable\n", call,
               answer[KW_REPORT_WORDS], answer[KW_REPORT_CORRECTED], answer[KW_REPORT_UNCORRECTABLE]);
}

/* Scrub works on a copy: it repairs words where mend refuses, and leaves header copies and check bytes. */
static void scrub_copy(const uint8_t *image, size_t len) {
    uint64_t answer[KW_REPORT_NUMBERS];
    uint8_t *copy = malloc(len);
    if (copy == NULL) return;
    memcpy(copy, image, len);
    kw_scrub(copy, len, answer);
    report("scrub of a copy", answer);
    free(copy);
}

/* 1 if the image is whole. */
static int mend(uint8_t *image, size_t len) {
    uint64_t answer[KW_MEND_NUMBERS];
    uint32_t number = kw_mend(image, len, answer);
    if (number != KW_OK) {
        refused("mend", number, answer[KW_DETAIL]);
        return 0;
    }
    report("mend", answer);
    printf("mend: %" PRIu64 " bytes stored, %s\n", answer[KW_MEND_STORED],
           answer[KW_MEND_WHOLE] != 0 ? "whole" : "not whole");
    return answer[KW_MEND_WHOLE] != 0;
}

/* Says what becomes of the image; 1 if it may be loaded. */
static int check(uint8_t *image, size_t len) {
    uint64_t answer[KW_REPORT_NUMBERS];
    if (!parse(image, len)) return 0;
    kw_scan(image, len, answer);
    report("scan", answer);
    scrub_copy(image, len);
    if (!mend(image, len)) return 0;
    /* mend wrote to the image: what was checked before is checked again */
    if (!parse(image, len)) return 0;
    size_t bytes = 0;
    const uint8_t *holidays = calendar(image, len, &bytes);
    if (holidays == NULL) {
        printf("no calendar\n");
        return 0;
    }
    printf("calendar: %zu bytes from %td on\n", bytes, holidays - image);
    printf("load\n");
    return 1;
}

/* Reads a file into memory that is exactly as long; NULL if it can't. */
static uint8_t *read_file(const char *path, size_t *len) {
    FILE *file = fopen(path, "rb");
    if (file == NULL) return NULL;
    uint8_t *bytes = NULL;
    long size = fseek(file, 0, SEEK_END) == 0 ? ftell(file) : -1;
    if (size >= 0 && fseek(file, 0, SEEK_SET) == 0) {
        *len = (size_t)size;
        bytes = malloc(*len > 0 ? *len : 1);
        if (bytes != NULL && fread(bytes, 1, *len, file) != *len) {
            free(bytes);
            bytes = NULL;
        }
    }
    fclose(file);
    return bytes;
}

int main(int argc, char **argv) {
    size_t len = 0;
    uint8_t *image = argc == 2 ? read_file(argv[1], &len) : NULL;
    if (image == NULL) {
        fprintf(stderr, "usage: firmware FILE\n");
        return 2;
    }
    int good = check(image, len);
    free(image);
    return good ? EXIT_SUCCESS : EXIT_FAILURE;
}
