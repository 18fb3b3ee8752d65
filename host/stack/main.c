/* Measures the stack that each function of libkw.a takes, and holds it against include/kw.h.

   A thread runs on a stack that was painted before. How far the paint is gone below the frame that makes
   the call is what the call took. The images reach every depth: 1,024 regions, with words to repair,
   damaged and cut, and one that is no image. */
#define _POSIX_C_SOURCE 200809L
#include <pthread.h>
#include <stdio.h>
#include <stdlib.h>
#include <string.h>
#include "../../tests/kw_test.h"
#include "kw.h"

enum { ROWS = 512, WORDS = 3, STACK = 1 << 18 };
enum { REGIONS = 2 * ROWS, FIRST = 6 + 6 * REGIONS, LEN = 8 * (FIRST + ROWS * (WORDS + 1)) };

static uint8_t image[LEN], stack[STACK] __attribute__((aligned(4096)));
static uint64_t answer[KW_MEND_NUMBERS];
static size_t len;

static void put(size_t at, uint64_t value, size_t width) {
    for (size_t i = 0; i < width; i++) image[at + i] = (uint8_t)(value >> 8 * i);
}

static void put_entry(size_t i, uint16_t kind, uint16_t flags, size_t offset, size_t words) {
    size_t at = 48 + 16 * i;
    put(at, kind, 2);
    put(at + 2, flags, 2);
    put(at + 4, offset, 4);
    put(at + 8, words, 4);
    put(at + 12, flags == KW_FLAG_PLANE ? kind & 0x7FFF : 0, 2);
}

/* 512 protected regions of three words, each with its plane; every fifth word has a flipped bit. */
static void make_image(void) {
    put(0, 0x4B415558, 4);
    put(4, 0xFEFF, 2);
    put(6, KW_FORMAT_VERSION, 2);
    put(8, REGIONS, 2);
    put(12, kwt_crc32(image, 12), 4);
    for (size_t row = 0; row < ROWS; row++) {
        size_t data = FIRST + WORDS * row, plane = FIRST + WORDS * ROWS + row;
        put_entry(row, (uint16_t)row, KW_FLAG_PROTECTED, data, WORDS);
        put_entry(ROWS + row, (uint16_t)(0x8000 + row), KW_FLAG_PLANE, plane, 1);
        for (size_t w = 0; w < WORDS; w++) {
            uint64_t value = (row + 1) * 0x9E3779B97F4A7C15 + w;
            put(8 * plane + w, kwt_check_byte(value), 1);
            put(8 * (data + w), value ^ ((row + w) % 5 == 0), 8);
        }
    }
    for (size_t copy = 1; copy < 3; copy++) {
        memcpy(image + 16 * copy, image, 16);
        memcpy(image + 48 + 16 * REGIONS * copy, image + 48, 16 * REGIONS);
    }
}

/* Where the frame stands that makes the call: what lies below is the callee's. */
static uint8_t *caller;

#define CALL_WITH(NAME, ...) \
    static void call_##NAME(void) { \
        caller = __builtin_frame_address(0); \
        kw_##NAME(image, len, __VA_ARGS__); \
    }
#define CALL(NAME) CALL_WITH(NAME, answer)
CALL(parse)
CALL_WITH(region, 0x8000 + ROWS - 1, answer) /* the last entry */
CALL_WITH(region_at, REGIONS - 1, answer)
CALL(scan)
CALL(scrub)
CALL(mend)

/* The plan of that image, and what it takes. */
static kw_row rows[ROWS];
static uint8_t payload[8 * WORDS * ROWS], out[LEN];

static void call_write(void) {
    caller = __builtin_frame_address(0);
    kw_write(rows, ROWS, payload, sizeof payload, out, len, answer);
}

static void make_plan(void) {
    for (size_t row = 0; row < ROWS; row++)
        rows[row] = (kw_row){(uint16_t)row, KW_FLAG_PROTECTED, WORDS};
}

static void *run(void *call) {
    void (*function)(void);
    memcpy(&function, call, sizeof function);
    function();
    return NULL;
}

/* How far below its caller a call wrote to a stack of this paint. */
static size_t depth(void (*call)(void), uint8_t paint) {
    pthread_attr_t attr;
    pthread_t thread;
    memset(stack, paint, sizeof stack);
    if (pthread_attr_init(&attr) != 0 || pthread_attr_setstack(&attr, stack, sizeof stack) != 0
        || pthread_create(&thread, &attr, run, &call) != 0 || pthread_join(thread, NULL) != 0)
        exit(2);
    uint8_t *deepest = stack;
    while (deepest < caller && *deepest == paint) deepest++;
    return (size_t)(caller - deepest);
}

/* The most over the images; 1 if it is within the bound. */
static int measure(const char *name, void (*call)(void), size_t bound) {
    size_t most = 0;
    for (int turn = 0; turn < 8; turn++) {
        memset(image, 0, sizeof image);
        if (turn % 4 > 0) make_image();
        if (turn % 4 == 3) image[17] ^= 1;
        len = turn % 4 == 2 ? LEN - 1 : LEN;
        size_t took = depth(call, turn < 4 ? 0xA5 : 0x5A);
        if (took > most) most = took;
    }
    printf("%-12s %5zu bytes of stack, bound %zu\n", name, most, bound);
    return most > 0 && most <= bound;
}

int main(void) {
    int good = measure("kw_parse", call_parse, KW_PARSE_STACK);
    good &= measure("kw_region", call_region, KW_REGION_STACK);
    good &= measure("kw_region_at", call_region_at, KW_REGION_AT_STACK);
    good &= measure("kw_scan", call_scan, KW_SCAN_STACK);
    good &= measure("kw_scrub", call_scrub, KW_SCRUB_STACK);
    good &= measure("kw_mend", call_mend, KW_MEND_STACK);
    make_plan();
    good &= measure("kw_write", call_write, KW_WRITE_STACK);
    return good ? EXIT_SUCCESS : EXIT_FAILURE;
}
