/* Replays recorded answers, of the Rust and for mend and the writer of our own readings of docs/FORMAT.md,
   against libkw_test.a and libkw.a.

   usage: replay FILE...

   A line is `function arguments -> answer`; lines that start with '#' are comments. Numbers are
   decimal. Bytes are hex, `-` for none, `00*600` for some repeated, `#1024` for directory entries of
   the kinds 0 to 1023 that are 0 otherwise, `~160` for 160 bytes of a pattern (`part_byte`), joined by
   `+`. A plan's row is `KIND.FLAGS.WORDS`, with `*9` nine such of ascending kinds, joined by `+`, or `-`
   for none. Where an image is lent to be written, the answer ends with the bytes that moved, as
   `PLACE=VALUE,...` or `-`. Where an output is, it ends with all of its bytes, or `=` if each is as it
   was, or where they are more than MOST_TOLD the checksums of the image and of what lies behind it. Prints
   `replayed N lines, M different`; exit status 1 if a line differs or isn't understood, or if a
   file has no line. A new function is one row of `rows` and the one-line call that the row names. */
#define _POSIX_C_SOURCE 200809L
#include <inttypes.h>
#include <stdio.h>
#include <stdlib.h>
#include <string.h>
#include "../include/kw.h"
#include "kw_test.h"

/* What the header names, as FORMAT 2, 3 and 9 have it: a recorded answer is a number without a name. */
_Static_assert(KW_TRUNCATED == 1 && KW_BAD_MAGIC == 2 && KW_FOREIGN_ENDIAN == 3 &&
                   KW_UNSUPPORTED_VERSION == 4 && KW_BAD_PROLOGUE_CHECKSUM == 5 &&
                   KW_TOO_MANY_REGIONS == 6 && KW_REGION_OUT_OF_BOUNDS == 7 &&
                   KW_DUPLICATE_REGION == 8 && KW_BAD_RECORD_STRIDE == 9 && KW_OVERFLOW == 10 &&
                   KW_TOO_LARGE == 11 && KW_OVERLAPPING_REGIONS == 12 && KW_NO_ROOM == 13 &&
                   KW_BAD_PLAN == 14 && KW_OK == 0,
               "refusals");
_Static_assert(KW_FLAG_ENCRYPTED == 1 && KW_FLAG_PROTECTED == 2 && KW_FLAG_OPTIONAL == 4 &&
                   KW_FLAG_PLANE == 8,
               "flags");
_Static_assert(KW_FORMAT_VERSION == 2 && KW_WORD_BYTES == 8 && KW_MAX_REGIONS == 1024 &&
                   KW_HEADER_BYTES(KW_MAX_REGIONS) == 49200 && KW_MAX_HEADER_BYTES == 49200 &&
                   KW_MAX_IMAGE_BYTES == 8388608,
               "limits");
_Static_assert(KW_DETAIL == 0 && KW_PARSE_REGIONS == 0 && KW_PARSE_SCRUB_WANTED == 1 &&
                   KW_REGION_FOUND == 0 && KW_REGION_FIRST == 1 && KW_REGION_PAST == 2 &&
                   KW_REGION_FLAGS == 3 && KW_REGION_AT_FOUND == 0 && KW_REGION_AT_KIND == 1 &&
                   KW_REGION_AT_FLAGS == 2 && KW_REGION_AT_FIRST == 3 && KW_REGION_AT_PAST == 4 &&
                   KW_REGION_AT_COVERS == 5 && KW_REPORT_GIVEN == 0 && KW_REPORT_WORDS == 1 &&
                   KW_REPORT_CORRECTED == 2 && KW_REPORT_UNCORRECTABLE == 3 && KW_MEND_STORED == 4 &&
                   KW_MEND_WHOLE == 5 && KW_WRITE_LENGTH == 0,
               "places in an answer");

enum { MOST_SLICES = 2, MOST_NUMBERS = 8, MOST_BYTES = 8, LONGEST_BYTES = 1 << 24, SHOWN = 10 };
enum { MOST_TOLD = 1024, LONGEST_ANSWER = 4096 };

struct slice {
    uint8_t *bytes;
    size_t len;
};

struct input {
    kw_row *rows;
    size_t rows_len;
    struct slice b[MOST_SLICES];
    uint64_t n[MOST_NUMBERS];
};

struct output {
    uint64_t n[MOST_NUMBERS];
    uint8_t bytes[MOST_BYTES];
};

#define CALL(NAME) static void call_##NAME(const struct input *in, struct output *out)
#define SLICE(I) in->b[I].bytes, in->b[I].len
CALL(u8_at) { kwt_u8_at(SLICE(0), in->n[0], out->n); }
CALL(u16_at) { kwt_u16_at(SLICE(0), in->n[0], out->n); }
CALL(u32_at) { kwt_u32_at(SLICE(0), in->n[0], out->n); }
CALL(u64_at) { kwt_u64_at(SLICE(0), in->n[0], out->n); }
CALL(u8_bytes) { kwt_u8_bytes((uint8_t)in->n[0], out->bytes); }
CALL(u16_bytes) { kwt_u16_bytes((uint16_t)in->n[0], out->bytes); }
CALL(u32_bytes) { kwt_u32_bytes((uint32_t)in->n[0], out->bytes); }
CALL(u64_bytes) { kwt_u64_bytes(in->n[0], out->bytes); }
CALL(maj3) { out->n[0] = kwt_maj3((uint8_t)in->n[0], (uint8_t)in->n[1], (uint8_t)in->n[2]); }
CALL(crc32) { out->n[0] = kwt_crc32(SLICE(0)); }
CALL(words_for) { kwt_words_for(in->n[0], out->n); }
CALL(header_bytes) { kwt_header_bytes(in->n[0], out->n); }
CALL(region) {
    kwt_region((uint16_t)in->n[0], (uint16_t)in->n[1], (uint32_t)in->n[2], (uint32_t)in->n[3],
               (uint16_t)in->n[4], out->n);
}
CALL(plane_kind_for) { out->n[0] = kwt_plane_kind_for((uint16_t)in->n[0]); }
CALL(check_byte) { out->n[0] = kwt_check_byte(in->n[0]); }
CALL(decode_word) { kwt_decode_word(in->n[0], (uint8_t)in->n[1], out->n); }
CALL(plane_word) { kwt_plane_word(SLICE(0), SLICE(1), in->n[0], out->n); }
CALL(plane_scan) { kwt_plane_scan(SLICE(0), SLICE(1), out->n); }
CALL(report) { kwt_report(in->n[0], in->n[1], in->n[2], out->n); }
CALL(parse) { kwt_parse(SLICE(0), out->n); }
CALL(region_at) { kwt_region_at(SLICE(0), (uint16_t)in->n[0], (uint16_t)in->n[1], out->n); }
CALL(find_region) { kwt_find_region(SLICE(0), (uint16_t)in->n[0], (uint16_t)in->n[1], out->n); }
CALL(ecc_for) { kwt_ecc_for(SLICE(0), (uint16_t)in->n[0], (uint16_t)in->n[1], out->n); }
CALL(region_span) {
    kwt_region_span(in->n[0], (uint32_t)in->n[1], (uint32_t)in->n[2], out->n);
}
CALL(records_span) {
    kwt_records_span(in->n[0], (uint32_t)in->n[1], (uint32_t)in->n[2], in->n[3], out->n);
}
CALL(record_place) { kwt_record_place(in->n[0], in->n[1], in->n[2], out->n); }
CALL(pool_place) { kwt_pool_place(in->n[0], (uint32_t)in->n[1], (uint32_t)in->n[2], out->n); }
CALL(is_table) { out->n[0] = kwt_is_table(SLICE(0), in->n[0]); }
CALL(record_count) { out->n[0] = kwt_record_count(SLICE(0), in->n[0]); }
CALL(range_is_forward) {
    out->n[0] = kwt_range_is_forward(SLICE(0), in->n[0], in->n[1], (uint32_t)in->n[2],
                                     (uint32_t)in->n[3]);
}
CALL(region_bytes) {
    kwt_region_bytes(SLICE(0), (uint32_t)in->n[0], (uint32_t)in->n[1], out->n);
}
CALL(records_bytes) {
    kwt_records_bytes(SLICE(0), (uint32_t)in->n[0], (uint32_t)in->n[1], in->n[2], out->n);
}
CALL(record_bytes) { kwt_record_bytes(SLICE(0), in->n[0], in->n[1], out->n); }
CALL(pool_bytes) { kwt_pool_bytes(SLICE(0), (uint32_t)in->n[0], (uint32_t)in->n[1], out->n); }
CALL(borrowed_table) { kwt_borrowed_table(SLICE(0), in->n[0], out->n); }
CALL(borrowed_record) { kwt_borrowed_record(SLICE(0), in->n[0], in->n[1], out->n); }
CALL(borrowed_forward) {
    out->n[0] = kwt_borrowed_forward(SLICE(0), in->n[0], in->n[1], (uint32_t)in->n[2],
                                 (uint32_t)in->n[3]);
}
CALL(borrowed_pool) { kwt_borrowed_pool(SLICE(0), (uint32_t)in->n[0], (uint32_t)in->n[1], out->n); }
CALL(borrowed_plane) { kwt_borrowed_plane(SLICE(0), SLICE(1), in->n[0], out->n); }
CALL(verify_region) {
    kwt_verify_region(SLICE(0), (uint16_t)in->n[0], (uint16_t)in->n[1], (uint16_t)in->n[2],
                      (uint32_t)in->n[3], (uint32_t)in->n[4], (uint16_t)in->n[5], out->n);
}
CALL(verify_all) { kwt_verify_all(SLICE(0), (uint16_t)in->n[0], out->n); }
CALL(scrub) { kwt_scrub(SLICE(0), out->n); }
CALL(kw_parse) { out->n[0] = kw_parse(SLICE(0), out->n + 1); }
CALL(kw_region) { out->n[0] = kw_region(SLICE(0), (uint16_t)in->n[0], out->n + 1); }
CALL(kw_region_at) { out->n[0] = kw_region_at(SLICE(0), (uint32_t)in->n[0], out->n + 1); }
CALL(kw_scan) { out->n[0] = kw_scan(SLICE(0), out->n + 1); }
CALL(kw_scrub) { out->n[0] = kw_scrub(SLICE(0), out->n + 1); }
CALL(kw_mend) { out->n[0] = kw_mend(SLICE(0), out->n + 1); }
CALL(kw_write) { out->n[0] = kw_write(in->rows, in->rows_len, SLICE(0), SLICE(1), out->n + 1); }

struct row {
    const char *name;
    const char *takes; /* b: bytes; w: an image to be written; o: an output, last; r: a plan's rows;
                          1, 2, 4, 8: a number of so many bytes */
    int numbers;       /* numbers of the answer, or */
    int bytes;         /* bytes of the answer */
    void (*call)(const struct input *, struct output *);
};

static const struct row rows[] = {
    {"u8_at", "b8", 2, 0, call_u8_at},
    {"u16_at", "b8", 2, 0, call_u16_at},
    {"u32_at", "b8", 2, 0, call_u32_at},
    {"u64_at", "b8", 2, 0, call_u64_at},
    {"u8_bytes", "1", 0, 1, call_u8_bytes},
    {"u16_bytes", "2", 0, 2, call_u16_bytes},
    {"u32_bytes", "4", 0, 4, call_u32_bytes},
    {"u64_bytes", "8", 0, 8, call_u64_bytes},
    {"maj3", "111", 1, 0, call_maj3},
    {"crc32", "b", 1, 0, call_crc32},
    {"words_for", "8", 2, 0, call_words_for},
    {"header_bytes", "8", 2, 0, call_header_bytes},
    {"region", "22442", 5, 0, call_region},
    {"plane_kind_for", "2", 1, 0, call_plane_kind_for},
    {"check_byte", "8", 1, 0, call_check_byte},
    {"decode_word", "81", 2, 0, call_decode_word},
    {"plane_word", "bb8", 3, 0, call_plane_word},
    {"plane_scan", "bb", 3, 0, call_plane_scan},
    {"report", "888", 2, 0, call_report},
    {"parse", "b", 4, 0, call_parse},
    {"region_at", "b22", 6, 0, call_region_at},
    {"find_region", "b22", 6, 0, call_find_region},
    {"ecc_for", "b22", 3, 0, call_ecc_for},
    {"region_span", "844", 3, 0, call_region_span},
    {"records_span", "8448", 3, 0, call_records_span},
    {"record_place", "888", 3, 0, call_record_place},
    {"pool_place", "844", 3, 0, call_pool_place},
    {"is_table", "b8", 1, 0, call_is_table},
    {"record_count", "b8", 1, 0, call_record_count},
    {"range_is_forward", "b8844", 1, 0, call_range_is_forward},
    {"region_bytes", "b44", 2, 0, call_region_bytes},
    {"records_bytes", "b448", 2, 0, call_records_bytes},
    {"record_bytes", "b88", 2, 0, call_record_bytes},
    {"pool_bytes", "b44", 2, 0, call_pool_bytes},
    {"borrowed_table", "b8", 3, 0, call_borrowed_table},
    {"borrowed_record", "b88", 5, 0, call_borrowed_record},
    {"borrowed_forward", "b8844", 1, 0, call_borrowed_forward},
    {"borrowed_pool", "b44", 7, 0, call_borrowed_pool},
    {"borrowed_plane", "bb8", 8, 0, call_borrowed_plane},
    {"verify_region", "b222442", 4, 0, call_verify_region},
    {"verify_all", "b2", 4, 0, call_verify_all},
    {"scrub", "w", 4, 0, call_scrub},
    {"kw_parse", "b", 1 + KW_PARSE_NUMBERS, 0, call_kw_parse},
    {"kw_region", "b2", 1 + KW_REGION_NUMBERS, 0, call_kw_region},
    {"kw_region_at", "b4", 1 + KW_REGION_AT_NUMBERS, 0, call_kw_region_at},
    {"kw_scan", "b", 1 + KW_REPORT_NUMBERS, 0, call_kw_scan},
    {"kw_scrub", "w", 1 + KW_REPORT_NUMBERS, 0, call_kw_scrub},
    {"kw_mend", "w", 1 + KW_MEND_NUMBERS, 0, call_kw_mend},
    {"kw_write", "rbo", 1 + KW_WRITE_NUMBERS, 0, call_kw_write},
};

/* Reads a decimal number of at most `width` bytes; 0 if it isn't one. */
static int read_number(const char *word, int width, uint64_t *n) {
    uint64_t most = UINT64_MAX >> (64 - 8 * width);
    *n = 0;
    if (*word == '\0') return 0;
    for (; *word != '\0'; word++) {
        uint64_t digit = (uint64_t)(*word - '0');
        if (*word < '0' || *word > '9' || *n > (most - digit) / 10) return 0;
        *n = *n * 10 + digit;
    }
    return 1;
}

static int hex_digit(char c) {
    if (c >= '0' && c <= '9') return c - '0';
    if (c >= 'a' && c <= 'f') return c - 'a' + 10;
    return -1;
}

static int read_byte(const char *two, uint8_t *byte) {
    int high = hex_digit(two[0]);
    int low = high < 0 ? -1 : hex_digit(two[1]);
    *byte = (uint8_t)(high * 16 + low);
    return low >= 0;
}

/* Byte `at` of a part: of the directory entries `#`, of the pattern `~`, or of hex; 0 if it is no hex.
   The pattern is never 0, so that a byte that should become 0 shows. */
static int part_byte(const char *part, size_t at, uint8_t *byte) {
    if (part[0] == '#')
        *byte = at % 16 == 0 ? (uint8_t)(at / 16) : at % 16 == 1 ? (uint8_t)(at / 4096) : 0;
    else if (part[0] == '~')
        *byte = (uint8_t)(1 + ((uint32_t)at * 2654435761u >> 24) % 255);
    else
        return read_byte(part + 2 * at, byte);
    return 1;
}

/* Writes `#COUNT`, `~COUNT` or hex, and `*COUNT` times over, to `to` if that isn't NULL. Leaves its
   length in `len`; 0 if it is none of them. */
static int read_part(const char *part, uint8_t *to, size_t *len) {
    uint64_t count = 1, made = 0;
    size_t plain = strcspn(part, "*");
    if (part[plain] == '*' && !read_number(part + plain + 1, 8, &count)) return 0;
    if (part[0] == '#' || part[0] == '~') {
        char digits[9] = "";
        if (plain > sizeof digits) return 0;
        memcpy(digits, part + 1, plain - 1);
        if (!read_number(digits, 4, &made)) return 0;
    } else if (plain % 2 != 0) {
        return 0;
    }
    size_t once = part[0] == '#' ? 16 * (size_t)made : part[0] == '~' ? (size_t)made : plain / 2;
    if (count > LONGEST_BYTES || (*len = once * (size_t)count) > LONGEST_BYTES) return 0;
    for (size_t i = 0; to != NULL && i < *len; i++)
        if (!part_byte(part, i % once, &to[i])) return 0;
    return 1;
}

/* Reads `-`, or parts joined by `+`, into fresh memory; 0 if it is neither. */
static int read_bytes(char *word, struct slice *b) {
    char *parts = strcmp(word, "-") == 0 ? word + 1 : word;
    char *end = word + strlen(word);
    size_t len;
    for (char *p = parts; p < end; p++)
        if (*p == '+') *p = '\0';
    for (char *p = parts; p < end; p += strlen(p) + 1, b->len += len)
        if (!read_part(p, NULL, &len)) return 0;
    /* exactly as long as the input, so that a checker of memory sees a read past its end */
    b->bytes = malloc(b->len > 0 ? b->len : 1);
    if (b->bytes == NULL) return 0;
    uint8_t *to = b->bytes;
    for (char *p = parts; p < end; p += strlen(p) + 1, to += len)
        if (!read_part(p, to, &len)) return 0;
    return 1;
}

/* Ends a word before its first `c`, and gives what follows, or NULL. */
static char *cut(char *word, char c) {
    char *at = strchr(word, c);
    if (at != NULL) *at++ = '\0';
    return at;
}

/* Reads `KIND.FLAGS.WORDS` or `KIND.FLAGS.WORDS*COUNT`; 0 if it is neither. */
static int read_row(char *part, kw_row *row, uint64_t *count) {
    char *times = cut(part, '*');
    char *flags = cut(part, '.');
    char *words = flags == NULL ? NULL : cut(flags, '.');
    uint64_t n[3];
    if (words == NULL || !read_number(part, 2, &n[0]) || !read_number(flags, 2, &n[1]) ||
        !read_number(words, 4, &n[2]))
        return 0;
    *row = (kw_row){(uint16_t)n[0], (uint16_t)n[1], (uint32_t)n[2]};
    *count = 1;
    return times == NULL || read_number(times, 2, count);
}

/* Reads `-`, or rows joined by `+`, into fresh memory, exactly as much as they take; 0 if it is neither. */
static int read_rows(char *word, struct input *in) {
    if ((in->rows = malloc(sizeof *in->rows)) == NULL) return 0;
    for (char *part = strcmp(word, "-") == 0 ? NULL : word, *next; part != NULL; part = next) {
        kw_row row;
        uint64_t count;
        next = cut(part, '+');
        if (!read_row(part, &row, &count) || count == 0) return 0;
        kw_row *more = realloc(in->rows, (in->rows_len + (size_t)count) * sizeof row);
        if (more == NULL) return 0;
        in->rows = more;
        for (; count > 0; count--, row.kind++) in->rows[in->rows_len++] = row;
    }
    return 1;
}

static int read_argument(char *word, char takes, struct input *in, int *b, int *n) {
    switch (takes) {
    case 'r': return read_rows(word, in);
    case 'b':
    case 'w':
    case 'o': return read_bytes(word, &in->b[(*b)++]);
    default: return read_number(word, takes - '0', &in->n[(*n)++]);
    }
}

/* Reads the words of `arguments` as `takes` names them; 0 if there are other words, more or fewer. */
static int read_input(char *arguments, const char *takes, struct input *in) {
    char *rest = NULL;
    char *word = strtok_r(arguments, " ", &rest);
    for (int b = 0, n = 0; *takes != '\0'; takes++, word = strtok_r(NULL, " ", &rest))
        if (word == NULL || !read_argument(word, *takes, in, &b, &n)) return 0;
    return word == NULL;
}

struct text {
    char *at;
    size_t room;
};

#define ADD(TEXT, ...) added(TEXT, snprintf((TEXT)->at, (TEXT)->room, __VA_ARGS__))
static void added(struct text *text, int len) {
    if (len < 0 || (size_t)len >= text->room) exit(2);
    text->at += len;
    text->room -= (size_t)len;
}

/* The CRC-32 of FORMAT 4, by a table of its own: ours is not asked. */
static uint32_t checksum(const uint8_t *bytes, size_t len) {
    static uint32_t table[256];
    for (uint32_t i = 0; table[255] == 0 && i < 256; i++) {
        table[i] = i;
        for (int bit = 0; bit < 8; bit++) table[i] = table[i] >> 1 ^ (table[i] & 1) * 0xEDB88320u;
    }
    uint32_t crc = UINT32_MAX;
    for (size_t i = 0; i < len; i++) crc = crc >> 8 ^ table[(crc ^ bytes[i]) & 255];
    return ~crc;
}

/* The bytes of an image that moved; `before` has those that were lent. */
static void moved_text(const struct slice *after, const uint8_t *before, struct text *text) {
    const char *joint = " ";
    for (size_t i = 0; i < after->len; i++)
        if (after->bytes[i] != before[i]) {
            ADD(text, "%s%zu=%02x", joint, i, after->bytes[i]);
            joint = ",";
        }
    if (joint[0] == ' ') ADD(text, " -");
}

/* All bytes of an output that holds an image of so many bytes, and what lies behind it. */
static void output_text(const struct slice *after, const uint8_t *before, uint64_t image,
                        struct text *text) {
    if (after->len == 0 || memcmp(after->bytes, before, after->len) == 0) {
        ADD(text, " =");
    } else if (after->len > MOST_TOLD) {
        size_t end = image < after->len ? (size_t)image : after->len;
        ADD(text, " %" PRIu32 " %" PRIu32, checksum(after->bytes, end),
            checksum(after->bytes + end, after->len - end));
    } else {
        ADD(text, " ");
        for (size_t i = 0; i < after->len; i++) ADD(text, "%02x", after->bytes[i]);
    }
}

/* The bytes that a function is lent to be written, or its first ones. */
static const struct slice *lent(const struct row *row, const struct input *in) {
    return &in->b[strchr(row->takes, 'o') != NULL ? 1 : 0];
}

/* Writes our answer as the recorded lines have it; `before` has the lent bytes as they were. */
static void answer_text(const struct row *row, const struct output *out, const struct input *in,
                        const uint8_t *before, struct text *text) {
    for (int i = 0; i < row->numbers; i++) ADD(text, "%s%" PRIu64, i > 0 ? " " : "", out->n[i]);
    for (int i = 0; i < row->bytes; i++) ADD(text, "%02x", out->bytes[i]);
    if (strchr(row->takes, 'w') != NULL) moved_text(lent(row, in), before, text);
    if (strchr(row->takes, 'o') != NULL) output_text(lent(row, in), before, out->n[1], text);
}

static const struct row *find_row(const char *name) {
    for (size_t i = 0; i < sizeof rows / sizeof rows[0]; i++)
        if (strcmp(rows[i].name, name) == 0) return &rows[i];
    return NULL;
}

/* Runs one line, which it takes apart, and leaves our answer in `ours`. NULL if the line isn't
   understood, otherwise the recorded answer. */
static const char *run_line(char *line, char *ours, size_t room) {
    char *arrow = strstr(line, " -> ");
    char *space = strchr(line, ' ');
    if (arrow == NULL || space == arrow) return NULL;
    *space = *arrow = '\0';
    const struct row *row = find_row(line);
    struct input in = {0};
    uint8_t *before = NULL;
    const char *recorded = NULL;
    if (row != NULL && read_input(space + 1, row->takes, &in)) {
        struct output out;
        struct text text = {ours, room};
        memset(&out, 0xA5, sizeof out); /* what a call leaves unwritten is seen as a difference */
        const struct slice *bytes = lent(row, &in);
        if ((before = malloc(bytes->len + 1)) == NULL) exit(2);
        if (bytes->len > 0) memcpy(before, bytes->bytes, bytes->len);
        row->call(&in, &out);
        answer_text(row, &out, &in, before, &text);
        recorded = arrow + 4;
    }
    free(before);
    free(in.rows);
    for (int i = 0; i < MOST_SLICES; i++) free(in.b[i].bytes);
    return recorded;
}

struct tally {
    unsigned long lines, different;
};

static void replay_line(const char *path, unsigned long number, char *line, struct tally *tally) {
    char ours[LONGEST_ANSWER];
    const char *recorded = run_line(line, ours, sizeof ours);
    tally->lines++;
    if (recorded != NULL && strcmp(ours, recorded) == 0) return;
    tally->different++;
    if (tally->different > SHOWN) return;
    if (recorded == NULL)
        printf("NOT UNDERSTOOD %s:%lu\n", path, number);
    else
        printf("DIFFERENT %s:%lu %s: ours %s, recorded %s\n", path, number, line, ours, recorded);
}

/* Replays one file; 0 if it can't be read or has no line to replay. */
static int replay_file(const char *path, struct tally *tally) {
    FILE *file = fopen(path, "r");
    if (file == NULL) return 0;
    unsigned long before = tally->lines, number = 0;
    char *line = NULL;
    size_t room = 0;
    while (getline(&line, &room, file) >= 0) {
        number++;
        line[strcspn(line, "\n")] = '\0';
        if (line[0] != '#') replay_line(path, number, line, tally);
    }
    free(line);
    int good = !ferror(file);
    fclose(file);
    return good && tally->lines > before;
}

int main(int argc, char **argv) {
    struct tally tally = {0, 0};
    int good = argc > 1;
    for (int i = 1; i < argc; i++)
        if (!replay_file(argv[i], &tally)) {
            printf("NOTHING REPLAYED %s\n", argv[i]);
            good = 0;
        }
    printf("replayed %lu lines, %lu different\n", tally.lines, tally.different);
    return good && tally.lines > 0 && tally.different == 0 ? EXIT_SUCCESS : EXIT_FAILURE;
}
