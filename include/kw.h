/* kw: reads, scans, repairs and writes images of the keleusma-wire container (docs/FORMAT.md).

   Every function takes any bytes of any length, and returns. It reads and writes nothing but what
   it is given; the stack that a call takes is named below. Every number of `answer` is written at
   every call. What each function promises is proved in crates/kw.

   The caller sees to it that each pointer points to as many bytes, rows or numbers as are said, and
   `answer` to as many numbers as stand in its brackets; that what a call writes (`image` of kw_scrub and
   kw_mend, `out`, `answer`) shares no byte with anything else it is given, and that nothing else writes
   to any of it during the call; that `rows` is aligned for `kw_row`; and that no pointer is NULL, even
   where its length is 0.

   The target is x86-64 with SSE2, 64-bit pointers and the calling convention of System V, which is not
   that of Windows. No function allocates memory or calls the system; of a C library the archive needs
   `memset` alone. The library has no data that it writes and keeps nothing between calls, so that every
   function is re-entrant: threads may call any of them at the same time, each on memory of its own or on
   an image that all of them only read. An interrupt handler that calls one keeps the SSE registers. */
#ifndef KW_H
#define KW_H

#include <stddef.h>
#include <stdint.h>

#if UINTPTR_MAX != 0xFFFFFFFFFFFFFFFF
#error "kw.h: pointers must have 64 bits"
#endif

#ifdef __cplusplus
extern "C" {
#endif

/* The library's version. A program that was built with a header of another MAJOR must be built anew; it is
   the number in the shared library's name, libkw.so.0. The format's version is KW_FORMAT_VERSION. */
#define KW_LIBRARY_VERSION_MAJOR 0
#define KW_LIBRARY_VERSION_MINOR 2
#define KW_LIBRARY_VERSION_PATCH 0

/* What a function returns: 0, or why it refuses. A refusal's detail is in answer[KW_DETAIL], with zeros
   behind it; it is 0 where none is named here. A refused image is as it was. The numbers are the format's:
   none of the functions here gives 9 or 10, which belong to record tables and to narrower addresses. */
enum {
    KW_OK = 0,
    KW_TRUNCATED = 1,
    KW_BAD_MAGIC = 2,
    KW_FOREIGN_ENDIAN = 3,
    KW_UNSUPPORTED_VERSION = 4,    /* the version found */
    KW_BAD_PROLOGUE_CHECKSUM = 5,
    KW_TOO_MANY_REGIONS = 6,       /* the count found */
    KW_REGION_OUT_OF_BOUNDS = 7,   /* the entry's index */
    KW_DUPLICATE_REGION = 8,       /* the kind */
    KW_BAD_RECORD_STRIDE = 9,      /* given by none of the functions here */
    KW_OVERFLOW = 10,              /* given by none of the functions here */
    KW_TOO_LARGE = 11,
    KW_OVERLAPPING_REGIONS = 12,   /* the entry's index */
    KW_NO_ROOM = 13,
    KW_BAD_PLAN = 14               /* the row's index, or the number of rows */
};

/* A region's flags. */
enum {
    KW_FLAG_ENCRYPTED = 1,
    KW_FLAG_PROTECTED = 2, /* its words are checked, if a parity plane covers it */
    KW_FLAG_OPTIONAL = 4,
    KW_FLAG_PLANE = 8 /* it is a parity plane */
};

/* Limits. */
enum {
    KW_FORMAT_VERSION = 2, /* of the images */
    KW_WORD_BYTES = 8,
    KW_MAX_REGIONS = 1024,
    KW_MAX_HEADER_BYTES = 49200,
    KW_MAX_IMAGE_BYTES = 8388608 /* that kw_write makes */
};

/* The header of an image of so many regions. */
#define KW_HEADER_BYTES(regions) (48u + 48u * (size_t)(regions))

/* What stands where in an answer, and how many numbers it has. kw_scan and kw_scrub answer a report, and
   kw_mend's answer starts with one. */
enum { KW_DETAIL = 0 }; /* of any refusal */
enum { KW_PARSE_REGIONS = 0, KW_PARSE_SCRUB_WANTED = 1, KW_PARSE_NUMBERS = 2 };
enum {
    KW_REGION_FOUND = 0,
    KW_REGION_FIRST = 1,
    KW_REGION_PAST = 2,
    KW_REGION_FLAGS = 3,
    KW_REGION_NUMBERS = 4
};
enum {
    KW_REGION_AT_FOUND = 0,
    KW_REGION_AT_KIND = 1,
    KW_REGION_AT_FLAGS = 2,
    KW_REGION_AT_FIRST = 3,
    KW_REGION_AT_PAST = 4,
    KW_REGION_AT_COVERS = 5,
    KW_REGION_AT_NUMBERS = 6
};
enum {
    KW_REPORT_GIVEN = 0,
    KW_REPORT_WORDS = 1,
    KW_REPORT_CORRECTED = 2,
    KW_REPORT_UNCORRECTABLE = 3,
    KW_REPORT_NUMBERS = 4
};
enum { KW_MEND_STORED = 4, KW_MEND_WHOLE = 5, KW_MEND_NUMBERS = 6 };
enum { KW_WRITE_LENGTH = 0, KW_WRITE_NUMBERS = 1 };

/* The most stack in bytes that a call takes, with its return address and without what `memset` takes.
   The number beside each is what was measured. */
enum {
    KW_PARSE_STACK = 2560,     /* 2200 */
    KW_REGION_STACK = 2560,    /* 2280 */
    KW_REGION_AT_STACK = 2560, /* 2264 */
    KW_SCAN_STACK = 5120,      /* 4360 */
    KW_SCRUB_STACK = 5120,     /* 4392 */
    KW_MEND_STACK = 11264,     /* 10536 */
    KW_WRITE_STACK = 13312     /* 8328 */
};

/* A refusal's name as docs/FORMAT.md has it, "Ok" for KW_OK, and "Unknown" for every other number. */
static inline const char *kw_refusal_name(uint32_t number) {
    switch (number) {
    case KW_OK: return "Ok";
    case KW_TRUNCATED: return "Truncated";
    case KW_BAD_MAGIC: return "BadMagic";
    case KW_FOREIGN_ENDIAN: return "ForeignEndian";
    case KW_UNSUPPORTED_VERSION: return "UnsupportedVersion";
    case KW_BAD_PROLOGUE_CHECKSUM: return "BadPrologueChecksum";
    case KW_TOO_MANY_REGIONS: return "TooManyRegions";
    case KW_REGION_OUT_OF_BOUNDS: return "RegionOutOfBounds";
    case KW_DUPLICATE_REGION: return "DuplicateRegion";
    case KW_BAD_RECORD_STRIDE: return "BadRecordStride";
    case KW_OVERFLOW: return "Overflow";
    case KW_TOO_LARGE: return "TooLarge";
    case KW_OVERLAPPING_REGIONS: return "OverlappingRegions";
    case KW_NO_ROOM: return "NoRoom";
    case KW_BAD_PLAN: return "BadPlan";
    default: return "Unknown";
    }
}

/* Checks the header: the vote over its three copies, its fields and checksum, that every region lies
   in the image and that no kind repeats. Answers {number of regions, 1 if some header copy is damaged
   and a repair is wanted}, or {detail, 0}. */
uint32_t kw_parse(const uint8_t *image, size_t len, uint64_t answer[KW_PARSE_NUMBERS]);

/* Parses, and finds the region of this kind. Answers {1, first byte, byte past the last, flags}, the bytes
   as indices into `image`; zeros where no region has that kind; or {detail, 0, 0, 0} of parse's refusal.
   The first byte is at most the byte past the last, and that at most `len`; in an empty region they are the
   same. */
uint32_t kw_region(const uint8_t *image, size_t len, uint16_t kind,
                   uint64_t answer[KW_REGION_NUMBERS]);

/* Parses, and reads directory entry `index`, from 0 on. Answers {1, kind, flags, first byte, byte past the
   last, covers}, where `covers` is the kind that a parity plane protects; zeros past the last entry; or
   {detail, 0, 0, 0, 0, 0} of parse's refusal. */
uint32_t kw_region_at(const uint8_t *image, size_t len, uint32_t index,
                      uint64_t answer[KW_REGION_AT_NUMBERS]);

/* Parses, then decodes every word of every protected region that has a plane, and writes nothing.
   Answers {1, words, corrected, uncorrectable}; zeros where there is no such region, which says
   nothing about the image; or {detail, 0, 0, 0} of parse's refusal. */
uint32_t kw_scan(const uint8_t *image, size_t len, uint64_t answer[KW_REPORT_NUMBERS]);

/* Repairs the words that one flipped bit explains, in place, and nothing else: no check byte, no
   header copy. Always returns 0, never a detail, and answers {1, words, corrected, uncorrectable}, or
   zeros: where no protected region has a plane, where the image doesn't parse, and where a repair in a
   region that lies on the header spoiled it. In the last case the words that were repaired before the
   failed parse stay written. A protected region that has no words but a plane counts as one that was
   looked at: where there is no other, the answer is {1, 0, 0, 0}.

   A repair changes what was checked before. Three flipped bits can pass for one. Parse the image
   afresh after a repair, and have whatever approved it approve it again, before anything in it is
   used. */
uint32_t kw_scrub(uint8_t *image, size_t len, uint64_t answer[KW_REPORT_NUMBERS]);

/* Refuses as parse does, then with KW_OVERLAPPING_REGIONS where a region that isn't empty starts inside
   the header or shares a byte with an earlier one. Otherwise sets every header copy to the bitwise
   majority of the three, repairs the words that one flipped bit explains and their check bytes, and
   changes nothing else: an uncorrectable word keeps its data and its check byte. Answers {1, words, corrected, uncorrectable,
   stored, whole}, the first four 0 where scan answers zeros; or {detail, 0, 0, 0, 0, 0}. `stored` is the
   number of bytes that changed; `whole` is 1 exactly if there is a report and no word is uncorrectable, and
   says nothing about regions without a plane.

   What was said of scrub's repairs holds here too: parse afresh, and have the image approved again. */
uint32_t kw_mend(uint8_t *image, size_t len, uint64_t answer[KW_MEND_NUMBERS]);

/* A row of a plan: the kind of a region, at most 0x7FFF; its flags, of KW_FLAG_ENCRYPTED,
   KW_FLAG_PROTECTED and KW_FLAG_OPTIONAL; its length in words. */
typedef struct {
    uint16_t kind, flags;
    uint32_t words;
} kw_row;

/* Writes the image of a plan to the front of `out`: header, then the rows' words out of the payload in
   order, then a parity plane for each protected row, in row order. Answers {the image's length}; what
   lies behind it in `out` is as it was. Or refuses: KW_BAD_PLAN (a row's kind or flags, or a payload
   that is not 8 x the sum of words), KW_DUPLICATE_REGION, KW_TOO_MANY_REGIONS (rows and planes),
   KW_TOO_LARGE, KW_NO_ROOM. It then answers {detail}, and no byte of `out` is changed. */
uint32_t kw_write(const kw_row *rows, size_t rows_len, const uint8_t *payload, size_t payload_len,
                  uint8_t *out, size_t out_len, uint64_t answer[KW_WRITE_NUMBERS]);

#ifdef __cplusplus
}
#endif

#endif
