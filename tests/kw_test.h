/* The functions of libkw_test.a (crate kw_test), which only the comparison and the replay call.
   A slice passes as pointer and length. Every number of an answer is written at every call; where a
   function can answer "nothing", its answer is {1, value} or zeros. */
#ifndef KW_TEST_H
#define KW_TEST_H

#include <stddef.h>
#include <stdint.h>

void kwt_u8_at(const uint8_t *b, size_t len, size_t at, uint64_t answer[2]);
void kwt_u16_at(const uint8_t *b, size_t len, size_t at, uint64_t answer[2]);
void kwt_u32_at(const uint8_t *b, size_t len, size_t at, uint64_t answer[2]);
void kwt_u64_at(const uint8_t *b, size_t len, size_t at, uint64_t answer[2]);
void kwt_u8_bytes(uint8_t v, uint8_t out[1]);
void kwt_u16_bytes(uint16_t v, uint8_t out[2]);
void kwt_u32_bytes(uint32_t v, uint8_t out[4]);
void kwt_u64_bytes(uint64_t v, uint8_t out[8]);
uint8_t kwt_maj3(uint8_t a, uint8_t b, uint8_t c);

uint32_t kwt_crc32(const uint8_t *b, size_t len);

void kwt_words_for(size_t bytes, uint64_t answer[2]);
void kwt_header_bytes(size_t count, uint64_t answer[2]);
/* {byte offset, byte length, is encrypted, is an ECC plane, has ECC} */
void kwt_region(uint16_t kind, uint16_t flags, uint32_t word_offset, uint32_t word_length,
                uint16_t covers, uint64_t answer[5]);

uint16_t kwt_plane_kind_for(uint16_t kind);
uint8_t kwt_check_byte(uint64_t data);
/* {0, word} clean, {1, word} corrected, {2, 0} uncorrectable */
void kwt_decode_word(uint64_t data, uint8_t check, uint64_t answer[2]);
/* {1, the two numbers of a decoded word}, or {0, 0, 0} for nothing */
void kwt_plane_word(const uint8_t *parity, size_t parity_len, const uint8_t *data, size_t data_len,
                    size_t index, uint64_t answer[3]);
/* {words, corrected, uncorrectable} */
void kwt_plane_scan(const uint8_t *parity, size_t parity_len, const uint8_t *data, size_t data_len,
                    uint64_t answer[3]);
/* {is clean, needs scrub} */
void kwt_report(size_t words, size_t corrected, size_t uncorrectable, uint64_t answer[2]);

/* {0, count, prologue disagreed, directory disagreed}, or {number, detail, 0, 0} */
void kwt_parse(const uint8_t *b, size_t len, uint64_t answer[4]);
/* {1, kind, flags, word offset, word length, covers}, or zeros */
void kwt_region_at(const uint8_t *b, size_t len, uint16_t count, uint16_t index, uint64_t answer[6]);
void kwt_find_region(const uint8_t *b, size_t len, uint16_t count, uint16_t kind,
                     uint64_t answer[6]);
/* {1, start, end}, or zeros */
void kwt_ecc_for(const uint8_t *b, size_t len, uint16_t count, uint16_t kind, uint64_t answer[3]);

/* {0, start, end}, or {number, detail, 0} */
void kwt_region_span(size_t len, uint32_t word_offset, uint32_t word_length, uint64_t answer[3]);
void kwt_records_span(size_t len, uint32_t word_offset, uint32_t word_length, size_t stride,
                      uint64_t answer[3]);
/* {1, start, end}, or zeros */
void kwt_record_place(size_t len, size_t stride, size_t index, uint64_t answer[3]);
void kwt_pool_place(size_t len, uint32_t offset, uint32_t size, uint64_t answer[3]);
uint32_t kwt_is_table(const uint8_t *b, size_t len, size_t stride);
size_t kwt_record_count(const uint8_t *b, size_t len, size_t stride);
uint32_t kwt_range_is_forward(const uint8_t *b, size_t len, size_t stride, size_t at, uint32_t first,
                              uint32_t count);
/* {length, CRC-32} of the part */
void kwt_region_bytes(const uint8_t *b, size_t len, uint32_t word_offset, uint32_t word_length,
                      uint64_t answer[2]);
void kwt_records_bytes(const uint8_t *b, size_t len, uint32_t word_offset, uint32_t word_length,
                       size_t stride, uint64_t answer[2]);
void kwt_record_bytes(const uint8_t *b, size_t len, size_t stride, size_t index, uint64_t answer[2]);
void kwt_pool_bytes(const uint8_t *b, size_t len, uint32_t offset, uint32_t size,
                    uint64_t answer[2]);

/* Of the table that is made of the bytes: {its records, is empty, stride}; {0, 1, 0} if they are none */
void kwt_borrowed_table(const uint8_t *b, size_t len, size_t stride, uint64_t answer[3]);
/* its record: {1, start, end} or zeros, and {length, CRC-32} of the part */
void kwt_borrowed_record(const uint8_t *b, size_t len, size_t stride, size_t index, uint64_t answer[5]);
uint32_t kwt_borrowed_forward(const uint8_t *b, size_t len, size_t stride, size_t at, uint32_t first,
                          uint32_t count);
/* {length, CRC-32} of the pool's bytes, {1, start, end} or zeros of a slice, and its {length, CRC-32} */
void kwt_borrowed_pool(const uint8_t *b, size_t len, uint32_t offset, uint32_t size, uint64_t answer[7]);
/* {length, CRC-32} of the plane's bytes, the three numbers of a word, and those of a scan */
void kwt_borrowed_plane(const uint8_t *parity, size_t parity_len, const uint8_t *data, size_t data_len,
                    size_t index, uint64_t answer[8]);

/* {1, words, corrected, uncorrectable}, or zeros */
void kwt_verify_region(const uint8_t *b, size_t len, uint16_t count, uint16_t kind, uint16_t flags,
                       uint32_t word_offset, uint32_t word_length, uint16_t covers,
                       uint64_t answer[4]);
void kwt_verify_all(const uint8_t *b, size_t len, uint16_t count, uint64_t answer[4]);
void kwt_scrub(uint8_t *b, size_t len, uint64_t answer[4]);

#endif
