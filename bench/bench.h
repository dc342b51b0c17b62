/* What comparing (agree.c), timing (bench.c) and measuring (sizes.c) share. */
#ifndef BENCH_H
#define BENCH_H

#include <stddef.h>
#include <stdint.h>

/* The shapes of the calls. */
typedef uint32_t block_call(const uint8_t *key, size_t key_len, const uint8_t *input, size_t input_len,
                            uint8_t *output, size_t output_len);
typedef uint32_t seal_plain_call(const uint8_t *keys, size_t keys_len, uint32_t number, uint32_t wide,
                                 uint64_t sequence, const uint8_t *message, size_t message_len,
                                 uint8_t *record, size_t record_len);
typedef uint32_t open_call(uint8_t *link, size_t link_len, const uint8_t *record, size_t record_len,
                           uint8_t *message, size_t message_len);
typedef uint32_t seal_call(uint8_t *link, size_t link_len, const uint8_t *message, size_t message_len,
                           const uint8_t *tape, size_t tape_len, uint8_t *record, size_t record_len,
                           uint8_t *shares, size_t shares_len);
typedef uint32_t read_body_call(const uint8_t *body, size_t body_len, uint8_t *values, size_t values_len);
typedef uint32_t write_body_call(uint64_t seconds, uint32_t fraction, uint32_t has_offset, int32_t offset,
                                 uint8_t *body, size_t body_len);

/* Whether the archive and C give the same on random inputs; says what was tried, or the first difference. */
int all_agree(void);

#endif
