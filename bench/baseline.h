/*
 * The same calls in plain C, to measure the proved ones against: each does what the call of that name
 * in rasppuce.h does, by the same steps, and gives the same answers.
 */
#ifndef BASELINE_H
#define BASELINE_H

#include <stddef.h>
#include <stdint.h>

uint32_t baseline_encrypt_packed(const uint8_t *key, size_t key_len, const uint8_t *input, size_t input_len,
                                 uint8_t *output, size_t output_len);
uint32_t baseline_decrypt_packed(const uint8_t *key, size_t key_len, const uint8_t *input, size_t input_len,
                                 uint8_t *output, size_t output_len);

uint32_t baseline_seal_plain(const uint8_t *keys, size_t keys_len, uint32_t number, uint32_t wide, uint64_t sequence,
                             const uint8_t *message, size_t message_len, uint8_t *record, size_t record_len);
uint32_t baseline_open(uint8_t *link, size_t link_len, const uint8_t *record, size_t record_len,
                       uint8_t *message, size_t message_len);
uint32_t baseline_seal(uint8_t *link, size_t link_len, const uint8_t *message, size_t message_len,
                       const uint8_t *tape, size_t tape_len, uint8_t *record, size_t record_len,
                       uint8_t *shares, size_t shares_len);

uint32_t baseline_read_body(const uint8_t *body, size_t body_len, uint8_t *values, size_t values_len);
uint32_t baseline_write_body(uint64_t seconds, uint32_t fraction, uint32_t has_offset, int32_t offset,
                             uint8_t *body, size_t body_len);

#endif
