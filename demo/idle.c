/*
 * Calls that do nothing and all give one answer: RASPPUCE_OK, or what ANSWER names. demo/check
 * puts them in the archive's place, where both screens have to find everything wrong.
 */
#include "rasppuce.h"

#ifndef ANSWER
#define ANSWER RASPPUCE_OK
#endif

uint32_t rasppuce_key_sender(uint8_t *link, size_t link_len, uint32_t number, uint32_t wide,
                             const uint8_t *keys, size_t keys_len)
{
    return ANSWER;
}

uint32_t rasppuce_key_receiver(uint8_t *link, size_t link_len, uint32_t number, uint32_t wide,
                               const uint8_t *keys, size_t keys_len)
{
    return ANSWER;
}

uint32_t rasppuce_seal(uint8_t *link, size_t link_len,
                       const uint8_t *message, size_t message_len,
                       const uint8_t *tape, size_t tape_len,
                       uint8_t *record, size_t record_len,
                       uint8_t *shares, size_t shares_len)
{
    return ANSWER;
}

uint32_t rasppuce_open(uint8_t *link, size_t link_len,
                       const uint8_t *record, size_t record_len,
                       uint8_t *message, size_t message_len)
{
    return ANSWER;
}

uint32_t rasppuce_seal_plain(const uint8_t *keys, size_t keys_len,
                             uint32_t number, uint32_t wide, uint64_t sequence,
                             const uint8_t *message, size_t message_len,
                             uint8_t *record, size_t record_len)
{
    return ANSWER;
}

uint32_t rasppuce_report(const uint8_t *link, size_t link_len,
                         const uint8_t *message, size_t message_len,
                         const uint8_t *tape, size_t tape_len,
                         uint32_t call, uint32_t round, uint32_t lane,
                         uint8_t *out, size_t out_len)
{
    return ANSWER;
}

uint32_t rasppuce_read_body(const uint8_t *body, size_t body_len,
                            uint8_t *values, size_t values_len)
{
    return ANSWER;
}

uint32_t rasppuce_write_body(uint64_t seconds, uint32_t fraction,
                             uint32_t has_offset, int32_t offset,
                             uint8_t *body, size_t body_len)
{
    return ANSWER;
}

uint32_t rasppuce_encrypt_table(const uint8_t *key, size_t key_len,
                                const uint8_t *input, size_t input_len,
                                uint8_t *output, size_t output_len)
{
    return ANSWER;
}

uint32_t rasppuce_decrypt_table(const uint8_t *key, size_t key_len,
                                const uint8_t *input, size_t input_len,
                                uint8_t *output, size_t output_len)
{
    return ANSWER;
}

uint32_t rasppuce_encrypt_packed(const uint8_t *key, size_t key_len,
                                 const uint8_t *input, size_t input_len,
                                 uint8_t *output, size_t output_len)
{
    return ANSWER;
}

uint32_t rasppuce_decrypt_packed(const uint8_t *key, size_t key_len,
                                 const uint8_t *input, size_t input_len,
                                 uint8_t *output, size_t output_len)
{
    return ANSWER;
}
