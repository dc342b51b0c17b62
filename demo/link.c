/* A link with both its ends. */
#include "link.h"

#include <string.h>

void fill(uint8_t *bytes, size_t len)
{
    static uint64_t state = 0x13198a2e03707344;
    for (size_t i = 0; i < len; i++) {
        state ^= state << 13;
        state ^= state >> 7;
        state ^= state << 17;
        bytes[i] = (uint8_t)(state >> 32);
    }
}

void add(uint8_t *to, const uint8_t *what)
{
    for (int i = 0; i < BLOCK; i++)
        to[i] ^= what[i];
}

/* The two keys, each out of its shares. */
static void join_keys(both_ends *ends)
{
    memset(ends->keys, 0, sizeof ends->keys);
    for (int i = 0; i < SHARES; i++) {
        add(ends->keys, ends->shares + BLOCK * i);
        add(ends->keys + BLOCK, ends->shares + BLOCK * (SHARES + i));
    }
}

int key_both(both_ends *ends, uint32_t number, uint32_t wide)
{
    fill(ends->shares, sizeof ends->shares);
    join_keys(ends);
    return rasppuce_key_sender(ends->sender, sizeof ends->sender, number, wide,
                               ends->shares, sizeof ends->shares) == RASPPUCE_OK
        && rasppuce_key_receiver(ends->receiver, sizeof ends->receiver, number, wide,
                                 ends->keys, sizeof ends->keys) == RASPPUCE_OK;
}

uint32_t seal_body(both_ends *ends, const uint8_t body[BODY_BYTES], const uint8_t tape[TAPE_BYTES],
                   uint8_t record[RECORD_BYTES], uint8_t tag_shares[RASPPUCE_SHARES_BYTES])
{
    return rasppuce_seal(ends->sender, sizeof ends->sender, body, BODY_BYTES, tape, TAPE_BYTES,
                         record, RECORD_BYTES, tag_shares, RASPPUCE_SHARES_BYTES);
}

uint32_t open_body(both_ends *ends, const uint8_t *record, size_t record_len, uint8_t body[BODY_BYTES])
{
    return rasppuce_open(ends->receiver, sizeof ends->receiver, record, record_len,
                         body, BODY_BYTES);
}
