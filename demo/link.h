/* A link with both its ends, and bodies of time marks on it, as both screens use them. */
#ifndef LINK_H
#define LINK_H

#include "mark.h"
#include "rasppuce.h"

enum {
    BLOCK = RASPPUCE_BLOCK_BYTES,
    RECORD_BYTES = BODY_BYTES + RASPPUCE_RECORD_ADDS(RASPPUCE_NARROW),
    WIDE_RECORD_BYTES = BODY_BYTES + RASPPUCE_RECORD_ADDS(RASPPUCE_WIDE),
    TAPE_BYTES = RASPPUCE_TAPE_BYTES(BODY_BYTES),
    SHARES = 3, /* of each key and each state */
    LINK = 7    /* the number of the link shown, which is narrow */
};

/* One link: its keys, in shares and whole, and what its sender and its receiver hold. */
typedef struct {
    uint8_t shares[RASPPUCE_SENDER_KEY_BYTES];
    uint8_t keys[RASPPUCE_RECEIVER_KEY_BYTES];
    uint8_t sender[RASPPUCE_SENDER_BYTES];
    uint8_t receiver[RASPPUCE_RECEIVER_BYTES];
} both_ends;

/* Stands for a random source: here each run has the same bytes, so that it can be compared. */
void fill(uint8_t *bytes, size_t len);

/* XORs a block into another. */
void add(uint8_t *to, const uint8_t *what);

/* Makes new keys and gives them to both ends; says whether both took them. */
int key_both(both_ends *ends, uint32_t number, uint32_t wide);

/* Seals a body by shares, under the next number, on a narrow link. */
uint32_t seal_body(both_ends *ends, const uint8_t body[BODY_BYTES], const uint8_t tape[TAPE_BYTES],
                   uint8_t record[RECORD_BYTES], uint8_t tag_shares[RASPPUCE_SHARES_BYTES]);

/* Opens a record of either width at the receiver. */
uint32_t open_body(both_ends *ends, const uint8_t *record, size_t record_len, uint8_t body[BODY_BYTES]);

#endif
