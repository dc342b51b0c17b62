/*
 * The calls of librasppuce.a and those of baseline.c give the same on random inputs: the same answer,
 * and the same bytes in everything that was lent, past the result too. Some inputs are to be refused.
 * Shared sealing also has to give C's plain record, and a written body its values when it is read.
 */
#include "baseline.h"
#include "bench.h"
#include "random.h"
#include "rasppuce.h"

#include <stdio.h>
#include <string.h>

enum {
    BLOCKS = 100000,       /* random inputs of each block call */
    PLAIN_RECORDS = 20000, /* of plain sealing */
    OPENINGS = 40000,      /* of opening */
    ON_A_LINK = 40,        /* of these on one link, before there is a new one */
    SHARED_RECORDS = 2000, /* of shared sealing */
    BODIES = 200000,       /* of reading a body, and of writing one */
    KEYS = RASPPUCE_RECEIVER_KEY_BYTES,
    MESSAGE = RASPPUCE_MESSAGE_MOST + 1,
    RECORD = RASPPUCE_RECORD_MOST + 2,
    BODY = RASPPUCE_BODY_MOST + 4,
    VALUES = RASPPUCE_VALUES_BYTES + 1,
    LAST_AT = 5,    /* places in a link: its last number, of a receiver the highest accepted */
    WINDOW_AT = 45, /* of a receiver only */
    SEQUENCE_AT = 4 /* in a record */
};

/* ---- numbers as bytes */

/* Of eight bytes. */
static uint64_t big_endian_at(const uint8_t *bytes)
{
    uint64_t x = 0;
    for (int i = 0; i < 8; i++)
        x = x << 8 | bytes[i];
    return x;
}

static void put_big_endian(uint8_t *bytes, int len, uint64_t x)
{
    for (int i = 0; i < len; i++)
        bytes[i] = (uint8_t)(x >> 8 * (len - 1 - i));
}

/* ---- random choices */

static size_t random_below(size_t n)
{
    return (size_t)(random_number() % n);
}

/* A width as it is told: 0, 1, or any number. */
static uint32_t random_width(void)
{
    return random_below(2) == 0 ? 0 : random_below(2) == 0 ? 1 : 1 + (uint32_t)random_below(UINT32_MAX);
}

/* A number of 32 bits, or near 0, 2^32 or 2^64, or any; 0 at times. */
static uint64_t random_sequence(void)
{
    switch (random_below(8)) {
    case 0:  return random_below(3);
    case 1:  return UINT32_MAX - 1 + random_below(4);
    case 2:  return UINT64_MAX - random_below(3);
    case 3:  return random_number();
    default: return random_number() >> 32;
    }
}

/* The length of an output: `need` or one more, and once in a while one less. */
static size_t random_room(size_t need)
{
    return random_below(32) == 0 ? need - 1 : need + random_below(2);
}

/* ---- both give the same */

static int differ(const char *name, int trial)
{
    printf("%s: the archive and C differ on random input %d\n", name, trial);
    return 0;
}

static int blocks_agree(const char *name, block_call *proved, block_call *baseline)
{
    for (int i = 0; i < BLOCKS; i++) {
        uint8_t key[16], input[16], a[16], b[16];
        size_t size = random_below(32) == 0 ? 15 : 16;
        random_bytes(key, 16);
        random_bytes(input, 16);
        random_bytes(a, 16);
        memcpy(b, a, 16);
        uint32_t x = proved(key, 16, input, size, a, 16);
        uint32_t y = baseline(key, 16, input, size, b, 16);
        if (x != y || memcmp(a, b, 16) != 0)
            return differ(name, i);
    }
    return 1;
}

/* Encrypting and decrypting with C alone gives the block back, so the two directions of C fit. */
static int c_decrypts(void)
{
    uint8_t key[16], block[16], there[16], back[16];
    random_bytes(key, 16);
    random_bytes(block, 16);
    baseline_encrypt_packed(key, 16, block, 16, there, 16);
    baseline_decrypt_packed(key, 16, there, 16, back, 16);
    if (memcmp(block, back, 16) == 0)
        return 1;
    printf("C does not decrypt what it encrypts\n");
    return 0;
}

static int plain_sealings_agree(void)
{
    for (int i = 0; i < PLAIN_RECORDS; i++) {
        uint8_t keys[KEYS], message[MESSAGE], a[RECORD], b[RECORD];
        uint32_t number = (uint32_t)random_number(), wide = random_width();
        uint64_t sequence = random_sequence();
        size_t length = random_below(MESSAGE + 1), room = random_room(length + RASPPUCE_RECORD_ADDS(wide));
        random_bytes(keys, KEYS);
        random_bytes(message, MESSAGE);
        random_bytes(a, RECORD);
        memcpy(b, a, RECORD);
        uint32_t x = rasppuce_seal_plain(keys, KEYS, number, wide, sequence, message, length, a, room);
        uint32_t y = baseline_seal_plain(keys, KEYS, number, wide, sequence, message, length, b, room);
        if (x != y || memcmp(a, b, RECORD) != 0)
            return differ("plain seal", i);
    }
    return 1;
}

/* ---- opening, on links that keep what they accepted */

/* A highest number for a link of a width: near the first or the last one, or any; of a wide one, also
 * near 2^32. At times it is one that a narrow link can't have. */
static uint64_t random_highest(uint32_t wide)
{
    switch (random_below(wide != 0 ? 4 : 3)) {
    case 0:  return random_below(100);
    case 1:  return RASPPUCE_SEQUENCE_MOST(wide) - random_below(100);
    case 2:  return random_below(4) == 0 ? random_sequence() : random_number() & RASPPUCE_SEQUENCE_MOST(wide);
    default: return UINT32_MAX - 50 + random_below(100);
    }
}

/* Numbers accepted before: the highest, and a window, with all its bits set at times. */
static void random_window(uint8_t *link, uint32_t wide)
{
    put_big_endian(link + LAST_AT, 8, random_highest(wide));
    put_big_endian(link + WINDOW_AT, 8, random_below(4) == 0 ? UINT64_MAX : random_number());
}

/* A number for a record: mostly near the highest one, below or above, often where the window begins. */
static uint64_t random_near(uint64_t highest)
{
    uint64_t away = random_below(2) == 0 ? 62 + random_below(4) : random_below(80);
    switch (random_below(16)) {
    case 0:  return 0;
    case 1:  return random_sequence();
    case 2:
    case 3:
    case 4:
    case 5:  return highest + away;
    default: return away <= highest ? highest - away : random_below(highest + 1);
    }
}

/* A record of the link, with one bit changed at times. Numbers that can't be sealed are put in by hand. */
static void random_record(const uint8_t *keys, uint32_t number, uint32_t wide, uint64_t sequence,
                          const uint8_t *message, size_t length, uint8_t *record)
{
    int can_be = 1 <= sequence && sequence <= RASPPUCE_SEQUENCE_MOST(wide);
    baseline_seal_plain(keys, KEYS, number, wide, can_be ? sequence : 1, message, length, record, RECORD);
    put_big_endian(record + SEQUENCE_AT, RASPPUCE_SEQUENCE_BYTES(wide), sequence);
    if (random_below(8) == 0)
        record[random_below(length + RASPPUCE_RECORD_ADDS(wide))] ^= (uint8_t)(1 << random_below(8));
}

/* Once in a while another width byte: the other width's, or one of no width. */
static void random_width_byte(uint8_t *byte)
{
    if (random_below(16) == 0)
        *byte = (uint8_t)(random_below(2) == 0 ? random_below(4) : random_below(256));
}

/* A new link with new keys, left unkeyed at times; at times it has accepted numbers already. */
static int random_receiver(uint8_t *keys, uint32_t number, uint32_t wide, uint8_t *link)
{
    random_bytes(keys, KEYS);
    memset(link, 0, RASPPUCE_RECEIVER_BYTES);
    uint32_t answer = random_below(8) == 0 ? RASPPUCE_OK
        : rasppuce_key_receiver(link, RASPPUCE_RECEIVER_BYTES, number, wide, keys, KEYS);
    if (random_below(2) == 0)
        random_window(link, wide);
    random_width_byte(link + RASPPUCE_RECEIVER_BYTES - 1);
    return answer == RASPPUCE_OK;
}

/* Records in any order on a link, some of them again. */
static int openings_agree(void)
{
    uint8_t keys[KEYS] = {0}, link[RASPPUCE_RECEIVER_BYTES] = {0}, link_of_c[RASPPUCE_RECEIVER_BYTES] = {0};
    uint32_t number = 0, wide = 0;
    for (int i = 0; i < OPENINGS; i++) {
        uint8_t message[MESSAGE], record[RECORD], a[MESSAGE], b[MESSAGE];
        size_t length = random_below(RASPPUCE_MESSAGE_MOST + 1), room = length == 0 ? 0 : random_room(length);
        if (i % ON_A_LINK == 0) {
            number = (uint32_t)random_number();
            wide = random_width();
            if (!random_receiver(keys, number, wide, link))
                return differ("key receiver", i);
            memcpy(link_of_c, link, sizeof link);
        }
        size_t record_len = length + RASPPUCE_RECORD_ADDS(wide);
        random_bytes(message, MESSAGE);
        random_bytes(a, MESSAGE);
        memcpy(b, a, MESSAGE);
        random_record(keys, number, wide, random_near(big_endian_at(link + LAST_AT)), message, length, record);
        uint32_t x = rasppuce_open(link, sizeof link, record, record_len, a, room);
        uint32_t y = baseline_open(link_of_c, sizeof link, record, record_len, b, room);
        if (x != y || memcmp(link, link_of_c, sizeof link) != 0 || memcmp(a, b, MESSAGE) != 0)
            return differ("open", i);
        if (x == RASPPUCE_OK && memcmp(a, message, length) != 0)
            return differ("opened message", i);
    }
    return 1;
}

/* ---- shared sealing */

/* The two keys that a sender's key shares join to. */
static void join_keys(const uint8_t *shares, uint8_t *keys)
{
    for (int i = 0; i < 16; i++) {
        keys[i] = shares[i] ^ shares[i + 16] ^ shares[i + 32];
        keys[i + 16] = shares[i + 48] ^ shares[i + 64] ^ shares[i + 80];
    }
}

static int shared_sealings_agree(void)
{
    static uint8_t tape[RASPPUCE_TAPE_BYTES(MESSAGE)];
    enum { SHARES = RASPPUCE_SHARES_BYTES + 1 };
    for (int i = 0; i < SHARED_RECORDS; i++) {
        uint8_t key_shares[RASPPUCE_SENDER_KEY_BYTES], keys[KEYS], message[MESSAGE];
        uint8_t a[RECORD], b[RECORD], plain[RECORD], shares[SHARES], shares_of_c[SHARES];
        uint8_t link[RASPPUCE_SENDER_BYTES] = {0}, link_of_c[RASPPUCE_SENDER_BYTES];
        uint32_t number = (uint32_t)random_number(), wide = random_width();
        uint64_t last = random_sequence() - 1;
        size_t length = random_below(MESSAGE + 1), room = random_room(length + RASPPUCE_RECORD_ADDS(wide));
        size_t shares_room = random_room(RASPPUCE_SHARES_BYTES);
        size_t tape_len = random_below(32) == 0 ? RASPPUCE_TAPE_BYTES(length) - 1 : sizeof tape;
        random_bytes(key_shares, sizeof key_shares);
        random_bytes(message, MESSAGE);
        random_bytes(tape, sizeof tape);
        random_bytes(a, RECORD);
        memcpy(b, a, RECORD);
        memcpy(plain, a, RECORD);
        random_bytes(shares, SHARES);
        memcpy(shares_of_c, shares, SHARES);
        if (random_below(32) != 0
            && rasppuce_key_sender(link, sizeof link, number, wide, key_shares, sizeof key_shares) != RASPPUCE_OK)
            return differ("key sender", i);
        put_big_endian(link + LAST_AT, 8, last);
        random_width_byte(link + sizeof link - 1);
        memcpy(link_of_c, link, sizeof link);
        uint32_t x = rasppuce_seal(link, sizeof link, message, length, tape, tape_len, a, room,
                                   shares, shares_room);
        uint32_t y = baseline_seal(link_of_c, sizeof link, message, length, tape, tape_len, b, room,
                                   shares_of_c, shares_room);
        if (x != y || memcmp(link, link_of_c, sizeof link) != 0 || memcmp(a, b, RECORD) != 0
            || memcmp(shares, shares_of_c, SHARES) != 0)
            return differ("shared seal", i);
        join_keys(key_shares, keys);
        if (x == RASPPUCE_OK)
            baseline_seal_plain(keys, KEYS, number, link[sizeof link - 1], last + 1, message, length, plain, room);
        if (memcmp(a, plain, RECORD) != 0)
            return differ("shared seal and plain record", i);
    }
    return 1;
}

/* ---- bodies */

/* An offset; at times one at a limit, or just outside. */
static int32_t random_offset(void)
{
    enum { LEAST = RASPPUCE_OFFSET_LEAST, MOST = RASPPUCE_OFFSET_MOST };
    switch (random_below(8)) {
    case 0:  return LEAST - 2 + (int32_t)random_below(4);
    case 1:  return MOST - 1 + (int32_t)random_below(4);
    default: return LEAST + (int32_t)random_below(MOST - LEAST + 1);
    }
}

/* A word of a kind with a random field; that of kind 4 mostly is an offset. */
static uint32_t random_word(uint32_t kind)
{
    uint32_t x = kind == 4 && random_below(8) != 0 ? (uint32_t)random_offset() : (uint32_t)random_number();
    return kind << 28 | (x & (RASPPUCE_FRACTION_END - 1));
}

/* Words of kinds 1, 2, 3, at times 4, and skipped ones, in any order; once in a while one of any kind. */
static void random_body(uint8_t *body, size_t count)
{
    size_t kinds = 3 + random_below(2);
    for (size_t i = 0; i < count; i++) {
        size_t at = random_below(i + 1);
        uint32_t kind = (uint32_t)(i < kinds ? i + 1 : 5 + random_below(11));
        if (random_below(16 * count) == 0)
            kind = (uint32_t)random_below(16);
        memmove(body + 4 * i, body + 4 * at, 4);
        put_big_endian(body + 4 * at, 4, random_word(kind));
    }
}

static int readings_agree(void)
{
    for (int i = 0; i < BODIES; i++) {
        uint8_t body[BODY] = {0}, a[VALUES], b[VALUES];
        size_t count = random_below(4) == 0 ? random_below(BODY / 4 + 1) : 3 + random_below(4);
        size_t length = random_below(16) == 0 ? random_below(4 * count + 1) : 4 * count;
        size_t room = random_room(RASPPUCE_VALUES_BYTES);
        random_body(body, count);
        random_bytes(a, VALUES);
        memcpy(b, a, VALUES);
        uint32_t x = rasppuce_read_body(body, length, a, room);
        uint32_t y = baseline_read_body(body, length, b, room);
        if (x != y || memcmp(a, b, VALUES) != 0)
            return differ("read body", i);
    }
    return 1;
}

static int writings_agree(void)
{
    for (int i = 0; i < BODIES; i++) {
        uint8_t a[17], b[17], values[RASPPUCE_VALUES_BYTES] = {0}, read[RASPPUCE_VALUES_BYTES];
        uint64_t seconds = random_number() >> (random_below(8) == 0 ? 7 : 8 + random_below(56));
        uint32_t fraction = (uint32_t)random_number() >> (random_below(8) == 0 ? 3 : 4);
        uint32_t has_offset = (uint32_t)random_below(3);
        int32_t offset = random_offset();
        size_t room = random_room(RASPPUCE_BODY_BYTES(has_offset));
        random_bytes(a, sizeof a);
        memcpy(b, a, sizeof a);
        uint32_t x = rasppuce_write_body(seconds, fraction, has_offset, offset, a, room);
        uint32_t y = baseline_write_body(seconds, fraction, has_offset, offset, b, room);
        if (x != y || memcmp(a, b, sizeof a) != 0)
            return differ("write body", i);
        if (x != RASPPUCE_OK)
            continue;
        put_big_endian(values, 8, seconds);
        put_big_endian(values + 8, 4, fraction);
        values[12] = has_offset != 0;
        put_big_endian(values + 13, 4, has_offset ? (uint32_t)offset : 0);
        if (rasppuce_read_body(a, RASPPUCE_BODY_BYTES(has_offset), read, sizeof read) != RASPPUCE_OK
            || memcmp(values, read, sizeof read) != 0)
            return differ("written body, read", i);
    }
    return 1;
}

int all_agree(void)
{
    if (!c_decrypts()
        || !blocks_agree("encrypt packed", rasppuce_encrypt_packed, baseline_encrypt_packed)
        || !blocks_agree("decrypt packed", rasppuce_decrypt_packed, baseline_decrypt_packed)
        || !blocks_agree("encrypt table", rasppuce_encrypt_table, baseline_encrypt_packed)
        || !blocks_agree("decrypt table", rasppuce_decrypt_table, baseline_decrypt_packed)
        || !plain_sealings_agree() || !openings_agree() || !shared_sealings_agree()
        || !readings_agree() || !writings_agree())
        return 0;
    printf("The archive and C agree on %d random blocks in each block call, on %d\n"
           "records plainly sealed, on %d opened in any order and on %d sealed on\n"
           "shares, of 0 to 256 bytes, narrow and wide, on %d bodies read and %d\n"
           "written, refused ones among them.\n\n",
           BLOCKS, PLAIN_RECORDS, OPENINGS, SHARED_RECORDS, BODIES, BODIES);
    return 1;
}
