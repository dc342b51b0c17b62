/*
 * The calls of rasppuce.h in plain C: blocks, plain sealing, opening, shared sealing, bodies.
 */
#include "baseline.h"
#include "packed.h"
#include "rasppuce.h"

#include <string.h>

enum {
    BLOCK = 16,
    SEQUENCE = 4,    /* where the sequence number stands in a record */
    LINK_NUMBER = 1, /* places in a link, whose last byte is its width */
    LINK_LAST = 5,   /* of a receiver: the highest number accepted */
    LINK_KEYS = 13,
    LINK_WINDOW = 45 /* of a receiver only */
};

/* ---- numbers and blocks as bytes */

static uint32_t number_at(const uint8_t *bytes)
{
    return (uint32_t)bytes[0] << 24 | (uint32_t)bytes[1] << 16 | (uint32_t)bytes[2] << 8 | (uint32_t)bytes[3];
}

static void put_number(uint8_t *bytes, uint32_t x)
{
    bytes[0] = (uint8_t)(x >> 24);
    bytes[1] = (uint8_t)(x >> 16);
    bytes[2] = (uint8_t)(x >> 8);
    bytes[3] = (uint8_t)x;
}

static uint64_t word_at(const uint8_t *bytes)
{
    return (uint64_t)number_at(bytes) << 32 | number_at(bytes + 4);
}

static void put_word(uint8_t *bytes, uint64_t x)
{
    put_number(bytes, (uint32_t)(x >> 32));
    put_number(bytes + 4, (uint32_t)x);
}

static packed counter_block(uint32_t number, uint64_t sequence, uint32_t i)
{
    uint8_t block[BLOCK];
    put_number(block, number);
    put_word(block + 4, sequence);
    put_number(block + 12, i);
    return pack(block);
}

/* ---- what a width decides */

/* The bytes of link number and sequence number, in front of a record's ciphertext. */
static size_t head_len(int is_wide)
{
    return is_wide ? 12 : 8;
}

static uint64_t last_sequence(int is_wide)
{
    return is_wide ? UINT64_MAX : UINT32_MAX;
}

static uint64_t sequence_at(const uint8_t *record, int is_wide)
{
    return is_wide ? word_at(record + SEQUENCE) : number_at(record + SEQUENCE);
}

static void put_head(uint8_t *record, uint32_t number, int is_wide, uint64_t sequence)
{
    put_number(record, number);
    if (is_wide)
        put_word(record + SEQUENCE, sequence);
    else
        put_number(record + SEQUENCE, (uint32_t)sequence);
}

/* The link has this length, is keyed, is of one of the widths, and its number fits that. */
static int is_keyed(const uint8_t *link, size_t link_len, size_t expected_len)
{
    if (link_len != expected_len || link[0] != 1)
        return 0;
    uint8_t width = link[link_len - 1];
    return width <= 1 && word_at(link + LINK_LAST) <= last_sequence(width);
}

/* ---- blocks of a text */

/* How many blocks hold `length` bytes. */
static size_t block_count(size_t length)
{
    return (length + BLOCK - 1) / BLOCK;
}

/* How many bytes of a text of `length` stand in block j. */
static size_t block_width(size_t length, size_t j)
{
    size_t rest = length - BLOCK * j;
    return rest < BLOCK ? rest : BLOCK;
}

/* The `width` bytes of a block, with CMAC's padding where there are fewer than 16. */
static packed padded(const uint8_t *bytes, size_t width)
{
    if (width == BLOCK)
        return pack(bytes);
    uint8_t block[BLOCK] = {0};
    for (size_t i = 0; i < width; i++)
        block[i] = bytes[i];
    block[width] = 0x80;
    return pack(block);
}

/* Writes `width` bytes of a text, XORed with a block of key stream. */
static void put_xor(uint8_t *out, const uint8_t *text, size_t width, packed stream)
{
    uint8_t key[BLOCK];
    unpack(stream, key);
    for (size_t i = 0; i < width; i++)
        out[i] = text[i] ^ key[i];
}

/* CMAC's doubling: shifted left by one bit, and the highest bit times 135 added to the last byte. */
static packed doubled(packed s)
{
    uint8_t b[BLOCK], r[BLOCK];
    unpack(s, b);
    for (int i = 0; i < 15; i++)
        r[i] = (uint8_t)(b[i] << 1 | b[i + 1] >> 7);
    r[15] = (uint8_t)(b[15] << 1 ^ (b[0] >> 7) * 135);
    return pack(r);
}

/* ---- block calls */

uint32_t baseline_encrypt_packed(const uint8_t *key, size_t key_len, const uint8_t *input, size_t input_len,
                                 uint8_t *output, size_t output_len)
{
    if (key_len != BLOCK || input_len != BLOCK || output_len != BLOCK)
        return RASPPUCE_BLOCK;
    unpack(encrypt_words(pack(key), pack(input)), output);
    return RASPPUCE_OK;
}

uint32_t baseline_decrypt_packed(const uint8_t *key, size_t key_len, const uint8_t *input, size_t input_len,
                                 uint8_t *output, size_t output_len)
{
    if (key_len != BLOCK || input_len != BLOCK || output_len != BLOCK)
        return RASPPUCE_BLOCK;
    unpack(decrypt_words(pack(key), pack(input)), output);
    return RASPPUCE_OK;
}

/* ---- plain sealing and opening */

/* CTR: the ciphertext of a message, or the message of a ciphertext. */
static void crypt(const uint8_t *ke, uint32_t number, uint64_t sequence, const uint8_t *text, size_t length,
                  uint8_t *out)
{
    packed key = pack(ke);
    for (size_t j = 0; j < block_count(length); j++) {
        packed stream = encrypt_words(key, counter_block(number, sequence, (uint32_t)j));
        put_xor(out + BLOCK * j, text + BLOCK * j, block_width(length, j), stream);
    }
}

/* The subkey that CMAC adds to the last block: doubled twice where that block is padded. */
static packed last_subkey(packed key, size_t length)
{
    packed first = doubled(encrypt_words(key, (packed){{0, 0, 0, 0}}));
    return length % BLOCK == 0 ? first : doubled(first);
}

/* CMAC of counter block 0 followed by a ciphertext. */
static void put_tag(const uint8_t *km, uint32_t number, uint64_t sequence, const uint8_t *text, size_t length,
                    uint8_t *tag)
{
    packed key = pack(km);
    packed block = counter_block(number, sequence, 0);
    packed chain = {{0, 0, 0, 0}};
    for (size_t j = 0; j < block_count(length); j++) {
        chain = encrypt_words(key, add(chain, block));
        block = padded(text + BLOCK * j, block_width(length, j));
    }
    block = add(block, last_subkey(key, length));
    unpack(encrypt_words(key, add(chain, block)), tag);
}

uint32_t baseline_seal_plain(const uint8_t *keys, size_t keys_len, uint32_t number, uint32_t wide, uint64_t sequence,
                             const uint8_t *message, size_t message_len, uint8_t *record, size_t record_len)
{
    int is_wide = wide != 0;
    if (keys_len != RASPPUCE_RECEIVER_KEY_BYTES)
        return RASPPUCE_KEYS;
    if (sequence == 0 || sequence > last_sequence(is_wide))
        return RASPPUCE_SEQUENCE;
    if (message_len > RASPPUCE_MESSAGE_MOST)
        return RASPPUCE_MESSAGE;
    if (record_len < head_len(is_wide) + message_len + BLOCK)
        return RASPPUCE_OUTPUT;
    uint8_t *text = record + head_len(is_wide);
    put_head(record, number, is_wide, sequence);
    crypt(keys, number, sequence, message, message_len, text);
    put_tag(keys + BLOCK, number, sequence, text, message_len, text + message_len);
    return RASPPUCE_OK;
}

/* All bytes are looked at. */
static int same_block(const uint8_t *a, const uint8_t *b)
{
    uint8_t differences = 0;
    for (int i = 0; i < BLOCK; i++)
        differences |= a[i] ^ b[i];
    return differences == 0;
}

/* The anti-replay window: the highest number accepted, and a word; its bit k is for the number k below. */
typedef struct {
    uint64_t highest, accepted;
} window;

/* The number is 0 or below the window. */
static int is_below(window w, uint64_t sequence)
{
    return sequence == 0 || (sequence < w.highest && w.highest - sequence >= RASPPUCE_WINDOW);
}

/* The number, which isn't below the window, is in it and was accepted. */
static int is_repeated(window w, uint64_t sequence)
{
    return sequence <= w.highest && (w.accepted >> (w.highest - sequence) & 1) != 0;
}

/* The window with the number accepted, which is above it or in it. */
static window with_accepted(window w, uint64_t sequence)
{
    if (sequence <= w.highest)
        return (window){w.highest, w.accepted | (uint64_t)1 << (w.highest - sequence)};
    uint64_t up = sequence - w.highest;
    return (window){sequence, (up < RASPPUCE_WINDOW ? w.accepted << up : 0) | 1};
}

uint32_t baseline_open(uint8_t *link, size_t link_len, const uint8_t *record, size_t record_len,
                       uint8_t *message, size_t message_len)
{
    if (!is_keyed(link, link_len, RASPPUCE_RECEIVER_BYTES))
        return RASPPUCE_NOT_KEYED;
    int is_wide = link[RASPPUCE_RECEIVER_BYTES - 1] == 1;
    size_t adds = head_len(is_wide) + BLOCK;
    if (record_len < adds || record_len > adds + RASPPUCE_MESSAGE_MOST)
        return RASPPUCE_RECORD;
    uint32_t number = number_at(record);
    if (number != number_at(link + LINK_NUMBER))
        return RASPPUCE_OTHER_LINK;
    size_t length = record_len - adds;
    if (message_len < length)
        return RASPPUCE_OUTPUT;
    uint64_t sequence = sequence_at(record, is_wide);
    window w = {word_at(link + LINK_LAST), word_at(link + LINK_WINDOW)};
    if (is_below(w, sequence))
        return RASPPUCE_BELOW_WINDOW;
    if (is_repeated(w, sequence))
        return RASPPUCE_REPEATED;
    const uint8_t *ke = link + LINK_KEYS, *text = record + head_len(is_wide);
    uint8_t tag[BLOCK];
    put_tag(ke + BLOCK, number, sequence, text, length, tag);
    if (!same_block(tag, text + length))
        return RASPPUCE_TAG;
    crypt(ke, number, sequence, text, length, message);
    w = with_accepted(w, sequence);
    put_word(link + LINK_LAST, w.highest);
    put_word(link + LINK_WINDOW, w.accepted);
    return RASPPUCE_OK;
}

/* ---- shared steps */

/* Three shares of a block. */
typedef struct {
    packed a, b, c;
} triple;

static const triple no_shares;

static inline triple only(packed block)
{
    triple t = no_shares;
    t.a = block;
    return t;
}

static inline triple add_shares(triple s, triple t)
{
    return (triple){add(s.a, t.a), add(s.b, t.b), add(s.c, t.c)};
}

static inline packed joined(triple s)
{
    return add(s.a, add(s.b, s.c));
}

static triple pack_shares(const uint8_t *bytes)
{
    return (triple){pack(bytes), pack(bytes + BLOCK), pack(bytes + 2 * BLOCK)};
}

static triple doubled_shares(triple s)
{
    return (triple){doubled(s.a), doubled(s.b), doubled(s.c)};
}

/* The next 32 bytes of tape as masks u, v and u XOR v, one into each share. */
static inline triple mask(triple s, const uint8_t *tape)
{
    packed u = pack(tape), v = pack(tape + BLOCK);
    return (triple){add(s.a, u), add(s.b, v), add(s.c, add(u, v))};
}

/* The S-box's output share from the next share a and the one after it, b; `one` is its constant. */
static inline packed sbox_share(uint32_t one, packed a, packed b)
{
    uint32_t a0 = a.w[0], a1 = a.w[1], a2 = a.w[2], a3 = a.w[3];
    uint32_t b0 = b.w[0], b1 = b.w[1], b2 = b.w[2];
    uint32_t p01 = (a0 & a1) ^ (a0 & b1) ^ (b0 & a1);
    uint32_t p02 = (a0 & a2) ^ (a0 & b2) ^ (b0 & a2);
    uint32_t p12 = (a1 & a2) ^ (a1 & b2) ^ (b1 & a2);
    return (packed){{
        p02 ^ a0 ^ a1 ^ a3 ^ one,
        a0 ^ p12 ^ a3 ^ one,
        p02 ^ p12 ^ a1 ^ a3,
        p01 ^ p02 ^ a2 ^ a3,
    }};
}

/* The pairs of masks of a call: one for each round, and one for the output. Their bytes of tape. */
enum { PAIRS = ROUNDS + 1, CALL_TAPE = 2 * BLOCK * PAIRS };

/* A call: 35 rounds, each with masks of its own from the tape, and a last pair on its output. */
static triple call(triple key, triple input, const uint8_t *tape)
{
    triple k = key, s = add_shares(input, key);
    for (int round = 0; round < ROUNDS; round++) {
        s = mask(s, tape + 2 * BLOCK * round);
        k = (triple){rotate_key(k.a), rotate_key(k.b), rotate_key(k.c)};
        s = (triple){
            add(add_constant(perm_bits(sbox_share(0xffffffff, s.b, s.c)), round), k.a),
            add(perm_bits(sbox_share(0, s.c, s.a)), k.b),
            add(perm_bits(sbox_share(0, s.a, s.b)), k.c),
        };
    }
    return mask(s, tape + 2 * BLOCK * ROUNDS);
}

/* ---- shared sealing */

enum { MOST_BLOCKS = RASPPUCE_MESSAGE_MOST / BLOCK };

static inline packed only_bits(packed s, packed bits)
{
    return (packed){{s.w[0] & bits.w[0], s.w[1] & bits.w[1], s.w[2] & bits.w[2], s.w[3] & bits.w[3]}};
}

/* Call output shares, cut to their first `width` bytes. */
static triple cut(triple s, size_t width)
{
    if (width == BLOCK)
        return s;
    uint8_t ones[BLOCK] = {0};
    memset(ones, 0xff, width);
    packed bits = pack(ones);
    return (triple){only_bits(s.a, bits), only_bits(s.b, bits), only_bits(s.c, bits)};
}

/* A block of ciphertext in shares: its call's output shares, with the message block in share 0. */
static triple text_shares(triple stream, const uint8_t *text, size_t width)
{
    triple s = cut(stream, width);
    s.a = add(s.a, padded(text, width));
    return s;
}

uint32_t baseline_seal(uint8_t *link, size_t link_len, const uint8_t *message, size_t message_len,
                       const uint8_t *tape, size_t tape_len, uint8_t *record, size_t record_len,
                       uint8_t *shares, size_t shares_len)
{
    if (!is_keyed(link, link_len, RASPPUCE_SENDER_BYTES))
        return RASPPUCE_NOT_KEYED;
    int is_wide = link[RASPPUCE_SENDER_BYTES - 1] == 1;
    if (word_at(link + LINK_LAST) == last_sequence(is_wide))
        return RASPPUCE_NUMBERS_USED;
    if (message_len > RASPPUCE_MESSAGE_MOST)
        return RASPPUCE_MESSAGE;
    if (tape_len < RASPPUCE_TAPE_BYTES(message_len))
        return RASPPUCE_TAPE;
    if (record_len < head_len(is_wide) + message_len + BLOCK || shares_len < RASPPUCE_SHARES_BYTES)
        return RASPPUCE_OUTPUT;

    uint32_t number = number_at(link + LINK_NUMBER);
    uint64_t sequence = word_at(link + LINK_LAST) + 1;
    size_t count = block_count(message_len);
    uint8_t *text = record + head_len(is_wide);
    const uint8_t *at = tape;

    triple ke = mask(pack_shares(link + LINK_KEYS), at);
    at += 2 * BLOCK;
    triple km = mask(pack_shares(link + LINK_KEYS + 3 * BLOCK), at);
    at += 2 * BLOCK;

    /* CTR: calls 1 to n. */
    triple streams[MOST_BLOCKS];
    for (size_t j = 0; j < count; j++, at += CALL_TAPE) {
        streams[j] = call(ke, only(counter_block(number, sequence, (uint32_t)j)), at);
        put_xor(text + BLOCK * j, message + BLOCK * j, block_width(message_len, j), joined(streams[j]));
    }

    /* CMAC's subkey: call n + 1. */
    triple subkey = doubled_shares(call(km, no_shares, at));
    at += CALL_TAPE;
    if (message_len % BLOCK != 0)
        subkey = doubled_shares(subkey);

    /* CMAC's chain: calls n + 2 to 2n + 2. */
    triple block = only(counter_block(number, sequence, 0));
    triple chain = no_shares;
    for (size_t j = 0; j < count; j++, at += CALL_TAPE) {
        chain = call(km, add_shares(chain, block), at);
        block = text_shares(streams[j], message + BLOCK * j, block_width(message_len, j));
    }
    triple tag = call(km, add_shares(chain, add_shares(subkey, block)), at);
    at += CALL_TAPE;

    put_head(record, number, is_wide, sequence);
    unpack(joined(tag), text + message_len);
    unpack(tag.a, shares);
    unpack(tag.b, shares + BLOCK);
    unpack(tag.c, shares + 2 * BLOCK);
    put_number(shares + 3 * BLOCK, (uint32_t)(at - tape));
    put_word(link + LINK_LAST, sequence);
    return RASPPUCE_OK;
}

/* ---- bodies */

enum { FIELD_BITS = 28, OFFSET_KIND = 4 };

static uint32_t field(uint32_t word)
{
    return word & ((1u << FIELD_BITS) - 1);
}

static uint32_t word_of(uint32_t kind, uint32_t x)
{
    return kind << FIELD_BITS | field(x);
}

/* The minutes of an offset's word, whose field is in two's complement. */
static int32_t minutes(uint32_t word)
{
    int32_t x = (int32_t)field(word);
    return x < 1 << (FIELD_BITS - 1) ? x : x - (1 << FIELD_BITS);
}

static int is_offset(int32_t x)
{
    return RASPPUCE_OFFSET_LEAST <= x && x <= RASPPUCE_OFFSET_MOST;
}

uint32_t baseline_read_body(const uint8_t *body, size_t body_len, uint8_t *values, size_t values_len)
{
    if (body_len < 4 || body_len > RASPPUCE_BODY_MOST || body_len % 4 != 0)
        return RASPPUCE_BODY_LENGTH;
    uint32_t found[OFFSET_KIND + 1] = {0}; /* the word of each kind, or 0: no word of a kind above 0 is 0 */
    for (size_t i = 0; i < body_len; i += 4) {
        uint32_t word = number_at(body + i), kind = word >> FIELD_BITS;
        if (kind > OFFSET_KIND)
            continue;
        if (kind == 0 || found[kind] != 0 || (kind == OFFSET_KIND && !is_offset(minutes(word))))
            return RASPPUCE_BODY_WORD;
        found[kind] = word;
    }
    if (found[1] == 0 || found[2] == 0 || found[3] == 0)
        return RASPPUCE_BODY_MISSING;
    if (values_len < RASPPUCE_VALUES_BYTES)
        return RASPPUCE_OUTPUT;
    uint64_t seconds = (uint64_t)field(found[1]) << FIELD_BITS | field(found[2]);
    int has_offset = found[OFFSET_KIND] != 0;
    put_word(values, seconds);
    put_number(values + 8, field(found[3]));
    values[12] = (uint8_t)has_offset;
    put_number(values + 13, has_offset ? (uint32_t)minutes(found[OFFSET_KIND]) : 0);
    return RASPPUCE_OK;
}

uint32_t baseline_write_body(uint64_t seconds, uint32_t fraction, uint32_t has_offset, int32_t offset,
                             uint8_t *body, size_t body_len)
{
    if (seconds >= RASPPUCE_SECONDS_END || fraction >= RASPPUCE_FRACTION_END
        || (has_offset && !is_offset(offset)))
        return RASPPUCE_BODY_WORD;
    if (body_len < RASPPUCE_BODY_BYTES(has_offset))
        return RASPPUCE_OUTPUT;
    put_number(body, word_of(1, (uint32_t)(seconds >> FIELD_BITS)));
    put_number(body + 4, word_of(2, (uint32_t)seconds));
    put_number(body + 8, word_of(3, fraction));
    if (has_offset)
        put_number(body + 12, word_of(OFFSET_KIND, (uint32_t)offset));
    return RASPPUCE_OK;
}
