/*
 * BAKSHEESH on packed words in plain C: the same algorithm as the proved packed engine.
 *
 * A block is four 32-bit words: bit i of word j holds bit j of cell i.
 */
#ifndef PACKED_H
#define PACKED_H

#include <stdint.h>

enum { ROUNDS = 35 };

/* The six constant bits of each round, each at its cell's place; no two of them are in one cell. */
static const uint32_t CONSTANTS[ROUNDS] = {
    0x00000008, 0x04000004, 0x00010000, 0x00000104, 0x04000010, 0x0001000c, 0x04000100,
    0x04010014, 0x00010108, 0x00000114, 0x04000018, 0x0401000c, 0x04010100, 0x04010114,
    0x04010118, 0x0001011c, 0x00000118, 0x0000001c, 0x04000008, 0x04010004, 0x00010100,
    0x04000114, 0x04010018, 0x0401010c, 0x00010110, 0x0400011c, 0x00010018, 0x0400010c,
    0x00010010, 0x0000010c, 0x00000010, 0x0000000c, 0x04000000, 0x00010004, 0x00000100,
};

typedef struct {
    uint32_t w[4];
} packed;

static inline uint32_t rotate_left(uint32_t x, int n)
{
    return x << n | x >> (32 - n);
}

static inline uint32_t rotate_right(uint32_t x, int n)
{
    return x >> n | x << (32 - n);
}

/* Bits of the mask and those n places above them change places. */
static inline uint32_t swapmove(uint32_t x, uint32_t mask, int n)
{
    uint32_t t = ((x >> n) ^ x) & mask;
    return x ^ t ^ (t << n);
}

static inline uint64_t swapmove_wide(uint64_t x, uint64_t mask, int n)
{
    uint64_t t = ((x >> n) ^ x) & mask;
    return x ^ t ^ (t << n);
}

/* ---- between bytes and packed words */

/* Four bytes as a word, the lowest first, with the bits of each byte made ready for transpose. */
static inline uint32_t gather(uint8_t a, uint8_t b, uint8_t c, uint8_t d)
{
    uint32_t x = (uint32_t)a | (uint32_t)b << 8 | (uint32_t)c << 16 | (uint32_t)d << 24;
    return swapmove(x, 0x0a0a0a0a, 3);
}

/* The number of a word, and two bits of a bit's place in it, change places; done twice it does nothing. */
static inline packed transpose(packed s)
{
    uint32_t t = ((s.w[0] >> 4) ^ s.w[2]) & 0x0f0f0f0f;
    uint32_t u = ((s.w[1] >> 4) ^ s.w[3]) & 0x0f0f0f0f;
    uint32_t a = s.w[0] ^ t << 4;
    uint32_t b = s.w[1] ^ u << 4;
    uint32_t c = s.w[2] ^ t;
    uint32_t d = s.w[3] ^ u;
    uint32_t v = ((a >> 2) ^ b) & 0x33333333;
    uint32_t x = ((c >> 2) ^ d) & 0x33333333;
    return (packed){{a ^ v << 2, b ^ v, c ^ x << 2, d ^ x}};
}

static inline packed pack(const uint8_t *b)
{
    packed s = transpose((packed){{
        gather(b[15], b[11], b[7], b[3]),
        gather(b[14], b[10], b[6], b[2]),
        gather(b[13], b[9], b[5], b[1]),
        gather(b[12], b[8], b[4], b[0]),
    }});
    return (packed){{s.w[0], s.w[2], s.w[1], s.w[3]}};
}

static inline void unpack(packed s, uint8_t *b)
{
    packed t = transpose((packed){{s.w[0], s.w[2], s.w[1], s.w[3]}});
    for (int j = 0; j < 4; j++) {
        uint32_t x = swapmove(t.w[j], 0x0a0a0a0a, 3);
        for (int i = 0; i < 4; i++)
            b[15 - (4 * i + j)] = (uint8_t)(x >> (8 * i));
    }
}

/* ---- the steps of a round */

static inline packed add(packed s, packed t)
{
    return (packed){{s.w[0] ^ t.w[0], s.w[1] ^ t.w[1], s.w[2] ^ t.w[2], s.w[3] ^ t.w[3]}};
}

static inline packed add_constant(packed s, int round)
{
    uint32_t c = CONSTANTS[round];
    return (packed){{s.w[0] ^ (c & 0x4), s.w[1] ^ (c & 0x8), s.w[2] ^ (c & 0x04000000), s.w[3] ^ (c & 0x00010110)}};
}

static inline packed sub_cells(packed s)
{
    uint32_t a = s.w[0], b = s.w[1], c = s.w[2], d = s.w[3];
    uint32_t u = b & c;
    uint32_t v = (a & c) ^ u ^ b;
    uint32_t w = ~(a ^ u ^ d);
    return (packed){{w ^ v, w, v ^ d, (a & (b ^ c)) ^ c ^ d}};
}

static inline packed inverse_sub_cells(packed s)
{
    uint32_t a = s.w[0], b = s.w[1], c = s.w[2], d = s.w[3];
    return (packed){{
        ~(((a ^ d) & (b ^ c)) ^ c ^ d),
        (a & c) ^ (d & (a ^ c)) ^ a ^ b ^ d,
        (a & (b ^ c)) ^ a ^ (b & c) ^ c ^ d,
        a ^ b ^ c,
    }};
}

/* Two words in one: in each half, bit 4a + b goes to bit a of byte 3 - b. */
static inline uint64_t perm_words(uint64_t x)
{
    x = swapmove_wide(x, 0x0a0a0a0a0a0a0a0a, 3);
    x = swapmove_wide(x, 0x00cc00cc00cc00cc, 6);
    x = swapmove_wide(x, 0x0000f0f00000f0f0, 12);
    return swapmove_wide(x, 0x000000ff000000ff, 24);
}

/* Bit a of byte 3 - b goes to bit 4a + b. */
static inline uint32_t inverse_perm_word(uint32_t x)
{
    x = swapmove(x, 0x000000ff, 24);
    x = swapmove(x, 0x0000f0f0, 12);
    x = swapmove(x, 0x00cc00cc, 6);
    return swapmove(x, 0x0a0a0a0a, 3);
}

static inline packed perm_bits(packed s)
{
    uint64_t x = perm_words(s.w[0] | (uint64_t)s.w[1] << 32);
    uint64_t y = perm_words(s.w[2] | (uint64_t)s.w[3] << 32);
    return (packed){{
        rotate_left((uint32_t)x, 8),
        rotate_left((uint32_t)(x >> 32), 16),
        rotate_left((uint32_t)y, 24),
        (uint32_t)(y >> 32),
    }};
}

static inline packed inverse_perm_bits(packed s)
{
    return (packed){{
        inverse_perm_word(rotate_right(s.w[0], 8)),
        inverse_perm_word(rotate_right(s.w[1], 16)),
        inverse_perm_word(rotate_right(s.w[2], 24)),
        inverse_perm_word(s.w[3]),
    }};
}

/* The key, rotated right by one. */
static inline packed rotate_key(packed k)
{
    return (packed){{k.w[1], k.w[2], k.w[3], rotate_right(k.w[0], 1)}};
}

/* The key, rotated left by one. */
static inline packed rotate_key_back(packed k)
{
    return (packed){{rotate_left(k.w[3], 1), k.w[0], k.w[1], k.w[2]}};
}

/* The key, rotated right by all 35 rounds at once. */
static inline packed rotate_key_by_all(packed k)
{
    return (packed){{
        rotate_right(k.w[3], 8),
        rotate_right(k.w[0], 9),
        rotate_right(k.w[1], 9),
        rotate_right(k.w[2], 9),
    }};
}

/* ---- whole blocks */

static inline packed encrypt_words(packed key, packed block)
{
    packed k = key;
    packed s = add(block, key);
    for (int round = 0; round < ROUNDS; round++) {
        k = rotate_key(k);
        s = add(add_constant(perm_bits(sub_cells(s)), round), k);
    }
    return s;
}

static inline packed decrypt_words(packed key, packed block)
{
    packed k = rotate_key_by_all(key);
    packed s = block;
    for (int round = ROUNDS - 1; round >= 0; round--) {
        s = inverse_sub_cells(inverse_perm_bits(add_constant(add(s, k), round)));
        k = rotate_key_back(k);
    }
    return add(s, key);
}

#endif
