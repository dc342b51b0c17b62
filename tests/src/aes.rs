//! AES-128 (FIPS 197), encryption alone.
//!
//! No part of the product: NIST prints examples of CTR and CMAC with AES-128, and with it the
//! modes of these tests can be held to them.

use crate::cipher::Block;

/// Times x in the field of 256 elements.
fn double(a: u8) -> u8 {
    a << 1 ^ if a & 0x80 != 0 { 0x1b } else { 0 }
}

fn times(mut a: u8, mut b: u8) -> u8 {
    let mut product = 0;
    while b != 0 {
        if b & 1 != 0 {
            product ^= a;
        }
        a = double(a);
        b >>= 1;
    }
    product
}

/// The inverse in the field (0 for 0), then the affine map.
fn sbox(x: u8) -> u8 {
    let inverse = (0..=255).find(|y| times(x, *y) == 1).unwrap_or(0);
    (0..5).fold(0x63, |sum, turns| sum ^ inverse.rotate_left(turns))
}

/// The eleven round keys.
fn round_keys(key: &Block, sbox: &[u8; 256]) -> [Block; 11] {
    let mut words: Vec<[u8; 4]> = key.chunks(4).map(|word| word.try_into().unwrap()).collect();
    let mut constant = 1;
    for i in 4..44 {
        let mut word = words[i - 1];
        if i % 4 == 0 {
            word.rotate_left(1);
            word = word.map(|byte| sbox[byte as usize]);
            word[0] ^= constant;
            constant = double(constant);
        }
        for j in 0..4 {
            word[j] ^= words[i - 4][j];
        }
        words.push(word);
    }
    let bytes = words.concat();
    std::array::from_fn(|r| bytes[16 * r..16 * r + 16].try_into().unwrap())
}

pub fn encrypt(key: &Block, block: &Block) -> Block {
    let sbox: [u8; 256] = std::array::from_fn(|x| sbox(x as u8));
    let keys = round_keys(key, &sbox);
    let mut state: Block = std::array::from_fn(|i| block[i] ^ keys[0][i]);
    for r in 1..=10 {
        // Byte i is row i mod 4 of column i / 4; row j moves j columns to the left.
        let moved: Block = std::array::from_fn(|i| sbox[state[(i + 4 * (i % 4)) % 16] as usize]);
        state = moved;
        if r < 10 {
            for i in 0..16 {
                let at = |turn: usize| moved[i / 4 * 4 + (i + turn) % 4];
                state[i] = times(at(0), 2) ^ times(at(1), 3) ^ at(2) ^ at(3);
            }
        }
        state = std::array::from_fn(|i| state[i] ^ keys[r][i]);
    }
    state
}
