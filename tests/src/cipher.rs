//! BAKSHEESH bit by bit, as its paper describes it (sections 3 and D).
//!
//! Made to be compared with the paper, not to be fast: a block is an array of 128 bits, and each
//! step is one function that does what the paper's sentence says.

/// A block or a key as the host sees it.
pub type Block = [u8; 16];

/// A state or a key as the paper sees it: entry i is bit i, 0 or 1.
pub type Bits = [u8; 128];

pub const ROUNDS: usize = 35;

/// Section 3.1: the S-box 306DB58ECF924A71. Entry x is S(x).
pub const SBOX: [u8; 16] = [3, 0, 6, 0xd, 0xb, 5, 8, 0xe, 0xc, 0xf, 9, 2, 4, 0xa, 7, 1];

/// Section 3.2: bit i moves to place PERMUTATION[i].
#[rustfmt::skip]
pub const PERMUTATION: [usize; 128] = [
     0, 33, 66,  99,  96,  1, 34,  67, 64,  97,  2, 35, 32, 65,  98,  3,
     4, 37, 70, 103, 100,  5, 38,  71, 68, 101,  6, 39, 36, 69, 102,  7,
     8, 41, 74, 107, 104,  9, 42,  75, 72, 105, 10, 43, 40, 73, 106, 11,
    12, 45, 78, 111, 108, 13, 46,  79, 76, 109, 14, 47, 44, 77, 110, 15,
    16, 49, 82, 115, 112, 17, 50,  83, 80, 113, 18, 51, 48, 81, 114, 19,
    20, 53, 86, 119, 116, 21, 54,  87, 84, 117, 22, 55, 52, 85, 118, 23,
    24, 57, 90, 123, 120, 25, 58,  91, 88, 121, 26, 59, 56, 89, 122, 27,
    28, 61, 94, 127, 124, 29, 62,  95, 92, 125, 30, 63, 60, 93, 126, 31,
];

/// Section 3.3: the places that take a constant bit. Bit j of a round's constant goes to TAPS[j].
pub const TAPS: [usize; 6] = [8, 13, 19, 35, 67, 106];

/// Sections 3.3 and D.2: the constants of rounds 1 to 35.
pub const CONSTANTS: [u8; ROUNDS] = [
    2, 33, 16, 9, 36, 19, 40, 53, 26, 13, 38, 51, 56, 61, 62, 31, 14, 7, 34, 49, 24, 45, 54, 59, 28, 47, 22,
    43, 20, 11, 4, 3, 32, 17, 8,
];

/// Byte 0 holds bits 127 to 120, byte 15 bits 7 to 0.
pub fn bits_of(block: &Block) -> Bits {
    let mut bits = [0; 128];
    for i in 0..128 {
        bits[i] = (block[15 - i / 8] >> (i % 8)) & 1;
    }
    bits
}

pub fn block_of(bits: &Bits) -> Block {
    let mut block = [0; 16];
    for i in 0..128 {
        block[15 - i / 8] |= bits[i] << (i % 8);
    }
    block
}

/// Cell i is bits 4i to 4i+3, bit 4i lowest; every cell goes through the box.
fn each_cell(bits: &Bits, sbox: &[u8; 16]) -> Bits {
    let mut result = [0; 128];
    for cell in 0..32 {
        let mut x = 0;
        for j in 0..4 {
            x |= bits[4 * cell + j] << j;
        }
        let y = sbox[x as usize];
        for j in 0..4 {
            result[4 * cell + j] = (y >> j) & 1;
        }
    }
    result
}

/// The box that undoes SBOX.
pub fn inverse_sbox() -> [u8; 16] {
    let mut inverse = [0; 16];
    for x in 0..16 {
        inverse[SBOX[x] as usize] = x as u8;
    }
    inverse
}

fn sub_cells(bits: &Bits) -> Bits {
    each_cell(bits, &SBOX)
}

fn inverse_sub_cells(bits: &Bits) -> Bits {
    each_cell(bits, &inverse_sbox())
}

pub fn perm_bits(bits: &Bits) -> Bits {
    let mut result = [0; 128];
    for i in 0..128 {
        result[PERMUTATION[i]] = bits[i];
    }
    result
}

pub fn inverse_perm_bits(bits: &Bits) -> Bits {
    let mut result = [0; 128];
    for i in 0..128 {
        result[i] = bits[PERMUTATION[i]];
    }
    result
}

/// XORs the constant of a round, counted from 0; done twice it changes nothing.
pub fn add_constant(bits: &Bits, round: usize) -> Bits {
    let mut result = *bits;
    for j in 0..6 {
        result[TAPS[j]] ^= (CONSTANTS[round] >> j) & 1;
    }
    result
}

/// The XOR of two.
pub fn add(bits: &Bits, key: &Bits) -> Bits {
    let mut result = [0; 128];
    for i in 0..128 {
        result[i] = bits[i] ^ key[i];
    }
    result
}

/// The key, rotated right by one: each bit moves one place down, bit 0 to place 127.
pub fn rotate(key: &Bits) -> Bits {
    let mut result = [0; 128];
    for i in 1..128 {
        result[i - 1] = key[i];
    }
    result[127] = key[0];
    result
}

/// Key 0 is XORed first, key r at the end of round r.
fn round_keys(key: &Block) -> [Bits; ROUNDS + 1] {
    let mut keys = [bits_of(key); ROUNDS + 1];
    for r in 1..=ROUNDS {
        keys[r] = rotate(&keys[r - 1]);
    }
    keys
}

pub fn encrypt(key: &Block, block: &Block) -> Block {
    steps(key, block, |_, _| ())
}

/// For each round the state on entering it, and the key added at its end; then the ciphertext, with
/// the last of these keys once more.
pub fn rounds(key: &Block, block: &Block) -> Vec<(Block, Block)> {
    let mut seen = Vec::new();
    let ciphertext = steps(key, block, |state, key| seen.push((block_of(state), block_of(key))));
    let last_key = seen[ROUNDS - 1].1;
    seen.push((ciphertext, last_key));
    seen
}

/// The steps of encryption; `see` is shown each round's state on entering it, and its key.
fn steps(key: &Block, block: &Block, mut see: impl FnMut(&Bits, &Bits)) -> Block {
    let keys = round_keys(key);
    let mut state = add(&bits_of(block), &keys[0]);
    for round in 0..ROUNDS {
        see(&state, &keys[round + 1]);
        state = sub_cells(&state);
        state = perm_bits(&state);
        state = add_constant(&state, round);
        state = add(&state, &keys[round + 1]);
    }
    block_of(&state)
}

/// The same steps undone, last first.
pub fn decrypt(key: &Block, block: &Block) -> Block {
    let keys = round_keys(key);
    let mut state = bits_of(block);
    for round in (0..ROUNDS).rev() {
        state = add(&state, &keys[round + 1]);
        state = add_constant(&state, round);
        state = inverse_perm_bits(&state);
        state = inverse_sub_cells(&state);
    }
    block_of(&add(&state, &keys[0]))
}
