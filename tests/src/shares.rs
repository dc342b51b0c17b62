//! The cipher and the sealing on three shares, bit by bit.
//!
//! Shares are numbered 0, 1, 2, counted modulo 3. Made to be compared with the paper that
//! describes the sealing, not to be fast.

use crate::cipher::{self, Bits, Block, ROUNDS};
use crate::modes;

pub type Shares = [Block; 3];

/// What a probe at one lane sees: state shares i+1 and i+2, then key share i.
pub type Lane = [u8; 48];

/// How many pairs of masks a call takes: one in each round, and the last on its output. A report counts
/// the output as a round too.
pub const PAIRS: usize = ROUNDS + 1;

/// Bytes of tape: the masks of both keys, and those of one call.
const KEY_MASKS: usize = 64;
const CALL_MASKS: usize = 32 * PAIRS;

/// The share whose number is `i`, counted modulo 3.
fn of<T: Copy>(shares: &[T; 3], i: usize) -> T {
    shares[i % 3]
}

pub fn join(shares: &Shares) -> Block {
    modes::xor_blocks(&modes::xor_blocks(&shares[0], &shares[1]), &shares[2])
}

/// Masks u, v and u XOR v into shares 0, 1, 2.
fn masked(shares: &Shares, u: &Block, v: &Block) -> Shares {
    let masks = [*u, *v, modes::xor_blocks(u, v)];
    std::array::from_fn(|i| modes::xor_blocks(&shares[i], &masks[i]))
}

/// Share `i` of the S-box of one cell, of its bits in share i+1 (`a`) and in share i+2 (`b`).
/// Each linear term is taken of share i+1, the constant 1 goes to share 0 only.
pub fn sbox_share(i: usize, a: [u8; 4], b: [u8; 4]) -> [u8; 4] {
    let x = |j: usize| a[j];
    let product = |j: usize, k: usize| a[j] & a[k] ^ a[j] & b[k] ^ b[j] & a[k];
    let one = if i == 0 { 1 } else { 0 };
    [
        product(0, 2) ^ x(0) ^ x(1) ^ x(3) ^ one,
        x(0) ^ product(1, 2) ^ x(3) ^ one,
        product(0, 2) ^ product(1, 2) ^ x(1) ^ x(3),
        product(0, 1) ^ product(0, 2) ^ x(2) ^ x(3),
    ]
}

/// What a round (counted from 0) makes of share i, of lane i alone: state shares i+1 and i+2 just
/// after the masks, and key share i as the round adds it.
fn round_share(i: usize, round: usize, a: &Bits, b: &Bits, key: &Bits) -> Bits {
    let mut state = [0; 128];
    for cell in 0..32 {
        let bits = |share: &Bits| std::array::from_fn(|j| share[4 * cell + j]);
        state[4 * cell..4 * cell + 4].copy_from_slice(&sbox_share(i, bits(a), bits(b)));
    }
    state = cipher::perm_bits(&state);
    if i == 0 {
        state = cipher::add_constant(&state, round);
    }
    cipher::add(&state, key)
}

/// The three blocks of a lane.
pub fn lane_parts(lane: &Lane) -> [Block; 3] {
    std::array::from_fn(|j| lane[16 * j..16 * j + 16].try_into().unwrap())
}

/// What round 1 to 35 makes of share i, of the bytes of lane i.
pub fn share_of_lane(i: usize, round: usize, lane: &Lane) -> Block {
    let [a, b, key] = lane_parts(lane).map(|part| cipher::bits_of(&part));
    cipher::block_of(&round_share(i, round - 1, &a, &b, &key))
}

/// One round of a call: the state shares just after the masks, and the key shares that it adds. The last
/// one, round 36, is the output: its shares after the masks, and the key shares of round 35.
pub struct Round {
    state: [Bits; 3],
    key: [Bits; 3],
}

impl Round {
    pub fn lane(&self, i: usize) -> Lane {
        let parts = [of(&self.state, i + 1), of(&self.state, i + 2), of(&self.key, i)];
        parts.map(|part| cipher::block_of(&part)).concat().try_into().unwrap()
    }

    pub fn state_share(&self, i: usize) -> Block {
        cipher::block_of(&self.state[i])
    }
}

/// A shared call: its rounds with the output as the last, and the three shares that come out.
pub struct Call {
    pub rounds: Vec<Round>,
    pub output: Shares,
}

fn call(key: &Shares, input: &Shares, masks: &[u8]) -> Call {
    let mut key = key.map(|share| cipher::bits_of(&share));
    let mut state = input.map(|share| cipher::bits_of(&share));
    state = std::array::from_fn(|i| cipher::add(&state[i], &key[i]));
    let mask = |at: usize| cipher::bits_of(masks[at..at + 16].try_into().unwrap());
    let with_pair = |state: &[Bits; 3], at: usize| -> [Bits; 3] {
        let (u, v) = (mask(32 * at), mask(32 * at + 16));
        let pair = [u, v, cipher::add(&u, &v)];
        std::array::from_fn(|i| cipher::add(&state[i], &pair[i]))
    };
    let mut rounds = Vec::new();
    for round in 0..ROUNDS {
        state = with_pair(&state, round);
        key = key.map(|share| cipher::rotate(&share));
        rounds.push(Round { state, key });
        let before = state;
        state =
            std::array::from_fn(|i| round_share(i, round, &of(&before, i + 1), &of(&before, i + 2), &key[i]));
    }
    state = with_pair(&state, ROUNDS);
    rounds.push(Round { state, key });
    Call { rounds, output: state.map(|share| cipher::block_of(&share)) }
}

/// How many tape bytes a sealing of a message of this length needs.
pub fn tape_need(length: usize) -> usize {
    KEY_MASKS + CALL_MASKS * call_count(length)
}

/// How many calls it makes.
pub fn call_count(length: usize) -> usize {
    2 * length.div_ceil(16) + 2
}

/// Where in the tape the masks u, v of a call and a round stand, both counted from 1; those of the
/// output are round 36.
pub fn masks_at(call: usize, round: usize) -> usize {
    KEY_MASKS + CALL_MASKS * (call - 1) + 32 * (round - 1)
}

/// Where the masks c, d of the key of a call stand: those of KE, then those of KM.
pub fn key_masks_at(call: usize, length: usize) -> usize {
    if call <= length.div_ceil(16) {
        0
    } else {
        32
    }
}

/// Counter block i: link number, sequence number in eight bytes whatever the width is, i.
pub fn counter_block(number: u32, sequence: u64, i: u32) -> Block {
    [&number.to_be_bytes()[..], &sequence.to_be_bytes(), &i.to_be_bytes()].concat().try_into().unwrap()
}

pub struct Sealing {
    /// Call k is entry k - 1.
    pub calls: Vec<Call>,
    pub ciphertext: Vec<u8>,
    pub tag: Shares,
    /// How many tape bytes were read.
    pub used: usize,
}

/// Seals by shares, call after call.
pub fn seal(number: u32, sequence: u64, ke: &Shares, km: &Shares, message: &[u8], tape: &[u8]) -> Sealing {
    const ZERO: Shares = [[0; 16]; 3];
    let block_at = |at: usize| -> Block { tape[at..at + 16].try_into().unwrap() };
    let ke = masked(ke, &block_at(0), &block_at(16));
    let km = masked(km, &block_at(32), &block_at(48));
    let mut calls: Vec<Call> = Vec::new();
    let mut make = |key: &Shares, input: &Shares| -> Shares {
        let at = masks_at(calls.len() + 1, 1);
        calls.push(call(key, input, &tape[at..at + CALL_MASKS]));
        calls[calls.len() - 1].output
    };

    // Calls 1 to n. A ciphertext block stays as three shares, cut to the block's bytes.
    let mut texts: Vec<[Vec<u8>; 3]> = Vec::new();
    for (i, piece) in message.chunks(16).enumerate() {
        let output = make(&ke, &[counter_block(number, sequence, i as u32), [0; 16], [0; 16]]);
        let mut text = output.map(|share| share[..piece.len()].to_vec());
        text[0] = modes::xor(&text[0], piece);
        texts.push(text);
    }

    // Call n+1 and the subkeys, share by share.
    let k1 = make(&km, &ZERO).map(|share| modes::doubled(&share));
    let k2 = k1.map(|share| modes::doubled(&share));

    // Calls n+2 to 2n+2: counter block 0, then the ciphertext.
    let first = [counter_block(number, sequence, 0).to_vec(), vec![0; 16], vec![0; 16]];
    let blocks: Vec<&[Vec<u8>; 3]> = [&first].into_iter().chain(&texts).collect();
    let mut chain = ZERO;
    for (j, block) in blocks.iter().enumerate() {
        let is_last = j + 1 == blocks.len();
        let is_short = block[0].len() < 16;
        chain = std::array::from_fn(|i| {
            let mut share = block[i].clone();
            if is_short && i == 0 {
                share.push(0x80);
            }
            share.resize(16, 0);
            let mut sum = modes::xor(&chain[i], &share);
            if is_last {
                sum = modes::xor(&sum, if is_short { &k2[i] } else { &k1[i] });
            }
            sum.try_into().unwrap()
        });
        chain = make(&km, &chain);
    }

    let join_pieces = |shares: &[Vec<u8>; 3]| modes::xor(&modes::xor(&shares[0], &shares[1]), &shares[2]);
    let used = KEY_MASKS + CALL_MASKS * calls.len();
    Sealing { calls, ciphertext: texts.iter().flat_map(join_pieces).collect(), tag: chain, used }
}
