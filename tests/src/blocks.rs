//! The four block calls: encrypt and decrypt, by table and by packed words.

use crate::cipher::{self, Block};
use crate::hex::Hex;
use crate::lent::{hold_answer, hold_as, Call, Lent};
use crate::links::NOT_A_BLOCK;
use crate::tally::Tally;
use crate::vectors::PUBLISHED;

/// Declares functions of the archive that take key, input and output.
macro_rules! block_functions {
    ($($name:ident)*) => {
        #[link(name = "rasppuce", kind = "static")]
        extern "C" {
            $(fn $name(
                key: *const u8,
                key_len: usize,
                input: *const u8,
                input_len: usize,
                output: *mut u8,
                output_len: usize,
            ) -> u32;)*
        }
    };
}

block_functions! {
    rasppuce_encrypt_table
    rasppuce_decrypt_table
    rasppuce_encrypt_packed
    rasppuce_decrypt_packed
}

/// One of the four: its function, and what it has to make of key and input.
struct Function {
    name: &'static str,
    call: unsafe extern "C" fn(*const u8, usize, *const u8, usize, *mut u8, usize) -> u32,
    own: fn(&Block, &Block) -> Block,
}

static ENCRYPT: [Function; 2] = [
    Function { name: "rasppuce_encrypt_table", call: rasppuce_encrypt_table, own: cipher::encrypt },
    Function { name: "rasppuce_encrypt_packed", call: rasppuce_encrypt_packed, own: cipher::encrypt },
];

static DECRYPT: [Function; 2] = [
    Function { name: "rasppuce_decrypt_table", call: rasppuce_decrypt_table, own: cipher::decrypt },
    Function { name: "rasppuce_decrypt_packed", call: rasppuce_decrypt_packed, own: cipher::decrypt },
];

#[derive(Clone)]
struct BlockCall {
    function: &'static Function,
    key: Vec<u8>,
    input: Vec<u8>,
    output: Vec<u8>,
}

impl Call for BlockCall {
    fn name(&self) -> &'static str {
        self.function.name
    }

    fn slices(&mut self) -> Vec<(&'static str, &mut Vec<u8>)> {
        vec![("key", &mut self.key), ("input", &mut self.input), ("output", &mut self.output)]
    }

    unsafe fn make(&self, lent: &[Lent]) -> u32 {
        let [key, input, output] = lent else { panic!("three slices") };
        let call = self.function.call;
        call(key.pointer, key.length, input.pointer, input.length, output.pointer, output.length)
    }

    fn own(&mut self) -> u32 {
        let blocks = (self.key[..].try_into(), self.input[..].try_into(), self.output.len());
        let (Ok(key), Ok(input), 16) = blocks else { return NOT_A_BLOCK };
        self.output = (self.function.own)(&key, &input).to_vec();
        0
    }
}

/// Random keys and blocks tried.
const RANDOM_CASES: usize = 10_000;

/// Holds all four calls on one key: they take the plaintext to the ciphertext and back.
pub fn hold_both_ways(tally: &mut Tally, key: &Block, plaintext: &Block, ciphertext: &Block, shift: usize) {
    for (functions, from, to) in [(&ENCRYPT, plaintext, ciphertext), (&DECRYPT, ciphertext, plaintext)] {
        for function in functions {
            let before =
                BlockCall { function, key: key.to_vec(), input: from.to_vec(), output: vec![0xee; 16] };
            let after = BlockCall { output: to.to_vec(), ..before.clone() };
            hold_as(tally, &before, 0, &after, shift);
        }
    }
}

/// The published vectors, all four calls.
pub fn published(tally: &mut Tally) {
    for (i, vector) in PUBLISHED.iter().enumerate() {
        let (key, plaintext, ciphertext) = vector.blocks();
        hold_both_ways(tally, &key, &plaintext, &ciphertext, i);
    }
}

/// Random keys and blocks: the four calls do what the cipher of these tests does.
pub fn random(tally: &mut Tally) {
    let mut random = tally.random();
    for case in 0..RANDOM_CASES {
        let key = random.block();
        let block = random.block();
        let ciphertext = cipher::encrypt(&key, &block);
        tally.same(
            format_args!("own cipher, case {case}, key {}: back", Hex(&key)),
            &cipher::decrypt(&key, &ciphertext),
            &block,
        );
        hold_both_ways(tally, &key, &block, &ciphertext, random.number() as usize);
        // The same block taken as a ciphertext.
        let plaintext = cipher::decrypt(&key, &block);
        hold_both_ways(tally, &key, &plaintext, &block, random.number() as usize);
    }
}

/// One bit set in the key or in the block, everything else zero.
pub fn single_bits(tally: &mut Tally) {
    for i in 0..128 {
        let mut one = [0; 16];
        one[i / 8] = 0x80 >> (i % 8);
        let zero = [0; 16];
        hold_both_ways(tally, &one, &zero, &cipher::encrypt(&one, &zero), i);
        hold_both_ways(tally, &zero, &one, &cipher::encrypt(&zero, &one), i);
    }
}

/// Every byte value at every place of the block.
pub fn every_byte(tally: &mut Tally) {
    let mut random = tally.random();
    let key = random.block();
    let mut block = random.block();
    for place in 0..16 {
        for value in 0..=255 {
            block[place] = value;
            hold_both_ways(tally, &key, &block, &cipher::encrypt(&key, &block), place);
        }
    }
}

/// All four calls with slices of any three of these lengths: 0 for three blocks, else a refusal
/// that leaves every byte as it was.
fn hold_lengths(tally: &mut Tally, lengths: &[usize]) {
    let mut random = tally.random();
    for &a in lengths {
        for &b in lengths {
            for &c in lengths {
                let (key, input, output) = (random.bytes(a), random.bytes(b), random.bytes(c));
                let answer = if (a, b, c) == (16, 16, 16) { 0 } else { NOT_A_BLOCK };
                for function in ENCRYPT.iter().chain(&DECRYPT) {
                    let (key, input, output) = (key.clone(), input.clone(), output.clone());
                    let call = BlockCall { function, key, input, output };
                    hold_answer(tally, &call, answer, random.number() as usize);
                }
            }
        }
    }
}

/// Every three lengths from 0 to 40.
pub fn short_lengths(tally: &mut Tally) {
    hold_lengths(tally, &Vec::from_iter(0..=40));
}

/// Longer slices, among them 16 more than a power of two.
pub fn long_lengths(tally: &mut Tally) {
    hold_lengths(tally, &[0, 1, 15, 16, 17, 32, 256, 272, 65_552]);
}
