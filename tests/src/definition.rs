//! Checks on the code of these tests alone: its tables against other forms of the same thing,
//! its modes against NIST's examples, its shares against its plain cipher.

use crate::aes;
use crate::body::{self, Mark};
use crate::cipher::{self, Block, CONSTANTS, PERMUTATION, ROUNDS, SBOX};
use crate::hex;
use crate::links::{self, Width, Window, RECEIVER, RECEIVER_KEYS, SENDER, SENDER_KEYS, WIDTHS};
use crate::modes;
use crate::random::Random;
use crate::shares::{self, Shares, PAIRS};
use crate::tally::Tally;

pub fn tables(tally: &mut Tally) {
    let inverse = cipher::inverse_sbox();
    let printed_inverse = [1, 0xf, 0xb, 0, 0xc, 5, 2, 0xe, 6, 0xa, 0xd, 4, 8, 3, 7, 9];
    tally.same(format_args!("inverse S-box"), &inverse, &printed_inverse);

    // The S-box in bit form.
    for x in 0..16u8 {
        let bit = |j: u8| (x >> j) & 1;
        let (x0, x1, x2, x3) = (bit(0), bit(1), bit(2), bit(3));
        let y0 = x0 & x2 ^ x0 ^ x1 ^ x3 ^ 1;
        let y1 = x0 ^ x1 & x2 ^ x3 ^ 1;
        let y2 = x0 & x2 ^ x1 & x2 ^ x1 ^ x3;
        let y3 = x0 & x1 ^ x0 & x2 ^ x2 ^ x3;
        let y = y0 | y1 << 1 | y2 << 2 | y3 << 3;
        tally.same(format_args!("S-box of {x:x} in bit form"), &[y], &[SBOX[x as usize]]);
    }

    // The bit move as a formula.
    for i in 0..128 {
        let place = 4 * (i / 16) + 32 * ((3 * (i % 16 / 4) + i % 4) % 4) + i % 4;
        tally.same(format_args!("where bit {i} moves"), &[place as u8], &[PERMUTATION[i] as u8]);
    }

    // Each bit set alone: where it goes, that it comes back, and where the key's rotation puts it.
    for i in 0..128 {
        let mut alone = [0; 128];
        alone[i] = 1;
        let moved = cipher::perm_bits(&alone);
        tally.same(format_args!("bit {i} alone, moved"), &[moved[PERMUTATION[i]]], &[1]);
        tally.same(format_args!("bit {i} alone, moved back"), &cipher::inverse_perm_bits(&moved), &alone);
        let rotated = cipher::rotate(&alone);
        tally.same(format_args!("bit {i} alone, rotated"), &[rotated[(i + 127) % 128]], &[1]);
    }

    // Byte 0 holds bits 127 to 120.
    let mut block = [0; 16];
    block[0] = 0x80;
    block[15] = 0x02;
    let bits = cipher::bits_of(&block);
    let ones: Vec<u8> = (0..128).filter(|i| bits[*i as usize] == 1).collect();
    tally.same(format_args!("places of two bits"), &ones, &[1, 127]);
    tally.same(format_args!("bytes, bits, bytes"), &cipher::block_of(&bits), &block);

    // The constants by their rule: five bits of a shift register above one bit that toggles.
    let mut register = 1u8;
    for (round, constant) in CONSTANTS.iter().enumerate() {
        let by_rule = register << 1 | (round as u8 & 1);
        tally.same(format_args!("constant of round {}", round + 1), &[by_rule], &[*constant]);
        let feedback = (register ^ register >> 2) & 1;
        register = register >> 1 | feedback << 4;
    }
}

/// The examples that NIST prints for CTR (SP 800-38A, F.5.1) and for CMAC (SP 800-38B, D.1 in
/// its first edition), all with AES-128, one key and one text.
pub fn modes(tally: &mut Tally) {
    let block = |digits: &str| hex::block(digits).expect("32 digits");
    let key = block("2b7e151628aed2a6abf7158809cf4f3c");
    let text: Vec<u8> = [
        "6bc1bee22e409f96e93d7e117393172a",
        "ae2d8a571e03ac9c9eb76fac45af8e51",
        "30c81c46a35ce411e5fbc1191a0a52ef",
        "f69f2445df4f9b17ad2b417be66c3710",
    ]
    .iter()
    .flat_map(|digits| block(digits))
    .collect();
    let encrypt = |input: &Block| aes::encrypt(&key, input);

    // The counter blocks f0f1..ff and those after it, which carry into the byte before.
    let first = u128::from_be_bytes(block("f0f1f2f3f4f5f6f7f8f9fafbfcfdfeff"));
    let counter = |i: u32| (first + i as u128).to_be_bytes();
    let ciphertext: Vec<u8> = [
        "874d6191b620e3261bef6864990db6ce",
        "9806f66b7970fdff8617187bb9fffdff",
        "5ae4df3edbd5d35e5b4f09020db03eab",
        "1e031dda2fbe03d1792170a0f3009cee",
    ]
    .iter()
    .flat_map(|digits| block(digits))
    .collect();
    tally.same(format_args!("CTR"), &modes::ctr(encrypt, counter, &text), &ciphertext);
    for length in 0..=64 {
        let part = modes::ctr(encrypt, counter, &text[..length]);
        tally.same(format_args!("CTR of {length} bytes"), &part, &ciphertext[..length]);
        tally.same(
            format_args!("CTR back, {length} bytes"),
            &modes::ctr(encrypt, counter, &part),
            &text[..length],
        );
    }

    let (k1, k2) = modes::subkeys(encrypt);
    tally.same(format_args!("K1"), &k1, &block("fbeed618357133667c85e08f7236a8de"));
    tally.same(format_args!("K2"), &k2, &block("f7ddac306ae266ccf90bc11ee46d513b"));
    for (length, tag) in [
        (0, "bb1d6929e95937287fa37d129b756746"),
        (16, "070a16b46b4d4144f79bdd9dd04a287c"),
        (40, "dfa66747de9ae63030ca32611497c827"),
        (64, "51f0bebf7e3b9d92fc49741779363cfe"),
    ] {
        tally.same(
            format_args!("CMAC of {length} bytes"),
            &modes::cmac(encrypt, &text[..length]),
            &block(tag),
        );
    }
}

/// The bits of a cell, lowest first, and the cell that bits make.
fn cell_bits(cell: u8) -> [u8; 4] {
    std::array::from_fn(|j| (cell >> j) & 1)
}

fn cell_of(bits: [u8; 4]) -> u8 {
    (0..4).map(|j| bits[j] << j).sum()
}

/// The S-box on three shares of a cell.
fn shared_sbox(x: [u8; 3]) -> [u8; 3] {
    std::array::from_fn(|i| {
        cell_of(shares::sbox_share(i, cell_bits(x[(i + 1) % 3]), cell_bits(x[(i + 2) % 3])))
    })
}

/// The shared S-box on all triples joins to the S-box, and has the values that are set for it;
/// a shared sealing joins to the plain one, round by round.
pub fn shares(tally: &mut Tally) {
    for x in 0..4096u16 {
        let x = [(x & 15) as u8, (x >> 4 & 15) as u8, (x >> 8) as u8];
        let joined = shared_sbox(x).iter().fold(0, |sum, share| sum ^ share);
        let plain = SBOX[(x[0] ^ x[1] ^ x[2]) as usize];
        tally.same(format_args!("shared S-box of {x:x?}, joined"), &[joined], &[plain]);
    }
    for (x, y) in [([0, 0, 0], [3, 0, 0]), ([1, 0, 0], [3, 0, 3]), ([1, 4, 0], [0xb, 0, 0xe])] {
        tally.same(format_args!("shared S-box of {x:x?}"), &shared_sbox(x), &y);
    }

    let mut random = tally.random();
    for width in WIDTHS {
        for length in [0, 1, 15, 16, 17, 100, 256] {
            shared_sealing(tally, &mut random, width, length);
        }
    }
}

/// A shared sealing of a message of this length joins to the plain one.
fn shared_sealing(tally: &mut Tally, random: &mut Random, width: Width, length: usize) {
    let keys = random.bytes(SENDER_KEYS);
    let joined = links::joined_keys(&keys);
    let (number, sequence) = (random.number() as u32, width.some_sequence(random));
    let message = random.bytes(length);
    let tape = random.bytes(shares::tape_need(length));
    let mut link = links::sending(number, width, sequence - 1, &keys);
    let sealing = links::next_sealing(&links::sender(&link).expect("keyed"), &message, &tape);
    let plain = links::plain_calls(&joined, number, sequence, &message);
    tally.same_number(format_args!("calls, {length}"), sealing.calls.len() as u32, plain.len() as u32);
    for (k, (call, (key, input))) in sealing.calls.iter().zip(&plain).enumerate() {
        let output = cipher::encrypt(key, input);
        tally.same(format_args!("call {}, joined", k + 1), &shares::join(&call.output), &output);
        let rounds = cipher::rounds(key, input);
        for r in 0..PAIRS {
            let state = shares::join(&std::array::from_fn(|i| call.rounds[r].state_share(i)));
            tally.same(format_args!("call {}, round {}, joined", k + 1, r + 1), &state, &rounds[r].0);
        }
        // The output is the last of the rounds, with the key of the one before it.
        let (ciphertext, last_key) = rounds[PAIRS - 1];
        tally.same(format_args!("call {}, plain output", k + 1), &ciphertext, &output);
        let rotated = u128::from_be_bytes(*key).rotate_right(ROUNDS as u32).to_be_bytes();
        tally.same(format_args!("call {}, plain key of the output", k + 1), &last_key, &rotated);
        let shown: Shares = std::array::from_fn(|i| call.rounds[PAIRS - 1].state_share(i));
        tally.same(format_args!("call {}, output shares", k + 1), &shown.concat(), &call.output.concat());
    }
    let mut record = vec![0; length + width.added()];
    let mut shares = vec![0; links::SHARES];
    let answer = links::seal(&mut link, &message, &tape, &mut record, &mut shares);
    tally.same_number(format_args!("own sealing, {length}"), answer, 0);
    let expected = links::plain_record(&joined, number, width, sequence, &message);
    tally.same(format_args!("own plain and shared record, {length}"), &record, &expected);
}

/// The bytes that pieces of digits say, one behind the other.
fn bytes_of(pieces: &[&str]) -> Vec<u8> {
    hex::bytes(&pieces.concat()).expect("digits")
}

/// Links, counter blocks and records of both widths, with the bytes that are set for them.
pub fn widths(tally: &mut Tally) {
    const LINK: u32 = 0x0102_0304;
    for (width, byte) in [(Width::Narrow, "00"), (Width::Wide, "01")] {
        let keys = "a5".repeat(SENDER_KEYS);
        let own = links::sending(LINK, width, 0x1112_1314, &[0xa5; SENDER_KEYS]);
        let expected = bytes_of(&["01", "01020304", "0000000011121314", &keys, byte]);
        tally.same(format_args!("own sender, {width:?}"), &own, &expected);
        let keys = "5a".repeat(RECEIVER_KEYS);
        let window = Window { highest: 0x2122_2324, word: 0x3132_3334_3536_3738 };
        let own = links::receiving(LINK, width, window, &[0x5a; RECEIVER_KEYS]);
        let expected = bytes_of(&["01", "01020304", "0000000021222324", &keys, "3132333435363738", byte]);
        tally.same(format_args!("own receiver, {width:?}"), &own, &expected);
        tally.same_flag(format_args!("own window of it"), Window::of(&own) == window, true);
    }
    tally.same_number(format_args!("bytes of a sender"), SENDER as u32, 110);
    tally.same_number(format_args!("bytes of a receiver"), RECEIVER as u32, 54);
    for (sequence, digits) in [
        (1, "01020304000000000000000100000009"),
        (0xf1f2_f3f4, "0102030400000000f1f2f3f400000009"),
        (0x1_0000_0000, "01020304000000010000000000000009"),
        (0xf1f2_f3f4_f5f6_f7f8, "01020304f1f2f3f4f5f6f7f800000009"),
    ] {
        let own = shares::counter_block(LINK, sequence, 9);
        tally.same(format_args!("own counter block, {sequence:x}"), &own, &bytes_of(&[digits]));
    }
    for (width, sequence, head) in [
        (Width::Narrow, 5, "0102030400000005"),
        (Width::Narrow, 0xffff_ffff, "01020304ffffffff"),
        (Width::Wide, 5, "010203040000000000000005"),
        (Width::Wide, 0xffff_ffff, "0102030400000000ffffffff"),
        (Width::Wide, 0x1_0000_0000, "010203040000000100000000"),
        (Width::Wide, u64::MAX, "01020304ffffffffffffffff"),
    ] {
        let own = links::plain_record(&[7; RECEIVER_KEYS], LINK, width, sequence, b"four");
        let head = bytes_of(&[head]);
        tally.same(format_args!("own head of {sequence}, {width:?}"), &own[..head.len()], &head);
        tally.same_number(format_args!("bytes of it"), own.len() as u32, head.len() as u32 + 4 + 16);
        let read = width.sequence(&own).to_be_bytes();
        tally.same(format_args!("own number of it"), &read, &sequence.to_be_bytes());
    }
    // Keyed or not, by the last byte and the last number.
    for (byte, last, is_keyed) in [
        (0, 0, true),
        (0, 4_294_967_295, true),
        (0, 4_294_967_296, false),
        (0, u64::MAX, false),
        (1, 0, true),
        (1, 4_294_967_296, true),
        (1, u64::MAX, true),
        (2, 0, false),
        (255, 0, false),
    ] {
        let mut link = links::sending(LINK, Width::Narrow, last, &[0; SENDER_KEYS]);
        links::set_width_byte(&mut link, byte);
        let own = links::sender(&link).is_some();
        tally.same_flag(format_args!("own sender is keyed, {byte}, {last}"), own, is_keyed);
        tally.same_flag(format_args!("own sender, cut"), links::sender(&link[..109]).is_some(), false);
    }
}

/// Values that are set: doubling, the tape's need and where masks stand in it, and bodies.
pub fn values(tally: &mut Tally) {
    let mut top = [0; 16];
    top[0] = 0x80;
    let mut last = [0; 16];
    last[15] = 0x87;
    tally.same(format_args!("the top bit alone, doubled"), &modes::doubled(&top), &last);
    for bit in 1..128 {
        let one = 1u128 << (127 - bit);
        let twice = (one << 1).to_be_bytes();
        tally.same(format_args!("bit {bit} alone, doubled"), &modes::doubled(&one.to_be_bytes()), &twice);
    }
    for (length, need) in links::NEEDS {
        let own_need = shares::tape_need(length) as u32;
        tally.same_number(format_args!("tape for {length} bytes"), own_need, need as u32);
        let tape = vec![0; need];
        let used = shares::seal(1, 1, &[[0; 16]; 3], &[[0; 16]; 3], &vec![0; length], &tape).used;
        tally.same_number(format_args!("tape read for {length} bytes"), used as u32, need as u32);
    }
    for (call, pair, place) in [(1, 1, 64), (1, 35, 1152), (1, 36, 1184), (2, 1, 1216), (34, 36, 39_200)] {
        let at = shares::masks_at(call, pair) as u32;
        tally.same_number(format_args!("where pair {pair} of call {call} stands"), at, place);
    }
    written_bodies(tally);
    read_bodies(tally);
}

/// Windows and a number for each: the window after it, or the refusal.
pub fn window(tally: &mut Tally) {
    const ONES: u64 = u64::MAX;
    const TOP: u64 = 0x8000_0000_0000_0000;
    const EDGE: u64 = 1 << 32;
    const LAST: u64 = u64::MAX;
    let cases: [(u64, u64, u64, Result<(u64, u64), u32>); 33] = [
        (0, 0, 1, Ok((1, 1))),
        (0, 0, 64, Ok((64, 1))),
        (0, 0, EDGE - 1, Ok((EDGE - 1, 1))),
        (0, 0, LAST, Ok((LAST, 1))),
        (1, 1, 2, Ok((2, 3))),
        (5, 0x1d, 4, Ok((5, 0x1f))),
        (5, 0x1d, 7, Ok((7, 0x75))),
        (5, 0x1d, 3, Err(22)),
        (64, 1, 1, Ok((64, TOP | 1))),
        (64, TOP | 1, 1, Err(22)),
        (65, 0, 1, Err(35)),
        (65, ONES, 1, Err(35)),
        (0, ONES, 0, Err(35)),
        (63, ONES, 0, Err(35)),
        (63, 0, 0, Err(35)),
        // The bits of numbers below 1 move along.
        (0, ONES, 5, Ok((5, 0xffff_ffff_ffff_ffe1))),
        (10, ONES, 73, Ok((73, TOP | 1))),
        (10, ONES, 74, Ok((74, 1))),
        (10, ONES, 138, Ok((138, 1))),
        (EDGE - 65, ONES, EDGE - 1, Ok((EDGE - 1, 1))),
        (EDGE - 1, 0, EDGE - 64, Ok((EDGE - 1, TOP))),
        (EDGE - 1, 0, EDGE - 65, Err(35)),
        (EDGE - 1, 1, EDGE, Ok((EDGE, 3))),
        (EDGE, 1, EDGE - 1, Ok((EDGE, 3))),
        (EDGE + 3, 0x11, EDGE - 1, Err(22)),
        (EDGE + 62, 0, EDGE - 1, Ok((EDGE + 62, TOP))),
        (EDGE + 63, ONES, EDGE - 1, Err(35)),
        (5, ONES, EDGE + 6, Ok((EDGE + 6, 1))),
        (EDGE + 5, 1, 5, Err(35)),
        (LAST - 64, ONES, LAST, Ok((LAST, 1))),
        (LAST, 0, LAST - 63, Ok((LAST, TOP))),
        (LAST, 0, LAST - 64, Err(35)),
        (LAST, 0, 1, Err(35)),
    ];
    for (highest, word, sequence, expected) in cases {
        let what = format!("{highest}, {word:016x} after {sequence}");
        let window = Window { highest, word };
        let refusal = window.refusal(sequence);
        let known = expected.err().unwrap_or(0);
        tally.same_number(format_args!("own answer, {what}"), refusal.unwrap_or(0), known);
        let after = if refusal.is_none() { window.with(sequence) } else { window };
        let (highest, word) = expected.unwrap_or((highest, word));
        let own = after.highest.to_be_bytes();
        tally.same(format_args!("own highest number, {what}"), &own, &highest.to_be_bytes());
        tally.same(format_args!("own window, {what}"), &after.word.to_be_bytes(), &word.to_be_bytes());
    }
}

/// Marks, and the words that they have to be written as, or the number where they are refused.
fn written_bodies(tally: &mut Tally) {
    const MOST: u64 = 72_057_594_037_927_935;
    let cases: [(u64, u32, Option<i32>, Result<&str, u32>); 13] = [
        (0, 0, None, Ok("100000002000000030000000")),
        (1, 2, Some(3), Ok("10000000200000013000000240000003")),
        // 69a58b05 hexadecimal, a quarter of a second, one hour
        (1_772_456_709, 67_108_864, Some(60), Ok("1000000629a58b05340000004000003c")),
        (268_435_455, 0, Some(-1), Ok("100000002fffffff300000004fffffff")),
        (268_435_456, 0, Some(-2), Ok("1000000120000000300000004ffffffe")),
        (0x0012_3456_789a_bcde, 0x0fed_cba9, None, Ok("11234567289abcde3fedcba9")),
        (MOST, 268_435_455, Some(840), Ok("1fffffff2fffffff3fffffff40000348")),
        (MOST, 268_435_455, Some(-720), Ok("1fffffff2fffffff3fffffff4ffffd30")),
        (MOST + 1, 0, None, Err(31)),
        (0, 268_435_456, None, Err(31)),
        (0, 0, Some(841), Err(31)),
        (0, 0, Some(-721), Err(31)),
        (u64::MAX, u32::MAX, Some(i32::MIN), Err(31)),
    ];
    for (seconds, fraction, offset, expected) in cases {
        let what = format!("{seconds}, {fraction}, {offset:?}");
        let known = expected.err().unwrap_or(0);
        let mark = Mark { seconds, fraction, offset };
        let mut body = vec![0; if offset.is_some() { 16 } else { 12 }];
        let answer = body::write(&mark, &mut body);
        tally.same_number(format_args!("own writing of {what}"), answer, known);
        let bytes = |digits| hex::bytes(digits).expect("digits");
        let expected = expected.map_or(vec![0; body.len()], bytes);
        tally.same(format_args!("own body of {what}"), &body, &expected);
        let less = body.len() - 1;
        let answer = body::write(&mark, &mut body[..less]);
        let known = if known == 0 { 4 } else { known };
        tally.same_number(format_args!("own writing of {what}, {less} bytes"), answer, known);
    }
}

/// Bodies, and the values that have to be read in them: seconds, fraction, 1 and the offset or else
/// zeros; or the number where they are refused.
fn read_bodies(tally: &mut Tally) {
    let cases: [(&str, Result<&str, u32>); 21] = [
        ("1000000629a58b05340000004000003c", Ok("0000000069a58b0504000000010000003c")),
        ("4fffffff300000032000000210000001", Ok("00000000100000020000000301ffffffff")),
        ("2fffffff3fffffff1fffffff", Ok("00ffffffffffffff0fffffff0000000000")),
        ("100000016fffffff2000000230000003f0000000", Ok("0000000010000002000000030000000000")),
        ("10000000200000003000000040000348", Ok("0000000000000000000000000100000348")),
        ("1000000020000000300000004ffffd30", Ok("00000000000000000000000001fffffd30")),
        ("", Err(30)),
        ("100000", Err(30)),
        ("00000000000000", Err(30)),
        ("10000001200000023000000350", Err(30)),
        ("00000000", Err(31)),
        ("1000000120000002300000030fffffff", Err(31)),
        ("10000001200000022000000230000003", Err(31)),
        ("10000001500000002000000210000001", Err(31)),
        ("10000000200000003000000040000349", Err(31)),
        ("1000000020000000300000004ffffd2f", Err(31)),
        ("10000000200000003000000048000000", Err(31)),
        ("1000000020000000300000004000003c4000003c", Err(31)),
        ("1000000120000002", Err(32)),
        ("10000001300000034fffffff", Err(32)),
        ("4000000020000002300000035fffffff", Err(32)),
    ];
    for (digits, expected) in cases {
        let body = hex::bytes(digits).expect("digits");
        let known = expected.err().unwrap_or(0);
        let mut values = [0; 17];
        let answer = body::read(&body, &mut values);
        tally.same_number(format_args!("own reading of '{digits}'"), answer, known);
        let bytes = |digits| hex::bytes(digits).expect("digits");
        let expected = expected.map_or(vec![0; 17], bytes);
        tally.same(format_args!("own values of '{digits}'"), &values, &expected);
        let answer = body::read(&body, &mut values[..16]);
        let known = if known == 0 { 4 } else { known };
        tally.same_number(format_args!("own reading of '{digits}', 16 bytes"), answer, known);
    }
    for (length, answer) in [(252, 32), (256, 32), (257, 30), (258, 30), (260, 30)] {
        let read = body::read(&vec![0x55; length], &mut [0; 17]);
        tally.same_number(format_args!("own reading of {length} bytes"), read, answer);
    }
    for kind in 0..16 {
        let body = [0x10, 0, 0, 0, 0x20, 0, 0, 0, 0x30, 0, 0, 0, kind << 4, 0, 0, 0];
        let answer = if kind < 4 { 31 } else { 0 };
        let read = body::read(&body, &mut [0; 17]);
        tally.same_number(format_args!("own reading of a word of kind {kind}"), read, answer);
    }
}
