//! Writes `docs/vectors.txt` by the code of these tests alone: vectors for whoever writes a receiver
//! or a sender of their own.

use crate::body::{self, Mark, BAD_LENGTH, BAD_WORD, MISSING_KIND};
use crate::cipher::{self, Block};
use crate::held::{LENGTHS, ROUNDS_SHOWN, WIDE_NUMBERS};
use crate::hex::Hex;
use crate::links::{
    self, Width, Window, BAD_RECORD, BELOW_WINDOW, LANE, OTHER_LINK, REPEATED, SHARES, WRONG_TAG,
};
use crate::modes;
use crate::random::Random;
use crate::shares;
use crate::vectors::PUBLISHED;
use std::fmt::Display;
use std::iter;

/// The remarks at the file's beginning: all that a reader has to know.
const HEAD: &str = include_str!("document_head.txt");

const TIME_MARK: &[u8] = b"2026-03-02 14:05:09.250 +01:00";
/// The same as a body, its seconds counted from 1970.
const TIME_MARK_WORDS: [u32; 4] = [0x1000_0006, 0x29a5_8b05, 0x3400_0000, 0x4000_003c];

pub fn print() {
    print!("{HEAD}");
    blocks(&mut Random::new(1));
    records(&mut Random::new(2), &mut Random::new(7));
    opened(&mut Random::new(6), &mut Random::new(8));
    refused(&mut Random::new(3), &mut Random::new(9));
    bodies(&mut Random::new(5));
    refused_bodies();
    shared(&mut Random::new(4), &mut Random::new(10));
}

/// The beginning of a group: a blank line, a remark, its kind and number.
fn begin(kind: &str, number: usize, remark: &str) {
    println!("\n# {remark}\n[{kind} {number}]");
}

fn field(name: &str, value: impl Display) {
    println!("{}", format!("{name} = {value}").trim_end());
}

/// Fields of bytes.
fn fields(of: &[(&str, &[u8])]) {
    for (name, bytes) in of {
        field(name, Hex(bytes));
    }
}

/// Fields of 16 bytes each, which stand behind one another.
fn field_blocks(names: &[&str], bytes: &[u8]) {
    for (name, block) in names.iter().zip(bytes.chunks(16)) {
        field(name, Hex(block));
    }
}

// ---- the cipher alone

fn blocks(random: &mut Random) {
    let published = PUBLISHED.iter().map(|vector| ("of the paper", vector.blocks()));
    let others = iter::repeat_with(|| {
        let (key, plaintext) = (random.block(), random.block());
        ("random", (key, plaintext, cipher::encrypt(&key, &plaintext)))
    });
    for (i, (remark, (key, plaintext, ciphertext))) in published.chain(others.take(8)).enumerate() {
        begin("block", i + 1, remark);
        fields(&[("key", &key), ("plaintext", &plaintext), ("ciphertext", &ciphertext)]);
    }
}

// ---- records

/// Prints [record] groups of one width; it has the number of the last one.
struct Records {
    width: Width,
    count: usize,
}

impl Records {
    fn put(&mut self, remark: &str, keys: &[u8], link: u32, sequence: u64, message: &[u8]) {
        self.count += 1;
        begin("record", self.count, remark);
        field_blocks(&["ke", "km"], keys);
        field("link", link);
        field("wide", self.width as u8);
        field("sequence", sequence);
        let (ke, km) = links::two_keys(keys);
        let counter = shares::counter_block(link, sequence, 0);
        let (k1, k2) = modes::subkeys(|block| cipher::encrypt(&km, block));
        let record = links::plain_record(keys, link, self.width, sequence, message);
        fields(&[
            ("message", message),
            ("counter_block", &counter),
            ("key_stream", &cipher::encrypt(&ke, &counter)),
            ("l", &cipher::encrypt(&km, &[0; 16])),
            ("k1", &k1),
            ("k2", &k2),
            ("tag", &record[record.len() - 16..]),
            ("record", &record),
        ]);
    }
}

fn records(random: &mut Random, of_wide: &mut Random) {
    const MOST: u64 = u32::MAX as u64;
    let mut records = Records { width: Width::Narrow, count: 0 };
    let keys = Vec::from_iter(0..32);
    for (i, length) in LENGTHS.into_iter().enumerate() {
        let remark = format!("the first records of one link: {length} bytes");
        records.put(&remark, &keys, 1, i as u64 + 1, &random.bytes(length));
    }
    records.put("a time mark in ASCII", &random.bytes(32), 7, 1, TIME_MARK);
    for (link, sequence) in
        [(0, 1), (0, 2), (u32::MAX, 1), (1, MOST), (u32::MAX, MOST), (0x0102_0304, 0x0506_0708)]
    {
        let remark = format!("link number {link:08x}, sequence number {sequence:08x}, hexadecimal");
        records.put(&remark, &random.bytes(32), link, sequence, &random.bytes(20));
    }
    records.put("all bits 0 but the sequence number's last", &[0; 32], 0, 1, &[0; 16]);
    records.put("all bits 1", &[0xff; 32], u32::MAX, MOST, &[0xff; 33]);
    for length in [2, 14, 48, 64, 100, 128, 200] {
        let (link, sequence) = (random.number() as u32, random.number() as u32);
        records.put(
            &format!("random, {length} bytes"),
            &random.bytes(32),
            link,
            sequence.into(),
            &random.bytes(length),
        );
    }
    let body = body::bytes(&TIME_MARK_WORDS);
    records.put("a time mark, the body of [body 1]", &random.bytes(32), 7, 2, &body);

    records.width = Width::Wide;
    wide_records(&mut records, of_wide);
}

fn wide_records(records: &mut Records, random: &mut Random) {
    let keys = Vec::from_iter(32..64);
    for (i, length) in LENGTHS.into_iter().enumerate() {
        let remark = format!("records of one wide link, across 4294967296: {length} bytes");
        records.put(&remark, &keys, 1, 4_294_967_291 + i as u64, &random.bytes(length));
    }
    records.put("a wide link, a time mark in ASCII", &random.bytes(32), 7, 1, TIME_MARK);
    for (link, sequence) in WIDE_NUMBERS.map(|sequence| (0x0102_0304, sequence)).into_iter().chain([
        (0, 1 << 63),
        (u32::MAX, 4_294_967_296),
        (0x0102_0304, 0x0506_0708_090a_0b0c),
    ]) {
        let remark = format!("a wide link, numbers {link:08x} and {sequence:016x}, hexadecimal");
        records.put(&remark, &random.bytes(32), link, sequence, &random.bytes(20));
    }
    let remark = "as [record 18] on a wide link: the same ciphertext and tag";
    records.put(remark, &[0; 32], 0, 1, &[0; 16]);
    records.put("a wide link, all bits 1", &[0xff; 32], u32::MAX, u64::MAX, &[0xff; 33]);
    for length in [2, 48, 100, 200] {
        let (link, sequence) = (random.number() as u32, random.number());
        let (keys, message) = (random.bytes(32), random.bytes(length));
        records.put(&format!("a wide link, random, {length} bytes"), &keys, link, sequence, &message);
    }
}

// ---- a receiver

/// The link number of the receivers here.
const LINK: u32 = 0x0102_0304;
/// The first number whose highest bit of 32 is 1, and the first that has more than 32.
const HALF: u64 = 1 << 31;
const EDGE: u64 = 1 << 32;

/// Prints groups of one kind, of a receiver with these keys; it has the number of the last one.
struct Receiver {
    kind: &'static str,
    width: Width,
    keys: Vec<u8>,
    count: usize,
}

impl Receiver {
    /// Begins a group with the receiver and a record that it is offered, and returns its answer, its
    /// window after that and the message.
    fn offer(&mut self, remark: &str, window: Window, record: &[u8]) -> (u32, Window, Vec<u8>) {
        self.count += 1;
        begin(self.kind, self.count, remark);
        field_blocks(&["ke", "km"], &self.keys);
        field("link", LINK);
        field("wide", self.width as u8);
        field_window("highest", "window", window);
        field("record", Hex(record));
        let mut link = links::receiving(LINK, self.width, window, &self.keys);
        let mut message = vec![0; record.len().saturating_sub(self.width.added())];
        let answer = links::open(&mut link, record, &mut message);
        (answer, Window::of(&link), message)
    }

    /// The record of a time mark.
    fn sealed(&self, link: u32, sequence: u64) -> Vec<u8> {
        links::plain_record(&self.keys, link, self.width, sequence, TIME_MARK)
    }

    fn put_opened(&mut self, remark: &str, window: Window, sequence: u64) {
        let record = self.sealed(LINK, sequence);
        let (answer, after, message) = self.offer(remark, window, &record);
        assert_eq!((answer, &message[..]), (0, TIME_MARK), "{remark}");
        field("message", Hex(&message));
        field_window("highest_after", "window_after", after);
    }

    fn put_refused(&mut self, remark: &str, window: Window, record: &[u8], answer: u32) {
        assert_eq!(self.offer(remark, window, record).0, answer, "{remark}");
        field("answer", answer);
        field("words", words(answer));
    }
}

fn field_window(highest: &str, word: &str, window: Window) {
    field(highest, window.highest);
    field(word, Hex(&window.word.to_be_bytes()));
}

/// Windows as they come about: bit 0 is 1 if a record was accepted, and no number below 1 was.
fn opened(random: &mut Random, of_wide: &mut Random) {
    const LAST: u64 = u32::MAX as u64;
    let mut receiver = Receiver { kind: "opened", width: Width::Narrow, keys: random.bytes(32), count: 0 };
    for (remark, highest, word, sequence) in [
        ("one number late", 100, 0x1d, 99),
        ("two numbers late, the one between is still missing", 100, 1, 98),
        ("63 numbers late, the most there can be", 100, 1, 37),
        ("63 numbers late: number 1, all others were accepted", 64, 0x7fff_ffff_ffff_ffff, 1),
        ("31 numbers late, the only one missing in the window", 200, 0xffff_ffff_7fff_ffff, 169),
        ("one number late, across 2147483648", HALF, 1, HALF - 1),
        ("the first record of a link", 0, 0, 1),
        ("the first record that arrives has number 64", 0, 0, 64),
        ("the first record that arrives has the last number there is", 0, 0, LAST),
        ("the next number, the highest bit is lost", 100, 0xc000_0000_0000_0001, 101),
        ("the next number, all bits 1", 100, u64::MAX, 101),
        ("two numbers on, one is missing", 100, 7, 102),
        ("31 numbers on", 100, 0x0000_0001_8000_0003, 131),
        ("32 numbers on", 100, 0x0000_0001_8000_0003, 132),
        ("33 numbers on", 100, 0x0000_0001_8000_0003, 133),
        ("63 numbers on, one bit stays", 100, u64::MAX, 163),
        ("64 numbers on, no bit stays", 100, u64::MAX, 164),
        ("65 numbers on", 100, u64::MAX, 165),
        ("128 numbers on", 100, u64::MAX, 228),
        ("2147483648 numbers on", 100, u64::MAX, HALF + 100),
        ("one number on, to the last there is", LAST - 1, 3, LAST),
        ("64 numbers on, to the last there is", LAST - 64, u64::MAX, LAST),
        ("63 numbers late, behind the last there is", LAST, 1, LAST - 63),
    ] {
        receiver.put_opened(remark, Window { highest, word }, sequence);
    }
    opened_wide(Receiver { width: Width::Wide, keys: of_wide.bytes(32), ..receiver });
}

fn opened_wide(mut receiver: Receiver) {
    const LAST: u64 = u64::MAX;
    for (remark, highest, word, sequence) in [
        ("a wide link, the next number", 100, 0x1d, 101),
        ("the first record of a wide link", 0, 0, 1),
        ("a wide link, the first record that arrives has number 4294967296", 0, 0, EDGE),
        ("a wide link, the first record that arrives has the last number there is", 0, 0, LAST),
        ("one number on, to the last of 32 bits", EDGE - 2, 3, EDGE - 1),
        ("one number on, across 4294967296", EDGE - 1, 0xc000_0000_0000_0003, EDGE),
        ("one number late, across 4294967296", EDGE, 1, EDGE - 1),
        ("two numbers late, across 4294967296, all others were accepted", EDGE + 1, !4, EDGE - 1),
        ("63 numbers late, across 4294967296", EDGE + 62, 1, EDGE - 1),
        ("32 numbers on, across 4294967296", EDGE - 16, 0x0000_0001_8000_0003, EDGE + 16),
        ("63 numbers on, across 4294967296, one bit stays", EDGE - 1, u64::MAX, EDGE + 62),
        ("64 numbers on, across 4294967296, no bit stays", EDGE - 1, u64::MAX, EDGE + 63),
        ("4294967296 numbers on, no bit stays", 100, u64::MAX, EDGE + 100),
        ("4294967297 numbers on, no bit stays", EDGE + 100, u64::MAX, 2 * EDGE + 101),
        ("one number late, across 9223372036854775808", 1 << 63, 1, (1 << 63) - 1),
        ("a wide link, one number on, to the last there is", LAST - 1, 3, LAST),
        ("a wide link, 64 numbers on, to the last there is", LAST - 64, u64::MAX, LAST),
        ("a wide link, 63 numbers late, behind the last there is", LAST, 1, LAST - 63),
    ] {
        receiver.put_opened(remark, Window { highest, word }, sequence);
    }
}

fn words(answer: u32) -> &'static str {
    match answer {
        BAD_RECORD => "a record has 24 to 280 bytes, a wide one 28 to 284",
        OTHER_LINK => "the record is for another link",
        WRONG_TAG => "wrong tag: damaged, forged or under another key",
        REPEATED => "this number was accepted before",
        BELOW_WINDOW => "the number is 0 or too far below the highest accepted",
        BAD_LENGTH => "a body has 4 to 256 bytes, in steps of 4",
        BAD_WORD => "a word of the body or a value of the mark is not allowed",
        MISSING_KIND => "the body lacks the seconds or their fraction",
        _ => panic!("no refusal of a record or a body"),
    }
}

/// A record with one bit flipped: bit 0 is the highest of byte 0.
fn flipped(record: &[u8], bit: usize) -> Vec<u8> {
    let mut record = record.to_vec();
    record[bit / 8] ^= 0x80 >> (bit % 8);
    record
}

/// A record with another tag.
fn retagged(record: &[u8], tag: &[u8]) -> Vec<u8> {
    [&record[..record.len() - 16], tag].concat()
}

fn refused(random: &mut Random, of_wide: &mut Random) {
    let narrow = Receiver { kind: "refused", width: Width::Narrow, keys: random.bytes(32), count: 0 };
    let count = refused_of_width(narrow, random);
    let wide = Receiver { kind: "refused", width: Width::Wide, keys: of_wide.bytes(32), count };
    refused_of_width(wide, of_wide);
}

/// Returns the number of the last group.
fn refused_of_width(mut receiver: Receiver, random: &mut Random) -> usize {
    // Of the last five numbers all but the fourth were accepted.
    let window = Window { highest: receiver.width.start() + 5, word: 0x1d };
    let next = window.highest + 1;
    let good = receiver.sealed(LINK, next);
    let (bits, head) = (8 * good.len(), receiver.width.head());
    let damaged = |receiver: &Receiver, sequence: u64| flipped(&receiver.sealed(LINK, sequence), bits - 1);

    refused_numbers(&mut receiver);
    let record = damaged(&receiver, window.highest);
    receiver.put_refused("the highest number and a flipped bit of the tag", window, &record, REPEATED);
    let record = damaged(&receiver, window.highest - 1);
    let far = Window { highest: window.highest + 63, ..window };
    receiver.put_refused("64 numbers late and a flipped bit of the tag", far, &record, BELOW_WINDOW);

    for (remark, record) in [
        ("the first bit of the tag is flipped", flipped(&good, bits - 128)),
        ("the last bit of the tag is flipped", flipped(&good, bits - 1)),
        ("the first bit of the ciphertext is flipped", flipped(&good, 8 * head)),
        ("the last bit of the ciphertext is flipped", flipped(&good, bits - 129)),
        (
            "the last bit of the sequence number is flipped, it is still above the highest",
            flipped(&good, 8 * head - 1),
        ),
        ("the first byte of the ciphertext is missing", [&good[..head], &good[head + 1..]].concat()),
        ("the last byte of the tag is missing", good[..good.len() - 1].to_vec()),
        ("the tag is zeros", retagged(&good, &[0; 16])),
        ("a late number that was not accepted yet, and a flipped bit of the tag", record),
    ] {
        receiver.put_refused(remark, window, &record, WRONG_TAG);
    }
    for (remark, record) in wrongly_tagged(&receiver, next) {
        receiver.put_refused(remark, window, &record, WRONG_TAG);
    }

    let other = receiver.sealed(LINK + 1, next);
    let worse = flipped(&receiver.sealed(LINK + 1, window.highest), bits - 1);
    for (remark, record) in [
        ("a good record for another link", &other),
        ("the last bit of the link number is flipped", &flipped(&good, 31)),
        ("another link, the highest number and a flipped bit of the tag", &worse),
    ] {
        receiver.put_refused(remark, window, record, OTHER_LINK);
    }

    let sealed = |message: &[u8]| links::plain_record(&receiver.keys, LINK, receiver.width, next, message);
    let (empty, long) = (sealed(&[]), sealed(&random.bytes(257)));
    let (least, cut) = (receiver.width.added(), receiver.width.added() - 1);
    for (remark, record) in [
        ("no bytes".to_string(), &[][..]),
        (format!("the first {cut} bytes of a good record of {least}"), &empty[..cut]),
        (format!("the first {cut} bytes of a record for another link"), &other[..cut]),
        ("a message of 257 bytes, sealed in the same way".to_string(), &long),
    ] {
        receiver.put_refused(&remark, window, record, BAD_RECORD);
    }
    match receiver.width {
        Width::Narrow => wide_to_narrow(&mut receiver, window),
        Width::Wide => narrow_to_wide(&mut receiver, window),
    }
    receiver.count
}

/// Good records that are refused for their numbers.
fn refused_numbers(receiver: &mut Receiver) {
    let last = receiver.width.last();
    let of_width = match receiver.width {
        Width::Narrow => vec![
            ("a good record with the highest number: a replay", 5, 0x1d, 5, REPEATED),
            ("a replay of number 1", 5, 0x1d, 1, REPEATED),
            ("a replay one number late", 5, 0x1b, 4, REPEATED),
            ("a replay 32 numbers late", 100, 0x0000_0001_0000_0001, 68, REPEATED),
            ("a replay 63 numbers late", 100, 0x8000_0000_0000_0001, 37, REPEATED),
            ("a replay 31 numbers late, all of the window were accepted", 100, u64::MAX, 69, REPEATED),
            ("a replay one number late, across 2147483648", HALF, 3, HALF - 1, REPEATED),
            ("a replay of the last number there is", last, 1, last, REPEATED),
            ("number 0 on a new link", 0, 0, 0, BELOW_WINDOW),
            ("number 0 after number 1", 1, 1, 0, BELOW_WINDOW),
            (
                "number 0, less than 64 late, all others were accepted",
                63,
                0x7fff_ffff_ffff_ffff,
                0,
                BELOW_WINDOW,
            ),
            ("a good record 64 numbers late", 100, 1, 36, BELOW_WINDOW),
            ("64 numbers late, all of the window were accepted", 100, u64::MAX, 36, BELOW_WINDOW),
            ("65 numbers late", 100, 1, 35, BELOW_WINDOW),
            ("128 numbers late", 200, 1, 72, BELOW_WINDOW),
            ("64 numbers late, across 2147483648", HALF + 63, 1, HALF - 1, BELOW_WINDOW),
            ("number 1 behind the last there is", last, 1, 1, BELOW_WINDOW),
        ],
        Width::Wide => vec![
            ("a good record of a wide link with the highest number: a replay", 5, 0x1d, 5, REPEATED),
            ("a replay of number 4294967296", EDGE, 3, EDGE, REPEATED),
            ("a replay one number late, across 4294967296", EDGE, 3, EDGE - 1, REPEATED),
            ("a replay 63 numbers late, across 4294967296", EDGE + 62, 1 << 63 | 1, EDGE - 1, REPEATED),
            ("a wide link, a replay of the last number there is", last, 1, last, REPEATED),
            ("number 0 on a new wide link", 0, 0, 0, BELOW_WINDOW),
            ("number 0, the highest is 4294967296", EDGE, 1, 0, BELOW_WINDOW),
            ("64 numbers late, across 4294967296", EDGE + 63, u64::MAX, EDGE - 1, BELOW_WINDOW),
            ("4294967296 numbers late", EDGE + 5, 1, 5, BELOW_WINDOW),
            ("4294967297 numbers late", EDGE + 6, 1, 5, BELOW_WINDOW),
            ("a wide link, number 1 behind the last there is", last, 1, 1, BELOW_WINDOW),
        ],
    };
    for (remark, highest, word, sequence, answer) in of_width {
        let record = receiver.sealed(LINK, sequence);
        receiver.put_refused(remark, Window { highest, word }, &record, answer);
    }
}

/// Records as a sender makes them who has misread the definition.
fn wrongly_tagged(receiver: &Receiver, sequence: u64) -> [(&'static str, Vec<u8>); 4] {
    let (ke, km) = links::two_keys(&receiver.keys);
    let encrypt = |block: &Block| cipher::encrypt(&km, block);
    let good = receiver.sealed(LINK, sequence);
    let before_tag = &good[..good.len() - 16];
    let ciphertext = &before_tag[receiver.width.head()..];
    let sealed =
        |keys: &[u8], message: &[u8]| links::plain_record(keys, LINK, receiver.width, sequence, message);
    let exchanged = sealed(&[km, ke].concat(), TIME_MARK);
    let empty = sealed(&receiver.keys, &[]);
    let counter = shares::counter_block(LINK, sequence, 0);
    let (_, k2) = modes::subkeys(encrypt);
    let by_k2 = encrypt(&modes::xor_blocks(&counter, &k2));
    [
        ("the tag is made of the ciphertext alone", retagged(&good, &modes::cmac(encrypt, ciphertext))),
        (
            "the tag is made of the record's bytes before it",
            retagged(&good, &modes::cmac(encrypt, before_tag)),
        ),
        ("KE and KM are exchanged", exchanged),
        ("an empty message, and K2 is used for its tag", retagged(&empty, &by_k2)),
    ]
}

/// Records of a wide link with the same number and keys, at a narrow one.
fn wide_to_narrow(receiver: &mut Receiver, window: Window) {
    let keys = receiver.keys.clone();
    let next = window.highest + 1;
    for (remark, sequence, message, answer) in [
        ("a good record of a wide link, number 6", next, TIME_MARK, BELOW_WINDOW),
        (
            "a good record of a wide link, number 25769803776, which is 6 times 2^32",
            next << 32,
            TIME_MARK,
            WRONG_TAG,
        ),
        ("a good record of a wide link, 284 bytes", next << 32, &[0x55; 256], BAD_RECORD),
    ] {
        let record = links::plain_record(&keys, LINK, Width::Wide, sequence, message);
        receiver.put_refused(remark, window, &record, answer);
    }
}

/// Records of a narrow link with the same number and keys, at a wide one, and records of a wide sender
/// that has misread where its numbers stand.
fn narrow_to_wide(receiver: &mut Receiver, window: Window) {
    let keys = receiver.keys.clone();
    let narrow =
        |sequence: u64, message: &[u8]| links::plain_record(&keys, LINK, Width::Narrow, sequence, message);
    let next = window.highest + 1;
    receiver.put_refused(
        "a good record of a narrow link, number 6",
        window,
        &narrow(6, TIME_MARK),
        WRONG_TAG,
    );
    receiver.put_refused("a good record of a narrow link, 24 bytes", window, &narrow(6, &[]), BAD_RECORD);

    let good = receiver.sealed(LINK, next);
    let lower = next - EDGE;
    let exchanged = lower << 32 | 1;
    let with_head = |of: Vec<u8>, head: usize| [&good[..12], &of[head..]].concat();
    let by_lower = with_head(narrow(lower, TIME_MARK), Width::Narrow.head());
    let by_exchanged = with_head(receiver.sealed(LINK, exchanged), Width::Wide.head());
    for (remark, record, answer) in [
        ("the counter blocks have the lower half of the sequence number alone", by_lower, WRONG_TAG),
        ("the counter blocks have the halves of the sequence number exchanged", by_exchanged, WRONG_TAG),
        ("the first bit of the sequence number is flipped", flipped(&good, 32), WRONG_TAG),
        (
            "the last bit of the upper half of the sequence number is flipped",
            flipped(&good, 63),
            BELOW_WINDOW,
        ),
    ] {
        receiver.put_refused(remark, window, &record, answer);
    }
}

// ---- bodies

/// Prints [body] groups; it has the number of the last one.
struct Bodies(usize);

impl Bodies {
    fn put(&mut self, remark: &str, words: &[u32]) {
        let body = body::bytes(words);
        let mark = body::mark_of(&body).expect(remark);
        self.0 += 1;
        begin("body", self.0, remark);
        field("body", Hex(&body));
        field("seconds", mark.seconds);
        field("fraction", mark.fraction);
        field("offset", mark.offset.map_or("none".to_string(), |offset| offset.to_string()));
        fields(&[("values", &mark.values()), ("written", &body::bytes(&mark.words()))]);
    }
}

fn bodies(random: &mut Random) {
    const SECONDS: u64 = body::SECONDS_END - 1;
    const FRACTION: u32 = body::FRACTION_END - 1;
    let mut bodies = Bodies(0);
    let remark = "2026-03-02 14:05:09.250 +01:00, with seconds counted from 1970";
    bodies.put(remark, &TIME_MARK_WORDS);
    for (remark, seconds, fraction, offset) in [
        ("zeros, no offset", 0, 0, None),
        ("zeros, and an offset of 0", 0, 0, Some(0)),
        ("small numbers", 1, 2, Some(3)),
        ("all bits of the low half of the seconds", 268_435_455, 0, None),
        ("one second more", 268_435_456, 0, None),
        ("seconds of 32 bits, all 1, and half a second", 4_294_967_295, 134_217_728, None),
        ("one second more", 4_294_967_296, 134_217_728, None),
        ("the highest seconds and fraction", SECONDS, FRACTION, None),
        ("all values the highest", SECONDS, FRACTION, Some(840)),
        ("all values the lowest", 0, 0, Some(-720)),
        ("all bits 1, so an offset of -1", SECONDS, FRACTION, Some(-1)),
    ] {
        bodies.put(remark, &Mark { seconds, fraction, offset }.words());
    }
    for has_offset in [false, true] {
        bodies.put("random", &Mark::random(random, has_offset).words());
    }

    let [high, low, fraction, offset] = TIME_MARK_WORDS;
    bodies.put("the words of [body 1], the last first", &[offset, fraction, low, high]);
    bodies.put("in another order and without the offset", &[low, fraction, high]);
    let (zeros, ones) = (0x5000_0000, 0xffff_ffff);
    bodies.put("a skipped word first and last", &[zeros, high, low, fraction, offset, ones]);
    bodies.put("the same skipped word twice", &[high, zeros, low, zeros, fraction]);
    let skipped: Vec<u32> = body::SKIPPED.map(|kind| body::random_word(random, kind)).collect();
    let between = [&[fraction, high], &skipped[..], &[low]].concat();
    bodies.put("a word of each kind that is skipped", &between);
    let mut longest: Vec<u32> = (0..60).map(|_| body::skipped_word(random)).collect();
    longest.extend(TIME_MARK_WORDS);
    bodies.put("256 bytes, the words of [body 1] last", &longest);
}

// ---- bodies that are refused

/// Prints [refused_body] groups; it has the number of the last one.
struct RefusedBodies(usize);

impl RefusedBodies {
    fn put(&mut self, remark: &str, body: &[u8], answer: u32) {
        assert_eq!(body::mark_of(body).err(), Some(answer), "{remark}");
        self.0 += 1;
        begin("refused_body", self.0, remark);
        field("body", Hex(body));
        field("answer", answer);
        field("words", words(answer));
    }
}

fn refused_bodies() {
    let mut refused = RefusedBodies(0);
    let [high, low, fraction, offset] = TIME_MARK_WORDS;
    let good = body::bytes(&TIME_MARK_WORDS);
    let mut extended = good.clone();
    extended.resize(260, 0x55);
    for (remark, body) in [
        ("no bytes", &[][..]),
        ("the first 3 bytes of a good body", &good[..3]),
        ("a good body without its last byte", &good[..15]),
        ("a good body and 241 bytes more", &extended[..257]),
        ("a good body and 61 skipped words", &extended),
        ("three bytes of zeros", &[0; 3]),
    ] {
        refused.put(remark, body, BAD_LENGTH);
    }
    for (remark, words) in [
        ("a word of zeros", &[0][..]),
        ("kind 0 behind a good body", &[high, low, fraction, offset, 0x0fff_ffff]),
        ("kind 1 twice, with one field", &[high, low, high, fraction]),
        ("kind 2 twice, with two fields", &[high, low, low + 1, fraction]),
        ("kind 3 twice, a skipped word between", &[high, low, fraction, 0x5000_0000, fraction]),
        ("kind 4 twice", &[high, low, fraction, offset, offset]),
        ("an offset of 841", &[high, low, fraction, 0x4000_0349]),
        ("an offset of -721", &[high, low, fraction, 0x4fff_fd2f]),
        ("the field of offset 60 with its highest bit 1", &[high, low, fraction, 0x4800_003c]),
        ("kind 4 twice, and neither 2 nor 3", &[offset, high, offset]),
        ("an offset of 841 alone", &[0x4000_0349]),
    ] {
        refused.put(remark, &body::bytes(words), BAD_WORD);
    }
    for (remark, words) in [
        ("no kind 1", &[low, fraction, offset][..]),
        ("no kind 2", &[high, fraction, offset]),
        ("no kind 3", &[high, low, offset]),
        ("the offset alone", &[offset]),
        ("skipped words alone", &[0x5000_0000, 0xffff_ffff, 0x5000_0000]),
    ] {
        refused.put(remark, &body::bytes(words), MISSING_KIND);
    }
}

// ---- sealing on shares

/// A tape by the rule of the head.
fn tape(seed: u32, length: usize) -> Vec<u8> {
    let mut x = seed;
    let next = || {
        x = x.wrapping_mul(1_664_525).wrapping_add(1_013_904_223);
        (x >> 24) as u8
    };
    iter::repeat_with(next).take(length).collect()
}

/// A keyed sender, and a message and a tape for it.
struct Shared {
    keys: Vec<u8>,
    link: u32,
    width: Width,
    last: u64,
    message: Vec<u8>,
    seed: u32,
}

impl Shared {
    fn put(&self, number: usize, remark: &str) {
        let Shared { keys, link, width, last, message, seed } = self;
        begin("shared", number, remark);
        field_blocks(&["ke_0", "ke_1", "ke_2", "km_0", "km_1", "km_2"], keys);
        field("link", link);
        field("wide", *width as u8);
        field("last", last);
        field("message", Hex(message));

        let tape = tape(*seed, shares::tape_need(message.len()));
        let sender = links::sending(*link, *width, *last, keys);
        let mut record = vec![0; message.len() + width.added()];
        let mut tag = [0; SHARES];
        assert_eq!(links::seal(&mut sender.clone(), message, &tape, &mut record, &mut tag), 0);
        field("seed", seed);
        fields(&[("tape_first", &tape[..16]), ("tape_last", &tape[tape.len() - 16..])]);
        field("tape_count", u32::from_be_bytes(tag[48..].try_into().unwrap()));
        field("record", Hex(&record));
        field_blocks(&["tag_0", "tag_1", "tag_2"], &tag[..48]);
        self.put_lanes(&sender, &tape);
    }

    /// Lanes of the first round, of the last and of the output, in the first call, that of the subkeys
    /// and the last.
    fn put_lanes(&self, sender: &[u8], tape: &[u8]) {
        let last = shares::call_count(self.message.len()) as u32;
        let mut calls = vec![1, last / 2, last];
        calls.dedup();
        for call in calls {
            for round in ROUNDS_SHOWN {
                for lane in 0..3 {
                    let mut out = [0; LANE];
                    let answer = links::report(sender, &self.message, tape, call, round, lane, &mut out);
                    assert_eq!(answer, 0);
                    field(&format!("lane {call} {round} {lane}"), Hex(&out));
                }
            }
        }
    }
}

fn shared(random: &mut Random, of_wide: &mut Random) {
    const LAST: u64 = u32::MAX as u64;
    let keys = Vec::from_iter(0..96);
    let message = TIME_MARK.to_vec();
    Shared { keys, link: 1, width: Width::Narrow, last: 0, message, seed: 1 }.put(1, "a time mark in ASCII");
    let narrow = [
        (0, 2, 0),
        (1, 0, 1),
        (15, u32::MAX, 2),
        (16, 0x0102_0304, 0x0506_0707),
        (17, 1, LAST - 1),
        (33, 3, 0xffff),
        (256, u32::MAX, 0x7fff_ffff),
    ];
    let wide = [
        (30, 0x0102_0304, LAST),
        (0, 2, 0),
        (16, 1, LAST - 1),
        (17, u32::MAX, 0x0506_0708_090a_0b0b),
        (33, 3, u64::MAX - 1),
    ];
    let mut number = 1;
    let mut put =
        |random: &mut Random, width: Width, (length, link, last): (usize, u32, u64), remark: &str| {
            let (keys, message) = (random.bytes(96), random.bytes(length));
            let seed = random.number() as u32;
            number += 1;
            Shared { keys, link, width, last, message, seed }
                .put(number, &format!("{remark}, {length} bytes"));
        };
    narrow.into_iter().for_each(|case| put(random, Width::Narrow, case, "random"));
    wide.into_iter().for_each(|case| put(of_wide, Width::Wide, case, "a wide link, random"));
}
