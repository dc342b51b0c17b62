//! Reading bodies: `rasppuce_read_body`.

use crate::body::{self, Mark, BAD_LENGTH, BAD_WORD, MISSING_KIND};
use crate::body::{FRACTION, HIGH, LONGEST, LOW, OFFSET, OFFSETS, VALUES};
use crate::lent::{hold, hold_answer, hold_order, Call, Lent};
use crate::links::SHORT_OUTPUT;
use crate::random::Random;
use crate::tally::Tally;

extern "C" {
    fn rasppuce_read_body(body: *const u8, body_len: usize, values: *mut u8, room: usize) -> u32;
}

#[derive(Clone)]
pub struct ReadBody {
    pub body: Vec<u8>,
    pub values: Vec<u8>,
}

impl Call for ReadBody {
    fn name(&self) -> &'static str {
        "rasppuce_read_body"
    }

    fn slices(&mut self) -> Vec<(&'static str, &mut Vec<u8>)> {
        vec![("body", &mut self.body), ("values", &mut self.values)]
    }

    unsafe fn make(&self, lent: &[Lent]) -> u32 {
        let [body, values] = lent else { panic!("two slices") };
        rasppuce_read_body(body.pointer, body.length, values.pointer, values.length)
    }

    fn own(&mut self) -> u32 {
        body::read(&self.body, &mut self.values)
    }
}

/// A call on a body, with room for the values and up to three bytes more.
fn reading(random: &mut Random, body: Vec<u8>) -> ReadBody {
    let more = random.below(4);
    ReadBody { body, values: random.bytes(VALUES + more) }
}

/// Holds reading these words to a known answer.
fn hold_words(tally: &mut Tally, random: &mut Random, words: &[u32], answer: u32) {
    let call = reading(random, body::bytes(words));
    hold_answer(tally, &call, answer, random.number() as usize);
}

/// Holds reading these words to give the values of a mark.
pub fn hold_mark(tally: &mut Tally, random: &mut Random, words: &[u32], mark: &Mark) {
    let call = reading(random, body::bytes(words));
    let done = hold_answer(tally, &call, 0, random.number() as usize);
    let values = &done.left.values[..VALUES];
    tally.same(format_args!("values of {words:08x?}"), values, &mark.values());
}

/// Random words of these kinds, every offset in its range.
fn words_of(random: &mut Random, kinds: &[u32]) -> Vec<u32> {
    kinds.iter().map(|kind| body::random_word(random, *kind)).collect()
}

/// Holds reading such words.
fn hold_kinds(tally: &mut Tally, random: &mut Random, kinds: &[u32]) {
    let count = |kind: u32| kinds.iter().filter(|other| **other == kind).count();
    let answer = if kinds.is_empty() || kinds.len() > LONGEST / 4 {
        BAD_LENGTH
    } else if count(0) > 0 || (HIGH..=OFFSET).any(|kind| count(kind) > 1) {
        BAD_WORD
    } else if (HIGH..=FRACTION).any(|kind| count(kind) == 0) {
        MISSING_KIND
    } else {
        0
    };
    let words = words_of(random, kinds);
    hold_words(tally, random, &words, answer);
}

/// Kinds that are skipped, and words of such kinds.
fn skipped_kinds(random: &mut Random, count: usize) -> Vec<u32> {
    (0..count).map(|_| body::skipped_kind(random)).collect()
}

fn skipped_words(random: &mut Random, count: usize) -> Vec<u32> {
    (0..count).map(|_| body::skipped_word(random)).collect()
}

/// This many kinds in a random order: 1 to 4, as far as there is place, and some that are skipped.
fn complete(random: &mut Random, count: usize) -> Vec<u32> {
    let mut kinds = Vec::from_iter(HIGH..=OFFSET);
    kinds.extend(skipped_kinds(random, count));
    kinds.truncate(count);
    random.shuffle(&mut kinds);
    kinds
}

// ---- lengths

/// Every length to 260 and longer ones, with several fillings.
pub fn lengths(tally: &mut Tally) {
    let mut random = tally.random();
    let longer = [261, 264, 272, 508, 511, 512, 516, 1024, 65_536, 65_540, 65_552, 65_792];
    for length in (0..=260).chain(longer) {
        let is_body = length % 4 == 0 && (4..=LONGEST).contains(&length);
        let mark = Mark::random(&mut random, true).words();
        let skipped = skipped_words(&mut random, length / 4 + 1);
        let from_start = |words: &[&[u32]]| body::bytes(&words.concat())[..length].to_vec();
        let to_end = |words: &[&[u32]]| {
            let bytes = body::bytes(&words.concat());
            bytes[bytes.len() - length..].to_vec()
        };
        for (filling, answer) in [
            (from_start(&[&mark, &skipped]), if length < 12 { MISSING_KIND } else { 0 }),
            (to_end(&[&skipped, &mark]), if length < 16 { MISSING_KIND } else { 0 }),
            (from_start(&[&skipped]), MISSING_KIND),
            (to_end(&[&skipped]), MISSING_KIND),
            (vec![0; length], BAD_WORD),
            (vec![0xff; length], MISSING_KIND),
        ] {
            let call = reading(&mut random, filling);
            let answer = if is_body { answer } else { BAD_LENGTH };
            hold_answer(tally, &call, answer, random.number() as usize);
        }
        let filling = random.bytes(length);
        let call = reading(&mut random, filling);
        hold(tally, &call, random.number() as usize);
    }
}

// ---- kinds

/// Each kind at each place of bodies of several lengths: instead of another word, and besides.
pub fn every_kind(tally: &mut Tally) {
    let mut random = tally.random();
    for count in [1, 2, 3, 4, 5, 6, 8, 16, 33, 63, 64] {
        let kinds = complete(&mut random, count);
        for place in 0..count {
            for kind in 0..16 {
                let mut instead = kinds.clone();
                instead[place] = kind;
                hold_kinds(tally, &mut random, &instead);
                let mut besides = kinds.clone();
                besides.insert(place, kind);
                hold_kinds(tally, &mut random, &besides);
            }
        }
    }
}

/// All orders of some items.
fn orders(items: &[u32]) -> Vec<Vec<u32>> {
    let Some((first, others)) = items.split_first() else { return vec![vec![]] };
    let mut all = Vec::new();
    for order in orders(others) {
        for place in 0..items.len() {
            let mut longer = order.clone();
            longer.insert(place, *first);
            all.push(longer);
        }
    }
    all
}

/// Every order of kinds 1 to 3 and 1 to 4, with a skipped word or none at either end and between
/// any two: the values are the same.
pub fn every_order(tally: &mut Tally) {
    let mut random = tally.random();
    for has_offset in [false, true] {
        let mark = Mark::random(&mut random, has_offset);
        for order in orders(&mark.words()) {
            for gaps in 0..2 << order.len() {
                let mut words = Vec::new();
                for place in 0..=order.len() {
                    if gaps >> place & 1 == 1 {
                        words.push(body::skipped_word(&mut random));
                    }
                    words.extend(order.get(place));
                }
                hold_mark(tally, &mut random, &words, &mark);
            }
        }
    }
}

/// Kinds 1 to 4 twice, at every two places, with the same field and with another.
pub fn repeated(tally: &mut Tally) {
    let mut random = tally.random();
    for count in [5, 6, 8, 64] {
        for second in 1..count {
            for first in 0..second {
                for kind in HIGH..=OFFSET {
                    hold_repeated(tally, &mut random, kind, count, first, second);
                }
            }
        }
    }
}

/// A kind at two places of a body of `count` words that has all other kinds once.
fn hold_repeated(
    tally: &mut Tally,
    random: &mut Random,
    kind: u32,
    count: usize,
    first: usize,
    second: usize,
) {
    let mut kinds = complete(random, count - 1);
    kinds.retain(|other| *other != kind);
    kinds.insert(first, kind);
    kinds.insert(second, kind);
    let mut words = words_of(random, &kinds);
    words[second] = words[first];
    hold_words(tally, random, &words, BAD_WORD);
    hold_kinds(tally, random, &kinds);
}

/// Every choice of kinds 1 to 4, in any order, with none to six skipped words.
pub fn missing(tally: &mut Tally) {
    let mut random = tally.random();
    for choice in 0..16 {
        for count in 0..=6 {
            for _ in 0..8 {
                let mut kinds = skipped_kinds(&mut random, count);
                kinds.extend((HIGH..=OFFSET).filter(|kind| choice >> (kind - 1) & 1 == 1));
                random.shuffle(&mut kinds);
                hold_kinds(tally, &mut random, &kinds);
            }
        }
    }
}

// ---- values

/// Offsets of 28 bits around each end of the range and of the field, and single bits.
pub fn edge_offsets() -> Vec<i32> {
    let half = 1 << 27;
    let ends = (-730..=-710).chain(-3..=3).chain(830..=850);
    let field_ends = (-half..-half + 3).chain(half - 3..half);
    let powers = (0..27).map(|bit| 1 << bit);
    let bits = powers.flat_map(|bit| [bit, -bit, -1 - bit, bit - 721, 840 - bit]);
    ends.chain(field_ends).chain(bits).collect()
}

/// Offsets at the edges and random ones, in and out of the range, at each place of a body.
pub fn offsets(tally: &mut Tally) {
    let mut random = tally.random();
    let others: Vec<i32> = (0..2000).map(|_| random.number() as i32 >> 4).collect();
    let near: Vec<i32> = (0..1000).map(|_| random.below(3000) as i32 - 1500).collect();
    for offset in [edge_offsets(), others, near].concat() {
        let mark = Mark { offset: Some(offset), ..Mark::random(&mut random, false) };
        for place in 0..4 {
            let mut words = mark.words();
            words.swap(place, 3);
            if OFFSETS.contains(&offset) {
                hold_mark(tally, &mut random, &words, &mark);
            } else {
                hold_words(tally, &mut random, &words, BAD_WORD);
            }
        }
    }
}

/// Fields with all bits 0, all bits 1, and one bit alone.
pub fn fields(tally: &mut Tally) {
    let mut random = tally.random();
    let fields: Vec<u32> = (0..28).map(|bit| 1 << bit).chain([0, 0x0fff_ffff]).collect();
    for &high in &fields {
        for &low in &fields {
            for fraction in [low, 0x0fff_ffff ^ high] {
                let words = [(HIGH, high), (LOW, low), (FRACTION, fraction)]
                    .map(|(kind, field)| body::word(kind, field));
                let seconds = u64::from(high) * (1 << 28) + u64::from(low);
                hold_mark(tally, &mut random, &words, &Mark { seconds, fraction, offset: None });
            }
        }
    }
}

/// Every bit of a body flipped alone.
pub fn single_bits(tally: &mut Tally) {
    let mut random = tally.random();
    for has_offset in [false, true] {
        for _ in 0..20 {
            let mut words = Mark::random(&mut random, has_offset).words();
            words.push(body::skipped_word(&mut random));
            random.shuffle(&mut words);
            let call = reading(&mut random, body::bytes(&words));
            for bit in 0..8 * call.body.len() {
                let mut flipped = call.clone();
                flipped.body[bit / 8] ^= 0x80 >> (bit % 8);
                hold(tally, &flipped, bit);
            }
        }
    }
}

// ---- outputs and refusals

/// Every length of the output to 20 and longer ones, for bodies of each answer.
pub fn outputs(tally: &mut Tally) {
    let mut random = tally.random();
    let mark = Mark::random(&mut random, true).words();
    let twice = [&mark[..], &mark[..1]].concat();
    let whole = body::bytes(&mark);
    for (body, answer) in [
        (whole.clone(), 0),
        (body::bytes(&mark[..3]), 0),
        (whole[..15].to_vec(), BAD_LENGTH),
        (Vec::new(), BAD_LENGTH),
        (body::bytes(&twice), BAD_WORD),
        (vec![0; 8], BAD_WORD),
        (body::bytes(&mark[1..]), MISSING_KIND),
        (body::bytes(&mark[3..]), MISSING_KIND),
    ] {
        for room in (0..=20).chain([31, 32, 33, 48, 255, 256, 300, 65_536, 65_552]) {
            let call = ReadBody { body: body.clone(), values: random.bytes(room) };
            let short = answer == 0 && room < VALUES;
            hold_answer(tally, &call, if short { SHORT_OUTPUT } else { answer }, room);
        }
    }
}

/// Puts a word into the place of another.
fn replace(call: &mut ReadBody, place: usize, word: u32) {
    call.body[4 * place..][..4].copy_from_slice(&word.to_be_bytes());
}

/// The refusals, alone and together.
pub fn refusals(tally: &mut Tally) {
    let mut random = tally.random();
    for _ in 0..3 {
        // Kinds 1 to 4, and four skipped words behind them.
        let mut words = Mark::random(&mut random, true).words();
        words.extend(skipped_words(&mut random, 4));
        hold_order(
            tally,
            &reading(&mut random, body::bytes(&words)),
            &[
                (
                    BAD_LENGTH,
                    &[
                        |call| call.body.clear(),
                        |call| call.body.truncate(3),
                        |call| call.body.truncate(30),
                        |call| call.body.truncate(31),
                        |call| call.body.push(0x50),
                        |call| call.body.resize(257, 0x50),
                        |call| call.body.resize(260, 0x50),
                        |call| call.body.resize(512, 0x50),
                    ],
                ),
                (
                    BAD_WORD,
                    &[
                        |call| replace(call, 0, 0),
                        |call| replace(call, 7, 0x0fff_ffff),
                        |call| replace(call, 3, 0x4000_0349),
                        |call| replace(call, 3, 0x4fff_fd2f),
                        |call| replace(call, 4, 0x4000_0000),
                        |call| call.body.extend([0x10, 0, 0, 0, 0x10, 0, 0, 0]),
                        |call| call.body.extend([0x30, 0, 0, 0, 0x30, 0, 0, 1]),
                        |call| call.body.extend([0; 224]),
                    ],
                ),
                (
                    MISSING_KIND,
                    &[
                        |call| replace(call, 0, 0x5000_0000),
                        |call| replace(call, 1, 0xffff_ffff),
                        |call| replace(call, 2, 0x6000_0000),
                        |call| call.body[..12].fill(0x90),
                    ],
                ),
                (SHORT_OUTPUT, &[|call| call.values.clear(), |call| call.values.truncate(16)]),
            ],
        );
    }
}

// ---- random bodies

/// Bodies of random words.
pub fn random_words(tally: &mut Tally) {
    let mut random = tally.random();
    for _ in 0..10_000 {
        let count = 1 + random.below(12);
        let body = random.bytes(4 * count);
        let call = reading(&mut random, body);
        hold(tally, &call, random.number() as usize);
    }
}

/// The words of a random body that is mostly acceptable: now and then a kind is missing, a word is
/// there twice, of kind 0, or an offset of any size.
fn mostly_good(random: &mut Random) -> Vec<u32> {
    let has_offset = random.below(2) == 0;
    let mut words = Mark::random(random, has_offset).words();
    let skipped = random.below(6);
    words.extend(skipped_words(random, skipped));
    let (again, other) = (random.pick(&words), random.number() as u32);
    match random.below(12) {
        0 => drop(words.swap_remove(0)),
        1 => drop(words.swap_remove(2)),
        2 => words.push(again),
        3 => words.push(body::word(0, other)),
        4 => words[2 + has_offset as usize] = body::word(OFFSET, other),
        5 => words.push(other),
        _ => (),
    }
    random.shuffle(&mut words);
    words
}

/// Bodies of mostly acceptable words, now and then of another length or with too little room.
pub fn random_bodies(tally: &mut Tally) {
    let mut random = tally.random();
    for _ in 0..20_000 {
        let words = mostly_good(&mut random);
        let mut call = reading(&mut random, body::bytes(&words));
        match random.below(30) {
            0 => call.body.truncate(random.below(call.body.len() + 1)),
            1 => call.body.resize(random.below(280), 0x70),
            2 => call.values.truncate(random.below(VALUES + 1)),
            _ => (),
        }
        hold(tally, &call, random.number() as usize);
    }
}
