//! The body of a mark: `read` and `write` say what the C calls for bodies have to do.
//!
//! A body is words of 32 bits, big-endian. The top four bits of a word are its kind, the other 28
//! are its field. A function returns 0 or the refusal's number, and changes the output only where
//! it returns 0.

use crate::links::SHORT_OUTPUT;
use crate::random::Random;
use std::ops::{Range, RangeInclusive};

/// Kinds of words: the high and the low half of the seconds, the fraction, the offset.
pub const HIGH: u32 = 1;
pub const LOW: u32 = 2;
pub const FRACTION: u32 = 3;
pub const OFFSET: u32 = 4;
/// Those that are skipped.
pub const SKIPPED: Range<u32> = 5..16;

/// The bytes of the longest body, and of the values that one says.
pub const LONGEST: usize = 256;
pub const VALUES: usize = 17;

/// Where the seconds and the fraction end, and the offsets, in minutes.
pub const SECONDS_END: u64 = 1 << 56;
pub const FRACTION_END: u32 = 1 << 28;
pub const OFFSETS: RangeInclusive<i32> = -720..=840;

pub const BAD_LENGTH: u32 = 30;
pub const BAD_WORD: u32 = 31;
pub const MISSING_KIND: u32 = 32;

// ---- words

/// The bits of a field, all 1.
const FIELD: u32 = 0x0fff_ffff;

pub fn word(kind: u32, field: u32) -> u32 {
    kind << 28 | field & FIELD
}

fn kind_of(word: u32) -> u32 {
    word >> 28
}

fn field_of(word: u32) -> u32 {
    word & FIELD
}

/// The number that a field of 28 bits is in two's complement.
fn signed(field: u32) -> i32 {
    if field < 1 << 27 {
        field as i32
    } else {
        field as i32 - (1 << 28)
    }
}

pub fn bytes(words: &[u32]) -> Vec<u8> {
    words.iter().flat_map(|word| word.to_be_bytes()).collect()
}

pub fn words(bytes: &[u8]) -> Vec<u32> {
    bytes.chunks(4).map(|word| u32::from_be_bytes(word.try_into().unwrap())).collect()
}

/// A random word of a kind; an offset is in its range.
pub fn random_word(random: &mut Random, kind: u32) -> u32 {
    match kind {
        OFFSET => word(OFFSET, random_offset(random) as u32),
        _ => word(kind, random.number() as u32),
    }
}

fn random_offset(random: &mut Random) -> i32 {
    OFFSETS.start() + random.below(OFFSETS.count()) as i32
}

/// A random kind that is skipped, and a word of one.
pub fn skipped_kind(random: &mut Random) -> u32 {
    SKIPPED.start + random.below(SKIPPED.len()) as u32
}

pub fn skipped_word(random: &mut Random) -> u32 {
    let kind = skipped_kind(random);
    random_word(random, kind)
}

// ---- marks

/// What a body says.
pub struct Mark {
    pub seconds: u64,
    pub fraction: u32,
    pub offset: Option<i32>,
}

impl Mark {
    /// A random one, with every value in its range.
    pub fn random(random: &mut Random, has_offset: bool) -> Mark {
        Mark {
            seconds: random.number() % SECONDS_END,
            fraction: random.number() as u32 % FRACTION_END,
            offset: has_offset.then(|| random_offset(random)),
        }
    }

    fn is_in_range(&self) -> bool {
        self.seconds < SECONDS_END
            && self.fraction < FRACTION_END
            && self.offset.is_none_or(|offset| OFFSETS.contains(&offset))
    }

    /// The words of one that is in range, in the writer's order.
    pub fn words(&self) -> Vec<u32> {
        let mut words = vec![
            word(HIGH, (self.seconds >> 28) as u32),
            word(LOW, self.seconds as u32),
            word(FRACTION, self.fraction),
        ];
        words.extend(self.offset.map(|offset| word(OFFSET, offset as u32)));
        words
    }

    /// Its values as reading gives them: seconds, fraction, 1 or 0, offset or zeros.
    pub fn values(&self) -> Vec<u8> {
        [
            &self.seconds.to_be_bytes()[..],
            &self.fraction.to_be_bytes(),
            &[self.offset.is_some() as u8],
            &self.offset.unwrap_or(0).to_be_bytes(),
        ]
        .concat()
    }
}

// ---- reading and writing

/// True if a word is not allowed behind those before it.
fn is_bad(before: &[u32], word: u32) -> bool {
    let again = || before.iter().any(|other| kind_of(*other) == kind_of(word));
    match kind_of(word) {
        0 => true,
        HIGH | LOW | FRACTION => again(),
        OFFSET => again() || !OFFSETS.contains(&signed(field_of(word))),
        _ => false,
    }
}

/// What a body says, or the refusal.
pub fn mark_of(body: &[u8]) -> Result<Mark, u32> {
    if body.len() < 4 || body.len() > LONGEST || body.len() % 4 != 0 {
        return Err(BAD_LENGTH);
    }
    let words = words(body);
    if (0..words.len()).any(|i| is_bad(&words[..i], words[i])) {
        return Err(BAD_WORD);
    }
    let with = |kind| words.iter().copied().find(|word| kind_of(*word) == kind);
    let field = |kind| with(kind).map(field_of);
    let needed = |kind| field(kind).ok_or(MISSING_KIND);
    let (high, low, fraction) = (needed(HIGH)?, needed(LOW)?, needed(FRACTION)?);
    let seconds = u64::from(high) << 28 | u64::from(low);
    Ok(Mark { seconds, fraction, offset: field(OFFSET).map(signed) })
}

/// Puts a result at an output's beginning.
fn put(output: &mut [u8], result: &[u8]) -> u32 {
    if output.len() < result.len() {
        return SHORT_OUTPUT;
    }
    output[..result.len()].copy_from_slice(result);
    0
}

pub fn read(body: &[u8], values: &mut [u8]) -> u32 {
    match mark_of(body) {
        Ok(mark) => put(values, &mark.values()),
        Err(refusal) => refusal,
    }
}

pub fn write(mark: &Mark, body: &mut [u8]) -> u32 {
    if !mark.is_in_range() {
        return BAD_WORD;
    }
    put(body, &bytes(&mark.words()))
}
