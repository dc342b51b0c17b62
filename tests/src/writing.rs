//! Writing bodies: `rasppuce_write_body`, and reading what was written.

use crate::body::{self, Mark, BAD_WORD, FRACTION_END, OFFSET, OFFSETS, SECONDS_END, VALUES};
use crate::lent::{hold, hold_answer, hold_order, Call, Lent};
use crate::links::SHORT_OUTPUT;
use crate::random::Random;
use crate::reading::{self, ReadBody};
use crate::tally::Tally;

extern "C" {
    fn rasppuce_write_body(
        seconds: u64,
        fraction: u32,
        has_offset: u32,
        offset: i32,
        body: *mut u8,
        body_len: usize,
    ) -> u32;
}

#[derive(Clone)]
pub struct WriteBody {
    pub seconds: u64,
    pub fraction: u32,
    pub has_offset: u32,
    pub offset: i32,
    pub body: Vec<u8>,
}

impl WriteBody {
    /// A call that writes a mark into this room.
    pub fn of(mark: &Mark, body: Vec<u8>) -> WriteBody {
        WriteBody {
            seconds: mark.seconds,
            fraction: mark.fraction,
            has_offset: mark.offset.is_some() as u32,
            offset: mark.offset.unwrap_or(0),
            body,
        }
    }

    /// What it has to write.
    fn mark(&self) -> Mark {
        let offset = if self.has_offset == 0 { None } else { Some(self.offset) };
        Mark { seconds: self.seconds, fraction: self.fraction, offset }
    }
}

impl Call for WriteBody {
    fn name(&self) -> &'static str {
        "rasppuce_write_body"
    }

    fn slices(&mut self) -> Vec<(&'static str, &mut Vec<u8>)> {
        vec![("body", &mut self.body)]
    }

    fn numbers(&self) -> Vec<(&'static str, i128)> {
        vec![
            ("seconds", self.seconds.into()),
            ("fraction", self.fraction.into()),
            ("has_offset", self.has_offset.into()),
            ("offset", self.offset.into()),
        ]
    }

    unsafe fn make(&self, lent: &[Lent]) -> u32 {
        let [body] = lent else { panic!("one slice") };
        rasppuce_write_body(
            self.seconds,
            self.fraction,
            self.has_offset,
            self.offset,
            body.pointer,
            body.length,
        )
    }

    fn own(&mut self) -> u32 {
        body::write(&self.mark(), &mut self.body)
    }
}

/// An acceptable call with room for four bytes more than the longest body that is written.
fn good(random: &mut Random, has_offset: bool) -> WriteBody {
    let mark = Mark::random(random, has_offset);
    WriteBody::of(&mark, random.bytes(20))
}

// ---- values

/// Numbers other than 0 that say that there is an offset.
const YES: [u32; 5] = [1, 2, 256, 1 << 31, u32::MAX];

/// Values at the ends of their ranges and past them, each with each.
pub fn values(tally: &mut Tally) {
    const SECONDS: [u64; 15] = [
        0,
        1,
        (1 << 28) - 1,
        1 << 28,
        (1 << 28) + 1,
        (1 << 32) - 1,
        1 << 32,
        1 << 55,
        SECONDS_END - 1,
        SECONDS_END,
        SECONDS_END + 1,
        1 << 60,
        1 << 63,
        u64::MAX - 1,
        u64::MAX,
    ];
    const FRACTIONS: [u32; 8] =
        [0, 1, 1 << 27, FRACTION_END - 1, FRACTION_END, FRACTION_END + 1, 1 << 31, u32::MAX];
    const EDGES: [i32; 11] = [i32::MIN, -1000, -721, -720, -1, 0, 1, 840, 841, 1000, i32::MAX];
    let mut random = tally.random();
    for seconds in SECONDS {
        for fraction in FRACTIONS {
            for offset in EDGES {
                for has_offset in [0, 1, 2, u32::MAX] {
                    let body = random.bytes(18);
                    let call = WriteBody { seconds, fraction, has_offset, offset, body };
                    let good = seconds < SECONDS_END
                        && fraction < FRACTION_END
                        && (has_offset == 0 || (-720..=840).contains(&offset));
                    let answer = if good { 0 } else { BAD_WORD };
                    hold_answer(tally, &call, answer, random.number() as usize);
                }
            }
        }
    }
}

/// Offsets at the edges and random ones; where there is none, the number is not looked at.
pub fn offsets(tally: &mut Tally) {
    let mut random = tally.random();
    // A field of 28 bits would have room for the low bits of these.
    let wrapped = (-730..=850).step_by(10).flat_map(|low| [low + (1 << 28), low - (1 << 28)]);
    let ends = [i32::MIN, i32::MIN + 1, i32::MAX - 1, i32::MAX];
    let others: Vec<i32> = (0..1000).map(|_| random.number() as i32).collect();
    let others = others.into_iter().flat_map(|offset| [offset, offset >> 4]);
    for offset in reading::edge_offsets().into_iter().chain(wrapped).chain(ends).chain(others) {
        let no = WriteBody { has_offset: 0, offset, ..good(&mut random, false) };
        hold_answer(tally, &no, 0, random.number() as usize);
        let answer = if OFFSETS.contains(&offset) { 0 } else { BAD_WORD };
        for has_offset in YES {
            let yes = WriteBody { has_offset, offset, ..good(&mut random, true) };
            hold_answer(tally, &yes, answer, random.number() as usize);
        }
    }
}

/// Every offset in the range, by the bytes of its word.
pub fn every_offset(tally: &mut Tally) {
    let mut random = tally.random();
    for offset in OFFSETS {
        let call = WriteBody { offset, ..good(&mut random, true) };
        let done = hold_answer(tally, &call, 0, random.number() as usize);
        let word = offset.rem_euclid(1 << 28) as u32 + (OFFSET << 28);
        let written = &done.left.body[12..16];
        tally.same(format_args!("word of offset {offset}"), written, &word.to_be_bytes());
    }
}

/// One bit of a value alone, all others 0.
pub fn single_bits(tally: &mut Tally) {
    let none = WriteBody::of(&Mark { seconds: 0, fraction: 0, offset: None }, vec![0xee; 16]);
    for bit in 0..64 {
        let call = WriteBody { seconds: 1 << bit, ..none.clone() };
        hold_answer(tally, &call, if bit < 56 { 0 } else { BAD_WORD }, bit);
    }
    for bit in 0..32 {
        let call = WriteBody { fraction: 1 << bit, ..none.clone() };
        hold_answer(tally, &call, if bit < 28 { 0 } else { BAD_WORD }, bit);
        let call = WriteBody { has_offset: 1 << bit, offset: 60, ..none.clone() };
        hold_answer(tally, &call, 0, bit);
        let call = WriteBody { has_offset: 1, offset: 1 << bit, ..none.clone() };
        hold_answer(tally, &call, if bit < 10 { 0 } else { BAD_WORD }, bit);
    }
}

// ---- outputs and refusals

/// Every length of the output to 20 and longer ones, with and without an offset.
pub fn outputs(tally: &mut Tally) {
    let mut random = tally.random();
    for has_offset in [0].into_iter().chain(YES) {
        let fits = if has_offset == 0 { 12 } else { 16 };
        for room in (0..=20).chain([24, 31, 32, 33, 256, 300, 65_536, 65_548, 65_552]) {
            let mut call = WriteBody { has_offset, ..good(&mut random, true) };
            call.body = random.bytes(room);
            hold_answer(tally, &call, if room < fits { SHORT_OUTPUT } else { 0 }, room);
            // A value out of its range is seen first.
            call.seconds += SECONDS_END;
            hold_answer(tally, &call, BAD_WORD, room);
        }
    }
}

/// The refusals, alone and together.
pub fn refusals(tally: &mut Tally) {
    let mut random = tally.random();
    for has_offset in [false, true] {
        hold_order(
            tally,
            &good(&mut random, has_offset),
            &[
                (
                    BAD_WORD,
                    &[
                        |call| call.seconds = SECONDS_END,
                        |call| call.seconds = u64::MAX,
                        |call| call.fraction = FRACTION_END,
                        |call| call.fraction = u32::MAX,
                        |call| (call.has_offset, call.offset) = (1, 841),
                        |call| (call.has_offset, call.offset) = (2, -721),
                        |call| (call.has_offset, call.offset) = (u32::MAX, i32::MIN),
                        |call| (call.seconds, call.fraction) = (u64::MAX, u32::MAX),
                    ],
                ),
                (
                    SHORT_OUTPUT,
                    &[
                        |call| call.body.clear(),
                        |call| call.body.truncate(8),
                        |call| call.body.truncate(if call.has_offset == 0 { 11 } else { 15 }),
                    ],
                ),
            ],
        );
    }
}

/// Random values, each mostly in its range.
pub fn random(tally: &mut Tally) {
    let mut random = tally.random();
    for _ in 0..20_000 {
        let has_offset = random.below(2) == 0;
        let mut call = good(&mut random, has_offset);
        let any = random.number();
        match random.below(12) {
            0 => call.seconds = any,
            1 => call.fraction = any as u32,
            2 => call.offset = any as i32,
            3 => call.offset = random.below(3000) as i32 - 1500,
            4 => call.has_offset = any as u32,
            5 => call.body.truncate(random.below(18)),
            _ => (),
        }
        hold(tally, &call, any as usize);
    }
}

// ---- written, then read

/// What is written is read as the values that it was written from, and so it is in any order and
/// with any skipped words.
pub fn read_back(tally: &mut Tally) {
    let mut random = tally.random();
    for case in 0..4000 {
        let mark = Mark::random(&mut random, case % 2 == 0);
        let length = 4 * mark.words().len();
        let written = WriteBody::of(&mark, random.bytes(length));
        let body = hold_answer(tally, &written, 0, random.number() as usize).left.body;
        let mut words = body::words(&body);
        reading::hold_mark(tally, &mut random, &words, &mark);
        random.shuffle(&mut words);
        reading::hold_mark(tally, &mut random, &words, &mark);
        for _ in 0..random.below(61) {
            let place = random.below(words.len() + 1);
            words.insert(place, body::skipped_word(&mut random));
        }
        reading::hold_mark(tally, &mut random, &words, &mark);
    }
}

/// A body in the writer's order and without skipped words is the one that is written of the values
/// that are read in it.
pub fn only_body(tally: &mut Tally) {
    let mut random = tally.random();
    for case in 0..4000 {
        let kinds = 1..=3 + case % 2;
        let words: Vec<u32> = kinds.map(|kind| body::random_word(&mut random, kind)).collect();
        let body = body::bytes(&words);
        let read = ReadBody { body: body.clone(), values: random.bytes(VALUES) };
        let values = hold_answer(tally, &read, 0, random.number() as usize).left.values;
        let written = WriteBody {
            seconds: u64::from_be_bytes(values[..8].try_into().unwrap()),
            fraction: u32::from_be_bytes(values[8..12].try_into().unwrap()),
            has_offset: values[12].into(),
            offset: i32::from_be_bytes(values[13..].try_into().unwrap()),
            body: random.bytes(body.len()),
        };
        let again = hold_answer(tally, &written, 0, random.number() as usize).left.body;
        tally.same(format_args!("written again, {words:08x?}"), &again, &body);
    }
}
