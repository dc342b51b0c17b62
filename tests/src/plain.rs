//! Plain sealing: `rasppuce_seal_plain`.

use crate::lent::{hold, hold_answer, hold_order, Call, Lent};
use crate::links::{
    self, Width, BAD_KEYS, EDGES, LONGEST, LONG_MESSAGE, NO_SEQUENCE, RECEIVER_KEYS, SEQUENCES, SHORT_OUTPUT,
    TOLD, WIDTHS,
};
use crate::tally::Tally;

extern "C" {
    fn rasppuce_seal_plain(
        keys: *const u8,
        keys_len: usize,
        number: u32,
        wide: u32,
        sequence: u64,
        message: *const u8,
        message_len: usize,
        record: *mut u8,
        record_len: usize,
    ) -> u32;
}

#[derive(Clone)]
pub struct SealPlain {
    pub keys: Vec<u8>,
    pub number: u32,
    pub wide: u32,
    pub sequence: u64,
    pub message: Vec<u8>,
    pub record: Vec<u8>,
}

impl Call for SealPlain {
    fn name(&self) -> &'static str {
        "rasppuce_seal_plain"
    }

    fn slices(&mut self) -> Vec<(&'static str, &mut Vec<u8>)> {
        vec![("keys", &mut self.keys), ("message", &mut self.message), ("record", &mut self.record)]
    }

    fn numbers(&self) -> Vec<(&'static str, i128)> {
        let (number, wide) = (self.number.into(), self.wide.into());
        vec![("number", number), ("wide", wide), ("sequence", self.sequence.into())]
    }

    unsafe fn make(&self, lent: &[Lent]) -> u32 {
        let [keys, message, record] = lent else { panic!("three slices") };
        rasppuce_seal_plain(
            keys.pointer,
            keys.length,
            self.number,
            self.wide,
            self.sequence,
            message.pointer,
            message.length,
            record.pointer,
            record.length,
        )
    }

    fn own(&mut self) -> u32 {
        let SealPlain { number, wide, sequence, .. } = *self;
        links::seal_plain(&self.keys, number, wide, sequence, &self.message, &mut self.record)
    }
}

/// An acceptable call with room for `more` bytes past the record.
fn good(tally: &Tally, width: Width, length: usize, more: usize) -> SealPlain {
    let mut random = tally.random_for(2 * length + width as usize);
    SealPlain {
        keys: random.bytes(RECEIVER_KEYS),
        number: random.number() as u32,
        wide: width as u32,
        sequence: width.some_sequence(&mut random),
        message: random.bytes(length),
        record: random.bytes(length + width.added() + more),
    }
}

/// Every length of message, with just enough room and with more.
pub fn messages(tally: &mut Tally) {
    for width in WIDTHS {
        for length in 0..=LONGEST {
            hold_answer(tally, &good(tally, width, length, 0), 0, 17 * length);
            hold_answer(tally, &good(tally, width, length, 1 + length % 40), 0, 29 * length);
        }
        for length in [257, 258, 272, 300, 511, 512, 513, 1000, 65_536, 65_552, 65_792] {
            hold_answer(tally, &good(tally, width, length, 0), LONG_MESSAGE, length);
        }
    }
}

/// Every length of the output around the record's, for the lengths of message at a block's edges.
pub fn outputs(tally: &mut Tally) {
    for width in WIDTHS {
        for length in EDGES {
            let fits = length + width.added();
            for room in (0..fits + 3).chain([fits + 16, fits + 300, fits + 65_536]) {
                let mut call = good(tally, width, length, 0);
                call.record = tally.random_for(room).bytes(room);
                hold_answer(tally, &call, if room < fits { SHORT_OUTPUT } else { 0 }, room);
            }
        }
    }
}

/// Every length of key material to 130, and longer ones that end as 32 does.
pub fn keys(tally: &mut Tally) {
    for width in WIDTHS {
        for length in (0..=130).chain([256, 288, 65_536, 65_568]) {
            let mut call = good(tally, width, 20, 0);
            call.keys = tally.random_for(length).bytes(length);
            hold_answer(tally, &call, if length == RECEIVER_KEYS { 0 } else { BAD_KEYS }, length);
        }
    }
}

/// Link and sequence numbers at the ends of their ranges, under all that tells a width. Sequence number
/// 0 is refused and, where 0 tells the width, those above 4294967295.
pub fn numbers(tally: &mut Tally) {
    let numbers =
        [0, 1, 2, 255, 256, 65_535, 65_536, 0x0102_0304, 0x7fff_ffff, 0x8000_0000, u32::MAX - 1, u32::MAX];
    for number in numbers {
        for sequence in SEQUENCES {
            for wide in TOLD {
                let known = match (wide, sequence) {
                    (_, 0) | (0, 4_294_967_296..) => NO_SEQUENCE,
                    _ => 0,
                };
                for length in [0, 16, 33] {
                    let call = SealPlain { number, wide, sequence, ..good(tally, Width::Wide, length, 3) };
                    let left = hold_answer(tally, &call, known, length).left;
                    if known == 0 {
                        hold_head(tally, &left);
                    }
                }
            }
        }
    }
}

/// A record begins with its link number in four bytes and its sequence number in four or eight.
fn hold_head(tally: &mut Tally, sealed: &SealPlain) {
    let SealPlain { number, wide, sequence, record, .. } = sealed;
    let mut head = number.to_be_bytes().to_vec();
    match wide {
        0 => head.extend((*sequence as u32).to_be_bytes()),
        _ => head.extend(sequence.to_be_bytes()),
    }
    tally.same(format_args!("head of {number} {sequence}, told {wide}"), &record[..head.len()], &head);
}

/// Under a number that both widths have, both make the same ciphertext and tag, and every number but 0
/// tells the same.
pub fn both_widths(tally: &mut Tally) {
    let mut random = tally.random();
    for length in EDGES {
        let narrow = good(tally, Width::Narrow, length, 0);
        let edges = SEQUENCES.into_iter().filter(|sequence| (1..1 << 32).contains(sequence));
        for sequence in edges.chain([Width::Narrow.some_sequence(&mut random)]) {
            let narrow = SealPlain { sequence, ..narrow.clone() };
            let behind = hold_answer(tally, &narrow, 0, length).left.record.split_off(8);
            for wide in [1, random.pick(&TOLD[2..])] {
                let wide = SealPlain { wide, record: vec![0; length + 28], ..narrow.clone() };
                let record = hold_answer(tally, &wide, 0, length).left.record;
                let what = format!("told {} for {sequence}, {length} bytes", wide.wide);
                tally.same(format_args!("ciphertext and tag, {what}"), &record[12..], &behind);
            }
        }
    }
}

/// The refusals, alone and together.
pub fn refusals(tally: &mut Tally) {
    for width in WIDTHS {
        for length in [0, 1, 16, 256] {
            hold_order(
                tally,
                &good(tally, width, length, 5),
                &[
                    (
                        BAD_KEYS,
                        &[
                            |call| call.keys.clear(),
                            |call| call.keys.truncate(31),
                            |call| call.keys.push(0),
                            |call| call.keys.resize(96, 7),
                        ],
                    ),
                    (
                        NO_SEQUENCE,
                        &[
                            |call| call.sequence = 0,
                            |call| tell_narrow(call, 1 << 32),
                            |call| tell_narrow(call, (1 << 32) + 1),
                            |call| tell_narrow(call, u64::MAX),
                        ],
                    ),
                    (
                        LONG_MESSAGE,
                        &[
                            |call| call.message.resize(257, 1),
                            |call| call.message.resize(300, 2),
                            |call| call.message.resize(65_536, 3),
                        ],
                    ),
                    (
                        SHORT_OUTPUT,
                        &[
                            |call| call.record.clear(),
                            |call| call.record.truncate(23),
                            |call| shorten_below_record(call),
                        ],
                    ),
                ],
            );
        }
    }
}

/// Tells the call a narrow width, with this number.
fn tell_narrow(call: &mut SealPlain, sequence: u64) {
    call.wide = 0;
    call.sequence = sequence;
}

fn shorten_below_record(call: &mut SealPlain) {
    call.record.truncate(call.message.len() + Width::told(call.wide).added() - 1);
}

/// Random calls.
pub fn random(tally: &mut Tally) {
    let mut random = tally.random();
    for _ in 0..3000 {
        let length = random.below(LONGEST + 1);
        let call = SealPlain {
            keys: random.bytes(RECEIVER_KEYS),
            number: random.number() as u32,
            wide: if random.below(2) == 0 { 0 } else { random.number() as u32 },
            sequence: random.number() >> random.below(64),
            message: random.bytes(length),
            record: random.bytes(Width::Wide.added() + LONGEST),
        };
        hold(tally, &call, random.number() as usize);
    }
}
