//! Opening: `rasppuce_open`.

use crate::keying::{hold_links, RECEIVING};
use crate::lent::{hold_answer, hold_order, Call, Lent};
use crate::links::{
    self, Width, Window, BAD_RECORD, BELOW_WINDOW, EDGES, KEYS_AT, LONGEST, NOT_KEYED, OTHER_LINK,
    RECEIVER_KEYS, REPEATED, SEQUENCES, SHORT_OUTPUT, WIDTHS, WIDTH_BYTES, WRONG_TAG,
};
use crate::tally::Tally;
use std::ops::RangeInclusive;

extern "C" {
    fn rasppuce_open(
        link: *mut u8,
        link_len: usize,
        record: *const u8,
        record_len: usize,
        message: *mut u8,
        message_len: usize,
    ) -> u32;
}

#[derive(Clone)]
pub struct Open {
    pub link: Vec<u8>,
    pub record: Vec<u8>,
    pub message: Vec<u8>,
}

impl Call for Open {
    fn name(&self) -> &'static str {
        "rasppuce_open"
    }

    fn slices(&mut self) -> Vec<(&'static str, &mut Vec<u8>)> {
        vec![("link", &mut self.link), ("record", &mut self.record), ("message", &mut self.message)]
    }

    unsafe fn make(&self, lent: &[Lent]) -> u32 {
        let [link, record, message] = lent else { panic!("three slices") };
        rasppuce_open(
            link.pointer,
            link.length,
            record.pointer,
            record.length,
            message.pointer,
            message.length,
        )
    }

    fn own(&mut self) -> u32 {
        links::open(&mut self.link, &self.record, &mut self.message)
    }
}

impl Open {
    /// The width of the link, which has to have one.
    pub fn width(&self) -> Width {
        Width::of(&self.link).expect("a width")
    }

    /// Makes the highest number of the link this much more than the record's number.
    pub fn set_highest(&mut self, above: u64) {
        let sequence = self.width().sequence(&self.record);
        links::set_last(&mut self.link, sequence + above);
    }

    /// The same with this word.
    pub fn set_window(&mut self, above: u64, word: u64) {
        let highest = self.width().sequence(&self.record) + above;
        links::set_window(&mut self.link, Window { highest, word });
    }

    /// Flips a bit of the ciphertext.
    pub fn damage_ciphertext(&mut self) {
        let at = self.width().head();
        self.record[at] ^= 0x80;
    }
}

/// The number of the link of `good`.
const NUMBER: u32 = 0x0102_0304;

/// The number of the record of `good`.
fn sequence(width: Width) -> u64 {
    width.start() + 0x128
}

/// The window of its link.
fn window(width: Width) -> Window {
    Window { highest: width.start() + 0x28, word: 0xf1 }
}

/// The window after its record: the highest number rises by more than the window covers.
fn after(width: Width) -> Window {
    Window { highest: sequence(width), word: 1 }
}

/// An acceptable call with room for `more` bytes past the message.
fn good(tally: &Tally, width: Width, length: usize, more: usize) -> Open {
    let mut random = tally.random_for(length);
    let keys = random.bytes(RECEIVER_KEYS);
    let message = random.bytes(length);
    Open {
        link: links::receiving(NUMBER, width, window(width), &keys),
        record: links::plain_record(&keys, NUMBER, width, sequence(width), &message),
        message: random.bytes(length + more),
    }
}

/// Every length of message, with just enough room and with more: the message that was sealed.
pub fn messages(tally: &mut Tally) {
    for width in WIDTHS {
        for length in 0..=LONGEST {
            for more in [0, 1 + length % 40] {
                let done = hold_answer(tally, &good(tally, width, length, more), 0, 17 * length);
                let mut random = tally.random_for(length);
                let keys = random.bytes(RECEIVER_KEYS);
                let message = random.bytes(length);
                tally.same(format_args!("message of {length}"), &done.left.message[..length], &message);
                tally.same(
                    format_args!("{width:?} link, {length}"),
                    &done.left.link,
                    &links::receiving(NUMBER, width, after(width), &keys),
                );
                // The same record once more is a replay.
                let again = Open { message: vec![0; length], ..done.left };
                hold_answer(tally, &again, REPEATED, length);
            }
        }
    }
}

/// Every length of the output around the message's.
pub fn outputs(tally: &mut Tally) {
    for width in WIDTHS {
        for length in EDGES {
            for room in (0..length + 3).chain([length + 16, length + 300, length + 65_536]) {
                let mut call = good(tally, width, length, 0);
                call.message = tally.random_for(room).bytes(room);
                hold_answer(tally, &call, if room < length { SHORT_OUTPUT } else { 0 }, room);
            }
        }
    }
}

/// The answer to a record whose sequence number became this one.
fn answer_to_number(width: Width, sequence: u64) -> u32 {
    let highest = window(width).highest;
    match sequence {
        _ if sequence == highest => REPEATED,
        _ if sequence < highest - highest.min(63) => BELOW_WINDOW,
        _ => WRONG_TAG,
    }
}

/// Every byte of records changed, in each of its bits.
pub fn damaged(tally: &mut Tally) {
    for width in WIDTHS {
        let head = width.head();
        for length in [0, 1, 15, 16, 17, 40] {
            let good = good(tally, width, length, 2);
            for i in 0..good.record.len() {
                for bit in 0..8 {
                    let mut call = good.clone();
                    call.record[i] ^= 1 << bit;
                    let answer = match i {
                        0..=3 => OTHER_LINK,
                        _ if i < head => {
                            let of_number = 8 * (head - 1 - i) + bit;
                            answer_to_number(width, sequence(width) ^ 1 << of_number)
                        }
                        _ => WRONG_TAG,
                    };
                    hold_answer(tally, &call, answer, 8 * i + bit);
                }
            }
        }
        // In long records one bit of each byte.
        for length in [255, 256] {
            let good = good(tally, width, length, 0);
            for i in head..good.record.len() {
                let mut call = good.clone();
                call.record[i] ^= 1 << (i % 8);
                hold_answer(tally, &call, WRONG_TAG, i);
            }
        }
        // Two bytes exchanged, and two ciphertext blocks.
        let good = good(tally, width, 64, 0);
        for i in head..good.record.len() - 1 {
            let mut call = good.clone();
            call.record.swap(i, i + 1);
            if call.record != good.record {
                hold_answer(tally, &call, WRONG_TAG, i);
            }
        }
        let mut call = good.clone();
        call.record[head..head + 32].rotate_left(16);
        hold_answer(tally, &call, WRONG_TAG, 3);
    }
}

/// The lengths of a record.
fn lengths_of(width: Width) -> RangeInclusive<usize> {
    match width {
        Width::Narrow => 24..=280,
        Width::Wide => 28..=284,
    }
}

/// Records cut short at either end, or with bytes added at either end: every length to 300.
pub fn cut_and_extended(tally: &mut Tally) {
    for width in WIDTHS {
        for length in [0, 1, 16, 100, 256] {
            let good = good(tally, width, length, 300);
            for size in (0..=300).chain([512, 65_536 + 24, 65_536 + 280]) {
                hold_resized(tally, &good, size);
            }
        }
    }
}

/// A record made to have another length.
fn hold_resized(tally: &mut Tally, good: &Open, size: usize) {
    let is_record = lengths_of(good.width()).contains(&size);
    let whole = good.record.len();
    let answer = match size {
        _ if !is_record => BAD_RECORD,
        _ if size == whole => 0,
        _ => WRONG_TAG,
    };
    for filling in [0x00, 0x80, 0xa7] {
        let mut call = good.clone();
        call.record.resize(size, filling);
        hold_answer(tally, &call, answer, size);
    }
    // The same at the front: the link number is another one, but for a chance of the bytes.
    let mut call = good.clone();
    call.record.reverse();
    call.record.resize(size, 0xa7);
    call.record.reverse();
    let answer = match size {
        _ if !is_record => BAD_RECORD,
        _ if size == whole => 0,
        _ if call.record[..4] != NUMBER.to_be_bytes() => OTHER_LINK,
        _ => WRONG_TAG,
    };
    hold_answer(tally, &call, answer, size);
}

/// Lengths of record around the least and the most of each width: zeros, and messages that are sealed
/// in the same way, also those that are too long.
pub fn lengths(tally: &mut Tally) {
    let mut random = tally.random();
    for width in WIDTHS {
        let keys = random.bytes(RECEIVER_KEYS);
        for size in (20..=32).chain(276..=290) {
            let is_record = lengths_of(width).contains(&size);
            let link = links::receiving(0, width, Window::default(), &keys);
            let zeros = Open { link, record: vec![0; size], message: random.bytes(290) };
            hold_answer(tally, &zeros, if is_record { BELOW_WINDOW } else { BAD_RECORD }, size);
            let Some(length) = size.checked_sub(width.added()) else { continue };
            let message = random.bytes(length);
            let record = links::plain_record(&keys, 0, width, width.some_sequence(&mut random), &message);
            let known = if is_record { 0 } else { BAD_RECORD };
            let left = hold_answer(tally, &Open { record, ..zeros }, known, size).left;
            if is_record {
                tally.same(format_args!("message of {size}"), &left.message[..length], &message);
            }
        }
    }
}

/// Records of another link number, and of other keys.
pub fn other_links(tally: &mut Tally) {
    let keys = tally.random().bytes(RECEIVER_KEYS);
    for width in WIDTHS {
        for own in [0, 1, 0x0102_0304, u32::MAX] {
            for theirs in
                [0, 1, 2, 0x0102_0305, 0x0202_0304, 0x0102_0304, 0x0403_0201, u32::MAX - 1, u32::MAX]
            {
                let call = Open {
                    link: links::receiving(own, width, Window::default(), &keys),
                    record: links::plain_record(&keys, theirs, width, 1, b"a time mark"),
                    message: vec![0; 11],
                };
                hold_answer(tally, &call, if own == theirs { 0 } else { OTHER_LINK }, 0);
            }
        }
        // One bit of KM changed gives another tag; one bit of KE another message under a right tag.
        let good = good(tally, width, 33, 0);
        let message = hold_answer(tally, &good, 0, 0).left.message;
        for bit in 0..256 {
            let mut call = good.clone();
            call.link[KEYS_AT + bit / 8] ^= 1 << (bit % 8);
            let done = hold_answer(tally, &call, if bit < 128 { 0 } else { WRONG_TAG }, bit);
            if bit < 128 {
                let differs = done.left.message != message;
                tally.same_flag(format_args!("another message, bit {bit}"), differs, true);
            }
        }
    }
}

/// A record of one width, offered to a link of the other that has the same number and keys: it is
/// refused by its length; by its number, where a wide one's upper half is 0; or else by its tag.
pub fn other_width(tally: &mut Tally) {
    let keys = tally.random().bytes(RECEIVER_KEYS);
    for (theirs, own) in [(Width::Narrow, Width::Wide), (Width::Wide, Width::Narrow)] {
        let sequences = SEQUENCES.into_iter().filter(|sequence| (1..=theirs.last()).contains(sequence));
        for sequence in sequences {
            for length in EDGES.into_iter().chain([3, 4, 5, 251, 252, 253, 254]) {
                let message = tally.random_for(length).bytes(length);
                let record = links::plain_record(&keys, NUMBER, theirs, sequence, &message);
                let link = links::receiving(NUMBER, own, Window::default(), &keys);
                let call = Open { link, record, message: vec![0xee; 256] };
                let known = match own {
                    Width::Wide if length < 4 => BAD_RECORD,
                    Width::Narrow if length > 252 => BAD_RECORD,
                    Width::Narrow if sequence < 1 << 32 => BELOW_WINDOW,
                    _ => WRONG_TAG,
                };
                let left = hold_answer(tally, &call, known, length).left;
                let what = format!("{theirs:?} record {sequence} of {length} bytes, other width");
                tally.same(format_args!("link after {what}"), &left.link, &call.link);
                tally.same(format_args!("message after {what}"), &left.message, &call.message);
                // Its own width opens it.
                let link = links::receiving(NUMBER, theirs, Window::default(), &keys);
                hold_answer(tally, &Open { link, ..call }, 0, length);
            }
        }
    }
}

/// Links that count as keyed, and others.
pub fn not_keyed(tally: &mut Tally) {
    for width in WIDTHS {
        let good = good(tally, width, 20, 0);
        hold_links(tally, &RECEIVING, &good, |call| &mut call.link);
    }
}

/// Links with any highest number and any last byte: one that is no width makes the link unkeyed, and so
/// does a highest number above 4294967295 on a narrow one. They are offered a good record with the
/// highest number, with one above it, and with one below it that was accepted.
pub fn highest_numbers(tally: &mut Tally) {
    let keys = tally.random().bytes(RECEIVER_KEYS);
    for byte in WIDTH_BYTES {
        let width = if byte == 0 { Width::Narrow } else { Width::Wide };
        for highest in SEQUENCES {
            let is_keyed = byte == 1 || byte == 0 && highest <= 0xffff_ffff;
            let above = highest.checked_add(1).filter(|sequence| *sequence <= width.last());
            let below = highest.checked_sub(1);
            for (sequence, known) in [(Some(highest), REPEATED), (above, 0), (below, REPEATED)] {
                let Some(sequence) = sequence.map(|sequence| sequence.min(width.last())) else { continue };
                let known = if sequence == 0 { BELOW_WINDOW } else { known };
                let mut link = links::receiving(NUMBER, width, Window { highest, word: 3 }, &keys);
                links::set_width_byte(&mut link, byte);
                let record = links::plain_record(&keys, NUMBER, width, sequence, b"a time mark");
                let call = Open { link, record, message: vec![0; 11] };
                hold_answer(tally, &call, if is_keyed { known } else { NOT_KEYED }, byte as usize);
            }
        }
    }
}

/// The refusals, alone and together.
pub fn refusals(tally: &mut Tally) {
    for (width, length) in [
        (Width::Narrow, 1),
        (Width::Wide, 16),
        (Width::Narrow, 250),
        (Width::Narrow, 256),
        (Width::Wide, 256),
    ] {
        hold_order(
            tally,
            &good(tally, width, length, 5),
            &[
                (
                    NOT_KEYED,
                    &[
                        |call| call.link[0] = 0,
                        |call| call.link[0] = 0xff,
                        |call| call.link.clear(),
                        |call| call.link.truncate(49),
                        |call| call.link.truncate(53),
                        |call| call.link.push(0),
                        |call| call.link.resize(110, 0),
                        |call| links::set_width_byte(&mut call.link, 2),
                        |call| {
                            links::set_width_byte(&mut call.link, 0);
                            links::set_last(&mut call.link, 1 << 32);
                        },
                    ],
                ),
                (
                    BAD_RECORD,
                    &[
                        |call| call.record.clear(),
                        |call| call.record.truncate(3),
                        |call| call.record.truncate(call.width().added() - 1),
                        |call| call.record.resize(call.width().added() + 257, 5),
                        |call| call.record.resize(600, 5),
                    ],
                ),
                (OTHER_LINK, &[|call| call.record[3] ^= 1, |call| call.link[1] ^= 0x80]),
                (SHORT_OUTPUT, &[|call| call.message.clear(), |call| shorten_below_record(call)]),
                (BELOW_WINDOW, &[|call| call.set_highest(64), |call| links::set_at_end(&mut call.link)]),
                (REPEATED, &[|call| call.set_window(0, 1), |call| call.set_window(9, !0)]),
                (
                    WRONG_TAG,
                    &[
                        |call| *call.record.last_mut().unwrap() ^= 1,
                        |call| call.damage_ciphertext(),
                        |call| call.link[44] ^= 1,
                    ],
                ),
            ],
        );
    }
}

fn shorten_below_record(call: &mut Open) {
    call.message.truncate(call.record.len() - call.width().added() - 1);
}
