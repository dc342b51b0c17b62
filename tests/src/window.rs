//! The window of a receiving link: the numbers that `rasppuce_open` admits, and what it keeps of them.

use crate::keying::{keyed, RECEIVING, SENDING};
use crate::lent::{hold_answer, hold_order};
use crate::links::{
    self, Width, Window, BAD_RECORD, BELOW_WINDOW, COVERED, NOT_KEYED, OTHER_LINK, RECEIVER_KEYS, REPEATED,
    SENDER_KEYS, SHARES, SHORT_OUTPUT, WIDTHS, WRONG_TAG,
};
use crate::opening::Open;
use crate::plain::SealPlain;
use crate::random::Random;
use crate::sealing::Seal;
use crate::shares;
use crate::tally::Tally;
use std::collections::BTreeSet;

/// The number of all links here, and a message.
const NUMBER: u32 = 0x0a0b_0c0d;
const MESSAGE: &[u8] = b"a time mark";

// ---- single openings, by shifts of the word

/// Bits moved up by so many places, of which those past the highest are lost.
fn moved(bits: u64, by: u64) -> u64 {
    u32::try_from(by).ok().and_then(|by| bits.checked_shl(by)).unwrap_or(0)
}

/// The window after a number, or its refusal.
fn by_shifts(window: Window, sequence: u64) -> Result<Window, u32> {
    let Window { highest, word } = window;
    if sequence > highest {
        return Ok(Window { highest: sequence, word: moved(word, sequence - highest) | 1 });
    }
    // No bit is left below the window.
    let bit = moved(1, highest - sequence);
    match word & bit {
        _ if sequence == 0 || bit == 0 => Err(BELOW_WINDOW),
        0 => Ok(Window { word: word | bit, ..window }),
        _ => Err(REPEATED),
    }
}

/// Offers a good record of this number to links that differ in their words.
fn hold_over_words(tally: &mut Tally, width: Width, keys: &[u8], highest: u64, words: &[u64], sequence: u64) {
    let record = links::plain_record(keys, NUMBER, width, sequence, MESSAGE);
    for (i, word) in words.iter().enumerate() {
        let window = Window { highest, word: *word };
        let known = by_shifts(window, sequence);
        let link = links::receiving(NUMBER, width, window, keys);
        let call = Open { link, record: record.clone(), message: vec![0; MESSAGE.len()] };
        let left = hold_answer(tally, &call, known.err().unwrap_or(0), i).left;
        let after = links::receiving(NUMBER, width, known.unwrap_or(window), keys);
        tally.same(format_args!("{width:?} link, {window:x?}, after {sequence:x}"), &left.link, &after);
        let message = if known.is_ok() { MESSAGE } else { &call.message };
        tally.same(format_args!("message, {window:x?}, after {sequence:x}"), &left.message, message);
    }
}

/// The first number whose highest bit is 1.
fn half(width: Width) -> u64 {
    width.last() / 2 + 1
}

/// The first number that a narrow link doesn't have.
const EDGE: u64 = 1 << 32;

/// Highest numbers around the window's length, at the ends of the range and, on a wide link, where
/// numbers of 32 bits end.
fn highest_numbers(width: Width) -> Vec<u64> {
    let (half, last) = (half(width), width.last());
    let mut numbers = vec![0, 1, 2, 62, 63, 64, 65, 127, 128, 255, 256, 1000];
    numbers.extend([half - 1, half, half + 63, last - 64, last - 63, last - 1, last]);
    if width == Width::Wide {
        numbers.extend([EDGE - 1, EDGE, EDGE + 1, EDGE + 62, EDGE + 63, EDGE + 64]);
    }
    numbers
}

fn single_bits() -> impl Iterator<Item = u64> {
    (0..COVERED).map(|k| 1 << k)
}

/// Numbers at both ends of the window and of the range, over words of all sorts.
pub fn numbers(tally: &mut Tally) {
    let mut random = tally.random();
    let keys = random.bytes(RECEIVER_KEYS);
    for width in WIDTHS {
        for highest in highest_numbers(width) {
            let mut words = vec![0, u64::MAX, random.number(), random.number()];
            words.extend(single_bits());
            words.extend(single_bits().map(|bit| !bit));
            let late = [0, 1, 62, 63, 64].into_iter().filter_map(|k| highest.checked_sub(k));
            let next = (highest < width.last()).then(|| highest + 1);
            let sequences: BTreeSet<u64> = late.chain(next).chain([0, 1, width.last()]).collect();
            for sequence in sequences {
                hold_over_words(tally, width, &keys, highest, &words, sequence);
            }
            // Further down, also where the lowest bits of the distance are those of a short one.
            let by =
                [2, 65, 66, 127, 128, 129, 256, 1 << 16, EDGE - 1, EDGE, EDGE + 1, EDGE + 63, half(width)];
            for sequence in by.into_iter().filter_map(|k| highest.checked_sub(k)) {
                hold_over_words(tally, width, &keys, highest, &words[..3], sequence);
            }
        }
    }
}

/// Every number of the window: its own bit decides, whatever the others are.
pub fn every_bit(tally: &mut Tally) {
    let mut random = tally.random();
    let keys = random.bytes(RECEIVER_KEYS);
    for width in WIDTHS {
        for highest in highest_numbers(width) {
            for k in 0..COVERED.min(highest) {
                let bit = 1 << k;
                let others = random.number();
                let words = [0, u64::MAX, bit, !bit, others | bit, others & !bit];
                hold_over_words(tally, width, &keys, highest, &words, highest - k);
            }
        }
    }
}

/// Number 0 under a good tag: it is refused as below the window, also where a bit stands for it.
pub fn number_zero(tally: &mut Tally) {
    let mut random = tally.random();
    let keys = random.bytes(RECEIVER_KEYS);
    for width in WIDTHS {
        for highest in (0..=2 * COVERED).chain([width.start(), width.last()]) {
            let own = moved(1, highest);
            let words = [0, u64::MAX, own, !own, random.number()];
            hold_over_words(tally, width, &keys, highest, &words, 0);
        }
    }
}

/// Numbers above the highest one move the bits up, and by 64 or more all of them out of the word.
pub fn shifts(tally: &mut Tally) {
    let mut random = tally.random();
    let keys = random.bytes(RECEIVER_KEYS);
    for width in WIDTHS {
        let (half, last) = (half(width), width.last());
        for highest in [0, 1, 77, half - 1, last - 100, EDGE - 10] {
            let near = [1, 2, 31, 32, 33, 62, 63, 64, 65, 66, 96, 100, 127, 128, 129, 192, 256, 1000];
            let far = [1 << 16, EDGE / 2, EDGE, EDGE + 1, EDGE + 63, EDGE + 64, half];
            let by = near.into_iter().chain(far);
            let sequences = by.filter_map(|by| highest.checked_add(by)).filter(|sequence| *sequence <= last);
            for sequence in sequences.chain([last]) {
                let mut words = vec![0, u64::MAX];
                words.extend((0..6).map(|_| random.number()));
                words.extend(single_bits());
                hold_over_words(tally, width, &keys, highest, &words, sequence);
            }
        }
    }
}

// ---- refusals

/// The number of the record of `good`.
fn sequence(width: Width) -> u64 {
    width.start() + 1000
}

/// A late record that its link admits, all other numbers of the window accepted.
fn good(tally: &Tally, width: Width) -> Open {
    let keys = tally.random().bytes(RECEIVER_KEYS);
    let window = Window { highest: sequence(width) + 5, word: !(1 << 5) };
    Open {
        link: links::receiving(NUMBER, width, window, &keys),
        record: links::plain_record(&keys, NUMBER, width, sequence(width), MESSAGE),
        message: vec![0xee; MESSAGE.len() + 2],
    }
}

/// Makes the record's number 0.
fn set_zero(call: &mut Open) {
    let head = call.width().head();
    call.record[4..head].fill(0);
}

/// The refusals, alone and together. A number below the window is never a repeated one, whatever
/// the word is.
pub fn refusals(tally: &mut Tally) {
    for width in WIDTHS {
        hold_order(
            tally,
            &good(tally, width),
            &[
                (
                    NOT_KEYED,
                    &[
                        |call| call.link[0] = 0,
                        |call| call.link.truncate(49),
                        |call| links::set_width_byte(&mut call.link, 2),
                    ],
                ),
                (
                    BAD_RECORD,
                    &[
                        |call| call.record.truncate(call.width().added() - 1),
                        |call| call.record.resize(call.width().added() + 257, 5),
                    ],
                ),
                (OTHER_LINK, &[|call| call.record[0] ^= 1]),
                (SHORT_OUTPUT, &[|call| call.message.truncate(MESSAGE.len() - 1)]),
                (
                    BELOW_WINDOW,
                    &[
                        |call| call.set_highest(64),
                        |call| links::set_at_end(&mut call.link),
                        |call| call.set_window(64, u64::MAX),
                        |call| call.set_window(128, 0),
                        |call| set_zero(call),
                        |call| {
                            set_zero(call);
                            call.set_window(0, u64::MAX);
                        },
                        |call| {
                            set_zero(call);
                            call.set_window(63, u64::MAX);
                        },
                    ],
                ),
                (
                    REPEATED,
                    &[
                        |call| call.set_window(0, 1),
                        |call| call.set_window(63, 1 << 63),
                        |call| call.set_window(32, u64::MAX),
                        |call| call.set_highest(4),
                    ],
                ),
                (
                    WRONG_TAG,
                    &[
                        |call| *call.record.last_mut().unwrap() ^= 1,
                        |call| call.damage_ciphertext(),
                        |call| call.link[44] ^= 1,
                    ],
                ),
            ],
        );
    }
}

// ---- runs over a kept link

/// A receiver that keeps every number that it accepted, and nothing else.
#[derive(Default)]
struct Accepted(BTreeSet<u64>);

impl Accepted {
    fn highest(&self) -> u64 {
        self.0.last().copied().unwrap_or(0)
    }

    fn answer(&self, sequence: u64) -> u32 {
        if sequence == 0 || u128::from(sequence) + 64 <= u128::from(self.highest()) {
            BELOW_WINDOW
        } else if self.0.contains(&sequence) {
            REPEATED
        } else {
            0
        }
    }

    /// Whether the number k below the highest one was accepted.
    fn has(&self, k: u64) -> bool {
        self.highest().checked_sub(k).is_some_and(|sequence| self.0.contains(&sequence))
    }

    /// Holds a link to these numbers: the highest one, and each bit.
    fn hold(&self, tally: &mut Tally, what: &str, link: &[u8]) {
        let Window { highest, word } = Window::of(link);
        let expected = self.highest().to_be_bytes();
        tally.same(format_args!("highest number after {what}"), &highest.to_be_bytes(), &expected);
        let bits: Vec<u8> = (0..64).map(|k| (word >> k) as u8 & 1).collect();
        let expected: Vec<u8> = (0..64).map(|k| self.has(k) as u8).collect();
        tally.same(format_args!("bits 0 to 63 after {what}"), &bits, &expected);
    }
}

/// A number to offer: mostly near the highest one, in the window and around its ends.
fn near(random: &mut Random, width: Width, highest: u64) -> u64 {
    let mut up_to = |most: u64| i128::from(random.number()) % (i128::from(most) + 1);
    let from = i128::from(highest);
    let sequence = match up_to(63) {
        0..=11 => from + 1 + up_to(2),
        12..=43 => from - up_to(63),
        44..=51 => from - 60 - up_to(7),
        52 | 53 => from - up_to(300),
        54 | 55 => from + up_to(30),
        56 => from + 60 + up_to(7),
        57 => from + up_to(2000),
        58 => up_to(2),
        59 => up_to(highest),
        _ => from,
    };
    sequence.clamp(0, width.last().into()) as u64
}

/// Now and then brings about a refusal that isn't for the number; returns the answer then.
fn disturb(random: &mut Random, call: &mut Open, mut answer: u32) -> u32 {
    let width = call.width();
    let mut chance = |one_in: usize| random.below(one_in) == 0;
    let (tag, ciphertext) = (chance(10), chance(20));
    let (output, other, cut, not_keyed, no_width) =
        (chance(16), chance(32), chance(32), chance(64), chance(64));
    if tag || ciphertext {
        let end = call.record.len();
        let from = if tag { end - 16..end } else { width.head()..end - 16 };
        call.record[from.start + random.below(from.len())] ^= 1 << random.below(8);
        answer = if answer == 0 { WRONG_TAG } else { answer };
    }
    if output {
        call.message.truncate(random.below(call.record.len() - width.added()));
        answer = SHORT_OUTPUT;
    }
    if other {
        call.record[random.below(4)] ^= 1 << random.below(8);
        answer = OTHER_LINK;
    }
    if cut {
        call.record.truncate(random.below(width.added()));
        answer = BAD_RECORD;
    }
    if not_keyed {
        call.link[0] = 2;
        answer = NOT_KEYED;
    }
    if no_width {
        links::set_width_byte(&mut call.link, 2);
        answer = NOT_KEYED;
    }
    answer
}

/// Openings in a run.
const OPENINGS: usize = 8_000;

/// A run over one link, from this number on.
fn run(tally: &mut Tally, random: &mut Random, width: Width, first: u64) {
    let keys = random.bytes(RECEIVER_KEYS);
    let mut link = keyed(tally, &RECEIVING, NUMBER, width, &keys);
    let mut accepted = Accepted::default();
    let mut met = BTreeSet::new();
    for step in 0..OPENINGS {
        let sequence = if step == 0 { first } else { near(random, width, accepted.highest()) };
        let length = 1 + random.below(20);
        let message = random.bytes(length);
        let record = links::plain_record(&keys, NUMBER, width, sequence, &message);
        let mut call = Open { link, record, message: vec![0; length + random.below(3)] };
        let known = accepted.answer(sequence);
        let known = if step == 0 { known } else { disturb(random, &mut call, known) };
        let left = hold_answer(tally, &call, known, step).left;
        if known == 0 {
            accepted.0.insert(sequence);
            tally.same(format_args!("message of {sequence}"), &left.message[..length], &message);
        }
        accepted.hold(tally, &format!("{sequence}, first {first}, {width:?}"), &left.link);
        met.insert(known);
        link = left.link;
        link[0] = 1;
        links::set_width_byte(&mut link, width as u8);
    }
    for answer in [0, NOT_KEYED, BAD_RECORD, OTHER_LINK, SHORT_OUTPUT, BELOW_WINDOW, REPEATED, WRONG_TAG] {
        tally.same_flag(format_args!("answer {answer} was met"), met.contains(&answer), true);
    }
}

/// Long runs over one link each, held to the set of all numbers that were accepted: from 1 on, across
/// the highest bit, up to the last number and, on a wide link, across the end of 32 bits.
pub fn kept_link(tally: &mut Tally) {
    let mut random = tally.random();
    for width in WIDTHS {
        for first in [1, half(width) - 40_000, width.last() - 60_000] {
            run(tally, &mut random, width, first);
        }
    }
    run(tally, &mut random, Width::Wide, EDGE - 40_000);
}

/// Numbers in turn on one link, each with its answer: out of turn, again, and 63 and 64 below the
/// highest, on both sides of an edge and up to the last number there is. The edge is the end of 32
/// bits or, on a narrow link, of 31.
pub fn edges(tally: &mut Tally) {
    for (width, edge) in [(Width::Narrow, EDGE / 2), (Width::Wide, EDGE / 2), (Width::Wide, EDGE)] {
        let last = width.last();
        let steps = [
            (edge - 3, 0),
            (edge - 1, 0),
            (edge - 3, REPEATED),
            (edge + 1, 0),
            (edge - 1, REPEATED),
            (edge, 0),
            (edge - 2, 0),
            (edge, REPEATED),
            (edge + 1, REPEATED),
            (1, BELOW_WINDOW),
            (edge + 60, 0),
            (edge - 3, REPEATED),
            (edge - 4, BELOW_WINDOW),
            (edge + 62, 0),
            (edge - 2, BELOW_WINDOW),
            (edge - 1, REPEATED),
            (edge + 63, 0),
            (edge, REPEATED),
            (edge - 1, BELOW_WINDOW),
            (edge + 2, 0),
            (edge + 2, REPEATED),
            (edge + edge / 2, 0),
            (edge + 63, BELOW_WINDOW),
            (last - 64, 0),
            (last - 127, 0),
            (last - 128, BELOW_WINDOW),
            (last - 1, 0),
            (last - 64, REPEATED),
            (last, 0),
            (last - 64, BELOW_WINDOW),
            (last - 63, 0),
            (last - 63, REPEATED),
            (last - 1, REPEATED),
            (last, REPEATED),
            (0, BELOW_WINDOW),
            (1, BELOW_WINDOW),
            (edge, BELOW_WINDOW),
        ];
        let keys = tally.random().bytes(RECEIVER_KEYS);
        let mut link = keyed(tally, &RECEIVING, NUMBER, width, &keys);
        let mut accepted = Accepted::default();
        for (i, (sequence, known)) in steps.into_iter().enumerate() {
            let record = links::plain_record(&keys, NUMBER, width, sequence, MESSAGE);
            let call = Open { link, record, message: vec![0; MESSAGE.len()] };
            link = hold_answer(tally, &call, known, i).left.link;
            if known == 0 {
                accepted.0.insert(sequence);
            }
            accepted.hold(tally, &format!("{sequence}, {width:?}, across {edge}"), &link);
        }
    }
}

// ---- two cables

/// Messages that are sent over both cables.
const SENT: usize = 200;

/// The number of the message at a place, counted from 1: on a wide link they go across the end of 32
/// bits.
fn number_of(width: Width, place: usize) -> u64 {
    width.start().saturating_sub(100) + place as u64
}

/// Seals messages by shares and plainly under the same numbers: the records of each cable.
fn sealed(
    tally: &mut Tally,
    random: &mut Random,
    width: Width,
    keys: &[u8],
    messages: &[Vec<u8>],
) -> [Vec<Vec<u8>>; 2] {
    let mut link = keyed(tally, &SENDING, NUMBER, width, keys);
    links::set_last(&mut link, number_of(width, 0));
    let mut cables = [Vec::new(), Vec::new()];
    for (i, message) in messages.iter().enumerate() {
        let record = vec![0; message.len() + width.added()];
        let tape = random.bytes(shares::tape_need(message.len()));
        let shares = vec![0; SHARES];
        let call = Seal { link, message: message.clone(), tape, record: record.clone(), shares };
        let left = hold_answer(tally, &call, 0, i).left;
        link = left.link;
        cables[0].push(left.record);

        let (wide, sequence) = (width as u32, number_of(width, i + 1));
        let (keys, message) = (links::joined_keys(keys), message.clone());
        let call = SealPlain { keys, number: NUMBER, wide, sequence, message, record };
        cables[1].push(hold_answer(tally, &call, 0, i).left.record);
    }
    cables
}

/// Cable and place of each record in the order of arrival. Each is late by this many numbers at
/// most, and each cable loses some.
fn arrivals(random: &mut Random, late: usize) -> Vec<(usize, usize)> {
    let mut sent: Vec<(usize, usize)> = (1..=SENT).flat_map(|i| [(0, i), (1, i)]).collect();
    sent.retain(|_| random.below(8) > 0);
    random.shuffle(&mut sent);
    sent.sort_by_cached_key(|(_, place)| place + random.below(late + 1));
    sent
}

/// Records over two cables, late by some tens of numbers: what comes first is opened, the second one
/// is refused, and no number is lost unless it was late by 64 or more.
pub fn two_cables(tally: &mut Tally) {
    let mut random = tally.random();
    for width in WIDTHS {
        let keys = random.bytes(SENDER_KEYS);
        let messages: Vec<Vec<u8>> = (0..SENT).map(|i| random.bytes(i % 40)).collect();
        let cables = sealed(tally, &mut random, width, &keys, &messages);
        for late in [0, 1, 10, 32, 50, 63, 100, 150] {
            let mut link = keyed(tally, &RECEIVING, NUMBER, width, &links::joined_keys(&keys));
            let mut accepted = Accepted::default();
            let mut came = BTreeSet::new();
            for (cable, i) in arrivals(&mut random, late) {
                let (sequence, message) = (number_of(width, i), &messages[i - 1]);
                let record = cables[cable][i - 1].clone();
                let call = Open { link, record, message: vec![0; message.len()] };
                let known = accepted.answer(sequence);
                let done = hold_answer(tally, &call, known, i);
                let what = format!("{sequence}, late by {late}");
                if came.insert(sequence) && late < 64 {
                    tally.same_number(format_args!("first of {what}"), done.answer, 0);
                }
                if known == 0 {
                    accepted.0.insert(sequence);
                    tally.same(format_args!("message {what}"), &done.left.message, message);
                }
                accepted.hold(tally, &what, &done.left.link);
                link = done.left.link;
            }
            let lost = came.len() != accepted.0.len();
            tally.same_flag(format_args!("numbers lost, late by {late}"), lost, late >= 64);
        }
    }
}
