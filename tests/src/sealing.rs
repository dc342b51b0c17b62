//! Shared sealing: `rasppuce_seal`.

use crate::keying::{hold_links, SENDING};
use crate::lent::{hold_answer, hold_order, Call, Lent};
use crate::links::{
    self, Width, EDGES, LONGEST, LONG_MESSAGE, NOT_KEYED, NUMBERS_USED, RECEIVER, SENDER_KEYS, SEQUENCES,
    SHARES, SHORT_OUTPUT, SHORT_TAPE, WIDTHS, WIDTH_BYTES,
};
use crate::modes;
use crate::plain::SealPlain;
use crate::shares;
use crate::tally::Tally;

extern "C" {
    fn rasppuce_seal(
        link: *mut u8,
        link_len: usize,
        message: *const u8,
        message_len: usize,
        tape: *const u8,
        tape_len: usize,
        record: *mut u8,
        record_len: usize,
        shares: *mut u8,
        shares_len: usize,
    ) -> u32;
}

#[derive(Clone)]
pub struct Seal {
    pub link: Vec<u8>,
    pub message: Vec<u8>,
    pub tape: Vec<u8>,
    pub record: Vec<u8>,
    pub shares: Vec<u8>,
}

impl Call for Seal {
    fn name(&self) -> &'static str {
        "rasppuce_seal"
    }

    fn slices(&mut self) -> Vec<(&'static str, &mut Vec<u8>)> {
        vec![
            ("link", &mut self.link),
            ("message", &mut self.message),
            ("tape", &mut self.tape),
            ("record", &mut self.record),
            ("shares", &mut self.shares),
        ]
    }

    unsafe fn make(&self, lent: &[Lent]) -> u32 {
        let [link, message, tape, record, shares] = lent else { panic!("five slices") };
        rasppuce_seal(
            link.pointer,
            link.length,
            message.pointer,
            message.length,
            tape.pointer,
            tape.length,
            record.pointer,
            record.length,
            shares.pointer,
            shares.length,
        )
    }

    fn own(&mut self) -> u32 {
        links::seal(&mut self.link, &self.message, &self.tape, &mut self.record, &mut self.shares)
    }
}

impl Seal {
    /// The width of the link, which has to have one.
    fn width(&self) -> Width {
        Width::of(&self.link).expect("a width")
    }
}

/// The number of the link of `good`.
const NUMBER: u32 = 0x8070_6050;

/// Its last number.
fn last(width: Width) -> u64 {
    width.start() + 0x01ff
}

/// An acceptable call with no byte to spare.
fn good(tally: &Tally, width: Width, length: usize) -> Seal {
    let mut random = tally.random_for(2 * length + width as usize);
    Seal {
        link: links::sending(NUMBER, width, last(width), &random.bytes(SENDER_KEYS)),
        message: random.bytes(length),
        tape: random.bytes(shares::tape_need(length)),
        record: random.bytes(length + width.added()),
        shares: random.bytes(SHARES),
    }
}

/// Every length of message. Besides, the record is that of a plain sealing with the joined keys,
/// the tag shares join to its tag, and the tape count is the tape's need.
pub fn messages(tally: &mut Tally) {
    for width in WIDTHS {
        let sequence = last(width) + 1;
        for length in 0..=LONGEST {
            let call = good(tally, width, length);
            let left = hold_answer(tally, &call, 0, 17 * length).left;
            let keys = links::receiver_keys(&call.link);
            let plain = links::plain_record(&keys, NUMBER, width, sequence, &call.message);
            let what = format!("{width:?}, {length} bytes");
            tally.same(format_args!("plain and shared record, {what}"), &left.record, &plain);
            let tag = modes::xor(&modes::xor(&left.shares[..16], &left.shares[16..32]), &left.shares[32..48]);
            tally.same(format_args!("joined tag, {what}"), &tag, &plain[plain.len() - 16..]);
            let count = (shares::tape_need(length) as u32).to_be_bytes();
            tally.same(format_args!("tape count, {what}"), &left.shares[48..], &count);
            let mut link = call.link.clone();
            links::set_last(&mut link, sequence);
            tally.same(format_args!("link, {what}"), &left.link, &link);
        }
        for length in [257, 258, 272, 273, 300, 511, 512, 513, 1000, 65_536, 65_552, 65_792] {
            hold_answer(tally, &good(tally, width, length), LONG_MESSAGE, length);
        }
    }
}

/// The C calls for plain and for shared sealing make the same records at one width, under several tapes
/// and at the edges of the numbers; only the tag shares differ from tape to tape.
pub fn as_plain(tally: &mut Tally) {
    for width in WIDTHS {
        for (i, length) in EDGES.into_iter().enumerate() {
            for (j, sequence) in SEQUENCES.into_iter().enumerate() {
                // Every number with a sixth of the lengths.
                if (1..=width.last()).contains(&sequence) && (i + j) % 6 == 0 {
                    hold_as_plain(tally, width, length, sequence);
                }
            }
        }
    }
}

fn hold_as_plain(tally: &mut Tally, width: Width, length: usize, sequence: u64) {
    let mut call = good(tally, width, length);
    links::set_last(&mut call.link, sequence - 1);
    let plain = SealPlain {
        keys: links::receiver_keys(&call.link),
        number: NUMBER,
        wide: width as u32,
        sequence,
        message: call.message.clone(),
        record: vec![0; call.record.len()],
    };
    let record = hold_answer(tally, &plain, 0, length).left.record;
    let mut earlier: Vec<Vec<u8>> = Vec::new();
    let size = call.tape.len();
    let mut random = tally.random_for(sequence as usize);
    for tape in [vec![0; size], random.bytes(size), random.bytes(size), call.tape.clone()] {
        let left = hold_answer(tally, &Seal { tape, ..call.clone() }, 0, length).left;
        let what = format!("{width:?} {sequence}, {length} bytes, tape {}", earlier.len());
        tally.same(format_args!("record as a plain one, {what}"), &left.record, &record);
        let is_new = earlier.iter().all(|shares| shares[..48] != left.shares[..48]);
        tally.same_flag(format_args!("other tag shares, {what}"), is_new, true);
        earlier.push(left.shares);
    }
}

/// Tapes of every length around the need, none, and long ones, of which the rest is not read. One that
/// would do for 35 pairs a call is too short.
pub fn tapes(tally: &mut Tally) {
    for width in WIDTHS {
        for (length, need) in links::NEEDS {
            let good = good(tally, width, length);
            let exact = hold_answer(tally, &good, 0, length).left;
            let less = 64 + 1120 * shares::call_count(length);
            for size in [0, 1, 63, 64, 65, 1216, less, need - 1152, need - 32, need - 16, need - 2, need - 1]
            {
                let mut call = good.clone();
                call.tape.truncate(size);
                hold_answer(tally, &call, SHORT_TAPE, size);
            }
            for more in [1, 2, 15, 16, 32, 1152, 2304, 70_000] {
                let mut call = good.clone();
                call.tape.extend(tally.random_for(more).bytes(more));
                let left = hold_answer(tally, &call, 0, more).left;
                tally.same(format_args!("record, tape {more} over"), &left.record, &exact.record);
                tally.same(format_args!("shares, tape {more} over"), &left.shares, &exact.shares);
            }
        }
        // Another tape gives the same record, but other tag shares.
        for length in EDGES {
            let call = good(tally, width, length);
            let other = Seal { tape: tally.random_for(7).bytes(call.tape.len()), ..call.clone() };
            let left = hold_answer(tally, &call, 0, length).left;
            let other_left = hold_answer(tally, &other, 0, length).left;
            tally.same(format_args!("record under another tape"), &other_left.record, &left.record);
            let differ = other_left.shares[..48] != left.shares[..48];
            tally.same_flag(format_args!("other tag shares under another tape"), differ, true);
        }
    }
}

/// The last pair of the tape goes into the tag shares as it is: a bit of u changes that bit of shares 0
/// and 2, a bit of v that of shares 1 and 2, and nothing else changes.
pub fn last_pair(tally: &mut Tally) {
    for width in WIDTHS {
        for length in EDGES {
            let call = good(tally, width, length);
            let left = hold_answer(tally, &call, 0, length).left;
            for bit in (0..256).step_by(15) {
                let mut other = call.clone();
                let at = call.tape.len() - 32 + bit / 8;
                other.tape[at] ^= 1 << (bit % 8);
                let mut shares = left.shares.clone();
                for i in [bit / 8, 32 + bit / 8 % 16] {
                    shares[i] ^= 1 << (bit % 8);
                }
                let other_left = hold_answer(tally, &other, 0, length + bit).left;
                let what = format!("{width:?}, {length} bytes, bit {bit} of the last pair");
                tally.same(format_args!("shares, {what}"), &other_left.shares, &shares);
                tally.same(format_args!("record, {what}"), &other_left.record, &left.record);
            }
        }
    }
}

/// Outputs of lengths around those needed; more is left untouched.
pub fn outputs(tally: &mut Tally) {
    for width in WIDTHS {
        for length in EDGES {
            let fits = length + width.added();
            let around = [0, 1, 8, 23, 24, 27, 28, fits.saturating_sub(16), fits - 4, fits - 1];
            for room in around.into_iter().chain([fits, fits + 1, fits + 16, fits + 65_536]) {
                for shares in [0, 1, 16, 48, 51, 52, 53, 60, 256 + 51, 65_536 + 52] {
                    let mut call = good(tally, width, length);
                    call.record = tally.random_for(room).bytes(room);
                    call.shares = tally.random_for(shares).bytes(shares);
                    let answer = if room < fits || shares < SHARES { SHORT_OUTPUT } else { 0 };
                    hold_answer(tally, &call, answer, room + shares);
                }
            }
        }
    }
}

/// What a link with this last byte and this last number is refused for by sealing and by the report; 0
/// for nothing.
pub fn answer_to_link(byte: u8, last: u64) -> u32 {
    match (byte, last) {
        (0, 0..=4_294_967_294) | (1, 0..=18_446_744_073_709_551_614) => 0,
        (0, 4_294_967_295) | (1, _) => NUMBERS_USED,
        _ => NOT_KEYED,
    }
}

/// Last numbers at the ends of their range, with any last byte: the next number is used, where the
/// width has one. A last byte that is no width makes the link unkeyed, and so does a last number above
/// 4294967295 on a narrow one.
pub fn numbers(tally: &mut Tally) {
    for byte in WIDTH_BYTES {
        let width = if byte == 0 { Width::Narrow } else { Width::Wide };
        for last in SEQUENCES {
            let known = answer_to_link(byte, last);
            for number in [0, 1, 0x0102_0304, u32::MAX] {
                let mut call = good(tally, width, 5);
                call.link[1..5].copy_from_slice(&number.to_be_bytes());
                links::set_last(&mut call.link, last);
                links::set_width_byte(&mut call.link, byte);
                let left = hold_answer(tally, &call, known, last as usize).left;
                if known == 0 {
                    hold_numbers(tally, &left, number, last + 1);
                }
            }
        }
    }
    // The last number there is, and then none.
    for width in WIDTHS {
        let mut call = good(tally, width, 5);
        links::set_last(&mut call.link, width.last() - 1);
        let left = hold_answer(tally, &call, 0, 1).left;
        hold_answer(tally, &Seal { link: left.link, ..call }, NUMBERS_USED, 1);
    }
}

/// The record has these numbers, and the link has the sequence number as its last.
fn hold_numbers(tally: &mut Tally, sealed: &Seal, number: u32, sequence: u64) {
    let in_record = match sealed.width() {
        Width::Narrow => (sequence as u32).to_be_bytes().to_vec(),
        Width::Wide => sequence.to_be_bytes().to_vec(),
    };
    let head = [&number.to_be_bytes()[..], &in_record].concat();
    tally.same(format_args!("numbers in record {sequence}"), &sealed.record[..head.len()], &head);
    let in_link = sequence.to_be_bytes();
    tally.same(format_args!("last number of link, {sequence}"), &sealed.link[5..13], &in_link);
}

/// Links that count as keyed, and others.
pub fn not_keyed(tally: &mut Tally) {
    for width in WIDTHS {
        let good = good(tally, width, 20);
        hold_links(tally, &SENDING, &good, |call| &mut call.link);
    }
}

/// Makes a link narrow, with this last number.
fn narrow_with(link: &mut [u8], last: u64) {
    links::set_width_byte(link, 0);
    links::set_last(link, last);
}

/// The refusals, alone and together.
pub fn refusals(tally: &mut Tally) {
    for width in WIDTHS {
        for length in [0, 1, 16, 17, 256] {
            hold_order(
                tally,
                &good(tally, width, length),
                &[
                    (
                        NOT_KEYED,
                        &[
                            |call| call.link[0] = 0,
                            |call| call.link[0] = 2,
                            |call| call.link[0] = 0xff,
                            |call| call.link.clear(),
                            |call| call.link.truncate(105),
                            |call| call.link.truncate(109),
                            |call| call.link.truncate(RECEIVER),
                            |call| call.link.push(0),
                            |call| links::set_width_byte(&mut call.link, 2),
                            |call| links::set_width_byte(&mut call.link, 0xff),
                            |call| narrow_with(&mut call.link, 1 << 32),
                            |call| narrow_with(&mut call.link, u64::MAX),
                        ],
                    ),
                    (
                        NUMBERS_USED,
                        &[
                            |call| links::set_at_end(&mut call.link),
                            |call| narrow_with(&mut call.link, u32::MAX.into()),
                        ],
                    ),
                    (
                        LONG_MESSAGE,
                        &[
                            |call| call.message.resize(257, 1),
                            |call| call.message.resize(300, 2),
                            |call| call.message.resize(65_536, 3),
                        ],
                    ),
                    (
                        SHORT_TAPE,
                        &[
                            |call| call.tape.clear(),
                            |call| call.tape.truncate(2367),
                            |call| call.tape.truncate(call.tape.len() - 1),
                        ],
                    ),
                    (
                        SHORT_OUTPUT,
                        &[
                            |call| call.record.clear(),
                            |call| call.record.truncate(call.record.len() - 1),
                            |call| call.shares.clear(),
                            |call| call.shares.truncate(51),
                            |call| {
                                call.record.truncate(23);
                                call.shares.truncate(48);
                            },
                        ],
                    ),
                ],
            );
        }
    }
}

/// A link kept over many sealings, refused ones among them: the numbers rise by one with each
/// accepted one, and a refused one uses none. Those of a wide link rise across the end of 32 bits.
pub fn kept_link(tally: &mut Tally) {
    let mut random = tally.random();
    for width in WIDTHS {
        let mut sequence = width.start().saturating_sub(130);
        let mut link = links::sending(3, width, sequence, &random.bytes(SENDER_KEYS));
        for _ in 0..400 {
            let length = random.below(70);
            let mut call = Seal { link: link.clone(), ..good(tally, width, length) };
            if random.below(3) == 0 {
                call.tape.pop();
                hold_answer(tally, &call, SHORT_TAPE, length);
                continue;
            }
            sequence += 1;
            let left = hold_answer(tally, &call, 0, random.number() as usize).left;
            hold_numbers(tally, &left, 3, sequence);
            link = left.link;
        }
    }
}
