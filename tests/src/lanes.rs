//! The lane report: `rasppuce_report`.

use crate::cipher::{self, Block, ROUNDS};
use crate::keying::{hold_links, SENDING};
use crate::lent::{hold_answer, hold_as, hold_order, Call, Lent};
use crate::links::{
    self, Sender, Width, BAD_CALL, BAD_LANE, BAD_ROUND, LANE, LONG_MESSAGE, NOT_KEYED, NUMBERS_USED,
    SENDER_KEYS, SEQUENCES, SHARES, SHORT_OUTPUT, SHORT_TAPE, WIDTHS, WIDTH_BYTES,
};
use crate::modes::{self, xor_blocks};
use crate::sealing::{answer_to_link, Seal};
use crate::shares::{self, Lane, PAIRS};
use crate::tally::Tally;

extern "C" {
    fn rasppuce_report(
        link: *const u8,
        link_len: usize,
        message: *const u8,
        message_len: usize,
        tape: *const u8,
        tape_len: usize,
        call: u32,
        round: u32,
        lane: u32,
        out: *mut u8,
        out_len: usize,
    ) -> u32;
}

#[derive(Clone)]
pub struct Report {
    pub link: Vec<u8>,
    pub message: Vec<u8>,
    pub tape: Vec<u8>,
    pub call: u32,
    pub round: u32,
    pub lane: u32,
    pub out: Vec<u8>,
}

impl Call for Report {
    fn name(&self) -> &'static str {
        "rasppuce_report"
    }

    fn slices(&mut self) -> Vec<(&'static str, &mut Vec<u8>)> {
        vec![
            ("link", &mut self.link),
            ("message", &mut self.message),
            ("tape", &mut self.tape),
            ("out", &mut self.out),
        ]
    }

    fn numbers(&self) -> Vec<(&'static str, i128)> {
        vec![("call", self.call.into()), ("round", self.round.into()), ("lane", self.lane.into())]
    }

    unsafe fn make(&self, lent: &[Lent]) -> u32 {
        let [link, message, tape, out] = lent else { panic!("four slices") };
        rasppuce_report(
            link.pointer,
            link.length,
            message.pointer,
            message.length,
            tape.pointer,
            tape.length,
            self.call,
            self.round,
            self.lane,
            out.pointer,
            out.length,
        )
    }

    fn own(&mut self) -> u32 {
        let Report { call, round, lane, .. } = *self;
        links::report(&self.link, &self.message, &self.tape, call, round, lane, &mut self.out)
    }
}

/// An acceptable call with no byte to spare.
fn good(tally: &Tally, width: Width, length: usize, number: usize) -> Report {
    let mut random = tally.random_for(1000 * number + length);
    let last = width.some_sequence(&mut random) - 1;
    Report {
        link: links::sending(random.number() as u32, width, last, &random.bytes(SENDER_KEYS)),
        message: random.bytes(length),
        tape: random.bytes(shares::tape_need(length)),
        call: 1,
        round: 1,
        lane: 0,
        out: random.bytes(LANE),
    }
}

fn sender(report: &Report) -> Sender {
    links::sender(&report.link).expect("a keyed link")
}

/// Every lane of every round of every call of some sealings, as the report shows it: equal to
/// the lane of these tests. Then what the three lanes of a round have to do with each other and
/// with the plain cipher, and how the rounds hang together, all on the bytes that were reported.
pub fn every_lane(tally: &mut Tally) {
    for (width, length) in [
        (Width::Narrow, 0),
        (Width::Wide, 0),
        (Width::Narrow, 1),
        (Width::Wide, 16),
        (Width::Narrow, 17),
        (Width::Wide, 17),
        (Width::Narrow, 48),
        (Width::Wide, 48),
    ] {
        let good = good(tally, width, length, 0);
        let link = sender(&good);
        let sealing = links::next_sealing(&link, &good.message, &good.tape);
        let keys = links::receiver_keys(&good.link);
        let plain = links::plain_calls(&keys, link.number, link.last + 1, &good.message);
        tally.same_number(
            format_args!("plain calls, {length} bytes"),
            plain.len() as u32,
            sealing.calls.len() as u32,
        );
        for (k, call) in sealing.calls.iter().enumerate() {
            let plain_rounds = cipher::rounds(&plain[k].0, &plain[k].1);
            // The lanes of the round before.
            let mut earlier: Option<Vec<Lane>> = None;
            for r in 0..PAIRS {
                let what = format!("{length} bytes, call {}, round {}", k + 1, r + 1);
                let mut lanes = Vec::new();
                for lane in 0..3 {
                    let before = Report { call: k as u32 + 1, round: r as u32 + 1, lane, ..good.clone() };
                    let after = Report { out: call.rounds[r].lane(lane as usize).to_vec(), ..before.clone() };
                    lanes.push(hold_as(tally, &before, 0, &after, k + r).left.out);
                }
                let lanes: Vec<Lane> = lanes.into_iter().map(|lane| lane.try_into().unwrap()).collect();
                hold_joined(tally, &what, &lanes, &plain_rounds[r]);
                if let Some(earlier) = earlier {
                    hold_onward(tally, &what, &lanes, &earlier, r, &masks(&good.tape, k + 1, r + 1));
                }
                earlier = Some(lanes);
            }
        }
    }
}

/// The masks of a round's pair, one for each share.
fn masks(tape: &[u8], call: usize, round: usize) -> [Block; 3] {
    let at = shares::masks_at(call, round);
    let (u, v) = (tape[at..at + 16].try_into().unwrap(), tape[at + 16..at + 32].try_into().unwrap());
    [u, v, xor_blocks(&u, &v)]
}

/// A round's lanes: a state share stands in two of them with the same bytes; the state shares
/// join to the plain cipher's state on entering the round, the key shares to the key it adds. In
/// round 36 they join to the ciphertext and to the key of round 35.
fn hold_joined(tally: &mut Tally, what: &str, lanes: &[Lane], plain: &(Block, Block)) {
    let parts: Vec<[Block; 3]> = lanes.iter().map(shares::lane_parts).collect();
    for i in 0..3 {
        tally.same(format_args!("share {} twice, {what}", (i + 2) % 3), &parts[i][1], &parts[(i + 1) % 3][0]);
    }
    let state = shares::join(&[parts[0][0], parts[1][0], parts[2][0]]);
    tally.same(format_args!("joined state, {what}"), &state, &plain.0);
    let key = shares::join(&[parts[0][2], parts[1][2], parts[2][2]]);
    tally.same(format_args!("joined key, {what}"), &key, &plain.1);
}

/// A round's lanes are what the round before, whose number is `before`, made of each share, of its lane
/// alone, with this round's masks. Each key share is that of the round before, rotated; after round 35
/// it stays as it is.
fn hold_onward(
    tally: &mut Tally,
    what: &str,
    lanes: &[Lane],
    earlier: &[Lane],
    before: usize,
    masks: &[Block; 3],
) {
    for i in 0..3 {
        // Share i stands first in lane i - 1.
        let share = &lanes[(i + 2) % 3][..16];
        let made = shares::share_of_lane(i, before, &earlier[i]);
        tally.same(
            format_args!("share {i} from the round before, {what}"),
            share,
            &xor_blocks(&made, &masks[i]),
        );
        let [.., key] = shares::lane_parts(&earlier[i]);
        let turns = if before == ROUNDS { 0 } else { 1 };
        let key = u128::from_be_bytes(key).rotate_right(turns).to_be_bytes();
        tally.same(format_args!("key share {i} from the round before, {what}"), &lanes[i][32..], &key);
    }
}

/// The tag shares that a sealing returns are what round 35 makes of the lanes that the report shows of
/// its last call, each with its mask of pair 36. They are the state shares that round 36 shows, two in
/// each lane.
pub fn tag_shares(tally: &mut Tally) {
    for width in WIDTHS {
        for length in links::EDGES {
            hold_tag_shares(tally, &good(tally, width, length, 1));
        }
    }
}

fn hold_tag_shares(tally: &mut Tally, good: &Report) {
    let Sender { width, last, .. } = sender(good);
    let length = good.message.len();
    let seal = Seal {
        link: good.link.clone(),
        message: good.message.clone(),
        tape: good.tape.clone(),
        record: vec![0; length + width.added()],
        shares: vec![0; SHARES],
    };
    let sealed = hold_answer(tally, &seal, 0, length).left.shares;
    let returned = |i: usize| &sealed[16 * (i % 3)..][..16];
    let call = shares::call_count(length);
    let masks = masks(&good.tape, call, 36);
    for i in 0..3 {
        let what = format!("{width:?}, last {last}, {length} bytes");
        let call = Report { call: call as u32, round: 35, lane: i as u32, ..good.clone() };
        let out = hold_answer(tally, &call, 0, length).left.out;
        let made = shares::share_of_lane(i, 35, &out.try_into().unwrap());
        let share = xor_blocks(&made, &masks[i]);
        tally.same(format_args!("tag share {i}, {what}"), returned(i), &share);
        let out = hold_answer(tally, &Report { round: 36, ..call }, 0, length).left.out;
        let two = [returned(i + 1), returned(i + 2)].concat();
        tally.same(format_args!("tag shares in lane {i}, {what}"), &out[..32], &two);
    }
}

/// The masks on a call's output stay in its shares in the later call that takes them: with another pair
/// 36, round 1 of that call shows the state shares changed as the masks are. A call of the key stream
/// is taken by that of its block, cut to the block's bytes; the subkeys by the last one, doubled; a call
/// of the chain by the next.
pub fn later_calls(tally: &mut Tally) {
    for width in WIDTHS {
        for length in [0, 1, 15, 16, 17, 48] {
            for call in 1..shares::call_count(length) {
                hold_later_call(tally, &good(tally, width, length, 5), call);
            }
        }
    }
}

/// Another pair 36 on this call of the sealing that `first` reports.
fn hold_later_call(tally: &mut Tally, first: &Report, call: usize) {
    let length = first.message.len();
    let blocks = length.div_ceil(16);
    let mut other = first.clone();
    put(&mut other.tape, shares::masks_at(call, 36), &tally.random_for(call).bytes(32));
    let (old, new) = (masks(&first.tape, call, 36), masks(&other.tape, call, 36));
    let change = |i: usize| -> Block {
        let mut change = xor_blocks(&old[i % 3], &new[i % 3]);
        if call <= blocks {
            let size = length - 16 * (call - 1);
            change.iter_mut().skip(size).for_each(|byte| *byte = 0);
        } else if call == blocks + 1 {
            change = modes::doubled(&change);
            if length % 16 != 0 {
                change = modes::doubled(&change);
            }
        }
        change
    };
    let taker = match call {
        _ if call <= blocks => blocks + 2 + call,
        _ if call == blocks + 1 => shares::call_count(length),
        _ => call + 1,
    };
    for lane in 0..3 {
        let at = |report: &Report| Report { call: taker as u32, lane, ..report.clone() };
        let shown = hold_answer(tally, &at(first), 0, call).left.out;
        let changed = hold_answer(tally, &at(&other), 0, call).left.out;
        let lane = lane as usize;
        let changes = [change(lane + 1), change(lane + 2), [0; 16]].concat();
        tally.same(
            format_args!("call {taker} with other masks on call {call}, {length} bytes, lane {lane}"),
            &changed,
            &modes::xor(&shown, &changes),
        );
    }
}

/// Calls, rounds and lanes at the ends of their ranges and out of them, with each other: of the wrong
/// ones, the call has its number first, then the round.
pub fn ranges(tally: &mut Tally) {
    for width in WIDTHS {
        for length in [0, 1, 16, 17, 33] {
            hold_ranges(tally, &good(tally, width, length, 2));
        }
    }
}

fn hold_ranges(tally: &mut Tally, good: &Report) {
    let calls = shares::call_count(good.message.len()) as u32;
    for call in [0, 1, 2, calls - 1, calls, calls + 1, calls + 2, 256 + 1, 65_536 + 1, 0x8000_0001, u32::MAX]
    {
        for round in [0, 1, 2, 34, 35, 36, 37, 38, 256 + 1, 65_536 + 1, 0x8000_0001, u32::MAX] {
            for lane in [0, 1, 2, 3, 4, 256, 65_536, 0x8000_0000, u32::MAX] {
                let answer = match (call, round, lane) {
                    _ if !(1..=calls).contains(&call) => BAD_CALL,
                    (_, 1..=36, 0..=2) => 0,
                    (_, 1..=36, _) => BAD_LANE,
                    _ => BAD_ROUND,
                };
                let call = Report { call, round, lane, ..good.clone() };
                hold_answer(tally, &call, answer, lane as usize);
            }
        }
    }
}

/// Outputs, tapes and messages of other lengths, and links that count as keyed and others. The tape that
/// would do for 35 pairs a call is too short.
pub fn lengths(tally: &mut Tally) {
    for width in WIDTHS {
        for (length, need) in links::NEEDS {
            hold_outputs_and_tapes(tally, &good(tally, width, length, 3), need);
        }
        for length in [257, 258, 272, 300, 512, 65_536, 65_792] {
            hold_answer(tally, &good(tally, width, length, 3), LONG_MESSAGE, length);
        }
        let good = good(tally, width, 9, 3);
        hold_links(tally, &SENDING, &good, |call| &mut call.link);
    }
}

fn hold_outputs_and_tapes(tally: &mut Tally, good: &Report, need: usize) {
    for room in (0..=60).chain([96, 256 + 47, 256 + 48, 65_536 + 47]) {
        let call = Report { out: tally.random_for(room).bytes(room), ..good.clone() };
        hold_answer(tally, &call, if room < LANE { SHORT_OUTPUT } else { 0 }, room);
    }
    let less = 64 + 1120 * shares::call_count(good.message.len());
    for size in [0, 1, 64, less, need - 1152, need - 32, need - 1, need, need + 1, need + 1152, need + 70_000]
    {
        let mut call = good.clone();
        call.tape.resize(size, 9);
        hold_answer(tally, &call, if size < need { SHORT_TAPE } else { 0 }, size);
    }
}

/// Last numbers at the ends of their range, with any last byte. Call 1 of a message has counter block 0
/// as its input: joined, the state on entering round 1 is that block with KE, the sequence number in
/// eight bytes at either width.
pub fn numbers(tally: &mut Tally) {
    for byte in WIDTH_BYTES {
        let width = if byte == 0 { Width::Narrow } else { Width::Wide };
        for last in SEQUENCES {
            let mut call = good(tally, width, 20, 6);
            links::set_last(&mut call.link, last);
            links::set_width_byte(&mut call.link, byte);
            let known = answer_to_link(byte, last);
            let state_shares = [0, 1, 2].map(|lane| -> Block {
                let call = Report { lane, ..call.clone() };
                let out = hold_answer(tally, &call, known, lane as usize).left.out;
                out[..16].try_into().unwrap()
            });
            if known == 0 {
                let number = &call.link[1..5];
                let counter = [number, &(last + 1).to_be_bytes(), &[0; 4]].concat();
                let state = modes::xor(&counter, &links::receiver_keys(&call.link));
                let joined = shares::join(&state_shares);
                tally.same(format_args!("joined state, {width:?}, last {last}"), &joined, &state);
            }
        }
    }
}

/// The refusals, alone and together.
pub fn refusals(tally: &mut Tally) {
    for (width, length) in [(Width::Narrow, 0), (Width::Wide, 17)] {
        hold_order(
            tally,
            &good(tally, width, length, 4),
            &[
                (
                    NOT_KEYED,
                    &[
                        |call| call.link[0] = 0,
                        |call| call.link[0] = 2,
                        |call| call.link.clear(),
                        |call| call.link.truncate(105),
                        |call| call.link.push(0),
                        |call| links::set_width_byte(&mut call.link, 2),
                        |call| {
                            links::set_width_byte(&mut call.link, 0);
                            links::set_last(&mut call.link, 1 << 32);
                        },
                    ],
                ),
                (NUMBERS_USED, &[|call| links::set_at_end(&mut call.link)]),
                (LONG_MESSAGE, &[|call| call.message.resize(257, 1), |call| call.message.resize(65_536, 3)]),
                (SHORT_TAPE, &[|call| call.tape.clear(), |call| call.tape.truncate(call.tape.len() - 1)]),
                (
                    BAD_CALL,
                    &[
                        |call| call.call = 0,
                        |call| call.call = shares::call_count(call.message.len()) as u32 + 1,
                        |call| call.call = u32::MAX,
                    ],
                ),
                (BAD_ROUND, &[|call| call.round = 0, |call| call.round = 37, |call| call.round = u32::MAX]),
                (BAD_LANE, &[|call| call.lane = 3, |call| call.lane = u32::MAX]),
                (SHORT_OUTPUT, &[|call| call.out.clear(), |call| call.out.truncate(47)]),
            ],
        );
    }
}

// ---- one tape

/// The one tape under which the sealing of `report` shows this lane, of all that differ from its
/// tape at most in the round's 32 mask bytes and in the lane's 16 key mask bytes.
fn tape_that_shows(report: &Report, shown: &Lane) -> Vec<u8> {
    let link = sender(report);
    let (call, round, lane) = (report.call as usize, report.round as usize, report.lane as usize);
    let [a, b, key] = shares::lane_parts(shown);
    let mut tape = report.tape.clone();

    // The key share as the round adds it has been rotated once in each round, and in round 36 it is
    // that of round 35. Its mask is c in lane 0, d in lane 1 and c XOR d in lane 2, where d stays.
    let at = shares::key_masks_at(call, report.message.len());
    let key_shares = if at == 0 { link.ke } else { link.km };
    let mut bits = cipher::bits_of(&key);
    bits.rotate_right(round.min(ROUNDS));
    let mask = xor_blocks(&cipher::block_of(&bits), &key_shares[lane]);
    let d: Block = tape[at + 16..at + 32].try_into().unwrap();
    match lane {
        0 => put(&mut tape, at, &mask),
        1 => put(&mut tape, at + 16, &mask),
        _ => put(&mut tape, at, &xor_blocks(&mask, &d)),
    }

    // With that key mask the state shares come to the round as follows, so these are the masks
    // that make the lane's first two blocks of them.
    let sealing = links::next_sealing(&link, &report.message, &tape);
    let old = masks(&tape, call, round);
    let mask_for = |i: usize, wanted: &Block| {
        let share = sealing.calls[call - 1].rounds[round - 1].state_share(i % 3);
        xor_blocks(&xor_blocks(&share, &old[i % 3]), wanted)
    };
    let (first, second) = (mask_for(lane + 1, &a), mask_for(lane + 2, &b));
    let both = xor_blocks(&first, &second);
    let (u, v) = match lane {
        0 => (both, first),
        1 => (second, both),
        _ => (first, second),
    };
    let at = shares::masks_at(call, round);
    put(&mut tape, at, &u);
    put(&mut tape, at + 16, &v);
    tape
}

fn put(bytes: &mut [u8], at: usize, what: &[u8]) {
    bytes[at..at + what.len()].copy_from_slice(what);
}

/// Where in the tape the 48 bytes stand that decide over a lane.
fn deciding_bytes(report: &Report) -> Vec<usize> {
    let (call, round) = (report.call as usize, report.round as usize);
    let masks = shares::masks_at(call, round);
    let key_mask = shares::key_masks_at(call, report.message.len()) + if report.lane == 1 { 16 } else { 0 };
    (masks..masks + 32).chain(key_mask..key_mask + 16).collect()
}

/// One lane tells nothing of link and message: another link, of either width, and message of the same
/// length show the same 48 bytes under one tape, which differs from the first in 48 bytes at most, and
/// under no other such tape.
pub fn one_tape(tally: &mut Tally) {
    for length in [0, 1, 16, 20, 32] {
        let calls = shares::call_count(length) as u32;
        for call in 1..=calls {
            for round in [1, 2, 3, 17, 34, 35, 36] {
                for lane in 0..3 {
                    let number = (100 * call + 3 * round + lane) as usize;
                    let mut random = tally.random_for(number);
                    let (own, other) = (random.pick(&WIDTHS), random.pick(&WIDTHS));
                    let first = Report { call, round, lane, ..good(tally, own, length, number) };
                    let Report { link, message, .. } = good(tally, other, length, number + 10_000);
                    hold_one_tape(tally, &first, &Report { link, message, ..first.clone() });
                }
            }
        }
    }
}

fn hold_one_tape(tally: &mut Tally, first: &Report, other: &Report) {
    let Report { call, round, lane, .. } = *first;
    let what = format!("{} bytes, call {call}, round {round}, lane {lane}", first.message.len());
    let shown = hold_answer(tally, first, 0, 1).left.out;
    let lane: Lane = shown.clone().try_into().unwrap();
    let found = Report { tape: tape_that_shows(other, &lane), ..other.clone() };
    let same = hold_answer(tally, &found, 0, 2).left.out;
    tally.same(format_args!("the same lane under the tape found, {what}"), &same, &shown);

    let deciding = deciding_bytes(first);
    let elsewhere = (0..first.tape.len()).filter(|i| !deciding.contains(i));
    let changed = elsewhere.filter(|i| found.tape[*i] != first.tape[*i]).count();
    tally.same_number(format_args!("changed bytes elsewhere in the tape, {what}"), changed as u32, 0);

    // Another value in any of the 48 bytes shows another lane; and for the first link the tape
    // found is the one it had.
    let mut random = tally.random_for(changed + call as usize);
    for i in [random.pick(&deciding[..32]), random.pick(&deciding[32..])] {
        let mut off = found.clone();
        off.tape[i] ^= 1 << random.below(8);
        let out = hold_answer(tally, &off, 0, 3).left.out;
        tally.same_flag(format_args!("another lane with tape byte {i} changed, {what}"), out != shown, true);
    }
    let back = tape_that_shows(&Report { tape: found.tape, ..first.clone() }, &lane);
    tally.same(format_args!("the first tape found again, {what}"), &back, &first.tape);
}
