//! Holds the C calls to a file of vectors, as somebody would who has that file alone: expected values
//! are those of the file.

use crate::blocks::hold_both_ways;
use crate::body::{BAD_LENGTH, BAD_WORD, MISSING_KIND, VALUES};
use crate::groups::{self, Group};
use crate::keying::{keyed, RECEIVING, SENDING};
use crate::lanes::Report;
use crate::lent::hold_as;
use crate::links::{
    self, Width, Window, BAD_RECORD, BELOW_WINDOW, LANE, OTHER_LINK, REPEATED, SHARES, WIDTHS, WRONG_TAG,
};
use crate::modes;
use crate::opening::Open;
use crate::plain::SealPlain;
use crate::reading::ReadBody;
use crate::sealing::Seal;
use crate::shares;
use crate::tally::Tally;
use crate::writing::WriteBody;
use std::ffi::{c_char, CStr};

extern "C" {
    /// `rasppuce_meaning` of the header, by way of `meaning.c`.
    fn words_of_answer(answer: u32) -> *const c_char;
}

/// What the file has to have at both widths: records with messages of these lengths, records opened so
/// far above the highest number or below it, these refusals, and lanes of these rounds. Then wide
/// records with these numbers and refused ones of these lengths, and bodies with these offsets.
pub const LENGTHS: [usize; 10] = [0, 1, 15, 16, 17, 31, 32, 33, 255, 256];
const ABOVE: [i128; 6] = [-63, -1, 1, 32, 63, 64];
pub const WIDE_NUMBERS: [u64; 5] =
    [1, 4_294_967_295, 4_294_967_296, 18_446_744_073_709_551_614, 18_446_744_073_709_551_615];
const WIDE_LENGTHS_REFUSED: [usize; 2] = [27, 285];
const OFFSETS: [&str; 5] = ["none", "-720", "-1", "0", "840"];
const REFUSALS: [u32; 5] = [BAD_RECORD, OTHER_LINK, BELOW_WINDOW, REPEATED, WRONG_TAG];
const BODY_REFUSALS: [u32; 3] = [BAD_LENGTH, BAD_WORD, MISSING_KIND];
pub const ROUNDS_SHOWN: [u32; 3] = [1, 35, 36];

type Checks = fn(&mut Tally, &Group) -> Result<(), String>;

/// How the groups of each kind are held.
const KINDS: [(&str, Checks); 7] = [
    ("block", block),
    ("record", record),
    ("opened", opened),
    ("refused", refused),
    ("body", body),
    ("refused_body", refused_body),
    ("shared", shared),
];

/// Holds the C calls to every group of a file, and the file to what it has to have.
pub fn hold(tally: &mut Tally, text: &str) {
    let groups = match groups::read(text) {
        Ok(groups) => groups,
        Err(flaw) => return tally.group("form", |tally| fail(tally, &flaw)),
    };
    tally.group("what has to be there", |tally| enough(tally, &groups));
    for (kind, checks) in KINDS {
        tally.group(kind, |tally| {
            for group in groups.iter().filter(|group| group.kind == kind) {
                checks(tally, group).unwrap_or_else(|flaw| fail(tally, &flaw));
            }
        });
    }
}

/// A check that fails for a flaw of the file.
fn fail(tally: &mut Tally, flaw: &str) {
    tally.same_flag(format_args!("{flaw}"), false, true);
}

/// True if one of the groups is of this kind and as wanted.
fn has(groups: &[&Group], kind: &str, wanted: impl Fn(&Group) -> bool) -> bool {
    groups.iter().any(|group| group.kind == kind && wanted(group))
}

fn enough(tally: &mut Tally, groups: &[Group]) {
    let all = Vec::from_iter(groups);
    tally.same_flag(format_args!("a block"), has(&all, "block", |_| true), true);
    let of_width =
        |width: Width| -> Vec<&Group> { groups.iter().filter(|group| group.width() == Ok(width)).collect() };
    for width in WIDTHS {
        enough_of_width(tally, width, &of_width(width));
    }
    enough_wide(tally, &of_width(Width::Wide));
    for offset in OFFSETS {
        let found = has(&all, "body", |group| group.text("offset") == Ok(offset));
        tally.same_flag(format_args!("a body with the offset {offset}"), found, true);
    }
    let found = has(&all, "body", |group| group.text("body") != group.text("written"));
    tally.same_flag(format_args!("a body that no writer makes"), found, true);
    for answer in BODY_REFUSALS {
        let found = has(&all, "refused_body", |group| group.number("answer") == Ok(answer));
        tally.same_flag(format_args!("a body refused with {answer}"), found, true);
    }
}

/// What has to be there at either width.
fn enough_of_width(tally: &mut Tally, width: Width, groups: &[&Group]) {
    for length in LENGTHS {
        let found = has(groups, "record", |group| size_of(group, "message") == Ok(length));
        tally.same_flag(format_args!("a {width:?} record with a message of {length} bytes"), found, true);
    }
    for above in ABOVE {
        let found = has(groups, "opened", |group| above_highest(group) == Ok(above));
        tally.same_flag(format_args!("a {width:?} record opened {above} above the highest"), found, true);
    }
    for answer in REFUSALS {
        let found = has(groups, "refused", |group| group.number("answer") == Ok(answer));
        tally.same_flag(format_args!("a {width:?} link that refuses with {answer}"), found, true);
    }
    for round in ROUNDS_SHOWN {
        let found = has(groups, "shared", |group| {
            group.lanes().is_ok_and(|lanes| lanes.iter().any(|([_, shown, _], _)| *shown == round))
        });
        tally.same_flag(format_args!("a {width:?} sealing with a lane of round {round}"), found, true);
    }
}

/// What has to be there of wide links besides.
fn enough_wide(tally: &mut Tally, groups: &[&Group]) {
    for number in WIDE_NUMBERS {
        let found = has(groups, "record", |group| group.number("sequence") == Ok(number));
        tally.same_flag(format_args!("a wide record with the number {number}"), found, true);
    }
    for length in WIDE_LENGTHS_REFUSED {
        let found = has(groups, "refused", |group| size_of(group, "record") == Ok(length));
        tally.same_flag(format_args!("a wide link that refuses {length} bytes"), found, true);
    }
    let is_beyond = |number: u64| number > Width::Narrow.last();
    for is_late in [false, true] {
        let found = has(groups, "opened", |group| {
            let (highest, sequence) = (group.number("highest"), sequence_of(group));
            highest.map(is_beyond) == Ok(is_late) && sequence.map(is_beyond) == Ok(!is_late)
        });
        tally.same_flag(format_args!("a record opened across 32 bits, late: {is_late}"), found, true);
    }
    let found = has(groups, "shared", |group| group.number("last") == Ok(Width::Narrow.last()));
    tally.same_flag(format_args!("a sealing on shares that goes past 32 bits"), found, true);
}

/// How many bytes a field has.
fn size_of(group: &Group, name: &str) -> Result<usize, String> {
    Ok(group.bytes(name)?.len())
}

/// An output before a call.
fn room(length: usize) -> Vec<u8> {
    vec![0xee; length]
}

// ---- the cipher alone

fn block(tally: &mut Tally, group: &Group) -> Result<(), String> {
    let (plaintext, ciphertext) = (group.block("plaintext")?, group.block("ciphertext")?);
    hold_both_ways(tally, &group.block("key")?, &plaintext, &ciphertext, group.number);
    Ok(())
}

// ---- records

fn record(tally: &mut Tally, group: &Group) -> Result<(), String> {
    let keys = [group.block("ke")?, group.block("km")?].concat();
    let (number, sequence) = (group.number("link")?, group.number("sequence")?);
    let (message, record) = (group.bytes("message")?, group.bytes("record")?);
    let wide = group.width()? as u32;
    let before = SealPlain { keys, number, wide, sequence, message, record: room(record.len()) };
    let after = SealPlain { record, ..before.clone() };
    hold_as(tally, &before, 0, &after, group.number);
    hold_opened(tally, &after, group.number);
    hold_steps(tally, group, &after)
}

/// A receiver opens the record, and refuses it the second time.
fn hold_opened(tally: &mut Tally, sealed: &SealPlain, shift: usize) {
    let SealPlain { keys, number, wide, sequence, message, record } = sealed;
    let width = Width::told(*wide);
    let link = keyed(tally, &RECEIVING, *number, width, keys);
    let before = Open { link, record: record.clone(), message: room(message.len()) };
    let link = links::receiving(*number, width, Window { highest: *sequence, word: 1 }, keys);
    let after = Open { link, message: message.clone(), ..before.clone() };
    let opened = hold_as(tally, &before, 0, &after, shift).left;
    let again = Open { message: room(message.len()), ..opened };
    hold_as(tally, &again, REPEATED, &again, shift);
}

/// The steps between the keys and the record, by the block calls and the record itself.
fn hold_steps(tally: &mut Tally, group: &Group, sealed: &SealPlain) -> Result<(), String> {
    let what = format!("record {}", group.number);
    let (ke, km) = links::two_keys(&sealed.keys);
    let (counter, stream) = (group.block("counter_block")?, group.block("key_stream")?);
    let expected = shares::counter_block(sealed.number, sealed.sequence, 0);
    tally.same(format_args!("counter_block, {what}"), &counter, &expected);
    hold_both_ways(tally, &ke, &counter, &stream, group.number);
    let first = modes::xor(&stream, &sealed.message);
    let at = Width::told(sealed.wide).head();
    let in_record = sealed.record.get(at..at + first.len()).unwrap_or(&[]);
    tally.same(format_args!("ciphertext by key_stream, {what}"), &first, in_record);

    let (l, k1, k2) = (group.block("l")?, group.block("k1")?, group.block("k2")?);
    hold_both_ways(tally, &km, &[0; 16], &l, group.number);
    tally.same(format_args!("k1, {what}"), &k1, &modes::doubled(&l));
    tally.same(format_args!("k2, {what}"), &k2, &modes::doubled(&k1));
    hold_tag(tally, &what, &group.block("tag")?, &sealed.record);
    Ok(())
}

fn hold_tag(tally: &mut Tally, what: &str, tag: &[u8], record: &[u8]) {
    let at = record.len().saturating_sub(16);
    tally.same(format_args!("tag, {what}"), tag, &record[at..]);
}

// ---- a receiver

/// The receiver of a group and the record that it is offered.
fn offered(tally: &mut Tally, group: &Group) -> Result<Open, String> {
    let keys = [group.block("ke")?, group.block("km")?].concat();
    let width = group.width()?;
    let mut link = keyed(tally, &RECEIVING, group.number("link")?, width, &keys);
    links::set_window(&mut link, group.window("highest", "window")?);
    let record = group.bytes("record")?;
    let message = room(record.len().saturating_sub(width.added()));
    Ok(Open { link, record, message })
}

/// The number of a group's record.
fn sequence_of(group: &Group) -> Result<u64, String> {
    let (width, record) = (group.width()?, group.bytes("record")?);
    if record.len() < width.head() {
        return Err("no sequence number".to_string());
    }
    Ok(width.sequence(&record))
}

/// How far it is above the receiver's highest.
fn above_highest(group: &Group) -> Result<i128, String> {
    let highest: u64 = group.number("highest")?;
    Ok(i128::from(sequence_of(group)?) - i128::from(highest))
}

fn opened(tally: &mut Tally, group: &Group) -> Result<(), String> {
    let before = offered(tally, group)?;
    let mut after = Open { message: group.bytes("message")?, ..before.clone() };
    links::set_window(&mut after.link, group.window("highest_after", "window_after")?);
    hold_as(tally, &before, 0, &after, group.number);
    Ok(())
}

fn refused(tally: &mut Tally, group: &Group) -> Result<(), String> {
    let call = offered(tally, group)?;
    let answer = group.number("answer")?;
    hold_as(tally, &call, answer, &call, group.number);
    hold_words(tally, answer, group.text("words")?);
    let is_refusal = REFUSALS.contains(&answer);
    tally.same_flag(format_args!("{answer} is a refusal of a record"), is_refusal, true);
    Ok(())
}

fn hold_words(tally: &mut Tally, answer: u32, expected: &str) {
    // The call returns a string that lasts.
    let words = unsafe { CStr::from_ptr(words_of_answer(answer)) };
    tally.same(format_args!("words of {answer}"), words.to_bytes(), expected.as_bytes());
}

// ---- bodies

/// The body is read as the values, which are written as `written`, which is read as the values.
fn body(tally: &mut Tally, group: &Group) -> Result<(), String> {
    let (values, written) = (group.bytes("values")?, group.bytes("written")?);
    for body in [group.bytes("body")?, written.clone()] {
        let before = ReadBody { body, values: room(VALUES) };
        let after = ReadBody { values: values.clone(), ..before.clone() };
        hold_as(tally, &before, 0, &after, group.number);
    }
    let before = WriteBody::of(&group.mark()?, room(written.len()));
    hold_as(tally, &before, 0, &WriteBody { body: written, ..before.clone() }, group.number);
    Ok(())
}

fn refused_body(tally: &mut Tally, group: &Group) -> Result<(), String> {
    let answer = group.number("answer")?;
    let call = ReadBody { body: group.bytes("body")?, values: room(VALUES) };
    hold_as(tally, &call, answer, &call, group.number);
    hold_words(tally, answer, group.text("words")?);
    let is_refusal = BODY_REFUSALS.contains(&answer);
    tally.same_flag(format_args!("{answer} is a refusal of a body"), is_refusal, true);
    Ok(())
}

// ---- sealing on shares

/// A tape by the rule as the head of the file states it.
fn tape(seed: u32, length: usize) -> Vec<u8> {
    let mut x = vec![u64::from(seed)];
    for i in 0..length {
        x.push((1_664_525 * x[i] + 1_013_904_223) % 4_294_967_296);
    }
    (0..length).map(|i| (x[i + 1] / 16_777_216) as u8).collect()
}

fn shared(tally: &mut Tally, group: &Group) -> Result<(), String> {
    let what = format!("shared {}", group.number);
    let blocks = |names: &[&str]| -> Result<Vec<u8>, String> {
        Ok(names.iter().map(|name| group.block(name)).collect::<Result<Vec<_>, _>>()?.concat())
    };
    let keys = blocks(&["ke_0", "ke_1", "ke_2", "km_0", "km_1", "km_2"])?;
    let tag_shares = blocks(&["tag_0", "tag_1", "tag_2"])?;
    let (number, width, last) = (group.number("link")?, group.width()?, group.number("last")?);
    let sequence = u64::checked_add(last, 1).ok_or(format!("{what}: no number is left"))?;
    let (message, record) = (group.bytes("message")?, group.bytes("record")?);
    let tape = tape(group.number("seed")?, shares::tape_need(message.len()));
    tally.same(format_args!("tape_first, {what}"), &tape[..16], &group.block("tape_first")?);
    tally.same(format_args!("tape_last, {what}"), &tape[tape.len() - 16..], &group.block("tape_last")?);

    let mut link = keyed(tally, &SENDING, number, width, &keys);
    links::set_last(&mut link, last);
    let before = Seal { link, message, tape, record: room(record.len()), shares: room(SHARES) };
    let tape_count: u32 = group.number("tape_count")?;
    let written = [&tag_shares[..], &tape_count.to_be_bytes()].concat();
    let link = links::sending(number, width, sequence, &keys);
    let after = Seal { link, record, shares: written, ..before.clone() };
    hold_as(tally, &before, 0, &after, group.number);
    hold_lanes(tally, group, &before)?;

    let [a, b, c] = std::array::from_fn(|i| &tag_shares[16 * i..16 * i + 16]);
    hold_tag(tally, &what, &modes::xor(&modes::xor(a, b), c), &after.record);
    let (keys, wide) = (links::joined_keys(&keys), width as u32);
    let Seal { message, record, .. } = after;
    hold_opened(tally, &SealPlain { keys, number, wide, sequence, message, record }, group.number);
    Ok(())
}

/// The report of the sealing shows the lanes.
fn hold_lanes(tally: &mut Tally, group: &Group, seal: &Seal) -> Result<(), String> {
    let Seal { link, message, tape, .. } = seal.clone();
    let report = Report { link, message, tape, call: 0, round: 0, lane: 0, out: room(LANE) };
    for ([call, round, lane], out) in group.lanes()? {
        let before = Report { call, round, lane, ..report.clone() };
        hold_as(tally, &before, 0, &Report { out, ..before.clone() }, group.number);
    }
    Ok(())
}
