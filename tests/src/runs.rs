//! Long runs of all calls in turn, over links that are kept from call to call.

use crate::body::{Mark, VALUES};
use crate::keying::{Key, RECEIVING, SENDING};
use crate::lanes::Report;
use crate::lent::{hold, Call};
use crate::links::{self, Width, Window, LONGEST, RECEIVER, SENDER, SENDER_KEYS, SHARES, TOLD};
use crate::opening::Open;
use crate::plain::SealPlain;
use crate::random::Random;
use crate::reading::ReadBody;
use crate::sealing::Seal;
use crate::shares;
use crate::tally::Tally;
use crate::writing::WriteBody;

/// Calls made in all.
const CALLS: usize = 30_000;
/// Racks that run side by side.
const RACKS: usize = 4;
/// Records kept on the way from sender to receiver.
const KEPT: usize = 12;

/// Two links under one number and key, mostly of one width, and what is on the way between them.
struct Rack {
    number: u32,
    /// Three shares of KE, then of KM; the last that the sender was keyed with.
    keys: Vec<u8>,
    sender: Vec<u8>,
    receiver: Vec<u8>,
    records: Vec<Vec<u8>>,
}

impl Rack {
    /// Two fresh links, all zeros.
    fn fresh(number: u32, random: &mut Random) -> Rack {
        Rack {
            number,
            keys: random.bytes(SENDER_KEYS),
            sender: vec![0; SENDER],
            receiver: vec![0; RECEIVER],
            records: Vec::new(),
        }
    }

    fn keep(&mut self, record: Vec<u8>) {
        if self.records.len() == KEPT {
            self.records.remove(0);
        }
        self.records.push(record);
    }
}

/// A length of message: mostly short, often at an edge, now and then too long.
fn length(random: &mut Random) -> usize {
    match random.below(20) {
        0 => 257 + random.below(60),
        1 => random.below(LONGEST + 1),
        2..=4 => random.pick(&links::EDGES),
        _ => random.below(50),
    }
}

/// A length near `enough`: mostly this or more, now and then less.
fn room(random: &mut Random, enough: usize) -> usize {
    match random.below(12) {
        0 => enough.saturating_sub(1),
        1 => random.below(enough + 1),
        2..=6 => enough,
        _ => enough + random.below(40),
    }
}

/// Now and then cuts or lengthens a slice.
fn disturb(random: &mut Random, slice: &mut Vec<u8>) {
    match random.below(40) {
        0 => slice.truncate(random.below(slice.len() + 1)),
        1 => slice.push(random.number() as u8),
        _ => (),
    }
}

/// Makes a call and holds it; returns its slices where it was accepted.
fn accepted<C: Call>(tally: &mut Tally, random: &mut Random, call: &C) -> Option<C> {
    let done = hold(tally, call, random.number() as usize);
    (done.answer == 0).then_some(done.left)
}

/// Writes the body of a random mark.
fn write(tally: &mut Tally, random: &mut Random) -> Option<Vec<u8>> {
    let has_offset = random.below(2) == 0;
    let mark = Mark::random(random, has_offset);
    let length = 4 * mark.words().len();
    let room = room(random, length);
    let call = WriteBody::of(&mark, random.bytes(room));
    Some(accepted(tally, random, &call)?.body[..length].to_vec())
}

/// A message to seal: now and then a body, else random bytes.
fn message(tally: &mut Tally, random: &mut Random) -> Vec<u8> {
    let body = if random.below(3) == 0 { write(tally, random) } else { None };
    body.unwrap_or_else(|| {
        let length = length(random);
        random.bytes(length)
    })
}

/// Reads an opened message as a body, which it may not be.
fn read(tally: &mut Tally, random: &mut Random, message: &[u8]) {
    let values = room(random, VALUES);
    let call = ReadBody { body: message.to_vec(), values: random.bytes(values) };
    accepted(tally, random, &call);
}

/// What tells a width: each as often as the other.
fn told(random: &mut Random) -> u32 {
    match random.below(2) {
        0 => 0,
        _ => random.pick(&TOLD[1..]),
    }
}

/// The width of a link, for the lengths of what is lent with it; any one where it has none.
fn width_of(link: &[u8]) -> Width {
    Width::of(link).unwrap_or(Width::Wide)
}

/// Keys both links anew, each now and then with material of a wrong length, and now and then the
/// receiver with the other width.
fn key(tally: &mut Tally, random: &mut Random, rack: &mut Rack) {
    let fresh_keys = random.bytes(SENDER_KEYS);
    let (link, number, wide) = (rack.sender.clone(), rack.number, told(random));
    let mut call = Key { side: &SENDING, link, number, wide, keys: fresh_keys.clone() };
    disturb(random, &mut call.keys);
    let Some(left) = accepted(tally, random, &call) else { return };
    rack.sender = left.link;
    rack.keys = fresh_keys;
    rack.records.clear();
    let (link, keys) = (rack.receiver.clone(), links::joined_keys(&rack.keys));
    let wide = if random.below(16) == 0 { told(random) } else { wide };
    let mut call = Key { side: &RECEIVING, link, number, wide, keys };
    disturb(random, &mut call.keys);
    if let Some(left) = accepted(tally, random, &call) {
        rack.receiver = left.link;
    }
}

/// Seals by shares. A plain sealing under the same number has to give the same record.
fn seal(tally: &mut Tally, random: &mut Random, rack: &mut Rack) {
    let message = message(tally, random);
    let length = message.len();
    let width = width_of(&rack.sender);
    let tape = room(random, shares::tape_need(length));
    let record = room(random, length + width.added());
    let shares = room(random, SHARES);
    let call = Seal {
        link: rack.sender.clone(),
        message,
        tape: random.bytes(tape),
        record: random.bytes(record),
        shares: random.bytes(shares),
    };
    let Some(left) = accepted(tally, random, &call) else { return };
    rack.sender = left.link;
    let record = left.record[..length + width.added()].to_vec();
    let sequence = width.sequence(&record);
    let plain = SealPlain {
        keys: links::joined_keys(&rack.keys),
        number: rack.number,
        wide: width as u32,
        sequence,
        message: call.message,
        record: vec![0; length + width.added()],
    };
    if let Some(left) = accepted(tally, random, &plain) {
        tally.same(format_args!("plain and shared record, sequence {sequence}"), &left.record, &record);
    }
    rack.keep(record);
}

/// Seals plainly, with a number of its own near the sender's last or some tens away from it.
fn seal_plain(tally: &mut Tally, random: &mut Random, rack: &mut Rack) {
    let message = message(tally, random);
    let length = message.len();
    let last = links::last_of(&rack.sender);
    let wide = if random.below(8) == 0 { told(random) } else { width_of(&rack.sender) as u32 };
    let added = Width::told(wide).added();
    let record = room(random, length + added);
    let most = random.pick(&[2, 70]);
    let mut call = SealPlain {
        keys: links::joined_keys(&rack.keys),
        number: rack.number,
        wide,
        sequence: last.wrapping_add(random.below(2 * most + 1) as u64).wrapping_sub(most as u64),
        message,
        record: random.bytes(record),
    };
    disturb(random, &mut call.keys);
    if let Some(left) = accepted(tally, random, &call) {
        rack.keep(left.record[..length + added].to_vec());
    }
}

/// Opens one of the records on the way, most often the newest, whole or damaged. What it gives is
/// read as a body.
fn open(tally: &mut Tally, random: &mut Random, rack: &mut Rack) {
    let mut record = match rack.records.len() {
        0 => random.bytes(60),
        count if random.below(3) > 0 => rack.records[count - 1].clone(),
        count => rack.records[random.below(count)].clone(),
    };
    disturb(random, &mut record);
    if !record.is_empty() && random.below(6) == 0 {
        let i = random.below(record.len());
        record[i] ^= 1 << random.below(8);
    }
    let length = record.len().saturating_sub(width_of(&rack.receiver).added());
    let message = room(random, length);
    let call = Open { link: rack.receiver.clone(), record, message: random.bytes(message) };
    if let Some(left) = accepted(tally, random, &call) {
        rack.receiver = left.link;
        read(tally, random, &left.message[..length]);
    }
}

/// Reports a lane of the next sealing.
fn report(tally: &mut Tally, random: &mut Random, rack: &Rack) {
    let length = length(random);
    let tape = room(random, shares::tape_need(length));
    let out = room(random, links::LANE);
    let call = Report {
        link: rack.sender.clone(),
        message: random.bytes(length),
        tape: random.bytes(tape),
        call: random.below(shares::call_count(length) + 2) as u32,
        round: random.below(39) as u32,
        lane: random.below(4) as u32,
        out: random.bytes(out),
    };
    accepted(tally, random, &call);
}

/// A number near the end of those of a link: around 4294967295 and, on a wide link, also at its last.
fn near_end(random: &mut Random, link: &[u8]) -> u64 {
    match width_of(link) {
        Width::Wide if random.below(2) == 0 => Width::Wide.last() - random.below(4) as u64,
        _ => Width::Narrow.last() - 3 + random.below(5) as u64,
    }
}

/// Brings a rack near the end of its numbers, makes its links unkeyed again, or changes their widths.
fn upset(random: &mut Random, rack: &mut Rack) {
    match random.below(7) {
        0 | 1 => {
            let last = near_end(random, &rack.sender);
            links::set_last(&mut rack.sender, last);
        }
        2 => {
            let highest = near_end(random, &rack.receiver);
            links::set_window(&mut rack.receiver, Window { highest, word: random.number() });
        }
        3 => rack.sender[0] = random.number() as u8,
        4 => rack.receiver[0] = random.number() as u8,
        5 => links::set_width_byte(&mut rack.sender, random.below(3) as u8),
        _ => links::set_width_byte(&mut rack.receiver, random.below(3) as u8),
    }
}

/// All calls, mixed, over links kept from call to call.
pub fn mixed(tally: &mut Tally) {
    let mut random = tally.random();
    let numbers = [0, 1, 0x0102_0304, u32::MAX];
    let mut racks: Vec<Rack> = (0..RACKS).map(|i| Rack::fresh(numbers[i], &mut random)).collect();
    for step in 0..CALLS {
        let i = random.below(RACKS);
        let rack = &mut racks[i];
        match random.below(100) {
            0..=2 => key(tally, &mut random, rack),
            3 => upset(&mut random, rack),
            4..=33 => seal(tally, &mut random, rack),
            34..=43 => seal_plain(tally, &mut random, rack),
            44..=83 => open(tally, &mut random, rack),
            _ => report(tally, &mut random, rack),
        }
        // A record of another rack, now and then.
        if step % 50 == 0 {
            if let Some(record) = racks[(i + 1) % RACKS].records.first().cloned() {
                racks[i].keep(record);
            }
        }
    }
}
