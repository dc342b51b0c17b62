//! Links, records and refusals: each function here says what the C call of its name has to do.
//!
//! A link is lent as bytes: 1 if it is keyed and anything else if not, link number, a sender's last
//! number or a receiver's highest, keys, behind those of a receiver its window, and last its width.
//! Numbers are big-endian. A function returns 0 or the refusal's number, and changes the slices only
//! where it returns 0.

use crate::cipher::{self, Block};
use crate::modes;
use crate::random::Random;
use crate::shares::{self, Sealing, Shares, PAIRS};

pub const SENDER: usize = 110;
pub const RECEIVER: usize = 54;
pub const SENDER_KEYS: usize = 96;
pub const RECEIVER_KEYS: usize = 32;
/// Where the keys of a link begin, and the window of a receiver.
pub const KEYS_AT: usize = 13;
const WINDOW_AT: usize = KEYS_AT + RECEIVER_KEYS;
pub const LONGEST: usize = 256;
/// Lengths of message at the edges of blocks.
pub const EDGES: [usize; 17] = [0, 1, 2, 15, 16, 17, 31, 32, 33, 48, 127, 128, 129, 240, 241, 255, 256];
/// Lengths of message, each with the bytes of tape that it needs.
pub const NEEDS: [(usize, usize); 5] = [(0, 2368), (1, 4672), (16, 4672), (17, 6976), (256, 39_232)];
/// Three tag shares and the tape count.
pub const SHARES: usize = 52;
pub const LANE: usize = 48;
/// The numbers that a receiver's window covers.
pub const COVERED: u64 = 64;

pub const BAD_KEYS: u32 = 1;
pub const LONG_MESSAGE: u32 = 2;
pub const SHORT_TAPE: u32 = 3;
pub const SHORT_OUTPUT: u32 = 4;
pub const NOT_A_BLOCK: u32 = 5;
pub const BAD_CALL: u32 = 6;
pub const BAD_RECORD: u32 = 7;
pub const OTHER_LINK: u32 = 8;
pub const WRONG_TAG: u32 = 9;
pub const NO_SEQUENCE: u32 = 10;
pub const NOT_KEYED: u32 = 20;
pub const NUMBERS_USED: u32 = 21;
pub const REPEATED: u32 = 22;
pub const BAD_ROUND: u32 = 33;
pub const BAD_LANE: u32 = 34;
pub const BELOW_WINDOW: u32 = 35;

// ---- the width

/// How wide the sequence numbers of a link are. 0 or 1 stands for it in the link's last byte.
#[derive(Clone, Copy, Debug, PartialEq)]
pub enum Width {
    Narrow = 0,
    Wide = 1,
}

pub const WIDTHS: [Width; 2] = [Width::Narrow, Width::Wide];
/// Numbers that tell a width: 0 is narrow, any other one wide.
pub const TOLD: [u32; 8] = [0, 1, 2, 255, 256, 65_536, 1 << 31, u32::MAX];
/// Last bytes of a link: one for each width, and others.
pub const WIDTH_BYTES: [u8; 7] = [0, 1, 2, 3, 127, 128, 255];
/// Sequence numbers, last numbers and highest ones at the edges of both widths.
pub const SEQUENCES: [u64; 22] = [
    0,
    1,
    2,
    255,
    256,
    65_535,
    65_536,
    0x0102_0304,
    0x7fff_ffff,
    0x8000_0000,
    0xffff_fffd,
    0xffff_fffe,
    0xffff_ffff,
    0x0001_0000_0000,
    0x0001_0000_0001,
    0x0001_ffff_ffff,
    0x0102_0304_0506_0708,
    0x7fff_ffff_ffff_ffff,
    0x8000_0000_0000_0000,
    0xffff_ffff_ffff_fffd,
    0xffff_ffff_ffff_fffe,
    0xffff_ffff_ffff_ffff,
];

impl Width {
    /// As keying and plain sealing are told it.
    pub fn told(wide: u32) -> Width {
        if wide == 0 {
            Width::Narrow
        } else {
            Width::Wide
        }
    }

    /// That of a link; None where its last byte is none.
    pub fn of(link: &[u8]) -> Option<Width> {
        WIDTHS.into_iter().find(|width| link.last() == Some(&(*width as u8)))
    }

    /// The last sequence number there is.
    pub fn last(self) -> u64 {
        match self {
            Width::Narrow => 4_294_967_295,
            Width::Wide => 18_446_744_073_709_551_615,
        }
    }

    /// The bytes of a sequence number in a record.
    fn size(self) -> usize {
        match self {
            Width::Narrow => 4,
            Width::Wide => 8,
        }
    }

    /// Link number and sequence number of a record: where its ciphertext begins.
    pub fn head(self) -> usize {
        4 + self.size()
    }

    /// What a record adds to its message: link number, sequence number, tag.
    pub fn added(self) -> usize {
        self.head() + 16
    }

    /// A sequence number as a record has it.
    pub fn bytes(self, sequence: u64) -> Vec<u8> {
        assert!(sequence <= self.last());
        sequence.to_be_bytes()[8 - self.size()..].to_vec()
    }

    /// The sequence number that a record has.
    pub fn sequence(self, record: &[u8]) -> u64 {
        record[4..self.head()].iter().fold(0, |number, byte| number << 8 | u64::from(*byte))
    }

    /// A random sequence number, of any length in bits.
    pub fn some_sequence(self, random: &mut Random) -> u64 {
        1 + (random.number() >> random.below(64)) % self.last()
    }

    /// Where checks of this width begin to count their numbers: a wide number above it has more bits
    /// than a narrow one.
    pub fn start(self) -> u64 {
        match self {
            Width::Narrow => 0,
            Width::Wide => 1 << 32,
        }
    }
}

// ---- links as bytes

fn number_at(bytes: &[u8], at: usize) -> u32 {
    u32::from_be_bytes(bytes[at..at + 4].try_into().unwrap())
}

fn long_number_at(bytes: &[u8], at: usize) -> u64 {
    u64::from_be_bytes(bytes[at..at + 8].try_into().unwrap())
}

fn put(bytes: &mut [u8], at: usize, what: &[u8]) {
    bytes[at..at + what.len()].copy_from_slice(what);
}

/// A sender's last number, or a receiver's highest.
pub fn last_of(link: &[u8]) -> u64 {
    long_number_at(link, 5)
}

/// Puts a sender's last number into its bytes, or a receiver's highest.
pub fn set_last(link: &mut [u8], last: u64) {
    put(link, 5, &last.to_be_bytes());
}

/// Makes it the last number there is at the link's width.
pub fn set_at_end(link: &mut [u8]) {
    let width = Width::of(link).expect("a width");
    set_last(link, width.last());
}

/// Puts a receiver's window into its bytes.
pub fn set_window(link: &mut [u8], window: Window) {
    set_last(link, window.highest);
    put(link, WINDOW_AT, &window.word.to_be_bytes());
}

/// Puts a byte in the place of a link's width.
pub fn set_width_byte(link: &mut [u8], byte: u8) {
    *link.last_mut().unwrap() = byte;
}

/// What the links of both sides begin with.
fn front(number: u32, last: u64, keys: &[u8]) -> Vec<u8> {
    [&[1], &number.to_be_bytes()[..], &last.to_be_bytes()[..], keys].concat()
}

/// The bytes of a keyed sender.
pub fn sending(number: u32, width: Width, last: u64, keys: &[u8]) -> Vec<u8> {
    [&front(number, last, keys)[..], &[width as u8]].concat()
}

/// The bytes of a keyed receiver.
pub fn receiving(number: u32, width: Width, window: Window, keys: &[u8]) -> Vec<u8> {
    [&front(number, window.highest, keys)[..], &window.word.to_be_bytes(), &[width as u8]].concat()
}

/// The width of a link that has to have this length; None if it is not keyed.
fn keyed_width(link: &[u8], length: usize) -> Option<Width> {
    if link.len() != length || link[0] != 1 {
        return None;
    }
    Width::of(link).filter(|width| last_of(link) <= width.last())
}

/// What a keyed sender holds.
pub struct Sender {
    pub number: u32,
    pub width: Width,
    pub last: u64,
    pub ke: Shares,
    pub km: Shares,
}

/// None for a link that is not keyed.
pub fn sender(link: &[u8]) -> Option<Sender> {
    let width = keyed_width(link, SENDER)?;
    let (number, last) = (number_at(link, 1), last_of(link));
    Some(Sender { number, width, last, ke: three(link, KEYS_AT), km: three(link, KEYS_AT + 48) })
}

fn three(bytes: &[u8], at: usize) -> Shares {
    std::array::from_fn(|i| bytes[at + 16 * i..][..16].try_into().unwrap())
}

/// KE and KM joined, one behind the other: what the receiver of a sender's records is keyed with.
pub fn joined_keys(sender_keys: &[u8]) -> Vec<u8> {
    [shares::join(&three(sender_keys, 0)), shares::join(&three(sender_keys, 48))].concat()
}

/// The keys of a sender, joined.
pub fn receiver_keys(link: &[u8]) -> Vec<u8> {
    joined_keys(&link[KEYS_AT..][..SENDER_KEYS])
}

// ---- keying

pub fn key_sender(link: &mut [u8], number: u32, wide: u32, keys: &[u8]) -> u32 {
    if link.len() != SENDER || keys.len() != SENDER_KEYS {
        return BAD_KEYS;
    }
    put(link, 0, &sending(number, Width::told(wide), 0, keys));
    0
}

pub fn key_receiver(link: &mut [u8], number: u32, wide: u32, keys: &[u8]) -> u32 {
    if link.len() != RECEIVER || keys.len() != RECEIVER_KEYS {
        return BAD_KEYS;
    }
    put(link, 0, &receiving(number, Width::told(wide), Window::default(), keys));
    0
}

// ---- the window

/// RFC 4303, section 3.4.3: the highest number that was accepted, and a word whose bit k says if the
/// number k below it was.
#[derive(Clone, Copy, Debug, Default, PartialEq)]
pub struct Window {
    pub highest: u64,
    pub word: u64,
}

impl Window {
    /// That of a receiver's bytes.
    pub fn of(link: &[u8]) -> Window {
        Window { highest: last_of(link), word: long_number_at(link, WINDOW_AT) }
    }

    /// What the bit of a number says. In a word of any bits, numbers below 1 have theirs too.
    fn has(&self, number: i128) -> bool {
        let below = i128::from(self.highest) - number;
        (0..i128::from(COVERED)).contains(&below) && (self.word >> below) & 1 == 1
    }

    /// Why a number is not admitted.
    pub fn refusal(&self, number: u64) -> Option<u32> {
        if number == 0 || u128::from(number) + u128::from(COVERED) <= u128::from(self.highest) {
            Some(BELOW_WINDOW)
        } else {
            self.has(number.into()).then_some(REPEATED)
        }
    }

    /// The window after a number is accepted: every number in it has the bit that it had, and this
    /// one has 1.
    pub fn with(&self, number: u64) -> Window {
        let highest = self.highest.max(number);
        let bit = |k: u64| {
            let covered = i128::from(highest) - i128::from(k);
            u64::from(covered == i128::from(number) || self.has(covered)) << k
        };
        Window { highest, word: (0..COVERED).map(bit).sum() }
    }
}

// ---- plain sealing and opening

/// Link number, sequence number, ciphertext, tag.
fn record_of(number: u32, width: Width, sequence: u64, ciphertext: &[u8], tag: &Block) -> Vec<u8> {
    [&number.to_be_bytes()[..], &width.bytes(sequence), ciphertext, tag].concat()
}

/// CTR under KE.
fn crypted(encrypt: impl FnMut(&Block) -> Block, number: u32, sequence: u64, text: &[u8]) -> Vec<u8> {
    modes::ctr(encrypt, |i| shares::counter_block(number, sequence, i), text)
}

/// CMAC under KM of counter block 0 followed by the ciphertext.
fn tag_of(encrypt: impl FnMut(&Block) -> Block, number: u32, sequence: u64, ciphertext: &[u8]) -> Block {
    modes::cmac(encrypt, &[&shares::counter_block(number, sequence, 0)[..], ciphertext].concat())
}

/// KE and KM.
pub fn two_keys(keys: &[u8]) -> (Block, Block) {
    (keys[..16].try_into().unwrap(), keys[16..32].try_into().unwrap())
}

/// A plain sealing with 32 bytes of keys: ciphertext and tag. `encrypt` takes the key and the block of
/// each call.
fn plain_steps(
    mut encrypt: impl FnMut(&Block, &Block) -> Block,
    keys: &[u8],
    number: u32,
    sequence: u64,
    message: &[u8],
) -> (Vec<u8>, Block) {
    let (ke, km) = two_keys(keys);
    let ciphertext = crypted(|block| encrypt(&ke, block), number, sequence, message);
    let tag = tag_of(|block| encrypt(&km, block), number, sequence, &ciphertext);
    (ciphertext, tag)
}

/// The record of a plain sealing.
pub fn plain_record(keys: &[u8], number: u32, width: Width, sequence: u64, message: &[u8]) -> Vec<u8> {
    let (ciphertext, tag) = plain_steps(cipher::encrypt, keys, number, sequence, message);
    record_of(number, width, sequence, &ciphertext, &tag)
}

/// The calls of a plain sealing: entry k - 1 has the key and the block of call k.
pub fn plain_calls(keys: &[u8], number: u32, sequence: u64, message: &[u8]) -> Vec<(Block, Block)> {
    let mut calls = Vec::new();
    let encrypt = |key: &Block, block: &Block| {
        calls.push((*key, *block));
        cipher::encrypt(key, block)
    };
    plain_steps(encrypt, keys, number, sequence, message);
    calls
}

pub fn seal_plain(
    keys: &[u8],
    number: u32,
    wide: u32,
    sequence: u64,
    message: &[u8],
    record: &mut [u8],
) -> u32 {
    let width = Width::told(wide);
    if keys.len() != RECEIVER_KEYS {
        return BAD_KEYS;
    }
    if sequence == 0 || sequence > width.last() {
        return NO_SEQUENCE;
    }
    if message.len() > LONGEST {
        return LONG_MESSAGE;
    }
    if record.len() < message.len() + width.added() {
        return SHORT_OUTPUT;
    }
    put(record, 0, &plain_record(keys, number, width, sequence, message));
    0
}

pub fn open(link: &mut [u8], record: &[u8], message: &mut [u8]) -> u32 {
    let Some(width) = keyed_width(link, RECEIVER) else { return NOT_KEYED };
    if record.len() < width.added() || record.len() > width.added() + LONGEST {
        return BAD_RECORD;
    }
    let number = number_at(link, 1);
    if number_at(record, 0) != number {
        return OTHER_LINK;
    }
    let (head, tag) = record.split_at(record.len() - 16);
    let ciphertext = &head[width.head()..];
    if message.len() < ciphertext.len() {
        return SHORT_OUTPUT;
    }
    let sequence = width.sequence(record);
    let window = Window::of(link);
    if let Some(refusal) = window.refusal(sequence) {
        return refusal;
    }
    let (ke, km) = two_keys(&link[KEYS_AT..]);
    if tag_of(|block| cipher::encrypt(&km, block), number, sequence, ciphertext) != tag {
        return WRONG_TAG;
    }
    put(message, 0, &crypted(|block| cipher::encrypt(&ke, block), number, sequence, ciphertext));
    set_window(link, window.with(sequence));
    0
}

// ---- shared sealing and the report

/// The sealing that a keyed link would do next.
pub fn next_sealing(link: &Sender, message: &[u8], tape: &[u8]) -> Sealing {
    shares::seal(link.number, link.last + 1, &link.ke, &link.km, message, tape)
}

/// The refusals that sealing and the report have in common, or else the link.
fn ready(link: &[u8], message: &[u8], tape: &[u8]) -> Result<Sender, u32> {
    let sender = sender(link).ok_or(NOT_KEYED)?;
    if sender.last == sender.width.last() {
        return Err(NUMBERS_USED);
    }
    if message.len() > LONGEST {
        return Err(LONG_MESSAGE);
    }
    if tape.len() < shares::tape_need(message.len()) {
        return Err(SHORT_TAPE);
    }
    Ok(sender)
}

pub fn seal(link: &mut [u8], message: &[u8], tape: &[u8], record: &mut [u8], shares: &mut [u8]) -> u32 {
    let sender = match ready(link, message, tape) {
        Ok(sender) => sender,
        Err(refusal) => return refusal,
    };
    if record.len() < message.len() + sender.width.added() || shares.len() < SHARES {
        return SHORT_OUTPUT;
    }
    let sealing = next_sealing(&sender, message, tape);
    let Sender { number, width, last, .. } = sender;
    let tag = shares::join(&sealing.tag);
    put(record, 0, &record_of(number, width, last + 1, &sealing.ciphertext, &tag));
    put(shares, 0, &sealing.tag.concat());
    put(shares, 48, &(sealing.used as u32).to_be_bytes());
    set_last(link, last + 1);
    0
}

pub fn report(
    link: &[u8],
    message: &[u8],
    tape: &[u8],
    call: u32,
    round: u32,
    lane: u32,
    out: &mut [u8],
) -> u32 {
    let sender = match ready(link, message, tape) {
        Ok(sender) => sender,
        Err(refusal) => return refusal,
    };
    let calls = shares::call_count(message.len()) as u32;
    if !(1..=calls).contains(&call) {
        return BAD_CALL;
    }
    if !(1..=PAIRS as u32).contains(&round) {
        return BAD_ROUND;
    }
    if lane > 2 {
        return BAD_LANE;
    }
    if out.len() < LANE {
        return SHORT_OUTPUT;
    }
    let sealing = next_sealing(&sender, message, tape);
    put(out, 0, &sealing.calls[call as usize - 1].rounds[round as usize - 1].lane(lane as usize));
    0
}
