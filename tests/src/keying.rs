//! Keying: `rasppuce_key_sender` and `rasppuce_key_receiver`.

use crate::lent::{hold_answer, Call, Lent};
use crate::links::{self, Width, BAD_KEYS, NOT_KEYED, RECEIVER, RECEIVER_KEYS, SENDER, SENDER_KEYS, TOLD};
use crate::tally::Tally;

extern "C" {
    fn rasppuce_key_sender(
        link: *mut u8,
        link_len: usize,
        number: u32,
        wide: u32,
        keys: *const u8,
        keys_len: usize,
    ) -> u32;
    fn rasppuce_key_receiver(
        link: *mut u8,
        link_len: usize,
        number: u32,
        wide: u32,
        keys: *const u8,
        keys_len: usize,
    ) -> u32;
}

/// One of the two: its function, what it has to do, and the lengths of link and keys that it takes.
pub struct Side {
    name: &'static str,
    call: unsafe extern "C" fn(*mut u8, usize, u32, u32, *const u8, usize) -> u32,
    own: fn(&mut [u8], u32, u32, &[u8]) -> u32,
    link: usize,
    keys: usize,
}

pub static SENDING: Side = Side {
    name: "rasppuce_key_sender",
    call: rasppuce_key_sender,
    own: links::key_sender,
    link: SENDER,
    keys: SENDER_KEYS,
};

pub static RECEIVING: Side = Side {
    name: "rasppuce_key_receiver",
    call: rasppuce_key_receiver,
    own: links::key_receiver,
    link: RECEIVER,
    keys: RECEIVER_KEYS,
};

#[derive(Clone)]
pub struct Key {
    pub side: &'static Side,
    pub link: Vec<u8>,
    pub number: u32,
    pub wide: u32,
    pub keys: Vec<u8>,
}

impl Call for Key {
    fn name(&self) -> &'static str {
        self.side.name
    }

    fn slices(&mut self) -> Vec<(&'static str, &mut Vec<u8>)> {
        vec![("link", &mut self.link), ("keys", &mut self.keys)]
    }

    fn numbers(&self) -> Vec<(&'static str, i128)> {
        vec![("number", self.number.into()), ("wide", self.wide.into())]
    }

    unsafe fn make(&self, lent: &[Lent]) -> u32 {
        let [link, keys] = lent else { panic!("two slices") };
        (self.side.call)(link.pointer, link.length, self.number, self.wide, keys.pointer, keys.length)
    }

    fn own(&mut self) -> u32 {
        (self.side.own)(&mut self.link, self.number, self.wide, &self.keys)
    }
}

/// A link that was all zeros, as the C call keys it.
pub fn keyed(tally: &mut Tally, side: &'static Side, number: u32, width: Width, keys: &[u8]) -> Vec<u8> {
    let call = Key { side, link: vec![0; side.link], number, wide: width as u32, keys: keys.to_vec() };
    hold_answer(tally, &call, 0, 0).left.link
}

/// Holds a call on a good link of this side to what counts as keyed: links of every length to 130, with
/// every first byte, and with every last byte that is no width; and a fresh link.
pub fn hold_links<C: Call>(tally: &mut Tally, side: &Side, good: &C, link: fn(&mut C) -> &mut Vec<u8>) {
    let mut hold = |change: &dyn Fn(&mut Vec<u8>), is_keyed: bool, shift: usize| {
        let mut call = good.clone();
        change(link(&mut call));
        hold_answer(tally, &call, if is_keyed { 0 } else { NOT_KEYED }, shift);
    };
    for size in (0..=130).chain([256 + side.link, 65_536 + side.link]) {
        hold(&|link| link.resize(size, 1), size == side.link, size);
    }
    for byte in 0..=255 {
        hold(&|link| link[0] = byte, byte == 1, byte.into());
    }
    for byte in 2..=255 {
        hold(&|link| links::set_width_byte(link, byte), false, byte.into());
    }
    hold(&|link| link.fill(0), false, 0);
}

/// Holds both calls on links and keys of these lengths, whatever stood in the link before.
fn hold_both(tally: &mut Tally, link: usize, keys: usize, number: u32, wide: u32) {
    let mut random = tally.random_for(1000 * link + keys);
    let (link, keys) = (random.bytes(link), random.bytes(keys));
    for side in [&SENDING, &RECEIVING] {
        let fits = link.len() == side.link && keys.len() == side.keys;
        let call = Key { side, link: link.clone(), number, wide, keys: keys.clone() };
        hold_answer(tally, &call, if fits { 0 } else { BAD_KEYS }, random.number() as usize);
    }
}

/// Every two lengths of link and keys to 130, and some longer ones.
pub fn lengths(tally: &mut Tally) {
    let mut number = 0u32;
    for link in 0..=130 {
        for keys in 0..=130 {
            hold_both(tally, link, keys, number, TOLD[(link + keys) % TOLD.len()]);
            number = number.wrapping_add(0x0101_0107);
        }
    }
    for link in [49, 53, 54, 55, 105, 109, 110, 111, 256 + 54, 256 + 110, 65_536 + 54, 65_536 + 110] {
        for keys in [32, 96, 256 + 32, 256 + 96, 65_536 + 32, 65_536 + 96] {
            for wide in TOLD {
                hold_both(tally, link, keys, 7, wide);
            }
        }
    }
}

/// Fresh links, links keyed before, and link numbers at the ends of their range. A keyed link has
/// used no number, and a receiver's window is clear.
pub fn links(tally: &mut Tally) {
    let mut random = tally.random();
    for side in [&SENDING, &RECEIVING] {
        for number in [0, 1, 2, 255, 256, 65_536, 0x0102_0304, 0x7fff_ffff, 0x8000_0000, u32::MAX] {
            for byte in 0..=255 {
                let mut link = random.bytes(side.link);
                link[0] = byte;
                let wide = TOLD[usize::from(byte) % TOLD.len()];
                let call = Key { side, link, number, wide, keys: random.bytes(side.keys) };
                hold_answer(tally, &call, 0, random.number() as usize);
            }
        }
    }
}

/// What keying makes of a fresh link, whatever number tells the width, and of one with any last byte.
pub fn widths(tally: &mut Tally) {
    for side in [&SENDING, &RECEIVING] {
        let keys = vec![9; side.keys];
        let mut narrow = [&[1, 0, 0, 0, 5, 0, 0, 0, 0, 0, 0, 0, 0], &keys[..]].concat();
        narrow.resize(side.link, 0);
        let mut wide = narrow.clone();
        wide[side.link - 1] = 1;
        for told in TOLD {
            let expected = if told == 0 { &narrow } else { &wide };
            for before in links::WIDTH_BYTES {
                let mut link = vec![0; side.link];
                links::set_width_byte(&mut link, before);
                let call = Key { side, link, number: 5, wide: told, keys: keys.clone() };
                let left = hold_answer(tally, &call, 0, usize::from(before)).left.link;
                tally.same(format_args!("a link told {told}, {}", side.name), &left, expected);
            }
        }
        for bit in 0..32 {
            let call = Key { side, link: vec![0; side.link], number: 5, wide: 1 << bit, keys: keys.clone() };
            let left = hold_answer(tally, &call, 0, bit).left.link;
            tally.same(format_args!("a link told bit {bit}, {}", side.name), &left, &wide);
        }
    }
}
