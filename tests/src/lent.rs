//! A C call with everything that it is lent, held to what the code of these tests says it does.

use crate::guarded::{Guarded, Place};
use crate::hex::First;
use crate::tally::Tally;
use std::fmt::{self, Display, Formatter};
use std::ptr;

/// A slice as a C call takes it.
pub struct Lent {
    pub pointer: *mut u8,
    pub length: usize,
}

/// The numbers that a call is given, and its slices as they stand before it.
pub trait Call: Clone {
    fn name(&self) -> &'static str;

    /// The slices in the order of the C call, each with its name.
    fn slices(&mut self) -> Vec<(&'static str, &mut Vec<u8>)>;

    /// The numbers, each with its name.
    fn numbers(&self) -> Vec<(&'static str, i128)> {
        Vec::new()
    }

    /// Makes the C call with these slices in place of its own.
    ///
    /// # Safety
    ///
    /// Every pointer with a length over 0 has to lead to as many bytes, in the order of `slices`.
    unsafe fn make(&self, lent: &[Lent]) -> u32;

    /// What the call has to do, by the code of these tests: the answer, and the slices after it.
    fn own(&mut self) -> u32;
}

/// What a call did: its answer, and the slices as it left them.
pub struct Done<C> {
    pub answer: u32,
    pub left: C,
}

/// Makes the call and holds everything it can be seen to do to the code of these tests.
pub fn hold<C: Call>(tally: &mut Tally, before: &C, shift: usize) -> Done<C> {
    let mut after = before.clone();
    let answer = after.own();
    hold_as(tally, before, answer, &after, shift)
}

/// As `hold`, where the answer is known besides.
pub fn hold_answer<C: Call>(tally: &mut Tally, before: &C, answer: u32, shift: usize) -> Done<C> {
    let done = hold(tally, before, shift);
    tally.same_number(format_args!("known answer of {}", Shown(before)), done.answer, answer);
    done
}

/// Makes the call and holds everything it can be seen to do: its answer, all slices after it, and
/// the guards beside each. It is made with all slices in each of three places: before a forbidden
/// page, after one, and shifted. A call with empty slices is made in each once more, with null
/// pointers in their place.
pub fn hold_as<C: Call>(tally: &mut Tally, before: &C, answer: u32, after: &C, shift: usize) -> Done<C> {
    let has_empty = before.clone().slices().iter().any(|(_, slice)| slice.is_empty());
    let [.., done] = [Place::BeforePage, Place::AfterPage, Place::Shifted(shift)].map(|place| {
        if has_empty {
            hold_once(tally, before, answer, after, place, true);
        }
        hold_once(tally, before, answer, after, place, false)
    });
    done
}

fn hold_once<C: Call>(
    tally: &mut Tally,
    before: &C,
    answer: u32,
    after: &C,
    place: Place,
    nulls: bool,
) -> Done<C> {
    let mut left = before.clone();
    let mut guarded: Vec<Guarded> = left
        .slices()
        .iter()
        .enumerate()
        .map(|(i, (_, slice))| Guarded::new(slice, place.of_slice(i)))
        .collect();
    let lent: Vec<Lent> = guarded
        .iter_mut()
        .map(|slice| match slice.length() {
            0 if nulls => Lent { pointer: ptr::null_mut(), length: 0 },
            length => Lent { pointer: slice.pointer_mut(), length },
        })
        .collect();
    // Each pointer leads into one of `guarded`, which nothing else touches until the call is over.
    let got = unsafe { before.make(&lent) };

    let with = if nulls { " with nulls" } else { "" };
    tally.same_number(format_args!("answer, {place:?}{with}, of {}", Shown(before)), got, answer);
    let mut expected = after.clone();
    for ((name, slice), guarded) in expected.slices().into_iter().zip(&guarded) {
        tally.same(
            format_args!("{name} and guards, {place:?}{with}, after {}", Shown(before)),
            guarded.whole(),
            &guarded.whole_with(slice),
        );
    }
    for ((_, slice), guarded) in left.slices().into_iter().zip(&guarded) {
        *slice = guarded.content().to_vec();
    }
    Done { answer: got, left }
}

/// Changes an acceptable call so that a refusal applies.
pub type Fault<C> = fn(&mut C);

/// Holds a call to the order of its refusals. `causes` has them in that order, each with ways to
/// bring it about. For every choice of at most one way for each, the answer has to be the first
/// refusal that was brought about, or 0 where none was.
pub fn hold_order<C: Call>(tally: &mut Tally, good: &C, causes: &[(u32, &[Fault<C>])]) {
    let mut choice = vec![0; causes.len()];
    let mut shift = 0;
    loop {
        // The last one first: a link that is cut short can no longer be changed otherwise.
        let mut call = good.clone();
        let mut answer = 0;
        for (i, (number, ways)) in causes.iter().enumerate().rev() {
            if choice[i] > 0 {
                ways[choice[i] - 1](&mut call);
                answer = *number;
            }
        }
        hold_answer(tally, &call, answer, shift);
        shift += 0x12345;
        let Some(next) = (0..causes.len()).find(|i| choice[*i] < causes[*i].1.len()) else {
            return;
        };
        choice[next] += 1;
        choice[..next].fill(0);
    }
}

/// Prints a call: its name, its numbers, and the length and first bytes of each slice.
pub struct Shown<'a, C>(pub &'a C);

impl<C: Call> Display for Shown<'_, C> {
    fn fmt(&self, f: &mut Formatter) -> fmt::Result {
        let mut call = self.0.clone();
        write!(f, "{}", call.name())?;
        for (name, number) in call.numbers() {
            write!(f, ", {name} {number}")?;
        }
        for (name, slice) in call.slices() {
            write!(f, ", {name} of {} bytes {}", slice.len(), First(12, slice))?;
        }
        Ok(())
    }
}
