//! A call in place of the archive's, which reads where it is told: outside its slice it must not
//! come back.

use crate::lent::{hold, Call, Lent};
use crate::tally::Tally;

#[derive(Clone)]
struct Astray {
    slice: Vec<u8>,
    at: isize,
}

impl Call for Astray {
    fn name(&self) -> &'static str {
        "astray"
    }

    fn slices(&mut self) -> Vec<(&'static str, &mut Vec<u8>)> {
        vec![("slice", &mut self.slice)]
    }

    unsafe fn make(&self, lent: &[Lent]) -> u32 {
        lent[0].pointer.wrapping_offset(self.at).read_volatile();
        0
    }

    fn own(&mut self) -> u32 {
        0
    }
}

/// Reads one byte, counted from the start of 16 lent ones.
pub fn read(tally: &mut Tally, at: isize) {
    hold(tally, &Astray { slice: vec![0; 16], at }, 0);
}
