//! Bytes as hexadecimal digits.

use std::fmt::{Display, Formatter, Result};

/// Prints as lower-case digits.
pub struct Hex<'a>(pub &'a [u8]);

impl Display for Hex<'_> {
    fn fmt(&self, f: &mut Formatter) -> Result {
        self.0.iter().try_for_each(|byte| write!(f, "{byte:02x}"))
    }
}

/// Prints the first bytes only, at most this many, and `..` where there are more.
pub struct First<'a>(pub usize, pub &'a [u8]);

impl Display for First<'_> {
    fn fmt(&self, f: &mut Formatter) -> Result {
        let First(most, bytes) = self;
        if bytes.len() <= *most {
            write!(f, "{}", Hex(bytes))
        } else {
            write!(f, "{}..", Hex(&bytes[..*most]))
        }
    }
}

/// The bytes that digits say, two for each.
pub fn bytes(digits: &str) -> Option<Vec<u8>> {
    if digits.len() % 2 != 0 || !digits.bytes().all(|digit| digit.is_ascii_hexdigit()) {
        return None;
    }
    (0..digits.len()).step_by(2).map(|i| u8::from_str_radix(&digits[i..i + 2], 16).ok()).collect()
}

/// The 16 bytes that 32 digits say.
pub fn block(digits: &str) -> Option<[u8; 16]> {
    bytes(digits)?.try_into().ok()
}
