//! Counts the checks, and says what failed.
//!
//! Under `--self-test` one bit of every expected value is flipped before it is compared. Then each
//! check has to fail; one that still passes looks at nothing.

use crate::hex::First;
use crate::random::Random;
use std::fmt::Arguments;

/// How many failures of a group are printed.
const SHOWN: u64 = 5;

pub struct Tally {
    pub seed: u64,
    self_test: bool,
    group: &'static str,
    passed: u64,
    failed: u64,
    flips: u64,
    all_passed: u64,
    all_failed: u64,
}

impl Tally {
    pub fn new(seed: u64, self_test: bool) -> Tally {
        Tally { seed, self_test, group: "", passed: 0, failed: 0, flips: 0, all_passed: 0, all_failed: 0 }
    }

    /// Runs one named group of checks and prints its count.
    pub fn group(&mut self, name: &'static str, checks: impl FnOnce(&mut Tally)) {
        self.group = name;
        self.passed = 0;
        self.failed = 0;
        checks(self);
        if self.passed + self.failed == 0 {
            self.fail(format_args!("no check in this group"), &[], &[]);
        }
        println!("{name}: {} passed, {} failed", self.passed, self.failed);
        self.all_passed += self.passed;
        self.all_failed += self.failed;
    }

    /// A fresh stream of random bytes: the same for the same seed, whatever ran before.
    pub fn random(&self) -> Random {
        Random::new(self.seed)
    }

    /// Another such stream for each number.
    pub fn random_for(&self, number: usize) -> Random {
        Random::new(Random::new(self.seed ^ number as u64).number())
    }

    /// Holds bytes to those expected.
    pub fn same(&mut self, what: Arguments, got: &[u8], expected: &[u8]) {
        if self.self_test {
            let flawed = self.flipped(expected);
            self.compare(what, got, &flawed);
        } else {
            self.compare(what, got, expected);
        }
    }

    /// Holds a number to the one expected.
    pub fn same_number(&mut self, what: Arguments, got: u32, expected: u32) {
        self.same(what, &got.to_be_bytes(), &expected.to_be_bytes());
    }

    /// Holds a statement to be true or false.
    pub fn same_flag(&mut self, what: Arguments, got: bool, expected: bool) {
        self.same(what, &[got as u8], &[expected as u8]);
    }

    /// The expected bytes with one bit flipped, another one each time.
    fn flipped(&mut self, expected: &[u8]) -> Vec<u8> {
        let mut flawed = expected.to_vec();
        if flawed.is_empty() {
            flawed.push(0);
        } else {
            let bit = self.flips as usize % (8 * flawed.len());
            flawed[bit / 8] ^= 1 << (bit % 8);
        }
        self.flips += 1;
        flawed
    }

    fn compare(&mut self, what: Arguments, got: &[u8], expected: &[u8]) {
        if got == expected {
            self.passed += 1;
            if self.self_test && self.passed <= SHOWN {
                println!("{}: passed although the expected value is wrong: {what}", self.group);
            }
        } else {
            self.fail(what, got, expected);
        }
    }

    fn fail(&mut self, what: Arguments, got: &[u8], expected: &[u8]) {
        self.failed += 1;
        if self.failed <= SHOWN && !self.self_test {
            println!("FAILED (seed {:#x}) {}: {what}", self.seed, self.group);
            println!("  got      {}", First(256, got));
            println!("  expected {}", First(256, expected));
        }
    }

    /// Prints the count of all groups; true if all is well.
    pub fn summary(&self) -> bool {
        println!("{} passed, {} failed", self.all_passed, self.all_failed);
        self.all_failed == 0
    }

    /// True if, under `--self-test`, every check failed.
    pub fn all_caught(&self) -> bool {
        self.all_passed == 0 && self.all_failed > 0
    }
}
