//! Holds the C calls of librasppuce.a to code written for these tests alone.
//!
//!     tests [SEED]                all checks; the last line is `N passed, 0 failed`
//!     tests --self-test [SEED]    one bit of each expected value is flipped: every check has to
//!                                 fail, and the exit status is 1; it is 0 if one passed
//!     tests encrypt KEY BLOCK     32 hexadecimal digits each: the ciphertext, by the tests' own cipher
//!     tests decrypt KEY BLOCK     the plaintext
//!     tests cases COUNT [SEED]    lines of key, block, ciphertext: the published vectors, then
//!                                 COUNT random ones by the tests' own cipher
//!     tests vectors | records | lanes | rack | marks
//!                                 what the program of this name has to print
//!     tests document              what has to stand in docs/vectors.txt, by the tests' own code
//!     tests held FILE             holds the C calls to the vectors of such a file; ends as the checks
//!     tests --self-test held FILE the same with one bit of each expected value flipped
//!     tests read AT               reads byte AT of 16 bytes lent as to a C call: at -1 and at 16 a
//!                                 signal has to end the run

mod aes;
mod astray;
mod blocks;
mod body;
mod cipher;
mod definition;
mod document;
mod groups;
mod guarded;
mod held;
mod hex;
mod keying;
mod lanes;
mod lent;
mod links;
mod modes;
mod opening;
mod plain;
mod random;
mod reading;
mod runs;
mod samples;
mod sealing;
mod shares;
mod tally;
mod vectors;
mod window;
mod writing;

use hex::Hex;
use random::Random;
use std::env;
use std::fs;
use std::process::ExitCode;
use tally::Tally;

const SEED: u64 = 0x0123_4567_89ab_cdef;

/// Every group of checks: a line here for each.
const GROUPS: &[(&str, fn(&mut Tally))] = &[
    ("own cipher, tables", definition::tables),
    ("own cipher, published vectors", vectors::own_cipher),
    ("own modes, examples of NIST", definition::modes),
    ("own shares, S-box and calls", definition::shares),
    ("own values", definition::values),
    ("own widths", definition::widths),
    ("own window", definition::window),
    ("block calls, published vectors", blocks::published),
    ("block calls, random keys and blocks", blocks::random),
    ("block calls, single bits", blocks::single_bits),
    ("block calls, every byte at every place", blocks::every_byte),
    ("block calls, lengths 0 to 40", blocks::short_lengths),
    ("block calls, longer slices", blocks::long_lengths),
    ("keying, lengths", keying::lengths),
    ("keying, links", keying::links),
    ("keying, widths", keying::widths),
    ("plain sealing, messages", plain::messages),
    ("plain sealing, outputs", plain::outputs),
    ("plain sealing, keys", plain::keys),
    ("plain sealing, numbers", plain::numbers),
    ("plain sealing, both widths", plain::both_widths),
    ("plain sealing, refusals alone and together", plain::refusals),
    ("plain sealing, random", plain::random),
    ("opening, messages", opening::messages),
    ("opening, outputs", opening::outputs),
    ("opening, damaged records", opening::damaged),
    ("opening, records cut and extended", opening::cut_and_extended),
    ("opening, lengths", opening::lengths),
    ("opening, other links", opening::other_links),
    ("opening, the other width", opening::other_width),
    ("opening, links not keyed", opening::not_keyed),
    ("opening, highest numbers", opening::highest_numbers),
    ("opening, refusals alone and together", opening::refusals),
    ("window, numbers", window::numbers),
    ("window, every bit", window::every_bit),
    ("window, number 0", window::number_zero),
    ("window, shifts", window::shifts),
    ("window, refusals alone and together", window::refusals),
    ("window, across the edges", window::edges),
    ("window, a kept link against a set of numbers", window::kept_link),
    ("window, records over two cables", window::two_cables),
    ("sealing, messages", sealing::messages),
    ("sealing, as plain sealing", sealing::as_plain),
    ("sealing, tapes", sealing::tapes),
    ("sealing, the last pair of the tape", sealing::last_pair),
    ("sealing, outputs", sealing::outputs),
    ("sealing, numbers", sealing::numbers),
    ("sealing, links not keyed", sealing::not_keyed),
    ("sealing, refusals alone and together", sealing::refusals),
    ("sealing, a kept link", sealing::kept_link),
    ("report, every lane of some sealings", lanes::every_lane),
    ("report, tag shares from the last lanes", lanes::tag_shares),
    ("report, masks of an output in later calls", lanes::later_calls),
    ("report, ranges", lanes::ranges),
    ("report, lengths", lanes::lengths),
    ("report, last numbers", lanes::numbers),
    ("report, refusals alone and together", lanes::refusals),
    ("report, one tape", lanes::one_tape),
    ("bodies read, lengths", reading::lengths),
    ("bodies read, each kind at each place", reading::every_kind),
    ("bodies read, every order", reading::every_order),
    ("bodies read, repeated kinds", reading::repeated),
    ("bodies read, missing kinds", reading::missing),
    ("bodies read, offsets", reading::offsets),
    ("bodies read, fields", reading::fields),
    ("bodies read, single bits", reading::single_bits),
    ("bodies read, outputs", reading::outputs),
    ("bodies read, refusals alone and together", reading::refusals),
    ("bodies read, random words", reading::random_words),
    ("bodies read, random bodies", reading::random_bodies),
    ("bodies written, values", writing::values),
    ("bodies written, offsets", writing::offsets),
    ("bodies written, every offset in range", writing::every_offset),
    ("bodies written, single bits", writing::single_bits),
    ("bodies written, outputs", writing::outputs),
    ("bodies written, refusals alone and together", writing::refusals),
    ("bodies written, random", writing::random),
    ("bodies written, then read", writing::read_back),
    ("bodies read, then written", writing::only_body),
    ("all calls, mixed, over kept links", runs::mixed),
];

/// The programs with stored output: each with what prints the same by the code of these tests.
const PROGRAMS: &[(&str, fn())] = &[
    ("vectors", samples::vectors),
    ("records", samples::records),
    ("lanes", samples::lanes),
    ("rack", samples::rack),
    ("marks", samples::marks),
];

fn main() -> ExitCode {
    let words: Vec<String> = env::args().skip(1).collect();
    let words: Vec<&str> = words.iter().map(String::as_str).collect();
    match obey(&words) {
        Some(code) => code,
        None => {
            eprintln!("usage: tests [--self-test] [SEED]");
            eprintln!("       tests encrypt KEY BLOCK | decrypt KEY BLOCK | cases COUNT [SEED]");
            eprintln!("       tests vectors | records | lanes | rack | marks | read AT");
            eprintln!("       tests document | [--self-test] held FILE");
            ExitCode::from(2)
        }
    }
}

/// Does what the words ask; None where they make no sense.
fn obey(words: &[&str]) -> Option<ExitCode> {
    match words {
        ["encrypt", key, block] => {
            println!("{}", Hex(&cipher::encrypt(&hex::block(key)?, &hex::block(block)?)));
            Some(ExitCode::SUCCESS)
        }
        ["decrypt", key, block] => {
            println!("{}", Hex(&cipher::decrypt(&hex::block(key)?, &hex::block(block)?)));
            Some(ExitCode::SUCCESS)
        }
        ["cases", count] => print_cases(count.parse().ok()?, SEED),
        ["cases", count, seed] => print_cases(count.parse().ok()?, number(seed)?),
        ["read", at] => {
            astray::read(&mut Tally::new(SEED, false), at.parse().ok()?);
            Some(ExitCode::SUCCESS)
        }
        ["document"] => {
            document::print();
            Some(ExitCode::SUCCESS)
        }
        ["held", file] => Some(hold_file(file, false)),
        ["--self-test", "held", file] => Some(hold_file(file, true)),
        ["--self-test"] => Some(run(SEED, true, run_groups)),
        ["--self-test", seed] => Some(run(number(seed)?, true, run_groups)),
        [] => Some(run(SEED, false, run_groups)),
        [word] => match PROGRAMS.iter().find(|(name, _)| name == word) {
            Some((_, print)) => {
                print();
                Some(ExitCode::SUCCESS)
            }
            None => Some(run(number(word)?, false, run_groups)),
        },
        _ => None,
    }
}

/// A seed in decimal digits, or in hexadecimal ones after 0x.
fn number(word: &str) -> Option<u64> {
    match word.strip_prefix("0x") {
        Some(digits) => u64::from_str_radix(digits, 16).ok(),
        None => word.parse().ok(),
    }
}

fn run_groups(tally: &mut Tally) {
    println!("seed {:#x}", tally.seed);
    for (name, checks) in GROUPS {
        tally.group(name, *checks);
    }
}

/// Runs checks and prints their count. The status is 1 if one failed or, under `--self-test`, if all
/// did.
fn run(seed: u64, self_test: bool, checks: impl FnOnce(&mut Tally)) -> ExitCode {
    let mut tally = Tally::new(seed, self_test);
    if self_test {
        println!("one bit of each expected value is flipped, so every check has to fail");
    }
    checks(&mut tally);
    let all_passed = tally.summary();
    let failed = if self_test { tally.all_caught() } else { !all_passed };
    if failed {
        ExitCode::FAILURE
    } else {
        ExitCode::SUCCESS
    }
}

/// Holds the C calls to the vectors of a file.
fn hold_file(file: &str, self_test: bool) -> ExitCode {
    match fs::read_to_string(file) {
        Ok(text) => run(SEED, self_test, |tally| held::hold(tally, &text)),
        Err(error) => {
            eprintln!("{file}: {error}");
            ExitCode::from(2)
        }
    }
}

fn print_cases(count: usize, seed: u64) -> Option<ExitCode> {
    for vector in &vectors::PUBLISHED {
        println!("{} {} {}", vector.key, vector.plaintext, vector.ciphertext);
    }
    let mut random = Random::new(seed);
    for _ in 0..count {
        let (key, block) = (random.block(), random.block());
        println!("{} {} {}", Hex(&key), Hex(&block), Hex(&cipher::encrypt(&key, &block)));
    }
    Some(ExitCode::SUCCESS)
}
