//! What the programs `vectors`, `records`, `lanes`, `rack` and `marks` have to print, by the code
//! of these tests.

use crate::body::{self, Mark};
use crate::cipher;
use crate::hex::Hex;
use crate::links::{self, Width};
use crate::shares;
use crate::vectors::PUBLISHED;

const NUMBER: u32 = 0x0102_0304;

/// Bytes that begin at `first` and rise by `step`, modulo 256.
fn rising(length: usize, first: usize, step: usize) -> Vec<u8> {
    (0..length).map(|i| (first + step * i) as u8).collect()
}

fn message(length: usize) -> Vec<u8> {
    rising(length, 3, 7)
}

/// Digits, or `-` for no bytes.
fn digits(bytes: &[u8]) -> String {
    if bytes.is_empty() {
        "-".to_string()
    } else {
        Hex(bytes).to_string()
    }
}

// ---- the published vectors

pub fn vectors() {
    for (i, vector) in PUBLISHED.iter().enumerate() {
        let (key, plaintext, ciphertext) = vector.blocks();
        assert_eq!(cipher::encrypt(&key, &plaintext), ciphertext);
        assert_eq!(cipher::decrypt(&key, &ciphertext), plaintext);
        for engine in ["table", "packed"] {
            println!("{} encrypt {engine} {}", i + 1, vector.ciphertext);
            println!("{} decrypt {engine} {}", i + 1, vector.plaintext);
        }
    }
}

// ---- plain sealing and opening

fn seal_plain(keys: &[u8], width: Width, sequence: u64, message: &[u8], room: usize) -> (u32, Vec<u8>) {
    let mut record = vec![0; room];
    let number = links::seal_plain(keys, NUMBER, width as u32, sequence, message, &mut record);
    (number, record)
}

fn keyed_receiver(width: Width, keys: &[u8]) -> Vec<u8> {
    let mut link = vec![0; links::RECEIVER];
    assert_eq!(links::key_receiver(&mut link, NUMBER, width as u32, keys), 0);
    link
}

fn print_opened(link: &mut [u8], record: &[u8]) {
    let width = Width::of(link).expect("a width");
    let mut message = vec![0; record.len() - width.added()];
    assert_eq!(links::open(link, record, &mut message), 0);
    println!("open {} {}", message.len(), digits(&message));
}

/// Prints the record of a message, and opens it.
fn print_sealed_and_opened(keys: &[u8], link: &mut [u8], sequence: u64, message: &[u8]) {
    let width = Width::of(link).expect("a width");
    let (number, record) = seal_plain(keys, width, sequence, message, message.len() + width.added());
    assert_eq!(number, 0);
    println!("seal {} {}", message.len(), digits(&record));
    print_opened(link, &record);
}

fn print_answer(what: &str, link: &mut [u8], record: &[u8], room: usize) {
    println!("open {what} {}", links::open(link, record, &mut vec![0; room]));
}

pub fn records() {
    let keys = rising(links::RECEIVER_KEYS, 0, 1);
    let mut link = keyed_receiver(Width::Narrow, &keys);
    for (i, length) in [0, 1, 15, 16, 17, 31, 32, 255, 256].into_iter().enumerate() {
        print_sealed_and_opened(&keys, &mut link, i as u64 + 1, &message(length));
    }

    let seal = |keys: &[u8], sequence: u64, length: usize, room: usize| {
        seal_plain(keys, Width::Narrow, sequence, &message(length), room)
    };
    println!("seal 257 bytes {}", seal(&keys, 1, 257, 281).0);
    println!("seal sequence 0 {}", seal(&keys, 0, 17, 281).0);
    println!("seal keys of 31 bytes {}", seal(&keys[..31], 1, 17, 281).0);
    println!("seal output one short {}", seal(&keys, 1, 17, 40).0);
    let (number, record) = seal(&keys, 10, 17, 41);
    println!("seal 17 bytes {number}");

    let damaged = |at: usize| {
        let mut record = record.clone();
        record[at] = record[at].wrapping_add(1);
        record
    };
    print_answer("not keyed", &mut [0; links::RECEIVER], &record, 17);
    print_answer("23 bytes", &mut link, &record[..23], 17);
    print_answer("281 bytes", &mut link, &[0; 281], 257);
    print_answer("other link", &mut link, &damaged(3), 17);
    print_answer("output one short", &mut link, &record, 16);
    print_answer("damaged ciphertext", &mut link, &damaged(8), 17);
    print_answer("damaged tag", &mut link, &damaged(40), 17);
    print_answer("damaged sequence", &mut link, &damaged(4), 17);
    print_opened(&mut link, &record);
    print_answer("again", &mut link, &record, 17);

    // 64 numbers and more out of turn, and fewer.
    for sequence in [74, 11, 11, 10, 73, 138, 74, 75] {
        let (number, record) = seal(&keys, sequence, 17, 41);
        assert_eq!(number, 0);
        print_answer(&sequence.to_string(), &mut link, &record, 17);
    }
    wide_records();
}

/// A wide link, and what a narrow one with the same keys makes of its records and it of theirs.
fn wide_records() {
    let keys = rising(links::RECEIVER_KEYS, 2, 5);
    let seal =
        |width: Width, sequence: u64| seal_plain(&keys, width, sequence, &message(17), 17 + width.added());
    println!("seal narrow 4294967296 {}", seal(Width::Narrow, 1 << 32).0);
    println!("seal wide 0 {}", seal(Width::Wide, 0).0);

    let mut wide = keyed_receiver(Width::Wide, &keys);
    let mut narrow = keyed_receiver(Width::Narrow, &keys);
    let (_, narrow_record) = seal(Width::Narrow, (1 << 32) - 1);
    let (_, wide_record) = seal(Width::Wide, 1 << 32);
    print_answer("27 bytes", &mut wide, &[0; 27], 256);
    print_answer("285 bytes", &mut wide, &[0; 285], 256);
    print_answer("narrow record", &mut wide, &narrow_record, 256);
    print_answer("wide record", &mut narrow, &wide_record, 256);
    links::set_last(&mut narrow, 1 << 32);
    print_answer("narrow link 4294967296", &mut narrow, &narrow_record, 256);
    for sequence in [1, (1 << 32) - 1, 1 << 32, u64::MAX - 1, u64::MAX] {
        print_sealed_and_opened(&keys, &mut wide, sequence, &message(17));
    }
}

// ---- shared sealing and the report

fn tape(length: usize) -> Vec<u8> {
    rising(length, 5, 13)
}

fn print_sealed(link: &mut [u8], message: &[u8], tape: &[u8]) {
    let width = Width::of(link).expect("a width");
    let mut record = vec![0; message.len() + width.added()];
    let mut shares = [0; links::SHARES];
    assert_eq!(links::seal(link, message, tape, &mut record, &mut shares), 0);
    println!("seal {} {}", message.len(), digits(&record));
    println!("shares {}", digits(&shares[..48]));
    println!("used {}", u32::from_be_bytes(shares[48..].try_into().unwrap()));
}

fn print_lanes(link: &[u8], message: &[u8], call: u32) {
    for round in [1, 18, 35, 36] {
        for lane in 0..3 {
            let mut out = [0; links::LANE];
            let tape = tape(shares::tape_need(message.len()));
            assert_eq!(links::report(link, message, &tape, call, round, lane, &mut out), 0);
            println!("lane {} {call} {round} {lane} {}", message.len(), digits(&out));
        }
    }
}

pub fn lanes() {
    let mut link = links::sending(NUMBER, Width::Narrow, 0, &rising(links::SENDER_KEYS, 1, 11));
    for length in [0, 1, 15, 16, 17, 48, 256] {
        print_sealed(&mut link, &message(length), &tape(shares::tape_need(length)));
    }
    for (length, calls) in [(0, &[1, 2][..]), (17, &[1, 3, 6])] {
        for call in calls {
            print_lanes(&link, &message(length), *call);
        }
    }

    let need = shares::tape_need(0);
    print_sealed(&mut link.clone(), &[], &tape(need));
    print_sealed(&mut link.clone(), &[], &tape(need + 1));

    let report = |what: &str, link: &[u8], message: &[u8], tape: &[u8], room: usize| {
        println!("report {what} {}", links::report(link, message, tape, 1, 1, 0, &mut vec![0; room]));
    };
    let not_keyed = [0; links::SENDER];
    report("tape one short", &link, &[], &tape(need - 1), 48);
    report("257 bytes", &link, &message(257), &tape(need), 48);
    report("not keyed", &not_keyed, &[], &tape(need), 48);
    report("output one short", &link, &[], &tape(need), 47);

    for call in [2, 3] {
        for round in [36, 37] {
            for lane in [2, 3] {
                let number = links::report(&link, &[], &tape(need), call, round, lane, &mut [0; 48]);
                println!("report {call} {round} {lane} {number}");
            }
        }
    }

    // A wide link at the end of 32 bits, and links of both widths at the ends of their numbers.
    let keys = rising(links::SENDER_KEYS, 2, 5);
    let wide = links::sending(NUMBER, Width::Wide, (1 << 32) - 1, &keys);
    print_sealed(&mut wide.clone(), &message(17), &tape(shares::tape_need(17)));
    print_lanes(&wide, &message(17), 1);
    for (name, width, last) in [
        ("narrow", Width::Narrow, (1 << 32) - 1),
        ("narrow", Width::Narrow, 1 << 32),
        ("wide", Width::Wide, u64::MAX - 1),
        ("wide", Width::Wide, u64::MAX),
    ] {
        let link = links::sending(NUMBER, width, last, &keys);
        report(&format!("{name} last {last}"), &link, &[], &vec![0; need], 48);
    }
}

// ---- the rack's loop

/// Seals with slices of these lengths, and prints the record or the refusal's number.
fn turn(link: &mut [u8], length: usize, tape_length: usize, room: usize) {
    let mut record = vec![0; room];
    let mut shares = [0; links::SHARES];
    match links::seal(link, &message(length), &tape(tape_length), &mut record, &mut shares) {
        0 => println!("{}", Hex(&record[..length + Width::Narrow.added()])),
        refusal => println!("{refusal}"),
    }
}

pub fn rack() {
    let mut link = vec![0; links::SENDER];
    turn(&mut link, 257, 39_232, 280);
    let keys = rising(links::SENDER_KEYS, 11, 37);
    assert_eq!(links::key_sender(&mut link, NUMBER, Width::Narrow as u32, &keys), 0);
    for (message, tape, room) in [
        (0, 2368, 24),
        (0, 2367, 24),
        (1, 4672, 24),
        (16, 4672, 40),
        (257, 39_232, 280),
        (17, 6975, 41),
        (17, 6976, 40),
        (17, 6976, 41),
        (257, 0, 0),
        (20, 39_232, 280),
        (256, 39_232, 279),
        (256, 39_232, 280),
    ] {
        turn(&mut link, message, tape, room);
    }
}

// ---- bodies of marks

/// What stands in an output before a call.
const BEFORE: u8 = 0xee;

fn print_written(seconds: u64, fraction: u32, offset: Option<i32>, room: usize) {
    let mut body = vec![BEFORE; room];
    let number = body::write(&Mark { seconds, fraction, offset }, &mut body);
    println!("write {number} {}", digits(&body));
}

fn print_read(body: &[u8], room: usize) {
    let mut values = vec![BEFORE; room];
    let number = body::read(body, &mut values);
    println!("read {number} {}", digits(&values));
}

pub fn marks() {
    for (seconds, fraction, offset, room) in [
        (0, 0, None, 16),
        (1_772_456_709, 67_108_864, Some(60), 16),
        (72_057_594_037_927_935, 268_435_455, Some(840), 16),
        (268_435_456, 1, Some(-720), 16),
        (268_435_455, 0, Some(-1), 16),
        (1, 2, Some(0), 16),
        (1, 2, None, 12),
        (72_057_594_037_927_936, 0, None, 16),
        (0, 268_435_456, None, 16),
        (0, 0, Some(841), 16),
        (0, 0, Some(-721), 0),
        (0, 0, None, 11),
        (0, 0, Some(0), 15),
    ] {
        print_written(seconds, fraction, offset, room);
    }

    let needed = [0x1000_0001, 0x2000_0002, 0x3000_0003];
    let with_offset = |word: u32| body::bytes(&[&needed[..], &[word]].concat());
    for body in [
        body::bytes(&needed),
        body::bytes(&[0x4fff_ffff, 0x3000_0003, 0x2000_0002, 0x1000_0001]),
        body::bytes(&[0x5000_0000, 0x1000_0001, 0xf000_0000, 0x2000_0002, 0x3000_0003]),
        with_offset(0x4000_0348),
        with_offset(0x4fff_fd30),
        Vec::new(),
        vec![0x10, 0, 0],
        vec![0; 260],
        vec![0; 4],
        body::bytes(&[0x1000_0001, 0x2000_0002, 0x2000_0002, 0x3000_0003]),
        with_offset(0x4000_0349),
        with_offset(0x4fff_fd2f),
        body::bytes(&needed[..2]),
        body::bytes(&[0x5000_0000]),
    ] {
        print_read(&body, body::VALUES);
    }
    print_read(&body::bytes(&needed), 16);
}
