//! Calls of the five functions, made from a seed: right, nearly right, and wrong.
//!
//! Lent buffers are given by their lengths only; what they hold before the call is up to the
//! caller.

mod elements;
mod paths;
mod random;
mod tables;
mod values;

use crate::plain::{encoding, Extension, REPLY, ROW, TABLE};
pub use random::Random;

/// A call, what kind of case it is, and the length of the reply that is lent for it.
pub struct Case {
    pub kind: &'static str,
    pub call: Call,
    pub reply: usize,
}

/// A function and what it is given. The lent tables and the output are given by their lengths.
#[derive(Clone, PartialEq, Eq)]
pub enum Call {
    ReadIp { value: Vec<u8>, table: usize },
    ReadAs { value: Vec<u8>, table: usize },
    Write { kind: u64, numbers: Vec<u64>, room: usize },
    Path { bundle: Vec<u8>, first: usize, second: usize },
    Fault { ip: Vec<u8>, as_: Vec<u8>, table: usize },
}

/// A way to make a call, with the kind of case that it is.
type Make = fn(&mut Random) -> (&'static str, Call);

/// The next case.
pub fn case(random: &mut Random) -> Case {
    let functions: [(usize, Make); 5] =
        [(25, read_ip), (20, read_as), (15, write), (25, path), (15, fault)];
    let function = random.weighted(&functions);
    let (kind, call) = function(random);
    let reply = random.weighted(&[(60, REPLY), (30, REPLY + 1), (1, REPLY - 1), (1, 0)]);
    Case { kind, call, reply }
}

/// Mostly long enough, sometimes longer, seldom too short.
fn table_length(random: &mut Random) -> usize {
    random.weighted(&[(70, TABLE), (20, TABLE + 5), (5, TABLE + 700), (1, TABLE - 1), (1, 0)])
}

fn read_ip(random: &mut Random) -> (&'static str, Call) {
    let (kind, value) = values::value(random, Extension::Ip);
    (kind, Call::ReadIp { value, table: table_length(random) })
}

fn read_as(random: &mut Random) -> (&'static str, Call) {
    let (kind, value) = values::value(random, Extension::As);
    (kind, Call::ReadAs { value, table: table_length(random) })
}

fn path(random: &mut Random) -> (&'static str, Call) {
    let (kind, bundle) = paths::bundle(random);
    (kind, Call::Path { bundle, first: table_length(random), second: table_length(random) })
}

fn fault(random: &mut Random) -> (&'static str, Call) {
    let (kind, (ip, as_)) = match random.below(10) {
        0 => ("rows-of-both", paths::values_of_about_512_rows(random)),
        1 | 2 => ("as-absent", (values::value(random, Extension::Ip).1, vec![])),
        3 => ("ip-absent", (vec![], values::value(random, Extension::As).1)),
        4 | 5 => ("ip-any", {
            (values::value(random, Extension::Ip).1, values::good(random, Extension::As))
        }),
        _ => ("as-any", {
            (values::good(random, Extension::Ip), values::value(random, Extension::As).1)
        }),
    };
    (kind, Call::Fault { ip, as_, table: table_length(random) })
}

fn write(random: &mut Random) -> (&'static str, Call) {
    let extension = random.pick(&[Extension::Ip, Extension::As]);
    let mut kind = extension as u64;
    let count = random.weighted(&[(1, 511), (2, 512), (2, 513)]);
    let table = match random.below(30) {
        0 => vec![],
        1 => tables::table_of(random, extension, count),
        _ => tables::table(random, extension, true),
    };
    let mut numbers: Vec<u64> = table.iter().flat_map(|row| row.numbers()).collect();
    let name = random.weighted(&[(45, "good"), (45, "numbers-changed"), (5, "kind"), (5, "cut")]);
    match name {
        "numbers-changed" => change_numbers(random, &mut numbers),
        "kind" => kind = random.pick(&[0, 1, 2, 3, 1 << 32 | 1, u64::MAX]),
        "cut" => numbers.truncate(random.below(numbers.len() + 1)),
        _ => {}
    }
    let room = room(random, encoding(kind, &numbers).map_or(40, |octets| octets.len()));
    (name, Call::Write { kind, numbers, room })
}

/// Changes a number or two so that they are near what is allowed.
fn change_numbers(random: &mut Random, numbers: &mut Vec<u64>) {
    for _ in 0..1 + random.below(2) {
        if numbers.is_empty() {
            return numbers.push(random.number());
        }
        let at = random.below(numbers.len());
        let other = numbers[random.below(numbers.len())];
        let spaces = [0, 1023, 1024, 1280, 1281, 2047, 2048, 2304, 2305, 4096, 4097, 5120, 5121];
        match random.below(10) {
            0 => numbers[at] = numbers[at].wrapping_add(1),
            1 => numbers[at] = numbers[at].wrapping_sub(1),
            2 => numbers[at] ^= 1 << random.below(64),
            3 => numbers[at] = other,
            4 => numbers[at] = random.pick(&[0, 1, 2, u32::MAX as u64, 1 << 32, u64::MAX]),
            5 => numbers[at] = random.pick(&spaces),
            6 => numbers[at / ROW * ROW] = random.pick(&spaces),
            7 => numbers.insert(at, other),
            8 => drop(numbers.remove(at)),
            _ => change_rows(random, numbers),
        }
    }
}

/// Changes whole rows: one twice, an inherit row beside one, two exchanged, one that starts right
/// after the one before.
fn change_rows(random: &mut Random, numbers: &mut Vec<u64>) {
    let rows = numbers.len() / ROW;
    if rows < 2 {
        return;
    }
    let at = ROW * random.below(rows - 1);
    let row = numbers[at..at + ROW].to_vec();
    match random.below(5) {
        0 => insert(numbers, at, &row),
        1 => insert(numbers, at, &[row[0], 1, 0, 0, 0, 0]),
        2 => insert(numbers, at + ROW, &[row[0], 1, 0, 0, 0, 0]),
        3 => numbers[at..at + 2 * ROW].rotate_left(ROW),
        _ => numbers[at + ROW + 3] = row[5].wrapping_add(random.below(4) as u64),
    }
}

fn insert(numbers: &mut Vec<u64>, at: usize, row: &[u64]) {
    numbers.splice(at..at, row.iter().copied());
}

/// Room for exactly this many octets, for one less, for more, or none.
fn room(random: &mut Random, octets: usize) -> usize {
    random.weighted(&[
        (4, octets),
        (2, octets.saturating_sub(1)),
        (3, octets + 1),
        (2, octets + 90),
        (1, octets / 2),
        (1, 0),
        (1, 40_000),
    ])
}
