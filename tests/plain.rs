//! Document 01 once more, in plain Rust: two readers, a writer, a path check, the part at fault.
//!
//! It is written from the text alone and shares nothing with the proved code, so that the two can
//! be held against each other. Each sentence becomes code as directly as it will go: values are
//! split by recursive descent, numbers are `u128`, rows are in a `Vec`, the first refusal is an
//! `Err`. Speed is no aim.
//!
//! The modules below know octets, rows and refusals. This file has the five functions of
//! `include/rch.h` on top of them, which also say what becomes of every lent buffer.

mod der;
mod numbers;
mod path;
mod reader;
mod writer;

pub use numbers::{ones, width_of};
pub use path::check_path;
pub use reader::{read, read_both};
pub use writer::{by_space, encoding, written};

/// The rows of one certificate, at most.
pub const ROWS: usize = 512;
/// The numbers of one row.
pub const ROW: usize = 6;
/// The numbers that a lent table has at least.
pub const TABLE: usize = ROWS * ROW;
/// The numbers that a lent reply has at least.
pub const REPLY: usize = 9;
/// The octets of an extension value, at most.
pub const VALUE: usize = 32_768;
/// The octets of a bundle, at most.
pub const BUNDLE: usize = 65_536;

/// The space of the AS numbers.
pub const AS_NUMBERS: u64 = 4096;
/// The space of the routing domain identifiers.
pub const ROUTING_DOMAINS: u64 = 5120;

/// The two extensions; as a number, 1 and 2.
#[derive(Clone, Copy, Debug, PartialEq, Eq)]
pub enum Extension {
    Ip = 1,
    As = 2,
}

/// The extension that a space belongs to.
pub fn extension_of(space: u64) -> Extension {
    if space < AS_NUMBERS {
        Extension::Ip
    } else {
        Extension::As
    }
}

/// A row: all numbers from low to high in a space, or the mark that the space is inherited.
#[derive(Clone, Copy, Debug, PartialEq, Eq)]
pub struct Row {
    pub space: u64,
    pub inherit: bool,
    pub low: u128,
    pub high: u128,
}

impl Row {
    pub fn listed(space: u64, low: u128, high: u128) -> Row {
        let inherit = false;
        Row { space, inherit, low, high }
    }

    pub fn inherited(space: u64) -> Row {
        let inherit = true;
        Row { space, inherit, low: 0, high: 0 }
    }

    /// The six numbers of the row.
    pub fn numbers(&self) -> [u64; ROW] {
        let (low, high) = (halves(self.low), halves(self.high));
        [self.space, self.inherit as u64, low.0, low.1, high.0, high.1]
    }
}

/// The upper and the lower half.
fn halves(number: u128) -> (u64, u64) {
    ((number >> 64) as u64, number as u64)
}

/// A refusal and what it names. What it does not name is 0.
#[derive(Clone, Copy, Debug, Default, PartialEq, Eq)]
pub struct Refusal {
    pub number: u64,
    pub certificate: u64,
    pub extension: u64,
    pub place: u64,
    pub space: u64,
    pub value: u128,
}

impl Refusal {
    /// A refusal that names nothing.
    fn bare(number: u64) -> Refusal {
        Refusal { number, ..Refusal::default() }
    }

    /// A refusal at a place of an extension value.
    fn at(number: u64, extension: Extension, place: usize) -> Refusal {
        let (extension, place) = (extension as u64, place as u64);
        Refusal { extension, place, ..Refusal::bare(number) }
    }

    /// A refusal for what is in a space; the extension follows from it.
    fn in_space(number: u64, space: u64, value: u128) -> Refusal {
        Refusal { space, value, ..Refusal::at(number, extension_of(space), 0) }
    }

    fn reply(&self) -> [u64; REPLY] {
        let (upper, lower) = halves(self.value);
        [self.number, self.certificate, self.extension, self.place, self.space, upper, lower, 0, 0]
    }
}

// The functions of include/rch.h. Each returns the number of its reply and leaves every lent
// buffer as the text has it. The numbers of the reply are number, certificate, extension, place,
// space, value (upper half, lower half), rows or octets, pairs.

const TOO_SHORT: u64 = 16;

/// `rch_read_ip`
pub fn read_ip(value: &[u8], table: &mut [u64], reply: &mut [u64]) -> u64 {
    read_alone(Extension::Ip, value, table, reply)
}

/// `rch_read_as`
pub fn read_as(value: &[u8], table: &mut [u64], reply: &mut [u64]) -> u64 {
    read_alone(Extension::As, value, table, reply)
}

fn read_alone(extension: Extension, value: &[u8], table: &mut [u64], reply: &mut [u64]) -> u64 {
    if reply.len() < REPLY {
        return TOO_SHORT;
    }
    let read = lend(table, || read(extension, value));
    give(reply, reply_of_reading(&read))
}

/// `rch_write`
pub fn write(kind: u64, numbers: &[u64], out: &mut [u8], reply: &mut [u64]) -> u64 {
    if reply.len() < REPLY {
        return TOO_SHORT;
    }
    match encoding(kind, numbers) {
        Err(refusal) => give(reply, refusal.reply()),
        Ok(octets) if octets.len() > out.len() => give(reply, Refusal::bare(20).reply()),
        Ok(octets) => {
            out[..octets.len()].copy_from_slice(&octets);
            give(reply, accepted(octets.len(), 0))
        }
    }
}

/// `rch_path`
pub fn path(bundle: &[u8], first: &mut [u64], second: &mut [u64], reply: &mut [u64]) -> u64 {
    if reply.len() < REPLY {
        return TOO_SHORT;
    }
    if first.len() < TABLE || second.len() < TABLE {
        return give(reply, Refusal::bare(TOO_SHORT).reply());
    }
    let checked = check_path(bundle);
    fill(first, checked.as_ref().map_or(&[], |(rows, _)| rows));
    fill(second, &[]);
    match checked {
        Ok((rows, pairs)) => give(reply, accepted(rows.len(), pairs)),
        Err(refusal) => give(reply, refusal.reply()),
    }
}

/// `rch_fault`: space and value of the reply are which value, and start and end of its part.
pub fn fault(ip: &[u8], as_: &[u8], table: &mut [u64], reply: &mut [u64]) -> u64 {
    if reply.len() < REPLY {
        return TOO_SHORT;
    }
    let read = lend(table, || read_both(ip, as_));
    let mut numbers = reply_of_reading(&read);
    numbers[4..7].copy_from_slice(&part_at_fault(&read, ip, as_));
    give(reply, numbers)
}

/// Which value, start and end: from the place to that value's end, or the empty part at the start
/// of the IP value.
fn part_at_fault(read: &Result<Vec<Row>, Refusal>, ip: &[u8], as_: &[u8]) -> [u64; 3] {
    match read {
        Ok(_) => [1, 0, 0],
        Err(refusal) if matches!(refusal.number, 1 | 11 | TOO_SHORT) => [1, 0, 0],
        Err(refusal) => {
            let value = if refusal.extension == 1 { ip } else { as_ };
            [refusal.extension, refusal.place, value.len() as u64]
        }
    }
}

/// Reads into a lent table, by the reader's rule: a short one gives 16 before all else and stays.
fn lend(
    table: &mut [u64],
    reading: impl FnOnce() -> Result<Vec<Row>, Refusal>,
) -> Result<Vec<Row>, Refusal> {
    if table.len() < TABLE {
        return Err(Refusal::bare(TOO_SHORT));
    }
    let read = reading();
    fill(table, read.as_deref().unwrap_or(&[]));
    read
}

/// Makes the first 3,072 numbers the rows and then zeros.
fn fill(table: &mut [u64], rows: &[Row]) {
    table[..TABLE].fill(0);
    for (place, row) in table.chunks_mut(ROW).zip(rows) {
        place.copy_from_slice(&row.numbers());
    }
}

fn reply_of_reading(read: &Result<Vec<Row>, Refusal>) -> [u64; REPLY] {
    match read {
        Ok(rows) => accepted(rows.len(), 0),
        Err(refusal) => refusal.reply(),
    }
}

/// The reply of an acceptance.
fn accepted(count: usize, pairs: u64) -> [u64; REPLY] {
    [0, 0, 0, 0, 0, 0, 0, count as u64, pairs]
}

/// Writes the reply to the first nine numbers and returns the number.
fn give(reply: &mut [u64], numbers: [u64; REPLY]) -> u64 {
    reply[..REPLY].copy_from_slice(&numbers);
    numbers[0]
}
