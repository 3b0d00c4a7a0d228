//! RFC 3779 resource tables: IPAddrBlocks and ASIdentifiers read and written, and paths checked.
//!
//! This is a thin layer over the C face of Quimaxtoc (`include/rch.h`), whose functions are proved
//! to give exactly the reply that the rules have for any octets. It lends the buffers and turns
//! replies into Rust types.
//!
//! # Linking
//!
//! The functions are in `libface.a`, which `tools/staticlib` writes to `target/staticlib`. There
//! is no build script: say where that folder is, for example
//!
//! ```text
//! RUSTFLAGS="-L native=/path/to/target/staticlib" cargo build
//! ```
//!
//! `cargo test` wants the same words in `RUSTDOCFLAGS`, for the example below.
//!
//! # Example
//!
//! ```
//! use rch::{Extension, Refusal, Row};
//!
//! // ASIdentifiers with 135, 3000 to 3999 and 5001, and inherited routing domain identifiers.
//! let value = [
//!     0x30, 0x1a, 0xa0, 0x14, 0x30, 0x12, 0x02, 0x02, 0x00, 0x87, 0x30, 0x08, 0x02, 0x02, 0x0b,
//!     0xb8, 0x02, 0x02, 0x0f, 0x9f, 0x02, 0x02, 0x13, 0x89, 0xa1, 0x02, 0x05, 0x00,
//! ];
//! let table = rch::read_as(&value)?;
//! assert_eq!(table.rows.len(), 4);
//! assert_eq!(table.rows[1], Row::listed(4096, 3000, 3999));
//! assert_eq!(table.rows[3], Row::inherited(5120));
//!
//! // A table has one encoding.
//! assert_eq!(rch::write(Extension::As, &table.rows)?, value);
//!
//! // A refusal says what is wrong, and where.
//! let error = rch::read_ip(&value).unwrap_err();
//! assert_eq!(error.refusal, Refusal::Tag);
//! assert_eq!(
//!     error.to_string(),
//!     "a tag that is not allowed here (refusal 3, certificate 0, IPAddrBlocks, octet 2)"
//! );
//!
//! // Of a certificate's two values, the octets from the place at fault.
//! let fault = rch::fault(&value, &[]).unwrap_err();
//! assert_eq!(fault.octets, &value[2..]);
//!
//! // A path of two certificates: 10.0.0.0/8, and below it all that is inherited.
//! let bundle = [
//!     &b"RCH\x00\x01\x02"[..],
//!     b"\x00\x0e\x30\x0c\x30\x0a\x04\x02\x00\x01\x30\x04\x03\x02\x00\x0a\x00\x00",
//!     b"\x00\x0a\x30\x08\x30\x06\x04\x02\x00\x01\x05\x00\x00\x00",
//! ]
//! .concat();
//! let path = rch::check_path(&bundle)?;
//! assert_eq!(path.table.rows, [Row::listed(1024, 0x0a00_0000, 0x0aff_ffff)]);
//! assert_eq!(path.pairs, 1);
//! # Ok::<(), rch::Error>(())
//! ```

#![warn(missing_docs)]

use std::fmt;
use std::net::{Ipv4Addr, Ipv6Addr};

pub mod sys;

/// The rows of one certificate, at most.
pub const ROWS: usize = 512;
/// The octets of an extension value, at most.
pub const VALUE: usize = 32_768;
/// The octets of a bundle, at most.
pub const BUNDLE: usize = 65_536;

/// The numbers of a row, of a lent table and of a reply.
const ROW: usize = 6;
const TABLE: usize = ROWS * ROW;
const REPLY: usize = 9;

/// One of the two extensions.
#[derive(Clone, Copy, Debug, PartialEq, Eq, PartialOrd, Ord, Hash)]
pub enum Extension {
    /// IPAddrBlocks
    Ip = 1,
    /// ASIdentifiers
    As = 2,
}

impl fmt::Display for Extension {
    fn fmt(&self, f: &mut fmt::Formatter) -> fmt::Result {
        f.write_str(match self {
            Extension::Ip => "IPAddrBlocks",
            Extension::As => "ASIdentifiers",
        })
    }
}

/// All numbers from `low` to `high` in a space, or the mark that the space is inherited.
///
/// The space is AFI × 1024, plus 1 + SAFI if a SAFI is present; AS numbers are 4096, routing
/// domain identifiers 5120. An inherit row has zeros for low and high.
#[derive(Clone, Copy, Debug, PartialEq, Eq, PartialOrd, Ord, Hash)]
pub struct Row {
    /// The space.
    pub space: u64,
    /// The mark.
    pub inherit: bool,
    /// The first number.
    pub low: u128,
    /// The last number.
    pub high: u128,
}

impl Row {
    /// The numbers from `low` to `high`.
    pub fn listed(space: u64, low: u128, high: u128) -> Row {
        Row { space, inherit: false, low, high }
    }

    /// A space that is inherited.
    pub fn inherited(space: u64) -> Row {
        Row { space, inherit: true, low: 0, high: 0 }
    }

    fn numbers(&self) -> [u64; ROW] {
        let half = |number: u128, shift| (number >> shift) as u64;
        let (low, high) = (self.low, self.high);
        let mark = self.inherit as u64;
        [self.space, mark, half(low, 64), half(low, 0), half(high, 64), half(high, 0)]
    }

    fn of(numbers: &[u64]) -> Row {
        Row {
            space: numbers[0],
            inherit: numbers[1] == 1,
            low: whole(numbers[2], numbers[3]),
            high: whole(numbers[4], numbers[5]),
        }
    }
}

fn whole(upper: u64, lower: u64) -> u128 {
    (upper as u128) << 64 | lower as u128
}

/// The rows of a value or of a certificate. They ascend by space, then low.
#[derive(Clone, Debug, Default, PartialEq, Eq, Hash)]
pub struct Table {
    /// The rows.
    pub rows: Vec<Row>,
}

impl Table {
    fn of(numbers: &[u64], reply: &Reply) -> Table {
        let rows = numbers.chunks(ROW).take(reply.count()).map(Row::of).collect();
        Table { rows }
    }
}

/// A path that was accepted.
#[derive(Clone, Debug, PartialEq, Eq, Hash)]
pub struct Path {
    /// The rows of the last certificate, after inheritance.
    pub table: Table,
    /// The row pairs looked at.
    pub pairs: u64,
}

/// Why something is refused. The numbers are those of `include/rch.h`.
#[derive(Clone, Copy, Debug, PartialEq, Eq, PartialOrd, Ord, Hash)]
pub enum Refusal {
    /// The value is empty, or above 32,768 octets.
    ValueSize = 1,
    /// A tag or a length is missing, or a length is not minimal, not definite, or too long.
    Element = 2,
    /// A tag that is not allowed here.
    Tag = 3,
    /// A NULL, OCTET STRING, BIT STRING or INTEGER with contents against the rules.
    Contents = 4,
    /// Octets after the last allowed element.
    OctetsLeft = 5,
    /// An address family that is neither IPv4 nor IPv6.
    Afi = 6,
    /// A family that is not above the one before.
    FamilyOrder = 7,
    /// An empty list, or ASIdentifiers with no member.
    EmptyList = 8,
    /// A range that is not in its one form.
    RangeForm = 9,
    /// An element that is not more than 1 past the one before.
    ElementOrder = 10,
    /// Row 513.
    RowCount = 11,
    /// No certificate, or more than 8.
    CertificateCount = 12,
    /// An extension is carried that the issuer has not.
    IssuerLacks = 13,
    /// Inherit, and the issuer has no such space, or there is no issuer.
    NothingToInherit = 14,
    /// A number is held that the issuer does not hold.
    NotHeld = 15,
    /// A lent table or reply is too short. The functions of this crate lend enough.
    TableShort = 16,
    /// The bundle's mark or version differs.
    Mark = 17,
    /// The bundle's length is outside its limits, it is cut short, or octets are over.
    Framing = 18,
    /// What is to be written is not a table of that kind.
    NotATable = 19,
    /// The output is shorter than the encoding.
    OutputShort = 20,
}

impl Refusal {
    /// All refusals, in the order of their numbers.
    pub const ALL: [Refusal; 20] = [
        Refusal::ValueSize,
        Refusal::Element,
        Refusal::Tag,
        Refusal::Contents,
        Refusal::OctetsLeft,
        Refusal::Afi,
        Refusal::FamilyOrder,
        Refusal::EmptyList,
        Refusal::RangeForm,
        Refusal::ElementOrder,
        Refusal::RowCount,
        Refusal::CertificateCount,
        Refusal::IssuerLacks,
        Refusal::NothingToInherit,
        Refusal::NotHeld,
        Refusal::TableShort,
        Refusal::Mark,
        Refusal::Framing,
        Refusal::NotATable,
        Refusal::OutputShort,
    ];

    /// The number of the refusal, 1 to 20.
    pub fn number(self) -> u64 {
        self as u64
    }

    /// The refusal with this number.
    pub fn from_number(number: u64) -> Option<Refusal> {
        Refusal::ALL.into_iter().find(|refusal| refusal.number() == number)
    }

    fn words(self) -> &'static str {
        match self {
            Refusal::ValueSize => "a value that is empty or above 32,768 octets",
            Refusal::Element => "an element whose tag or length is missing or not as it must be",
            Refusal::Tag => "a tag that is not allowed here",
            Refusal::Contents => "an element with contents against the rules",
            Refusal::OctetsLeft => "octets after the last allowed element",
            Refusal::Afi => "an address family that is neither IPv4 nor IPv6",
            Refusal::FamilyOrder => "a family that is not above the one before",
            Refusal::EmptyList => "an empty list",
            Refusal::RangeForm => "a range that is not in its one form",
            Refusal::ElementOrder => "an element that is not more than 1 past the one before",
            Refusal::RowCount => "more than 512 rows",
            Refusal::CertificateCount => "no certificate, or more than 8",
            Refusal::IssuerLacks => "an extension that the issuer has not",
            Refusal::NothingToInherit => "inherit, where the issuer has nothing",
            Refusal::NotHeld => "a number that the issuer does not hold",
            Refusal::TableShort => "a lent table that is too short",
            Refusal::Mark => "a bundle with another mark or version",
            Refusal::Framing => "a bundle that is too short or too long",
            Refusal::NotATable => "rows that are not a table of that kind",
            Refusal::OutputShort => "an output that is shorter than the encoding",
        }
    }
}

impl fmt::Display for Refusal {
    fn fmt(&self, f: &mut fmt::Formatter) -> fmt::Result {
        f.write_str(self.words())
    }
}

/// A refusal and what it names. What it does not name is 0 or `None`.
#[derive(Clone, Copy, Debug, PartialEq, Eq, Hash)]
pub struct Error {
    /// Why.
    pub refusal: Refusal,
    /// The certificate at fault; the anchor is 0.
    pub certificate: u64,
    /// The extension at fault.
    pub extension: Option<Extension>,
    /// The octet at fault, from the start of the value.
    pub place: u64,
    /// The space at fault.
    pub space: u64,
    /// The number at fault in that space.
    pub value: u128,
}

impl fmt::Display for Error {
    fn fmt(&self, f: &mut fmt::Formatter) -> fmt::Result {
        let number = self.refusal.number();
        write!(f, "{} (refusal {number}, certificate {}", self.refusal, self.certificate)?;
        if let Some(extension) = self.extension {
            write!(f, ", {extension}")?;
        }
        write!(f, ", octet {}", self.place)?;
        if self.space != 0 {
            write!(f, ", space {}", self.space)?;
        }
        if self.refusal == Refusal::NotHeld {
            write!(f, ", number ")?;
            write_number(f, self.space, self.value)?;
        }
        write!(f, ")")
    }
}

impl std::error::Error for Error {}

/// A number as people write it in its space.
fn write_number(f: &mut fmt::Formatter, space: u64, number: u128) -> fmt::Result {
    match space / 1024 {
        1 => write!(f, "{}", Ipv4Addr::from(number as u32)),
        2 => write!(f, "{}", Ipv6Addr::from(number)),
        _ => write!(f, "{number}"),
    }
}

/// What is wrong with a certificate's two values, and the octets at fault.
#[derive(Clone, Copy, Debug, PartialEq, Eq, Hash)]
pub struct Fault<'a> {
    /// The refusal.
    pub error: Error,
    /// The value that the octets are part of.
    pub value: Extension,
    /// Where in that value they start.
    pub start: usize,
    /// From the place at fault to the end of that value. None if the refusal is `ValueSize` or
    /// `RowCount`, nor if an element is missing at the very end.
    pub octets: &'a [u8],
}

impl fmt::Display for Fault<'_> {
    fn fmt(&self, f: &mut fmt::Formatter) -> fmt::Result {
        self.error.fmt(f)
    }
}

impl std::error::Error for Fault<'_> {}

/// Reads an IPAddrBlocks value (the octets inside extnValue).
pub fn read_ip(value: &[u8]) -> Result<Table, Error> {
    read(sys::rch_read_ip, value)
}

/// Reads an ASIdentifiers value (the octets inside extnValue).
pub fn read_as(value: &[u8]) -> Result<Table, Error> {
    read(sys::rch_read_as, value)
}

fn read(reader: sys::Reader, value: &[u8]) -> Result<Table, Error> {
    let (mut table, mut reply) = (lent_table(), Reply::new());
    // SAFETY: each pointer comes with the length of its slice; no two of them overlap.
    unsafe {
        reader(
            value.as_ptr(),
            value.len(),
            table.as_mut_ptr(),
            table.len(),
            reply.as_mut_ptr(),
            REPLY,
        )
    };
    reply.accepted()?;
    Ok(Table::of(&table, &reply))
}

/// Writes the one encoding of a table.
pub fn write(extension: Extension, rows: &[Row]) -> Result<Vec<u8>, Error> {
    let mut out = vec![0; VALUE];
    let written = write_into(extension, rows, &mut out)?;
    out.truncate(written);
    Ok(out)
}

/// Writes the one encoding of a table to the start of `out`, and says how many octets it has.
pub fn write_into(extension: Extension, rows: &[Row], out: &mut [u8]) -> Result<usize, Error> {
    let numbers: Vec<u64> = rows.iter().flat_map(Row::numbers).collect();
    let mut reply = Reply::new();
    // SAFETY: each pointer comes with the length of its slice; no two of them overlap.
    unsafe {
        sys::rch_write(
            extension as u64,
            numbers.as_ptr(),
            numbers.len(),
            out.as_mut_ptr(),
            out.len(),
            reply.as_mut_ptr(),
            REPLY,
        )
    };
    reply.accepted()?;
    Ok(reply.count())
}

/// Checks the path of a bundle: no certificate may hold a number that its issuer does not.
pub fn check_path(bundle: &[u8]) -> Result<Path, Error> {
    let (mut first, mut second, mut reply) = (lent_table(), lent_table(), Reply::new());
    // SAFETY: each pointer comes with the length of its slice; no two of them overlap.
    unsafe {
        sys::rch_path(
            bundle.as_ptr(),
            bundle.len(),
            first.as_mut_ptr(),
            first.len(),
            second.as_mut_ptr(),
            second.len(),
            reply.as_mut_ptr(),
            REPLY,
        )
    };
    reply.accepted()?;
    Ok(Path { table: Table::of(&first, &reply), pairs: reply.pairs() })
}

/// Reads one certificate's two values, an empty one being absent: the IP rows, then the AS rows.
pub fn fault<'a>(ip: &'a [u8], as_: &'a [u8]) -> Result<Table, Fault<'a>> {
    let (mut table, mut reply) = (lent_table(), Reply::new());
    // SAFETY: each pointer comes with the length of its slice; none that is written overlaps.
    unsafe {
        sys::rch_fault(
            ip.as_ptr(),
            ip.len(),
            as_.as_ptr(),
            as_.len(),
            table.as_mut_ptr(),
            table.len(),
            reply.as_mut_ptr(),
            REPLY,
        )
    };
    match reply.part_at_fault(ip, as_) {
        Some(fault) => Err(fault),
        None => Ok(Table::of(&table, &reply)),
    }
}

fn lent_table() -> Vec<u64> {
    vec![0; TABLE]
}

/// The nine numbers of a reply.
struct Reply([u64; REPLY]);

impl Reply {
    fn new() -> Reply {
        Reply([0; REPLY])
    }

    fn as_mut_ptr(&mut self) -> *mut u64 {
        self.0.as_mut_ptr()
    }

    fn count(&self) -> usize {
        self.0[7] as usize
    }

    fn pairs(&self) -> u64 {
        self.0[8]
    }

    fn accepted(&self) -> Result<(), Error> {
        let [number, certificate, extension, place, space, upper, lower, ..] = self.0;
        if number == 0 {
            return Ok(());
        }
        Err(Error {
            refusal: Refusal::from_number(number).expect("rch.h has no such refusal"),
            certificate,
            extension: extension_of(extension),
            place,
            space,
            value: whole(upper, lower),
        })
    }

    /// The reply of `rch_fault` has which value, start and end in the places of space and value.
    fn part_at_fault<'a>(&self, ip: &'a [u8], as_: &'a [u8]) -> Option<Fault<'a>> {
        let [.., which, start, end, _, _] = self.0;
        let error = self.accepted().err()?;
        let (value, octets) = match extension_of(which) {
            Some(Extension::As) => (Extension::As, as_),
            _ => (Extension::Ip, ip),
        };
        let (start, end) = (start as usize, end as usize);
        let error = Error { space: 0, value: 0, ..error };
        Some(Fault { error, value, start, octets: &octets[start..end] })
    }
}

fn extension_of(number: u64) -> Option<Extension> {
    match number {
        1 => Some(Extension::Ip),
        2 => Some(Extension::As),
        _ => None,
    }
}

#[cfg(test)]
mod tests {
    use super::*;

    #[test]
    fn refusals_have_their_numbers() {
        for (number, refusal) in (1..).zip(Refusal::ALL) {
            assert_eq!(refusal.number(), number);
            assert_eq!(Refusal::from_number(number), Some(refusal));
        }
        assert_eq!(Refusal::from_number(0), None);
        assert_eq!(Refusal::from_number(21), None);
    }

    #[test]
    fn a_number_that_is_not_held_is_named() {
        let error = Error {
            refusal: Refusal::NotHeld,
            certificate: 1,
            extension: Some(Extension::Ip),
            place: 0,
            space: 1024,
            value: 0x0a80_0000,
        };
        assert_eq!(
            error.to_string(),
            "a number that the issuer does not hold \
             (refusal 15, certificate 1, IPAddrBlocks, octet 0, space 1024, number 10.128.0.0)"
        );
    }

    #[test]
    fn empty_slices_are_taken() {
        assert_eq!(read_ip(&[]).unwrap_err().refusal, Refusal::ValueSize);
        assert_eq!(read_as(&[]).unwrap_err().refusal, Refusal::ValueSize);
        assert_eq!(check_path(&[]).unwrap_err().refusal, Refusal::Framing);
        assert_eq!(fault(&[], &[]), Ok(Table::default()));
        assert_eq!(write(Extension::Ip, &[]), Ok(vec![0x30, 0x00]));
        assert_eq!(write(Extension::As, &[]).unwrap_err().refusal, Refusal::EmptyList);
        let error = write_into(Extension::Ip, &[], &mut []).unwrap_err();
        assert_eq!(error.refusal, Refusal::OutputShort);
    }
}
