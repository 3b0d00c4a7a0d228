//! What is measured: paths, values to read, tables to write. All of it is right, and the same in
//! each run.

use crate::openssl::Structure;
use crate::tests::plain::{written, Extension, Row, AS_NUMBERS};
use crate::tests::random::Random;

/// A measured call, and what it is called in the report.
pub struct Case {
    pub group: Group,
    pub name: String,
    /// The rows of each certificate, or of the value.
    pub rows: usize,
    pub call: Call,
    /// Nearly the same call, which must be refused: so it is seen that the rules are looked at.
    pub refused: Option<Call>,
}

#[derive(Clone, Copy, Debug, PartialEq, Eq)]
pub enum Group {
    Path,
    Reading,
    Writing,
    ReadingGrowth,
    PathGrowth,
}

pub enum Call {
    Read {
        extension: Extension,
        value: Vec<u8>,
    },
    /// Our two write the numbers, OpenSSL the structure. What comes out must be the value.
    Write {
        extension: Extension,
        numbers: Vec<u64>,
        structure: Structure,
        value: Vec<u8>,
    },
    Path {
        bundle: Vec<u8>,
    },
}

/// Certificates of a path, and rows of each.
const PATHS: [(usize, usize); 3] = [(3, 10), (4, 100), (8, 500)];
/// Rows of a value.
const VALUES: [usize; 3] = [10, 100, 500];
/// Growth is measured at 1, 2, 4 rows and so on up to this.
const MOST_ROWS: usize = 512;

/// Every case, group by group.
pub fn all() -> Vec<Case> {
    let mut cases = Vec::new();
    let mixed: &[Family] = &[Family::Ipv4, Family::Ipv6, Family::As];
    for (name, families) in [("mixed", mixed), ("IPv4", &mixed[..1]), ("IPv6", &mixed[1..2])] {
        for (certificates, rows) in PATHS {
            let name = format!("{certificates} certificates of {rows} rows, {name}");
            cases.push(path(Group::Path, name, families, certificates, rows));
        }
    }
    for family in mixed {
        for rows in VALUES {
            let name = format!("{rows} rows, {}", family.name());
            cases.push(reading(Group::Reading, name, *family, rows));
        }
    }
    for family in mixed {
        for rows in VALUES {
            cases.push(writing(format!("{rows} rows, {}", family.name()), *family, rows));
        }
    }
    let doubling = || (0..).map(|doublings| 1 << doublings).take_while(|rows| *rows <= MOST_ROWS);
    for rows in doubling() {
        cases.push(reading(Group::ReadingGrowth, rows.to_string(), Family::Ipv4, rows));
    }
    for rows in doubling() {
        cases.push(path(Group::PathGrowth, rows.to_string(), &[Family::Ipv4], 2, rows));
    }
    cases
}

fn reading(group: Group, name: String, family: Family, rows: usize) -> Case {
    let extension = family.extension();
    let mut table = table(family, rows);
    let call = Call::Read { extension, value: written(extension, &table) };
    table.reverse();
    let reversed = Call::Read { extension, value: written(extension, &table) };
    Case { group, name, rows, call, refused: (rows > 1).then_some(reversed) }
}

fn writing(name: String, family: Family, rows: usize) -> Case {
    let extension = family.extension();
    let table = table(family, rows);
    let numbers = table.iter().flat_map(Row::numbers).collect();
    let value = written(extension, &table);
    let structure = Structure::read(extension, &value).expect("OpenSSL reads it");
    let call = Call::Write { extension, numbers, structure, value };
    Case { group: Group::Writing, name, rows, call, refused: None }
}

fn path(group: Group, name: String, families: &[Family], count: usize, rows: usize) -> Case {
    let mut certificates = certificates(families, count, rows);
    let call = Call::Path { bundle: bundle(&certificates) };
    certificates[0].pop();
    let anchor_lacks_a_row = Call::Path { bundle: bundle(&certificates) };
    Case { group, name, rows, call, refused: Some(anchor_lacks_a_row) }
}

// Rows. A family's numbers are cut into slots, one for each row. In the anchor a row takes most of
// its slot or the first half of it; in each certificate below it takes a part of the issuer's row.

#[derive(Clone, Copy, PartialEq, Eq)]
enum Family {
    Ipv4,
    Ipv6,
    As,
}

/// A row in blocks: its first and its last one.
#[derive(Clone, Copy)]
struct Piece {
    shape: Shape,
    first: u128,
    last: u128,
}

#[derive(Clone, Copy)]
enum Shape {
    /// In each certificate one half of the issuer's prefix.
    Prefix,
    /// The same AS number in each certificate.
    Single,
    /// In each certificate a little less than the issuer's range, at both ends.
    Range,
}

impl Family {
    fn name(self) -> &'static str {
        match self {
            Family::Ipv4 => "IPv4",
            Family::Ipv6 => "IPv6",
            Family::As => "AS",
        }
    }

    fn extension(self) -> Extension {
        match self {
            Family::Ipv4 | Family::Ipv6 => Extension::Ip,
            Family::As => Extension::As,
        }
    }

    fn space(self) -> u64 {
        match self {
            Family::Ipv4 => 1024,
            Family::Ipv6 => 2048,
            Family::As => AS_NUMBERS,
        }
    }

    /// The bits of a number within its block: blocks are /24, /48, and single AS numbers.
    fn block_bits(self) -> u32 {
        match self {
            Family::Ipv4 => 8,
            Family::Ipv6 => 80,
            Family::As => 0,
        }
    }

    /// The bits of a block within its slot: slots are /10, /26, and 1,024 AS numbers.
    fn slot_bits(self) -> u32 {
        match self {
            Family::Ipv4 => 14,
            Family::Ipv6 => 22,
            Family::As => 10,
        }
    }

    /// The first slot: 0.64.0.0, 2a00::, AS number 1,024. It is not slot 0, so that no max is all
    /// zeros and ones, for which OpenSSL has another form.
    fn first_slot(self) -> u128 {
        match self {
            Family::Ipv4 | Family::As => 1,
            Family::Ipv6 => 0x2a00 << 10,
        }
    }

    /// The row of a piece.
    fn row(self, piece: &Piece) -> Row {
        let low = piece.first << self.block_bits();
        let high = ((piece.last + 1) << self.block_bits()) - 1;
        Row::listed(self.space(), low, high)
    }

    /// So many slots. One of each two is for a range.
    fn slots(self, count: usize, random: &mut Random) -> Vec<Piece> {
        let other = if self == Family::As { Shape::Single } else { Shape::Prefix };
        let two = [[Shape::Range, other], [other, Shape::Range]];
        let shapes = (0..(count + 1) / 2).flat_map(|_| random.pick(&two)).take(count);
        let slots = shapes.zip(self.first_slot()..).map(|(shape, slot)| {
            let first = slot << self.slot_bits();
            let last = first + (1 << self.slot_bits()) - 1;
            Piece { shape, first, last }
        });
        slots.collect()
    }

    /// The rows of each certificate.
    fn rows(self, certificates: usize, count: usize, random: &mut Random) -> Vec<Vec<Row>> {
        let mut pieces = self.slots(count, random);
        pieces.iter_mut().for_each(|piece| piece.narrow_to_anchor(random));
        let mut rows = Vec::new();
        for _ in 0..certificates {
            rows.push(pieces.iter().map(|piece| self.row(piece)).collect());
            pieces.iter_mut().for_each(|piece| piece.narrow(random));
        }
        rows
    }
}

impl Piece {
    fn blocks(&self) -> u128 {
        self.last - self.first + 1
    }

    /// From a slot to the anchor's row, which leaves the last block of the slot free.
    fn narrow_to_anchor(&mut self, random: &mut Random) {
        match self.shape {
            Shape::Prefix => self.last -= self.blocks() / 2,
            Shape::Single => {
                self.first += random.up_to(self.blocks() / 2);
                self.last = self.first;
            }
            Shape::Range => self.narrow(random),
        }
    }

    /// From a row to one in the certificate below.
    fn narrow(&mut self, random: &mut Random) {
        let half = self.blocks() / 2;
        let end = self.blocks() / 16;
        match self.shape {
            Shape::Prefix if random.once_in(2) => self.last -= half,
            Shape::Prefix => self.first += half,
            Shape::Single => {}
            Shape::Range => {
                self.first += 1 + random.up_to(end);
                self.last -= 1 + random.up_to(end);
            }
        }
    }
}

/// Equal seeds, so that a smaller table is the beginning of a larger one.
fn random() -> Random {
    Random::new(3779)
}

/// The rows of one value.
fn table(family: Family, rows: usize) -> Vec<Row> {
    family.rows(1, rows, &mut random()).remove(0)
}

/// The rows that each certificate lists: as many of each family, or nearly. In certificates 2 and 6
/// one of the families is inherited.
fn certificates(families: &[Family], count: usize, rows: usize) -> Vec<Vec<Row>> {
    let mut certificates = vec![Vec::new(); count];
    let mut random = random();
    for (place, family) in families.iter().enumerate() {
        let share = (rows + place) / families.len();
        let of_each = family.rows(count, share, &mut random);
        for (number, (certificate, rows)) in certificates.iter_mut().zip(of_each).enumerate() {
            let inherits = number % 4 == 2 && number / 4 % families.len() == place;
            match inherits {
                true => certificate.push(Row::inherited(family.space())),
                false => certificate.extend(rows),
            }
        }
    }
    certificates
}

/// The bundle of certificates with these rows, none of which lacks IP rows. Without AS rows they do
/// not carry that extension.
fn bundle(certificates: &[Vec<Row>]) -> Vec<u8> {
    let mut bundle = b"RCH\x00\x01".to_vec();
    bundle.push(certificates.len() as u8);
    for rows in certificates {
        let ip_rows = rows.iter().take_while(|row| row.space < AS_NUMBERS).count();
        let (ip, as_) = rows.split_at(ip_rows);
        let ip = written(Extension::Ip, ip);
        let as_ = if as_.is_empty() { vec![] } else { written(Extension::As, as_) };
        for value in [ip, as_] {
            bundle.extend((value.len() as u16).to_be_bytes());
            bundle.extend(value);
        }
    }
    bundle
}
