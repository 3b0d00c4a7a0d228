//! Bundles: paths that are right, paths with something wrong, and bundles that are hardly paths.

use super::elements::{mutate, noise, scramble};
use super::random::Random;
use super::tables::{bend, list, table, table_of};
use super::values::value;
use crate::plain::{
    by_space, extension_of, ones, width_of, written, Extension, Row, BUNDLE, VALUE,
};

/// A way to make a bundle.
type Make = fn(&mut Random) -> Vec<u8>;

/// A bundle, and what kind it is.
pub fn bundle(random: &mut Random) -> (&'static str, Vec<u8>) {
    let kinds: [(usize, (&str, Make)); 11] = [
        (18, ("good", |random| framed(&encode(&path(random))))),
        (24, ("few-numbers", |random| framed(&encode(&path_of_few_numbers(random))))),
        (24, ("spoilt", |random| framed(&encode(&spoilt_path(random))))),
        (3, ("long", |random| framed(&encode(&long_path(random))))),
        (12, ("value-changed", value_changed)),
        (5, ("faults-together", faults_together)),
        (3, ("value-any", value_any)),
        (4, ("rows-inherited", rows_inherited)),
        (3, ("rows-of-both", rows_of_both)),
        (8, ("framing", framing)),
        (4, ("sizes-and-noise", sizes_and_noise)),
    ];
    let (kind, make) = random.weighted(&kinds);
    (kind, make(random))
}

/// What a certificate lists under each extension that it carries.
#[derive(Clone, Default)]
struct Certificate {
    ip: Option<Vec<Row>>,
    as_: Option<Vec<Row>>,
}

impl Certificate {
    /// A certificate with these rows. Without rows of a kind it does not carry the extension, or,
    /// if `carries_ip`, an IP value without rows.
    fn of(rows: &[Row], carries_ip: bool) -> Certificate {
        let (ip, as_): (Vec<Row>, Vec<Row>) =
            rows.iter().partition(|row| extension_of(row.space) == Extension::Ip);
        Certificate {
            ip: Some(ip).filter(|ip| carries_ip || !ip.is_empty()),
            as_: Some(as_).filter(|as_| !as_.is_empty()),
        }
    }

    fn extension(&mut self, extension: Extension) -> &mut Option<Vec<Row>> {
        match extension {
            Extension::Ip => &mut self.ip,
            Extension::As => &mut self.as_,
        }
    }
}

/// The two values of a certificate; empty is absent.
type Values = (Vec<u8>, Vec<u8>);

fn encode(path: &[Certificate]) -> Vec<Values> {
    let value = |extension, rows: &Option<Vec<Row>>| match rows {
        Some(rows) => written(extension, rows),
        None => vec![],
    };
    path.iter().map(|c| (value(Extension::Ip, &c.ip), value(Extension::As, &c.as_))).collect()
}

/// The bundle. (A value that is too long for it gets a wrong length.)
fn framed(values: &[Values]) -> Vec<u8> {
    let mut bundle = b"RCH\x00\x01".to_vec();
    bundle.push(values.len() as u8);
    for value in values.iter().flat_map(|(ip, as_)| [ip, as_]) {
        bundle.extend((value.len() as u16).to_be_bytes());
        bundle.extend(value);
    }
    bundle
}

fn length_of_path(random: &mut Random) -> usize {
    random.weighted(&[(2, 1), (9, 2), (8, 3), (4, 4), (2, 5), (1, 6), (1, 7), (2, 8)])
}

// Right paths

fn path(random: &mut Random) -> Vec<Certificate> {
    let mut held: Vec<Row> = Vec::new();
    for extension in random.pick(&[&[Extension::Ip, Extension::As][..], &[Extension::Ip]]) {
        held.extend(table(random, *extension, false));
    }
    let mut path = vec![Certificate::of(&held, true)];
    for _ in 1..length_of_path(random) {
        let listed = listed_below(random, &held);
        let issuer_carries_ip = matches!(path.last(), Some(Certificate { ip: Some(_), .. }));
        path.push(Certificate::of(&listed, issuer_carries_ip && random.once_in(2)));
        held = inherit(&listed, &held);
    }
    path
}

/// Six to eight certificates with many rows, of which little is lost on the way, and at times
/// something wrong in one of them.
fn long_path(random: &mut Random) -> Vec<Certificate> {
    let (of_ip, of_as) = (60 + random.below(100), 20 + random.below(60));
    let mut held = table_of(random, Extension::Ip, of_ip);
    held.extend(table_of(random, Extension::As, of_as));
    held.retain(|row| !row.inherit);
    let mut path = vec![Certificate::of(&held, true)];
    for _ in 0..5 + random.below(3) {
        let mut listed = held.clone();
        listed.remove(random.below(listed.len()));
        let at = random.below(listed.len());
        let part = part_of_row(random, &listed[at]);
        listed.splice(at..=at, part);
        path.push(Certificate::of(&listed, true));
        held = listed;
    }
    if random.once_in(2) {
        let at = random.below(path.len());
        spoil(random, &mut path[at]);
    }
    path
}

/// What a certificate may list below an issuer that holds these rows.
fn listed_below(random: &mut Random, held: &[Row]) -> Vec<Row> {
    let mut listed = Vec::new();
    for rows in by_space(held) {
        match random.below(8) {
            0 => {}
            1 | 2 => listed.push(Row::inherited(rows[0].space)),
            _ => rows.iter().for_each(|row| listed.extend(part_of_row(random, row))),
        }
    }
    listed
}

/// All of a row, none of it, its middle, or two pieces of it.
fn part_of_row(random: &mut Random, row: &Row) -> Vec<Row> {
    let low = row.low + random.skewed(row.high - row.low);
    let high = low + random.skewed(row.high - low);
    match random.below(6) {
        0 => vec![],
        1 => vec![Row { low, high, ..*row }],
        2 if high - low >= 2 => {
            vec![Row { high: low, ..*row }, Row { low: high, ..*row }]
        }
        _ => vec![*row],
    }
}

/// The rows after inheritance.
fn inherit(listed: &[Row], held: &[Row]) -> Vec<Row> {
    let mut rows = Vec::new();
    for row in listed {
        match row.inherit {
            true => rows.extend(held.iter().filter(|other| other.space == row.space)),
            false => rows.push(*row),
        }
    }
    rows
}

// Paths over sixteen numbers in five spaces: each certificate has a mask a space. They are often
// right, and often wrong in a way that the masks make likely: a number too many, a space too many.

const FEW_SPACES: [u64; 5] = [1024, 1026, 2048, 4096, 5120];

fn path_of_few_numbers(random: &mut Random) -> Vec<Certificate> {
    let (at_the_end, right) = (random.once_in(2), random.once_in(3));
    let mut masks: Vec<u16> = FEW_SPACES.iter().map(|_| mask(random)).collect();
    let mut path: Vec<Certificate> = Vec::new();
    for _ in 0..length_of_path(random) {
        let is_anchor = path.is_empty();
        let mut rows = Vec::new();
        for (&space, mask) in FEW_SPACES.iter().zip(&mut masks) {
            if inherits(random, *mask, is_anchor, right) {
                rows.push(Row::inherited(space));
                continue;
            }
            if !is_anchor {
                *mask &= (random.number() | random.number()) as u16;
            }
            if !right && random.once_in(30) {
                *mask |= 1 << random.below(16);
            }
            rows.extend(rows_of_mask(*mask, space, at_the_end));
        }
        path.push(Certificate::of(&rows, random.once_in(2)));
    }
    path
}

/// Whether a certificate inherits a space of which its issuer holds these numbers.
fn inherits(random: &mut Random, mask: u16, is_anchor: bool, right: bool) -> bool {
    let may_inherit = mask != 0 && !is_anchor;
    may_inherit && random.once_in(4) || !right && random.once_in(60)
}

fn mask(random: &mut Random) -> u16 {
    match random.below(4) {
        0 => 0,
        1 => u16::MAX,
        _ => (random.number() | random.number()) as u16,
    }
}

/// A row for each run of ones: numbers 0 to 15, or the last sixteen of the space.
fn rows_of_mask(mask: u16, space: u64, at_the_end: bool) -> Vec<Row> {
    let base = if at_the_end { ones(width_of(space)) - 15 } else { 0 };
    let mut rows: Vec<Row> = Vec::new();
    for number in (0..16).filter(|bit| mask >> bit & 1 == 1) {
        let number = base + number;
        match rows.last_mut() {
            Some(row) if row.high + 1 == number => row.high = number,
            _ => rows.push(Row::listed(space, number, number)),
        }
    }
    rows
}

// Paths with something wrong

fn spoilt_path(random: &mut Random) -> Vec<Certificate> {
    let mut path = path(random);
    for _ in 0..random.weighted(&[(4, 1), (2, 2), (1, 3)]) {
        let at = random.below(path.len());
        spoil(random, &mut path[at]);
    }
    path
}

/// Leaves out an extension, adds rows or an inherit row to it, or moves an end of a row.
fn spoil(random: &mut Random, certificate: &mut Certificate) {
    let extension = random.weighted(&[(2, Extension::Ip), (1, Extension::As)]);
    let carried = certificate.extension(extension);
    match (random.below(6), &mut *carried) {
        (0, _) => *carried = None,
        (1, _) => carried.get_or_insert_with(Vec::new).extend(table(random, extension, true)),
        (2, Some(rows)) => rows.push(Row::inherited(random.pick(&FEW_SPACES))),
        (_, Some(rows)) => move_an_end(random, rows),
        (_, None) => {}
    }
    if let Some(rows) = carried {
        put_right(rows, extension);
    }
}

/// Makes a row longer or shorter by one number at one end.
fn move_an_end(random: &mut Random, rows: &mut [Row]) {
    if rows.is_empty() {
        return;
    }
    let at = random.below(rows.len());
    let row = rows[at];
    let last = ones(width_of(row.space));
    match random.below(4) {
        0 if row.low > 0 => rows[at].low -= 1,
        1 if row.high < last => rows[at].high += 1,
        2 if row.low < row.high => rows[at].low += 1,
        3 if row.low < row.high => rows[at].high -= 1,
        _ => {}
    }
}

/// Makes rows a table again: of the extension, in order, apart from each other, inherit rows
/// alone.
fn put_right(rows: &mut Vec<Row>, extension: Extension) {
    rows.retain(|row| extension_of(row.space) == extension);
    rows.sort_by_key(|row| (row.space, !row.inherit, row.low));
    let mut right: Vec<Row> = Vec::new();
    for row in rows.drain(..) {
        let fits = match right.last() {
            Some(before) if before.space == row.space => {
                !before.inherit && !row.inherit && row.low > before.high.saturating_add(1)
            }
            _ => true,
        };
        if fits {
            right.push(if row.inherit { Row::inherited(row.space) } else { row });
        }
    }
    right.truncate(512);
    *rows = right;
}

/// A path, right or not, whose rows are no tables in one certificate or whose values are not all
/// encodings.
fn value_changed(random: &mut Random) -> Vec<u8> {
    let mut path = if random.once_in(3) { spoilt_path(random) } else { path(random) };
    if random.once_in(4) {
        let at = random.below(path.len());
        let Certificate { ip, as_ } = &mut path[at];
        [ip, as_].into_iter().flatten().for_each(|rows| bend(random, rows));
    }
    let mut values = encode(&path);
    for _ in 0..random.weighted(&[(4, 1), (1, 2)]) {
        let at = random.below(values.len());
        let (ip, as_) = &mut values[at];
        let value = if as_.is_empty() || random.once_in(2) { ip } else { as_ };
        *value = match random.below(3) {
            0 => scramble(random, value),
            _ => mutate(random, value),
        };
    }
    framed(&values)
}

/// A path with several things wrong in and around one certificate, so that the order shows in
/// which they are found.
fn faults_together(random: &mut Random) -> Vec<u8> {
    let mut path = path(random);
    let at = random.below(path.len());
    let issuer = at.saturating_sub(1);
    for extension in [Extension::Ip, Extension::As] {
        if random.once_in(3) {
            *path[issuer].extension(extension) = None;
        }
        if random.once_in(3) {
            let added = table(random, extension, true);
            let rows = path[at].extension(extension).get_or_insert_with(Vec::new);
            rows.extend(added);
            put_right(rows, extension);
        }
    }
    let mut values = encode(&path);
    let (ip, as_) = &mut values[at];
    for value in [ip, as_] {
        if random.once_in(4) {
            *value = mutate(random, value);
        }
    }
    if let Some((ip, _)) = values.get_mut(at + 1) {
        *ip = mutate(random, ip);
    }
    framed(&values)
}

/// A path with a value of any kind in place of one of its own.
fn value_any(random: &mut Random) -> Vec<u8> {
    let mut values = encode(&path(random));
    let at = random.below(values.len());
    match random.once_in(2) {
        true => values[at].0 = value(random, Extension::Ip).1,
        false => values[at].1 = value(random, Extension::As).1,
    }
    framed(&values)
}

// Paths with about 512 rows

/// The first certificate below the anchor has 511 to 514 rows, or many more, after inheritance:
/// it inherits one space of the anchor, and lists rows in another that the anchor has whole, or
/// but for the first or last number.
fn rows_inherited(random: &mut Random) -> Vec<u8> {
    let count = random.weighted(&[(1, 511), (2, 512), (3, 513), (1, 514), (1, 900)]);
    let inherited = 10 + random.below(500);
    let (many, whole) = random.pick(&[(1024, 2048), (1026, 4096), (4096, 5120), (5120, 1152)]);
    let mut anchor = list(random, many, inherited);
    let last = ones(width_of(whole)) - random.up_to(1);
    anchor.push(Row::listed(whole, random.up_to(1), last));
    let mut listed = vec![Row::inherited(many)];
    listed.extend(list(random, whole, (count - inherited).min(500)));
    if random.once_in(5) {
        let lacking = 2304;
        listed.push(Row::inherited(lacking));
    }
    let all = vec![Row::inherited(many), Row::inherited(whole)];
    let rows = [anchor, listed, all].map(|rows| Certificate::of(&sorted(rows), true));
    framed(&encode(&rows[..2 + random.below(2)]))
}

fn sorted(mut rows: Vec<Row>) -> Vec<Row> {
    rows.sort_by_key(|row| (row.space, row.low));
    rows
}

/// An anchor, and perhaps one below it, whose two values have 510 to 514 rows together.
fn rows_of_both(random: &mut Random) -> Vec<u8> {
    let (ip, as_) = values_of_about_512_rows(random);
    let mut values = vec![(ip, as_)];
    if random.once_in(2) {
        values.push(values[0].clone());
    }
    framed(&values)
}

/// Two values with 510 to 514 rows together.
pub fn values_of_about_512_rows(random: &mut Random) -> Values {
    let count = 510 + random.below(5);
    let of_ip = random.pick(&[0, 1, 100, 256, 500, 509, count - 1]);
    let ip = table_of(random, Extension::Ip, of_ip);
    let as_ = table_of(random, Extension::As, count - of_ip);
    (written(Extension::Ip, &ip), written(Extension::As, &as_))
}

// Bundles that are hardly paths

/// Bundles with a head or lengths that are wrong in a place or two.
fn framing(random: &mut Random) -> Vec<u8> {
    let mut bundle = match random.below(4) {
        0 => framed(&vec![(vec![], vec![]); random.below(11)]),
        _ => framed(&encode(&path(random))),
    };
    for _ in 0..random.weighted(&[(2, 1), (1, 2)]) {
        let length = bundle.len();
        let any = random.number() as u8;
        match random.below(8) {
            0 => change_octet(&mut bundle, random.below(5), |octet| octet ^ 1 << (any % 8)),
            1 => change_octet(&mut bundle, 5, |_| [0, 1, 2, 7, 8, 9, 10, 255][any as usize % 8]),
            2 => change_octet(&mut bundle, 6 + random.below(2), |octet| octet ^ 1 << (any % 8)),
            3 => bundle.truncate(random.below(length + 1)),
            4 => bundle.truncate(random.below(8)),
            5 => bundle.truncate(length.saturating_sub(1)),
            6 => bundle.push(any),
            _ => bundle = scramble(random, &bundle),
        }
    }
    bundle
}

fn change_octet(octets: &mut [u8], at: usize, change: impl Fn(u8) -> u8) {
    if let Some(octet) = octets.get_mut(at) {
        *octet = change(*octet);
    }
}

/// Bundles of any octets, of 65,536 octets and one more, and values of more than 32,768.
fn sizes_and_noise(random: &mut Random) -> Vec<u8> {
    let size = random.pick(&[VALUE - 1, VALUE, VALUE + 1, VALUE + 300]);
    match random.below(3) {
        0 => [b"RCH\x00\x01".to_vec(), noise(random)].concat(),
        1 => one_value_of_size(random, size),
        _ => {
            let length = random.pick(&[BUNDLE - 1, BUNDLE, BUNDLE + 1]);
            bundle_of_length(random, length, size)
        }
    }
}

/// A path with one of its values made this long.
fn one_value_of_size(random: &mut Random, size: usize) -> Vec<u8> {
    let mut values = encode(&path(random));
    let at = random.below(values.len());
    let value = if random.once_in(2) { &mut values[at].0 } else { &mut values[at].1 };
    value.resize(size, random.number() as u8);
    framed(&values)
}

/// A bundle of this length with one certificate, one of whose values has this size.
fn bundle_of_length(random: &mut Random, length: usize, size: usize) -> Vec<u8> {
    let mut ip = written(Extension::Ip, &table(random, Extension::Ip, false));
    let mut as_ = written(Extension::As, &table(random, Extension::As, false));
    let rest = length - (6 + 2 + 2) - size;
    let (of_ip, of_as) = random.pick(&[(size, rest), (rest, size)]);
    ip.resize(of_ip, 0);
    as_.resize(of_as, 0);
    framed(&[(ip, as_)])
}
