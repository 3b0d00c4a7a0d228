//! Tables that are allowed, and tables that nearly are.

use super::random::Random;
use crate::plain::{ones, width_of, Extension, Row, AS_NUMBERS, ROUTING_DOMAINS};

/// Spaces with and without a SAFI, first and last ones among them.
const IP_SPACES: [u64; 11] = [1024, 1025, 1026, 1027, 1152, 1280, 2048, 2049, 2050, 2176, 2304];

/// An allowed table of a few rows, some of them inherited if `inherit` says so.
pub fn table(random: &mut Random, extension: Extension, inherit: bool) -> Vec<Row> {
    let mut rows = Vec::new();
    for space in spaces(random, extension) {
        if inherit && random.once_in(5) {
            rows.push(Row::inherited(space));
        } else {
            let count = random.weighted(&[(4, 1), (3, 2), (2, 4), (2, 9), (1, 30)]);
            rows.extend(list(random, space, count));
        }
    }
    rows
}

/// An allowed table but for its length, which is exactly this many rows. The last is at times an
/// inherit row.
pub fn table_of(random: &mut Random, extension: Extension, count: usize) -> Vec<Row> {
    let mut spaces = spaces(random, extension);
    let inherits = spaces.len() > 1 && count > 1 && random.once_in(3);
    let inherited = if inherits { spaces.pop() } else { None };
    let listed = count - inherits as usize;
    let mut rows = Vec::new();
    for (place, &space) in (1..).zip(&spaces) {
        let left = listed - rows.len();
        let here = if place == spaces.len() { left } else { random.below(left + 1) };
        rows.extend(list(random, space, here));
    }
    rows.extend(inherited.map(Row::inherited));
    rows
}

/// Some spaces of an extension, at least one, ascending.
fn spaces(random: &mut Random, extension: Extension) -> Vec<u64> {
    if extension == Extension::As {
        let both = [AS_NUMBERS, ROUTING_DOMAINS];
        return random.pick(&[&both[..], &both[..1], &both[1..]]).to_vec();
    }
    let count = random.weighted(&[(4, 1), (3, 2), (2, 3), (1, 5)]);
    let mut spaces: Vec<u64> = (0..count).map(|_| ip_space(random)).collect();
    spaces.sort();
    spaces.dedup();
    spaces
}

fn ip_space(random: &mut Random) -> u64 {
    match random.below(4) {
        0 => random.pick(&[1025, 2049]) + random.below(256) as u64,
        _ => random.pick(&IP_SPACES),
    }
}

/// This many rows of one space, ascending, with gaps.
pub fn list(random: &mut Random, space: u64, count: usize) -> Vec<Row> {
    let last = ones(width_of(space));
    let mut lowest = start(random, last, count);
    let mut rows = Vec::new();
    for left in (1..=count as u128).rev() {
        let room = (last - lowest) / left;
        let (low, high) = match random.below(5) {
            0 if left == 1 => (lowest + random.skewed(room), last),
            _ => range(random, lowest, room.saturating_sub(2)),
        };
        rows.push(Row::listed(space, low, high));
        lowest = high.saturating_add(2);
    }
    rows
}

/// Where a list starts: often at the first number, if it is short near the last one, and near
/// numbers that end with many equal bits.
fn start(random: &mut Random, last: u128, count: usize) -> u128 {
    match random.below(7) {
        0 | 1 => 0,
        2 => random.up_to(3),
        3 if count < 40 => last - random.up_to(60).max(2 * count as u128),
        4 => (last >> 1) - random.up_to(20),
        5 if last > ones(64) => (random.up_to(last >> 1) | ones(64)) - random.up_to(20),
        _ => random.up_to(last >> 1),
    }
}

/// A range that starts at `lowest` or after it, and ends `room` later at the latest.
fn range(random: &mut Random, lowest: u128, room: u128) -> (u128, u128) {
    let low = lowest + random.skewed(room / 2);
    let high = low + random.skewed(room / 2);
    match random.below(7) {
        0..=3 => prefix_within(random, low, high),
        4 => (low, low),
        _ => (low, high),
    }
}

/// A prefix, as large as will go between these or smaller.
fn prefix_within(random: &mut Random, low: u128, high: u128) -> (u128, u128) {
    let size = u128::BITS - (high - low).leading_zeros();
    for bits in (0..=size.saturating_sub(random.below(3) as u32)).rev() {
        let start = low.checked_add(ones(bits)).map_or(low, |end| end & !ones(bits));
        if start >= low && matches!(start.checked_add(ones(bits)), Some(end) if end <= high) {
            return (start, start + ones(bits));
        }
    }
    (low, low)
}

/// Breaks or bends one rule of the table, in a way that can still be written as octets.
pub fn bend(random: &mut Random, rows: &mut Vec<Row>) {
    if !rows.is_empty() {
        let at = random.below(rows.len());
        bend_at(random, rows, at);
    }
}

/// The same, with the last row.
pub fn bend_end(random: &mut Random, rows: &mut Vec<Row>) {
    if let Some(at) = rows.len().checked_sub(1) {
        bend_at(random, rows, at);
    }
}

fn bend_at(random: &mut Random, rows: &mut Vec<Row>, at: usize) {
    let other = random.below(rows.len());
    let row = rows[at];
    let last = ones(width_of(row.space));
    match random.below(8) {
        0 => rows.swap(at, other),
        1 => rows.insert(at, row),
        2 => drop(rows.remove(at)),
        3 => rows[at] = Row::inherited(row.space),
        4 => rows.insert(at, Row::inherited(row.space)),
        5 if row.high < last => rows[at].high += 1 + random.up_to(2).min(last - row.high - 1),
        6 if row.low > 0 => rows[at].low -= 1 + random.up_to(2).min(row.low - 1),
        _ => rows[at] = Row { low: rows[other].low, high: rows[other].high.max(row.high), ..row },
    }
    keep_writable(rows);
}

/// An inherit row has no numbers, no row has a number too wide, and low is at most high.
fn keep_writable(rows: &mut [Row]) {
    for row in rows {
        if row.inherit {
            *row = Row::inherited(row.space);
        }
        row.high = row.high.min(ones(width_of(row.space)));
        row.low = row.low.min(row.high);
    }
}
