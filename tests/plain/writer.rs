//! The writer.

use super::der::{encoded, AS_MEMBER, NULL, OCTET_STRING, RDI_MEMBER, SEQUENCE};
use super::numbers::{ones, width_of, Form};
use super::reader::is_beyond;
use super::{Extension, Refusal, Row, AS_NUMBERS, ROUTING_DOMAINS, ROW, TABLE};
use std::iter;

/// The one encoding of a table that is handed in as numbers.
pub fn encoding(kind: u64, numbers: &[u64]) -> Result<Vec<u8>, Refusal> {
    let (extension, rows) = table_of(kind, numbers).ok_or(Refusal::bare(19))?;
    if extension == Extension::As && rows.is_empty() {
        return Err(Refusal::at(8, extension, 0));
    }
    Ok(written(extension, &rows))
}

/// Rows as octets, whether or not they are a table.
pub fn written(extension: Extension, rows: &[Row]) -> Vec<u8> {
    match extension {
        Extension::Ip => write_families(rows),
        Extension::As => write_identifiers(rows),
    }
}

/// The extension and the rows, if the numbers are a table of that kind. (An AS table has at least
/// one row; that is left to number 8.)
fn table_of(kind: u64, numbers: &[u64]) -> Option<(Extension, Vec<Row>)> {
    let extension = match kind {
        1 => Extension::Ip,
        2 => Extension::As,
        _ => return None,
    };
    if numbers.len() > TABLE {
        return None;
    }
    let rows: Vec<Row> = numbers.chunks(ROW).map(row_of).collect::<Option<_>>()?;
    let each_row = rows.iter().all(|row| is_row(extension, row));
    let each_two = rows.windows(2).all(|two| in_order(&two[0], &two[1]));
    (each_row && each_two).then_some((extension, rows))
}

/// Six numbers with a mark of 0 or 1 as a row.
fn row_of(numbers: &[u64]) -> Option<Row> {
    let whole = |upper: u64, lower: u64| (upper as u128) << 64 | lower as u128;
    match *numbers {
        [space, mark @ (0 | 1), low_upper, low_lower, high_upper, high_lower] => Some(Row {
            space,
            inherit: mark == 1,
            low: whole(low_upper, low_lower),
            high: whole(high_upper, high_lower),
        }),
        _ => None,
    }
}

fn is_row(extension: Extension, row: &Row) -> bool {
    let own_kind = match extension {
        Extension::Ip => matches!(row.space, 1024..=1280 | 2048..=2304),
        Extension::As => matches!(row.space, AS_NUMBERS | ROUTING_DOMAINS),
    };
    let last = match row.inherit {
        true => 0,
        false => ones(width_of(row.space)),
    };
    own_kind && row.low <= row.high && row.high <= last
}

/// Rows ascend by space, then low, with a gap; an inherit row is alone in its space.
fn in_order(before: &Row, row: &Row) -> bool {
    if before.space == row.space {
        !before.inherit && !row.inherit && is_beyond(row.low, before.high)
    } else {
        before.space < row.space
    }
}

fn write_families(rows: &[Row]) -> Vec<u8> {
    let families: Vec<u8> = by_space(rows).flat_map(write_family).collect();
    encoded(SEQUENCE, &families)
}

fn write_family(rows: &[Row]) -> Vec<u8> {
    let space = rows[0].space;
    let mut name = vec![0, (space / 1024) as u8];
    if let Some(safi) = (space % 1024).checked_sub(1) {
        name.push(safi as u8);
    }
    let name = encoded(OCTET_STRING, &name);
    let form = Form::Address { width: width_of(space) };
    encoded(SEQUENCE, &[name, write_choice(rows, form)].concat())
}

fn write_identifiers(rows: &[Row]) -> Vec<u8> {
    let members: Vec<u8> = by_space(rows).flat_map(write_member).collect();
    encoded(SEQUENCE, &members)
}

fn write_member(rows: &[Row]) -> Vec<u8> {
    let tag = match rows[0].space {
        AS_NUMBERS => AS_MEMBER,
        _ => RDI_MEMBER,
    };
    encoded(tag, &write_choice(rows, Form::Integer))
}

/// The rows of each space in turn.
pub fn by_space(mut rows: &[Row]) -> impl Iterator<Item = &[Row]> {
    iter::from_fn(move || {
        let space = rows.first()?.space;
        let count = rows.iter().take_while(|row| row.space == space).count();
        let (own, rest) = rows.split_at(count);
        rows = rest;
        Some(own)
    })
}

fn write_choice(rows: &[Row], form: Form) -> Vec<u8> {
    if rows[0].inherit {
        return encoded(NULL, &[]);
    }
    let list: Vec<u8> = rows.iter().flat_map(|row| form.write(row.low, row.high)).collect();
    encoded(SEQUENCE, &list)
}
