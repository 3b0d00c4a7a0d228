//! The two readers.

use super::der::{element, refuse, Element, Fault, Octets};
use super::der::{AS_MEMBER, NULL, OCTET_STRING, RDI_MEMBER, SEQUENCE};
use super::numbers::{width_of, Form};
use super::{Extension, Refusal, Row, AS_NUMBERS, ROUTING_DOMAINS, ROWS, VALUE};

/// The rows of one value, as the reader alone gives them.
pub fn read(extension: Extension, value: &[u8]) -> Result<Vec<Row>, Refusal> {
    let mut rows = Vec::new();
    if value.is_empty() {
        return Err(Refusal::at(1, extension, 0));
    }
    read_value(extension, value, &mut rows)?;
    Ok(rows)
}

/// The rows of one certificate's two values, an empty one being absent.
pub fn read_both(ip: &[u8], as_: &[u8]) -> Result<Vec<Row>, Refusal> {
    let mut rows = Vec::new();
    for (extension, value) in [(Extension::Ip, ip), (Extension::As, as_)] {
        if !value.is_empty() {
            read_value(extension, value, &mut rows)?;
        }
    }
    Ok(rows)
}

/// Reads one value that is there. Its rows are counted on from those that are in `rows` already.
fn read_value(extension: Extension, value: &[u8], rows: &mut Vec<Row>) -> Result<(), Refusal> {
    let octets = Octets { place: 0, octets: value };
    let read = match extension {
        _ if value.len() > VALUE => refuse(1, 0),
        Extension::Ip => read_families(octets, rows),
        Extension::As => read_identifiers(octets, rows),
    };
    read.map_err(|fault| Refusal::at(fault.number, extension, fault.place))
}

/// IPAddrBlocks: families, each above the one before.
fn read_families(value: Octets, rows: &mut Vec<Row>) -> Result<(), Fault> {
    let (outer, after_outer) = element(value, &[SEQUENCE])?;
    let mut rest = outer.contents;
    let mut before = 0;
    while !rest.is_empty() {
        let (family, after) = element(rest, &[SEQUENCE])?;
        let (name, choice) = element(family.contents, &[OCTET_STRING])?;
        let space = read_space(&name)?;
        if space <= before {
            return refuse(7, name.place);
        }
        let form = Form::Address { width: width_of(space) };
        read_choice(choice, space, form, rows)?;
        (before, rest) = (space, after);
    }
    after_outer.nothing_left()
}

/// The space of a family: AFI times 1024, plus 1 and the SAFI if there is one.
fn read_space(name: &Element) -> Result<u64, Fault> {
    let (afi, safi) = match *name.contents.octets {
        [high, low] => ([high, low], 0),
        [high, low, safi] => ([high, low], 1 + safi as u64),
        _ => return refuse(4, name.place),
    };
    match u16::from_be_bytes(afi) {
        afi @ (1 | 2) => Ok(1024 * afi as u64 + safi),
        _ => refuse(6, name.place),
    }
}

/// ASIdentifiers: [0], then [1], each optional, at least one.
fn read_identifiers(value: Octets, rows: &mut Vec<Row>) -> Result<(), Fault> {
    let (outer, after_outer) = element(value, &[SEQUENCE])?;
    if outer.contents.is_empty() {
        return refuse(8, outer.place);
    }
    let (member, mut rest) = element(outer.contents, &[AS_MEMBER, RDI_MEMBER])?;
    read_member(&member, rows)?;
    if member.tag == AS_MEMBER && !rest.is_empty() {
        let (member, after) = element(rest, &[RDI_MEMBER])?;
        read_member(&member, rows)?;
        rest = after;
    }
    rest.nothing_left()?;
    after_outer.nothing_left()
}

fn read_member(member: &Element, rows: &mut Vec<Row>) -> Result<(), Fault> {
    let space = match member.tag {
        AS_MEMBER => AS_NUMBERS,
        _ => ROUTING_DOMAINS,
    };
    read_choice(member.contents, space, Form::Integer, rows)
}

/// NULL (inherit) or a list, and nothing after it: what a family has after its name, and what [0]
/// and [1] wrap.
fn read_choice(enclosed: Octets, space: u64, form: Form, rows: &mut Vec<Row>) -> Result<(), Fault> {
    let (choice, rest) = element(enclosed, &[NULL, SEQUENCE])?;
    if choice.tag == SEQUENCE {
        read_list(&choice, space, form, rows)?;
    } else if choice.contents.is_empty() {
        push(rows, Row::inherited(space), choice.place)?;
    } else {
        return refuse(4, choice.place);
    }
    rest.nothing_left()
}

/// At least one element, each starting more than 1 after the end of the one before.
fn read_list(list: &Element, space: u64, form: Form, rows: &mut Vec<Row>) -> Result<(), Fault> {
    let mut rest = list.contents;
    if rest.is_empty() {
        return refuse(8, list.place);
    }
    let mut before = None;
    while !rest.is_empty() {
        let (element, after) = element(rest, &[form.tag(), SEQUENCE])?;
        let (low, high) = form.read(&element)?;
        if matches!(before, Some(end) if !is_beyond(low, end)) {
            return refuse(10, element.place);
        }
        push(rows, Row::listed(space, low, high), element.place)?;
        (before, rest) = (Some(high), after);
    }
    Ok(())
}

/// Whether `low` is more than 1 past `end`. Nothing is added to `end`: it may be the last address.
pub fn is_beyond(low: u128, end: u128) -> bool {
    low > end && low - end > 1
}

/// Adds a row, or refuses it if it is row 513.
fn push(rows: &mut Vec<Row>, row: Row, place: usize) -> Result<(), Fault> {
    if rows.len() == ROWS {
        return refuse(11, place);
    }
    rows.push(row);
    Ok(())
}
