//! The same cases through the Rust binding, whose answers are values and not buffers.

use crate::generate::Call;
use crate::plain::{self, Refusal, Row};

/// What differs between the binding and the plain implementation; nothing if they agree.
pub fn differences(call: &Call) -> Option<String> {
    match call {
        Call::ReadIp { value, .. } => {
            let answer = rch::read_ip(value).map(rows).map_err(refusal);
            differs(plain::read(plain::Extension::Ip, value), answer)
        }
        Call::ReadAs { value, .. } => {
            let answer = rch::read_as(value).map(rows).map_err(refusal);
            differs(plain::read(plain::Extension::As, value), answer)
        }
        Call::Write { kind, numbers, room } => written_differently(*kind, numbers, *room),
        Call::Path { bundle, .. } => {
            let answer = rch::check_path(bundle).map(|path| (rows(path.table), path.pairs));
            differs(plain::check_path(bundle), answer.map_err(refusal))
        }
        Call::Fault { ip, as_, .. } => {
            let answer = rch::fault(ip, as_);
            let part = answer.as_ref().err().map(|fault| (fault.value as u64, fault.octets));
            let answer = answer.clone().map(rows).map_err(|fault| refusal(fault.error));
            let plain = plain::read_both(ip, as_);
            let plain_part = plain.as_ref().err().map(|refusal| part_of(refusal, ip, as_));
            differs(plain, answer).or_else(|| differs(plain_part, part))
        }
    }
}

fn differs<T: PartialEq + std::fmt::Debug>(plain: T, binding: T) -> Option<String> {
    (plain != binding).then(|| format!("plain   {plain:x?}\nbinding {binding:x?}"))
}

/// The writer, for what the types of the binding can say.
fn written_differently(kind: u64, numbers: &[u64], room: usize) -> Option<String> {
    let extension = match kind {
        1 => rch::Extension::Ip,
        2 => rch::Extension::As,
        _ => return None,
    };
    let rows: Vec<rch::Row> = numbers.chunks(plain::ROW).map(row).collect::<Option<_>>()?;
    let mut out = vec![0; room];
    let answer = rch::write_into(extension, &rows, &mut out);
    let answer = answer.map(|octets| out[..octets].to_vec()).map_err(refusal);
    let too_short = Refusal { number: 20, ..Refusal::default() };
    let plain = plain::encoding(kind, numbers);
    differs(plain.and_then(|o| if o.len() > room { Err(too_short) } else { Ok(o) }), answer)
}

fn row(numbers: &[u64]) -> Option<rch::Row> {
    let whole = |upper: u64, lower: u64| (upper as u128) << 64 | lower as u128;
    match *numbers {
        [space, mark @ (0 | 1), low_upper, low_lower, high_upper, high_lower] => {
            let (low, high) = (whole(low_upper, low_lower), whole(high_upper, high_lower));
            Some(rch::Row { space, inherit: mark == 1, low, high })
        }
        _ => None,
    }
}

/// Which value, and its octets from the place at fault.
fn part_of<'a>(refusal: &Refusal, ip: &'a [u8], as_: &'a [u8]) -> (u64, &'a [u8]) {
    match (refusal.number, refusal.extension) {
        (1 | 11, _) => (1, &[]),
        (_, 1) => (1, &ip[refusal.place as usize..]),
        (_, _) => (2, &as_[refusal.place as usize..]),
    }
}

fn rows(table: rch::Table) -> Vec<Row> {
    let row = |row: rch::Row| {
        let rch::Row { space, inherit, low, high } = row;
        Row { space, inherit, low, high }
    };
    table.rows.into_iter().map(row).collect()
}

fn refusal(error: rch::Error) -> Refusal {
    Refusal {
        number: error.refusal.number(),
        certificate: error.certificate,
        extension: error.extension.map_or(0, |extension| extension as u64),
        place: error.place,
        space: error.space,
        value: error.value,
    }
}
