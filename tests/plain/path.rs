//! The bundle and the path check.

use super::reader::read_both;
use super::{Extension, Refusal, Row, BUNDLE, ROWS};

const CERTIFICATES: usize = 8;
const MARK_AND_VERSION: &[u8] = b"RCH\x00\x01";

/// What a certificate carries and holds.
struct Held {
    carries_ip: bool,
    carries_as: bool,
    /// After inheritance, so that none has the mark.
    rows: Vec<Row>,
}

/// The rows of the last certificate, and the row pairs looked at.
pub fn check_path(bundle: &[u8]) -> Result<(Vec<Row>, u64), Refusal> {
    let mut issuer: Option<Held> = None;
    let mut pairs = 0;
    for (certificate, (ip, as_)) in (0..).zip(framed(bundle)?) {
        let own = check_certificate(ip, as_, issuer.as_ref())
            .map_err(|refusal| Refusal { certificate, ..refusal })?;
        pairs += issuer.map_or(0, |issuer| walk(&own.rows, &issuer.rows));
        issuer = Some(own);
    }
    Ok((issuer.map_or(vec![], |last| last.rows), pairs))
}

/// The IP and the AS value of a certificate; an empty one is absent.
type Values<'a> = (&'a [u8], &'a [u8]);

/// The values of each certificate in a bundle.
fn framed(bundle: &[u8]) -> Result<Vec<Values<'_>>, Refusal> {
    refuse_if(bundle.len() < 6 || bundle.len() > BUNDLE, Refusal::bare(18))?;
    refuse_if(!bundle.starts_with(MARK_AND_VERSION), Refusal::bare(17))?;
    let count = bundle[5] as usize;
    refuse_if(count == 0 || count > CERTIFICATES, Refusal::bare(12))?;
    let mut rest = &bundle[6..];
    let mut certificates = Vec::new();
    for _ in 0..count {
        let ip = take_value(&mut rest)?;
        let as_ = take_value(&mut rest)?;
        certificates.push((ip, as_));
    }
    refuse_if(!rest.is_empty(), Refusal::bare(18))?;
    Ok(certificates)
}

/// Takes a 16-bit length, high octet first, and that many octets from the front.
fn take_value<'a>(rest: &mut &'a [u8]) -> Result<&'a [u8], Refusal> {
    let length = take(rest, 2)?;
    let length = u16::from_be_bytes([length[0], length[1]]) as usize;
    take(rest, length)
}

/// Takes so many octets from the front.
fn take<'a>(rest: &mut &'a [u8], count: usize) -> Result<&'a [u8], Refusal> {
    refuse_if(count > rest.len(), Refusal::bare(18))?;
    let (taken, after) = rest.split_at(count);
    *rest = after;
    Ok(taken)
}

/// One certificate against its issuer, in the order of the text. The anchor has no issuer.
fn check_certificate(ip: &[u8], as_: &[u8], issuer: Option<&Held>) -> Result<Held, Refusal> {
    let listed = read_both(ip, as_)?;
    let (carries_ip, carries_as) = (!ip.is_empty(), !as_.is_empty());
    if let Some(issuer) = issuer {
        let (ip, as_) = (Extension::Ip, Extension::As);
        refuse_if(carries_ip && !issuer.carries_ip, Refusal::at(13, ip, 0))?;
        refuse_if(carries_as && !issuer.carries_as, Refusal::at(13, as_, 0))?;
    }
    let rows = inherit(&listed, issuer.map_or(&[], |issuer| &issuer.rows))?;
    refuse_if(rows.len() > ROWS, Refusal::bare(11))?;
    if let Some(issuer) = issuer {
        refuse_not_held(&rows, &issuer.rows)?;
    }
    Ok(Held { carries_ip, carries_as, rows })
}

fn refuse_if(fault: bool, refusal: Refusal) -> Result<(), Refusal> {
    if fault {
        Err(refusal)
    } else {
        Ok(())
    }
}

/// The rows with those that the issuer holds in place of each inherit row; number 14 if it holds
/// none there.
fn inherit(listed: &[Row], issuer: &[Row]) -> Result<Vec<Row>, Refusal> {
    let mut rows = Vec::new();
    for row in listed {
        let before = rows.len();
        if row.inherit {
            rows.extend(in_space(issuer, row.space));
        } else {
            rows.push(*row);
        }
        refuse_if(rows.len() == before, Refusal::in_space(14, row.space, 0))?;
    }
    Ok(rows)
}

fn in_space(rows: &[Row], space: u64) -> impl Iterator<Item = &Row> {
    rows.iter().filter(move |row| row.space == space)
}

/// Number 15, with the first number that is held and not held by the issuer.
fn refuse_not_held(own: &[Row], issuer: &[Row]) -> Result<(), Refusal> {
    for row in own {
        let holder = in_space(issuer, row.space).find(|i| i.low <= row.low && row.low <= i.high);
        let value = match holder {
            None => row.low,
            Some(holder) if holder.high < row.high => holder.high + 1,
            Some(_) => continue,
        };
        return Err(Refusal::in_space(15, row.space, value));
    }
    Ok(())
}

/// The row pairs that the definition in 'The path' looks at.
fn walk(own: &[Row], issuer: &[Row]) -> u64 {
    match (own, issuer) {
        ([row, next_own @ ..], [held, next_held @ ..]) => {
            if row.space == held.space && held.low <= row.low && row.high <= held.high {
                1 + walk(next_own, issuer)
            } else if (held.space, held.high) < (row.space, row.low) {
                1 + walk(own, next_held)
            } else {
                1
            }
        }
        _ => 0,
    }
}
