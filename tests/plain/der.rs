//! DER: elements, and the faults that are found in them.

pub const INTEGER: u8 = 0x02;
pub const BIT_STRING: u8 = 0x03;
pub const OCTET_STRING: u8 = 0x04;
pub const NULL: u8 = 0x05;
pub const SEQUENCE: u8 = 0x30;
pub const AS_MEMBER: u8 = 0xa0;
pub const RDI_MEMBER: u8 = 0xa1;

/// What is wrong within one value, and at which octet of it.
#[derive(Clone, Copy, Debug)]
pub struct Fault {
    pub number: u64,
    pub place: usize,
}

pub fn refuse<T>(number: u64, place: usize) -> Result<T, Fault> {
    Err(Fault { number, place })
}

/// Some octets of a value, and the place in it at which they start.
#[derive(Clone, Copy)]
pub struct Octets<'a> {
    pub place: usize,
    pub octets: &'a [u8],
}

impl<'a> Octets<'a> {
    pub fn is_empty(self) -> bool {
        self.octets.is_empty()
    }

    /// The first `count` octets, and those after them.
    fn split(self, count: usize) -> (Octets<'a>, Octets<'a>) {
        let (octets, after) = self.octets.split_at(count);
        let place = self.place + count;
        (Octets { octets, ..self }, Octets { place, octets: after })
    }

    /// Number 5 if anything is left.
    pub fn nothing_left(self) -> Result<(), Fault> {
        if self.is_empty() {
            Ok(())
        } else {
            refuse(5, self.place)
        }
    }
}

/// One element: its tag, where the tag stands, and its contents.
pub struct Element<'a> {
    pub tag: u8,
    pub place: usize,
    pub contents: Octets<'a>,
}

/// Splits the first element, whose tag must be one of those allowed, from what comes after it.
pub fn element<'a>(
    enclosed: Octets<'a>,
    allowed: &[u8],
) -> Result<(Element<'a>, Octets<'a>), Fault> {
    let place = enclosed.place;
    let broken = Fault { number: 2, place };
    let (&tag, rest) = enclosed.octets.split_first().ok_or(broken)?;
    if !allowed.contains(&tag) {
        return refuse(3, place);
    }
    let (octets_of_length, length) = length(rest).ok_or(broken)?;
    let (_, rest) = enclosed.split(1 + octets_of_length);
    if length > rest.octets.len() {
        return Err(broken);
    }
    let (contents, after) = rest.split(length);
    Ok((Element { tag, place, contents }, after))
}

/// How many octets a definite and minimal length takes, and the length.
fn length(octets: &[u8]) -> Option<(usize, usize)> {
    match *octets {
        [short @ 0..=0x7f, ..] => Some((1, short as usize)),
        [0x81, one @ 0x80..=0xff, ..] => Some((2, one as usize)),
        [0x82, high @ 1..=0xff, low, ..] => Some((3, u16::from_be_bytes([high, low]) as usize)),
        _ => None,
    }
}

/// The encoding of one element.
pub fn encoded(tag: u8, contents: &[u8]) -> Vec<u8> {
    let length = contents.len();
    let [high, low] = (length as u16).to_be_bytes();
    let mut octets = vec![tag];
    match length {
        0..=0x7f => octets.push(low),
        0x80..=0xff => octets.extend([0x81, low]),
        _ => octets.extend([0x82, high, low]),
    }
    octets.extend(contents);
    octets
}
