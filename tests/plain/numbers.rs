//! Addresses as bits, INTEGERs, and how an element of a list is made of them.

use super::der::{element, encoded, refuse, Element, Fault, BIT_STRING, INTEGER, SEQUENCE};

/// A number of that many ones.
pub fn ones(count: u32) -> u128 {
    1u128.checked_shl(count).unwrap_or(0).wrapping_sub(1)
}

/// The bits of a number in this space.
pub fn width_of(space: u64) -> u32 {
    if space / 1024 == 2 {
        128
    } else {
        32
    }
}

/// The first bits of an address: how many, and what they are as a number.
#[derive(Clone, Copy, Debug, PartialEq, Eq)]
struct Bits {
    length: u32,
    number: u128,
}

impl Bits {
    fn first_of(address: u128, width: u32, length: u32) -> Bits {
        let number = address.checked_shr(width - length).unwrap_or(0);
        Bits { length, number }
    }

    /// The address with zeros for the bits that are not there.
    fn filled_with_zeros(self, width: u32) -> u128 {
        self.number.checked_shl(width - self.length).unwrap_or(0)
    }

    /// The address with ones for the bits that are not there.
    fn filled_with_ones(self, width: u32) -> u128 {
        self.filled_with_zeros(width) | ones(width - self.length)
    }

    /// The contents of a BIT STRING, if they keep the rules for an address of that width.
    fn read(contents: &[u8], width: u32) -> Option<Bits> {
        let (&unused, octets) = contents.split_first()?;
        let length = (8 * octets.len()).checked_sub(unused as usize)?;
        if unused > 7 || length > width as usize {
            return None;
        }
        let padded = number_of(octets);
        let (length, number) = (length as u32, padded >> unused);
        let unused_are_zero = padded & ones(unused as u32) == 0;
        unused_are_zero.then_some(Bits { length, number })
    }

    /// The BIT STRING.
    fn written(self) -> Vec<u8> {
        let octets = (self.length + 7) / 8;
        let unused = 8 * octets - self.length;
        let mut contents = vec![unused as u8];
        contents.extend(last_octets(self.number << unused, octets));
        encoded(BIT_STRING, &contents)
    }
}

/// At most sixteen octets as a number, high octet first.
fn number_of(octets: &[u8]) -> u128 {
    octets.iter().fold(0, |number, &octet| number << 8 | octet as u128)
}

/// The last `count` octets of a number, high octet first.
fn last_octets(number: u128, count: u32) -> Vec<u8> {
    number.to_be_bytes()[16 - count as usize..].to_vec()
}

/// The bits that min keeps: all but its trailing zero bits.
fn min_bits(low: u128, width: u32) -> Bits {
    let removed = low.trailing_zeros().min(width);
    Bits::first_of(low, width, width - removed)
}

/// The bits that max, which is not 0, keeps: all but its trailing one bits, and the first of those
/// if no one bit would be left.
fn max_bits(high: u128, width: u32) -> Bits {
    let kept = Bits::first_of(high, width, width - high.trailing_ones());
    if kept.number == 0 {
        Bits::first_of(high, width, kept.length + 1)
    } else {
        kept
    }
}

/// The bits of the prefix that is exactly this range, if there is one.
fn prefix_bits(low: u128, high: u128, width: u32) -> Option<Bits> {
    let differing = u128::BITS - (low ^ high).leading_zeros();
    let bits = Bits::first_of(low, width, width - differing);
    let prefix = (bits.filled_with_zeros(width), bits.filled_with_ones(width));
    (prefix == (low, high)).then_some(bits)
}

/// The number in an INTEGER's contents, if it is minimal and from 0 to 4,294,967,295.
fn read_integer(contents: &[u8]) -> Option<u128> {
    match *contents {
        [] | [0x80..=0xff, ..] | [0, 0..=0x7f, ..] => None,
        _ if contents.len() > 5 => None,
        _ => Some(number_of(contents)).filter(|&number| number <= ones(32)),
    }
}

/// The INTEGER: as few octets as leave its sign bit 0.
fn write_integer(number: u128) -> Vec<u8> {
    let bits = u128::BITS - number.leading_zeros();
    encoded(INTEGER, &last_octets(number, bits / 8 + 1))
}

/// The form of a list's elements.
#[derive(Clone, Copy)]
pub enum Form {
    /// A BIT STRING (prefix) or a range of two, for addresses of this width.
    Address { width: u32 },
    /// An INTEGER or a range of two.
    Integer,
}

impl Form {
    /// The tag of the elements that are not ranges, and of the two in a range.
    pub fn tag(self) -> u8 {
        match self {
            Form::Address { .. } => BIT_STRING,
            Form::Integer => INTEGER,
        }
    }

    /// Low and high of one element.
    pub fn read(self, element: &Element) -> Result<(u128, u128), Fault> {
        match self {
            _ if element.tag == SEQUENCE => self.read_range(element),
            Form::Address { width } => {
                let prefix = self.read_half(element)?;
                Ok((prefix.filled_with_zeros(width), prefix.filled_with_ones(width)))
            }
            Form::Integer => {
                let number = self.read_half(element)?.number;
                Ok((number, number))
            }
        }
    }

    fn read_range(self, range: &Element) -> Result<(u128, u128), Fault> {
        let (min, rest) = element(range.contents, &[self.tag()])?;
        let min = self.read_half(&min)?;
        let (max, rest) = element(rest, &[self.tag()])?;
        let max = self.read_half(&max)?;
        rest.nothing_left()?;
        match self.range(min, max) {
            Some(range) => Ok(range),
            None => refuse(9, range.place),
        }
    }

    /// A prefix, min or max; the bits of an INTEGER are its number.
    fn read_half(self, element: &Element) -> Result<Bits, Fault> {
        let contents = element.contents.octets;
        let read = match self {
            Form::Address { width } => Bits::read(contents, width),
            Form::Integer => read_integer(contents).map(|number| Bits { length: 32, number }),
        };
        match read {
            Some(bits) => Ok(bits),
            None => refuse(4, element.place),
        }
    }

    /// Low and high of a range, if this is its one form.
    fn range(self, min: Bits, max: Bits) -> Option<(u128, u128)> {
        let (low, high) = match self {
            Form::Address { width } => (min.filled_with_zeros(width), max.filled_with_ones(width)),
            Form::Integer => (min.number, max.number),
        };
        let one_form = low < high
            && match self {
                Form::Address { width } => {
                    prefix_bits(low, high, width).is_none()
                        && min == min_bits(low, width)
                        && max == max_bits(high, width)
                }
                Form::Integer => true,
            };
        one_form.then_some((low, high))
    }

    /// The one element for the numbers from low to high.
    pub fn write(self, low: u128, high: u128) -> Vec<u8> {
        match self {
            Form::Integer if low == high => write_integer(low),
            Form::Integer => write_range(write_integer(low), write_integer(high)),
            Form::Address { width } => match prefix_bits(low, high, width) {
                Some(prefix) => prefix.written(),
                None => {
                    let (min, max) = (min_bits(low, width), max_bits(high, width));
                    write_range(min.written(), max.written())
                }
            },
        }
    }
}

fn write_range(min: Vec<u8>, max: Vec<u8>) -> Vec<u8> {
    encoded(SEQUENCE, &[min, max].concat())
}
