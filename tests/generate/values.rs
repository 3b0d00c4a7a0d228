//! Extension values: good ones, spoilt ones, and ones made freely by the grammar.

use super::elements::{encode, mutate, mutate_end, noise, scramble, Node};
use super::random::Random;
use super::tables::{bend, bend_end, table, table_of};
use crate::plain::{ones, written, Extension, VALUE};

/// A way to make a value.
type Make = fn(&mut Random, Extension) -> Vec<u8>;

/// A value for the reader of this extension, and what kind it is.
pub fn value(random: &mut Random, extension: Extension) -> (&'static str, Vec<u8>) {
    let kinds: [(usize, (&str, Make)); 9] = [
        (18, ("good", good)),
        (28, ("elements-changed", |random, ip| mutate_good(random, ip, mutate))),
        (12, ("octets-changed", |random, ip| mutate_good(random, ip, scramble))),
        (10, ("rows-bent", rows_bent)),
        (20, ("free", free)),
        (4, ("about-512-rows", about_512_rows)),
        (3, ("sizes", sizes)),
        (2, ("other-kind", other_kind)),
        (3, ("noise", |random, _| noise(random))),
    ];
    let (kind, make) = random.weighted(&kinds);
    (kind, make(random, extension))
}

pub fn good(random: &mut Random, extension: Extension) -> Vec<u8> {
    if extension == Extension::Ip && random.once_in(40) {
        return written(extension, &[]);
    }
    written(extension, &table(random, extension, true))
}

/// A way to spoil octets.
type Mutation = fn(&mut Random, &[u8]) -> Vec<u8>;

fn mutate_good(random: &mut Random, extension: Extension, mutation: Mutation) -> Vec<u8> {
    let value = good(random, extension);
    mutation(random, &value)
}

fn rows_bent(random: &mut Random, extension: Extension) -> Vec<u8> {
    let mut rows = table(random, extension, true);
    bend(random, &mut rows);
    written(extension, &rows)
}

/// Values with 510 to 514 rows, some of them spoilt.
fn about_512_rows(random: &mut Random, extension: Extension) -> Vec<u8> {
    let count = random.weighted(&[(1, 510), (1, 511), (3, 512), (4, 513), (1, 514)]);
    let mut rows = table_of(random, extension, count);
    match random.below(8) {
        0 => bend(random, &mut rows),
        1 => bend_end(random, &mut rows),
        _ => {}
    }
    let value = written(extension, &rows);
    match random.below(8) {
        0 => mutate(random, &value),
        1 | 2 => mutate_end(random, &value),
        _ => value,
    }
}

/// Values at the limits of their size.
fn sizes(random: &mut Random, extension: Extension) -> Vec<u8> {
    let size = random.weighted(&[
        (3, 0),
        (1, 1),
        (1, 2),
        (1, VALUE - 1),
        (2, VALUE),
        (3, VALUE + 1),
        (1, VALUE + 4000),
    ]);
    let mut value = good(random, extension);
    value.resize(size, random.number() as u8);
    value
}

fn other_kind(random: &mut Random, extension: Extension) -> Vec<u8> {
    match extension {
        Extension::Ip => good(random, Extension::As),
        Extension::As => good(random, Extension::Ip),
    }
}

// Free values: every element is well made, but nothing sees to it that they fit together.

fn free(random: &mut Random, extension: Extension) -> Vec<u8> {
    let members = match extension {
        Extension::Ip => (0..random.below(4)).map(|_| family(random)).collect(),
        Extension::As => identifiers(random),
    };
    encode(&[Node::sequence(members)])
}

fn family(random: &mut Random) -> Node {
    let afi = random.weighted(&[(4, 1), (4, 2), (1, 3), (1, 0)]);
    let mut name = vec![0, afi];
    match random.below(12) {
        0 => name = random.octets(2),
        1 => name.truncate(1),
        2 => name.extend([0, 0]),
        3..=6 => name.push(random.pick(&[0, 1, 2, 127, 128, 255])),
        _ => {}
    }
    let width = if afi == 2 { 128 } else { 32 };
    let choice = choice(random, |random| bit_string(random, width));
    Node::sequence(vec![Node::octets(0x04, &name), choice])
}

fn identifiers(random: &mut Random) -> Vec<Node> {
    let tags: &[u8] = random.weighted(&[
        (4, &[0xa0, 0xa1][..]),
        (3, &[0xa0]),
        (3, &[0xa1]),
        (1, &[0xa1, 0xa0]),
        (1, &[0xa0, 0xa0]),
        (1, &[0xa0, 0xa1, 0xa1]),
        (1, &[]),
    ]);
    tags.iter().map(|&tag| Node::nodes(tag, vec![choice(random, integer)])).collect()
}

/// NULL, or a list of such leaves and of ranges of two.
fn choice(random: &mut Random, leaf: impl Fn(&mut Random) -> Node) -> Node {
    if random.once_in(8) {
        return Node::octets(0x05, &[]);
    }
    let count = random.weighted(&[(1, 0), (8, 1), (4, 2), (1, 5)]);
    let element = |random: &mut Random| match random.below(5) {
        0 | 1 => leaf(random),
        _ => Node::sequence(vec![leaf(random), leaf(random)]),
    };
    Node::sequence((0..count).map(|_| element(random)).collect())
}

/// A BIT STRING with few runs of equal bits, so that two of them are often nearly a range.
fn bit_string(random: &mut Random, width: u32) -> Node {
    let length = match random.below(4) {
        0 => random.below(4) as u32,
        1 => width - random.below(3) as u32,
        2 if random.once_in(9) => width + 1,
        _ => random.below(width as usize + 1) as u32,
    };
    let run = |random: &mut Random| ones(random.below(length as usize + 1) as u32);
    let number = match random.below(5) {
        0 => run(random),
        1 => ones(length.min(128)) ^ run(random),
        2 => run(random) ^ run(random) ^ run(random),
        3 => random.up_to(ones(length.min(128))),
        _ => run(random) ^ random.up_to(7),
    };
    let octets = (length + 7) / 8;
    let unused = 8 * octets - length;
    let padded = (number << unused).to_be_bytes();
    let mut contents = vec![0; octets.saturating_sub(16) as usize];
    contents.extend(&padded[16 - octets.min(16) as usize..]);
    contents.insert(0, unused as u8);
    Node::octets(0x03, &contents)
}

/// An INTEGER near an edge: of the octets that it takes, of the sign bit, of the numbers allowed.
fn integer(random: &mut Random) -> Node {
    let number = match random.below(4) {
        0 => random.up_to(5),
        1 => ones(8 * (1 + random.below(4) as u32)) - random.up_to(2) + random.up_to(3),
        2 => ones(8 * random.below(5) as u32) / 2 + random.up_to(3),
        _ => random.up_to(ones(32)),
    } as u64;
    let octets = (u64::BITS - number.leading_zeros()) / 8 + 1;
    let octets = if random.once_in(12) { octets.max(2) - 1 } else { octets };
    Node::octets(0x02, &number.to_be_bytes()[8 - octets as usize..])
}
