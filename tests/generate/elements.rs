//! Encodings that are wrong in one or two places: whole elements changed, with all the lengths
//! around them put right, or single octets.

use super::random::Random;

/// An element, or what looks like one.
#[derive(Clone)]
pub struct Node {
    tag: u8,
    length: Length,
    contents: Contents,
}

#[derive(Clone)]
pub enum Contents {
    Octets(Vec<u8>),
    Nodes(Vec<Node>),
}

/// How the length is written.
#[derive(Clone, Copy)]
enum Length {
    Right,
    /// In this many octets after the first, whether or not it needs them.
    Long(usize),
    Indefinite,
    /// As if the contents had this many octets more.
    Off(isize),
}

/// Tags that are allowed somewhere, and some that are near to them.
const TAGS: [u8; 16] = [
    0x30, 0x30, 0x30, 0x02, 0x03, 0x04, 0x05, 0xa0, 0xa1, 0xa2, 0x80, 0x81, 0x31, 0x24, 0x01, 0x00,
];

impl Node {
    pub fn octets(tag: u8, octets: &[u8]) -> Node {
        Node { tag, length: Length::Right, contents: Contents::Octets(octets.to_vec()) }
    }

    pub fn nodes(tag: u8, nodes: Vec<Node>) -> Node {
        Node { tag, length: Length::Right, contents: Contents::Nodes(nodes) }
    }

    pub fn sequence(nodes: Vec<Node>) -> Node {
        Node::nodes(0x30, nodes)
    }

    /// The encoding.
    pub fn encode(&self) -> Vec<u8> {
        let contents = match &self.contents {
            Contents::Octets(octets) => octets.clone(),
            Contents::Nodes(nodes) => encode(nodes),
        };
        let length = match self.length {
            Length::Off(more) => (contents.len() as isize + more).max(0) as usize,
            _ => contents.len(),
        };
        let head = match self.length {
            Length::Right | Length::Off(_) => minimal_length(length),
            Length::Long(octets) => long_length(length, octets),
            Length::Indefinite => vec![0x80],
        };
        [vec![self.tag], head, contents].concat()
    }

    /// The children, if the element has such.
    fn children(&mut self) -> Option<&mut Vec<Node>> {
        match &mut self.contents {
            Contents::Nodes(nodes) => Some(nodes),
            Contents::Octets(_) => None,
        }
    }
}

pub fn encode(nodes: &[Node]) -> Vec<u8> {
    nodes.iter().flat_map(Node::encode).collect()
}

fn minimal_length(length: usize) -> Vec<u8> {
    match length {
        0..=0x7f => vec![length as u8],
        0x80..=0xff => long_length(length, 1),
        _ => long_length(length, 2),
    }
}

fn long_length(length: usize, octets: usize) -> Vec<u8> {
    let mut encoded = vec![0x80 + octets as u8];
    let whole = length.to_be_bytes();
    encoded.extend(&whole[whole.len() - octets..]);
    encoded
}

/// The elements in these octets, if they are elements all through.
fn parse(mut octets: &[u8]) -> Option<Vec<Node>> {
    let mut nodes = Vec::new();
    while let [tag, first, rest @ ..] = octets {
        let more = first.saturating_sub(0x80) as usize;
        let (head, rest) = split(rest, more)?;
        let length = match more {
            0 => *first as usize,
            _ => head.iter().fold(0, |length, &octet| length << 8 | octet as usize),
        };
        let (contents, rest) = split(rest, length)?;
        let is_constructed = tag & 0x20 != 0;
        let inner = if is_constructed { parse(contents) } else { None };
        nodes.push(match inner {
            Some(inner) => Node::nodes(*tag, inner),
            None => Node::octets(*tag, contents),
        });
        octets = rest;
    }
    octets.is_empty().then_some(nodes)
}

/// The first `count` octets and those after them, if there are as many.
fn split(octets: &[u8], count: usize) -> Option<(&[u8], &[u8])> {
    (count <= octets.len()).then(|| octets.split_at(count))
}

/// An encoding with an element or two changed. (Other octets are scrambled.)
pub fn mutate(random: &mut Random, encoding: &[u8]) -> Vec<u8> {
    let mut nodes = match parse(encoding) {
        Some(nodes) => nodes,
        None => return scramble(random, encoding),
    };
    change(random, &mut nodes, Random::below);
    if random.once_in(4) {
        change(random, &mut nodes, Random::below);
    }
    encode(&nodes)
}

/// An encoding with its last element changed, or one that encloses it.
pub fn mutate_end(random: &mut Random, encoding: &[u8]) -> Vec<u8> {
    let mut nodes = match parse(encoding) {
        Some(nodes) => nodes,
        None => return scramble(random, encoding),
    };
    change(random, &mut nodes, |_, count| count - 1);
    encode(&nodes)
}

/// A choice of one of so many.
type Choice = fn(&mut Random, usize) -> usize;

/// Changes something in these elements, more often deep inside than outside.
fn change(random: &mut Random, nodes: &mut Vec<Node>, choice: Choice) {
    if !random.once_in(5) {
        let mut inner: Vec<&mut Vec<Node>> = nodes.iter_mut().filter_map(Node::children).collect();
        if !inner.is_empty() {
            let chosen = choice(random, inner.len());
            return change(random, inner.swap_remove(chosen), choice);
        }
    }
    if nodes.is_empty() {
        return nodes.push(stray(random));
    }
    let at = choice(random, nodes.len());
    change_at(random, nodes, at);
}

fn change_at(random: &mut Random, nodes: &mut Vec<Node>, at: usize) {
    let other = random.below(nodes.len());
    match random.below(15) {
        0 => drop(nodes.remove(at)),
        1 => nodes.insert(at, nodes[other].clone()),
        2 => nodes.swap(at, other),
        3 => nodes.insert(at + random.below(2), stray(random)),
        4 => nodes.push(stray(random)),
        5 | 6 => nodes[at].tag = random.pick(&TAGS),
        7 | 8 => nodes[at].length = wrong_length(random),
        9 => nodes[at] = Node::sequence(vec![nodes[at].clone(), nodes[other].clone()]),
        10 => nodes[at] = Node::sequence(vec![nodes[at].clone()]),
        11 => nodes[at].contents = Contents::Octets(vec![]),
        12 => unwrap(nodes, at),
        _ => change_contents(random, &mut nodes[at]),
    }
}

/// Puts the children of an element in its place.
fn unwrap(nodes: &mut Vec<Node>, at: usize) {
    if let Contents::Nodes(children) = nodes.remove(at).contents {
        nodes.splice(at..at, children);
    }
}

/// An element that does not belong where it will be put.
fn stray(random: &mut Random) -> Node {
    match random.below(7) {
        0 => Node::octets(0x05, &[]),
        1 => Node::sequence(vec![]),
        2 => Node::octets(0x04, &[0, 1 + random.below(2) as u8]),
        3 => Node::octets(0x03, &[0, random.number() as u8]),
        4 => Node::octets(0x02, &[random.below(128) as u8]),
        5 => Node::nodes(0xa0 + random.below(2) as u8, vec![Node::octets(0x05, &[])]),
        _ => Node::octets(random.pick(&TAGS), &random.number().to_be_bytes()[..random.below(4)]),
    }
}

fn wrong_length(random: &mut Random) -> Length {
    match random.below(6) {
        0 => Length::Indefinite,
        1 => Length::Off(1),
        2 => Length::Off(-1),
        3 => Length::Off(random.below(300) as isize),
        _ => Length::Long(1 + random.below(4)),
    }
}

/// Changes the contents of an element that has no elements inside: its octets, its unused bits.
fn change_contents(random: &mut Random, node: &mut Node) {
    let octets = match &mut node.contents {
        Contents::Octets(octets) => octets,
        Contents::Nodes(_) => {
            node.length = wrong_length(random);
            return;
        }
    };
    let any = random.number() as u8;
    match random.below(10) {
        0 => octets.push(any),
        1 => octets.push(random.pick(&[0x00, 0xff])),
        2 => octets.insert(0, 0),
        3 => octets.insert(0, any),
        4 => octets.extend([0; 17]),
        5 => drop(octets.pop()),
        6 => replace(octets.first_mut(), random.below(10) as u8),
        7 => replace(octets.last_mut(), any),
        8 => add_unused_octet(octets),
        _ => flip(random, octets),
    }
}

/// Eight unused bits more, all zero, as if the first octet counted unused bits.
fn add_unused_octet(octets: &mut Vec<u8>) {
    if let Some(unused) = octets.first_mut() {
        *unused = unused.wrapping_add(8);
        octets.push(0);
    }
}

fn replace(octet: Option<&mut u8>, by: u8) {
    if let Some(octet) = octet {
        *octet = by;
    }
}

/// Octets with a few of them changed, and the lengths left as they were.
pub fn scramble(random: &mut Random, octets: &[u8]) -> Vec<u8> {
    let mut octets = octets.to_vec();
    for _ in 0..1 + random.below(3) {
        scramble_once(random, &mut octets);
    }
    octets
}

fn scramble_once(random: &mut Random, octets: &mut Vec<u8>) {
    let any = random.number() as u8;
    let at = random.below(octets.len() + 1);
    let octet = match octets.get_mut(at) {
        Some(octet) => octet,
        None => return octets.push(any),
    };
    match random.below(8) {
        0 => *octet = any,
        1 => *octet = octet.wrapping_add(1),
        2 => *octet = octet.wrapping_sub(1),
        3 => *octet = random.pick(&TAGS),
        4 => octets.insert(at, any),
        5 => drop(octets.remove(at)),
        6 => octets.truncate(at),
        _ => flip(random, octets),
    }
}

fn flip(random: &mut Random, octets: &mut [u8]) {
    if !octets.is_empty() {
        octets[random.below(octets.len())] ^= 1 << random.below(8);
    }
}

/// Octets without much sense; the tags and short lengths in them make some of it look like DER.
pub fn noise(random: &mut Random) -> Vec<u8> {
    let count = random.weighted(&[(3, 6), (3, 30), (1, 300)]);
    let mut octets = Vec::new();
    for _ in 0..random.below(count) {
        octets.push(match random.below(3) {
            0 => random.pick(&TAGS),
            1 => random.below(20) as u8,
            _ => random.number() as u8,
        });
    }
    octets
}
