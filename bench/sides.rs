//! The three that are measured.

use crate::cases::Call;
use crate::openssl;
use crate::ours;
use crate::tests::plain::{self, Extension, REPLY, TABLE, VALUE};

/// Who makes a call.
#[derive(Clone, Copy, Debug, PartialEq, Eq)]
pub enum Side {
    Ours,
    Plain,
    OpenSsl,
}

impl Side {
    pub const ALL: [Side; 3] = [Side::Ours, Side::Plain, Side::OpenSsl];

    pub fn name(self) -> &'static str {
        match self {
            Side::Ours => "this library",
            Side::Plain => "plain Rust",
            Side::OpenSsl => "OpenSSL",
        }
    }

    /// The function that makes a call, and says whether it was accepted.
    pub fn function(self) -> fn(&Call, &mut Lent) -> bool {
        match self {
            Side::Ours => call_ours,
            Side::Plain => call_plain,
            Side::OpenSsl => call_openssl,
        }
    }
}

/// The buffers that are lent for a call. OpenSSL is lent only the octets to write to.
#[derive(Clone, PartialEq, Eq)]
pub struct Lent {
    pub first: Vec<u64>,
    pub second: Vec<u64>,
    pub out: Vec<u8>,
    pub reply: [u64; REPLY],
}

impl Lent {
    /// Full of something that no call leaves.
    pub fn new() -> Lent {
        let rubbish = 0x0123_4567_89ab_cdef;
        Lent {
            first: vec![rubbish; TABLE],
            second: vec![rubbish; TABLE],
            out: vec![0xcc; VALUE],
            reply: [rubbish; REPLY],
        }
    }
}

fn call_ours(call: &Call, lent: &mut Lent) -> bool {
    let Lent { first, second, out, reply } = lent;
    let number = match call {
        Call::Read { extension, value } => ours::read(*extension, value, first, reply),
        Call::Write { extension, numbers, .. } => {
            ours::write(*extension as u64, numbers, out, reply)
        }
        Call::Path { bundle } => ours::path(bundle, first, second, reply),
    };
    number == 0
}

fn call_plain(call: &Call, lent: &mut Lent) -> bool {
    let Lent { first, second, out, reply } = lent;
    let number = match call {
        Call::Read { extension: Extension::Ip, value } => plain::read_ip(value, first, reply),
        Call::Read { extension: Extension::As, value } => plain::read_as(value, first, reply),
        Call::Write { extension, numbers, .. } => {
            plain::write(*extension as u64, numbers, out, reply)
        }
        Call::Path { bundle } => plain::path(bundle, first, second, reply),
    };
    number == 0
}

fn call_openssl(call: &Call, lent: &mut Lent) -> bool {
    match call {
        Call::Read { extension, value } => openssl::read(*extension, value),
        Call::Write { structure, value, .. } => structure.write(&mut lent.out) == value.len(),
        Call::Path { bundle } => openssl::path(bundle),
    }
}
