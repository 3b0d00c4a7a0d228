//! The library: the functions of `include/rch.h`, with slices for pointers and lengths.

use crate::sys::{rch_path, rch_read_as, rch_read_ip, rch_write};
use crate::tests::plain::Extension;

pub fn read(extension: Extension, value: &[u8], table: &mut [u64], reply: &mut [u64]) -> u64 {
    let reader = match extension {
        Extension::Ip => rch_read_ip,
        Extension::As => rch_read_as,
    };
    // SAFETY: each pointer goes with the length of its slice, and the slices are apart.
    unsafe {
        reader(
            value.as_ptr(),
            value.len(),
            table.as_mut_ptr(),
            table.len(),
            reply.as_mut_ptr(),
            reply.len(),
        )
    }
}

pub fn write(kind: u64, rows: &[u64], out: &mut [u8], reply: &mut [u64]) -> u64 {
    // SAFETY: as in `read`.
    unsafe {
        rch_write(
            kind,
            rows.as_ptr(),
            rows.len(),
            out.as_mut_ptr(),
            out.len(),
            reply.as_mut_ptr(),
            reply.len(),
        )
    }
}

pub fn path(bundle: &[u8], first: &mut [u64], second: &mut [u64], reply: &mut [u64]) -> u64 {
    // SAFETY: as in `read`.
    unsafe {
        rch_path(
            bundle.as_ptr(),
            bundle.len(),
            first.as_mut_ptr(),
            first.len(),
            second.as_mut_ptr(),
            second.len(),
            reply.as_mut_ptr(),
            reply.len(),
        )
    }
}
