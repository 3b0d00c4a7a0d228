//! The C functions themselves, as `include/rch.h` has them, for callers that lend their own
//! buffers.
//!
//! A slice is a pointer and a length. Buffers must not overlap, and a pointer with a length of 0
//! must still be aligned and not null, as those of Rust slices are.

/// `rch_read_ip` or `rch_read_as`.
pub type Reader = unsafe extern "C" fn(*const u8, usize, *mut u64, usize, *mut u64, usize) -> u64;

#[link(name = "face", kind = "static", modifiers = "-bundle")]
extern "C" {
    /// Reads an IPAddrBlocks value into a table.
    pub fn rch_read_ip(
        value: *const u8,
        value_len: usize,
        table: *mut u64,
        table_len: usize,
        reply: *mut u64,
        reply_len: usize,
    ) -> u64;

    /// Reads an ASIdentifiers value into a table.
    pub fn rch_read_as(
        value: *const u8,
        value_len: usize,
        table: *mut u64,
        table_len: usize,
        reply: *mut u64,
        reply_len: usize,
    ) -> u64;

    /// Writes the one encoding of a table: kind 1 IPAddrBlocks, 2 ASIdentifiers.
    pub fn rch_write(
        kind: u64,
        rows: *const u64,
        rows_len: usize,
        out: *mut u8,
        out_len: usize,
        reply: *mut u64,
        reply_len: usize,
    ) -> u64;

    /// Checks the path of a bundle.
    pub fn rch_path(
        bundle: *const u8,
        bundle_len: usize,
        first: *mut u64,
        first_len: usize,
        second: *mut u64,
        second_len: usize,
        reply: *mut u64,
        reply_len: usize,
    ) -> u64;

    /// Reads one certificate's two values and says which octets are at fault.
    pub fn rch_fault(
        ip: *const u8,
        ip_len: usize,
        as_: *const u8,
        as_len: usize,
        table: *mut u64,
        table_len: usize,
        reply: *mut u64,
        reply_len: usize,
    ) -> u64;
}
