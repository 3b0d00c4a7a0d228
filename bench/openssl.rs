//! OpenSSL, by way of `openssl.c`.

use crate::tests::plain::Extension;
use std::ffi::CStr;
use std::os::raw::{c_char, c_int, c_void};
use std::ptr::NonNull;

#[link(name = "shim", kind = "static")]
#[link(name = "crypto")]
extern "C" {
    fn openssl_read(kind: c_int, value: *const u8, length: usize) -> c_int;
    fn openssl_structure_read(kind: c_int, value: *const u8, length: usize) -> *mut c_void;
    fn openssl_structure_free(kind: c_int, structure: *mut c_void);
    fn openssl_write(kind: c_int, structure: *const c_void, out: *mut u8) -> c_int;
    fn openssl_path(bundle: *const u8, length: usize) -> c_int;
    fn openssl_version() -> *const c_char;
}

/// Whether a value is read and canonical.
pub fn read(extension: Extension, value: &[u8]) -> bool {
    // SAFETY: the pointer goes with the length of its slice.
    unsafe { openssl_read(extension as c_int, value.as_ptr(), value.len()) == 1 }
}

/// Whether the path of a bundle is accepted.
pub fn path(bundle: &[u8]) -> bool {
    assert!(bundle.len() >= 6);
    // SAFETY: the pointer goes with the length of its slice, which has the six octets of the head.
    unsafe { openssl_path(bundle.as_ptr(), bundle.len()) == 1 }
}

/// A value that was read, to be written again.
pub struct Structure {
    extension: Extension,
    structure: NonNull<c_void>,
    octets: usize,
}

impl Structure {
    pub fn read(extension: Extension, value: &[u8]) -> Option<Structure> {
        // SAFETY: the pointer goes with the length of its slice.
        let structure =
            unsafe { openssl_structure_read(extension as c_int, value.as_ptr(), value.len()) };
        let structure = NonNull::new(structure)?;
        Some(Structure { extension, structure, octets: value.len() })
    }

    /// The octets that were written to `out`, which has room for those that were read.
    pub fn write(&self, out: &mut [u8]) -> usize {
        assert!(out.len() >= self.octets);
        // SAFETY: the structure is there until it is dropped, and its DER is what was read.
        let octets = unsafe {
            openssl_write(self.extension as c_int, self.structure.as_ptr(), out.as_mut_ptr())
        };
        octets.try_into().unwrap_or(0)
    }
}

impl Drop for Structure {
    fn drop(&mut self) {
        // SAFETY: it was made by `openssl_structure_read` and is freed once.
        unsafe { openssl_structure_free(self.extension as c_int, self.structure.as_ptr()) }
    }
}

pub fn version() -> String {
    // SAFETY: OpenSSL's own text, which stays.
    unsafe { CStr::from_ptr(openssl_version()) }.to_string_lossy().into_owned()
}
