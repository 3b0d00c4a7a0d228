//! Tells the case that was running when the program is brought down.

use std::sync::atomic::{AtomicU64, Ordering};

static CASE: AtomicU64 = AtomicU64::new(0);

/// SIGILL, SIGABRT, SIGBUS, SIGFPE and SIGSEGV, as Linux numbers them.
const SIGNALS: [i32; 5] = [4, 6, 7, 8, 11];
const STANDARD_OUTPUT: i32 = 1;

extern "C" {
    fn signal(number: i32, handler: extern "C" fn(i32)) -> usize;
    fn write(file: i32, octets: *const u8, count: usize) -> isize;
    fn _exit(status: i32) -> !;
}

/// The case that runs from now on.
pub fn note_case(number: u64) {
    CASE.store(number, Ordering::Relaxed);
}

/// From now on a crash ends the program with a line and exit status 1.
pub fn watch() {
    for number in SIGNALS {
        // SAFETY: the handler does only what a signal handler may do.
        unsafe { signal(number, crashed) };
    }
}

extern "C" fn crashed(_: i32) {
    let mut line = *b"crash in case 00000000000000000000\n";
    let mut number = CASE.load(Ordering::Relaxed);
    for digit in line[14..34].iter_mut().rev() {
        *digit += (number % 10) as u8;
        number /= 10;
    }
    // SAFETY: both are made for signal handlers; the pointer has the length of the line.
    unsafe {
        write(STANDARD_OUTPUT, line.as_ptr(), line.len());
        _exit(1)
    }
}
