//! Says which file was at hand when a signal ends the run: a crash, an abort, or no end.

use std::sync::atomic::{AtomicU64, Ordering::Relaxed};

const SIGNALS: [(i32, &str); 6] = [
    (4, "illegal instruction"),
    (6, "abort"),
    (7, "bus error"),
    (8, "arithmetic fault"),
    (11, "segmentation fault"),
    (14, "no answer for a minute"),
];

static FILE: AtomicU64 = AtomicU64::new(0);

extern "C" {
    fn signal(number: i32, handler: extern "C" fn(i32)) -> usize;
    fn alarm(seconds: u32) -> u32;
    fn write(fd: i32, bytes: *const u8, len: usize) -> isize;
    fn _exit(status: i32) -> !;
}

pub fn start() {
    for (number, _) in SIGNALS {
        // SAFETY: the handler only loads an atomic number and calls write and _exit.
        unsafe { signal(number, stopped) };
    }
}

/// The file that is looked at next.
pub fn now(index: u64) {
    FILE.store(index, Relaxed);
    // SAFETY: takes a number.
    unsafe { alarm(60) };
}

/// No file is looked at any more.
pub fn done() {
    // SAFETY: takes a number; 0 ends the alarm.
    unsafe { alarm(0) };
}

extern "C" fn stopped(number: i32) {
    let named = SIGNALS.iter().find(|(signal, _)| *signal == number);
    let mut digits = [b' '; 24];
    let mut rest = FILE.load(Relaxed);
    for digit in digits[1..23].iter_mut().rev() {
        *digit = b'0' + (rest % 10) as u8;
        rest /= 10;
    }
    digits[23] = b'\n';
    put(b"differential: ");
    put(named.map_or("a signal", |(_, name)| name).as_bytes());
    put(b" at file");
    put(&digits);
    // SAFETY: ends the process.
    unsafe { _exit(1) }
}

fn put(bytes: &[u8]) {
    // SAFETY: the bytes live through the call.
    unsafe { write(2, bytes.as_ptr(), bytes.len()) };
}
