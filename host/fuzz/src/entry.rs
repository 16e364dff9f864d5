//! The functions that libFuzzer looks for.

use crate::harness::Harness;
use differential::shrink::hex_dump;
use std::ffi::c_char;
use std::process::{abort, exit};
use std::sync::{LazyLock, Mutex};

/// With this variable set, the library's answers are those of `wrong.rs`.
const WRONG: &str = "SII_FUZZ_WRONG";

static HARNESS: LazyLock<Mutex<Harness>> =
    LazyLock::new(|| Mutex::new(Harness::new(std::env::var_os(WRONG).is_some())));

/// All but few changes leave the header alone, since no file without it gets any further.
const HEADER: usize = 8;
/// Of the versions, 1 is read in one way and all others in another.
const HEADERS: [[u8; HEADER]; 2] = [*b"BSII\x01\0\0\0", *b"BSII\x02\0\0\0"];
const HEADER_CHANGES: u32 = 32;

extern "C" {
    fn atexit(call: extern "C" fn()) -> i32;
    /// libFuzzer's own change of an input; the new length.
    fn LLVMFuzzerMutate(bytes: *mut u8, len: usize, room: usize) -> usize;
}

/// Before the first input. The fuzzer itself writes to standard error.
#[export_name = "LLVMFuzzerInitialize"]
pub extern "C" fn initialize(_count: *mut i32, _words: *mut *mut *mut c_char) -> i32 {
    if let Err(error) = oracle::silence_stdout() {
        eprintln!("fuzz: standard output: {error}");
        exit(2);
    }
    // SAFETY: takes a function without arguments, which lives as long as the process.
    unsafe { atexit(summary) };
    0
}

/// One input. The fuzzer keeps an input that ends the process, so a difference does.
///
/// # Safety
///
/// `bytes` points to `len` bytes.
#[export_name = "LLVMFuzzerTestOneInput"]
pub unsafe extern "C" fn test_one_input(bytes: *const u8, len: usize) -> i32 {
    let input = match len {
        0 => &[],
        // SAFETY: the caller's duty; nothing keeps the slice.
        _ => unsafe { std::slice::from_raw_parts(bytes, len) },
    };
    let found = HARNESS.lock().expect("one thread").input(input);
    if let Err(difference) = found {
        let (label, detail) = (difference.label, difference.detail);
        eprint!("difference: {label}\n  {detail}\n{}", hex_dump(input));
        abort();
    }
    0
}

/// The next input, made of the last one in place.
///
/// # Safety
///
/// `bytes` points to `room` bytes, of which the first `len` are the last input.
#[export_name = "LLVMFuzzerCustomMutator"]
pub unsafe extern "C" fn change(bytes: *mut u8, len: usize, room: usize, seed: u32) -> usize {
    let is_file = len > 0 && {
        // SAFETY: the caller's duty; the slice is gone before the bytes change.
        let file = unsafe { std::slice::from_raw_parts(bytes, len) };
        HEADERS.iter().any(|header| file.starts_with(header))
    };
    let kept = match is_file && room > HEADER && !seed.is_multiple_of(HEADER_CHANGES) {
        true => HEADER,
        false => 0,
    };
    // SAFETY: `kept` is at most `len` and less than `room`.
    kept + unsafe { LLVMFuzzerMutate(bytes.add(kept), len - kept, room - kept) }
}

/// What all of the inputs were, after the last one.
extern "C" fn summary() {
    if let Ok(harness) = HARNESS.try_lock() {
        eprint!("{}", harness.tally.summary());
    }
}
