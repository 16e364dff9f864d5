//! What std has no words for: signals, and whether standard input and output were open at the
//! start. All unsafe code of the command is here. The numbers are Linux's on x86-64.

use std::ffi::{c_char, c_int, CString};
use std::os::unix::ffi::OsStrExt;
use std::path::Path;
use std::ptr;
use std::sync::atomic::{AtomicBool, AtomicI32, AtomicPtr, Ordering::SeqCst};

extern "C" {
    fn fcntl(descriptor: c_int, command: c_int, ...) -> c_int;
    fn raise(number: c_int) -> c_int;
    fn signal(number: c_int, action: usize) -> usize;
    fn unlink(path: *const c_char) -> c_int;
}

const GET_FLAGS: c_int = 1;
const DEFAULT: usize = 0;
const IGNORE: usize = 1;
const HANGUP: c_int = 1;
const INTERRUPT: c_int = 2;
const TERMINATE: c_int = 15;
const FILE_SIZE: c_int = 25;

static INPUT_CLOSED: AtomicBool = AtomicBool::new(false);
static OUTPUT_CLOSED: AtomicBool = AtomicBool::new(false);

/// Runs in front of `main`, and of std, which opens /dev/null in the place of what is closed.
#[used]
#[link_section = ".init_array"]
static AT_START: extern "C" fn() = note_closed;

extern "C" fn note_closed() {
    for (descriptor, closed) in [(0, &INPUT_CLOSED), (1, &OUTPUT_CLOSED)] {
        // SAFETY: asks for a descriptor's flags, which changes nothing; any number is allowed.
        closed.store(unsafe { fcntl(descriptor, GET_FLAGS) } == -1, SeqCst);
    }
}

/// Whether the command was started without standard input.
pub fn input_closed() -> bool {
    INPUT_CLOSED.load(SeqCst)
}

/// Whether the command was started without standard output.
pub fn output_closed() -> bool {
    OUTPUT_CLOSED.load(SeqCst)
}

/// Above the limit of a file's size writing fails, in place of ending the process.
pub fn ignore_file_size() {
    // SAFETY: no handler is involved.
    unsafe { signal(FILE_SIZE, IGNORE) };
}

/// The file to remove, null for none. What it points to is never freed, so that a handler may read
/// it at any time.
static FILE: AtomicPtr<c_char> = AtomicPtr::new(ptr::null_mut());
/// While it is set, a signal is noted and not acted on.
static HELD: AtomicBool = AtomicBool::new(false);
static NOTED: AtomicI32 = AtomicI32::new(0);

/// The file is removed, and the process ends as it would have without a handler.
extern "C" fn on_signal(number: c_int) {
    if HELD.load(SeqCst) {
        NOTED.store(number, SeqCst);
        return;
    }
    let path = FILE.swap(ptr::null_mut(), SeqCst);
    // SAFETY: the path is a string of C that is never freed. All three functions may be called in a
    // handler (POSIX, signal-safety).
    unsafe {
        if !path.is_null() {
            unlink(path);
        }
        signal(number, DEFAULT);
        raise(number);
    }
}

/// Makes a file, or fails, with no moment between in which a signal would leave it behind. From
/// then on, until `let_go`, a signal that ends the process removes the file first. Signals that the
/// caller had ignored stay ignored.
pub fn make_guarded<T, E>(path: &Path, make: impl FnOnce(&Path) -> Result<T, E>) -> Result<T, E> {
    HELD.store(true, SeqCst);
    for number in [HANGUP, INTERRUPT, TERMINATE] {
        // SAFETY: the handler has the type that C wants, and does only what a handler may.
        unsafe {
            let handler: extern "C" fn(c_int) = on_signal;
            if signal(number, handler as usize) == IGNORE {
                signal(number, IGNORE);
            }
        }
    }
    let made = make(path);
    if made.is_ok() {
        // A path of a file that was made has no zero byte.
        if let Ok(name) = CString::new(path.as_os_str().as_bytes()) {
            FILE.store(name.into_raw(), SeqCst);
        }
    }
    HELD.store(false, SeqCst);
    let noted = NOTED.swap(0, SeqCst);
    if noted != 0 {
        on_signal(noted);
    }
    made
}

/// The file has its name no more, or has a new one.
pub fn let_go() {
    FILE.store(ptr::null_mut(), SeqCst);
}
