//! `parse` prints the rest of its input on InvalidInput.

use std::fs::File;
use std::os::fd::FromRawFd;
use std::os::fd::{AsRawFd, OwnedFd};

extern "C" {
    fn dup(fd: i32) -> i32;
    fn dup2(from: i32, to: i32) -> i32;
}

/// Sends descriptor 1 to /dev/null and hands back what it was.
pub fn silence_stdout() -> std::io::Result<File> {
    let nowhere = File::options().write(true).open("/dev/null")?;
    // SAFETY: both calls only take descriptors; the new one has no other owner.
    let kept = unsafe { dup(1) };
    if kept < 0 || unsafe { dup2(nowhere.as_raw_fd(), 1) } < 0 {
        return Err(std::io::Error::last_os_error());
    }
    Ok(File::from(unsafe { OwnedFd::from_raw_fd(kept) }))
}
