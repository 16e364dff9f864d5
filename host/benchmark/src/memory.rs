//! Peak memory: each side converts the file in a process of its own, which reports its VmHWM.

use crate::arguments::Side;
use crate::sides::{lent, rust_text};
use sii_decode::library;
use std::fs;
use std::hint::black_box;
use std::io::{self, Read, Write};
use std::process::{Command, Stdio};

/// The most memory that this process has had resident so far, in bytes.
fn peak() -> Result<u64, String> {
    let status = fs::read_to_string("/proc/self/status")
        .map_err(|error| format!("/proc/self/status: {error}"))?;
    in_status(&status).ok_or("/proc/self/status has no VmHWM".into())
}

fn in_status(status: &str) -> Option<u64> {
    let line = status
        .lines()
        .find_map(|line| line.strip_prefix("VmHWM:"))?;
    let kibibytes: u64 = line.trim().strip_suffix("kB")?.trim().parse().ok()?;
    Some(kibibytes * 1024)
}

/// Converts the file on standard input and answers the peak. Nothing but the file is in memory
/// before, so the file was made by another process.
pub fn own(side: Side) -> Result<u64, String> {
    let mut file = Vec::new();
    io::stdin()
        .read_to_end(&mut file)
        .map_err(|error| format!("standard input: {error}"))?;
    match side {
        Side::Ours => {
            let (mut table, length) = lent(&file)?;
            let mut output = vec![0; length];
            library::to_siin(&file, &mut table, &mut output);
            black_box(output);
        }
        Side::Rust => {
            black_box(rust_text(&file)?);
        }
    }
    peak()
}

/// The peak of a new process of this program with the file.
pub fn of_child(side: Side, file: &[u8]) -> Result<u64, String> {
    let failed = |error: io::Error| format!("a process for the memory: {error}");
    let program = std::env::current_exe().map_err(failed)?;
    let mut child = Command::new(program)
        .args(["--memory", side.name(), "-"])
        .stdin(Stdio::piped())
        .stdout(Stdio::piped())
        .spawn()
        .map_err(failed)?;
    let mut input = child.stdin.take().expect("it is piped");
    input.write_all(file).map_err(failed)?;
    drop(input);
    let answer = child.wait_with_output().map_err(failed)?;
    let printed = String::from_utf8_lossy(&answer.stdout);
    match printed.trim().parse() {
        Ok(bytes) if answer.status.success() => Ok(bytes),
        _ => Err(format!("a process for the memory: {}", answer.status)),
    }
}

#[cfg(test)]
mod tests {
    use super::*;

    #[test]
    fn the_line_of_the_status() {
        let status = "VmPeak:\t  9000 kB\nVmHWM:\t    1234 kB\nVmRSS:\t 1 kB\n";
        assert_eq!(in_status(status), Some(1234 * 1024));
        assert_eq!(in_status("VmRSS:\t 1 kB\n"), None);
    }

    #[test]
    fn this_process_has_some() {
        assert!(peak().unwrap() > 100_000);
    }
}
