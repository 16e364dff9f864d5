//! Whole processes on one save: the command, a program over the crate, and one over the Rust. Each
//! reads the file, converts it and writes the text to standard output.

use crate::arguments::Side;
use crate::sides::{rust_text, Compared, Rounds};
use crate::temporary::Temporary;
use std::fs::{self, File};
use std::io::{self, Write};
use std::path::{Path, PathBuf};
use std::process::{Command, Stdio};
use std::time::Instant;

/// Ours by what it is, beside the Rust's.
pub type Processes = Vec<(&'static str, Compared)>;

/// What a process for the times does.
pub fn convert(side: Side, path: &Path) -> Result<(), String> {
    let file = fs::read(path).map_err(|error| format!("{}: {error}", path.display()))?;
    let written = match side {
        Side::Ours => {
            let text = sii_decode::to_siin(&file).map_err(|refusal| refusal.to_string())?;
            io::stdout().write_all(&text)
        }
        Side::Rust => io::stdout().write_all(rust_text(&file)?.as_bytes()),
    };
    written.map_err(|error| format!("standard output: {error}"))
}

fn failed(error: io::Error) -> String {
    format!("a process for the times: {error}")
}

/// The command stands beside this program, if it was built.
fn command() -> Result<Option<PathBuf>, String> {
    let program = std::env::current_exe().map_err(failed)?;
    Ok(Some(program.with_file_name("sii-decode")).filter(|path| path.is_file()))
}

/// Whether its times are among those of `time`.
pub fn has_command() -> bool {
    command().is_ok_and(|path| path.is_some())
}

fn own(side: Side, path: &Path) -> Result<Command, String> {
    let mut process = Command::new(std::env::current_exe().map_err(failed)?);
    process.args(["--convert", side.name()]).arg(path);
    Ok(process)
}

/// Its text has to be the Rust's.
fn check(process: &mut Command, text: &[u8]) -> Result<(), String> {
    let answer = process.stdout(Stdio::piped()).output().map_err(failed)?;
    match answer.status.success() && answer.stdout == text {
        true => Ok(()),
        false => Err(format!("another text, or none, from {process:?}")),
    }
}

/// From its start to its end; nobody reads what it writes.
fn seconds(process: &mut Command) -> Result<f64, String> {
    let null = File::options().write(true).open("/dev/null");
    process.stdout(null.map_err(failed)?);
    let start = Instant::now();
    let status = process.status().map_err(failed)?;
    let seconds = start.elapsed().as_secs_f64();
    match status.success() {
        true => Ok(seconds),
        false => Err(format!("{status} of {process:?}")),
    }
}

/// Without the command, if it was not built.
pub fn time(file: &[u8], rounds: usize) -> Result<Processes, String> {
    let written = Temporary::new(file).map_err(failed)?;
    let path = written.path();
    let text = rust_text(file)?;
    let mut rust = own(Side::Rust, path)?;
    let mut ours = vec![("crate", own(Side::Ours, path)?, Rounds::default())];
    if let Some(command) = command()? {
        let mut process = Command::new(command);
        process.arg(path);
        ours.insert(0, ("command", process, Rounds::default()));
    }
    for process in ours
        .iter_mut()
        .map(|(_, process, _)| process)
        .chain([&mut rust])
    {
        check(process, text.as_bytes())?;
    }
    drop(text);
    for round in 0..rounds {
        let rust_first = round % 2 == 0;
        let mut taken = if rust_first { seconds(&mut rust)? } else { 0.0 };
        for (_, process, times) in &mut ours {
            times.ours.push(seconds(process)?);
        }
        if !rust_first {
            taken = seconds(&mut rust)?;
        }
        for (_, _, times) in &mut ours {
            times.rust.push(taken);
        }
    }
    let compared = ours
        .into_iter()
        .map(|(what, _, times)| (what, times.compared()));
    Ok(compared.collect())
}

#[cfg(test)]
mod tests {
    use super::*;

    #[test]
    fn a_text_is_checked() {
        let mut echo = Command::new("echo");
        assert!(check(&mut echo, b"\n").is_ok());
        assert!(check(&mut echo, b"").is_err());
        assert!(check(&mut Command::new("false"), b"").is_err());
        assert!(seconds(&mut Command::new("true")).unwrap() > 0.0);
        assert!(seconds(&mut Command::new("false")).is_err());
    }

    #[test]
    fn what_cannot_be_converted() {
        let missing = Path::new("/nonexistent");
        assert!(convert(Side::Ours, missing).is_err() && convert(Side::Rust, missing).is_err());
    }
}
