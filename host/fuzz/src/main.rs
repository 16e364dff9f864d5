//! `fuzz --seeds FOLDER` writes the inputs that a run starts from; `fuzz PATH..` compares on inputs
//! that are there, files or folders of them.

use differential::shrink::hex_dump;
use differential::watch;
use fuzz::harness::Harness;
use fuzz::seeds::seeds;
use std::fs;
use std::io::{self, Write};
use std::path::{Path, PathBuf};
use std::process::exit;

fn stop(message: &str) -> ! {
    eprintln!("fuzz: {message}");
    exit(2)
}

fn main() {
    let words: Vec<PathBuf> = std::env::args_os().skip(1).map(PathBuf::from).collect();
    let mut report = match oracle::silence_stdout() {
        Ok(stdout) => stdout,
        Err(error) => stop(&format!("standard output: {error}")),
    };
    match words.as_slice() {
        [] => stop("what is to be compared?"),
        [word, folder] if word.as_os_str() == "--seeds" => {
            if let Err(error) = write_seeds(folder) {
                stop(&format!("{}: {error}", folder.display()));
            }
        }
        paths => exit(compare(&files(paths), &mut report)),
    }
}

fn write_seeds(folder: &Path) -> io::Result<()> {
    fs::create_dir_all(folder)?;
    for (index, seed) in seeds().iter().enumerate() {
        fs::write(folder.join(format!("seed-{index:04}")), seed)?;
    }
    Ok(())
}

/// All files that the paths name, those of a folder in order.
fn files(paths: &[PathBuf]) -> Vec<PathBuf> {
    let mut found = Vec::new();
    for path in paths {
        match fs::read_dir(path) {
            Err(_) => found.push(path.clone()),
            Ok(entries) => {
                let mut inside: Vec<_> = entries.flatten().map(|entry| entry.path()).collect();
                inside.sort();
                found.extend(inside);
            }
        }
    }
    found
}

/// The exit status: 0 without a difference, 1 with one.
fn compare(paths: &[PathBuf], report: &mut impl Write) -> i32 {
    let mut harness = Harness::new(false);
    watch::start();
    for (index, path) in paths.iter().enumerate() {
        let input =
            fs::read(path).unwrap_or_else(|error| stop(&format!("{}: {error}", path.display())));
        watch::now(index as u64);
        if let Err(difference) = harness.input(&input) {
            harness.tally.differences += 1;
            let (label, detail) = (difference.label, difference.detail);
            let shown = format!("difference: {label}\n  {}: {detail}\n", path.display());
            let _ = report.write_all((shown + &hex_dump(&input)).as_bytes());
        }
    }
    let _ = report.write_all(harness.tally.summary().as_bytes());
    i32::from(harness.tally.differences > 0)
}
