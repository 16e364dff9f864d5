//! Several saves into a folder: each is told for itself, and none stops the others.

use crate::arguments::usage;
use crate::progress::Progress;
use crate::{input, output, show, Failure};
use std::collections::HashMap;
use std::ffi::{OsStr, OsString};
use std::fs;
use std::io;
use std::path::{Path, PathBuf};

/// The exit status: 2 if reading or writing one of them failed, 1 if one was refused, else 0.
pub fn convert(folder: &Path, saves: &[OsString]) -> Result<u8, Failure> {
    if !fs::metadata(folder)
        .map_err(|error| failed(folder, error))?
        .is_dir()
    {
        return Err(failed(folder, io::Error::other("it is no folder")));
    }
    let targets = targets(folder, saves)?;
    let progress = Progress::start();
    let mut status = 0;
    for (at, (save, target)) in saves.iter().zip(&targets).enumerate() {
        progress.at(&format!(
            "{} of {}: {}",
            at + 1,
            saves.len(),
            show::path(save)
        ));
        if let Err((failure, message)) = one(save, target) {
            progress.say(&message);
            status = status.max(failure.status());
        }
    }
    Ok(status)
}

fn failed(path: &Path, error: io::Error) -> Failure {
    Failure::Io(show::path(path.as_os_str()), error)
}

/// The file for each save. Two saves for one file are found before anything is written.
fn targets(folder: &Path, saves: &[OsString]) -> Result<Vec<PathBuf>, Failure> {
    let mut first: HashMap<PathBuf, &OsStr> = HashMap::new();
    let mut targets = Vec::new();
    for save in saves {
        let Some(stem) = Path::new(save).file_stem() else {
            return usage(format!(
                "{} has no name, which --into would need",
                show::path(save)
            ));
        };
        let mut name = stem.to_owned();
        name.push(".sii");
        let target = folder.join(name);
        if let Some(other) = first.insert(target.clone(), save) {
            return usage(format!(
                "{} and {} would both be written to {}",
                show::path(other),
                show::path(save),
                show::path(target.as_os_str())
            ));
        }
        targets.push(target);
    }
    Ok(targets)
}

fn one(save: &OsStr, target: &Path) -> Result<(), (Failure, Vec<u8>)> {
    let told = |failure: Failure| {
        let message = failure.message();
        (failure, message)
    };
    let content = input::read(save).map_err(told)?;
    // Of a folder of saves none may be lost: game.sii may be BSII as well.
    output::not_what_was_read(target, save, "save").map_err(told)?;
    let text = match sii_decode::to_siin(&content) {
        Ok(text) => text,
        Err(refusal) => {
            let message =
                crate::refused::message(&input::name(save), &content, None, None, &refusal);
            return Err((Failure::Refused(refusal), message));
        }
    };
    output::write(Some(target), |out| out.write_all(&text)).map_err(told)
}
