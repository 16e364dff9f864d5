//! The bytes of a save and of an index.

use crate::{show, system, Failure};
use sii_decode::{longest_index, LENGTH_LIMIT};
use std::ffi::OsStr;
use std::fs::File;
use std::io::{self, Read};
use std::os::fd::AsFd;

/// What messages call the file.
pub fn name(path: &OsStr) -> String {
    if path == "-" {
        "standard input".into()
    } else {
        show::path(path)
    }
}

/// An index of a save, by the name that messages have for it.
pub struct Index {
    pub name: String,
    pub bytes: Vec<u8>,
}

/// All bytes of the save, but not more than one above the limit, with which the library refuses it.
pub fn read(save: &OsStr) -> Result<Vec<u8>, Failure> {
    at_most(save, LENGTH_LIMIT + 1)
}

/// All bytes of the index, but not more than one above the longest that a save of this length has,
/// with which the library refuses it at the same record.
pub fn read_index(path: &OsStr, save: &[u8]) -> Result<Index, Failure> {
    Ok(Index {
        name: name(path),
        bytes: at_most(path, longest_index(save.len()) + 1)?,
    })
}

fn at_most(path: &OsStr, most: usize) -> Result<Vec<u8>, Failure> {
    let read = || -> io::Result<Vec<u8>> {
        let file = match path == "-" {
            true if system::input_closed() => return Err(io::Error::other("it is closed")),
            true => File::from(io::stdin().as_fd().try_clone_to_owned()?),
            false => File::open(path)?,
        };
        let metadata = file.metadata()?;
        // One buffer that fits, so that it need not grow. Of a stream the length is not known;
        // what is reserved for it and stays unused takes no memory.
        let length = match metadata.is_file() {
            true => usize::try_from(metadata.len()).map_or(most, |length| length.min(most)),
            false => most,
        };
        let mut content = Vec::new();
        content.try_reserve_exact(length)?;
        file.take(most as u64).read_to_end(&mut content)?;
        Ok(content)
    };
    read().map_err(|error| Failure::Io(name(path), error))
}
