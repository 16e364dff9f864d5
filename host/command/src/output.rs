//! Standard output, or a file that is written whole or not at all.

use crate::{show, system, Failure};
use std::ffi::OsStr;
use std::fs::{self, File, Metadata, OpenOptions, Permissions};
use std::io::{self, BufWriter, ErrorKind, Write};
use std::os::fd::AsFd;
use std::os::unix::ffi::OsStrExt;
use std::os::unix::fs::{fchown, FileTypeExt, MetadataExt, OpenOptionsExt, PermissionsExt};
use std::path::{Path, PathBuf};
use std::process;

type Fill<'f> = &'f mut dyn FnMut(&mut dyn Write) -> io::Result<()>;

/// As many links as Linux follows.
const LINKS: usize = 40;
const IS_A_DIRECTORY: i32 = 21;
const TOO_MANY_LINKS: i32 = 40;

/// `fill` writes the output; it is called once.
pub fn write(
    path: Option<&Path>,
    mut fill: impl FnMut(&mut dyn Write) -> io::Result<()>,
) -> Result<(), Failure> {
    match path {
        None => standard(&mut fill).map_err(|error| Failure::Io("standard output".into(), error)),
        Some(path) => to_file(path, &mut fill)
            .map_err(|error| Failure::Io(show::path(path.as_os_str()), error)),
    }
}

fn through(file: &File, fill: Fill) -> io::Result<()> {
    let mut out = BufWriter::new(file);
    fill(&mut out)?;
    out.flush()
}

/// A reader that goes away has had enough, as in `sii-decode SAVE | head`: that is no failure.
fn standard(fill: Fill) -> io::Result<()> {
    if system::output_closed() {
        return Err(io::Error::other("it is closed"));
    }
    // Not through io::stdout(), which looks for line feeds in all that passes.
    let out = File::from(io::stdout().as_fd().try_clone_to_owned()?);
    match through(&out, fill) {
        Err(error) if error.kind() == ErrorKind::BrokenPipe => Ok(()),
        done => done,
    }
}

/// Where a path leads.
enum Place {
    /// Standard output, under a name like /dev/stdout.
    Standard,
    /// What a process has open, under a name like /dev/fd/3: only ever written behind what is there.
    Open(PathBuf),
    /// The path behind all links, and the file there, if there is one.
    File(PathBuf, Option<Metadata>),
}

fn to_file(path: &Path, fill: Fill) -> io::Result<()> {
    match place_of(path)? {
        Place::Standard => standard(fill),
        Place::Open(path) => through(&OpenOptions::new().append(true).open(path)?, fill),
        Place::File(path, None) => replace(&path, None, fill),
        Place::File(path, Some(there)) if there.is_file() => {
            // A rename asks the folder only, so the file's own word is heard here.
            if there.permissions().readonly() {
                return Err(ErrorKind::PermissionDenied.into());
            }
            replace(&path, Some(there), fill)
        }
        // A device or a pipe must not be replaced by a file.
        Place::File(path, Some(_)) => through(&OpenOptions::new().write(true).open(path)?, fill),
    }
}

fn place_of(path: &Path) -> io::Result<Place> {
    // Without the slash it would be a file's name.
    if path.as_os_str().as_bytes().ends_with(b"/") && found(fs::metadata(path))?.is_none() {
        return Err(io::Error::from_raw_os_error(IS_A_DIRECTORY));
    }
    let mut path = path.to_path_buf();
    for _ in 0..LINKS {
        let Some(name) = path.file_name().map(OsStr::to_owned) else {
            return Ok(Place::File(path.clone(), found(fs::metadata(path))?));
        };
        let folder = fs::canonicalize(folder_of(&path))?;
        path = folder.join(name);
        match fs::read_link(&path) {
            // The links in /proc are no paths: each leads to what a process has open.
            Ok(_) if folder.starts_with("/proc") => return open_place(path),
            Ok(next) => path = folder.join(next),
            Err(error) if error.kind() == ErrorKind::InvalidInput => {
                return Ok(Place::File(path.clone(), Some(fs::metadata(path)?)));
            }
            Err(error) if error.kind() == ErrorKind::NotFound => {
                return Ok(Place::File(path, None))
            }
            Err(error) => return Err(error),
        }
    }
    Err(io::Error::from_raw_os_error(TOO_MANY_LINKS))
}

fn found(metadata: io::Result<Metadata>) -> io::Result<Option<Metadata>> {
    match metadata {
        Ok(metadata) => Ok(Some(metadata)),
        Err(error) if error.kind() == ErrorKind::NotFound => Ok(None),
        Err(error) => Err(error),
    }
}

fn open_place(path: PathBuf) -> io::Result<Place> {
    let output = File::from(io::stdout().as_fd().try_clone_to_owned()?);
    match same_file(&output.metadata()?, &fs::metadata(&path)?) {
        true => Ok(Place::Standard),
        false => Ok(Place::Open(path)),
    }
}

fn same_file(a: &Metadata, b: &Metadata) -> bool {
    (a.dev(), a.ino()) == (b.dev(), b.ino())
}

/// Fails if the path leads to what was read, the save or an index, which would be lost.
pub fn not_what_was_read(path: &Path, input: &OsStr, what: &str) -> Result<(), Failure> {
    let read = match input == "-" {
        true => input_metadata(),
        false => fs::metadata(input),
    };
    match (fs::metadata(path), read) {
        (Ok(there), Ok(read)) if same_file(&there, &read) && keeps_bytes(&there) => {
            let error = io::Error::other(format!("it is the {what} itself, and stays as it is"));
            Err(Failure::Io(show::path(path.as_os_str()), error))
        }
        _ => Ok(()),
    }
}

/// A terminal, a pipe or a socket may be both input and output: nothing is lost.
fn keeps_bytes(there: &Metadata) -> bool {
    there.is_file() || there.file_type().is_block_device()
}

fn input_metadata() -> io::Result<Metadata> {
    File::from(io::stdin().as_fd().try_clone_to_owned()?).metadata()
}

fn folder_of(path: &Path) -> &Path {
    match path.parent() {
        Some(folder) if folder != Path::new("") => folder,
        _ => Path::new("."),
    }
}

/// A file that is removed, unless it is kept.
struct Temporary {
    path: PathBuf,
    kept: bool,
}

impl Drop for Temporary {
    fn drop(&mut self) {
        if !self.kept {
            // The failure that led here is the one to report.
            let _ = fs::remove_file(&self.path);
        }
        system::let_go();
    }
}

/// Writes beside the file, and puts that in its place when all of it is on the disk.
fn replace(path: &Path, there: Option<Metadata>, fill: Fill) -> io::Result<()> {
    // What replaces a file can be read by nobody else before it has that file's permissions.
    let mode = if there.is_some() { 0o600 } else { 0o666 };
    let (file, mut temporary) = create_beside(path, mode)?;
    through(&file, fill)?;
    if let Some(there) = there {
        keep_owner_and_mode(&file, &there)?;
    }
    file.sync_all()?;
    fs::rename(&temporary.path, path)?;
    temporary.kept = true;
    Ok(())
}

/// The owner and the group as far as the caller may set them; without its owner a file runs as
/// nobody else.
fn keep_owner_and_mode(file: &File, there: &Metadata) -> io::Result<()> {
    let made = file.metadata()?;
    let kept = (made.uid(), made.gid()) == (there.uid(), there.gid())
        || fchown(file, Some(there.uid()), Some(there.gid())).is_ok();
    if !kept {
        let _ = fchown(file, None, Some(there.gid()));
    }
    let mode = there.mode() & if kept { 0o7777 } else { 0o777 };
    file.set_permissions(Permissions::from_mode(mode))
}

fn create_beside(path: &Path, mode: u32) -> io::Result<(File, Temporary)> {
    let mut attempt = 0;
    loop {
        let name = format!(".sii-decode.{}.{attempt}", process::id());
        let path = folder_of(path).join(name);
        let mut options = OpenOptions::new();
        options.write(true).create_new(true).mode(mode);
        match system::make_guarded(&path, |path| options.open(path)) {
            Ok(file) => return Ok((file, Temporary { path, kept: false })),
            Err(error) if error.kind() == ErrorKind::AlreadyExists && attempt < 100 => attempt += 1,
            Err(error) => return Err(error),
        }
    }
}
