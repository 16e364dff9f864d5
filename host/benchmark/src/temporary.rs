//! A file for other processes, in a folder of its own.

use std::fs;
use std::io;
use std::path::{Path, PathBuf};
use std::sync::atomic::{AtomicUsize, Ordering};

/// Both are removed in the end.
pub struct Temporary {
    folder: PathBuf,
    file: PathBuf,
}

impl Temporary {
    pub fn new(content: &[u8]) -> io::Result<Temporary> {
        static COUNT: AtomicUsize = AtomicUsize::new(0);
        let number = COUNT.fetch_add(1, Ordering::Relaxed);
        let name = format!("sii-decode-benchmark.{}.{number}", std::process::id());
        let folder = std::env::temp_dir().join(name);
        // Fails if there is one: it is somebody else's.
        fs::create_dir(&folder)?;
        let file = folder.join("file");
        let made = Temporary { folder, file };
        fs::write(&made.file, content)?;
        Ok(made)
    }

    pub fn path(&self) -> &Path {
        &self.file
    }
}

impl Drop for Temporary {
    fn drop(&mut self) {
        let _ = fs::remove_dir_all(&self.folder);
    }
}

#[cfg(test)]
mod tests {
    use super::*;

    #[test]
    fn removed_in_the_end() {
        let [one, other] = [b"one", b"two"].map(|content| Temporary::new(content).unwrap());
        assert_eq!(fs::read(one.path()).unwrap(), b"one");
        assert_eq!(fs::read(other.path()).unwrap(), b"two");
        let folder = one.folder.clone();
        drop(one);
        assert!(!folder.exists() && other.path().exists());
    }
}
