//! Files for programs that are given them as arguments: each run has a folder of its own, which is removed afterwards.

use std::path::{Path, PathBuf};
use std::sync::atomic::{AtomicU64, Ordering};
use std::{fs, io, process};

const FOLDERS: &str = "target/reference/files";

static NEXT: AtomicU64 = AtomicU64::new(0);

pub struct Folder(PathBuf);

impl Folder {
    pub fn new() -> io::Result<Folder> {
        let number = NEXT.fetch_add(1, Ordering::Relaxed);
        let path = Path::new(FOLDERS).join(format!("{}-{number}", process::id()));
        fs::create_dir_all(&path)?;
        Ok(Folder(path))
    }

    /// The path of a file in it, whether there is one or not.
    pub fn path(&self, name: &str) -> PathBuf {
        self.0.join(name)
    }

    /// How many files are in it.
    pub fn count(&self) -> io::Result<usize> {
        Ok(fs::read_dir(&self.0)?.count())
    }

    /// Writes a file and gives its path.
    pub fn put(&self, name: &str, bytes: &[u8]) -> io::Result<PathBuf> {
        let path = self.path(name);
        fs::write(&path, bytes)?;
        Ok(path)
    }
}

impl Drop for Folder {
    fn drop(&mut self) {
        // What cannot be removed is in nobody's way: the next one has another name.
        let _ = fs::remove_dir_all(&self.0);
    }
}
