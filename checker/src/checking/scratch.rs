// A directory of the run's own, for the files that words name.

use std::path::{Path, PathBuf};
use std::{env, fs, io, process};

pub struct Scratch {
    directory: PathBuf,
}

impl Scratch {
    /// Runs of the checker at the same time have directories of their own, and so
    /// has each of its parts; one that was left behind is removed.
    pub fn new(part: &str) -> io::Result<Scratch> {
        let name = format!("checker-{part}-{}", process::id());
        let directory = env::temp_dir().join(name);
        let _ = fs::remove_dir_all(&directory);
        fs::create_dir(&directory)?;
        Ok(Scratch { directory })
    }

    pub fn path(&self) -> &Path {
        &self.directory
    }

    /// A file with these bytes.
    pub fn file(&self, name: impl AsRef<Path>, bytes: &[u8]) -> io::Result<PathBuf> {
        let path = self.directory.join(name);
        fs::write(&path, bytes)?;
        Ok(path)
    }
}

impl Drop for Scratch {
    fn drop(&mut self) {
        let _ = fs::remove_dir_all(&self.directory);
    }
}
