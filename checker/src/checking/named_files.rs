// Files that words name: what the program reads of one, or tells where it cannot;
// and named pipes, which give a file in pieces.

use std::ffi::OsStr;
use std::fs::File;
use std::io::{self, Read, Write};
use std::os::unix::ffi::OsStrExt;
use std::path::{Path, PathBuf};
use std::process::Command;
use std::thread::{sleep, spawn};
use std::time::Duration;

const PAUSE: Duration = Duration::from_micros(200);
/// EILSEQ, on Linux.
const ILLEGAL_SEQUENCE: i32 = 84;

/// So many bytes of the file at most; the program's line, with the system's
/// reason, for one that cannot be read.
pub fn contents(name: &[u8], most: usize) -> Result<Vec<u8>, Vec<u8>> {
    read(name, most).map_err(|error| {
        let reason = format!(": {}\n", reason(&error));
        [name, reason.as_bytes()].concat()
    })
}

/// What is not UTF-8 the program cannot open, whatever stands there.
fn read(name: &[u8], most: usize) -> io::Result<Vec<u8>> {
    if std::str::from_utf8(name).is_err() {
        return Err(io::Error::from_raw_os_error(ILLEGAL_SEQUENCE));
    }
    let mut bytes = Vec::new();
    let file = File::open(OsStr::from_bytes(name))?;
    file.take(most as u64).read_to_end(&mut bytes)?;
    Ok(bytes)
}

/// The C library's words for it, without the number that Rust adds.
fn reason(error: &io::Error) -> String {
    let text = error.to_string();
    let number = text.find(" (os error ");
    String::from(&text[..number.unwrap_or(text.len())])
}

/// Makes a named pipe.
pub fn pipe(path: &Path) -> io::Result<()> {
    let made = Command::new("mkfifo").arg(path).status()?;
    match made.success() {
        true => Ok(()),
        false => Err(io::Error::other("mkfifo failed")),
    }
}

/// Makes a named pipe and writes to it as soon as it is read, so many bytes at a
/// time; nobody waits for that.
pub fn feed(path: &Path, bytes: Vec<u8>, size: usize) -> io::Result<()> {
    pipe(path)?;
    let path = PathBuf::from(path);
    spawn(move || {
        let mut pipe = File::options().write(true).open(path)?;
        for piece in bytes.chunks(size) {
            pipe.write_all(piece)?;
            sleep(PAUSE);
        }
        io::Result::Ok(())
    });
    Ok(())
}
