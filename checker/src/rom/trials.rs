// A copy of a program that is changed, run and restored.

use super::questions::{Question, Shown};
use super::Place;
use crate::checking::process::{command, piped};
use std::fs::{self, OpenOptions, Permissions};
use std::io::{self, ErrorKind, Seek, SeekFrom, Write};
use std::os::unix::fs::PermissionsExt;
use std::path::PathBuf;
use std::time::Duration;

/// The ways in which a byte is changed.
const CHANGES: [u8; 3] = [0xff, 1, 2];
/// A run that takes longer is ended.
const LIMIT: Duration = Duration::from_secs(1);

/// The copy stands in a directory of its own, in which it is run.
pub struct Trials {
    directory: PathBuf,
    bytes: Vec<u8>,
    question: Question,
}

impl Trials {
    /// Fails where the program, as it is, does not give the specified entries.
    pub fn new(bytes: Vec<u8>, question: Question) -> io::Result<Trials> {
        let name = format!("rom-{}-{question:?}", std::process::id());
        let directory = std::env::temp_dir().join(name);
        fs::create_dir(&directory)?;
        let trials = Trials {
            directory,
            bytes,
            question,
        };
        fs::write(trials.path(), &trials.bytes)?;
        fs::set_permissions(trials.path(), Permissions::from_mode(0o700))?;
        match trials.run()? {
            Shown::Specified => Ok(trials),
            _ => Err(io::Error::other("the entries are not the specified ones")),
        }
    }

    fn path(&self) -> PathBuf {
        self.directory.join("program")
    }

    /// The bytes of a place on which the entries depend.
    pub fn deciding(&self, place: &Place) -> io::Result<Vec<Place>> {
        let all = place.offset..place.offset + place.length;
        let mut found = Vec::new();
        if self.changed(place.offset, place.length, CHANGES[0])? == Shown::Specified {
            return Ok(found);
        }
        for offset in all {
            if self.decides(offset)? {
                found.push(Place {
                    offset,
                    length: 1,
                    instruction: place.instruction.clone(),
                });
            }
        }
        Ok(found)
    }

    /// Whether entries are shown whichever way the byte is changed, and not always the specified.
    fn decides(&self, offset: usize) -> io::Result<bool> {
        let mut other = false;
        for change in CHANGES {
            match self.changed(offset, 1, change)? {
                Shown::Nothing => return Ok(false),
                Shown::Other => other = true,
                Shown::Specified => {}
            }
        }
        Ok(other)
    }

    /// What the program shows with these bytes changed.
    fn changed(&self, offset: usize, length: usize, change: u8) -> io::Result<Shown> {
        let before = &self.bytes[offset..offset + length];
        let after: Vec<u8> = before.iter().map(|byte| byte ^ change).collect();
        self.write(offset, &after)?;
        let shown = self.run()?;
        self.write(offset, before)?;
        Ok(shown)
    }

    fn write(&self, offset: usize, bytes: &[u8]) -> io::Result<()> {
        let mut file = OpenOptions::new().write(true).open(self.path())?;
        file.seek(SeekFrom::Start(offset as u64))?;
        file.write_all(bytes)
    }

    fn run(&self) -> io::Result<Shown> {
        let words: Vec<_> = self
            .question
            .words()
            .iter()
            .map(|word| word.as_bytes().to_vec())
            .collect();
        let mut command = command(&self.path(), &words);
        let input = self.question.input();
        match piped(
            command.current_dir(&self.directory),
            input.as_bytes(),
            LIMIT,
            false,
        ) {
            Ok(printed) if printed.status == Some(0) => Ok(self.question.shown(&printed.output)),
            Ok(_) => Ok(Shown::Nothing),
            Err(error) if error.kind() == ErrorKind::TimedOut => Ok(Shown::Nothing),
            Err(error) => Err(error),
        }
    }
}

impl Drop for Trials {
    fn drop(&mut self) {
        let _ = fs::remove_dir_all(&self.directory);
    }
}
