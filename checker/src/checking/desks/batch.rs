// Runs of `bench desk` on a whole input: what it writes, and how far it reads.

use super::Desks;
use crate::checking::difference::{Case, Difference};
use crate::checking::named_files::contents;
use crate::checking::process::{on_pipe, Printed, LIMIT};
use crate::checking::program::shown;
use crate::dialogue::{whole, ENDED, MOST_READ};
use crate::random::Random;
use crate::words::Word;
use std::ops::RangeInclusive;
use std::os::unix::ffi::OsStrExt;
use std::path::Path;

/// What has to be written, and how much of the input be read.
pub struct Wanted {
    pub output: Vec<u8>,
    pub error: Vec<u8>,
    pub read: RangeInclusive<usize>,
}

/// The words that ask for the desk with this file.
pub fn words(path: &Path) -> [Word; 2] {
    [b"desk".to_vec(), path.as_os_str().as_bytes().to_vec()]
}

/// The model's dialogue with the file of this name; one that cannot be read is
/// told with the system's reason.
pub fn wanted(name: &[u8], input: &[u8]) -> Wanted {
    match contents(name, MOST_READ) {
        Ok(file) => dialogue(&file, input),
        Err(error) => Wanted {
            output: Vec::new(),
            error,
            read: 0..=0,
        },
    }
}

/// The model's dialogue with a file that holds this.
pub fn dialogue(file: &[u8], input: &[u8]) -> Wanted {
    let (said, read) = whole(file, input);
    Wanted {
        output: said.output.into_bytes(),
        error: said.error.into_bytes(),
        read,
    }
}

impl Wanted {
    /// Whether an input that stays open is enough for the dialogue to be over.
    fn needs_no_end(&self, input: &[u8]) -> bool {
        let lines = &input[..*self.read.end()];
        let waits = self.error.ends_with(ENDED.as_bytes());
        !waits && (lines.is_empty() || lines.ends_with(b"\n"))
    }

    fn is(&self, input: &[u8], got: &Printed) -> bool {
        let read = got.left.and_then(|left| input.len().checked_sub(left));
        got.output == self.output
            && got.error == self.error
            && got.status == Some(0)
            && read.is_some_and(|read| self.read.contains(&read))
    }

    fn shown(&self) -> String {
        let (output, error) = (self.output.escape_ascii(), self.error.escape_ascii());
        format!(
            "output \"{output}\" error \"{error}\" input read {:?}",
            self.read
        )
    }
}

impl Desks<'_> {
    /// One run on this input; gives the model's.
    pub fn batch(
        &mut self,
        random: &mut Random,
        case: &Case,
        path: &Path,
        input: &[u8],
    ) -> Result<Wanted, Difference> {
        let wanted = wanted(path.as_os_str().as_bytes(), input);
        self.run(random, case, path, input, &wanted)?;
        Ok(wanted)
    }

    /// One run that has to give this; the input stays open or ends.
    pub fn run(
        &mut self,
        random: &mut Random,
        case: &Case,
        path: &Path,
        input: &[u8],
        wanted: &Wanted,
    ) -> Result<(), Difference> {
        let open = wanted.needs_no_end(input) && random.once_in(2);
        let name = if open { "open" } else { "ended" };
        self.tally.meet("inputs, while it runs", name);
        self.runs += 1;
        let differs = |got: &str| {
            let (path, want) = (path.display(), wanted.shown());
            let input = input.escape_ascii();
            case.difference(&format!(
                "desk {path}, input \"{input}\", {name}: the model gives {want}\nthe program {got}"
            ))
        };
        let got = on_pipe(&self.program, &words(path), input, LIMIT, open);
        let mut got = got.map_err(|error| differs(&error.to_string()))?;
        if let Some(spoil) = self.spoil {
            spoil.whole(&mut got);
        }
        match wanted.is(input, &got) {
            true => Ok(()),
            false => Err(differs(&shown(&got))),
        }
    }
}
