// Files for `bench write` and `bench answers`: readable and not, in every place,
// of any length, in pieces; and standard input closed.

use super::Writings;
use crate::checking::difference::{Case, Difference};
use crate::checking::named_files::{feed, pipe};
use crate::checking::process::{closed_input, Printed, LIMIT};
use crate::checking::program::{bytes_or_refusal, differs, shown, wrote, NAME};
use crate::known::{house_sheet, ring, twin, LONG_WORD, TWIN_ANSWERS, TWIN_BUILT};
use crate::machine::LONGEST_SEQUENCE;
use crate::sheet::{machine_payload, sheet_of};
use crate::words::{service, Word};
use crate::writing::{with_answers, MOST_NEEDED};
use std::ffi::OsStr;
use std::io;
use std::os::unix::ffi::OsStrExt;
use std::os::unix::fs::symlink;
use std::path::{Path, PathBuf};

pub const FILES: &str = "missing, directory, below a file, symbolic links in a ring, two not readable, \
     a later one not opened, any bytes in a name, any text in a name, symbolic link, empty, endless, longest, \
     one byte too long, twice the same, in pieces, endless in pieces, closed input, sheet not read, \
     closed input and a missing file";

fn name_of(path: &Path) -> Word {
    path.as_os_str().as_bytes().to_vec()
}

fn twin_sheet() -> Vec<u8> {
    sheet_of(&twin(), &[0], Some(&TWIN_BUILT), Some(&TWIN_ANSWERS))
}

/// The largest payloads.
fn largest() -> [Vec<u8>; 4] {
    let bytes = vec![0; LONGEST_SEQUENCE];
    [
        machine_payload(&ring()),
        LONG_WORD.to_vec(),
        bytes.clone(),
        bytes,
    ]
}

impl Writings<'_> {
    pub fn files(&mut self) -> Result<(), Difference> {
        let sound = [
            machine_payload(&twin()),
            vec![0],
            TWIN_BUILT.to_vec(),
            TWIN_ANSWERS.to_vec(),
        ];
        let names = self.names(&sound)?[1..].to_vec();
        for (kind, path) in self.odd_files()? {
            for place in 0..4 {
                let mut names = names.clone();
                names[place] = name_of(&path);
                self.asked(kind, "write", &names)?;
            }
            self.asked(kind, "answers", &[name_of(&path)])?;
        }
        self.several(&names)?;
        self.pieces(&names, &sound)?;
        self.closed(&names, &sound)?;
        self.long_files()
    }

    /// One run with these files.
    fn asked(
        &mut self,
        kind: &'static str,
        service: &str,
        names: &[Word],
    ) -> Result<(), Difference> {
        let words = [&[service.as_bytes().to_vec()], names].concat();
        let case = self.case(0, kind, twin_sheet());
        self.comparer.program(&case, self.directory, &words)?;
        self.meet("write, files", kind);
        Ok(())
    }

    /// Files that cannot be read, and files of any name and length.
    fn odd_files(&self) -> io::Result<Vec<(&'static str, PathBuf)>> {
        let directory = self.scratch.path();
        let plain = self.scratch.file("plain", &house_sheet())?;
        let (circle, link) = (directory.join("circle"), directory.join("link"));
        symlink(&circle, &circle)?;
        symlink(&plain, &link)?;
        let strange = OsStr::from_bytes(b"a \xfe\n%d: ");
        Ok(vec![
            ("missing", directory.join("missing")),
            ("directory", directory.to_path_buf()),
            ("below a file", plain.join("x")),
            ("symbolic links in a ring", circle),
            (
                "any bytes in a name",
                self.scratch.file(strange, &TWIN_BUILT)?,
            ),
            (
                "any text in a name",
                self.scratch.file("a \u{fe}\n%d: ", &TWIN_BUILT)?,
            ),
            ("symbolic link", link),
            ("empty", self.scratch.file("empty", b"")?),
            ("endless", PathBuf::from("/dev/zero")),
        ])
    }

    /// The first that cannot be read is told; a pipe that nobody writes to would
    /// be waited for, were it opened behind that.
    fn several(&mut self, names: &[Word]) -> Result<(), Difference> {
        let directory = self.scratch.path().to_path_buf();
        let (missing, waiting) = (directory.join("missing"), directory.join("waiting"));
        pipe(&waiting)?;
        for place in 0..3 {
            let mut names = names.to_vec();
            names[place] = name_of(&directory);
            names[place + 1] = name_of(&missing);
            self.asked("two not readable", "write", &names)?;
            names[place + 1] = name_of(&waiting);
            self.asked("a later one not opened", "write", &names)?;
        }
        let sequence = &names[2];
        let twice = [&names[..2], &[sequence.clone(), sequence.clone()]].concat();
        self.asked("twice the same", "write", &twice)
    }

    /// The longest payloads, and each of them with a byte more.
    fn long_files(&mut self) -> Result<(), Difference> {
        let largest = largest();
        let names = self.names(&largest)?[1..].to_vec();
        self.asked("longest", "write", &names)?;
        for (place, payload) in largest.iter().enumerate() {
            let mut names = names.clone();
            let longer = [&payload[..], &[0]].concat();
            names[place] = name_of(&self.scratch.file("longer", &longer)?);
            self.asked("one byte too long", "write", &names)?;
        }
        let [machine, word, sequence, answers] = largest;
        let sheet = super::joined(&vec![machine, word, sequence]);
        for (kind, more) in [("longest", 0), ("one byte too long", 1)] {
            let given = [&answers[..], &vec![7; more]].concat();
            let words = self.answers_named(&given)?;
            let case = self.case(0, kind, sheet.clone());
            let want = bytes_or_refusal(with_answers(&sheet, &given));
            self.comparer.run(&case, self.directory, &words, &want)?;
        }
        Ok(())
    }

    /// One file after the other comes through a named pipe.
    fn pieces(&mut self, names: &[Word], sound: &[Vec<u8>]) -> Result<(), Difference> {
        for (place, payload) in sound.iter().enumerate() {
            let endless = payload.iter().copied().cycle().take(20 * MOST_NEEDED);
            let endless: Vec<u8> = endless.collect();
            let both = [
                ("in pieces", payload.clone(), 3),
                ("endless in pieces", endless, 4000),
            ];
            for (kind, bytes, size) in both {
                let path = self.scratch.path().join(format!("{kind} {place}"));
                feed(&path, bytes.clone(), size)?;
                let (mut names, mut parts) = (names.to_vec(), sound.to_vec());
                names[place] = name_of(&path);
                parts[place] = bytes;
                let words = [&[b"write".to_vec()], &names[..]].concat();
                let case = self.case(place, kind, twin_sheet());
                let want = wrote(&parts, &case.sheet);
                self.comparer.run(&case, self.directory, &words, &want)?;
                self.meet("write, files", kind);
            }
        }
        Ok(())
    }

    /// Without standard input `write` writes the same; `answers` tells it, but for a
    /// file that cannot be read, which comes before.
    fn closed(&mut self, names: &[Word], sound: &[Vec<u8>]) -> Result<(), Difference> {
        let write = [&[b"write".to_vec()], names].concat();
        let case = self.case(0, "closed input", Vec::new());
        let want = Printed {
            left: None,
            ..wrote(sound, &[])
        };
        self.closed_run(&case, "closed input", &write, &want)?;
        let told = |error: Vec<u8>| Printed {
            output: Vec::new(),
            error,
            status: Some(0),
            left: None,
        };
        let answers = [b"answers".to_vec(), names[3].clone()];
        let want = told(b"standard input: Bad file descriptor\n".to_vec());
        self.closed_run(&case, "sheet not read", &answers, &want)?;
        let missing = name_of(&self.scratch.path().join("missing"));
        let want = told([&missing[..], b": No such file or directory\n"].concat());
        let answers = [b"answers".to_vec(), missing];
        self.closed_run(&case, "closed input and a missing file", &answers, &want)
    }

    fn closed_run(
        &mut self,
        case: &Case,
        kind: &'static str,
        words: &[Word],
        want: &Printed,
    ) -> Result<(), Difference> {
        let mut got = closed_input(&self.directory.join(NAME), words, LIMIT)?;
        if let Some(spoil) = self.comparer.spoil {
            spoil.program(service(words), &case.sheet, &mut got);
        }
        self.comparer.counts.asked(words, service(words));
        self.meet("write, files", kind);
        match got == *want {
            true => Ok(()),
            false => Err(differs(case, words, want, &shown(&got))),
        }
    }
}
