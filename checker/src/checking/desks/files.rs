// Files that SHEET may name: readable and not, with any name and of any length.

use super::Desks;
use crate::checking::difference::Difference;
use crate::known::{house_sheet, ring, LONG_WORD};
use crate::machine::LONGEST_SEQUENCE;
use crate::random::Random;
use crate::sheet::sheet_of;
use crate::words::LONGEST;
use std::ffi::OsStr;
use std::io;
use std::os::unix::ffi::OsStrExt;
use std::os::unix::fs::symlink;
use std::path::PathBuf;

/// Inputs for each; the first leads the house unit home.
const INPUTS: [&[u8]; 3] = [b"2\n21\n6\n6\nmore\n", b"", b"x\n"];

type File = (&'static str, PathBuf);

/// A sheet as long as can be.
pub fn longest() -> Vec<u8> {
    let bytes = [0; LONGEST_SEQUENCE];
    sheet_of(&ring(), &LONG_WORD, Some(&bytes), Some(&bytes))
}

impl Desks<'_> {
    pub fn files(&mut self) -> Result<(), Difference> {
        let random = &mut Random::at(self.seed, 9, usize::MAX);
        let files = [self.unreadable()?, self.readable()?].concat();
        for (index, (name, path)) in files.into_iter().enumerate() {
            let case = self.case(index, name, Vec::new());
            for input in INPUTS {
                self.batch(random, &case, &path, input)?;
            }
            self.tally.meet("files", name);
        }
        Ok(())
    }

    fn unreadable(&self) -> io::Result<Vec<File>> {
        let directory = self.scratch.path();
        let house = house_sheet();
        let sheet = self.scratch.file("sheet", &house)?;
        let strange = OsStr::from_bytes(b"a \xfe\n%d: ");
        let circle = directory.join("circle");
        symlink(&circle, &circle)?;
        Ok(vec![
            ("missing", directory.join("missing")),
            ("missing", PathBuf::from("-")),
            ("directory", directory.to_path_buf()),
            ("directory", PathBuf::from("/")),
            ("below a file", sheet.join("x")),
            ("name too long", directory.join("x".repeat(256))),
            ("name too long", PathBuf::from("x".repeat(LONGEST))),
            (
                "any bytes in a missing name",
                directory.join(OsStr::from_bytes(b"no \xff\n%s: \x01")),
            ),
            ("symbolic links in a ring", circle),
            ("any bytes in a name", self.scratch.file(strange, &house)?),
        ])
    }

    fn readable(&self) -> io::Result<Vec<File>> {
        let (directory, house) = (self.scratch.path(), house_sheet());
        let sheet = self.scratch.file("house", &house)?;
        let (link, longest) = (directory.join("link"), longest());
        symlink(&sheet, &link)?;
        let longer = [&longest[..], &[0]].concat();
        Ok(vec![
            (
                "any text in a name",
                self.scratch.file("a \u{fe}\n%d: ", &house)?,
            ),
            ("name of 4095 bytes", self.long_name()),
            ("symbolic link", link),
            ("empty", self.scratch.file("empty", b"")?),
            ("empty", PathBuf::from("/dev/null")),
            ("longest", self.scratch.file("longest", &longest)?),
            ("one byte too long", self.scratch.file("longer", &longer)?),
            ("endless", PathBuf::from("/dev/zero")),
        ])
    }

    /// The house unit's file, by the longest name that is taken.
    fn long_name(&self) -> PathBuf {
        let front = self.scratch.path().as_os_str().as_bytes();
        let mut name = [front, b"/"].concat();
        while name.len() + b"./house".len() <= LONGEST {
            name.extend(b"./");
        }
        name.resize(LONGEST - b"house".len(), b'/');
        name.extend(b"house");
        PathBuf::from(OsStr::from_bytes(&name))
    }
}
