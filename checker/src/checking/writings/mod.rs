// The programs `bench write` and `bench answers`: payloads in files, sound and
// not; sheets that get other answers and are judged with them; and sheets that
// are read to files and written again.

mod answers;
mod expected;
mod files;
mod payloads;
mod spoils;

pub use expected::{wanted, GROUPS, WANTED};
pub use payloads::{any_two, damaged, neighbours, sound, Given, DAMAGED, DAMAGES, ORDER};
pub use spoils::WriteSpoil;

use super::compare::Comparer;
use super::difference::{Case, Difference};
use super::options::Options;
use super::process::Printed;
use super::program::wrote;
use super::scratch::Scratch;
use crate::known::house_sheet;
use crate::random::Random;
use crate::sheet::record;
use crate::words::Word;
use payloads::Payloads;
use std::io;
use std::os::unix::ffi::OsStrExt;
use std::path::Path;

/// The files of the payloads.
const NAMES: [&str; 4] = ["machine", "word", "sequence", "answers"];

struct Writings<'a> {
    comparer: &'a mut Comparer,
    seed: u64,
    directory: &'a Path,
    scratch: Scratch,
}

impl Comparer {
    /// So many turns, and all files.
    pub fn writings(&mut self, options: &Options) -> Result<(), Difference> {
        if options.writings == 0 {
            return Ok(());
        }
        let mut writings = Writings {
            comparer: self,
            seed: options.seed,
            directory: &options.directory,
            scratch: Scratch::new("write")?,
        };
        writings.files()?;
        (0..options.writings).try_for_each(|index| writings.turn(index))
    }
}

impl Writings<'_> {
    fn turn(&mut self, index: usize) -> Result<(), Difference> {
        let random = &mut Random::at(self.seed, 11, index);
        let round = index / 5;
        match index % 5 {
            0 => self.payloads(random, index, round),
            1 => self.two_causes(random, index, round),
            2 => self.again(random, index, 2 + round % 3),
            3 => self.answers_judged(random, index, round),
            _ => self.answers_to_damaged(random, index, round),
        }
    }

    fn case(&self, index: usize, kind: &str, sheet: Vec<u8>) -> Case {
        Case {
            seed: self.seed,
            index,
            kind: format!("write, {kind}"),
            sheet,
        }
    }

    fn meet(&mut self, group: &'static str, name: &str) {
        self.comparer.counts.writings.meet(group, name);
    }

    /// Sound payloads, or such with one damage, each of them in its turn.
    fn payloads(
        &mut self,
        random: &mut Random,
        index: usize,
        round: usize,
    ) -> Result<(), Difference> {
        let count = round % (3 + DAMAGES.len());
        let given = match count.checked_sub(3) {
            None => Given {
                parts: sound(random, 2 + count),
                damages: Vec::new(),
            },
            Some(place) => damaged(random, 2, vec![&DAMAGES[place]]),
        };
        self.written(index, &given)
    }

    fn two_causes(
        &mut self,
        random: &mut Random,
        index: usize,
        round: usize,
    ) -> Result<(), Difference> {
        let given = match round % 2 {
            0 => neighbours(random, round / 2 % (ORDER.len() - 1)),
            _ => any_two(random),
        };
        self.written(index, &given)
    }

    /// One run on these payloads, with a sheet on standard input that is left alone.
    fn written(&mut self, index: usize, given: &Given) -> Result<(), Difference> {
        given.meet(&mut self.comparer.counts.writings);
        let words = self.names(&given.parts)?;
        let case = self.case(index, "payloads", house_sheet());
        let want = wrote(&given.parts, &case.sheet);
        let got = self.comparer.run(&case, self.directory, &words, &want)?;
        if !got.output.is_empty() {
            self.meet("write, written with", wanted(given.parts.len()));
        }
        Ok(())
    }

    /// Puts the payloads into files; gives the words that ask for their sheet.
    fn names(&self, payloads: &[Vec<u8>]) -> io::Result<Vec<Word>> {
        let mut words = vec![b"write".to_vec()];
        for (name, payload) in NAMES.iter().zip(payloads) {
            let path = self.scratch.file(name, payload)?;
            words.push(path.as_os_str().as_bytes().to_vec());
        }
        Ok(words)
    }

    /// Each record of a sheet is read to a file; these files give the sheet.
    fn again(&mut self, random: &mut Random, index: usize, count: usize) -> Result<(), Difference> {
        let sheet = joined(&sound(random, count));
        let case = self.case(index, "read and written again", sheet);
        let mut read = Vec::new();
        for kind in 1..=count {
            let words = [b"read".to_vec(), kind.to_string().into_bytes()];
            let got = self.comparer.printing(&case, self.directory, &words)?;
            read.push(got.output);
        }
        let words = self.names(&read)?;
        let want = Printed {
            output: case.sheet.clone(),
            ..wrote(&read, &case.sheet)
        };
        self.comparer.run(&case, self.directory, &words, &want)?;
        self.meet("read and written again", wanted(count));
        Ok(())
    }
}

/// Records of these payloads, whatever they hold.
pub fn joined(payloads: &Payloads) -> Vec<u8> {
    let records = (1..).zip(payloads);
    records
        .flat_map(|(kind, payload)| record(kind, payload))
        .collect()
}
