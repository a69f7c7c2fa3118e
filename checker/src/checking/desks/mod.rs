// The program `bench desk` (§8.2): dialogues with units line by line and on whole
// inputs, and the files that SHEET may name.

mod batch;
mod expected;
mod files;
mod inputs;
mod live;
mod pieces;
mod spoils;
mod talk;

pub use batch::{wanted, Wanted};
pub use expected::GROUPS;
pub use spoils::DeskSpoil;

use super::compare::Comparer;
use super::difference::{Case, Difference};
use super::driving::{for_building, maybe_refused};
use super::options::Options;
use super::process::LIMIT;
use super::program::NAME;
use super::scratch::Scratch;
use super::spoil::Spoil;
use super::tally::Tally;
use super::visitors::{connected, largest, received, visitors};
use crate::desk::Desk;
use crate::dialogue::{ENDED, NO_ANSWER, TOO_LONG, TOO_MANY};
use crate::random::Random;
use expected::several;
use std::path::{Path, PathBuf};
use std::time::Duration;

/// Of each machine so many units talk line by line, and so many at once.
const TALKS: usize = 2;
const INPUTS: usize = 3;
/// One sheet in so many may be refused.
const REFUSED: usize = 4;
/// With one machine in so many, of the most states, every unit talks.
const ALL_TALK: usize = 40;

struct Desks<'a> {
    tally: &'a mut Tally,
    runs: usize,
    seed: u64,
    program: PathBuf,
    spoil: Option<DeskSpoil>,
    scratch: Scratch,
}

impl Comparer {
    /// Dialogues about so many machines, and all files.
    pub fn desks(&mut self, options: &Options) -> Result<(), Difference> {
        if options.desks == 0 {
            return Ok(());
        }
        let mut desks = Desks {
            tally: &mut self.counts.desks,
            runs: 0,
            seed: options.seed,
            program: options.directory.join(NAME),
            spoil: options.spoil.and_then(Spoil::desk),
            scratch: Scratch::new("desk")?,
        };
        desks.files()?;
        desks.pieces()?;
        (0..options.desks).try_for_each(|index| desks.sheet(index))?;
        self.counts.program_runs += desks.runs;
        Ok(())
    }
}

impl Desks<'_> {
    fn case(&self, index: usize, kind: &str, sheet: Vec<u8>) -> Case {
        Case {
            seed: self.seed,
            index,
            kind: format!("desk, {kind}"),
            sheet,
        }
    }

    fn limit(&self) -> Duration {
        self.spoil.map_or(LIMIT, DeskSpoil::limit)
    }

    /// One sheet, and units or any input for it.
    fn sheet(&mut self, index: usize) -> Result<(), Difference> {
        let random = &mut Random::at(self.seed, 9, index);
        let all_talk = index.is_multiple_of(ALL_TALK);
        let (kind, sheet) = match random.below(REFUSED) {
            0 if !all_talk => ("maybe refused", maybe_refused(random)),
            _ => {
                let machine = if all_talk { largest } else { connected };
                let (machine, word) = machine(random);
                ("connected", for_building(random, &machine, &word))
            }
        };
        let path = self.scratch.file("sheet", &sheet)?;
        let case = self.case(index, kind, sheet);
        let talks = if all_talk { usize::MAX } else { TALKS };
        match Desk::open(&case.sheet) {
            Ok(desk) => self.units(random, &case, &path, &desk, talks),
            Err(_) => self.whole_input(random, &case, &path, &[1, 2, 3]),
        }
    }

    fn units(
        &mut self,
        random: &mut Random,
        case: &Case,
        path: &Path,
        desk: &Desk,
        talks: usize,
    ) -> Result<(), Difference> {
        let mut waiting = visitors(random, &desk.machine);
        for _ in 0..talks.min(waiting.len()) {
            let visitor = waiting.swap_remove(random.below(waiting.len()));
            self.live(random, case, path, visitor, desk)?;
        }
        for _ in 0..INPUTS.min(waiting.len()) {
            let mut visitor = waiting.swap_remove(random.below(waiting.len()));
            let (answers, _) = received(desk, &mut visitor);
            self.whole_input(random, case, path, &answers)?;
        }
        Ok(())
    }

    /// A run on an input made from these answers.
    fn whole_input(
        &mut self,
        random: &mut Random,
        case: &Case,
        path: &Path,
        answers: &[u8],
    ) -> Result<(), Difference> {
        let input = self.input(random, answers);
        let Wanted { output, error, .. } = self.batch(random, case, path, &input)?;
        let word = Desk::open(&case.sheet).map_or(0, |desk| desk.word.len());
        let name = ended(word, &output, &error);
        if name.starts_with("refused ") {
            self.tally.meet("sheets", &name);
            return Ok(());
        }
        self.tally.meet("inputs", &name);
        let told = error.split_inclusive(|&byte| byte == b'\n');
        let told = told.filter(|line| *line == NO_ANSWER.as_bytes()).count();
        self.tally
            .meet("inputs, lines that are no answer", &several(told));
        Ok(())
    }
}

/// The name of a dialogue's end, for a word of this length.
fn ended(word: usize, output: &[u8], error: &[u8]) -> String {
    let stops = [
        (ENDED, "input ended"),
        (TOO_LONG, "line too long"),
        (TOO_MANY, "too many lines"),
    ];
    let stopped = stops.iter().find(|stop| error.ends_with(stop.0.as_bytes()));
    if let Some((_, name)) = stopped {
        return String::from(*name);
    }
    let output = String::from_utf8_lossy(output);
    let last = output.lines().last().unwrap_or_default();
    let words: Vec<&str> = last.split(' ').collect();
    let number = |place: usize| words.get(place).and_then(|word| word.parse::<usize>().ok());
    match (words[0], number(2)) {
        ("HOME", Some(commands)) if commands == word => String::from("home with the word"),
        ("HOME", _) => String::from("home later"),
        ("STRANGER", Some(answer)) if answer < word => String::from("stranger in the word"),
        ("STRANGER", _) => String::from("stranger later"),
        _ => format!("refused {}", number(1).unwrap_or_default()),
    }
}
