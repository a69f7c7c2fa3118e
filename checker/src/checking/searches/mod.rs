// The program `bench word` (§14): machines with and without a word, refused
// sheets, and what is built and certified with a word that was found.

mod expected;
mod machines;
mod promises;
mod sheets;
mod spoils;
mod wrong;

pub use expected::GROUPS;
pub use machines::PERMUTATIONS;
pub use promises::{promised, Promised};
pub use sheets::{asked, maybe_refused, Asked};
pub use spoils::WordSpoil;
pub use wrong::Wrong;

use super::compare::Comparer;
use super::difference::{Case, Difference};
use super::options::Options;
use super::tally::Tally;
use crate::building::build_sheet;
use crate::machine::{MOST_COMMANDS, MOST_STATES};
use crate::random::Random;
use crate::searching::{by_halves, with_word};
use std::path::Path;

/// One sheet in so many may be refused.
const REFUSED: usize = 4;

impl Comparer {
    /// So many sheets.
    pub fn searches(&mut self, options: &Options) -> Result<(), Difference> {
        (0..options.searches).try_for_each(|index| self.one_search(options, index))
    }

    fn one_search(&mut self, options: &Options, index: usize) -> Result<(), Difference> {
        let random = &mut Random::at(options.seed, 10, index);
        let case = |sheet: Vec<u8>, kind: &str| Case {
            seed: options.seed,
            index,
            kind: format!("word, {kind}"),
            sheet,
        };
        if random.once_in(REFUSED) {
            let case = case(maybe_refused(random), "maybe refused");
            return self.asked(&case, &options.directory, "word");
        }
        let asked = asked(random);
        meet_asked(&mut self.counts.words, &asked);
        let case = case(asked.sheet, asked.searched.kind);
        let promised = promised(&asked.searched.machine)
            .map_err(|text| case.difference(&format!("the checker's own: {text}")))?;
        self.asked(&case, &options.directory, "word")?;
        match promised.word {
            Some(word) => self.found_word(&case, &word, &options.directory),
            None => Ok(()),
        }
    }

    /// Gives the sheet to one service.
    fn asked(&mut self, case: &Case, directory: &Path, service: &str) -> Result<(), Difference> {
        self.program(case, directory, &[service.as_bytes().to_vec()])
    }

    /// What is written with this word, which was found, built and certified.
    fn found_word(&mut self, case: &Case, word: &[u8], directory: &Path) -> Result<(), Difference> {
        let with = |sheet: Vec<u8>| Case {
            sheet,
            ..case.clone()
        };
        let sheet = with_word(&case.sheet, word);
        let built = build_sheet(&sheet);
        self.asked(&with(sheet), directory, "build")?;
        let name = match built {
            Err(_) => "not connected",
            Ok(built) => {
                self.asked(&with(built), directory, "certify")?;
                "built and certified"
            }
        };
        self.counts.words.meet("word, found", name);
        Ok(())
    }
}

/// Counts what is asked for.
pub fn meet_asked(tally: &mut Tally, asked: &Asked) {
    let machine = &asked.searched.machine;
    tally.meet("word, machines", asked.searched.kind);
    tally.meet("word, behind the machine", asked.behind);
    if by_halves(machine).is_some() {
        return;
    }
    let longer = asked.searched.longer.as_ref();
    if longer.is_some_and(|word| machine.unseparated(word).is_none()) {
        tally.meet("word, none", "a longer word separates");
    }
    if (machine.n, machine.k) == (MOST_STATES, MOST_COMMANDS) {
        tally.meet("word, none", "10 states and 8 commands");
    }
}

/// The name of what `bench word` told on standard error.
pub fn outcome(told: &[u8]) -> String {
    let told = String::from_utf8_lossy(told);
    let words: Vec<&str> = told.split_whitespace().collect();
    match words[..] {
        ["WORD", ref commands @ ..] => format!("word of {}", commands.len()),
        ["REFUSED", number, ..] => format!("refused {number}"),
        ["NONE", ..] => String::from("none"),
        _ => String::from("another line"),
    }
}
