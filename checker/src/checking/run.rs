// One run: what is the same in every run, then words, random sheets, units, all
// lengths, cases as text, the desk, searches for a word and sheets that are written.

use super::compare::Comparer;
use super::counts::{
    Counts, ENOUGH, ENOUGH_CASES, ENOUGH_DESKS, ENOUGH_SEARCHES, ENOUGH_SILENCE, ENOUGH_WRITINGS,
};
use super::difference::{Case, Difference};
use super::exhaustive::agreeing_units;
use super::options::Options;
use super::sheets::case;
use super::subjects::{subject, Subject};
use super::units::units;
use crate::random::Random;
use crate::sheet::sheet_of;

/// Of the units, one in this many times `--programs` also goes to the program.
const UNITS_TO_PROGRAM: usize = 30;
/// Longest sequence for which all agreeing units are searched.
const SEARCHED: usize = 150;

pub fn run(options: &Options) -> Result<Counts, Difference> {
    let mut comparer = Comparer::new(options.seed, options.spoil);
    if !options.random_only {
        comparer.fixed(options)?;
    }
    comparer.random_lines(options)?;
    comparer.readings(options.seed, &options.directory)?;
    comparer.sheets(options)?;
    comparer.subjects(options)?;
    comparer.lengths(options.seed, options.lengths, &options.directory)?;
    comparer.cases(options)?;
    comparer.desks(options)?;
    comparer.searches(options)?;
    comparer.writings(options)?;
    let missing = missing(&comparer.counts, options);
    if !missing.is_empty() {
        let text = format!("never occurred in this run: {}", missing.join(", "));
        return Err(Difference(text));
    }
    Ok(comparer.counts)
}

/// What a run that is long enough should have met.
fn missing(counts: &Counts, options: &Options) -> Vec<String> {
    let fixed = !options.random_only;
    let mut missing = Vec::new();
    if options.count >= ENOUGH {
        missing.extend(counts.missing(options.units >= ENOUGH, fixed));
    }
    if options.count >= ENOUGH_SILENCE {
        missing.extend(counts.silence_missing());
    }
    if options.cases >= ENOUGH_CASES {
        missing.extend(counts.reached.missing(fixed));
    }
    if options.desks >= ENOUGH_DESKS {
        missing.extend(counts.desks_missing());
    }
    if options.searches >= ENOUGH_SEARCHES {
        missing.extend(counts.words_missing());
    }
    if options.writings >= ENOUGH_WRITINGS {
        missing.extend(counts.writings_missing());
    }
    missing
}

impl Comparer {
    /// The specification's cases, words of every kind, and the chains.
    fn fixed(&mut self, options: &Options) -> Result<(), Difference> {
        self.documented(options.seed, &options.directory)?;
        self.command_lines(options)?;
        self.chain(&options.directory)?;
        self.case_chains(options)
    }

    fn sheets(&mut self, options: &Options) -> Result<(), Difference> {
        for index in 0..options.count {
            let mut random = Random::at(options.seed, 1, index);
            let case = case(options.seed, index, &mut random);
            self.sheet(&case, &mut random)?;
            self.model(&case)?;
            if index.is_multiple_of(options.programs) {
                self.services(&case, &options.directory)?;
            }
        }
        Ok(())
    }

    fn subjects(&mut self, options: &Options) -> Result<(), Difference> {
        let mut index = 0;
        while self.counts.units < options.units {
            let mut random = Random::at(options.seed, 2, index);
            let subject = subject(&mut random);
            for (kind, unit) in units(&mut random, &subject.machine) {
                let share = UNITS_TO_PROGRAM * options.programs;
                let to_program = self.counts.units.is_multiple_of(share);
                let directory = to_program.then_some(options.directory.as_path());
                self.unit(&subject, &unit, (options.seed, index, kind), directory)?;
            }
            if subject.sequence.len() <= SEARCHED {
                self.agreeing(options.seed, index, &subject)?;
            }
            index += 1;
        }
        Ok(())
    }

    /// Judges every unit that gives the specified answers.
    fn agreeing(&mut self, seed: u64, index: usize, subject: &Subject) -> Result<(), Difference> {
        let Some(found) = agreeing_units(subject) else {
            self.counts.given_up += 1;
            return Ok(());
        };
        self.counts.searched += 1;
        if found.is_empty() {
            let (machine, word) = (&subject.machine, &subject.word);
            let case = Case {
                seed,
                index,
                kind: String::from("search for agreeing units"),
                sheet: sheet_of(machine, word, Some(&subject.sequence), None),
            };
            return Err(case.difference("the checker's own: not even the machine agrees"));
        }
        found
            .iter()
            .try_for_each(|unit| self.unit(subject, unit, (seed, index, "agreeing"), None))
    }
}
