// What occurred in a run: calls by class, runs of the program by service,
// mistake and refusal, and how much was compared.

use super::compare::Call;
use super::desks;
use super::driving::Reached;
use super::searches;
use super::silence;
use super::tally::{names, Group, Tally};
use super::writings;
use crate::number;
use crate::words::{Mistake, Service, Word, NAMES};
use std::collections::BTreeMap;
use std::fmt::Display;

/// What a run of some thousands of sheets must have met: the classes of each
/// function, and the refusals of `bench build` and `bench read`, 0 where there
/// was none. Every service and mistake besides.
const CERTIFY: [u64; 11] = [1, 2, 3, 4, 5, 6, 7, 9, 12, 110, 111];
const JUDGE: [u64; 15] = [1, 2, 3, 4, 5, 6, 7, 9, 10, 11, 12, 100, 101, 102, 103];
const BUILD: [u64; 9] = [0, 1, 2, 3, 4, 5, 6, 8, 12];
const READ: [u64; 3] = [0, 1, 2];
/// The refusals of writing; its groups say what has to be met.
const WRITE: [u64; 8] = [3, 4, 5, 6, 7, 9, 10, 12];
/// The same of the lines of `bench judge` and `bench certify`.
const LINES: [Group; 2] = [
    (
        "judge",
        "pass, wrong, unheard, unfinished, refused 1, refused 2, refused 3, refused 4, refused 5, refused 6, \
         refused 7, refused 10, refused 11, refused 12",
    ),
    (
        "certify",
        "certified, open, refused 1, refused 2, refused 3, refused 4, refused 5, refused 6, refused 7, refused 12",
    ),
];
/// Runs with fewer sheets, or without units, need not meet all of it.
pub const ENOUGH: usize = 2000;
/// The same for lines, and for all that is told of silence.
pub const ENOUGH_SILENCE: usize = 20_000;
/// The same for cases as text.
pub const ENOUGH_CASES: usize = 100_000;
/// The same for machines at the desk.
pub const ENOUGH_DESKS: usize = 300;
/// The same for sheets of `bench word`.
pub const ENOUGH_SEARCHES: usize = 600;
/// The same for turns of `bench write` and `bench answers`.
pub const ENOUGH_WRITINGS: usize = 200;
/// The names under which the program's dialogues, its searches and lines, and
/// calls of the C functions are counted.
const DESK: &str = "bench desk";
const PROGRAM: &str = "bench";
const RIG: &str = "rig";

/// The name under which judging without a word is counted.
const NO_WORD: &str = "no word";

#[derive(Default)]
pub struct Counts {
    pub sheets: usize,
    pub lengths: usize,
    pub units: usize,
    pub units_passed: usize,
    pub units_wrong: usize,
    pub units_unheard: usize,
    pub searched: usize,
    pub given_up: usize,
    pub program_runs: usize,
    pub naive: usize,
    pub built: usize,
    /// Cases as text.
    pub reached: Reached,
    /// Dialogues of `bench desk`.
    pub desks: Tally,
    /// Searches of `bench word`.
    pub words: Tally,
    /// Sheets of `bench write` and `bench answers`.
    pub writings: Tally,
    /// Sheets that the model wrote again from their records.
    pub written_again: usize,
    /// Lines of `bench judge` and `bench certify`.
    pub lines: Tally,
    /// What the C functions told of silence.
    pub silence: Tally,
    /// Machines searched in every way, and those of them in which all words were tried.
    pub searches: usize,
    pub all_tried: usize,
    chains: usize,
    certify: BTreeMap<u64, usize>,
    judge: BTreeMap<u64, usize>,
    /// Refusal numbers of `bench build` and `bench read`, 0 for none.
    build: BTreeMap<u64, usize>,
    read: BTreeMap<u64, usize>,
    /// First words that name a service, and mistakes.
    asked: BTreeMap<&'static str, usize>,
}

impl Counts {
    pub fn called(&mut self, call: Call, number: u64) {
        let classes = match call {
            Call::Certify => &mut self.certify,
            Call::Judge => &mut self.judge,
        };
        *classes.entry(number::class(number)).or_default() += 1;
    }

    pub fn built_or_refused(&mut self, refusal: u64) {
        *self.build.entry(refusal).or_default() += 1;
    }

    pub fn read_or_refused(&mut self, refusal: u64) {
        *self.read.entry(refusal).or_default() += 1;
    }

    /// One run of the program with these words.
    pub fn asked(&mut self, words: &[Word], asked: Result<Service, Mistake>) {
        let named = |first: &Word| NAMES.into_iter().find(|name| name.as_bytes() == first);
        let name = match asked {
            Ok(_) => words.first().and_then(named).unwrap_or(NO_WORD),
            Err(mistake) => mistake.name(),
        };
        *self.asked.entry(name).or_default() += 1;
        self.program_runs += 1;
    }

    /// One chain of so many runs.
    pub fn chained(&mut self, runs: usize) {
        self.program_runs += runs;
        self.chains += 1;
    }

    /// What never occurred in the run though it should have, with units or
    /// without, with the fixed cases or without; cases as text have their own.
    pub fn missing(&self, units: bool, fixed: bool) -> Vec<String> {
        let mut missing = Vec::new();
        let rows: [(&str, &[u64], &BTreeMap<u64, usize>); 4] = [
            ("rig_certify", &CERTIFY, &self.certify),
            ("rig_judge", &JUDGE, &self.judge),
            ("bench build", &BUILD, &self.build),
            ("bench read", &READ, &self.read),
        ];
        for (name, expected, met) in rows {
            let absent = expected.iter().filter(|class| !met.contains_key(class));
            missing.extend(absent.map(|class| format!("{name} {class}")));
        }
        let absent = words_expected().filter(|name| fixed && !self.asked.contains_key(name));
        missing.extend(absent.map(|name| format!("words: {name}")));
        let compared = [
            ("fast against naive", self.naive, true),
            ("built sequences", self.built, true),
            (
                "searches by halves against depth first",
                self.searches,
                true,
            ),
            ("searches against all words", self.all_tried, true),
            ("sheets written again", self.written_again, true),
            ("house unit through the chain", self.chains, fixed),
            ("units that pass", self.units_passed, units),
            ("units told wrong", self.units_wrong, units),
            ("units told unheard", self.units_unheard, units),
            ("sequences searched for all units", self.searched, units),
        ];
        let none = compared.iter().filter(|row| row.2 && row.1 == 0);
        missing.extend(none.map(|row| String::from(row.0)));
        missing
    }

    /// The same for lines and for silence.
    pub fn silence_missing(&self) -> Vec<String> {
        let mut missing = self.lines.missing(PROGRAM, LINES.into_iter());
        missing.extend(self.silence.missing(RIG, silence::groups()));
        missing
    }

    /// The same for the searches of `bench word`.
    pub fn words_missing(&self) -> Vec<String> {
        self.words.missing(PROGRAM, searches::GROUPS.into_iter())
    }

    /// The same for `bench write` and `bench answers`.
    pub fn writings_missing(&self) -> Vec<String> {
        self.writings.missing(PROGRAM, writings::GROUPS.into_iter())
    }

    /// The same for the dialogues of `bench desk`.
    pub fn desks_missing(&self) -> Vec<String> {
        self.desks.missing(DESK, desks::GROUPS.into_iter())
    }

    /// Sheets that were written by the programs, their refusals, and round trips:
    /// of sheets to payloads and back, and of payloads to sheets and back.
    fn writing(&self) -> String {
        let told = |name: &str| {
            let program = self.writings.met("write", name) + self.writings.met("answers", name);
            self.reached.met("write", name) + program
        };
        let refused =
            WRITE.map(|number| format!(" {number}:{}", told(&format!("refused {number}"))));
        let trips = |name: &str| {
            let read = self.reached.met("write, parts read back", name);
            let again = self.reached.met("write, sheets again", name);
            read + again + self.writings.met("read and written again", name)
        };
        let trips: usize = names(writings::WANTED).map(trips).sum();
        format!(
            "sheets written {}, refused{}; round trips {} by the model, {trips} by the programs\n",
            told("written"),
            refused.concat(),
            self.written_again
        )
    }

    pub fn summary(&self) -> String {
        let of = |class| self.certify.get(&class).copied().unwrap_or_default();
        format!(
            "rig_certify, calls by class:{}\nrig_judge, calls by class:{}\n\
             bench build, runs by refusal (0 built):{}\n\
             bench read, runs by refusal (0 handed back):{}\n\
             bench, runs by words:{}\n\
             certified {} and open {} in rig_certify\n\
             sheets of fixed lengths {}, built sequences checked {}, fast against naive {}\n\
             searches for a word compared {}, with all words {}\n\
             {}{}{}{}{}{}{}units: tried {}, passed {}, told wrong {}, told unheard {}; \
             sequences searched for all units {}, given up {}",
            row(&self.certify, ""),
            row(&self.judge, ""),
            row(&self.build, ""),
            row(&self.read, ""),
            row(&self.asked, ","),
            of(number::CERTIFIED),
            of(number::OPEN),
            self.lengths,
            self.built,
            self.naive,
            self.searches,
            self.all_tried,
            self.lines.summary(PROGRAM, LINES.into_iter()),
            self.silence.summary(RIG, silence::groups()),
            self.desks.summary(DESK, desks::GROUPS.into_iter()),
            self.words.summary(PROGRAM, searches::GROUPS.into_iter()),
            self.writings.summary(PROGRAM, writings::GROUPS.into_iter()),
            self.reached.summary(),
            self.writing(),
            self.units,
            self.units_passed,
            self.units_wrong,
            self.units_unheard,
            self.searched,
            self.given_up,
        )
    }
}

/// The names of all that words can ask for, and of all mistakes.
fn words_expected() -> impl Iterator<Item = &'static str> {
    let mistakes = Mistake::ALL.into_iter().map(Mistake::name);
    [NO_WORD].into_iter().chain(NAMES).chain(mistakes)
}

/// Each class with its count, the separator between them.
fn row<T: Display>(classes: &BTreeMap<T, usize>, separator: &str) -> String {
    let pairs = classes
        .iter()
        .map(|(class, count)| format!(" {class}:{count}"));
    pairs.collect::<Vec<_>>().join(separator)
}

#[cfg(test)]
mod tests {
    use super::*;
    use crate::words::service;

    #[test]
    fn every_class_is_missed_until_it_occurs() {
        let mut counts = Counts::default();
        let classes = CERTIFY.len() + JUDGE.len() + BUILD.len() + READ.len();
        let words = 1 + NAMES.len() + Mistake::ALL.len();
        assert_eq!(counts.missing(false, true).len(), classes + words + 6);
        assert_eq!(counts.missing(true, true).len(), classes + words + 10);
        for class in CERTIFY {
            counts.called(Call::Certify, class << 40);
        }
        for class in JUDGE {
            counts.called(Call::Judge, class << 40);
        }
        for refusal in BUILD {
            counts.built_or_refused(refusal);
        }
        for refusal in READ {
            counts.read_or_refused(refusal);
        }
        let left = [
            "fast against naive",
            "built sequences",
            "searches by halves against depth first",
            "searches against all words",
            "sheets written again",
        ];
        assert_eq!(counts.missing(false, false), left);
        counts.chained(3);
        assert_eq!(counts.missing(false, true).len(), words + left.len());
        ask_everything(&mut counts);
        assert_eq!(counts.missing(false, true), left);
        assert_eq!(counts.program_runs, 3 + words);
    }

    #[test]
    fn lines_and_silence_are_missed_until_they_occur() {
        let mut counts = Counts::default();
        let groups = || LINES.into_iter().chain(silence::groups());
        let all: usize = groups().map(|(_, expected)| names(expected).count()).sum();
        assert_eq!(counts.silence_missing().len(), all);
        for (group, expected) in LINES {
            names(expected).for_each(|name| counts.lines.meet(group, name));
        }
        for (group, expected) in silence::groups() {
            names(expected).for_each(|name| counts.silence.meet(group, name));
        }
        assert!(counts.silence_missing().is_empty());
    }

    /// Every service and mistake once; some need words behind their names.
    fn ask_everything(counts: &mut Counts) {
        counts.asked(&[], service(&[]));
        for name in NAMES {
            let mut words = vec![name.as_bytes().to_vec()];
            let more = match name {
                "read" | "desk" | "answers" => 1,
                "write" => 2,
                _ => 0,
            };
            words.extend(vec![b"3".to_vec(); more]);
            counts.asked(&words, service(&words));
        }
        for mistake in Mistake::ALL {
            counts.asked(&[], Err(mistake));
        }
    }
}
