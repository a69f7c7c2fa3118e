// The house unit's sheet, built and certified by the program in one chain, with
// its word and with the word that is searched for, which is the same.

use super::compare::Comparer;
use super::difference::Difference;
use super::process::{chain, Printed};
use super::program::{shown, NAME};
use std::path::Path;

/// The services in a row, each with what it writes to standard error.
type Chain = &'static [(&'static str, &'static str)];
const CHAINS: [Chain; 2] = [
    &[("house", ""), ("build", ""), ("certify", "")],
    &[
        ("house", ""),
        ("word", "WORD 0 1\n"),
        ("build", ""),
        ("certify", ""),
    ],
];
/// All 204 places of the built sequence are recognised.
const LINE: &[u8] = b"CERTIFIED 204\n";

impl Comparer {
    pub fn chain(&mut self, directory: &Path) -> Result<(), Difference> {
        CHAINS
            .into_iter()
            .try_for_each(|chain| self.one_chain(directory, chain))
    }

    fn one_chain(&mut self, directory: &Path, services: Chain) -> Result<(), Difference> {
        let names: Vec<&str> = services.iter().map(|service| service.0).collect();
        let mut printed = chain(&directory.join(NAME), &names)
            .map_err(|error| difference(&names, &error.to_string()))?;
        if let Some(spoil) = self.spoil {
            spoil.chain(&mut printed);
        }
        self.counts.chained(services.len());
        if printed == wanted(services) {
            return Ok(());
        }
        let lines: Vec<String> = printed.iter().map(shown).collect();
        Err(difference(&names, &lines.join("\n")))
    }
}

/// What each run leaves; only the last one's output is seen.
fn wanted(services: Chain) -> Vec<Printed> {
    let mut wanted: Vec<Printed> = services.iter().map(|service| told(service.1)).collect();
    if let Some(last) = wanted.last_mut() {
        last.output = LINE.to_vec();
    }
    wanted
}

fn told(error: &str) -> Printed {
    Printed {
        output: Vec::new(),
        error: error.as_bytes().to_vec(),
        status: Some(0),
        left: None,
    }
}

fn difference(services: &[&str], what: &str) -> Difference {
    Difference(format!(
        "DIFFERENCE\nthe chain {services:?} should end with \"{}\":\n{what}",
        LINE.escape_ascii()
    ))
}
