// Files of cases with their answers: each against the model, against what the
// program writes for it, and its certifying and judging against the C functions.

use super::compare::{Call, Comparer};
use super::difference::{Case, Difference};
use super::driving::{first_difference, program_difference, LIMIT, NAME};
use super::options::Options;
use super::process::on_text;
use crate::notation::{lines, question, Answerer, Line, Question, LENT, MOST_INPUT};
use std::fs;
use std::path::{Path, PathBuf};

/// What was compared.
#[derive(Debug, Default, PartialEq, Eq)]
pub struct Checked {
    pub files: usize,
    pub cases: usize,
    pub numbers: usize,
}

pub fn files(options: &Options, paths: &[PathBuf]) -> Result<Checked, Difference> {
    let mut comparer = Comparer::new(options.seed, options.spoil);
    let mut checked = Checked::default();
    for path in paths {
        let text = fs::read(path).map_err(|error| differs(path, 0, &error.to_string()))?;
        checked.files += 1;
        checked.cases += model(path, &text)?;
        program(options, path, &text)?;
        checked.numbers += comparer.numbers(path, &text)?;
    }
    Ok(checked)
}

/// The file is what the model writes for it; gives the number of cases.
fn model(path: &Path, text: &[u8]) -> Result<usize, Difference> {
    let mut cases = 0;
    let Some(want) = Answerer::new().text(text, |_, _, _| cases += 1) else {
        let told = format!("more than {MOST_INPUT} bytes");
        return Err(differs(path, 0, &told));
    };
    match first_difference(&want, text) {
        None => Ok(cases),
        Some(found) => {
            let sides = found.shown("by the model", "in the file");
            Err(differs(path, found.number, &sides))
        }
    }
}

/// The program writes the file for the file.
fn program(options: &Options, path: &Path, text: &[u8]) -> Result<(), Difference> {
    let program = options.directory.join(NAME);
    let mut got = on_text(&program, text, LIMIT)
        .map_err(|error| differs(path, 0, &format!("{NAME}: {error}")))?;
    if let Some(spoil) = options.spoil {
        spoil.cases(text, &mut got);
    }
    match program_difference(text, &got) {
        None => Ok(()),
        Some((line, told)) => Err(differs(path, line, &format!("{NAME}: {told}"))),
    }
}

impl Comparer {
    /// The C functions on every case of certifying and judging; gives how many.
    fn numbers(&mut self, path: &Path, text: &[u8]) -> Result<usize, Difference> {
        let mut compared = 0;
        for (number, line) in (1..).zip(lines(text)) {
            let Line::Case(line) = line else {
                continue;
            };
            let (call, room, sheet) = match question(line) {
                Ok(Question::Certify { room, sheet }) => (Call::Certify, room, sheet),
                Ok(Question::Judge { room, sheet }) => (Call::Judge, room, sheet),
                _ => continue,
            };
            let case = Case {
                seed: 0,
                index: number,
                kind: format!("{}:{number}", path.display()),
                sheet,
            };
            self.call_on(&case, call, room, Some(LENT))?;
            compared += 1;
        }
        Ok(compared)
    }
}

/// A difference in a line of a file, 0 where it is in no line.
fn differs(path: &Path, line: usize, told: &str) -> Difference {
    let place = match line {
        0 => path.display().to_string(),
        _ => format!("{}:{line}", path.display()),
    };
    Difference(format!("DIFFERENCE\n{place}: {told}"))
}
