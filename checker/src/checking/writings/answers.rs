// `bench answers`: sheets with and without older answers, judged with the new
// ones; and sheets that are refused.

use super::payloads::{damaged, DAMAGES};
use super::{joined, Writings};
use crate::checking::damage::damaged as damaged_sheet;
use crate::checking::difference::{Case, Difference};
use crate::checking::program::{bytes_or_refusal, line_name};
use crate::checking::sequences::sprinkled;
use crate::checking::subjects::{subject, Subject};
use crate::machine::SILENCE;
use crate::random::Random;
use crate::sheet::sheet_of;
use crate::words::Word;
use crate::writing::with_answers;
use std::io;
use std::os::unix::ffi::OsStrExt;

impl Writings<'_> {
    /// Answers to a certified sequence, or seldom to another; what comes of them
    /// is judged.
    pub fn answers_judged(
        &mut self,
        random: &mut Random,
        index: usize,
        round: usize,
    ) -> Result<(), Difference> {
        let mut subject = subject(random);
        let (machine, word) = (&subject.machine, &subject.word);
        if round % 6 == 5 {
            subject.sequence = sprinkled(random, machine.k, word, 3);
        }
        let right = subject.machine.answers(0, &subject.sequence);
        let answers = new(random, round, &right);
        let (before, old) = older(random, round, subject.sequence.len());
        self.meet("answers, before them", before);
        let sheet = sheet_with(&subject, old.as_deref());
        let case = self.case(index, before, sheet);
        let words = self.answers_named(&answers)?;
        let got = self.comparer.printing(&case, self.directory, &words)?;
        let with = Case {
            sheet: sheet_with(&subject, Some(&answers)),
            ..case
        };
        if got.output != with.sheet {
            return Err(with.difference("the checker's own: another sheet has these answers"));
        }
        let judge = [b"judge".to_vec()];
        let got = self.comparer.printing(&with, self.directory, &judge)?;
        self.meet("answers, judged with them", &line_name(&got.output));
        Ok(())
    }

    /// Sheets damaged for each cause in turn, and others, with any answers.
    pub fn answers_to_damaged(
        &mut self,
        random: &mut Random,
        index: usize,
        round: usize,
    ) -> Result<(), Difference> {
        let subject = subject(random);
        let right = subject.machine.answers(0, &subject.sequence);
        let sheet = sheet_with(&subject, random.once_in(2).then_some(&right));
        let (kind, sheet) = match round % (DAMAGES.len() + 4) {
            0 => ("one byte less", sheet[..sheet.len() - 1].to_vec()),
            1 => (
                "no sequence",
                sheet_of(&subject.machine, &subject.word, None, None),
            ),
            2 => ("too many answers", sheet),
            3 => ("damaged", damaged_sheet(random, &sheet, &mut String::new())),
            turn => {
                let damage = &DAMAGES[turn - 4];
                (damage.name, joined(&damaged(random, 3, vec![damage]).parts))
            }
        };
        let answers = match kind {
            "too many answers" => [&right[..], &[0]].concat(),
            _ => right[..random.below(right.len())].to_vec(),
        };
        let words = self.answers_named(&answers)?;
        let case = self.case(index, kind, sheet);
        let want = bytes_or_refusal(with_answers(&case.sheet, &answers));
        let run = self.comparer.run(&case, self.directory, &words, &want);
        run.map(drop)
    }

    /// Puts the answers into a file; gives the words that ask for the sheet with
    /// them.
    pub fn answers_named(&self, answers: &[u8]) -> io::Result<Vec<Word>> {
        let path = self.scratch.file("given", answers)?;
        let name = path.as_os_str().as_bytes().to_vec();
        Ok(vec![b"answers".to_vec(), name])
    }
}

fn sheet_with(subject: &Subject, answers: Option<&[u8]>) -> Vec<u8> {
    sheet_of(
        &subject.machine,
        &subject.word,
        Some(&subject.sequence),
        answers,
    )
}

/// The right answers, or others: each verdict in its turn.
fn new(random: &mut Random, round: usize, right: &[u8]) -> Vec<u8> {
    let (mut answers, place) = (right.to_vec(), random.below(right.len()));
    match round % 6 {
        1 => answers[place] = (answers[place] + 1) % SILENCE,
        2 => answers[place] = SILENCE,
        3 => answers.truncate(place),
        4 => answers.clear(),
        _ => {}
    }
    answers
}

/// A record 4 of before, with its name.
fn older(random: &mut Random, round: usize, commands: usize) -> (&'static str, Option<Vec<u8>>) {
    let (name, length) = match round % 5 {
        0 => return ("no record 4", None),
        1 => ("an empty one", 0),
        2 => ("fewer", random.range(1, commands - 1)),
        3 => ("as many as commands", commands),
        _ => ("more than commands", commands + random.range(1, 40)),
    };
    let mut answers = vec![0; length];
    random.fill(&mut answers);
    (name, Some(answers))
}
