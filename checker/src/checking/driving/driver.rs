// Gathers lines to batches and runs the program on each.

use super::compare::{program_difference, untold};
use super::reached::Reached;
use super::spelling::spelled;
use crate::checking::difference::Difference;
use crate::checking::options::Options;
use crate::checking::process::on_text;
use crate::checking::spoil::Spoil;
use crate::notation::{lines, question, Answerer, Line, Question, MOST_INPUT};
use crate::random::Random;
use std::mem::take;
use std::path::PathBuf;
use std::time::Duration;

/// The program's name in its directory.
pub const NAME: &str = "cases";
/// A run has to end within this time.
pub const LIMIT: Duration = Duration::from_secs(60);
/// How long a batch may get before it is sent; the first means one line.
const SIZES: [usize; 6] = [1, 20_000, 200_000, MOST_INPUT, MOST_INPUT, MOST_INPUT];

pub struct Driver<'a> {
    pub reached: &'a mut Reached,
    /// Lines that went into a batch.
    pub asked: usize,
    seed: u64,
    program: PathBuf,
    spoil: Option<Spoil>,
    answerer: Answerer,
    random: Random,
    batch: Vec<u8>,
    size: usize,
}

impl<'a> Driver<'a> {
    pub fn new(options: &Options, reached: &'a mut Reached) -> Driver<'a> {
        Driver {
            reached,
            asked: 0,
            seed: options.seed,
            program: options.directory.join(NAME),
            spoil: options.spoil,
            answerer: Answerer::new(),
            random: Random::at(options.seed, 8, 0),
            batch: Vec::new(),
            size: MOST_INPUT,
        }
    }

    /// Adds a case, written in one of the many ways.
    pub fn ask(&mut self, random: &mut Random, wanted: Question) -> Result<(), Difference> {
        let line = spelled(random, &wanted);
        let read = question(&line);
        if read == Ok(wanted) {
            return self.add(&line);
        }
        let (read, line) = (read.map(|question| question.name()), line.escape_ascii());
        Err(Difference(format!(
            "the checker's own: it reads {read:?}, another case, from its line {line}"
        )))
    }

    /// Adds a line that may not be readable; then it is counted under the name.
    pub fn try_line(&mut self, line: &[u8], name: &str) -> Result<(), Difference> {
        let unreadable = |line| matches!(line, Line::Case(line) if question(line).is_err());
        if lines(line).any(unreadable) {
            self.reached.meet("unreadable", name);
        }
        self.add(line)
    }

    /// Adds a line, or several with newlines between.
    pub fn add(&mut self, line: &[u8]) -> Result<(), Difference> {
        let longer = self.batch.len() + line.len() + 1;
        if longer > self.size && !self.batch.is_empty() {
            self.send()?;
        }
        self.batch.extend(line);
        self.batch.push(b'\n');
        self.asked += 1;
        Ok(())
    }

    /// Sends the batch, now and then without its last newline.
    pub fn send(&mut self) -> Result<(), Difference> {
        let mut batch = take(&mut self.batch);
        if self.random.once_in(3) {
            batch.pop();
        }
        self.size = *self.random.pick(&SIZES);
        self.exchange(&batch).map(drop)
    }

    /// One run on this input; gives what was written.
    pub fn exchange(&mut self, input: &[u8]) -> Result<Vec<u8>, Difference> {
        self.reached.input(input);
        let mut got = on_text(&self.program, input, LIMIT)
            .map_err(|error| self.differs(input, &error.to_string()))?;
        if let Some(spoil) = self.spoil {
            spoil.cases(input, &mut got);
        }
        let reached = &mut *self.reached;
        let seen = |line: &[u8], asked: &_, answer: &str| reached.answered(line, asked, answer);
        let difference = match self.answerer.text(input, seen) {
            Some(want) => program_difference(&want, &got).map(|(_, text)| text),
            None => untold(&got),
        };
        match difference {
            None => Ok(got.output),
            Some(text) => Err(self.differs(input, &text)),
        }
    }

    /// The program's answer to one case, which is the model's too.
    pub fn answer(&mut self, line: &str) -> Result<String, Difference> {
        let text = self.exchange(line.as_bytes())?;
        let text = String::from_utf8_lossy(&text);
        let answer = text.lines().nth(1).and_then(|line| line.strip_prefix("> "));
        Ok(String::from(answer.unwrap_or_default()))
    }

    fn differs(&self, input: &[u8], text: &str) -> Difference {
        let (seed, length) = (self.seed, input.len());
        Difference(format!(
            "DIFFERENCE\n{NAME}, seed {seed}, an input of {length} bytes: {text}"
        ))
    }
}
