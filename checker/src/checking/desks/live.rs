// Dialogues with `bench desk` line by line: an answer is written only after the
// command has come, and the next line only after what is told of this one.

use super::batch::words;
use super::expected::several;
use super::inputs::{answer_line, bad_line, how_many_bad, long_line};
use super::talk::Talk;
use super::{ended, DeskSpoil, Desks};
use crate::checking::difference::{Case, Difference};
use crate::checking::visitors::{promised, Visitor};
use crate::desk::{Desk, Order};
use crate::dialogue::{begin, Dialogue, Heard, Said};
use crate::random::Random;
use std::io;
use std::path::Path;

/// How the unit's part of a talk ends.
#[derive(Clone, Copy, PartialEq, Eq)]
enum Plan {
    Answers,
    EndOfInput,
    LongLine,
}

/// A talk with all that was said in it.
struct Live {
    talk: Talk,
    visitor: Visitor,
    dialogue: Dialogue,
    /// Of the lines still to come so many are no answer.
    bad: usize,
    /// How the input ends, and after how many lines.
    plan: (Plan, usize),
    answers: Vec<u8>,
    told: usize,
    heard: String,
}

impl Desks<'_> {
    /// The unit's dialogue with the program, which is the model's.
    pub fn live(
        &mut self,
        random: &mut Random,
        case: &Case,
        path: &Path,
        visitor: Visitor,
        desk: &Desk,
    ) -> Result<(), Difference> {
        self.runs += 1;
        self.tally.meet("talks, units", visitor.kind);
        let (said, dialogue) = begin(&case.sheet);
        let Some(dialogue) = dialogue else {
            return Err(case.difference("the checker's own: refused"));
        };
        let talk = Talk::start(&self.program, &words(path), self.limit())
            .map_err(|error| case.difference(&error.to_string()))?;
        let mut live = Live {
            talk,
            visitor,
            dialogue,
            bad: how_many_bad(random),
            plan: plan(random),
            answers: Vec::new(),
            told: 0,
            heard: String::new(),
        };
        let outcome = self.through(random, &mut live, said, desk);
        outcome.map_err(|text| {
            let (kind, heard) = (live.visitor.kind, &live.heard);
            case.difference(&format!("desk, line by line, {kind}: {text}\n{heard}"))
        })
    }

    /// From the first order to the end.
    fn through(
        &mut self,
        random: &mut Random,
        live: &mut Live,
        mut said: Said,
        desk: &Desk,
    ) -> Result<(), String> {
        let mut command = 0;
        loop {
            self.compare(live, &said)?;
            if said.over {
                break;
            }
            command = commanded(&said.output).unwrap_or(command);
            said = live.answer(random, command)?;
        }
        live.closed()?;
        let end = desk.order(&live.answers);
        let (output, error) = (said.output.as_bytes(), said.error.as_bytes());
        let name = ended(desk.word.len(), output, error);
        self.tally.meet("talks", &name);
        self.tally
            .meet("talks, lines that are no answer", &several(live.told));
        match end {
            Order::Command(_) => Ok(()),
            _ => self.promise(live, desk, end),
        }
    }

    /// What comes is what the model says.
    fn compare(&mut self, live: &mut Live, said: &Said) -> Result<(), String> {
        let told = |error: io::Error| error.to_string();
        for line in said.output.split_inclusive('\n') {
            if self.spoil.is_some_and(DeskSpoil::keeps_back) {
                live.talk.output().map_err(told)?;
            }
            let mut got = live.talk.output().map_err(told)?;
            if let Some(spoil) = self.spoil {
                spoil.line(&mut got);
            }
            live.compared("output", line, &got)?;
        }
        for line in said.error.split_inclusive('\n') {
            let mut got = live.talk.error().map_err(told)?;
            if let Some(spoil) = self.spoil {
                spoil.told(&mut got);
            }
            live.compared("error", line, &got)?;
        }
        Ok(())
    }

    fn promise(&mut self, live: &mut Live, desk: &Desk, end: Order) -> Result<(), String> {
        if let Some(spoil) = self.spoil {
            spoil.visitor(&mut live.visitor);
        }
        if let Some(copy) = &live.visitor.copy {
            let begun = copy.begun.to_string();
            self.tally.meet("talks, copies begun in state", &begun);
        }
        promised(desk, &live.visitor, live.answers.len(), end)
    }
}

/// Mostly the unit answers until the desk ends.
fn plan(random: &mut Random) -> (Plan, usize) {
    let lines = random.below(8);
    match random.below(8) {
        0 => (Plan::EndOfInput, lines),
        1 => (Plan::LongLine, lines),
        _ => (Plan::Answers, 0),
    }
}

/// The command of an order's line.
fn commanded(line: &str) -> Option<u8> {
    let number = line.strip_prefix("COMMAND ")?.strip_suffix('\n')?;
    number.parse().ok()
}

impl Live {
    fn compared(&mut self, stream: &str, want: &str, got: &[u8]) -> Result<(), String> {
        self.heard += &format!("{stream}: \"{}\"\n", got.escape_ascii());
        match got == want.as_bytes() {
            true => Ok(()),
            false => Err(format!("standard {stream} should have been {want:?}")),
        }
    }

    /// The next line: mostly the unit's answer to this command.
    fn answer(&mut self, random: &mut Random, command: u8) -> Result<Said, String> {
        let (plan, left) = self.plan;
        self.plan.1 = left.saturating_sub(1);
        match plan {
            Plan::EndOfInput if left == 0 => {
                self.talk.hang_up();
                self.heard += "the input ends\n";
                return Ok(self.dialogue.hear(Heard::End));
            }
            Plan::LongLine if left == 0 => {
                let line = long_line(random);
                self.say(random, &line)?;
                return Ok(self.dialogue.hear(Heard::Long));
            }
            _ => {}
        }
        if self.bad > 2 || self.bad > 0 && random.once_in(2) {
            self.bad -= 1;
            self.told += 1;
            let line = bad_line(random);
            self.say(random, &line)?;
            return Ok(self.dialogue.hear(Heard::Line(&line)));
        }
        let answer = self.visitor.answer(command);
        self.answers.push(answer);
        let line = answer_line(random, answer);
        self.say(random, &line)?;
        Ok(self.dialogue.hear(Heard::Line(&line)))
    }

    /// Writes the line, in two pieces now and then.
    fn say(&mut self, random: &mut Random, line: &[u8]) -> Result<(), String> {
        self.heard += &format!("input: \"{}\"\n", line.escape_ascii());
        let line = [line, b"\n"].concat();
        let (front, back) = match random.below(4) {
            0 => line.split_at(random.below(line.len())),
            _ => line.split_at(0),
        };
        let said = self.talk.say(front).and_then(|()| self.talk.say(back));
        said.map_err(|error| error.to_string())
    }

    /// Nothing more comes, and the program has ended with status 0.
    fn closed(&mut self) -> Result<(), String> {
        let told = |error: io::Error| error.to_string();
        let (output, error) = (self.talk.output(), self.talk.error());
        let more = [output.map_err(told)?, error.map_err(told)?].concat();
        let status = self.talk.status().map_err(told)?;
        if more.is_empty() && status == Some(0) {
            return Ok(());
        }
        let more = more.escape_ascii();
        Err(format!("behind the end came \"{more}\", status {status:?}"))
    }
}
