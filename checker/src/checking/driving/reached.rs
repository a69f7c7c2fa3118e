// What the program `cases` was asked and answered in a run.

use super::expected::{groups, KINDS};
use super::writings::needed;
use crate::checking::searches::{meet_asked, Asked};
use crate::checking::tally::{names, Tally};
use crate::checking::writings::{wanted, Given};
use crate::desk::{Desk, Order};
use crate::machine::SILENCE;
use crate::notation::{lines, part, Line, Question, Reader, Unreadable, MOST_INPUT};

/// The name of what comes from the program.
const OF: &str = "cases";

#[derive(Default)]
pub struct Reached {
    pub cases: usize,
    tally: Tally,
}

impl Reached {
    pub fn meet(&mut self, group: &'static str, name: &str) {
        self.tally.meet(group, name);
    }

    /// How often it was met.
    pub fn met(&self, group: &'static str, name: &str) -> usize {
        self.tally.met(group, name)
    }

    /// A case, its line first, and its answer.
    pub fn answered(&mut self, line: &[u8], asked: &Result<Question, Unreadable>, answer: &str) {
        self.cases += 1;
        match asked {
            Ok(question) => self.meet(question.name(), &outcome(question, answer)),
            Err(Unreadable(column)) => self.meet("unreadable", stopped_by(line.get(column - 1))),
        }
        match asked {
            Ok(Question::Part { kind, .. }) => self.meet("part, kinds", kind_name(*kind)),
            Ok(Question::Refusal { kind, .. }) => self.meet("refusal, kinds", kind_name(*kind)),
            Ok(Question::Desk { sheet, answers }) => self.dialogue(sheet, answers),
            Ok(Question::Write { room, parts }) => self.written(*room, parts, answer),
            _ => {}
        }
    }

    /// A machine whose word is asked for.
    pub fn searched(&mut self, asked: &Asked) {
        meet_asked(&mut self.tally, asked);
    }

    /// Payloads for a sheet.
    pub fn given(&mut self, given: &Given) {
        given.meet(&mut self.tally);
    }

    /// What a sheet was written with, and whether the room was enough.
    fn written(&mut self, room: usize, parts: &[Vec<u8>], answer: &str) {
        let written = answer.starts_with("written ");
        if written {
            self.meet("write, written with", wanted(parts.len()));
        }
        if written || answer.starts_with("refused 9 ") {
            let needed = needed(parts);
            self.meet(
                "write, rooms",
                match room {
                    0 => "none",
                    _ if room == needed => "as needed",
                    _ if room + 1 == needed => "one less",
                    _ if room == needed + 1 => "one more",
                    _ if room < needed => "less",
                    _ => "more",
                },
            );
        }
    }

    /// How a dialogue went, and how many answers there were for it.
    fn dialogue(&mut self, sheet: &[u8], answers: &[u8]) {
        let Ok(desk) = Desk::open(sheet) else {
            return;
        };
        let needed = (0..=answers.len()).find(|&count| desk.order(&answers[..count]).is_end());
        let end = desk.order(answers);
        self.meet("desk, ends", ending(&desk, end));
        self.meet(
            "desk, answers",
            match needed {
                None if answers.is_empty() => "none",
                None => "too few",
                Some(needed) if needed == answers.len() => "as many as needed",
                Some(_) => "more",
            },
        );
        if needed.is_some_and(|needed| needed < answers.len()) {
            self.meet("desk, ends repeated", ending(&desk, end));
        }
        if let Some(place) = answers.iter().position(|&it| it == SILENCE) {
            self.meet(
                "desk, first silence",
                match needed {
                    Some(needed) if place >= needed => "behind the end",
                    _ if place >= desk.word.len() => "behind the word",
                    _ => "in the word",
                },
            );
        }
    }

    /// An input that goes to the program; of one that is too long no line counts.
    pub fn input(&mut self, input: &[u8]) {
        self.meet("inputs", "all");
        match input.len() {
            0 => self.meet("inputs", "empty"),
            MOST_INPUT => self.meet("inputs", "longest"),
            length if length == MOST_INPUT + 1 => self.meet("inputs", "one byte too long"),
            length if length > MOST_INPUT => self.meet("inputs", "longer"),
            _ => {}
        }
        if input.len() > MOST_INPUT {
            return;
        }
        if input.last().is_some_and(|&byte| byte != b'\n') {
            self.meet("inputs", "without last newline");
        }
        lines(input).for_each(|line| self.line(line));
    }

    fn line(&mut self, line: Line) {
        match line {
            Line::Dropped(_) => self.meet("lines", "answer"),
            Line::Copied(b"") => self.meet("lines", "empty"),
            Line::Copied(line) => {
                self.meet("lines", "comment");
                self.bytes(line, "comment");
            }
            Line::Case(line) => self.bytes(line, "case"),
        }
    }

    /// Bytes that a line of text seldom has.
    fn bytes(&mut self, line: &[u8], name: &str) {
        let is_plain = |byte: &u8| (32..128).contains(byte);
        if line.iter().all(is_plain) {
            return;
        }
        let mut meet_if = |met: bool, what: &str| {
            if met {
                self.meet("lines", &format!("{name} with {what}"));
            }
        };
        meet_if(line.iter().any(|&byte| byte > 127), "bytes above 127");
        meet_if(line.contains(&b'\r'), "carriage return");
        let control = |&byte: &u8| byte < 32 && byte != b'\r';
        meet_if(line.iter().any(control), "other control bytes");
    }

    /// What never occurred though it should have.
    pub fn missing(&self, fixed: bool) -> Vec<String> {
        self.tally.missing(OF, groups(fixed))
    }

    /// A line for each group.
    pub fn summary(&self) -> String {
        self.tally.summary(OF, groups(true))
    }
}

/// The name of an end of the desk.
fn ending(desk: &Desk, end: Order) -> &'static str {
    match end {
        Order::Command(_) => "unfinished",
        Order::Home(commands) if commands == desk.word.len() => "home with the word",
        Order::Home(_) => "home later",
        Order::Stranger(answer) if answer < desk.word.len() => "stranger in the word",
        Order::Stranger(_) => "stranger later",
    }
}

/// The answer in a word or two, with the number of a refusal.
fn outcome(question: &Question, answer: &str) -> String {
    let first = |count: usize| {
        let words: Vec<&str> = answer.split(' ').take(count).collect();
        words.join(" ")
    };
    match question {
        Question::Part { .. } if answer.starts_with("from 0 ") => String::from("refused"),
        Question::Part { .. } if answer.ends_with(" | -") => String::from("empty record"),
        Question::Part { .. } => String::from("bytes"),
        Question::Transfer { .. } if answer == "commands -" => String::from("empty"),
        Question::Desk { .. } if answer.starts_with("command ") => String::from("orders"),
        Question::Word { .. } if answer.starts_with("word ") => {
            let mut commands = Reader::new(&answer.as_bytes()["word ".len()..]);
            format!("word of {}", part(&mut commands).unwrap_or_default().len())
        }
        Question::House { .. } if answer.starts_with("next 255 ") => String::from("outside"),
        Question::House { .. } => String::from("inside"),
        Question::Limits => String::from("asked"),
        _ if answer.starts_with("refused ") => first(2),
        _ => first(1),
    }
}

/// What stands at the column that was told.
fn stopped_by(byte: Option<&u8>) -> &'static str {
    match byte {
        None => "line too short",
        Some(byte) if byte.is_ascii_digit() => "digit too many",
        Some(_) => "other byte",
    }
}

fn kind_name(kind: u16) -> &'static str {
    let name = kind.to_string();
    names(KINDS).find(|known| *known == name).unwrap_or("other")
}

#[cfg(test)]
mod tests {
    use super::*;
    use crate::notation::Answerer;

    #[test]
    fn all_is_missed_until_it_occurs() {
        let mut reached = Reached::default();
        let all = reached.missing(true).len();
        assert_eq!(reached.missing(false).len(), all - 14);
        for (group, expected) in groups(true) {
            names(expected).for_each(|name| reached.meet(group, name));
        }
        assert!(reached.missing(true).is_empty());
        assert_eq!(reached.tally.all().count(), all);
    }

    #[test]
    fn counted_under_their_names() {
        let mut reached = Reached::default();
        let input = b"#\x80\r\n\n> old\nlimits\nhouse 256\npart 4 {4}\npart 258 0\nword {1 4 1 1 1 2 0 3 0 0 0}\n\
            word {1 2 1 0 0 0 0}\nword -\nwrite 2 - / 0 / - / -\nwrite 40 1 1 0 0 / 0\nwrite 17 1 1 0 0 / 0\n\
            build 0 -\r";
        reached.input(input);
        let seen = |line: &[u8], asked: &_, answer: &str| reached.answered(line, asked, answer);
        Answerer::new().text(input, seen).unwrap();
        let met = reached.tally.all();
        let expected = "inputs: all; inputs: without last newline; limits: asked; lines: answer; \
             lines: case with carriage return; lines: comment; lines: comment with bytes above 127; \
             lines: comment with carriage return; lines: empty; part: empty record; part: refused; \
             part, kinds: 258; part, kinds: 4; unreadable: digit too many; unreadable: other byte; \
             word: none; word: refused 2; word: word of 3; write: refused 3; write: written; \
             write, rooms: as needed; write, rooms: more; write, written with: a word";
        assert_eq!(met.collect::<Vec<_>>().join("; "), expected);
        assert_eq!(reached.cases, 11);
    }
}
