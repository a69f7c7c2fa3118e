// The answer to each case, by the models of the services.

use super::bytes::written;
use super::question::Question;
use super::reader::Unreadable;
use crate::building::{build_into, transfer};
use crate::certifying::{Certificate, Certifier};
use crate::checks::load;
use crate::desk::{Desk, Order};
use crate::judging::Verdict;
use crate::known::house_entry;
use crate::machine::{LONGEST_SEQUENCE, LONGEST_WORD, MOST_COMMANDS, MOST_STATES};
use crate::reading::part;
use crate::refusal::Refusal;
use crate::searching::search;
use crate::writing::write_into;

/// Every byte of a lent buffer before the service.
pub const LENT: u8 = 238;

/// The model with the workspace of certification.
#[derive(Default)]
pub struct Answerer {
    certifier: Certifier,
}

impl Answerer {
    pub fn new() -> Answerer {
        Answerer::default()
    }

    /// The answer's line without its `> `.
    pub fn answer(&mut self, asked: &Result<Question, Unreadable>) -> String {
        match asked {
            Ok(question) => self.answer_to(question),
            Err(Unreadable(column)) => format!("unreadable at {column}"),
        }
    }

    fn answer_to(&mut self, question: &Question) -> String {
        match question {
            Question::Judge { room, sheet } => {
                lent(*room, |marks| judged(self.certifier.verdict(sheet, marks)))
            }
            Question::Certify { room, sheet } => lent(*room, |marks| {
                certified(self.certifier.certificate(sheet, marks))
            }),
            Question::Build { room, sheet } => {
                lent(*room, |buffer| length("built", build_into(sheet, buffer)))
            }
            Question::Refusal { kind, sheet } => match part(sheet, *kind) {
                Ok(_) => String::from("none"),
                Err(refusal) => refused(refusal),
            },
            Question::Part { kind, sheet } => handed_back(sheet, *kind),
            Question::Transfer { from, to, sheet } => transferred(sheet, *from, *to),
            Question::Desk { sheet, answers } => dialogue(sheet, answers),
            Question::Word { sheet } => searched(search(sheet)),
            Question::Write { room, parts } => {
                lent(*room, |buffer| length("written", write_into(parts, buffer)))
            }
            Question::House { state, command } => {
                let (next, answer) = house_entry(*state, *command);
                format!("next {next} answer {answer}")
            }
            Question::Limits => format!(
                "states {MOST_STATES} commands {MOST_COMMANDS} word {LONGEST_WORD} \
                 sequence {LONGEST_SEQUENCE}"
            ),
        }
    }
}

/// What a service answers with a lent buffer of this room, and the buffer.
fn lent(room: usize, service: impl FnOnce(&mut [u8]) -> String) -> String {
    let mut buffer = vec![LENT; room];
    let answer = service(&mut buffer);
    format!("{answer} | {}", written(&buffer))
}

fn refused(refusal: Refusal) -> String {
    format!("refused {} at {}", refusal.number, refusal.place)
}

fn judged(outcome: Result<Verdict, Refusal>) -> String {
    match outcome {
        Err(refusal) => refused(refusal),
        Ok(Verdict::Pass { length, end }) => format!("pass {length} end {end}"),
        Ok(Verdict::Wrong { place, want, got }) => {
            format!("wrong at {place} want {want} got {got}")
        }
        Ok(Verdict::Unheard { place }) => format!("unheard at {place}"),
        Ok(Verdict::Unfinished { answers }) => format!("unfinished {answers}"),
    }
}

fn certified(outcome: Result<Certificate, Refusal>) -> String {
    match outcome {
        Err(refusal) => refused(refusal),
        Ok(Certificate { recognised, open }) => match open {
            None => format!("certified {recognised}"),
            Some(open) => format!("open {open} recognised {recognised}"),
        },
    }
}

/// The length of what was done.
fn length(done: &str, outcome: Result<usize, Refusal>) -> String {
    match outcome {
        Err(refusal) => refused(refusal),
        Ok(length) => format!("{done} {length}"),
    }
}

/// Where the part lies, its size and its bytes: none of them, at offset 0, where reading refuses.
fn handed_back(sheet: &[u8], kind: u16) -> String {
    let (from, bytes) = match part(sheet, kind) {
        Ok(part) => (part.offset(0), part.payload),
        Err(_) => (0, [].as_slice()),
    };
    format!("from {from} size {} | {}", bytes.len(), written(bytes))
}

fn transferred(sheet: &[u8], from: u8, to: u8) -> String {
    match load(sheet) {
        Err(refusal) => refused(refusal),
        Ok(machine) => match transfer(&machine, usize::from(from), usize::from(to)) {
            Some(commands) => format!("commands {}", written(&commands)),
            None => String::from("none"),
        },
    }
}

/// The order for the first command and for each answer.
fn dialogue(sheet: &[u8], answers: &[u8]) -> String {
    match Desk::open(sheet) {
        Err(refusal) => refused(refusal),
        Ok(desk) => {
            let orders: Vec<String> = desk.orders(answers).into_iter().map(ordered).collect();
            orders.join(" ")
        }
    }
}

fn ordered(order: Order) -> String {
    match order {
        Order::Command(command) => format!("command {command}"),
        Order::Home(commands) => format!("home after {commands}"),
        Order::Stranger(answer) => format!("stranger at {answer}"),
    }
}

fn searched(outcome: Result<Option<Vec<u8>>, Refusal>) -> String {
    match outcome {
        Err(refusal) => refused(refusal),
        Ok(None) => String::from("none"),
        Ok(Some(word)) => format!("word {}", written(&word)),
    }
}
