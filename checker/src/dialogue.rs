// The dialogue of `bench desk` (§8.2): what it writes for each line that it
// reads, and how far it reads an input.

use crate::desk::Desk;
use crate::lines::{ordered, refused};
use crate::sheet::LONGEST_SHEET;
use std::ops::RangeInclusive;

/// A longer line stops the dialogue; its newline is not counted.
pub const LONGEST_LINE: usize = 80;
/// So many lines that are no answer stop it.
pub const MOST_BAD: usize = 100;
/// No more of the file is read.
pub const MOST_READ: usize = LONGEST_SHEET + 1;

pub const NO_ANSWER: &str = "bench: an answer is one to three digits, at most 255\n";
pub const TOO_MANY: &str = "bench: the dialogue stops: 100 lines were no answer\n";
pub const TOO_LONG: &str = "bench: the dialogue stops: a line is longer than 80 bytes\n";
pub const ENDED: &str = "bench: the dialogue stops: the input ended\n";

/// What stands next in the input, a line without its newline.
#[derive(Clone, Copy, Debug, PartialEq, Eq)]
pub enum Heard<'a> {
    Line(&'a [u8]),
    Long,
    End,
}

/// What is written for it, to standard output and standard error.
#[derive(Clone, Debug, Default, PartialEq, Eq)]
pub struct Said {
    pub output: String,
    pub error: String,
    /// Whether the dialogue is over, ended or stopped.
    pub over: bool,
}

pub struct Dialogue {
    desk: Desk,
    answers: Vec<u8>,
    bad: usize,
}

/// Begins with what is written before anything is read; a refused sheet has no
/// dialogue.
pub fn begin(file: &[u8]) -> (Said, Option<Dialogue>) {
    let sheet = &file[..file.len().min(MOST_READ)];
    match Desk::open(sheet) {
        Err(refusal) => {
            let said = Said {
                output: refused(refusal),
                over: true,
                ..Said::default()
            };
            (said, None)
        }
        Ok(desk) => {
            let (answers, bad) = (Vec::new(), 0);
            let dialogue = Dialogue { desk, answers, bad };
            (dialogue.order(), Some(dialogue))
        }
    }
}

impl Dialogue {
    pub fn hear(&mut self, heard: Heard) -> Said {
        match heard {
            Heard::End => stop(ENDED),
            Heard::Long => stop(TOO_LONG),
            Heard::Line(line) => match answer(line) {
                Some(answer) => {
                    self.answers.push(answer);
                    self.order()
                }
                None => self.told(),
            },
        }
    }

    fn order(&self) -> Said {
        let order = self.desk.order(&self.answers);
        Said {
            output: ordered(order),
            over: order.is_end(),
            ..Said::default()
        }
    }

    /// A line that is no answer: the command stands.
    fn told(&mut self) -> Said {
        self.bad += 1;
        if self.bad == MOST_BAD {
            return stop(&format!("{NO_ANSWER}{TOO_MANY}"));
        }
        Said {
            error: String::from(NO_ANSWER),
            ..Said::default()
        }
    }
}

fn stop(error: &str) -> Said {
    Said {
        error: String::from(error),
        over: true,
        ..Said::default()
    }
}

/// The answer that a line gives, if it does.
pub fn answer(line: &[u8]) -> Option<u8> {
    let digits = (1..=3).contains(&line.len()) && line.iter().all(u8::is_ascii_digit);
    let text = std::str::from_utf8(line).ok().filter(|_| digits)?;
    text.parse().ok()
}

/// The next line, and how many bytes are read to hear it: at least, at most. Of
/// a line that is too long no more has to be read than shows it.
pub fn next(input: &[u8]) -> (Heard<'_>, RangeInclusive<usize>) {
    let newline = input.iter().position(|&byte| byte == b'\n');
    let (line, whole) = match newline {
        Some(place) => (&input[..place], place + 1),
        None => (input, input.len()),
    };
    match line.len() {
        _ if line.len() > LONGEST_LINE => (Heard::Long, LONGEST_LINE + 1..=whole),
        0 if newline.is_none() => (Heard::End, 0..=0),
        _ => (Heard::Line(line), whole..=whole),
    }
}

/// A whole dialogue on an input that ends, and how far it is read.
pub fn whole(file: &[u8], input: &[u8]) -> (Said, RangeInclusive<usize>) {
    let (mut all, mut dialogue) = begin(file);
    let mut at = 0;
    while let Some(dialogue) = &mut dialogue {
        let (heard, read) = next(&input[at..]);
        let said = dialogue.hear(heard);
        all.output += &said.output;
        all.error += &said.error;
        if said.over {
            all.over = true;
            return (all, at + read.start()..=at + read.end());
        }
        at += read.end();
    }
    (all, 0..=0)
}

#[cfg(test)]
mod tests {
    use super::*;
    use crate::known::{house_sheet, twin};
    use crate::sheet::sheet_of;

    /// What is written for the house unit; all that was read, at least and at most.
    fn house(input: &str) -> (String, String, RangeInclusive<usize>) {
        let (said, read) = whole(&house_sheet(), input.as_bytes());
        (said.output, said.error, read)
    }

    /// The same where exactly so many bytes are read.
    fn talks(input: &str, output: &str, error: &str, read: usize) {
        let wanted = (String::from(output), String::from(error), read..=read);
        assert_eq!(house(input), wanted, "{input}");
    }

    const THREE: &str = "COMMAND 0\nCOMMAND 1\nCOMMAND 3\nCOMMAND 1\nHOME after 4\n";

    #[test]
    fn to_an_end() {
        talks("2\n21\n6\n6\n", THREE, "", 9);
        talks("2\n21\n6\n6\nmore\n", THREE, "", 9);
        talks("002\n021\n06\n6", THREE, "", 12);
        let stranger = "COMMAND 0\nCOMMAND 1\nSTRANGER at 1\n";
        talks("7\n6\n6\n", stranger, "", 4);
        talks("31\n255", stranger, "", 6);
    }

    #[test]
    fn the_input_ends() {
        talks("", "COMMAND 0\n", ENDED, 0);
        talks("2\n", "COMMAND 0\nCOMMAND 1\n", ENDED, 2);
        talks("2", "COMMAND 0\nCOMMAND 1\n", ENDED, 1);
        let both = format!("{NO_ANSWER}{ENDED}");
        talks("x", "COMMAND 0\n", &both, 1);
        talks("\n", "COMMAND 0\n", &both, 1);
    }

    #[test]
    fn lines_that_are_no_answer() {
        for line in [
            "256", "999", "0000", "0255", "-1", "+1", " 1", "1 ", "1\r", "", "\0", "\u{b2}",
        ] {
            let input = format!("2\n{line}\n21\n6\n6\n");
            talks(&input, THREE, NO_ANSWER, input.len());
        }
        for (line, value) in [("0", 0), ("00", 0), ("000", 0), ("255", 255), ("099", 99)] {
            assert_eq!(answer(line.as_bytes()), Some(value));
        }
    }

    #[test]
    fn a_hundred_lines() {
        let bad = |count: usize| "x\n".repeat(count);
        let told = |count: usize| NO_ANSWER.repeat(count);
        let input = format!("{}2\n21\n{}6\n6\n", bad(50), bad(49));
        talks(&input, THREE, &told(99), input.len());
        let input = format!("{}2\n{}21\n6\n6\n", bad(50), bad(50));
        let error = format!("{}{TOO_MANY}", told(100));
        talks(&input, "COMMAND 0\nCOMMAND 1\n", &error, 202);
        talks(&bad(200), "COMMAND 0\n", &error, 200);
        let last = format!("{}x", bad(99));
        talks(&last, "COMMAND 0\n", &error, 199);
    }

    #[test]
    fn long_lines() {
        let digits = |count: usize| "1".repeat(count);
        let command = String::from("COMMAND 0\n");
        for length in [79, 80] {
            let input = digits(length);
            talks(&input, &command, &format!("{NO_ANSWER}{ENDED}"), length);
        }
        let long = String::from(TOO_LONG);
        let of = |input: String| house(&input);
        let read = 81..=81;
        assert_eq!(of(digits(81)), (command.clone(), long.clone(), read));
        let read = 81..=82;
        let input = digits(81) + "\n2\n";
        assert_eq!(of(input), (command.clone(), long, read));
        let after = format!("x\n{}\n2\n", digits(500));
        let error = format!("{NO_ANSWER}{TOO_LONG}");
        assert_eq!(of(after), (command, error, 83..=503));
    }

    #[test]
    fn refused_sheets() {
        let refused = |file: &[u8]| {
            let (said, read) = whole(file, b"1\n");
            assert_eq!((said.error.as_str(), read), ("", 0..=0));
            said.output
        };
        let mut stuck = twin();
        stuck.next[2] = 1;
        let sheet = sheet_of(&stuck, &[0], None, None);
        assert_eq!(refused(&sheet), "REFUSED 8 at 1 not connected\n");
        assert_eq!(refused(b""), "REFUSED 2 at 0 record kind\n");
        let long = refused(&[0; 50_000]);
        assert_eq!(long, "REFUSED 1 at 40912 sheet cut or too long\n");
    }
}
