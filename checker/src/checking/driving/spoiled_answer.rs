// Spoils one answer among those that the program `cases` wrote.

use super::spoiled_writing::WritingChange;
use crate::checking::searches::Wrong;
use crate::checks::load;
use crate::notation::{lines, part, question, written, Line, Question, Reader, LENT};

/// What becomes of an answer; the words are those with which it has to begin,
/// so that the way applies.
#[derive(Clone, Copy)]
pub enum Change {
    /// The number behind these words, wherever they stand, is one more.
    More(&'static str),
    /// The first words are others.
    Words(&'static str, &'static str),
    /// The first such words, wherever they stand, are others.
    Middle(&'static str, &'static str),
    /// All from the last such words on is lost.
    Dropped(&'static str),
    /// The whole answer is another.
    Answer(&'static str, &'static str),
    /// The first byte behind ` | `.
    Byte(&'static str),
    /// The last byte there, if it is as it was lent.
    LentByte(&'static str),
    /// The last command of a transfer.
    Command,
    /// The offset of a record that was found, in an answer that ends so.
    Moved(&'static str),
    /// The word that was found is a wrong one.
    OtherWord(Wrong),
    /// A wrong answer is told as one that did not come.
    Unheard,
    /// Of a sheet that is written.
    Writing(WritingChange),
}

impl Change {
    /// The spoiled answer to this case, none where the way does not apply.
    fn of(self, asked: &[u8], answer: &str) -> Option<String> {
        match self {
            Change::More(words) => more(answer, words),
            Change::Words(start, other) => {
                let rest = answer.strip_prefix(start)?;
                Some(format!("{other}{rest}"))
            }
            Change::Middle(words, other) => answer
                .contains(words)
                .then(|| answer.replacen(words, other, 1)),
            Change::Dropped(words) => answer.rfind(words).map(|at| String::from(&answer[..at])),
            Change::Answer(start, other) => answer.starts_with(start).then(|| String::from(other)),
            Change::Byte(start) if answer.starts_with(start) => {
                behind(answer, " | ", |bytes| bytes.first_mut())
            }
            Change::LentByte(start) if answer.starts_with(start) => {
                behind(answer, " | ", |bytes| {
                    bytes.last_mut().filter(|byte| **byte == LENT)
                })
            }
            Change::Command => behind(answer, "commands ", |bytes| bytes.last_mut()),
            Change::Moved(end) if answer.ends_with(end) && !answer.starts_with("from 0 ") => {
                more(answer, "from ")
            }
            Change::OtherWord(way) => other_word(asked, answer, way),
            Change::Unheard => unheard(answer),
            Change::Writing(change) => change.of(asked, answer),
            Change::Byte(_) | Change::LentByte(_) | Change::Moved(_) => None,
        }
    }
}

/// Changes the first answer that the way applies to.
pub fn spoil_answer(output: &mut Vec<u8>, case: &str, change: Change) {
    let mut text = Vec::with_capacity(output.len() + 8);
    let mut above: &[u8] = b"";
    let mut rest = output.split_inclusive(|&byte| byte == b'\n');
    for line in rest.by_ref() {
        if let Some(answer) = spoiled(above, line, case, change) {
            text.extend(format!("> {answer}\n").as_bytes());
            break;
        }
        text.extend(line);
        above = line;
    }
    rest.for_each(|line| text.extend(line));
    *output = text;
}

/// The spoiled answer, if the line above is such a case.
fn spoiled(above: &[u8], line: &[u8], case: &str, change: Change) -> Option<String> {
    let Some(Line::Case(asked)) = lines(above).next() else {
        return None;
    };
    let answer = std::str::from_utf8(line).ok()?.strip_prefix("> ")?;
    if !plainly(asked).starts_with(case) {
        return None;
    }
    change.of(asked, answer.trim_end_matches('\n'))
}

/// The case's name and numbers, a space behind each; `unreadable` if it is none.
fn plainly(line: &[u8]) -> String {
    let Ok(question) = question(line) else {
        return String::from("unreadable");
    };
    let mut text = format!("{} ", question.name());
    for number in question.numbers() {
        text.push_str(&format!("{number} "));
    }
    text
}

/// The number behind these words, plus one.
fn more(answer: &str, words: &str) -> Option<String> {
    let (before, behind) = answer.split_once(words)?;
    let digits = behind.find(|it: char| !it.is_ascii_digit());
    let (number, rest) = behind.split_at(digits.unwrap_or(behind.len()));
    let number = number.parse::<usize>().ok()? + 1;
    Some(format!("{before}{words}{number}{rest}"))
}

/// The same place and marks, without the answers.
fn unheard(answer: &str) -> Option<String> {
    let (told, marks) = answer.strip_prefix("wrong at ")?.split_once(" | ")?;
    let place = told.split(' ').next()?;
    Some(format!("unheard at {place} | {marks}"))
}

/// A wrong word in place of the one that was found.
fn other_word(asked: &[u8], answer: &str, way: Wrong) -> Option<String> {
    let found = answer.strip_prefix("word ")?;
    let found = part(&mut Reader::new(found.as_bytes())).ok()?;
    let Ok(Question::Word { sheet }) = question(asked) else {
        return None;
    };
    let other = way.word(&load(&sheet).ok()?, &found)?;
    Some(format!("word {}", written(&other)))
}

/// One of the bytes behind these words changed; none where there is no such.
fn behind(
    answer: &str,
    words: &str,
    choose: impl FnOnce(&mut [u8]) -> Option<&mut u8>,
) -> Option<String> {
    let (before, bytes) = answer.split_once(words)?;
    let mut bytes = part(&mut Reader::new(bytes.as_bytes())).ok()?;
    *choose(&mut bytes)? ^= 1;
    Some(format!("{before}{words}{}", written(&bytes)))
}
