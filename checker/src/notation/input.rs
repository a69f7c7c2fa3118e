// A whole input: its lines, and what the program writes for it.

use super::answers::Answerer;
use super::question::{question, Question};
use super::reader::Unreadable;

/// A longer input is not taken.
pub const MOST_INPUT: usize = 1_048_576;

/// A line without its newline.
#[derive(Clone, Copy, Debug, PartialEq, Eq)]
pub enum Line<'a> {
    Copied(&'a [u8]),
    Dropped(&'a [u8]),
    Case(&'a [u8]),
}

pub fn lines(input: &[u8]) -> impl Iterator<Item = Line<'_>> {
    let pieces = input.split_inclusive(|&byte| byte == b'\n');
    pieces.map(|piece| {
        let line = piece.strip_suffix(b"\n").unwrap_or(piece);
        match line.first() {
            None | Some(b'#') => Line::Copied(line),
            Some(b'>') => Line::Dropped(line),
            Some(_) => Line::Case(line),
        }
    })
}

impl Answerer {
    /// What is written for an input; none where it is too long. `seen` gets
    /// each case, its line first, and the answer.
    pub fn text(
        &mut self,
        input: &[u8],
        mut seen: impl FnMut(&[u8], &Result<Question, Unreadable>, &str),
    ) -> Option<Vec<u8>> {
        if input.len() > MOST_INPUT {
            return None;
        }
        let mut text = Vec::new();
        let mut cases = 0;
        for line in lines(input) {
            if let Line::Copied(line) | Line::Case(line) = line {
                text.extend(line);
                text.push(b'\n');
            }
            if let Line::Case(line) = line {
                let asked = question(line);
                let answer = self.answer(&asked);
                text.extend(format!("> {answer}\n").as_bytes());
                seen(line, &asked, &answer);
                cases += 1;
            }
        }
        text.extend(format!("> {cases} cases\n").as_bytes());
        Some(text)
    }
}
