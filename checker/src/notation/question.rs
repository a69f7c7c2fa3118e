// One case, read from its line.

use super::bytes::{part, parts, MOST_BYTES};
use super::reader::{Reader, Unreadable};

/// The largest buffer that is lent.
const MOST_ROOM: usize = MOST_BYTES;

const NAMES: [&str; 11] = [
    "judge", "certify", "build", "refusal", "part", "transfer", "desk", "word", "write", "house",
    "limits",
];

#[derive(Clone, Debug, PartialEq, Eq)]
pub enum Question {
    Judge { room: usize, sheet: Vec<u8> },
    Certify { room: usize, sheet: Vec<u8> },
    Build { room: usize, sheet: Vec<u8> },
    Refusal { kind: u16, sheet: Vec<u8> },
    Part { kind: u16, sheet: Vec<u8> },
    Transfer { from: u8, to: u8, sheet: Vec<u8> },
    Desk { sheet: Vec<u8>, answers: Vec<u8> },
    Word { sheet: Vec<u8> },
    Write { room: usize, parts: Vec<Vec<u8>> },
    House { state: u8, command: u8 },
    Limits,
}

/// Reads a line that is neither empty nor begins with `#` or `>`.
pub fn question(line: &[u8]) -> Result<Question, Unreadable> {
    let mut reader = Reader::new(line);
    let name = reader.name(&NAMES)?;
    let question = fields(name, &mut reader)?;
    reader.end()?;
    Ok(question)
}

fn fields(name: &str, reader: &mut Reader) -> Result<Question, Unreadable> {
    Ok(match name {
        "judge" => with_room(reader, |room, sheet| Question::Judge { room, sheet })?,
        "certify" => with_room(reader, |room, sheet| Question::Certify { room, sheet })?,
        "build" => with_room(reader, |room, sheet| Question::Build { room, sheet })?,
        "refusal" => Question::Refusal {
            kind: field(reader, 65_535)? as u16,
            sheet: sheet(reader)?,
        },
        "part" => Question::Part {
            kind: field(reader, 65_535)? as u16,
            sheet: sheet(reader)?,
        },
        "transfer" => Question::Transfer {
            from: field(reader, 255)? as u8,
            to: field(reader, 255)? as u8,
            sheet: sheet(reader)?,
        },
        "desk" => desk(reader)?,
        "word" => Question::Word {
            sheet: sheet(reader)?,
        },
        "write" => Question::Write {
            room: field(reader, MOST_ROOM)?,
            parts: payloads(reader)?,
        },
        "house" => Question::House {
            state: field(reader, 255)? as u8,
            command: field(reader, 255)? as u8,
        },
        _ => Question::Limits,
    })
}

/// A room and a sheet.
fn with_room(
    reader: &mut Reader,
    question: fn(usize, Vec<u8>) -> Question,
) -> Result<Question, Unreadable> {
    let room = field(reader, MOST_ROOM)?;
    Ok(question(room, sheet(reader)?))
}

fn desk(reader: &mut Reader) -> Result<Question, Unreadable> {
    reader.take(b' ')?;
    let mut both = parts(reader, 2, 2)?;
    let answers = both.remove(1);
    Ok(Question::Desk {
        sheet: both.remove(0),
        answers,
    })
}

/// Machine and word, and a sequence or that and answers.
fn payloads(reader: &mut Reader) -> Result<Vec<Vec<u8>>, Unreadable> {
    reader.take(b' ')?;
    parts(reader, 2, 4)
}

/// The space in front of a field, and a number.
fn field(reader: &mut Reader, most: usize) -> Result<usize, Unreadable> {
    reader.take(b' ')?;
    reader.number(most)
}

fn sheet(reader: &mut Reader) -> Result<Vec<u8>, Unreadable> {
    reader.take(b' ')?;
    part(reader)
}

impl Question {
    pub fn name(&self) -> &'static str {
        match self {
            Question::Judge { .. } => "judge",
            Question::Certify { .. } => "certify",
            Question::Build { .. } => "build",
            Question::Refusal { .. } => "refusal",
            Question::Part { .. } => "part",
            Question::Transfer { .. } => "transfer",
            Question::Desk { .. } => "desk",
            Question::Word { .. } => "word",
            Question::Write { .. } => "write",
            Question::House { .. } => "house",
            Question::Limits => "limits",
        }
    }

    /// The numbers in front of the parts.
    pub fn numbers(&self) -> Vec<usize> {
        match *self {
            Question::Judge { room, .. }
            | Question::Certify { room, .. }
            | Question::Build { room, .. }
            | Question::Write { room, .. } => vec![room],
            Question::Refusal { kind, .. } | Question::Part { kind, .. } => vec![usize::from(kind)],
            Question::Transfer { from, to, .. } => vec![usize::from(from), usize::from(to)],
            Question::House { state, command } => vec![usize::from(state), usize::from(command)],
            Question::Desk { .. } | Question::Word { .. } | Question::Limits => Vec::new(),
        }
    }

    /// The parts in their order.
    pub fn parts(&self) -> Vec<&[u8]> {
        match self {
            Question::Judge { sheet, .. }
            | Question::Certify { sheet, .. }
            | Question::Build { sheet, .. }
            | Question::Refusal { sheet, .. }
            | Question::Part { sheet, .. }
            | Question::Transfer { sheet, .. }
            | Question::Word { sheet } => vec![sheet],
            Question::Desk { sheet, answers } => vec![sheet, answers],
            Question::Write { parts, .. } => parts.iter().map(Vec::as_slice).collect(),
            Question::House { .. } | Question::Limits => Vec::new(),
        }
    }
}
