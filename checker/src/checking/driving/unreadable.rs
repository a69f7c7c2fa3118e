// Readable lines with a damage, so that most cannot be read.

use super::driver::Driver;
use super::sheets;
use super::spelling::spelled;
use crate::checking::difference::Difference;
use crate::notation::Question;
use crate::random::Random;
use crate::sheet::{machine_payload, sheet_of};

/// Bytes that mean something in a case, or nearly.
const NEAR: &[u8] = b"0123456789   {}{}::**--/|#>\r\n\t,.+";
/// Damaged lines at a time.
const LINES: usize = 20;

pub fn damaged(driver: &mut Driver, random: &mut Random) -> Result<(), Difference> {
    for _ in 0..LINES {
        let case = short(random);
        let mut line = spelled(random, &case);
        let name = damage(random, &mut line);
        if random.once_in(5) {
            damage(random, &mut line);
        }
        driver.try_line(&line, name)?;
    }
    Ok(())
}

/// A case with a short line.
pub fn short(random: &mut Random) -> Question {
    let sheet = short_sheet(random);
    let (kind, room) = (random.below(6) as u16, random.below(30));
    match random.below(20) {
        0 => Question::Limits,
        1 => Question::House {
            state: random.below(6) as u8,
            command: random.below(6) as u8,
        },
        2..=3 => Question::Transfer {
            from: random.below(5) as u8,
            to: random.below(5) as u8,
            sheet,
        },
        4..=5 => Question::Part { kind, sheet },
        6 => Question::Refusal { kind, sheet },
        7..=8 => Question::Build { room, sheet },
        9 => Question::Certify { room, sheet },
        10..=12 => {
            let mut answers = vec![0; random.below(8)];
            random.fill(&mut answers);
            Question::Desk { sheet, answers }
        }
        13..=14 => Question::Word { sheet },
        15..=17 => Question::Write {
            room,
            parts: short_parts(random),
        },
        _ => Question::Judge { room, sheet },
    }
}

/// Two to four parts for a sheet, or any.
fn short_parts(random: &mut Random) -> Vec<Vec<u8>> {
    let (machine, word) = sheets::small(random);
    let sequence = word.repeat(random.range(1, 4));
    let answers = machine.answers(0, &sequence);
    let mut parts = vec![machine_payload(&machine), word, sequence, answers];
    parts.truncate(random.range(2, 4));
    if random.once_in(3) {
        let place = random.below(parts.len());
        parts[place].truncate(random.below(3));
    }
    parts
}

fn short_sheet(random: &mut Random) -> Vec<u8> {
    if random.once_in(6) {
        let mut bytes = vec![0; random.below(12)];
        random.fill(&mut bytes);
        return bytes;
    }
    let (machine, word) = sheets::small(random);
    let length = random.range(1, 8);
    let sequence = word.repeat(length);
    let answers = machine.answers(0, &sequence);
    let given = random.once_in(2).then_some(&sequence[..]);
    let judged = given.filter(|_| random.once_in(2)).map(|_| &answers[..]);
    sheet_of(&machine, &word, given, judged)
}

/// One byte dropped, changed or added, or the line cut.
fn damage(random: &mut Random, line: &mut Vec<u8>) -> &'static str {
    let byte = match random.below(3) {
        0 => random.byte(),
        _ => *random.pick(NEAR),
    };
    let place = random.below(line.len().max(1));
    match random.below(4) {
        0 if !line.is_empty() => {
            line.remove(place);
            "byte dropped"
        }
        1 if !line.is_empty() => {
            line[place] = byte;
            "byte changed"
        }
        2 => {
            line.truncate(place);
            "line cut"
        }
        _ => {
            let place = random.below(line.len() + 1);
            line.insert(place, byte);
            "byte added"
        }
    }
}
