// The many ways to write one case: zeros before numbers, runs whole, split or
// byte by byte, records with and without their length.

use crate::notation::Question;
use crate::random::Random;
use crate::sheet::HEADER;

/// Longer parts are written shortly.
const SHORT: usize = 2000;

pub fn spelled(random: &mut Random, question: &Question) -> Vec<u8> {
    let mut fields = vec![String::from(question.name())];
    for value in question.numbers() {
        fields.push(number(random, value));
    }
    let parts = question.parts();
    let parts: Vec<String> = parts.iter().map(|bytes| part(random, bytes)).collect();
    if !parts.is_empty() {
        fields.push(parts.join(" / "));
    }
    fields.join(" ").into_bytes()
}

/// A number, now and then with zeros before it.
pub fn number(random: &mut Random, number: usize) -> String {
    let zeros = match random.below(300) {
        0 => random.range(5, 400),
        1..=15 => random.range(1, 4),
        _ => 0,
    };
    format!("{}{number}", "0".repeat(zeros))
}

fn part(random: &mut Random, sheet: &[u8]) -> String {
    match random.below(5) {
        _ if sheet.is_empty() => String::from(*random.pick(&["-", "7*0", "0*00 255*0"])),
        0 => items(random, sheet),
        _ => records(random, sheet),
    }
}

/// Records as long as there is a header, bytes behind them.
fn records(random: &mut Random, sheet: &[u8]) -> String {
    let mut text = String::new();
    let mut rest = sheet;
    while rest.len() >= HEADER {
        let length = u32::from_le_bytes([rest[0], rest[1], rest[2], rest[3]]);
        let kind = u16::from_le_bytes([rest[4], rest[5]]);
        let size = (length as usize).min(rest.len() - HEADER);
        let (payload, behind) = rest[HEADER..].split_at(size);
        if !text.is_empty() {
            let piece = *random.pick(&["", "", " "]);
            text.push_str(piece);
        }
        text.push_str(&record(random, kind, length, payload));
        rest = behind;
    }
    if rest.is_empty() {
        return text;
    }
    let bytes = items(random, rest);
    match text.as_str() {
        "" => bytes,
        _ => format!("{text} {bytes}"),
    }
}

fn record(random: &mut Random, kind: u16, length: u32, payload: &[u8]) -> String {
    let mut text = format!("{{{}", number(random, usize::from(kind)));
    if length as usize != payload.len() || random.once_in(8) {
        text.push(':');
        text.push_str(&number(random, length as usize));
    }
    if payload.is_empty() {
        let piece = *random.pick(&["", " ", " -", " 9*0"]);
        text.push_str(piece);
    } else {
        text.push(' ');
        text.push_str(&items(random, payload));
    }
    text.push('}');
    text
}

/// Bytes alone.
fn items(random: &mut Random, bytes: &[u8]) -> String {
    let plain = bytes.len() > SHORT;
    let singly = !plain && random.once_in(4);
    let mut items = Vec::new();
    for run in bytes.chunk_by(|one, other| one == other) {
        let (mut left, byte) = (run.len(), usize::from(run[0]));
        while left > 0 {
            let times = match random.below(8) {
                _ if singly => 1,
                0 if !plain => random.range(1, left),
                _ => left,
            };
            items.push(item(random, byte, times));
            left -= times;
        }
        if !plain && random.once_in(60) {
            items.push(format!("{}*0", random.byte()));
        }
    }
    items.join(" ")
}

/// One byte so many times.
fn item(random: &mut Random, byte: usize, times: usize) -> String {
    let text = number(random, byte);
    match times {
        1 if !random.once_in(20) => text,
        2 if random.once_in(2) => format!("{text} {byte}"),
        _ => format!("{text}*{}", number(random, times)),
    }
}
