// Damage to records: repeated, swapped, left out, of other kinds, with lying
// lengths, and payloads at and beyond every limit.

use crate::machine::{LONGEST_SEQUENCE, SILENCE};
use crate::random::Random;
use crate::sheet::{lying_record, read};

/// A record whose header may lie.
#[derive(Clone)]
pub struct Piece {
    kind: u16,
    length: u32,
    payload: Vec<u8>,
}

/// The records of a sheet with a sound frame.
pub fn pieces(sheet: &[u8]) -> Vec<Piece> {
    let parts = read(sheet, 0).expect("a sheet made from records");
    let numbered = (1..).zip(parts);
    numbered
        .filter_map(|(kind, part)| part.map(|part| Piece::new(kind, part.payload.to_vec())))
        .collect()
}

pub fn join(pieces: &[Piece]) -> Vec<u8> {
    let bytes = |piece: &Piece| lying_record(piece.length, piece.kind, &piece.payload);
    pieces.iter().flat_map(bytes).collect()
}

impl Piece {
    fn new(kind: u16, payload: Vec<u8>) -> Piece {
        Piece {
            kind,
            length: payload.len() as u32,
            payload,
        }
    }
}

/// One damage to the order, the kinds or the lengths.
pub fn damage_frame(random: &mut Random, pieces: &mut Vec<Piece>) -> &'static str {
    let (one, other) = (random.below(pieces.len()), random.below(pieces.len()));
    match random.below(8) {
        0 => {
            pieces.insert(other, pieces[one].clone());
            "record repeated"
        }
        1 => {
            pieces.swap(one, other);
            "records swapped"
        }
        2 if pieces.len() > 1 => {
            pieces.remove(one);
            "record left out"
        }
        3..=4 => {
            pieces[one].kind = *random.pick(&[0, 5, 255, 256, 65535, 1, 2, 3, 4, 257, 259, 1024]);
            "record kind"
        }
        5..=6 => {
            pieces[one].length = lying_length(random, pieces[one].length);
            "lying length"
        }
        _ => {
            let kind = random.range(0, 5) as u16;
            let mut payload = vec![0; random.below(20)];
            random.fill(&mut payload);
            pieces.insert(one, Piece::new(kind, payload));
            "record inserted"
        }
    }
}

fn lying_length(random: &mut Random, length: u32) -> u32 {
    match random.below(10) {
        0 => 0xFFFF_FFFF,
        1 => 0x8000_0000,
        2 => 0x7FFF_FFFF,
        3 => 0xFFFF_FFFA,
        4 => length.wrapping_add(0x1_0000),
        5 => length.wrapping_add(0x100_0000),
        6 => length.wrapping_sub(random.range(1, 8) as u32),
        7 => random.below(300) as u32,
        _ => length.wrapping_add(random.range(1, 8) as u32),
    }
}

/// One damage to the payload of one record; its header follows.
pub fn damage_payload(random: &mut Random, pieces: &mut [Piece]) -> &'static str {
    let index = random.below(pieces.len());
    let k = pieces[0].payload.get(1).copied().unwrap_or(1);
    let longest = LONGEST_SEQUENCE;
    let piece = &mut pieces[index];
    let payload = &mut piece.payload;
    let name = match (random.below(8), piece.kind) {
        (0, _) => {
            payload.clear();
            "payload emptied"
        }
        (1, 1) | (1..=4, 2 | 3) => high_command(random, payload, k),
        (2..=7, 1) => damage_machine(random, payload),
        (_, 2) => resize(random, payload, k, &[0, 15, 16, 17, 18, 300]),
        (_, 3) => resize(
            random,
            payload,
            k,
            &[0, 1, longest, longest + 1, longest + 2],
        ),
        _ => {
            let length = payload.len();
            resize(random, payload, 255, &[length + 1, length + 2, 0, longest])
        }
    };
    piece.length = piece.payload.len() as u32;
    name
}

/// A command (or next state, or size) just at or above a limit.
fn high_command(random: &mut Random, payload: &mut [u8], k: u8) -> &'static str {
    let high = *random.pick(&[k, k.wrapping_add(1), 8, 128, 255]);
    if !payload.is_empty() {
        let place = random.below(payload.len());
        payload[place] = high;
    }
    "byte above a limit"
}

fn resize(random: &mut Random, payload: &mut Vec<u8>, k: u8, lengths: &[usize]) -> &'static str {
    let length = *random.pick(lengths);
    let command = random.below(usize::from(k).max(1)) as u8;
    payload.resize(length, command);
    "payload resized"
}

/// n, k, the payload's length or next states outside limits, silence among the
/// answers.
fn damage_machine(random: &mut Random, payload: &mut Vec<u8>) -> &'static str {
    if payload.len() < 4 {
        return "machine too short to damage";
    }
    let (n, k) = (payload[0], payload[1]);
    match random.below(11) {
        0 => payload[0] = *random.pick(&[0, 11, n.wrapping_add(1), n.wrapping_sub(1), 255]),
        1 => payload[1] = *random.pick(&[0, 9, k.wrapping_add(1), k.wrapping_sub(1), 255]),
        2 => {
            payload[0] = *random.pick(&[0, 1, 10, 11, 12]);
            payload[1] = *random.pick(&[0, 1, 8, 9, 10]);
            let entries = usize::from(payload[0]) * usize::from(payload[1]);
            payload.resize(2 + 2 * entries, 0);
        }
        3..=4 => {
            let length = payload.len() - random.range(1, 2);
            payload.truncate(length);
        }
        5..=6 => payload.push(random.byte()),
        7..=8 => next_outside(random, payload),
        9 => answer_silent(random, payload),
        _ => both_outside(random, payload),
    }
    "machine damaged"
}

/// The place of an entry's next state in the payload.
fn entry(random: &mut Random, payload: &[u8]) -> usize {
    2 + 2 * random.below((payload.len() - 2) / 2)
}

fn next_outside(random: &mut Random, payload: &mut [u8]) {
    let (n, entry) = (payload[0], entry(random, payload));
    payload[entry] = *random.pick(&[n, n, n.wrapping_add(1), 10, 255]);
}

fn answer_silent(random: &mut Random, payload: &mut [u8]) {
    let entry = entry(random, payload);
    payload[entry + 1] = SILENCE;
}

/// A next state and an answer, in one entry or anywhere.
fn both_outside(random: &mut Random, payload: &mut [u8]) {
    if random.once_in(2) {
        let entry = entry(random, payload);
        payload[entry..entry + 2].fill(SILENCE);
        return;
    }
    answer_silent(random, payload);
    next_outside(random, payload);
}
