// Sequences of every kind, and answers to them.

use super::machines::commands;
use super::silence::silent;
use crate::building::{build, transfer};
use crate::certifying::Certifier;
use crate::machine::{Machine, LONGEST_SEQUENCE};
use crate::random::Random;
use crate::sheet::sheet_of;

/// A sequence and the name of its kind.
pub fn sequence(random: &mut Random, machine: &Machine, word: &[u8]) -> (&'static str, Vec<u8>) {
    let k = machine.k;
    match random.below(60) {
        0..=9 => return ("random", short_random(random, k)),
        10..=21 => return ("sprinkled", short_sprinkled(random, k, word)),
        22 => return ("long", long(random, k, word)),
        23 => return ("beyond the limit", beyond(random, k)),
        _ => {}
    }
    let Ok(mut built) = build(machine, word) else {
        return ("sprinkled, not connected", short_sprinkled(random, k, word));
    };
    match random.below(11) {
        0..=1 => ("built", built),
        2 => {
            built.truncate(random.range(1, built.len()));
            ("built, cut", built)
        }
        3..=5 => ("built, edited", edited(random, k, built)),
        6 => {
            let length = random.range(1, 30);
            built.extend(sprinkled(random, k, word, length));
            ("built, extended", built)
        }
        7 => ("built, repeated", repeated(random, &built)),
        8 => ("walk, then built", walk_then(random, machine, word, &built)),
        _ if built.len() <= 300 => ("built, tightened", tightened(random, machine, word, built)),
        _ => ("built", built),
    }
}

fn short_random(random: &mut Random, k: usize) -> Vec<u8> {
    let length = random.range(1, 120);
    commands(random, k, length)
}

fn short_sprinkled(random: &mut Random, k: usize, word: &[u8]) -> Vec<u8> {
    let longest = *random.pick(&[20, 60, 100, 400, 1500]);
    let length = random.range(1, longest);
    sprinkled(random, k, word, length)
}

/// Random commands with the word here and there, mostly in front too.
pub fn sprinkled(random: &mut Random, k: usize, word: &[u8], length: usize) -> Vec<u8> {
    let mut sequence = Vec::new();
    if random.below(5) > 0 {
        sequence.extend(word);
    }
    let seldom = random.range(2, 9);
    while sequence.len() < length {
        if random.once_in(seldom) {
            sequence.extend(word);
        } else {
            sequence.push(random.below(k) as u8);
        }
    }
    sequence.truncate(length);
    sequence
}

/// Up to the longest sequence, which itself is common.
fn long(random: &mut Random, k: usize, word: &[u8]) -> Vec<u8> {
    let length = match random.below(4) {
        0 => LONGEST_SEQUENCE,
        1 => LONGEST_SEQUENCE - random.below(20),
        _ => random.range(1000, LONGEST_SEQUENCE),
    };
    sprinkled(random, k, word, length)
}

fn beyond(random: &mut Random, k: usize) -> Vec<u8> {
    let more = *random.pick(&[1, 1, 2, 100, 180]);
    commands(random, k, LONGEST_SEQUENCE + more)
}

/// Some commands removed, inserted or changed.
fn edited(random: &mut Random, k: usize, mut sequence: Vec<u8>) -> Vec<u8> {
    for _ in 0..random.range(1, 4) {
        let place = random.below(sequence.len());
        match random.below(4) {
            0 if sequence.len() > 1 => drop(sequence.remove(place)),
            1 => sequence.insert(place, random.below(k) as u8),
            2 => {
                let end = sequence.len().min(place + random.range(1, 8));
                if end - place < sequence.len() {
                    sequence.drain(place..end);
                }
            }
            _ => sequence[place] = random.below(k) as u8,
        }
    }
    sequence
}

/// Twice and more, at most to the limit.
fn repeated(random: &mut Random, built: &[u8]) -> Vec<u8> {
    let times = *random.pick(&[2, 2, 2, 3, 10]);
    let mut sequence = built.repeat(times);
    sequence.truncate(LONGEST_SEQUENCE);
    sequence
}

/// A walk with few words in front, back to the start, then the built sequence:
/// what comes late lets the walk be recognised, one place after another.
fn walk_then(random: &mut Random, machine: &Machine, word: &[u8], built: &[u8]) -> Vec<u8> {
    let longest = *random.pick(&[10, 40, 300]);
    let length = random.range(1, longest);
    let mut sequence = word.to_vec();
    sequence.extend(commands(random, machine.k, length));
    let back = transfer(machine, machine.after(0, &sequence), 0).unwrap_or_default();
    sequence.extend(back);
    sequence.extend(built);
    sequence.truncate(LONGEST_SEQUENCE);
    sequence
}

/// Pieces removed wherever the sequence stays certified: tight, and far from
/// the order in which it was built.
pub fn tightened(random: &mut Random, machine: &Machine, word: &[u8], built: Vec<u8>) -> Vec<u8> {
    let mut certifier = Certifier::new();
    let mut marks = vec![0; built.len() + 1];
    let mut kept = built;
    for _ in 0..random.range(5, 60) {
        let start = random.below(kept.len());
        let end = kept.len().min(start + random.range(1, 12));
        let shorter = [&kept[..start], &kept[end..]].concat();
        let sheet = sheet_of(machine, word, Some(&shorter), None);
        let certificate = certifier.certificate(&sheet, &mut marks);
        if certificate.is_ok_and(|certificate| certificate.open.is_none()) {
            kept = shorter;
        }
    }
    kept
}

/// Answers to the sequence and the name of their kind; none: no record 4.
pub fn answers(
    random: &mut Random,
    machine: &Machine,
    sequence: &[u8],
) -> (&'static str, Option<Vec<u8>>) {
    let mut right = machine.answers(0, sequence);
    match random.below(15) {
        0 => ("no answers", None),
        1 => ("empty answers", Some(Vec::new())),
        2..=3 => {
            right.truncate(random.below(right.len() + 1));
            ("answers cut", Some(right))
        }
        4..=5 => {
            spoil_one(random, &mut right);
            ("one answer wrong", Some(right))
        }
        6 => {
            spoil_one(random, &mut right);
            spoil_one(random, &mut right);
            right.truncate(random.below(right.len() + 1));
            ("answers wrong and cut", Some(right))
        }
        7 => {
            let more = random.range(1, 3);
            right.extend((0..more).map(|_| random.byte()));
            ("too many answers", Some(right))
        }
        8..=10 => {
            let (kind, answers) = silent(random, right);
            (kind, Some(answers))
        }
        _ => ("answers right", Some(right)),
    }
}

fn spoil_one(random: &mut Random, answers: &mut [u8]) {
    let place = random.below(answers.len());
    answers[place] = answers[place].wrapping_add(random.range(1, 255) as u8);
}
