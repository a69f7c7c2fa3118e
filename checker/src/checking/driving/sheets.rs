// Sheets for the program's cases.

use crate::checking::damage::{bytes_damaged, damaged};
use crate::checking::machines::{machine_and_word, make_alike, make_silent, separated};
use crate::checking::sheets::case;
use crate::machine::Machine;
use crate::random::Random;
use crate::sheet::{record, sheet_of};

/// Longer sheets come seldom: their text is long.
const OFTEN: usize = 1500;

/// A sound or damaged sheet with all that the generator of sheets makes.
pub fn any(random: &mut Random) -> Vec<u8> {
    loop {
        let sheet = case(0, 0, random).sheet;
        if sheet.len() <= OFTEN || random.once_in(12) {
            return sheet;
        }
    }
}

/// A small machine and a word that separates its states.
pub fn small(random: &mut Random) -> (Machine, Vec<u8>) {
    let (n, k) = (random.range(1, 4), random.range(1, 3));
    separated(random, n, k)
}

/// A sheet for building: maybe with records that it does not look at.
pub fn for_building(random: &mut Random, machine: &Machine, word: &[u8]) -> Vec<u8> {
    let mut sheet = sheet_of(machine, word, None, None);
    for kind in [3, 4] {
        if random.once_in(4) {
            sheet.extend(nonsense(random, kind));
        }
    }
    sheet
}

/// A record of this kind with any payload.
pub fn nonsense(random: &mut Random, kind: u16) -> Vec<u8> {
    let longest = *random.pick(&[0, 1, 4, 12, 40, 300]);
    let mut payload = vec![0; random.below(longest + 1)];
    random.fill(&mut payload);
    record(kind, &payload)
}

/// A machine of any size, its word maybe not separating.
pub fn building(random: &mut Random) -> Vec<u8> {
    let (machine, word) = machine_and_word(random);
    for_building(random, &machine, &word)
}

/// A sheet that building and the desk may refuse for any cause.
pub fn maybe_refused(random: &mut Random) -> Vec<u8> {
    let names = &mut String::new();
    let sound = building(random);
    match random.below(9) {
        0..=1 => sound,
        2 => bytes_damaged(random, &sound, names),
        3 => alike(random),
        4 => outside(random),
        5 => silent(random),
        _ => damaged(random, &sound, names),
    }
}

/// A machine in which two states have the same entries, so that no word
/// separates them.
fn alike(random: &mut Random) -> Vec<u8> {
    let (n, k) = (random.range(2, 6), random.range(1, 3));
    let (mut machine, word) = separated(random, n, k);
    make_alike(random, &mut machine);
    for_building(random, &machine, &word)
}

/// Silence in the table, and maybe a command of the word that there is not.
fn silent(random: &mut Random) -> Vec<u8> {
    let (mut machine, mut word) = small(random);
    make_silent(random, &mut machine);
    if random.once_in(3) {
        word.push(machine.k as u8);
    }
    for_building(random, &machine, &word)
}

/// A next state or a command of the word that there is not.
fn outside(random: &mut Random) -> Vec<u8> {
    let (mut machine, mut word) = small(random);
    let (place, high) = (random.below(machine.next.len()), random.byte());
    match random.below(2) {
        0 => machine.next[place] = high.max(machine.n as u8),
        _ => *word.last_mut().expect("a word has a command") = high.max(machine.k as u8),
    }
    for_building(random, &machine, &word)
}
