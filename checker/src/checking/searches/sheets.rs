// Sheets for the search of a word: a machine, and behind it records that the
// search does not look at.

use super::machines::{searched, Searched};
use crate::checking::damage::{bytes_damaged, damaged};
use crate::checking::driving::nonsense;
use crate::checking::machines::commands;
use crate::machine::{Machine, SILENCE};
use crate::random::Random;
use crate::searching::by_halves;
use crate::sheet::{machine_payload, record, HEADER};

/// A machine with the sheet that holds it.
pub struct Asked {
    pub searched: Searched,
    pub behind: &'static str,
    pub sheet: Vec<u8>,
}

pub fn asked(random: &mut Random) -> Asked {
    let searched = searched(random);
    let (behind, records) = behind(random, &searched.machine);
    let machine = record(1, &machine_payload(&searched.machine));
    Asked {
        searched,
        behind,
        sheet: [machine, records].concat(),
    }
}

/// Records behind the machine, with their name.
fn behind(random: &mut Random, machine: &Machine) -> (&'static str, Vec<u8>) {
    let length = random.range(1, 16);
    let word = commands(random, machine.k, length);
    let (name, mut records) = match random.below(6) {
        0..=1 => return ("nothing", Vec::new()),
        2 => match machine.unseparated(&word) {
            None => ("a word that separates", record(2, &word)),
            Some(_) => ("a word that does not separate", record(2, &word)),
        },
        3 => match by_halves(machine) {
            Some(found) => (
                "a word that separates",
                record(2, &[&found[..], &word[..1]].concat()),
            ),
            None => ("no word", record(2, &[machine.k as u8; 3])),
        },
        4 => ("no word", record(2, &vec![0; 17 * random.below(2)])),
        _ => ("any records", nonsense(random, 2)),
    };
    for kind in [3, 4] {
        if random.once_in(3) {
            records.extend(nonsense(random, kind));
        }
    }
    (name, records)
}

/// A sheet that the search may refuse for any of its causes.
pub fn maybe_refused(random: &mut Random) -> Vec<u8> {
    let Asked {
        searched,
        mut sheet,
        ..
    } = asked(random);
    let names = &mut String::new();
    let entry = HEADER + 2 + 2 * random.below(searched.machine.next.len());
    match random.below(7) {
        0 => {
            sheet[entry] = random.range(searched.machine.n, 255) as u8;
            sheet
        }
        3 => {
            sheet[entry + 1] = SILENCE;
            sheet
        }
        1 => bytes_damaged(random, &sheet, names),
        2 => sheet.split_off(HEADER + 2 + 2 * searched.machine.next.len()),
        _ => damaged(random, &sheet, names),
    }
}
