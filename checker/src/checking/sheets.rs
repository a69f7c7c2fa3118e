// Random sheets, sound and damaged, and the rooms they are tried with.

use super::compare::{needed_room, Comparer};
use super::damage::{bytes_damaged, damaged, plain_bytes};
use super::difference::{Case, Difference};
use super::machines::machine_and_word;
use super::sequences::{answers, sequence};
use crate::machine::LONGEST_SEQUENCE;
use crate::random::Random;
use crate::sheet::{sheet_of, LONGEST_SHEET};

/// A sound or damaged sheet; the same seed and index always give the same.
pub fn case(seed: u64, index: usize, random: &mut Random) -> Case {
    let (machine, word) = machine_and_word(random);
    let (sequence_kind, sequence) = sequence(random, &machine, &word);
    let (answers_kind, answers) = answers(random, &machine, &sequence);
    let given = (!random.once_in(25)).then_some(&sequence[..]);
    let mut kind = format!("{sequence_kind}; {answers_kind}");
    let sound = sheet_of(&machine, &word, given, answers.as_deref());
    let short = sound.len() <= LONGEST_SHEET;
    let sheet = match random.below(20) {
        0..=4 if short => damaged(random, &sound, &mut kind),
        5..=6 => bytes_damaged(random, &sound, &mut kind),
        7 if random.once_in(3) => {
            kind = String::from("plain bytes");
            plain_bytes(random)
        }
        _ => sound,
    };
    Case {
        seed,
        index,
        kind,
        sheet,
    }
}

impl Comparer {
    /// Both functions, with enough room and with another room.
    pub fn sheet(&mut self, case: &Case, random: &mut Random) -> Result<(), Difference> {
        self.counts.sheets += 1;
        let needed = needed_room(&case.sheet).unwrap_or_else(|| random.below(40));
        let enough = match random.below(8) {
            0..=3 => needed,
            4..=6 => needed + random.range(1, 50),
            _ => LONGEST_SEQUENCE + 1 + random.below(1000),
        };
        self.both(case, enough.max(needed))?;
        let other = match random.below(6) {
            0 => 0,
            1 => needed - needed.min(1),
            2 => needed,
            3 => needed + 1,
            4 => random.below(2 * needed + 1),
            _ => random.below(needed + 1),
        };
        self.both(case, other)
    }
}
