// Every sheet length from 0 to one above the longest, and some above that.

use super::compare::{needed_room, Comparer};
use super::difference::{Case, Difference};
use super::machines::separated;
use crate::building::build;
use crate::machine::{Machine, LONGEST_SEQUENCE, LONGEST_WORD, MOST_COMMANDS, MOST_STATES};
use crate::random::Random;
use crate::sheet::{sheet_of, HEADER, LONGEST_SHEET};
use std::path::Path;

/// Where the longest sheet's sequence starts.
const FRONT: usize = LONGEST_SHEET - 2 * LONGEST_SEQUENCE - HEADER;
/// Of the fitted long sheets, which cost most, one length in so many is made.
const FITTED_STEP: usize = 4;

/// Lengths beyond the limit.
const ABOVE: [usize; 6] = [40_913, 40_914, 65_535, 65_537, 81_824, 200_000];

/// A machine of the largest size with a word of the longest length.
struct Largest {
    machine: Machine,
    word: Vec<u8>,
    sequence: Vec<u8>,
    answers: Vec<u8>,
}

impl Largest {
    fn new(random: &mut Random) -> Largest {
        let (machine, word) = loop {
            let (machine, mut word) = separated(random, MOST_STATES, MOST_COMMANDS);
            word.resize(LONGEST_WORD, 0);
            if machine.strongly_connected() {
                break (machine, word);
            }
        };
        let built = build(&machine, &word).expect("strongly connected");
        let repeated = built.into_iter().cycle();
        let sequence: Vec<u8> = repeated.take(LONGEST_SEQUENCE).collect();
        let answers = machine.answers(0, &sequence);
        Largest {
            machine,
            word,
            sequence,
            answers,
        }
    }

    fn sheet(&self, sequence: usize, answers: usize) -> Vec<u8> {
        let (sequence, answers) = (&self.sequence[..sequence], &self.answers[..answers]);
        sheet_of(&self.machine, &self.word, Some(sequence), Some(answers))
    }

    /// A sound sheet of exactly this length.
    fn fitted(&self, length: usize, random: &mut Random) -> Option<Vec<u8>> {
        let free = length.checked_sub(FRONT + HEADER)?;
        let (low, high) = (free.div_ceil(2).max(1), free.min(LONGEST_SEQUENCE));
        if low > high {
            return None;
        }
        let sequence = random.range(low, high);
        Some(self.sheet(sequence, free - sequence))
    }
}

impl Comparer {
    /// All lengths, or every `step`th and the last, and some above.
    pub fn lengths(&mut self, seed: u64, step: usize, directory: &Path) -> Result<(), Difference> {
        let random = &mut Random::new(seed ^ 0x6c65_6e67_7468_7300);
        let largest = Largest::new(random);
        let mut whole = largest.sheet(LONGEST_SEQUENCE, LONGEST_SEQUENCE);
        whole.push(0);
        let all = (0..=LONGEST_SHEET).step_by(step);
        for length in all.chain([LONGEST_SHEET]).chain(ABOVE) {
            whole.resize(whole.len().max(length), 0);
            self.length(
                seed,
                "cut from the longest",
                whole[..length].to_vec(),
                random,
            )?;
            self.length(seed, "zeros", vec![0; length], random)?;
            let mut extended = whole[..random.below(length + 1)].to_vec();
            let more = random.byte();
            extended.resize(length, more);
            self.length(seed, "cut and extended", extended, random)?;
            if length < 600 || length.is_multiple_of(FITTED_STEP) || length + 40 > LONGEST_SHEET {
                if let Some(sheet) = largest.fitted(length, random) {
                    self.length(seed, "fitted", sheet, random)?;
                }
            }
        }
        self.lengths_to_program(seed, &whole, directory)
    }

    /// The program on the longest sheet, just cut, and on longer ones.
    fn lengths_to_program(
        &mut self,
        seed: u64,
        whole: &[u8],
        directory: &Path,
    ) -> Result<(), Difference> {
        for length in [1, 5, 6, LONGEST_SHEET - 1, LONGEST_SHEET]
            .into_iter()
            .chain(ABOVE)
        {
            let case = Case {
                seed,
                index: length,
                kind: String::from("length, to the program"),
                sheet: whole[..length].to_vec(),
            };
            self.services(&case, directory)?;
        }
        Ok(())
    }

    fn length(
        &mut self,
        seed: u64,
        kind: &str,
        sheet: Vec<u8>,
        random: &mut Random,
    ) -> Result<(), Difference> {
        self.counts.sheets += 1;
        self.counts.lengths += 1;
        let needed = needed_room(&sheet).unwrap_or(0);
        let case = Case {
            seed,
            index: sheet.len(),
            kind: format!("length, {kind}"),
            sheet,
        };
        self.both(&case, needed + random.below(3))
    }
}
