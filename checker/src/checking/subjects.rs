// Subjects of the third demand: a machine, a word and a certified sequence.

use super::machines::separated;
use super::sequences::{sprinkled, tightened};
use crate::building::build;
use crate::certifying::Certifier;
use crate::machine::{Machine, LONGEST_SEQUENCE, MOST_COMMANDS, MOST_STATES};
use crate::random::Random;
use crate::sheet::sheet_of;

pub struct Subject {
    pub machine: Machine,
    pub word: Vec<u8>,
    pub sequence: Vec<u8>,
    pub kind: &'static str,
}

/// A random subject, small ones often.
pub fn subject(random: &mut Random) -> Subject {
    loop {
        let (n, k) = match random.below(10) {
            0..=5 => (random.range(1, 4), random.range(1, 3)),
            6..=8 => (random.range(2, 6), random.range(1, 4)),
            _ => (random.range(1, MOST_STATES), random.range(1, MOST_COMMANDS)),
        };
        let (machine, word) = separated(random, n, k);
        if let Ok(built) = build(&machine, &word) {
            let (kind, sequence) = certified(random, &machine, &word, built);
            return Subject {
                machine,
                word,
                sequence,
                kind,
            };
        }
    }
}

/// The built sequence or another certified one.
fn certified(
    random: &mut Random,
    machine: &Machine,
    word: &[u8],
    built: Vec<u8>,
) -> (&'static str, Vec<u8>) {
    match random.below(5) {
        0 => ("built", built),
        1 => {
            let length = random.range(1, 20);
            let mut longer = [built, sprinkled(random, machine.k, word, length)].concat();
            longer.truncate(LONGEST_SEQUENCE);
            ("built, extended", longer)
        }
        2 => {
            let length = (2 * built.len()).min(LONGEST_SEQUENCE);
            let walk = sprinkled(random, machine.k, word, length);
            if is_certified(machine, word, &walk) {
                return ("sprinkled", walk);
            }
            ("built", built)
        }
        _ if built.len() <= 600 => ("tightened", tightened(random, machine, word, built)),
        _ => ("built", built),
    }
}

fn is_certified(machine: &Machine, word: &[u8], sequence: &[u8]) -> bool {
    let sheet = sheet_of(machine, word, Some(sequence), None);
    let mut marks = vec![0; sequence.len() + 1];
    let certificate = Certifier::new().certificate(&sheet, &mut marks);
    certificate.is_ok_and(|certificate| certificate.open.is_none())
}
