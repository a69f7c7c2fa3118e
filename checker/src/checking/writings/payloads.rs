// Payloads that a sheet is written from: sound ones, and such with one damage or
// two, each for a cause of its own.

use crate::checking::machines::machine_and_word;
use crate::checking::sequences::{answers, sequence};
use crate::checking::tally::Tally;
use crate::machine::{LONGEST_SEQUENCE, LONGEST_WORD, SILENCE};
use crate::random::Random;
use crate::sheet::machine_payload;
use crate::writing::write;

/// Longer sheets come seldom: their text is long.
const OFTEN: usize = 700;
/// Much more than any payload may have.
const HUGE: usize = 400_000;

/// From kind 1 up.
pub type Payloads = Vec<Vec<u8>>;

/// A damage after which this cause is told.
pub struct Damage {
    pub cause: u8,
    pub name: &'static str,
    /// So many payloads there have to be.
    least: usize,
    apply: fn(&mut Random, &mut Payloads),
}

/// The causes in the order in which they are looked for, but for the room.
pub const ORDER: [u8; 7] = [3, 4, 12, 5, 6, 7, 10];
/// The pairs of neighbours.
pub const PAIRS: &str = "3 and 4, 4 and 12, 12 and 5, 5 and 6, 6 and 7, 7 and 10";
/// The names of all damages.
pub const DAMAGED: &str =
    "number of states, number of commands, length of the machine, next state, \
     answer in the table, length of the word, command of the word, word that does not separate, \
     length of the sequence, command of the sequence, too many answers";

const fn damage(
    cause: u8,
    least: usize,
    name: &'static str,
    apply: fn(&mut Random, &mut Payloads),
) -> Damage {
    Damage {
        cause,
        name,
        least,
        apply,
    }
}

pub const DAMAGES: [Damage; 11] = [
    damage(3, 2, "number of states", |random, parts| {
        other_number(random, &mut parts[0], 0, 11);
    }),
    damage(3, 2, "number of commands", |random, parts| {
        other_number(random, &mut parts[0], 1, 9);
    }),
    damage(3, 2, "length of the machine", other_length),
    damage(4, 2, "next state", |random, parts| {
        let (n, entry) = (parts[0][0], entry(random, &parts[0]));
        parts[0][entry] = *random.pick(&[n, n, n + 1, SILENCE]);
    }),
    damage(12, 2, "answer in the table", |random, parts| {
        let entry = entry(random, &parts[0]);
        parts[0][entry + 1] = SILENCE;
    }),
    damage(5, 2, "length of the word", |random, parts| {
        resize(random, &mut parts[1], LONGEST_WORD);
    }),
    damage(5, 2, "command of the word", |random, parts| {
        high_command(random, parts, 1)
    }),
    damage(6, 2, "word that does not separate", alike),
    damage(7, 3, "length of the sequence", |random, parts| {
        resize(random, &mut parts[2], LONGEST_SEQUENCE);
    }),
    damage(7, 3, "command of the sequence", |random, parts| {
        high_command(random, parts, 2)
    }),
    damage(10, 4, "too many answers", |random, parts| {
        let longest = parts[2].len();
        let more = *random.pick(&[1, 1, 2, 30, HUGE]);
        parts[3].resize(longest + more, 7);
    }),
];

/// One of the numbers of states or commands, one at a limit or just beside it.
fn other_number(random: &mut Random, machine: &mut [u8], place: usize, above: u8) {
    let number = machine[place];
    machine[place] = *random.pick(&[0, above, number - 1, number + 1, 255]);
}

fn other_length(random: &mut Random, parts: &mut Payloads) {
    let length = parts[0].len();
    let other = *random.pick(&[
        0,
        1,
        2,
        length - 1,
        length - 2,
        length + 1,
        length + 2,
        HUGE,
    ]);
    parts[0].resize(other, 0);
}

/// The place of an entry's next state.
fn entry(random: &mut Random, machine: &[u8]) -> usize {
    2 + 2 * random.below((machine.len() - 2) / 2)
}

/// None, or more than so many.
fn resize(random: &mut Random, payload: &mut Vec<u8>, longest: usize) {
    let length = *random.pick(&[0, longest + 1, longest + 1, longest + 30, HUGE]);
    payload.resize(length, 0);
}

/// A command that there is not in one of the payloads.
fn high_command(random: &mut Random, parts: &mut Payloads, index: usize) {
    let k = parts[0][1];
    let place = random.below(parts[index].len());
    parts[index][place] = *random.pick(&[k, k, k + 1, 128, 255]);
}

/// Two states with the same entries; with one state nothing is changed.
fn alike(random: &mut Random, parts: &mut Payloads) {
    let machine = &mut parts[0];
    let (n, width) = (usize::from(machine[0]), 2 * usize::from(machine[1]));
    if n > 1 {
        let one = random.below(n);
        let other = (one + random.range(1, n - 1)) % n;
        let start = 2 + one * width;
        machine.copy_within(start..start + width, 2 + other * width);
    }
}

/// Payloads and the damages to them, the one that is told last.
pub struct Given {
    pub parts: Payloads,
    pub damages: Vec<&'static Damage>,
}

/// So many payloads that nothing is wrong with.
pub fn sound(random: &mut Random, count: usize) -> Payloads {
    loop {
        let parts = any(random, count);
        let size: usize = parts.iter().map(Vec::len).sum();
        if write(&parts).is_ok() && (size <= OFTEN || random.once_in(20)) {
            return parts;
        }
    }
}

fn any(random: &mut Random, count: usize) -> Payloads {
    let (machine, word) = machine_and_word(random);
    let mut parts = vec![machine_payload(&machine), word];
    if count > 2 {
        let (_, sequence) = sequence(random, &machine, &parts[1]);
        let (_, answers) = answers(random, &machine, &sequence);
        parts.extend([sequence, answers.unwrap_or_default()]);
    }
    parts.truncate(count);
    parts
}

/// So many payloads or more with these damages, done in this order: after each of
/// them its cause is told.
pub fn damaged(random: &mut Random, least: usize, damages: Vec<&'static Damage>) -> Given {
    let least = damages
        .iter()
        .map(|damage| damage.least)
        .fold(least, usize::max);
    let count = random.range(least, 4);
    loop {
        let mut parts = sound(random, count);
        let told = |damage: &&Damage| {
            (damage.apply)(random, &mut parts);
            write(&parts).is_err_and(|refusal| refusal.number == damage.cause)
        };
        if damages.iter().all(told) {
            return Given { parts, damages };
        }
    }
}

/// A damage of the cause at this place of the order, one of them by chance.
fn of_cause(random: &mut Random, place: usize) -> &'static Damage {
    let of = |damage: &&Damage| damage.cause == ORDER[place];
    let all: Vec<&Damage> = DAMAGES.iter().filter(of).collect();
    all[random.below(all.len())]
}

/// Two damages: the later cause first, then the one before it.
pub fn neighbours(random: &mut Random, place: usize) -> Given {
    let pair = vec![of_cause(random, place + 1), of_cause(random, place)];
    damaged(random, 2, pair)
}

/// Two damages with any two causes.
pub fn any_two(random: &mut Random) -> Given {
    let later = random.range(1, ORDER.len() - 1);
    let earlier = random.below(later);
    let pair = vec![of_cause(random, later), of_cause(random, earlier)];
    damaged(random, 2, pair)
}

impl Given {
    /// Counts the damages; two together by their causes.
    pub fn meet(&self, tally: &mut Tally) {
        for damage in &self.damages {
            tally.meet("write, damages", damage.name);
        }
        if let [later, earlier] = self.damages[..] {
            let pair = format!("{} and {}", earlier.cause, later.cause);
            tally.meet("write, two causes", &pair);
        }
    }
}

#[cfg(test)]
mod tests {
    use super::*;
    use crate::checking::tally::names;

    #[test]
    fn names_and_order() {
        assert!(DAMAGES.iter().map(|damage| damage.name).eq(names(DAMAGED)));
        let pairs = ORDER
            .windows(2)
            .map(|it| format!("{} and {}", it[0], it[1]));
        assert!(pairs.eq(names(PAIRS)));
        let known = |damage: &Damage| ORDER.contains(&damage.cause);
        assert!(DAMAGES.iter().all(known));
    }

    #[test]
    fn every_damage_is_told() {
        let random = &mut Random::new(1);
        for damage in &DAMAGES {
            let given = damaged(random, 2, vec![damage]);
            assert!(write(&given.parts).is_err());
        }
        for (place, pair) in ORDER.windows(2).enumerate() {
            let given = neighbours(random, place);
            let told = write(&given.parts).map_err(|refusal| refusal.number);
            assert_eq!(told, Err(pair[0]));
        }
        for count in 2..=4 {
            assert_eq!(sound(random, count).len(), count);
        }
    }
}
