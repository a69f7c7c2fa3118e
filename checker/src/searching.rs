// The search for a word (§14): of the separating words with at most 6 commands
// the shortest, and of these the first in byte order.
//
// What a word does is written as a set of pairs of states, a bit each. Of the
// first commands of a word the set has the pairs in which two states stand that
// were not told apart so far, of its last commands the pairs that these do not
// tell apart. Together they separate if no pair is in both sets. So only the
// first halves of all words and the second halves are followed, and then each
// of the ones is held against each of the others.

use crate::checks::load;
use crate::machine::{Machine, MOST_COMMANDS, MOST_STATES};
use crate::refusal::Refusal;
use crate::sheet::{record, HEADER};

/// The longest words that are looked for.
pub const MOST_FOUND: usize = 6;

/// A bit for each pair of states, and one for two states that met in one:
/// nothing tells them apart.
type Pairs = u64;
const MOST_PAIRS: usize = MOST_STATES * (MOST_STATES - 1) / 2;
const MET: Pairs = 1 << 63;

/// The word for the machine of a sheet, none where there is no such.
pub fn search(sheet: &[u8]) -> Result<Option<Vec<u8>>, Refusal> {
    Ok(by_halves(&load(sheet)?))
}

/// The sheet that `bench word` writes for a word that was found: record 1 as it
/// stands, and the word as record 2. Record 1 is the first of a sheet.
pub fn with_word(sheet: &[u8], word: &[u8]) -> Vec<u8> {
    let length = u32::from_le_bytes([sheet[0], sheet[1], sheet[2], sheet[3]]);
    let first = &sheet[..HEADER + length as usize];
    [first, &record(2, word)].concat()
}

/// What becomes of each pair by each command: nothing where the answers differ,
/// otherwise the pair that it leads to, or `MET`.
struct Steps {
    k: usize,
    all: Pairs,
    of: [[Pairs; MOST_PAIRS]; MOST_COMMANDS],
}

/// The bit of a pair of states, `MET` where they are one.
fn pair(one: usize, other: usize) -> Pairs {
    let (low, high) = (one.min(other), one.max(other));
    match low == high {
        true => MET,
        false => 1 << (high * (high - 1) / 2 + low),
    }
}

impl Steps {
    fn new(machine: &Machine) -> Steps {
        let (n, k) = (machine.n, machine.k);
        let mut of = [[0; MOST_PAIRS]; MOST_COMMANDS];
        for (command, steps) in (0..k as u8).zip(&mut of) {
            for high in 1..n {
                for low in 0..high {
                    if machine.answer(low, command) == machine.answer(high, command) {
                        let next = pair(machine.step(low, command), machine.step(high, command));
                        steps[pair(low, high).trailing_zeros() as usize] = next;
                    }
                }
            }
        }
        let all = (1 << (n * (n - 1) / 2)) - 1;
        Steps { k, all, of }
    }

    /// Where the pairs stand that a command more does not tell apart.
    fn behind(&self, command: usize, pairs: Pairs) -> Pairs {
        let mut left = pairs & !MET;
        let mut next = pairs & MET;
        while left != 0 {
            next |= self.of[command][left.trailing_zeros() as usize];
            left &= left - 1;
        }
        next
    }

    /// The pairs that a command and then these last ones do not tell apart.
    fn before(&self, command: usize, last: Pairs) -> Pairs {
        let steps = &self.of[command];
        let bit = |(place, step): (usize, &Pairs)| Pairs::from(step & last != 0) << place;
        steps
            .iter()
            .enumerate()
            .map(bit)
            .fold(MET, |set, bit| set | bit)
    }

    /// Of each beginning of one length, in byte order, those of one command more.
    fn longer_firsts(&self, firsts: &[Pairs]) -> Vec<Pairs> {
        let each = |&pairs: &Pairs| (0..self.k).map(move |command| self.behind(command, pairs));
        firsts.iter().flat_map(each).collect()
    }

    /// The same of the ends of one length.
    fn longer_lasts(&self, lasts: &[Pairs]) -> Vec<Pairs> {
        let each = |command| lasts.iter().map(move |&pairs| self.before(command, pairs));
        (0..self.k).flat_map(each).collect()
    }

    /// The commands of the word with this number among those of its length.
    fn word(&self, mut number: usize, length: usize) -> Vec<u8> {
        let mut word = vec![0; length];
        for command in word.iter_mut().rev() {
            *command = (number % self.k) as u8;
            number /= self.k;
        }
        word
    }
}

/// The search by halves.
pub fn by_halves(machine: &Machine) -> Option<Vec<u8>> {
    let steps = Steps::new(machine);
    let mut firsts = vec![steps.all];
    let mut lasts = vec![steps.all | MET];
    for length in 1..=MOST_FOUND {
        match length % 2 {
            1 => lasts = steps.longer_lasts(&lasts),
            _ => firsts = steps.longer_firsts(&firsts),
        }
        if let Some(number) = first_apart(&firsts, &lasts) {
            return Some(steps.word(number, length));
        }
    }
    None
}

/// The number of the first word none of whose pairs are in both sets.
fn first_apart(firsts: &[Pairs], lasts: &[Pairs]) -> Option<usize> {
    for (number, first) in firsts.iter().enumerate() {
        if first & MET == 0 {
            if let Some(found) = lasts.iter().position(|last| first & last == 0) {
                return Some(number * lasts.len() + found);
            }
        }
    }
    None
}

/// The same search depth first, by lengths: the words that begin with commands
/// by which two states met unseparated are left out.
pub fn depth_first(machine: &Machine) -> Option<Vec<u8>> {
    let steps = Steps::new(machine);
    (1..=MOST_FOUND).find_map(|length| {
        let mut word = Vec::with_capacity(length);
        deeper(&steps, steps.all, length, &mut word).then_some(word)
    })
}

/// Whether so many commands more can tell these pairs apart; then they are put
/// behind the word.
fn deeper(steps: &Steps, pairs: Pairs, left: usize, word: &mut Vec<u8>) -> bool {
    if left == 0 || pairs & MET != 0 {
        return pairs == 0;
    }
    for command in 0..steps.k {
        word.push(command as u8);
        if deeper(steps, steps.behind(command, pairs), left - 1, word) {
            return true;
        }
        word.pop();
    }
    false
}

#[cfg(test)]
mod tests {
    use super::*;
    use crate::known::{doubling, house, ring, twin};
    use crate::lines;
    use crate::naive::shortest_word;
    use crate::random::Random;
    use crate::sheet::{machine_payload, sheet_of};

    /// What all three searches give.
    fn found(machine: &Machine) -> Option<Vec<u8>> {
        let word = shortest_word(machine);
        assert_eq!(by_halves(machine), word, "{machine:?}");
        assert_eq!(depth_first(machine), word, "{machine:?}");
        word
    }

    /// One command that leads round through all states; state 0 answers 1, all
    /// others 0. One command less than there are states tells them apart.
    fn cycle(n: usize) -> Machine {
        let pair = |state: usize| (((state + 1) % n) as u8, u8::from(state == 0));
        Machine::from_pairs(n, 1, &(0..n).map(pair).collect::<Vec<_>>())
    }

    #[test]
    fn known_machines() {
        assert_eq!(found(&twin()), Some(vec![0]));
        assert_eq!(found(&house()), Some(vec![0, 1]));
        assert_eq!(found(&Machine::from_pairs(1, 1, &[(0, 7)])), Some(vec![0]));
        let single = Machine::from_pairs(1, 8, &[(0, 7); 8]);
        assert_eq!(found(&single), Some(vec![0]));
        // 0 and 1 answer alike and meet by 0, so that 0 must not come first.
        let meeting = Machine::from_pairs(2, 2, &[(0, 5), (0, 6), (0, 5), (1, 7)]);
        assert_eq!(found(&meeting), Some(vec![1]));
        assert!(found(&ring()).is_some() && found(&doubling()).is_some());
    }

    /// Lengths 1 to 6, and none from 7 on, though then longer words separate.
    #[test]
    fn every_length() {
        for n in 2..=10 {
            let word = vec![0; n - 1];
            assert_eq!(cycle(n).unseparated(&word), None);
            assert_eq!(found(&cycle(n)), (n <= 7).then_some(word));
        }
    }

    #[test]
    fn none() {
        let alike = Machine::from_pairs(2, 2, &[(1, 5), (0, 6), (0, 5), (1, 6)]);
        assert_eq!(found(&alike), None);
        assert_eq!(found(&Machine::from_pairs(10, 8, &[(0, 0); 80])), None);
    }

    #[test]
    fn all_machines_of_two_states_and_two_commands() {
        for number in 0..256u16 {
            let entry = |place: u16| {
                let bits = number >> (2 * place);
                ((bits & 1) as u8, (bits >> 1 & 1) as u8)
            };
            found(&Machine::from_pairs(2, 2, &[0, 1, 2, 3].map(entry)));
        }
    }

    #[test]
    fn random_machines() {
        let random = &mut Random::new(1);
        for round in 0..3000 {
            let (n, k) = (random.range(1, 10), random.range(1, 3 + round % 2));
            let variety = random.range(1, 3);
            let pair = |_| (random.below(n) as u8, random.below(variety) as u8);
            let pairs: Vec<(u8, u8)> = (0..n * k).map(pair).collect();
            found(&Machine::from_pairs(n, k, &pairs));
        }
    }

    #[test]
    fn refusals_and_records() {
        let house = record(1, &machine_payload(&house()));
        let refused = |number, place| Err(Refusal::new(number, place));
        assert_eq!(search(&[]), refused(2, 0));
        assert_eq!(search(&house[..39]), refused(1, 0));
        assert_eq!(search(&record(2, &[0])), refused(2, 7));
        assert_eq!(search(&record(1, &[0, 1])), refused(3, 0));
        assert_eq!(search(&record(1, &[1, 1, 1, 0])), refused(4, 8));
        for more in [&[][..], &record(2, &[9; 99]), &record(4, &[])] {
            let sheet = [&house, more].concat();
            assert_eq!(search(&sheet), Ok(Some(vec![0, 1])));
            let written = with_word(&sheet, &[0, 1]);
            assert_eq!(
                written,
                sheet_of(&crate::known::house(), &[0, 1], None, None)
            );
        }
        let repeated = [&house[..], &record(2, &[]), &record(2, &[])].concat();
        assert_eq!(search(&repeated), refused(2, 46));
    }

    #[test]
    fn lines_of_both_outcomes() {
        assert_eq!(lines::searched(None), "NONE of 1 to 6 commands\n");
        assert_eq!(lines::searched(Some(&[0, 0, 7])), "WORD 0 0 7\n");
    }
}
