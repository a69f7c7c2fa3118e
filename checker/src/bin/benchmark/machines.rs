// The machines of the workloads: the one of the longest built sequence, and random ones.

use checker::machine::{Machine, SILENCE};
use checker::random::Random;

/// The machine whose built sequence is as long as any: its last command leads to the next state,
/// all others stay. Its word is `LONGEST_WORD`.
pub fn longest() -> Machine {
    let pair = |entry: u8| ((entry + 1) / 8 % 10, entry % 9);
    let pairs: Vec<(u8, u8)> = (0..80).map(pair).collect();
    Machine::from_pairs(10, 8, &pairs)
}

pub const LONGEST_WORD: [u8; 16] = [0, 1, 2, 3, 4, 5, 6, 7, 0, 1, 2, 3, 4, 5, 6, 7];

/// A random machine, strongly connected, with a random word that separates its states.
pub fn separated(n: usize, k: usize, length: usize, random: &mut Random) -> (Machine, Vec<u8>) {
    let word: Vec<u8> = (0..length).map(|_| random.below(k) as u8).collect();
    (separated_by(&word, n, k, random), word)
}

/// A random machine, strongly connected, whose states the word separates. Longer words get few
/// different answers, so that all of the word counts; none is silence, which is refused.
pub fn separated_by(word: &[u8], n: usize, k: usize, random: &mut Random) -> Machine {
    let answers = if word.len() < 3 {
        usize::from(SILENCE)
    } else {
        3
    };
    loop {
        let mut pair = |_| (random.below(n) as u8, random.below(answers) as u8);
        let pairs: Vec<(u8, u8)> = (0..n * k).map(&mut pair).collect();
        let machine = Machine::from_pairs(n, k, &pairs);
        if machine.unseparated(word).is_none() && machine.strongly_connected() {
            return machine;
        }
    }
}
