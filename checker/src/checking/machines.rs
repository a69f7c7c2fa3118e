// Random machines and words: all sizes, small ones often; few and many
// answers; strongly connected and not; words that separate and that do not.

use crate::machine::{Machine, LONGEST_WORD, MOST_COMMANDS, MOST_STATES, SILENCE};
use crate::random::Random;

/// Sizes: mostly small.
fn size(random: &mut Random) -> (usize, usize) {
    match random.below(8) {
        0..=3 => (random.range(1, 4), random.range(1, 3)),
        4..=5 => (random.range(1, 6), random.range(1, 5)),
        6 => (random.range(1, MOST_STATES), random.range(1, MOST_COMMANDS)),
        _ => (
            random.range(7, MOST_STATES),
            *random.pick(&[1, 2, 3, MOST_COMMANDS]),
        ),
    }
}

/// Any byte that a table may specify.
pub fn any_answer(random: &mut Random) -> u8 {
    random.below(usize::from(SILENCE)) as u8
}

/// The answers that may occur: few, some or all.
fn answer(random: &mut Random, variety: usize) -> u8 {
    match variety {
        256 => any_answer(random),
        _ => (random.below(variety) * 37) as u8,
    }
}

/// A table of random entries; its connection is left to chance, forced by a
/// cycle through all states, or made unlikely.
pub fn table(random: &mut Random, n: usize, k: usize) -> Machine {
    let variety = *random.pick(&[2, 2, 3, 3, 4, 6, 256]);
    let connection = random.below(4);
    let mut pairs = Vec::with_capacity(n * k);
    for s in 0..n {
        for _ in 0..k {
            let next = match connection {
                3 if random.below(4) > 0 => random.below(s + 1),
                _ => random.below(n),
            };
            pairs.push((next as u8, answer(random, variety)));
        }
    }
    if connection < 2 {
        let order = permutation(random, n);
        for i in 0..n {
            let entry = order[i] * k + random.below(k);
            pairs[entry].0 = order[(i + 1) % n] as u8;
        }
    }
    Machine::from_pairs(n, k, &pairs)
}

/// Gives one state the entries of another, so that no word separates the two;
/// there are at least two.
pub fn make_alike(random: &mut Random, machine: &mut Machine) {
    let (n, k) = (machine.n, machine.k);
    let one = random.below(n);
    let other = (one + random.range(1, n - 1)) % n;
    let entries = one * k..(one + 1) * k;
    machine.next.copy_within(entries.clone(), other * k);
    machine.answer.copy_within(entries, other * k);
}

/// Makes some answers of a table silent: one, several or all.
pub fn make_silent(random: &mut Random, machine: &mut Machine) {
    let entries = machine.answer.len();
    match random.below(8) {
        0 => machine.answer.fill(SILENCE),
        1 => machine.answer[0] = SILENCE,
        2 => machine.answer[entries - 1] = SILENCE,
        _ => {
            for _ in 0..random.range(1, 3) {
                machine.answer[random.below(entries)] = SILENCE;
            }
        }
    }
}

/// A random order of 0 to n-1.
pub fn permutation(random: &mut Random, n: usize) -> Vec<usize> {
    let mut order: Vec<usize> = (0..n).collect();
    for i in (1..n).rev() {
        order.swap(i, random.below(i + 1));
    }
    order
}

pub fn commands(random: &mut Random, k: usize, length: usize) -> Vec<u8> {
    (0..length).map(|_| random.below(k) as u8).collect()
}

/// A word of any kind: random, one command over and over, or periodic.
fn word(random: &mut Random, k: usize, longest: usize) -> Vec<u8> {
    let length = random.range(1, longest);
    let period = match random.below(4) {
        0 => 1,
        1 => random.range(1, 3),
        _ => length,
    };
    let pattern = commands(random, k, period);
    pattern.into_iter().cycle().take(length).collect()
}

/// A machine and a word for it; about one word in ten does not separate, and
/// about one table in twelve has silence among its answers.
pub fn machine_and_word(random: &mut Random) -> (Machine, Vec<u8>) {
    let (n, k) = size(random);
    let (mut machine, word) = match random.once_in(10) {
        true => (table(random, n, k), word(random, k, LONGEST_WORD)),
        false => separated(random, n, k),
    };
    if random.once_in(12) {
        make_silent(random, &mut machine);
    }
    (machine, word)
}

/// A machine of the size and a word that separates its states.
pub fn separated(random: &mut Random, n: usize, k: usize) -> (Machine, Vec<u8>) {
    loop {
        let machine = table(random, n, k);
        for longest in [1, 2, 3, 4, 6, 8, 12, LONGEST_WORD, LONGEST_WORD] {
            let word = word(random, k, longest);
            if machine.unseparated(&word).is_none() {
                return (machine, word);
            }
        }
    }
}
