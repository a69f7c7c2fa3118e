// Machines for the search of a word: with words of every length and with none,
// with states that meet and with commands by which no two states meet.

use crate::checking::machines::{any_answer, make_alike, permutation, table};
use crate::checking::tally::names;
use crate::machine::{Machine, MOST_COMMANDS, MOST_STATES};
use crate::random::Random;

/// What the machines are called.
pub const MACHINES: &str =
    "any table, few answers, few next states, permutations, permutations and two states alike, \
     permutations and equal answers, two states alike, round, round of more than seven, one state";

/// Of these no two states ever meet, so that every word has to be followed.
pub const PERMUTATIONS: &str = "permutations";

/// A machine with its name.
pub struct Searched {
    pub kind: &'static str,
    pub machine: Machine,
    /// One of more than six commands that separates, where it is known.
    pub longer: Option<Vec<u8>>,
}

/// A random one; permutations come often, those with many commands seldom.
pub fn searched(random: &mut Random) -> Searched {
    let kinds: Vec<&str> = names(MACHINES).collect();
    let kind = match random.once_in(4) {
        true => PERMUTATIONS,
        false => *random.pick(&kinds),
    };
    let (n, k) = size(random);
    let mut longer = None;
    let machine = match kind {
        "any table" => table(random, n, k),
        "few answers" => sparse(random, n, k, n),
        "few next states" => sparse(random, n, k, n.min(3)),
        PERMUTATIONS => permutations(random, n, k),
        "permutations and two states alike" => twins(random, n.max(3), k),
        "permutations and equal answers" => {
            let mut machine = permutations(random, n.max(2), k);
            machine.answer.fill(any_answer(random));
            machine
        }
        "two states alike" => {
            let mut machine = table(random, n.max(2), k);
            make_alike(random, &mut machine);
            machine
        }
        "round" => round(random, 2 + n % 6, k).0,
        "round of more than seven" => {
            let states = random.range(8, MOST_STATES);
            let (machine, word) = round(random, states, k);
            longer = Some(word);
            machine
        }
        _ => table(random, 1, k),
    };
    Searched {
        kind,
        machine,
        longer,
    }
}

fn size(random: &mut Random) -> (usize, usize) {
    match random.below(60) {
        0..=2 => (MOST_STATES, MOST_COMMANDS),
        3..=6 => (random.range(1, MOST_STATES), random.range(4, 6)),
        7..=30 => (random.range(4, 8), random.range(2, 3)),
        _ => (random.range(1, MOST_STATES), random.range(1, 3)),
    }
}

/// Next states below a number, most answers alike.
fn sparse(random: &mut Random, n: usize, k: usize, below: usize) -> Machine {
    let often = random.range(2, 8);
    let pair = |_| (random.below(below) as u8, odd(random, often));
    let pairs: Vec<(u8, u8)> = (0..n * k).map(pair).collect();
    Machine::from_pairs(n, k, &pairs)
}

/// Another answer than 0 once in so many times.
fn odd(random: &mut Random, times: usize) -> u8 {
    match random.once_in(times) {
        true => random.range(1, 2) as u8,
        false => 0,
    }
}

/// Every command leads different states to different states; most answers are
/// alike.
fn permutations(random: &mut Random, n: usize, k: usize) -> Machine {
    let orders: Vec<Vec<usize>> = (0..k).map(|_| permutation(random, n)).collect();
    let often = random.range(2, 8);
    let mut pairs = Vec::with_capacity(n * k);
    for state in 0..n {
        let entry = |order: &Vec<usize>| (order[state] as u8, odd(random, often));
        pairs.extend(orders.iter().map(entry));
    }
    Machine::from_pairs(n, k, &pairs)
}

/// Permutations that lead the last two states to each other or leave them, with
/// equal answers there; every other answer tells the state.
fn twins(random: &mut Random, n: usize, k: usize) -> Machine {
    let mut pairs = vec![(0, 0); n * k];
    for command in 0..k {
        let order = permutation(random, n - 2);
        for (state, &next) in order.iter().enumerate() {
            pairs[state * k + command] = (next as u8, state as u8);
        }
        let turned = random.below(2);
        for place in 0..2 {
            let next = n - 2 + (place + turned) % 2;
            pairs[(n - 2 + place) * k + command] = (next as u8, (n - 2) as u8);
        }
    }
    Machine::from_pairs(n, k, &pairs)
}

/// One command leads round through all states, and one state answers it
/// otherwise than the rest; all other commands stay and tell nothing. Of all
/// words with one command less than there are states only that one separates.
fn round(random: &mut Random, n: usize, k: usize) -> (Machine, Vec<u8>) {
    let (way, command) = (permutation(random, n), random.below(k));
    let mut pairs: Vec<(u8, u8)> = (0..n * k).map(|entry| ((entry / k) as u8, 7)).collect();
    for place in 0..n {
        let next = way[(place + 1) % n];
        pairs[way[place] * k + command] = (next as u8, u8::from(place == 0));
    }
    let word = vec![command as u8; n - 1];
    (Machine::from_pairs(n, k, &pairs), word)
}
