// The machines for the search of a word, all of the largest size: every command is a permutation,
// so that no two states ever meet and no word can be left out before its end. There is no word, or
// it is one of the last.

use checker::machine::{Machine, MOST_COMMANDS, MOST_STATES};
use checker::random::Random;
use checker::searching::by_halves;

const N: usize = MOST_STATES;
const K: usize = MOST_COMMANDS;

/// A machine with its name.
pub struct Searched {
    pub name: &'static str,
    pub machine: Machine,
}

pub fn machines(random: &mut Random) -> Vec<Searched> {
    let searched = |name, machine| Searched { name, machine };
    vec![
        searched("no word: equal answers", with_answers(random, |_, _| 0)),
        searched("no word: two states alike", alike(random, 1)),
        searched("no word: five pairs of states alike", alike(random, 5)),
        searched(
            "no word: one state is told at a time",
            with_answers(random, |state, _| u8::from(state == 0)),
        ),
        searched("no word: few answers differ", few_answers(random)),
        searched("word 7 7 7 7 7 7", only_last(random)),
        searched("word that begins with 7", beginning_with_last(random)),
    ]
}

/// For each command a random order of the states.
fn orders(random: &mut Random) -> Vec<Vec<usize>> {
    (0..K).map(|_| order(random, N)).collect()
}

fn order(random: &mut Random, length: usize) -> Vec<usize> {
    let mut order: Vec<usize> = (0..length).collect();
    for last in (1..length).rev() {
        order.swap(last, random.below(last + 1));
    }
    order
}

/// The machine whose command c leads from s to `orders[c][s]`.
fn machine(orders: &[Vec<usize>], answer: impl Fn(usize, usize) -> u8) -> Machine {
    let entry = |entry: usize| {
        let (state, command) = (entry / K, entry % K);
        (orders[command][state] as u8, answer(state, command))
    };
    Machine::from_pairs(N, K, &(0..N * K).map(entry).collect::<Vec<_>>())
}

/// Random permutations with these answers.
fn with_answers(random: &mut Random, answer: impl Fn(usize, usize) -> u8) -> Machine {
    machine(&orders(random), answer)
}

/// The first so many pairs of states move as one, the two of a pair in either order, and answer
/// alike; every other answer tells the state.
fn alike(random: &mut Random, pairs: usize) -> Machine {
    let mut orders = Vec::new();
    for _ in 0..K {
        let (moved, single) = (order(random, pairs), order(random, N - 2 * pairs));
        let mut next = Vec::new();
        for pair in moved {
            let turned = random.below(2);
            next.extend([2 * pair + turned, 2 * pair + 1 - turned]);
        }
        next.extend(single.iter().map(|state| 2 * pairs + state));
        orders.push(next);
    }
    let answer = |state: usize, _| match state < 2 * pairs {
        true => (state / 2) as u8,
        false => state as u8,
    };
    machine(&orders, answer)
}

/// Most answers are alike, and some states that no short word tells apart are left over.
fn few_answers(random: &mut Random) -> Machine {
    loop {
        let mut odd = [[0; K]; N];
        for answer in odd.iter_mut().flatten() {
            *answer = u8::from(random.once_in(6));
        }
        let machine = with_answers(random, |state, command| odd[state][command]);
        if by_halves(&machine).is_none() {
            return machine;
        }
    }
}

/// Command 7 leads round through all states, and two of them answer it otherwise than the rest;
/// nothing else is told. Five such answers are too few for ten states: so every word but the last
/// one of six commands fails.
fn only_last(random: &mut Random) -> Machine {
    let mut orders = orders(random);
    orders[K - 1] = (1..=N).map(|state| state % N).collect();
    let odd = |state| state == 0 || state == 3;
    machine(&orders, |state, command| {
        u8::from(command == K - 1 && odd(state))
    })
}

/// The same for the last two commands, all of them random permutations, so that a word needs six
/// commands of these; and none that begins with 6 separates.
fn beginning_with_last(random: &mut Random) -> Machine {
    loop {
        let orders = orders(random);
        let odd: Vec<Vec<usize>> = (0..K).map(|_| order(random, N)).collect();
        let machine = machine(&orders, |state, command| {
            u8::from(command >= K - 2 && odd[command][..2].contains(&state))
        });
        let word = by_halves(&machine);
        if word.is_some_and(|word| usize::from(word[0]) == K - 1) {
            return machine;
        }
    }
}
