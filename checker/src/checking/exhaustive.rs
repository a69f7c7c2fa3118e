// All units at once, for small machines: every table of at most n states that
// gives the specified answers along the sequence. By the third demand each of
// them has to be a renamed copy of the machine.

use super::isomorphism::Unit;
use super::subjects::Subject;
use crate::machine::Machine;

/// The search is given up after so many steps.
const MOST_STEPS: usize = 200_000;

struct Search<'a> {
    sequence: &'a [u8],
    answers: &'a [u8],
    most: usize,
    k: usize,
    /// The table so far: next state and answer, none where still free.
    entries: Vec<Option<(u8, u8)>>,
    /// An answer that the machine never gives.
    unused: u8,
    used: usize,
    steps: usize,
    found: Vec<Unit>,
}

/// The units that give the specified answers, states numbered in the order in
/// which they are met; none if the search would take too long.
pub fn agreeing_units(subject: &Subject) -> Option<Vec<Unit>> {
    let machine = &subject.machine;
    let answers = machine.answers(0, &subject.sequence);
    let unused = (0..=255).find(|answer| !machine.answer.contains(answer));
    let mut search = Search {
        sequence: &subject.sequence,
        answers: &answers,
        most: machine.n,
        k: machine.k,
        entries: vec![None; machine.n * machine.k],
        unused: unused.expect("a machine has at most 80 answers"),
        used: 1,
        steps: 0,
        found: Vec::new(),
    };
    search.from(0, 0);
    (search.steps < MOST_STEPS).then_some(search.found)
}

impl Search<'_> {
    /// Goes on from a place with the unit in a state, guessing free entries.
    fn from(&mut self, mut place: usize, mut state: usize) {
        while place < self.sequence.len() {
            self.steps += 1;
            if self.steps >= MOST_STEPS {
                return;
            }
            let entry = state * self.k + usize::from(self.sequence[place]);
            match self.entries[entry] {
                None => return self.guess(place, entry),
                Some((_, answer)) if answer != self.answers[place] => return,
                Some((next, _)) => state = usize::from(next),
            }
            place += 1;
        }
        self.found.push(self.unit());
    }

    fn guess(&mut self, place: usize, entry: usize) {
        let used = self.used;
        for next in 0..self.most.min(used + 1) {
            self.entries[entry] = Some((next as u8, self.answers[place]));
            self.used = used.max(next + 1);
            self.from(place + 1, next);
        }
        self.entries[entry] = None;
        self.used = used;
    }

    /// The table found; entries never met get an answer that the machine never
    /// gives, so that none of them is the machine's by chance.
    fn unit(&self) -> Unit {
        let met = &self.entries[..self.used * self.k];
        let filled = |entry: &Option<(u8, u8)>| entry.unwrap_or((0, self.unused));
        let pairs: Vec<(u8, u8)> = met.iter().map(filled).collect();
        Unit {
            table: Machine::from_pairs(self.used, self.k, &pairs),
            start: 0,
        }
    }
}
