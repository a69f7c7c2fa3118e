// The Mealy machine: its limits, its table, runs, separation, reachability.

pub const MOST_STATES: usize = 10;
pub const MOST_COMMANDS: usize = 8;
pub const LONGEST_WORD: usize = 16;
pub const LONGEST_SEQUENCE: usize = 20_355;
/// Stands among the answers where none came; no table may specify it.
pub const SILENCE: u8 = 255;

/// A complete deterministic Mealy machine; entry (s, c) stands at `s * k + c`
/// and state 0 is the start.
#[derive(Clone, Debug, Default, PartialEq, Eq)]
pub struct Machine {
    pub n: usize,
    pub k: usize,
    pub next: Vec<u8>,
    pub answer: Vec<u8>,
}

impl Machine {
    /// The machine of a row of (next state, answer) pairs.
    pub fn from_pairs(n: usize, k: usize, pairs: &[(u8, u8)]) -> Machine {
        assert_eq!(pairs.len(), n * k);
        Machine {
            n,
            k,
            next: pairs.iter().map(|pair| pair.0).collect(),
            answer: pairs.iter().map(|pair| pair.1).collect(),
        }
    }

    pub fn step(&self, state: usize, command: u8) -> usize {
        usize::from(self.next[state * self.k + usize::from(command)])
    }

    pub fn answer(&self, state: usize, command: u8) -> u8 {
        self.answer[state * self.k + usize::from(command)]
    }

    /// The state after all the commands.
    pub fn after(&self, start: usize, commands: &[u8]) -> usize {
        commands
            .iter()
            .fold(start, |state, &command| self.step(state, command))
    }

    /// The answers to the commands, in order.
    pub fn answers(&self, start: usize, commands: &[u8]) -> Vec<u8> {
        let mut state = start;
        let mut answers = Vec::with_capacity(commands.len());
        for &command in commands {
            answers.push(self.answer(state, command));
            state = self.step(state, command);
        }
        answers
    }

    /// The states of places 0 to N along the sequence, from state 0.
    pub fn states(&self, sequence: &[u8]) -> Vec<usize> {
        let mut states = vec![0];
        for &command in sequence {
            states.push(self.step(states[states.len() - 1], command));
        }
        states
    }

    /// The least i, then least j above i, that answer the word alike.
    pub fn unseparated(&self, word: &[u8]) -> Option<(usize, usize)> {
        let mut packed = [0u128; MOST_STATES];
        for (start, answers) in packed.iter_mut().enumerate().take(self.n) {
            let mut state = start;
            for &command in word {
                *answers = (*answers << 8) | u128::from(self.answer(state, command));
                state = self.step(state, command);
            }
        }
        for i in 0..self.n {
            for j in i + 1..self.n {
                if packed[i] == packed[j] {
                    return Some((i, j));
                }
            }
        }
        None
    }

    /// For each state the least number of commands to `target`, if any leads there.
    pub fn distances(&self, target: usize) -> Vec<Option<usize>> {
        let mut distance = vec![None; self.n];
        distance[target] = Some(0);
        for length in 1..self.n {
            for state in 0..self.n {
                let near = (0..self.k as u8)
                    .any(|command| distance[self.step(state, command)] == Some(length - 1));
                if distance[state].is_none() && near {
                    distance[state] = Some(length);
                }
            }
        }
        distance
    }

    pub fn strongly_connected(&self) -> bool {
        (0..self.n).all(|target| self.distances(target).iter().all(Option::is_some))
    }
}
