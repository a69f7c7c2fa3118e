// The sheets that are certified: built sequences, the house unit's, random ones, hostile chains.

use crate::chains;
use crate::machines::{longest, separated, separated_by, LONGEST_WORD};
use checker::building::build;
use checker::known::{house, twin};
use checker::machine::{Machine, LONGEST_SEQUENCE};
use checker::random::Random;
use checker::sheet::sheet_of;

/// How many times the baseline's time may be taken, on hostile chains and on all other sequences.
const HOSTILE_BAR: f64 = 1000.0;
const USUAL_BAR: f64 = 3.0;

/// A machine with its word and a sequence.
#[derive(Clone)]
pub struct Workload {
    pub name: String,
    pub machine: Machine,
    pub word: Vec<u8>,
    pub sequence: Vec<u8>,
    pub hostile: bool,
}

impl Workload {
    fn usual(name: String, machine: &Machine, word: &[u8], sequence: Vec<u8>) -> Workload {
        Workload {
            name,
            machine: machine.clone(),
            word: word.to_vec(),
            sequence,
            hostile: false,
        }
    }

    /// The sequence that building prescribes.
    fn built(name: String, machine: &Machine, word: &[u8]) -> Workload {
        let sequence = build(machine, word).expect("the machine is strongly connected");
        Workload::usual(name, machine, word, sequence)
    }

    /// The sequence again and again, up to a length.
    pub fn repeated(&self, name: String, length: usize) -> Workload {
        let sequence = self.sequence.iter().copied().cycle().take(length).collect();
        Workload::usual(name, &self.machine, &self.word, sequence)
    }

    pub fn bar(&self) -> f64 {
        if self.hostile {
            HOSTILE_BAR
        } else {
            USUAL_BAR
        }
    }

    /// The sheet without answers.
    pub fn sheet(&self) -> Vec<u8> {
        sheet_of(&self.machine, &self.word, Some(&self.sequence), None)
    }

    /// The sheet with the first `count` answers, all right.
    pub fn answered(&self, count: usize) -> Vec<u8> {
        let answers = self.machine.answers(0, &self.sequence);
        sheet_of(
            &self.machine,
            &self.word,
            Some(&self.sequence),
            Some(&answers[..count]),
        )
    }
}

/// Built sequences of the largest machines; the last is the longest that is ever built.
pub fn built(random: &mut Random) -> Vec<Workload> {
    let mut workloads = Vec::new();
    for number in 1..=4 {
        let (machine, word) = separated(10, 8, 16, random);
        let name = format!("built, n 10 k 8 L 16, random {number}");
        workloads.push(Workload::built(name, &machine, &word));
    }
    let machine = separated_by(&[0; 16], 10, 8, random);
    let name = "built, n 10 k 8, word of 16 equal commands".into();
    workloads.push(Workload::built(name, &machine, &[0; 16]));
    let name = "built, longest of all".into();
    workloads.push(Workload::built(name, &longest(), &LONGEST_WORD));
    workloads
}

/// The twin's built sequence, the shortest of all sequences here.
pub fn twin_workload() -> Workload {
    Workload::built("twin, built".into(), &twin(), &[0])
}

/// The house unit's built sequence, once and repeated.
pub fn house_workloads() -> Vec<Workload> {
    let once = Workload::built("house unit, built".into(), &house(), &[0, 1]);
    let again = once.repeated("house unit, built, repeated".into(), LONGEST_SEQUENCE);
    vec![once, again]
}

/// n, k and L of the machines of the random sequences.
const SIZES: [(usize, usize, usize); 12] = [
    (2, 2, 1),
    (2, 8, 16),
    (3, 3, 2),
    (4, 4, 2),
    (5, 2, 8),
    (6, 5, 3),
    (7, 7, 4),
    (8, 2, 16),
    (9, 4, 6),
    (10, 2, 1),
    (10, 8, 1),
    (10, 8, 16),
];

/// Random sequences, plain and with the word sprinkled in.
pub fn random_workloads(random: &mut Random) -> Vec<Workload> {
    let mut workloads = Vec::new();
    for (n, k, length) in SIZES {
        let (machine, word) = separated(n, k, length, random);
        for (kind, sprinkled) in [("random", false), ("random with the word", true)] {
            let name = format!("{kind}, n {n} k {k} L {length}");
            let sequence = random_sequence(k, &word, sprinkled, random);
            workloads.push(Workload::usual(name, &machine, &word, sequence));
        }
    }
    workloads
}

fn random_sequence(k: usize, word: &[u8], sprinkled: bool, random: &mut Random) -> Vec<u8> {
    let mut sequence = Vec::new();
    while sequence.len() < LONGEST_SEQUENCE {
        if sprinkled && random.once_in(5) {
            sequence.extend(word);
        } else {
            sequence.push(random.below(k) as u8);
        }
    }
    sequence.truncate(LONGEST_SEQUENCE);
    sequence
}

/// The hostile chains.
pub fn hostile(random: &mut Random) -> Vec<Workload> {
    let machine = chains::machine();
    let of = |chain: chains::Chain| Workload {
        name: format!("hostile chain, {}", chain.name),
        machine: machine.clone(),
        word: chains::WORD.to_vec(),
        sequence: chain.sequence,
        hostile: true,
    };
    chains::chains(random).into_iter().map(of).collect()
}
