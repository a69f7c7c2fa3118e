// Faulty and faithful units of a subject: each gives its own answers, judging
// has to pass exactly the isomorphic ones.

use super::compare::{Call, Comparer};
use super::difference::{Case, Difference};
use super::isomorphism::{renaming, Unit};
use super::machines::{permutation, table};
use super::subjects::Subject;
use crate::machine::{Machine, SILENCE};
use crate::number::{class, PASS, UNHEARD, WRONG};
use crate::random::Random;
use crate::sheet::sheet_of;
use std::path::Path;

/// Machines up to this many entries get every one-entry mutant.
const FEW_ENTRIES: usize = 12;
const SAMPLE: usize = 40;

/// All units tried on a subject, each with the name of its kind.
pub fn units(random: &mut Random, machine: &Machine) -> Vec<(&'static str, Unit)> {
    let mut units = one_entry(random, machine);
    for _ in 0..12 {
        units.push(("two or three entries", several_entries(random, machine)));
        units.push(("random", random_unit(random, machine)));
        units.push(("renamed", renamed(random, machine)));
        if machine.n > 1 {
            units.push(("state left out", left_out(random, machine)));
            units.push(("start moved", moved(random, machine)));
        }
    }
    for _ in 0..4 {
        units.push(("silent entries", silent_entries(random, machine)));
    }
    units.push(("plug out", plug_out(random, machine)));
    for (kept, gone) in pairs(machine.n) {
        units.push(("quotient", quotient(machine, kept, gone)));
    }
    units
}

fn faithful(machine: &Machine) -> Unit {
    let table = machine.clone();
    Unit { table, start: 0 }
}

/// The machine's answers, each once, and two that it never gives: any other, if
/// there is one, and silence.
fn known_answers(machine: &Machine) -> Vec<u8> {
    let mut answers = machine.answer.clone();
    answers.sort_unstable();
    answers.dedup();
    let other = (0..SILENCE).find(|answer| !answers.contains(answer));
    answers.extend(other);
    answers.push(SILENCE);
    answers
}

/// Every mutant with another next state, another answer or both in one entry; a
/// sample if there are many.
fn one_entry(random: &mut Random, machine: &Machine) -> Vec<(&'static str, Unit)> {
    let answers = known_answers(machine);
    let mut mutants = Vec::new();
    for entry in 0..machine.next.len() {
        let own = (machine.next[entry], machine.answer[entry]);
        let every =
            (0..machine.n as u8).flat_map(|next| answers.iter().map(move |&answer| (next, answer)));
        for (next, answer) in every.filter(|&pair| pair != own) {
            mutants.push((entry, next, answer));
        }
    }
    if machine.next.len() > FEW_ENTRIES {
        let order = permutation(random, mutants.len());
        mutants = order.into_iter().take(SAMPLE).map(|i| mutants[i]).collect();
    }
    let unit = |(entry, next, answer)| {
        let mut unit = faithful(machine);
        unit.table.next[entry] = next;
        unit.table.answer[entry] = answer;
        ("one entry", unit)
    };
    mutants.into_iter().map(unit).collect()
}

/// Close to the machine: two or three entries changed, maybe renamed too.
fn several_entries(random: &mut Random, machine: &Machine) -> Unit {
    let mut unit = match random.below(3) {
        0 => renamed(random, machine),
        _ => faithful(machine),
    };
    for _ in 0..random.range(2, 3) {
        let (one, other) = (
            random.below(machine.next.len()),
            random.below(machine.next.len()),
        );
        match random.below(4) {
            0 => unit.table.answer[one] = *random.pick(&machine.answer),
            1 => unit.table.next.swap(one, other),
            _ => unit.table.next[one] = random.below(machine.n) as u8,
        }
    }
    unit
}

/// Any table of at most n states, with answers that the machine gives too.
pub fn random_unit(random: &mut Random, machine: &Machine) -> Unit {
    let states = random.range(1, machine.n);
    let mut table = table(random, states, machine.k);
    for answer in &mut table.answer {
        *answer = *random.pick(&machine.answer);
    }
    let start = random.below(states);
    Unit { table, start }
}

/// The machine, with a command, a state or a few entries to which no answer
/// comes; maybe it stands elsewhere or has another fault besides.
pub fn silent_entries(random: &mut Random, machine: &Machine) -> Unit {
    let mut unit = match random.below(4) {
        0 => several_entries(random, machine),
        1 if machine.n > 1 => moved(random, machine),
        _ => renamed(random, machine),
    };
    let k = unit.table.k;
    let (state, command) = (random.below(unit.table.n), random.below(k));
    let chance = random.range(2, 6);
    let way = random.below(3);
    for (entry, answer) in unit.table.answer.iter_mut().enumerate() {
        let silent = match way {
            0 => entry % k == command,
            1 => entry / k == state,
            _ => random.once_in(chance),
        };
        if silent {
            *answer = SILENCE;
        }
    }
    unit
}

/// Any table of at most n states to which no answer comes at all.
pub fn plug_out(random: &mut Random, machine: &Machine) -> Unit {
    let mut unit = random_unit(random, machine);
    unit.table.answer.fill(SILENCE);
    unit
}

/// The machine under other names, the start renamed with them.
fn renamed(random: &mut Random, machine: &Machine) -> Unit {
    let name = permutation(random, machine.n);
    let table = renamed_by(machine, &name);
    let start = name[0];
    Unit { table, start }
}

/// The machine under these names.
pub fn renamed_by(machine: &Machine, name: &[usize]) -> Machine {
    let mut table = machine.clone();
    for s in 0..machine.n {
        for command in 0..machine.k {
            let (from, to) = (s * machine.k + command, name[s] * machine.k + command);
            table.next[to] = name[usize::from(machine.next[from])] as u8;
            table.answer[to] = machine.answer[from];
        }
    }
    table
}

/// The machine, renamed or not, standing in another state at the start.
fn moved(random: &mut Random, machine: &Machine) -> Unit {
    let mut unit = renamed(random, machine);
    unit.start = (unit.start + random.range(1, machine.n - 1)) % machine.n;
    unit
}

/// One state less; what led there leads to any other state.
pub fn left_out(random: &mut Random, machine: &Machine) -> Unit {
    let gone = random.below(machine.n);
    without(machine, gone, || random.below(machine.n - 1))
}

/// One state less; what led there leads to the kept one.
fn quotient(machine: &Machine, kept: usize, gone: usize) -> Unit {
    let image = kept - usize::from(kept > gone);
    without(machine, gone, || image)
}

/// The machine without a state; `elsewhere` says where each entry leads that
/// led there, in the new numbers.
fn without(machine: &Machine, gone: usize, mut elsewhere: impl FnMut() -> usize) -> Unit {
    let mut place = |state: usize| match state {
        _ if state == gone => elsewhere(),
        _ => state - usize::from(state > gone),
    };
    let start = place(0);
    let mut table = Machine {
        n: machine.n - 1,
        k: machine.k,
        ..Machine::default()
    };
    for entry in 0..machine.next.len() {
        if entry / machine.k != gone {
            let next = usize::from(machine.next[entry]);
            table.next.push(place(next) as u8);
            table.answer.push(machine.answer[entry]);
        }
    }
    Unit { table, start }
}

/// All pairs of two states.
fn pairs(n: usize) -> impl Iterator<Item = (usize, usize)> {
    (0..n).flat_map(move |one| {
        (0..n)
            .filter(move |&other| other != one)
            .map(move |o| (one, o))
    })
}

impl Comparer {
    /// Judges the unit's own answers and holds the verdict against isomorphism;
    /// with a directory, the program there judges them too.
    pub fn unit(
        &mut self,
        subject: &Subject,
        unit: &Unit,
        origin: (u64, usize, &str),
        directory: Option<&Path>,
    ) -> Result<(), Difference> {
        let (machine, sequence) = (&subject.machine, &subject.sequence);
        let answers = unit.table.answers(unit.start, sequence);
        let case = Case {
            seed: origin.0,
            index: origin.1,
            kind: format!("unit, {}; {}; {unit:?}", origin.2, subject.kind),
            sheet: sheet_of(machine, &subject.word, Some(sequence), Some(&answers)),
        };
        let mut got = self.call(&case, Call::Judge, sequence.len() + 1 + origin.1 % 3)?;
        if let Some(spoil) = self.spoil {
            spoil.unit(&mut got);
        }
        self.counts.units += 1;
        self.counts.units_passed += usize::from(class(got) == PASS);
        self.counts.units_wrong += usize::from(class(got) == WRONG);
        self.counts.units_unheard += usize::from(class(got) == UNHEARD);
        if let Err(text) = claim(subject, unit, &answers, got) {
            return Err(case.difference(&text));
        }
        match directory {
            Some(directory) => self.judging(&case, directory),
            None => Ok(()),
        }
    }
}

/// The third demand, for one verdict on the unit's answers: pass exactly if there
/// is a renaming, and then the end state is assigned the unit's present state.
/// Otherwise wrong or unheard, by the first answer that differs.
fn claim(subject: &Subject, unit: &Unit, answers: &[u8], verdict: u64) -> Result<(), String> {
    let end = subject.machine.after(0, &subject.sequence);
    let stands = unit.table.after(unit.start, &subject.sequence);
    let right = subject.machine.answers(0, &subject.sequence);
    let mut pairs = answers.iter().zip(&right);
    let first = pairs.find(|(given, right)| given != right);
    let told = match first {
        None => PASS,
        Some((&SILENCE, _)) => UNHEARD,
        Some(_) => WRONG,
    };
    match (class(verdict), renaming(&subject.machine, unit)) {
        (WRONG | UNHEARD, None) if class(verdict) == told => Ok(()),
        (PASS, Some(image)) if image[end] == stands && verdict & 0xff == end as u64 => Ok(()),
        (_, image) => Err(format!(
            "Judge gives {verdict:#x}; renaming by the tables: {image:?}, end state {end}, \
             unit stands in {stands}, first other answer and right one: {first:?}"
        )),
    }
}
