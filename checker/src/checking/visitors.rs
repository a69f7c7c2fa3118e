// Units that come to the desk in some state, and what is promised of them
// (§13): copies of the sheet's machine, begun in every state, and others.

use super::isomorphism::Unit;
use super::machines::{permutation, separated};
use super::units::{left_out, plug_out, random_unit, renamed_by, silent_entries};
use crate::desk::{Desk, Order};
use crate::machine::{Machine, MOST_COMMANDS, MOST_STATES};
use crate::random::Random;

/// The kinds, and the states of the sheet in which copies begin.
pub const UNITS: &str =
    "renamed copy, changed answer, changed next state, fewer states, any table, \
     silent entries, plug out";
pub const STATES: &str = "0, 1, 2, 3, 4, 5, 6, 7, 8, 9";

pub struct Visitor {
    pub kind: &'static str,
    pub table: Machine,
    /// Where it stands.
    pub state: usize,
    pub copy: Option<Copied>,
}

/// Of a copy.
pub struct Copied {
    /// The sheet's state in which it began.
    pub begun: usize,
    /// Its own state that is assigned to the start.
    pub start: usize,
}

impl Visitor {
    pub fn answer(&mut self, command: u8) -> u8 {
        let answer = self.table.answer(self.state, command);
        self.state = self.table.step(self.state, command);
        answer
    }
}

/// A strongly connected machine and a word that separates its states.
pub fn connected(random: &mut Random) -> (Machine, Vec<u8>) {
    let (n, k) = match random.below(10) {
        0..=4 => (random.range(1, 4), random.range(1, 3)),
        5..=7 => (random.range(2, 6), random.range(1, 4)),
        _ => (random.range(1, MOST_STATES), random.range(1, MOST_COMMANDS)),
    };
    connected_of(random, n, k)
}

/// The same with the most states.
pub fn largest(random: &mut Random) -> (Machine, Vec<u8>) {
    let k = random.range(1, MOST_COMMANDS);
    connected_of(random, MOST_STATES, k)
}

fn connected_of(random: &mut Random, n: usize, k: usize) -> (Machine, Vec<u8>) {
    loop {
        let (machine, word) = separated(random, n, k);
        if machine.strongly_connected() {
            return (machine, word);
        }
    }
}

/// One copy from each of its states, and units with faults.
pub fn visitors(random: &mut Random, machine: &Machine) -> Vec<Visitor> {
    let mut visitors = copies(random, machine);
    for _ in 0..2 {
        visitors.push(changed_answer(random, machine));
        if machine.n > 1 {
            visitors.push(changed_next(random, machine));
        }
    }
    if machine.n > 1 {
        let unit = left_out(random, machine);
        visitors.push(anywhere(random, "fewer states", unit));
    }
    let unit = random_unit(random, machine);
    visitors.push(anywhere(random, "any table", unit));
    let unit = silent_entries(random, machine);
    visitors.push(anywhere(random, "silent entries", unit));
    let unit = plug_out(random, machine);
    visitors.push(anywhere(random, "plug out", unit));
    visitors
}

fn copies(random: &mut Random, machine: &Machine) -> Vec<Visitor> {
    let name = permutation(random, machine.n);
    let table = renamed_by(machine, &name);
    let begun = permutation(random, machine.n);
    let copy = |begun: usize| Visitor {
        kind: "renamed copy",
        table: table.clone(),
        state: name[begun],
        copy: Some(Copied {
            begun,
            start: name[0],
        }),
    };
    begun.into_iter().map(copy).collect()
}

/// A unit in any of its states.
fn anywhere(random: &mut Random, kind: &'static str, unit: Unit) -> Visitor {
    let state = random.below(unit.table.n);
    Visitor {
        kind,
        table: unit.table,
        state,
        copy: None,
    }
}

fn any_copy(random: &mut Random, machine: &Machine) -> Unit {
    let table = renamed_by(machine, &permutation(random, machine.n));
    Unit { table, start: 0 }
}

fn changed_answer(random: &mut Random, machine: &Machine) -> Visitor {
    let mut unit = any_copy(random, machine);
    let entry = random.below(unit.table.answer.len());
    let before = unit.table.answer[entry];
    while unit.table.answer[entry] == before {
        unit.table.answer[entry] = match random.below(2) {
            0 => *random.pick(&machine.answer),
            _ => random.byte(),
        };
    }
    anywhere(random, "changed answer", unit)
}

/// There have to be two states.
fn changed_next(random: &mut Random, machine: &Machine) -> Visitor {
    let mut unit = any_copy(random, machine);
    let entry = random.below(unit.table.next.len());
    let other = usize::from(unit.table.next[entry]) + random.range(1, machine.n - 1);
    unit.table.next[entry] = (other % machine.n) as u8;
    anywhere(random, "changed next state", unit)
}

/// Lets the unit answer the desk's commands until an end, or until there were
/// too many; gives the answers and the last order.
pub fn received(desk: &Desk, visitor: &mut Visitor) -> (Vec<u8>, Order) {
    let mut answers = Vec::new();
    loop {
        match desk.order(&answers) {
            Order::Command(command) if answers.len() <= desk.most_commands() => {
                answers.push(visitor.answer(command));
            }
            order => return (answers, order),
        }
    }
}

/// What is promised, once the unit has got so many commands and then this order:
/// of every unit an end in time, of a copy that it stands in the start.
pub fn promised(desk: &Desk, visitor: &Visitor, commands: usize, end: Order) -> Result<(), String> {
    let in_time = commands <= desk.most_commands();
    let at_home = match &visitor.copy {
        Some(copy) => end == Order::Home(commands) && visitor.state == copy.start,
        None => end.is_end(),
    };
    if in_time && at_home {
        return Ok(());
    }
    let (kind, state, most) = (visitor.kind, visitor.state, desk.most_commands());
    let copy = visitor.copy.as_ref();
    let copy = copy.map(|copy| format!(", begun in {}, start {}", copy.begun, copy.start));
    Err(format!(
        "the desk's promise: {kind}{}, stands in {state} after {commands} commands of at most {most}, \
         told {end:?}",
        copy.unwrap_or_default()
    ))
}

#[cfg(test)]
mod tests {
    use super::*;
    use crate::known::{house, twin};
    use crate::sheet::sheet_of;

    #[test]
    fn every_unit_gets_what_is_promised() {
        let random = &mut Random::new(1);
        let mut machines = vec![(house(), vec![0, 1]), (twin(), vec![0])];
        machines.extend((0..200).map(|_| connected(random)));
        for (machine, word) in machines {
            let desk = Desk::open(&sheet_of(&machine, &word, None, None)).unwrap();
            for mut visitor in visitors(random, &machine) {
                let (answers, end) = received(&desk, &mut visitor);
                assert_eq!(promised(&desk, &visitor, answers.len(), end), Ok(()));
            }
        }
    }

    #[test]
    fn a_copy_elsewhere_breaks_the_promise() {
        let desk = Desk::open(&sheet_of(&twin(), &[0], None, None)).unwrap();
        for mut visitor in copies(&mut Random::new(1), &twin()) {
            let (answers, end) = received(&desk, &mut visitor);
            let count = answers.len();
            assert!(promised(&desk, &visitor, count, Order::Stranger(0)).is_err());
            assert!(promised(&desk, &visitor, count + 1, end).is_err());
            visitor.state = 1 - visitor.state;
            assert!(promised(&desk, &visitor, count, end).is_err());
        }
    }
}
