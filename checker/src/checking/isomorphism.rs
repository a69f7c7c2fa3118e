// A unit and the renaming (§9.2), decided from the two tables alone.

use crate::machine::Machine;

/// A unit on the bench: a table of its own and the state it starts in.
#[derive(Clone, Debug)]
pub struct Unit {
    pub table: Machine,
    pub start: usize,
}

/// The renaming: for each state of the machine one of the unit, one-to-one and
/// onto, start to start, that keeps every entry; none if there is no such.
/// The machine's states must all be reachable from its start: then the start's
/// image fixes every other.
pub fn renaming(machine: &Machine, unit: &Unit) -> Option<Vec<usize>> {
    if unit.table.n != machine.n || unit.table.k != machine.k {
        return None;
    }
    let mut image = vec![None; machine.n];
    image[0] = Some(unit.start);
    let mut waiting = vec![0];
    while let Some(state) = waiting.pop() {
        let other = image[state]?;
        for command in 0..machine.k as u8 {
            if machine.answer(state, command) != unit.table.answer(other, command) {
                return None;
            }
            let next = machine.step(state, command);
            let next_other = unit.table.step(other, command);
            match image[next] {
                None => {
                    image[next] = Some(next_other);
                    waiting.push(next);
                }
                Some(known) if known != next_other => return None,
                Some(_) => {}
            }
        }
    }
    let image: Vec<usize> = image
        .into_iter()
        .map(|other| other.expect("every state of the machine is reachable"))
        .collect();
    let onto = (0..machine.n).all(|other| image.contains(&other));
    onto.then_some(image)
}

#[cfg(test)]
mod tests {
    use super::*;
    use crate::known::{house, twin};

    #[test]
    fn only_renamed_copies_have_a_renaming() {
        let swapped = Machine::from_pairs(2, 2, &[(1, 1), (0, 5), (0, 0), (1, 5)]);
        let unit = |table: &Machine, start| Unit {
            table: table.clone(),
            start,
        };
        assert_eq!(renaming(&twin(), &unit(&twin(), 0)), Some(vec![0, 1]));
        assert_eq!(renaming(&twin(), &unit(&swapped, 1)), Some(vec![1, 0]));
        assert_eq!(renaming(&twin(), &unit(&swapped, 0)), None);
        assert_eq!(renaming(&twin(), &unit(&twin(), 1)), None);
        assert_eq!(renaming(&twin(), &unit(&house(), 0)), None);
    }
}
