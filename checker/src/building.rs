// Building a checking sequence: transfers B(s), tests T(s), the sequence.

use crate::checks::{check, Service};
use crate::machine::Machine;
use crate::refusal::Refusal;
use crate::sheet::sheet_of;

/// The blocks T(0) to T(n - 1) of the specification's §6.2, or cause 8. The word
/// must fit the machine; whether it separates is not asked here.
pub fn blocks(machine: &Machine, word: &[u8]) -> Result<Vec<Vec<u8>>, Refusal> {
    let block = |s: usize| {
        let transfer = transfer(machine, machine.after(s, word), (s + 1) % machine.n);
        let transfer = transfer.ok_or(Refusal::new(8, s))?;
        Ok([word, &transfer].concat())
    };
    (0..machine.n).map(block).collect()
}

/// The sequence of the specification's §6.3, or cause 8.
pub fn build(machine: &Machine, word: &[u8]) -> Result<Vec<u8>, Refusal> {
    let tests = blocks(machine, word)?;
    let mut sequence = tests.concat();
    sequence.extend(&tests[0]);
    let mut present = 1 % machine.n;
    for s in 0..machine.n {
        for command in 0..machine.k as u8 {
            while present != s {
                sequence.extend(&tests[present]);
                present = (present + 1) % machine.n;
            }
            sequence.push(command);
            let reached = machine.step(s, command);
            sequence.extend(&tests[reached]);
            present = (reached + 1) % machine.n;
        }
    }
    Ok(sequence)
}

/// The shortest transfer sequence, first in byte order among those; none leads
/// from or to what is no state.
pub fn transfer(machine: &Machine, from: usize, to: usize) -> Option<Vec<u8>> {
    if from.max(to) >= machine.n {
        return None;
    }
    let distance = machine.distances(to);
    let mut transfer = Vec::new();
    let mut state = from;
    for left in (0..distance[from]?).rev() {
        let nearer = |command: &u8| distance[machine.step(state, *command)] == Some(left);
        let command = (0..machine.k as u8).find(nearer)?;
        transfer.push(command);
        state = machine.step(state, command);
    }
    Some(transfer)
}

/// The bound (§6.4) on the length of what is built.
pub fn bound(n: usize, k: usize, word: usize) -> usize {
    let c = word + n - 1;
    (n + 1) * c + n * k * (n * c + 1)
}

/// What `bench build` writes: records 1 and 2 of the sheet and the built
/// sequence as record 3 (§8.2).
pub fn build_sheet(sheet: &[u8]) -> Result<Vec<u8>, Refusal> {
    let mut machine = Machine::default();
    let checked = check(sheet, Service::Building, &mut machine)?;
    let sequence = build(&machine, checked.word)?;
    Ok(sheet_of(&machine, checked.word, Some(&sequence), None))
}

/// Building into a lent buffer: gives the length; cause 9 where the buffer is
/// shorter than that.
pub fn build_into(sheet: &[u8], buffer: &mut [u8]) -> Result<usize, Refusal> {
    let mut machine = Machine::default();
    let checked = check(sheet, Service::Building, &mut machine)?;
    let sequence = build(&machine, checked.word)?;
    let needed = sequence.len();
    let front = buffer.get_mut(..needed).ok_or(Refusal::new(9, needed))?;
    front.copy_from_slice(&sequence);
    Ok(needed)
}

#[cfg(test)]
mod tests {
    use super::*;
    use crate::random::Random;

    /// All command strings by length, each length in byte order: the first that
    /// leads there.
    fn first_of_all(machine: &Machine, from: usize, to: usize) -> Option<Vec<u8>> {
        let mut strings = vec![Vec::new()];
        for _ in 0..machine.n {
            let leads = |commands: &&Vec<u8>| machine.after(from, commands) == to;
            if let Some(found) = strings.iter().find(leads) {
                return Some(found.clone());
            }
            let longer = |commands: &Vec<u8>| {
                let commands = commands.clone();
                (0..machine.k as u8).map(move |command| [&commands[..], &[command]].concat())
            };
            strings = strings.iter().flat_map(longer).collect();
        }
        None
    }

    #[test]
    fn transfers_are_the_first_of_the_shortest() {
        let mut random = Random::new(1);
        for _ in 0..300 {
            let (n, k) = (random.range(1, 5), random.range(1, 3));
            let entry = |_| (random.below(n) as u8, 0);
            let pairs: Vec<(u8, u8)> = (0..n * k).map(entry).collect();
            let machine = Machine::from_pairs(n, k, &pairs);
            for from in 0..n {
                for to in 0..n {
                    let first = first_of_all(&machine, from, to);
                    assert_eq!(transfer(&machine, from, to), first);
                }
                assert_eq!(transfer(&machine, from, n), None);
                assert_eq!(transfer(&machine, n, from), None);
            }
            assert_eq!(transfer(&machine, n, n), None);
        }
    }
}
