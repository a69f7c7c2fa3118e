// Searches for a word: machines with and without one, sheets that are refused,
// and all small machines.

use super::driver::Driver;
use crate::checking::difference::Difference;
use crate::checking::searches::{asked, maybe_refused, promised, Promised, PERMUTATIONS};
use crate::machine::Machine;
use crate::notation::{written, Question};
use crate::random::Random;
use crate::sheet::machine_payload;

/// Machines at a time.
const MACHINES: usize = 6;
/// All machines of these numbers of states and commands, with two answers, and
/// the name of the size.
const SMALL: [(usize, usize, &str); 7] = [
    (1, 1, "1 and 1"),
    (1, 2, "1 and 2"),
    (2, 1, "2 and 1"),
    (2, 2, "2 and 2"),
    (3, 1, "3 and 1"),
    (3, 2, "3 and 2"),
    (4, 1, "4 and 1"),
];
pub const SIZES: &str = "1 and 1, 1 and 2, 2 and 1, 2 and 2, 3 and 1, 3 and 2, 4 and 1";

pub fn searches(driver: &mut Driver, random: &mut Random) -> Result<(), Difference> {
    for _ in 0..MACHINES {
        let asked = asked(random);
        driver.reached.searched(&asked);
        let promised = promised(&asked.searched.machine)
            .map_err(|text| Difference(format!("the checker's own: {text}")))?;
        met(driver, asked.searched.kind, &promised);
        driver.ask(random, Question::Word { sheet: asked.sheet })?;
    }
    Ok(())
}

/// Counts what comes of a machine of this name.
fn met(driver: &mut Driver, kind: &str, promised: &Promised) {
    if promised.word.is_some() {
        let name = match promised.built {
            true => "built and certified",
            false => "not connected",
        };
        driver.reached.meet("word, found", name);
    }
    if kind == PERMUTATIONS {
        let name = match &promised.word {
            Some(word) => format!("word of {}", word.len()),
            None => String::from("none"),
        };
        driver.reached.meet("word, permutations", &name);
    }
}

/// A sheet that may be refused for any of the search's causes.
pub fn refused(driver: &mut Driver, random: &mut Random) -> Result<(), Difference> {
    let sheet = maybe_refused(random);
    driver.ask(random, Question::Word { sheet })
}

pub fn all_small(driver: &mut Driver) -> Result<(), Difference> {
    for (n, k, name) in SMALL {
        let entries = n * k;
        for number in 0..(2 * n).pow(entries as u32) {
            let machine = numbered(n, k, number);
            let line = format!("word {{1 {}}}", written(&machine_payload(&machine)));
            driver.add(line.as_bytes())?;
        }
        driver.reached.meet("word, all machines of the size", name);
    }
    driver.send()
}

/// The machine of this number among those of its size.
fn numbered(n: usize, k: usize, mut number: usize) -> Machine {
    let pair = |_| {
        let entry = number % (2 * n);
        number /= 2 * n;
        ((entry % n) as u8, (entry / n) as u8)
    };
    let pairs: Vec<(u8, u8)> = (0..n * k).map(pair).collect();
    Machine::from_pairs(n, k, &pairs)
}

#[cfg(test)]
mod tests {
    use super::*;
    use crate::checking::tally::names;

    #[test]
    fn small_machines_are_all_different() {
        let mut machines: Vec<Machine> = (0..256).map(|number| numbered(2, 2, number)).collect();
        machines.sort_by(|one, other| (&one.next, &one.answer).cmp(&(&other.next, &other.answer)));
        machines.dedup();
        assert_eq!(machines.len(), 256);
        assert!(SMALL.iter().map(|size| size.2).eq(names(SIZES)));
    }
}
