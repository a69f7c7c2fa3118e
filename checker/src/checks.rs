// Checks 1 to 7 in the specification's order (§4.1), 12 straight after 4, as far as
// a service needs them: of a sheet, or of payloads that a sheet is written from.

use crate::machine::{
    Machine, LONGEST_SEQUENCE, LONGEST_WORD, MOST_COMMANDS, MOST_STATES, SILENCE,
};
use crate::refusal::Refusal;
use crate::sheet::{read, Part};

#[derive(Clone, Copy, Debug, PartialEq, Eq)]
pub enum Service {
    Building,
    Desk,
    Certifying,
    Judging,
}

impl Service {
    /// How many kinds, from 1 up, the service needs.
    fn needed(self) -> usize {
        match self {
            Service::Building | Service::Desk => 2,
            Service::Certifying => 3,
            Service::Judging => 4,
        }
    }
}

/// A sheet that passed; a part that the service does not need is empty.
#[derive(Clone, Copy, Debug, Default)]
pub struct Checked<'a> {
    pub word: &'a [u8],
    pub sequence: &'a [u8],
    pub answers: Part<'a>,
}

/// Makes the checks and reads the machine into `machine`.
pub fn check<'a>(
    sheet: &'a [u8],
    service: Service,
    machine: &mut Machine,
) -> Result<Checked<'a>, Refusal> {
    let needed = service.needed();
    let mut parts = read(sheet, needed)?.map(Option::unwrap_or_default);
    parts[needed..].fill(Part::default());
    check_parts(&parts[..needed], machine)?;
    let [_, word, sequence, answers] = parts;
    Ok(Checked {
        word: word.payload,
        sequence: sequence.payload,
        answers,
    })
}

/// Checks 3 to 7 and 12 of the parts from kind 1 up, as many as there are, each
/// where it says that it stands; reads the machine into `machine`.
pub fn check_parts(parts: &[Part], machine: &mut Machine) -> Result<(), Refusal> {
    for (kind, &part) in (1..).zip(parts) {
        match kind {
            1 => read_machine(part, machine)?,
            2 => check_word(part, machine)?,
            3 => commands(part, LONGEST_SEQUENCE, machine.k, 7)?,
            _ => {}
        }
    }
    Ok(())
}

/// Checks 5 and 6.
fn check_word(part: Part, machine: &Machine) -> Result<(), Refusal> {
    commands(part, LONGEST_WORD, machine.k, 5)?;
    match machine.unseparated(part.payload) {
        Some((i, j)) => Err(Refusal::new(6, 16 * i + j)),
        None => Ok(()),
    }
}

/// The machine of a sheet, record 1 alone being needed: checks 1 to 4
/// and 12.
pub fn load(sheet: &[u8]) -> Result<Machine, Refusal> {
    let parts = read(sheet, 1)?;
    let mut machine = Machine::default();
    read_machine(parts[0].unwrap_or_default(), &mut machine)?;
    Ok(machine)
}

/// Checks 3, 4 and 12: every next state comes before the first answer.
fn read_machine(part: Part, machine: &mut Machine) -> Result<(), Refusal> {
    let (n, k, pairs) = shape(part.payload).ok_or(Refusal::new(3, part.start))?;
    machine.n = n;
    machine.k = k;
    machine.next.clear();
    machine.answer.clear();
    for pair in pairs.chunks_exact(2) {
        machine.next.push(pair[0]);
        machine.answer.push(pair[1]);
    }
    let outside = |&next: &u8| usize::from(next) >= n;
    if let Some(entry) = machine.next.iter().position(outside) {
        return Err(Refusal::new(4, part.offset(2 + 2 * entry)));
    }
    if let Some(entry) = machine.answer.iter().position(|&it| it == SILENCE) {
        return Err(Refusal::new(12, part.offset(2 + 2 * entry + 1)));
    }
    Ok(())
}

/// n, k and the pairs, if the payload has the shape of a machine.
fn shape(payload: &[u8]) -> Option<(usize, usize, &[u8])> {
    let (&[n, k], pairs) = payload.split_first_chunk::<2>()?;
    let (n, k) = (usize::from(n), usize::from(k));
    let fits = (1..=MOST_STATES).contains(&n)
        && (1..=MOST_COMMANDS).contains(&k)
        && pairs.len() == 2 * n * k;
    fits.then_some((n, k, pairs))
}

/// Checks 5 and 7: the length, then every command.
fn commands(part: Part, longest: usize, k: usize, number: u8) -> Result<(), Refusal> {
    if part.payload.is_empty() || part.payload.len() > longest {
        return Err(Refusal::new(number, part.start));
    }
    let within = |command: &&u8| usize::from(**command) < k;
    let highest = part
        .payload
        .iter()
        .fold(0, |high, &command| high.max(command));
    if within(&&highest) {
        return Ok(());
    }
    let first = part.payload.iter().take_while(within).count();
    Err(Refusal::new(number, part.offset(first)))
}
