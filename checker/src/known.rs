// The machines that the specification gives (§10), the twin and the house unit, and two of
// the largest size.

use crate::machine::Machine;
use crate::sheet::sheet_of;

/// The twin's built sequence and the answers to it; its word is 0.
pub const TWIN_BUILT: [u8; 12] = [0, 0, 0, 0, 0, 0, 1, 0, 0, 0, 1, 0];
pub const TWIN_ANSWERS: [u8; 12] = [0, 1, 0, 1, 0, 1, 5, 0, 1, 0, 5, 1];

pub fn twin() -> Machine {
    Machine::from_pairs(2, 2, &[(1, 0), (0, 5), (0, 1), (1, 5)])
}

/// The house control unit; its word is 0 1.
pub fn house() -> Machine {
    let pairs = [
        [(0, 31), (1, 6), (2, 6), (0, 21)],
        [(1, 2), (0, 6), (3, 6), (1, 21)],
        [(2, 31), (2, 21), (2, 21), (0, 6)],
        [(3, 2), (3, 21), (3, 21), (1, 6)],
    ];
    Machine::from_pairs(4, 4, &pairs.concat())
}

/// The house unit's entry, next state and answer; a pair of its own where the
/// state or the command is above 3.
pub fn house_entry(state: u8, command: u8) -> (u8, u8) {
    if state.max(command) > 3 {
        return (255, 0);
    }
    let (house, state) = (house(), usize::from(state));
    (
        house.step(state, command) as u8,
        house.answer(state, command),
    )
}

/// What `bench house` writes: records 1 and 2.
pub fn house_sheet() -> Vec<u8> {
    sheet_of(&house(), &[0, 1], None, None)
}

/// The word of the two machines of the largest size.
pub const LONG_WORD: [u8; 16] = [0, 1, 2, 3, 4, 5, 6, 7, 0, 1, 2, 3, 4, 5, 6, 7];

/// Command 7 leads to the next state, the others stay: what is built is as long
/// as it can be.
pub fn ring() -> Machine {
    largest(|entry| (entry + 1) / 8)
}

/// Command c leads from s to about 2s, so that the transfers differ.
pub fn doubling() -> Machine {
    largest(|entry| (2 * entry + 1) / 8)
}

/// 10 states, 8 commands, answers 0 to 8 in turn.
fn largest(next: impl Fn(usize) -> usize) -> Machine {
    let pair = |entry: usize| ((next(entry) % 10) as u8, (entry % 9) as u8);
    let pairs: Vec<(u8, u8)> = (0..80).map(pair).collect();
    Machine::from_pairs(10, 8, &pairs)
}
