// The specification's machines and sequences as sheets, for functions and program.

use super::compare::{needed_room, Comparer};
use super::difference::{Case, Difference};
use crate::building::build;
use crate::known::{house, twin, TWIN_ANSWERS, TWIN_BUILT};
use crate::machine::{Machine, SILENCE};
use crate::sheet::sheet_of;
use std::path::Path;

/// The sheets of the specification's cases (§10.3).
fn sheets() -> Vec<Vec<u8>> {
    let (built, right) = (TWIN_BUILT, TWIN_ANSWERS);
    let mut wrong = right;
    wrong[6] = 6;
    let mut sheets = vec![Vec::new()];
    let answers: [&[u8]; 4] = [&right, &wrong, &right[..4], &[0; 13]];
    for answers in answers {
        sheets.push(sheet_of(&twin(), &[0], Some(&built), Some(answers)));
    }
    let open: [&[u8]; 5] = [
        &[0, 0, 1, 0, 1, 0],
        &[0, 0, 1, 0, 1, 0, 0],
        &[0],
        &[1, 0, 0],
        &[0, 0, 0],
    ];
    for sequence in open {
        let answers = twin().answers(0, sequence);
        sheets.push(sheet_of(&twin(), &[0], Some(sequence), Some(&answers)));
    }
    sheets.push(sheet_of(&twin(), &[1], Some(&built), Some(&right)));
    for length in [16, 17] {
        sheets.push(sheet_of(
            &twin(),
            &vec![0; length],
            Some(&built),
            Some(&right),
        ));
    }
    sheets.extend(unheard());
    sheets.extend(other_machines());
    sheets.extend(silent_tables());
    sheets
}

/// The twin and the house unit with silence among the answers: at the first, a
/// middle and the last place, behind a wrong answer, in an unfinished run, and
/// at every place, as from the unit whose plug is out.
fn unheard() -> Vec<Vec<u8>> {
    let mut given: Vec<Vec<u8>> = Vec::new();
    for place in [0, 3, 11] {
        let mut answers = TWIN_ANSWERS.to_vec();
        answers[place] = SILENCE;
        given.push(answers);
    }
    given.push(vec![0, 1, 9, SILENCE]);
    given.push(vec![0, 1, SILENCE, 9]);
    given.push(vec![SILENCE; 12]);
    given.push(vec![SILENCE; 13]);
    let twin = |answers: &Vec<u8>| sheet_of(&twin(), &[0], Some(&TWIN_BUILT), Some(answers));
    let mut sheets: Vec<Vec<u8>> = given.iter().map(twin).collect();
    let built = build(&house(), &[0, 1]).expect("the house unit is connected");
    let answers = vec![SILENCE; built.len()];
    sheets.push(sheet_of(&house(), &[0, 1], Some(&built), Some(&answers)));
    sheets
}

/// The twin with silence for one answer and for two, and with a next state
/// outside behind it; one state, where the unit whose plug is out would pass.
fn silent_tables() -> Vec<Vec<u8>> {
    let (mut one, mut two, mut outside) = (twin(), twin(), twin());
    one.answer[3] = SILENCE;
    two.answer[1] = SILENCE;
    two.answer[3] = SILENCE;
    outside.answer[0] = SILENCE;
    outside.next[3] = 2;
    let machines = [one, two, outside];
    let twins = machines.iter().map(|machine| {
        let answers = machine.answers(0, &TWIN_BUILT[..1]);
        sheet_of(machine, &[0], Some(&TWIN_BUILT), Some(&answers))
    });
    let single = Machine::from_pairs(1, 1, &[(0, SILENCE)]);
    let passed = sheet_of(&single, &[0], Some(&[0; 4]), Some(&[SILENCE; 4]));
    twins.chain([passed]).collect()
}

/// Next states out of range and not connected, one state only, the house unit.
fn other_machines() -> Vec<Vec<u8>> {
    let (mut outside, mut stuck) = (twin(), twin());
    outside.next[0] = 2;
    stuck.next[2] = 1;
    let mut sheets = vec![sheet_of(&outside, &[0], None, None)];
    sheets.push(sheet_of(&stuck, &[0], None, None));
    let single = Machine::from_pairs(1, 1, &[(0, 200)]);
    for length in [1, 2, 4] {
        let (commands, answers) = (vec![0; length], vec![200; length]);
        sheets.push(sheet_of(&single, &[0], Some(&commands), Some(&answers)));
    }
    let built = build(&house(), &[0, 1]).expect("the house unit is connected");
    let answers = house().answers(0, &built);
    sheets.push(sheet_of(&house(), &[0, 1], Some(&built), Some(&answers)));
    sheets
}

impl Comparer {
    pub fn documented(&mut self, seed: u64, directory: &Path) -> Result<(), Difference> {
        for (index, sheet) in sheets().into_iter().enumerate() {
            let kind = String::from("documented");
            let case = Case {
                seed,
                index,
                kind,
                sheet,
            };
            let needed = needed_room(&case.sheet).unwrap_or(0);
            self.counts.sheets += 1;
            for room in 0..needed + 3 {
                self.both(&case, room)?;
            }
            self.model(&case)?;
            self.services(&case, directory)?;
        }
        Ok(())
    }
}
