// The desk: dialogues of copies from every state and of other units, with as
// many answers as are needed, with fewer and with more; and refused sheets.

use super::driver::Driver;
use super::sheets;
use crate::checking::difference::Difference;
use crate::checking::visitors::{connected, promised, received, visitors};
use crate::desk::Desk;
use crate::known::{ring, LONG_WORD};
use crate::machine::SILENCE;
use crate::notation::{written, Question, MOST_BYTES};
use crate::random::Random;
use crate::sheet::{machine_payload, sheet_of};

/// Dialogues of any bytes for each sheet.
const ANY: usize = 3;

/// One machine with many units.
pub fn desks(driver: &mut Driver, random: &mut Random) -> Result<(), Difference> {
    let (machine, word) = connected(random);
    let sheet = sheets::for_building(random, &machine, &word);
    let desk = Desk::open(&sheet).map_err(|refusal| own(&format!("refused {refusal:?}")))?;
    for mut visitor in visitors(random, &machine) {
        driver.reached.meet("desk, units", visitor.kind);
        if let Some(copy) = &visitor.copy {
            let begun = copy.begun.to_string();
            driver.reached.meet("desk, copies begun in state", &begun);
        }
        let (answers, end) = received(&desk, &mut visitor);
        promised(&desk, &visitor, answers.len(), end).map_err(|text| own(&text))?;
        let answers = more_or_fewer(random, answers);
        ask(driver, random, &sheet, answers)?;
    }
    for _ in 0..ANY {
        driver.reached.meet("desk, any bytes", "asked");
        let answers = any_bytes(random, &machine.answer);
        ask(driver, random, &sheet, answers)?;
    }
    Ok(())
}

fn own(text: &str) -> Difference {
    Difference(format!("the checker's own: {text}"))
}

/// Mostly as they are.
fn more_or_fewer(random: &mut Random, mut answers: Vec<u8>) -> Vec<u8> {
    match random.below(8) {
        0..=1 => answers.truncate(random.below(answers.len())),
        2..=3 => {
            let longest = *random.pick(&[1, 3, 20, 300]);
            let mut more = vec![0; random.range(1, longest)];
            random.fill(&mut more);
            answers.extend(more);
        }
        4 => answers.extend(answers.clone()),
        _ => {}
    }
    answers
}

/// Answers that the machine has, others among them or not.
fn any_bytes(random: &mut Random, known: &[u8]) -> Vec<u8> {
    let length = random.below(30);
    let strange = random.below(4);
    let mut byte = |_| match random.below(8) < strange {
        true if random.once_in(4) => SILENCE,
        true => random.byte(),
        false => *random.pick(known),
    };
    (0..length).map(&mut byte).collect()
}

/// A sheet that the desk may refuse for any cause.
pub fn refused(driver: &mut Driver, random: &mut Random) -> Result<(), Difference> {
    let sheet = sheets::maybe_refused(random);
    let answers = any_bytes(random, &[0, 37, 74]);
    ask(driver, random, &sheet, answers)
}

fn ask(
    driver: &mut Driver,
    random: &mut Random,
    sheet: &[u8],
    answers: Vec<u8>,
) -> Result<(), Difference> {
    let sheet = sheet.to_vec();
    driver.ask(random, Question::Desk { sheet, answers })
}

/// As many answers as a case can have, to a machine of the largest size from
/// the state after which the way is longest: the word and nine commands.
pub fn longest(driver: &mut Driver) -> Result<(), Difference> {
    let machine = ring();
    let commands = [&LONG_WORD[..], &[7; 9]].concat();
    let state = (0..machine.n).find(|&state| machine.after(state, &LONG_WORD) == 1);
    let mut answers = machine.answers(state.unwrap_or_default(), &commands);
    answers.resize(
        MOST_BYTES - sheet_of(&machine, &LONG_WORD, None, None).len(),
        7,
    );
    let (table, word) = (written(&machine_payload(&machine)), written(&LONG_WORD));
    let line = format!("desk {{1 {table}}}{{2 {word}}} / {}", written(&answers));
    let text = driver.exchange(line.as_bytes())?;
    match text.ends_with(b" home after 25 home after 25\n> 1 cases\n") {
        true => driver.reached.meet("chains", "longest dialogue"),
        false => return Err(own("the longest dialogue does not end after 25 commands")),
    }
    Ok(())
}
