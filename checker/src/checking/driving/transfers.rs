// Transfers between any two bytes, in machines from good and refused sheets.

use super::driver::Driver;
use super::sheets;
use crate::checking::damage::damaged;
use crate::checking::difference::Difference;
use crate::checking::machines::machine_and_word;
use crate::checks::load;
use crate::machine::SILENCE;
use crate::notation::Question;
use crate::random::Random;
use crate::sheet::{machine_payload, record, HEADER};

/// All pairs of states, bytes just outside among them, and any two bytes.
pub fn transfers(driver: &mut Driver, random: &mut Random) -> Result<(), Difference> {
    let (name, sheet) = sheet(random);
    driver.reached.meet("transfer, sheets", name);
    let states = load(&sheet).map(|machine| machine.n as u8);
    let mut pairs: Vec<(u8, u8)> = (0..3).map(|_| (random.byte(), random.byte())).collect();
    if let Ok(n) = states {
        pairs.extend((0..n + 2).flat_map(|from| (0..n + 2).map(move |to| (from, to))));
        pairs.push((random.below(usize::from(n)) as u8, random.byte()));
        pairs.push((random.byte(), random.below(usize::from(n)) as u8));
    }
    for (from, to) in pairs {
        if let Ok(n) = states {
            let outside = usize::from(from >= n) + usize::from(to >= n);
            let name = ["both", "one outside", "both outside"][outside];
            driver.reached.meet("transfer, states", name);
        }
        let sheet = sheet.clone();
        driver.ask(random, Question::Transfer { from, to, sheet })?;
    }
    Ok(())
}

/// A sheet and the name of what it holds.
fn sheet(random: &mut Random) -> (&'static str, Vec<u8>) {
    let (machine, _) = machine_and_word(random);
    let mut sheet = record(1, &machine_payload(&machine));
    let entry = HEADER + 2 + 2 * random.below(machine.next.len());
    match random.below(7) {
        0 => ("record 1 alone", sheet),
        1 => {
            for kind in 2..=random.range(2, 4) as u16 {
                sheet.extend(sheets::nonsense(random, kind));
            }
            ("nonsense behind it", sheet)
        }
        2 => ("any sheet", sheets::any(random)),
        3 => {
            sheet[entry] = random.range(machine.n, 255) as u8;
            ("next state outside", sheet)
        }
        4 => {
            sheet[entry + 1] = SILENCE;
            ("answer silent", sheet)
        }
        _ => ("damaged", damaged(random, &sheet, &mut String::new())),
    }
}
