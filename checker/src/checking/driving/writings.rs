// Writing: sound payloads with every room, damaged ones, and round trips of
// payloads and of sheets.

use super::driver::Driver;
use crate::checking::difference::Difference;
use crate::checking::machines::permutation;
use crate::checking::writings::{
    any_two, damaged, neighbours, sound, wanted, Given, DAMAGES, ORDER,
};
use crate::notation::{Question, MOST_BYTES};
use crate::random::Random;
use crate::reading::payload;
use crate::sheet::{HEADER, LONGEST_SHEET};
use crate::writing::{payloads, write};

/// Up to this length every room is tried.
const SMALL: usize = 60;

/// The length of the sheet that these payloads would give.
pub fn needed(parts: &[Vec<u8>]) -> usize {
    parts.iter().map(|part| HEADER + part.len()).sum()
}

/// A short sheet: every room from 0 to more than is needed, in any order.
pub fn every_room(driver: &mut Driver, random: &mut Random) -> Result<(), Difference> {
    let parts = loop {
        let count = random.range(2, 4);
        let parts = sound(random, count);
        if needed(&parts) <= SMALL {
            break parts;
        }
    };
    driver.reached.meet("write, rooms", "every one from 0");
    let rooms = permutation(random, needed(&parts) + 4);
    ask(driver, random, &parts, &rooms)
}

/// Any sound payloads, with rooms around what is needed; they are read back.
pub fn written(driver: &mut Driver, random: &mut Random) -> Result<(), Difference> {
    let count = random.range(2, 4);
    let parts = sound(random, count);
    let needed = needed(&parts);
    let mut rooms = vec![0, needed - 1, needed, needed + 1, random.below(needed)];
    rooms.push(match random.below(12) {
        0 => MOST_BYTES - random.below(2),
        1 => LONGEST_SHEET + random.below(3),
        _ => needed + random.range(2, 60),
    });
    ask(driver, random, &parts, &rooms)?;
    read_back(driver, random, &parts)
}

/// Payloads that are refused, for one cause or two; with a room that is enough
/// and with one that is not.
pub fn refused(driver: &mut Driver, random: &mut Random) -> Result<(), Difference> {
    let given = match random.below(3) {
        0 => {
            let damage = random.pick(&DAMAGES);
            damaged(random, 2, vec![damage])
        }
        1 => {
            let place = random.below(ORDER.len() - 1);
            neighbours(random, place)
        }
        _ => any_two(random),
    };
    driver.reached.given(&given);
    let needed = needed(&given.parts);
    let enough = needed + random.below(3);
    let less = random.below(needed);
    too_little_room(driver, &given, less);
    ask(driver, random, &given.parts, &[enough, less])
}

/// Cause 9 besides cause 10: there is not even room for the records before the
/// answers.
fn too_little_room(driver: &mut Driver, given: &Given, room: usize) {
    let [damage] = given.damages[..] else {
        return;
    };
    if damage.cause == 10 && room < needed(&given.parts[..3]) {
        driver.reached.meet("write, two causes", "10 and 9");
    }
}

fn ask(
    driver: &mut Driver,
    random: &mut Random,
    parts: &[Vec<u8>],
    rooms: &[usize],
) -> Result<(), Difference> {
    rooms.iter().try_for_each(|&room| {
        let parts = parts.to_vec();
        driver.ask(random, Question::Write { room, parts })
    })
}

/// Every part of the written sheet is read as it was given.
fn read_back(
    driver: &mut Driver,
    random: &mut Random,
    parts: &[Vec<u8>],
) -> Result<(), Difference> {
    let sheet = write(parts).map_err(|refusal| own(&format!("refused {refusal:?}")))?;
    for (kind, part) in (1..).zip(parts) {
        if payload(&sheet, kind) != Ok(part) {
            return Err(own("a part is read otherwise than it was written"));
        }
        let sheet = sheet.clone();
        driver.ask(random, Question::Part { kind, sheet })?;
    }
    driver
        .reached
        .meet("write, parts read back", wanted(parts.len()));
    Ok(())
}

/// A sheet that can be written from its records is what they give.
pub fn again(driver: &mut Driver, random: &mut Random, sheet: &[u8]) -> Result<(), Difference> {
    let Some(parts) = payloads(sheet) else {
        return Ok(());
    };
    let Ok(written) = write(&parts) else {
        return Ok(());
    };
    if written != sheet {
        return Err(own("a sheet's records give another sheet"));
    }
    driver
        .reached
        .meet("write, sheets again", wanted(parts.len()));
    let parts: Vec<Vec<u8>> = parts.into_iter().map(Vec::from).collect();
    let room = sheet.len() + random.below(3);
    driver.ask(random, Question::Write { room, parts })
}

fn own(text: &str) -> Difference {
    Difference(format!("the checker's own: {text}"))
}
