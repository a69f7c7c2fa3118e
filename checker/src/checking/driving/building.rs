// Building with every room, and sheets that building refuses; each is written again
// where it can be.

use super::driver::Driver;
use super::sheets;
use super::writings::again;
use crate::building::build_into;
use crate::checking::damage::{bytes_damaged, damaged};
use crate::checking::difference::Difference;
use crate::checking::machines::{any_answer, permutation, separated};
use crate::known::{ring, LONG_WORD};
use crate::machine::{Machine, LONGEST_SEQUENCE, MOST_COMMANDS, MOST_STATES};
use crate::notation::{Question, MOST_BYTES};
use crate::random::Random;

/// Up to this length every room is tried.
const SMALL: usize = 400;

/// The length that is built where nothing but the room is lacking.
fn needed(sheet: &[u8]) -> Option<usize> {
    let refusal = build_into(sheet, &mut []).err()?;
    (refusal.number == 9).then_some(refusal.place)
}

/// A small machine: every room from 0 to more than is needed, in any order.
pub fn every_room(driver: &mut Driver, random: &mut Random) -> Result<(), Difference> {
    let (sheet, needed) = loop {
        let (machine, word) = sheets::small(random);
        let sheet = sheets::for_building(random, &machine, &word);
        if let Some(needed) = needed(&sheet).filter(|&needed| needed <= SMALL) {
            break (sheet, needed);
        }
    };
    driver
        .reached
        .meet("rooms for building", "every one from 0");
    let rooms = permutation(random, needed + 4);
    build(driver, random, &sheet, &rooms)
}

/// A larger machine, now and then one with the longest sequence.
pub fn long_rooms(driver: &mut Driver, random: &mut Random) -> Result<(), Difference> {
    let longest = random.once_in(6);
    let (machine, word) = match longest {
        true => (ring_with_answers(random), LONG_WORD.to_vec()),
        false => large(random),
    };
    let sheet = sheets::for_building(random, &machine, &word);
    let Some(needed) = needed(&sheet) else {
        return refused_rooms(driver, random, &sheet);
    };
    let name = match needed {
        LONGEST_SEQUENCE => "around the longest",
        _ => "around the needed",
    };
    driver.reached.meet("rooms for building", name);
    let rooms = around(random, needed);
    build(driver, random, &sheet, &rooms)
}

fn large(random: &mut Random) -> (Machine, Vec<u8>) {
    let (n, k) = (random.range(4, MOST_STATES), random.range(2, MOST_COMMANDS));
    separated(random, n, k)
}

/// The ring with random answers, which its built length does not depend on.
fn ring_with_answers(random: &mut Random) -> Machine {
    let mut machine = ring();
    loop {
        machine.answer.fill_with(|| any_answer(random));
        if machine.unseparated(&LONG_WORD).is_none() {
            return machine;
        }
    }
}

/// No room, rooms just below and above what is needed, and others.
fn around(random: &mut Random, needed: usize) -> Vec<usize> {
    let mut rooms = vec![0, needed - 1, needed, needed + 1];
    rooms.push(random.below(needed));
    rooms.push(needed + random.range(2, 60));
    rooms.push(match random.below(8) {
        0 => MOST_BYTES - random.below(2),
        1 => random.below(MOST_BYTES),
        _ => LONGEST_SEQUENCE + random.below(3),
    });
    rooms
}

/// A sheet that building may refuse for any cause.
pub fn refused(driver: &mut Driver, random: &mut Random) -> Result<(), Difference> {
    let sound = sheets::building(random);
    let names = &mut String::new();
    let sheet = match random.below(5) {
        0 => sound,
        1 => bytes_damaged(random, &sound, names),
        _ => damaged(random, &sound, names),
    };
    refused_rooms(driver, random, &sheet)
}

/// Few rooms, now and then all short ones.
fn refused_rooms(driver: &mut Driver, random: &mut Random, sheet: &[u8]) -> Result<(), Difference> {
    let any = random.below(50);
    let wide = LONGEST_SEQUENCE + random.below(300);
    let rooms = match needed(sheet) {
        Some(needed) => vec![needed - 1, needed, needed + any],
        None if random.once_in(8) => {
            let name = "every one for a refused sheet";
            driver.reached.meet("rooms for building", name);
            permutation(random, any + 1)
        }
        None => vec![0, any, wide],
    };
    build(driver, random, sheet, &rooms)
}

fn build(
    driver: &mut Driver,
    random: &mut Random,
    sheet: &[u8],
    rooms: &[usize],
) -> Result<(), Difference> {
    rooms.iter().try_for_each(|&room| {
        let sheet = sheet.to_vec();
        driver.ask(random, Question::Build { room, sheet })
    })?;
    again(driver, random, sheet)
}
