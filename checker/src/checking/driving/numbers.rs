// Numbers at their limits, above them, and such that lost bits would bring them
// below.

use super::driver::Driver;
use super::spelling::number;
use crate::checking::difference::Difference;
use crate::checking::kinds::wrapping;
use crate::notation::MOST_BYTES;
use crate::random::Random;
use crate::sheet::HEADER;

/// What stands before a number, its limit, and what stands behind.
const PLACES: [(&str, usize, &str); 33] = [
    ("judge ", MOST_BYTES, " -"),
    ("certify ", MOST_BYTES, " {1}"),
    ("build ", MOST_BYTES, " {4 }"),
    ("build ", MOST_BYTES, " {1 2 256}"),
    ("refusal ", 65_535, " -"),
    ("refusal ", 65_535, " {1}{4}"),
    ("part ", 65_535, " {1 5}{3 7*3}"),
    ("transfer ", 255, " 0 {1 1 1 0 7}"),
    ("transfer 0 ", 255, " {1 1 1 0 7}"),
    ("desk ", 255, " / 7"),
    ("desk {1 1 1 0 7}{2 0} / ", 255, " 7*2"),
    ("desk 5*", MOST_BYTES, " / -"),
    ("desk - / 5*", MOST_BYTES, ""),
    ("desk 5*300 / 7*", MOST_BYTES - 300, ""),
    ("word ", 255, " 7"),
    ("word {1 1 1 0 ", 255, "}{2 5}"),
    ("word {1 1 1 0 7} 5*", MOST_BYTES - 10, ""),
    ("write ", MOST_BYTES, " 1 1 0 7 / 0"),
    ("write 30 ", 255, " 1 0 7 / 0"),
    ("write 30 1 1 0 7 / 0 / ", 255, ""),
    ("write 30 1 1 0 7 / 0*", MOST_BYTES - 4, " / -"),
    ("write 30 1 1 0 7 / 0 / 0*", MOST_BYTES - 5, ""),
    ("write 30 1 1 0 7 / 0 / 0 / 7*", MOST_BYTES - 6, ""),
    ("write 30 7*", MOST_BYTES, " / - / - / -"),
    ("house ", 255, " 0"),
    ("house 3 ", 255, ""),
    ("refusal 1 ", 255, ""),
    ("refusal 2 5 ", 255, "*3 6"),
    ("refusal 1 5*", MOST_BYTES, ""),
    ("part 2 {", 65_535, "}"),
    ("part 3 {3:", u32::MAX as usize, " 1 2}"),
    ("part 1 {1 ", 255, "}{3 5}"),
    ("part 1 {1 7*", MOST_BYTES - HEADER, "}"),
];
/// Lines at a time.
const LINES: usize = 5;

pub fn numbers(driver: &mut Driver, random: &mut Random) -> Result<(), Difference> {
    for _ in 0..LINES {
        let (before, most, behind) = *random.pick(&PLACES);
        let value = value(random, most);
        let line = format!("{before}{value}{behind}");
        driver.try_line(line.as_bytes(), "number above a limit")?;
    }
    Ok(())
}

fn value(random: &mut Random, most: usize) -> String {
    let little = random.below(12);
    match random.below(7) {
        0 => number(random, most),
        1 => number(random, most - little),
        2..=3 => number(random, most + 1 + little),
        4 => format!("{most}{}", random.below(10)),
        5 => wrapping(random).to_string(),
        _ => (random.bits() >> random.below(64)).to_string(),
    }
}
