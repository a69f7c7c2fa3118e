// Lines put together from pieces of the notation, and lines of any bytes.

use super::driver::Driver;
use crate::checking::difference::Difference;
use crate::random::Random;

const FIRST: [&str; 20] = [
    "judge ",
    "certify ",
    "build ",
    "refusal ",
    "part ",
    "transfer ",
    "desk ",
    "desk - / ",
    "word ",
    "write ",
    "write 9 - / ",
    "write 9 5 / 0 / ",
    "house ",
    "limits",
    "judges",
    "words ",
    "writes ",
    "Build ",
    "par",
    " ",
];
const FIELDS: [&str; 10] = [
    "0 ", "1 ", "3 ", "9 ", "00 ", "13 ", "255 ", "256 ", "-", "x",
];
const PIECES: [&str; 30] = [
    "0", "1", "2", "5", "25", "255", "256", "65535", " ", " ", " ", " ", "{", "{1", "{2 ", "}",
    "}", "} ", "*", "*0", "*3", ":", ":9", "-", " -", " / ", "/", "}{", "\r", "|",
];
/// Lines of each kind at a time.
const LINES: usize = 12;

pub fn near(driver: &mut Driver, random: &mut Random) -> Result<(), Difference> {
    for _ in 0..LINES {
        driver.try_line(near_line(random).as_bytes(), "near to a case")?;
    }
    for _ in 0..LINES / 4 {
        driver.try_line(&bytes(random), "any bytes")?;
    }
    Ok(())
}

/// A name, one or two fields, and pieces of a part.
fn near_line(random: &mut Random) -> String {
    let mut line = String::from(*random.pick(&FIRST));
    for _ in 0..random.range(1, 2) {
        let piece = *random.pick(&FIELDS);
        line.push_str(piece);
    }
    for _ in 0..random.below(12) {
        let piece = *random.pick(&PIECES);
        line.push_str(piece);
    }
    line
}

/// Any bytes but the newline.
pub fn bytes(random: &mut Random) -> Vec<u8> {
    let longest = *random.pick(&[1, 3, 20, 200]);
    let mut line = vec![0; random.range(1, longest)];
    random.fill(&mut line);
    line.retain(|&byte| byte != b'\n');
    line
}
