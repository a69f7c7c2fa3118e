// Lines that are no cases: comments, empty ones, answers of before.

use super::driver::Driver;
use super::near::bytes;
use crate::checking::difference::Difference;
use crate::random::Random;

const ANSWERS: [&[u8]; 5] = [b"", b" ", b" none", b" 7 cases", b" built 12 | 0*6"];
const COMMENTS: [&[u8]; 5] = [b"", b" the twin", b" limits", b"\r", b" \xc3\xa9"];

pub fn between(driver: &mut Driver, random: &mut Random) -> Result<(), Difference> {
    for _ in 0..random.range(1, 5) {
        let any = bytes(random);
        let line = match random.below(8) {
            0..=1 => Vec::new(),
            2 => [b"#", &any[..]].concat(),
            3..=4 => [b"#", *random.pick(&COMMENTS)].concat(),
            5 => [b">", &any[..]].concat(),
            _ => [b">", *random.pick(&ANSWERS)].concat(),
        };
        driver.add(&line)?;
    }
    Ok(())
}
