// The house unit's entry for every pair of bytes, and the limits.

use super::driver::Driver;
use crate::checking::difference::Difference;
use crate::checking::machines::permutation;
use crate::notation::Question;
use crate::random::Random;

pub fn tables(driver: &mut Driver, random: &mut Random) -> Result<(), Difference> {
    for pair in permutation(random, 65_536) {
        let (state, command) = ((pair >> 8) as u8, pair as u8);
        driver.ask(random, Question::House { state, command })?;
        if pair % 6000 == 0 {
            driver.ask(random, Question::Limits)?;
        }
    }
    Ok(())
}
