// Certifying and judging with any room for the marks; the sheet is written again
// where it can be.

use super::driver::Driver;
use super::sheets;
use super::writings::again;
use crate::checking::compare::needed_room;
use crate::checking::difference::Difference;
use crate::notation::Question;
use crate::random::Random;

pub fn marks(driver: &mut Driver, random: &mut Random) -> Result<(), Difference> {
    let sheet = sheets::any(random);
    let needed = needed_room(&sheet).unwrap_or_else(|| random.below(40));
    let more = needed + random.below(40);
    let other = match random.below(4) {
        0 => 0,
        1 => needed - needed.min(1),
        2 => needed,
        _ => random.below(2 * needed + 1),
    };
    for room in [more, other] {
        let sheet = sheet.clone();
        driver.ask(
            random,
            Question::Certify {
                room,
                sheet: sheet.clone(),
            },
        )?;
        driver.ask(random, Question::Judge { room, sheet })?;
    }
    again(driver, random, &sheet)
}
