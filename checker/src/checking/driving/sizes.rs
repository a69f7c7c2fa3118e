// Inputs as long as the program takes, longer ones, and the empty one.

use super::driver::Driver;
use super::spelling::spelled;
use super::unreadable::short;
use crate::checking::difference::Difference;
use crate::notation::MOST_INPUT;
use crate::random::Random;

/// Long lines: what stands before, the byte that fills them, what stands behind.
const FILLINGS: [(&[u8], u8, &[u8]); 15] = [
    (b"#", b'x', b""),
    (b"# ", b' ', b"\n"),
    (b"house 3 ", b'0', b"3"),
    (b"house ", b'0', b" 3\n"),
    (b"refusal 1 {1 ", b'0', b"}{2}\n"),
    (b"build 5 ", b'0', b"6"),
    (b"desk ", b'0', b"5 / -\n"),
    (b"desk {1 1 1 0 7}{2 0} / ", b'0', b"7 7"),
    (b"word {1 1 1 0 7} {", b'0', b"2 5}"),
    (b"word ", b'0', b"5\n"),
    (b"write ", b'0', b"19 1 1 0 7 / 0\n"),
    (b"write 30 1 1 0 7 / 0 / 0 / ", b'0', b"7"),
    (b"> ", b'>', b"\nlimits"),
    (b"", b'\n', b"limits"),
    (b"x", b'y', b"z"),
];

pub fn sizes(driver: &mut Driver, random: &mut Random) -> Result<(), Difference> {
    driver.exchange(b"")?;
    let mut input = filled(random, MOST_INPUT);
    driver.exchange(&input)?;
    input.push(*random.pick(b"\n\n #0"));
    driver.exchange(&input)?;
    let longer = MOST_INPUT + random.range(2, 2 * MOST_INPUT);
    input.resize(longer, b'\n');
    driver.exchange(&input).map(drop)
}

/// Some cases and one long line, of this length together.
fn filled(random: &mut Random, length: usize) -> Vec<u8> {
    let mut input = Vec::new();
    for _ in 0..random.below(40) {
        let case = short(random);
        input.extend(spelled(random, &case));
        input.push(b'\n');
    }
    let (before, byte, behind) = *random.pick(&FILLINGS);
    input.extend(before);
    input.resize(length - behind.len(), byte);
    input.extend(behind);
    input
}
