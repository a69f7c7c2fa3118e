// Parts with as many bytes as a case may have, and a little more or less.

use super::driver::Driver;
use crate::checking::difference::Difference;
use crate::notation::{question, MOST_BYTES};
use crate::random::Random;
use crate::sheet::HEADER;

/// What may follow where little or nothing is left.
const BEHIND: [&str; 20] = [
    "", "{1}", "{1 5}", " 5", " 5*0", " 5*1", " 5*00", " 5*7", " {1}", " {2 5*0}", " {2 7}",
    " {3 -}", " 25", " 5 5", " 1*0 7", " ", " / -", " / 5", " / 5*0", " / {1}",
];

pub fn full(driver: &mut Driver, random: &mut Random) -> Result<(), Difference> {
    let line = line(random);
    if question(line.as_bytes()).is_ok() {
        driver.reached.meet("lines", "full case");
    }
    driver.try_line(line.as_bytes(), "more than full")?;
    driver.try_line(two_parts(random).as_bytes(), "more than full")?;
    driver.try_line(several_parts(random).as_bytes(), "more than full")
}

/// Two to four parts that leave at most a few bytes, and something behind.
fn several_parts(random: &mut Random) -> String {
    let mut left = MOST_BYTES - random.below(8);
    let mut line = String::from("write 3 1 1 0 7");
    left -= 4;
    for _ in 0..random.range(1, 3) {
        let size = *random.pick(&[0, 1, left / 2, left]);
        line.push_str(&format!(" / 0*{size}"));
        left -= size;
    }
    line.push_str(&format!(" 0*{left}"));
    for _ in 0..random.range(1, 3) {
        let piece = *random.pick(&BEHIND);
        line.push_str(piece);
    }
    line
}

/// Two parts that leave at most a few bytes, and something behind.
fn two_parts(random: &mut Random) -> String {
    let all = MOST_BYTES - random.below(8);
    let first = match random.below(3) {
        0 => all,
        1 => random.below(8),
        _ => random.below(all),
    };
    let behind = [*random.pick(&BEHIND), *random.pick(&BEHIND)].concat();
    format!("desk 0*{first} / 7*{}{behind}", all - first)
}

/// Bytes and records that leave at most some ten bytes, and something behind.
fn line(random: &mut Random) -> String {
    let names = [
        "refusal 1",
        "part 2",
        "build 3",
        "transfer 0 0",
        "desk",
        "word",
    ];
    let mut line = String::from(*random.pick(&names));
    let mut left = MOST_BYTES - random.below(12);
    if random.once_in(2) {
        let payload = random.below(left - HEADER);
        line.push_str(&format!(" {{1 5*{payload}}}"));
        left -= HEADER + payload;
    }
    if random.once_in(2) {
        let times = random.below(left + 1);
        line.push_str(&format!(" 9*{times}"));
        left -= times;
    }
    line.push_str(&match left >= HEADER && random.once_in(2) {
        true => format!(" {{4 0*{}}}", left - HEADER),
        false => format!(" 0*{left}"),
    });
    for _ in 0..random.range(1, 3) {
        let piece = *random.pick(&BEHIND);
        line.push_str(piece);
    }
    line
}
