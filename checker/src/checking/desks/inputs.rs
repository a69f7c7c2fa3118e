// Inputs for a dialogue: the lines of a unit's answers, among them lines that
// are no answer, too long ones, and ends at any place.

use super::Desks;
use crate::dialogue::LONGEST_LINE;
use crate::random::Random;

/// Lines near to an answer.
const NEAR: [&[u8]; 24] = [
    b"", b"x", b"256", b"257", b"300", b"999", b"0000", b"0001", b"0255", b"1000", b" 1", b"1 ",
    b"+1", b"-1", b"-0", b"1\r", b"\r", b"1.", b"0x1", b"1 2", b"1,2", b"\0", b"/", b"1:",
];

/// A line with this answer, zeros before it now and then.
pub fn answer_line(random: &mut Random, answer: u8) -> Vec<u8> {
    let text = match random.below(6) {
        0 => format!("{answer:02}"),
        1 => format!("{answer:03}"),
        _ => answer.to_string(),
    };
    text.into_bytes()
}

/// A line that is no answer, without a newline.
pub fn bad_line(random: &mut Random) -> Vec<u8> {
    match random.below(6) {
        0 => {
            let length = *random.pick(&[4, 30, LONGEST_LINE - 1, LONGEST_LINE]);
            vec![*random.pick(b"01x "); length]
        }
        1 => {
            let mut line = vec![0; random.range(4, LONGEST_LINE)];
            random.fill(&mut line);
            line.retain(|&byte| byte != b'\n');
            line.push(b'.');
            line.truncate(LONGEST_LINE);
            line
        }
        _ => random.pick(&NEAR).to_vec(),
    }
}

/// A line that stops the dialogue.
pub fn long_line(random: &mut Random) -> Vec<u8> {
    let more = match random.below(3) {
        0..=1 => 1,
        _ => random.range(2, 3000),
    };
    vec![*random.pick(b"01x "); LONGEST_LINE + more]
}

/// How many lines are to be no answer; most often few.
pub fn how_many_bad(random: &mut Random) -> usize {
    match random.below(12) {
        0..=4 => 0,
        5..=6 => 1,
        7..=8 => random.range(2, 97),
        9 => 99,
        10 => random.range(97, 101),
        _ => random.range(100, 250),
    }
}

impl Desks<'_> {
    /// An input made from these answers.
    pub fn input(&mut self, random: &mut Random, answers: &[u8]) -> Vec<u8> {
        let mut lines: Vec<Vec<u8>> = Vec::new();
        lines.extend(answers.iter().map(|&answer| answer_line(random, answer)));
        for _ in 0..how_many_bad(random) {
            let line = bad_line(random);
            lines.insert(random.below(lines.len().max(1)), line);
        }
        if random.once_in(6) {
            let line = long_line(random);
            lines.insert(random.below(lines.len() + 1), line);
        }
        if random.once_in(5) {
            self.tally.meet("inputs, made with", "more behind the end");
            let count = random.range(1, 5);
            lines.extend((0..count).map(|_| vec![b'0' + random.below(10) as u8]));
        }
        lines.iter().for_each(|line| self.length(line.len()));
        let mut input = lines
            .iter()
            .flat_map(|line| [line, &b"\n"[..]].concat())
            .collect();
        self.cut(random, &mut input);
        input
    }

    fn length(&mut self, length: usize) {
        match length {
            79..=81 => {
                let name = format!("{length} bytes in a line");
                self.tally.meet("inputs, made with", &name);
            }
            82.. => self.tally.meet("inputs, made with", "longer lines"),
            _ => {}
        }
    }

    /// The end is another, now and then.
    fn cut(&mut self, random: &mut Random, input: &mut Vec<u8>) {
        match random.below(6) {
            0 => {
                input.pop();
                self.tally.meet("inputs, made with", "no last newline");
            }
            1 => {
                input.truncate(random.below(input.len() + 1));
                self.tally.meet("inputs, made with", "a cut");
            }
            _ => {}
        }
    }
}

#[cfg(test)]
mod tests {
    use super::*;
    use crate::dialogue::answer;

    #[test]
    fn lines() {
        let random = &mut Random::new(1);
        for _ in 0..2000 {
            let byte = random.byte();
            assert_eq!(answer(&answer_line(random, byte)), Some(byte));
            let bad = bad_line(random);
            assert!(answer(&bad).is_none() && bad.len() <= LONGEST_LINE && !bad.contains(&b'\n'));
            assert!(long_line(random).len() > LONGEST_LINE);
        }
    }
}
