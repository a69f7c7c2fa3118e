// Words for the program: every service, every mistake, and random words near
// to them.

use super::compare::Comparer;
use super::difference::{Case, Difference};
use super::kinds;
use super::options::Options;
use super::sheets::case;
use crate::known::{twin, TWIN_ANSWERS, TWIN_BUILT};
use crate::random::Random;
use crate::sheet::sheet_of;
use crate::words::{Word, LONGEST, NAMES};

type Line = Vec<Word>;

fn line(words: &[&[u8]]) -> Line {
    words.iter().map(|word| word.to_vec()).collect()
}

/// The same in every run.
fn fixed() -> Vec<Line> {
    let mut lines = vec![Line::new()];
    for name in NAMES.map(str::as_bytes) {
        lines.extend(numbers_of_words(name));
        lines.extend(near(name).into_iter().map(|word| vec![word]));
    }
    lines.extend(empty_and_long());
    for kind in kinds::fixed() {
        lines.push(vec![b"read".to_vec(), kind]);
    }
    lines
}

/// A first word alone and with one to five words behind it.
fn numbers_of_words(first: &[u8]) -> Vec<Line> {
    let long = vec![b'3'; LONGEST + 1];
    vec![
        line(&[first]),
        line(&[first, b""]),
        line(&[first, b"3"]),
        line(&[first, first]),
        line(&[first, &long]),
        line(&[first, b"", b""]),
        line(&[first, b"3", b""]),
        line(&[first, b"x", b"3", b"3"]),
        line(&[first, b"3", b"3", &long, b""]),
        line(&[first, b"3", b"", &long]),
        line(&[first, b"3", b"3", b"3", b"", b"3"]),
    ]
}

/// Beginnings of a name, and the name with something changed or added.
fn near(name: &[u8]) -> Vec<Word> {
    let mut words: Vec<Word> = (1..name.len()).map(|end| name[..end].to_vec()).collect();
    words.push(name[1..].to_vec());
    words.push(name.to_ascii_uppercase());
    words.push([&name[..1].to_ascii_uppercase(), &name[1..]].concat());
    for more in [
        b"s",
        b" ",
        b"\n",
        b"-",
        b"\x80",
        b"\xff",
        b"\x01",
        &name[..1],
    ] {
        words.push([name, more].concat());
        words.push([more, name].concat());
    }
    words.push([&[name[0] | 0x80], &name[1..]].concat());
    words
}

/// First words without a byte, and around the longest, alone and before others.
fn empty_and_long() -> Vec<Line> {
    let mut firsts = vec![Word::new(), b"nothing".to_vec(), b"3".to_vec()];
    for length in [LONGEST, LONGEST + 1, 5000] {
        firsts.push(vec![b'x'; length]);
        firsts.push([b"judge", vec![b' '; length - 5].as_slice()].concat());
    }
    let behind: [&[&[u8]]; 4] = [&[], &[b""], &[b"3"], &[b"judge", b"", b"3", b"\xff"]];
    let with = |rest: &&[&[u8]]| {
        let line = move |first: &Word| [vec![first.clone()], line(rest)].concat();
        firsts.iter().map(line).collect::<Vec<_>>()
    };
    behind.iter().flat_map(with).collect()
}

/// One to six random words; those that take names or a kind often with some.
fn random_line(random: &mut Random) -> Line {
    if random.once_in(3) {
        return vec![b"read".to_vec(), kinds::any(random)];
    }
    if random.once_in(8) {
        let service = *random.pick(&["desk", "answers"]);
        return vec![service.as_bytes().to_vec(), kinds::any(random)];
    }
    if random.once_in(10) {
        let names = (0..random.range(1, 5)).map(|_| kinds::any(random));
        return [vec![b"write".to_vec()], names.collect()].concat();
    }
    let words = *random.pick(&[1, 1, 1, 1, 2, 2, 3, 4, 5]);
    (0..words).map(|_| random_word(random)).collect()
}

fn random_word(random: &mut Random) -> Word {
    let name = random.pick(&NAMES).as_bytes();
    match random.below(9) {
        0..=2 => name.to_vec(),
        3 => name[..random.below(name.len() + 1)].to_vec(),
        4 => [name, &kinds::bytes(random)].concat(),
        5 => {
            let mut word = name.to_vec();
            word[random.below(name.len())] = random.range(1, 255) as u8;
            word
        }
        6 => {
            let length = LONGEST + 1 - random.below(3);
            vec![random.range(1, 255) as u8; length]
        }
        7 => kinds::any(random),
        _ => kinds::bytes(random),
    }
}

/// A sheet with all records that judging would pass, if it were read.
fn passing(seed: u64, index: usize) -> Case {
    Case {
        seed,
        index,
        kind: String::from("words"),
        sheet: sheet_of(&twin(), &[0], Some(&TWIN_BUILT), Some(&TWIN_ANSWERS)),
    }
}

impl Comparer {
    /// The fixed words.
    pub fn command_lines(&mut self, options: &Options) -> Result<(), Difference> {
        for (index, line) in fixed().iter().enumerate() {
            let case = passing(options.seed, index);
            self.program(&case, &options.directory, line)?;
        }
        Ok(())
    }

    pub fn random_lines(&mut self, options: &Options) -> Result<(), Difference> {
        (0..options.words).try_for_each(|index| self.random_line(options, index))
    }

    /// Random words, with a random sheet where one is read.
    fn random_line(&mut self, options: &Options, index: usize) -> Result<(), Difference> {
        let mut random = Random::at(options.seed, 4, index);
        let line = random_line(&mut random);
        let case = match self.reads_sheet(&line) {
            true => case(options.seed, index, &mut random),
            false => passing(options.seed, index),
        };
        self.program(&case, &options.directory, &line)
    }
}

#[cfg(test)]
mod tests {
    use super::*;
    use crate::words::{service, Mistake, Service};

    #[test]
    fn fixed_words_meet_every_service_and_mistake() {
        let lines = fixed();
        let met = |wanted| lines.iter().any(|line| service(line) == wanted);
        assert!(Mistake::ALL.into_iter().all(|mistake| met(Err(mistake))));
        assert!([0, 1, 4, 65535]
            .into_iter()
            .all(|kind| met(Ok(Service::Read(kind)))));
        for name in NAMES {
            let mut named = lines
                .iter()
                .filter(|line| line.first().is_some_and(|first| first == name.as_bytes()));
            assert!(named.any(|line| service(line).is_ok()), "{name}");
        }
    }

    #[test]
    fn no_word_holds_a_zero_byte() {
        let random = &mut Random::new(1);
        let tried = (0..5000).map(|_| random_line(random));
        let lines: Vec<Line> = fixed().into_iter().chain(tried).collect();
        assert!(lines.iter().flatten().all(|word| !word.contains(&0)));
        assert!(lines.iter().all(|line| line.len() <= 6));
    }
}
