// Words in KIND's place: numbers around every limit, very long ones, and words
// that are no number.

use crate::random::Random;
use crate::words::{Word, LONGEST};

/// Numbers that would be 3 or 65535 in 8, 16, 32, 64 or 128 bits, and others.
const NUMBERS: &str = "\
    0 1 2 3 4 5 6 7 9 10 255 256 259 9999 10000 32767 32768 59999 65529 \
    65534 65535 65536 65537 65539 65540 99999 131071 655350 4294967299 \
    18446744073709551619 340282366920938463463374607431768211459";

/// Bytes near to a number.
const NO_NUMBERS: [&[u8]; 24] = [
    b"+3",
    b"-3",
    b"-0",
    b" 3",
    b"3 ",
    b"3\n",
    b"\n3",
    b"3\r",
    b"\t3",
    b"3,0",
    b"3.0",
    b"1e0",
    b"0x3",
    b"1_0",
    b"3x",
    b"/",
    b":",
    b"2/",
    b":2",
    b"\xb3",
    b"\xd9\xa3",
    b"\xef\xbc\x93",
    b"KIND",
    b"65535a",
];

/// A KIND for a sheet: mostly one that it may have, now and then with zeros
/// before it.
pub fn for_sheet(random: &mut Random) -> Word {
    let kind = match random.below(8) {
        0 => *random.pick(&[0, 5, 7, 65535]),
        _ => random.range(1, 4),
    };
    let zeros = match random.below(6) {
        0 => random.range(1, 30),
        _ => 0,
    };
    zeros_before(zeros, &kind.to_string())
}

fn zeros_before(zeros: usize, number: &str) -> Word {
    [vec![b'0'; zeros], number.as_bytes().to_vec()].concat()
}

/// Zeros, then the number, of this length altogether.
fn filled(length: usize, number: &str) -> Word {
    zeros_before(length - number.len(), number)
}

/// The same in every run.
pub fn fixed() -> Vec<Word> {
    let mut kinds = vec![Word::new()];
    kinds.extend(NUMBERS.split(' ').map(|number| number.as_bytes().to_vec()));
    kinds.extend(["0", "3", "65535", "65536"].map(|number| zeros_before(3, number)));
    kinds.extend(NO_NUMBERS.map(<[u8]>::to_vec));
    kinds.push(zeros_before(4000, "3"));
    for length in [LONGEST - 1, LONGEST, LONGEST + 1, 5000] {
        kinds.extend(["0", "3", "65535", "65536", "x"].map(|number| filled(length, number)));
        kinds.push(vec![b'9'; length]);
        kinds.push([b"3", vec![b'0'; length - 1].as_slice()].concat());
    }
    kinds
}

/// A random one.
pub fn any(random: &mut Random) -> Word {
    match random.below(8) {
        0 => for_sheet(random),
        1 => random.range(65_525, 65_546).to_string().into_bytes(),
        2 => wrapping(random).to_string().into_bytes(),
        3 => (random.bits() >> random.below(64)).to_string().into_bytes(),
        4 => digits(random),
        5 => {
            let number = *random.pick(&["3", "4", "65535", "65536"]);
            let length = *random.pick(&[LONGEST - 1, LONGEST, LONGEST + 1, 300, 40]);
            filled(length, number)
        }
        6 => damaged(random),
        _ => bytes(random),
    }
}

/// A number that is low once the bits above 16, 32 or 64 are left out.
pub fn wrapping(random: &mut Random) -> u128 {
    let bits = *random.pick(&[16, 32, 64]);
    let times = random.range(1, 70_000) as u128;
    (times << bits) + random.below(6) as u128
}

fn digits(random: &mut Random) -> Word {
    let longest = *random.pick(&[5, 6, 25, 400, LONGEST + 1]);
    let length = random.range(1, longest);
    (0..length).map(|_| b'0' + random.below(10) as u8).collect()
}

/// A number with one byte changed or put in.
fn damaged(random: &mut Random) -> Word {
    let mut word = for_sheet(random);
    let place = random.below(word.len());
    let byte = random.range(1, 255) as u8;
    match random.below(2) {
        0 => word[place] = byte,
        _ => word.insert(place, byte),
    }
    word
}

/// Bytes of any value but 0, which no word can hold.
pub fn bytes(random: &mut Random) -> Word {
    let longest = *random.pick(&[1, 2, 8, 8, 40]);
    let length = random.range(1, longest);
    let (low, high) = *random.pick(&[(1, 255), (1, 255), (128, 255), (9, 13), (32, 126)]);
    (0..length).map(|_| random.range(low, high) as u8).collect()
}
