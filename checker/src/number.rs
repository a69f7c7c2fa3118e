// The rig's 64-bit number: class * 2^40 + place * 2^16 + a * 256 + b.

use crate::certifying::Certificate;
use crate::judging::Verdict;
use crate::refusal::Refusal;

pub const PASS: u64 = 100;
pub const WRONG: u64 = 101;
pub const UNFINISHED: u64 = 102;
pub const UNHEARD: u64 = 103;
pub const CERTIFIED: u64 = 110;
pub const OPEN: u64 = 111;

fn pack(class: u64, place: usize, a: u8, b: usize) -> u64 {
    (class << 40) + ((place as u64) << 16) + (u64::from(a) << 8) + b as u64
}

/// The class of a number.
pub fn class(number: u64) -> u64 {
    number >> 40
}

/// The place of a number.
pub fn place(number: u64) -> usize {
    (number >> 16 & 0xff_ffff) as usize
}

/// Whether the call wrote the marks: results do, and of the refusals 11 alone.
pub fn marked(number: u64) -> bool {
    class(number) == 11 || class(number) >= PASS
}

fn of_refusal(refusal: Refusal) -> u64 {
    pack(u64::from(refusal.number), refusal.place, 0, 0)
}

pub fn of_certifying(outcome: Result<Certificate, Refusal>) -> u64 {
    match outcome {
        Err(refusal) => of_refusal(refusal),
        Ok(certificate) => match certificate.open {
            None => pack(CERTIFIED, certificate.recognised, 0, 0),
            Some(open) => pack(OPEN, certificate.recognised, 0, open),
        },
    }
}

pub fn of_judging(outcome: Result<Verdict, Refusal>) -> u64 {
    match outcome {
        Err(refusal) => of_refusal(refusal),
        Ok(Verdict::Pass { length, end }) => pack(PASS, length, 0, end),
        Ok(Verdict::Wrong { place, want, got }) => pack(WRONG, place, want, usize::from(got)),
        Ok(Verdict::Unheard { place }) => pack(UNHEARD, place, 0, 0),
        Ok(Verdict::Unfinished { answers }) => pack(UNFINISHED, answers, 0, 0),
    }
}
