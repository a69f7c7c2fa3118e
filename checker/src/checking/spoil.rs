// Spoils what the bench answered, on purpose, before it is compared: shows
// that the checker can fail. Not used in a real run.

use super::desks::DeskSpoil;
use super::driving::CasesSpoil;
use super::process::{Printed, LIMIT};
use super::searches::WordSpoil;
use super::writings::WriteSpoil;
use crate::lines::mistaken;
use crate::number::{class, marked, CERTIFIED, OPEN, PASS, UNFINISHED, UNHEARD, WRONG};
use crate::words::{Mistake, Service, Word};
use std::time::Duration;

#[derive(Clone, Copy, Debug, PartialEq, Eq)]
pub enum Spoil {
    PlaceOffByOne,
    LowFieldChanged,
    CertifiedForOpen,
    UnfinishedForPass,
    WrongForUnheard,
    UnheardForWrong,
    UnheardWithAnswer,
    UnheardMark,
    SilenceCause,
    MarksOnSilence,
    MarkFlipped,
    MarkOfTwo,
    ByteBehindMarks,
    MarksOnRefusal,
    GuardBefore,
    GuardBehind,
    SheetChanged,
    WrongUnitPasses,
    RightUnitFails,
    UnheardUnitPasses,
    UnheardUnitWrong,
    WrongUnitUnheard,
    LineCut,
    LineOnError,
    LineWrongForUnheard,
    LineUnheardForWrong,
    LineSilencePhrase,
    BuiltByte,
    BuiltCut,
    BuildRefusalOnOutput,
    BuildSilenceCause,
    ReadByte,
    ReadCut,
    ReadMore,
    ReadRefusalOnOutput,
    ReadRefusalLost,
    HouseByte,
    HelpCut,
    MistakeOnOutput,
    MistakeChanged,
    MistakeTwice,
    MistakeJudged,
    MistakeStatus,
    InputRead,
    InputAwaited,
    ChainOpen,
    ErrorNoise,
    Status,
    Desk(DeskSpoil),
    Word(WordSpoil),
    Write(WriteSpoil),
    Cases(CasesSpoil),
}

/// After this time a run that awaits its input is ended.
const SOON: Duration = Duration::from_secs(2);

/// The names on the command line.
const NAMES: [(&str, Spoil); 48] = [
    ("place-off-by-one", Spoil::PlaceOffByOne),
    ("low-field-changed", Spoil::LowFieldChanged),
    ("certified-for-open", Spoil::CertifiedForOpen),
    ("unfinished-for-pass", Spoil::UnfinishedForPass),
    ("wrong-for-unheard", Spoil::WrongForUnheard),
    ("unheard-for-wrong", Spoil::UnheardForWrong),
    ("unheard-with-answer", Spoil::UnheardWithAnswer),
    ("unheard-mark", Spoil::UnheardMark),
    ("silence-cause", Spoil::SilenceCause),
    ("marks-on-silence", Spoil::MarksOnSilence),
    ("mark-flipped", Spoil::MarkFlipped),
    ("mark-of-two", Spoil::MarkOfTwo),
    ("byte-behind-marks", Spoil::ByteBehindMarks),
    ("marks-on-refusal", Spoil::MarksOnRefusal),
    ("guard-before", Spoil::GuardBefore),
    ("guard-behind", Spoil::GuardBehind),
    ("sheet-changed", Spoil::SheetChanged),
    ("wrong-unit-passes", Spoil::WrongUnitPasses),
    ("right-unit-fails", Spoil::RightUnitFails),
    ("unheard-unit-passes", Spoil::UnheardUnitPasses),
    ("unheard-unit-wrong", Spoil::UnheardUnitWrong),
    ("wrong-unit-unheard", Spoil::WrongUnitUnheard),
    ("line-cut", Spoil::LineCut),
    ("line-on-error", Spoil::LineOnError),
    ("line-wrong-for-unheard", Spoil::LineWrongForUnheard),
    ("line-unheard-for-wrong", Spoil::LineUnheardForWrong),
    ("line-silence-phrase", Spoil::LineSilencePhrase),
    ("built-byte", Spoil::BuiltByte),
    ("built-cut", Spoil::BuiltCut),
    ("build-refusal-on-output", Spoil::BuildRefusalOnOutput),
    ("build-silence-cause", Spoil::BuildSilenceCause),
    ("read-byte", Spoil::ReadByte),
    ("read-cut", Spoil::ReadCut),
    ("read-more", Spoil::ReadMore),
    ("read-refusal-on-output", Spoil::ReadRefusalOnOutput),
    ("read-refusal-lost", Spoil::ReadRefusalLost),
    ("house-byte", Spoil::HouseByte),
    ("help-cut", Spoil::HelpCut),
    ("mistake-on-output", Spoil::MistakeOnOutput),
    ("mistake-changed", Spoil::MistakeChanged),
    ("mistake-twice", Spoil::MistakeTwice),
    ("mistake-judged", Spoil::MistakeJudged),
    ("mistake-status", Spoil::MistakeStatus),
    ("input-read", Spoil::InputRead),
    ("input-awaited", Spoil::InputAwaited),
    ("chain-open", Spoil::ChainOpen),
    ("error-noise", Spoil::ErrorNoise),
    ("status", Spoil::Status),
];

/// What a C function left: its number and both lent areas, guards included.
pub struct Seen<'a> {
    pub number: &'a mut u64,
    /// N+1, where the sheet has a sequence.
    pub needed: Option<usize>,
    pub marks: &'a mut [u8],
    pub sheet: &'a mut [u8],
    pub guard: usize,
}

impl Spoil {
    pub fn named(name: &str) -> Option<Spoil> {
        let found = NAMES.iter().find(|(known, _)| *known == name);
        let found = found.map(|(_, spoil)| *spoil);
        found
            .or_else(|| DeskSpoil::named(name).map(Spoil::Desk))
            .or_else(|| WordSpoil::named(name).map(Spoil::Word))
            .or_else(|| WriteSpoil::named(name).map(Spoil::Write))
            .or_else(|| CasesSpoil::named(name).map(Spoil::Cases))
    }

    /// A line for each: its name, and `fixed` behind it where only the cases
    /// that are the same in every run can show it.
    pub fn list() -> impl Iterator<Item = String> {
        let own = NAMES.iter().map(|(name, spoil)| match spoil {
            Spoil::ChainOpen => format!("{name} fixed"),
            _ => String::from(*name),
        });
        own.chain(DeskSpoil::names())
            .chain(WordSpoil::names())
            .chain(WriteSpoil::names())
            .chain(CasesSpoil::names())
    }

    /// Spoils what a C function left.
    pub fn rig(self, seen: Seen) {
        let room = seen.marks.len() - 2 * seen.guard;
        let found = class(*seen.number);
        let marked = marked(*seen.number);
        let first = seen.guard;
        let last = seen.needed.map_or(first, |needed| first + needed - 1);
        match self {
            Spoil::PlaceOffByOne => *seen.number += 1 << 16,
            Spoil::LowFieldChanged if found == WRONG => *seen.number ^= 1,
            Spoil::CertifiedForOpen if found == OPEN => {
                *seen.number -= (OPEN - CERTIFIED) << 40;
                *seen.number &= !0xff;
            }
            Spoil::UnfinishedForPass if found == PASS => {
                *seen.number += (UNFINISHED - PASS) << 40;
                *seen.number &= !0xff;
            }
            Spoil::WrongForUnheard if found == UNHEARD => {
                *seen.number -= (UNHEARD - WRONG) << 40;
                *seen.number |= 0xff;
            }
            Spoil::UnheardForWrong if found == WRONG => {
                *seen.number += (UNHEARD - WRONG) << 40;
                *seen.number &= !0xffff;
            }
            Spoil::UnheardWithAnswer if found == UNHEARD => *seen.number |= 0xff,
            Spoil::UnheardMark if found == UNHEARD => seen.marks[last] ^= 1,
            Spoil::SilenceCause if found == 12 => *seen.number -= (12 - 4) << 40,
            Spoil::MarksOnSilence if found == 12 && room > 0 => seen.marks[first] ^= 1,
            Spoil::MarkFlipped if marked => seen.marks[last] ^= 1,
            Spoil::MarkOfTwo if marked => seen.marks[last] |= 2,
            Spoil::ByteBehindMarks if marked && last + 1 < first + room => {
                seen.marks[last + 1] ^= 1;
            }
            Spoil::MarksOnRefusal if !marked && room > 0 => seen.marks[first] ^= 1,
            Spoil::GuardBefore => seen.marks[first - 1] ^= 1,
            Spoil::GuardBehind => seen.marks[first + room] ^= 1,
            Spoil::SheetChanged if seen.sheet.len() > 2 * first => seen.sheet[first] ^= 1,
            _ => {}
        }
    }

    /// Spoils a number that the model agreed with: only the isomorphism test
    /// of the units can notice.
    pub fn unit(self, number: &mut u64) {
        match self {
            Spoil::WrongUnitPasses if class(*number) == WRONG => *number = PASS << 40,
            Spoil::RightUnitFails if class(*number) == PASS => *number = WRONG << 40,
            Spoil::UnheardUnitPasses if class(*number) == UNHEARD => *number = PASS << 40,
            Spoil::UnheardUnitWrong if class(*number) == UNHEARD => *number = WRONG << 40,
            Spoil::WrongUnitUnheard if class(*number) == WRONG => *number = UNHEARD << 40,
            _ => {}
        }
    }

    /// Spoils what the program printed, for a sheet if it takes one.
    pub fn program(self, asked: Result<Service, Mistake>, sheet: &[u8], seen: &mut Printed) {
        match asked {
            Ok(Service::Judge | Service::Certify) => self.line(seen),
            Ok(Service::Word) => self.word(sheet, seen),
            Ok(Service::Build) => self.build(seen),
            Ok(Service::Read(_)) => self.read(seen),
            Ok(service @ (Service::Write | Service::Answers)) => self.write(service, sheet, seen),
            Ok(Service::House) if self == Spoil::HouseByte => change_last(&mut seen.output),
            Ok(Service::Help) if self == Spoil::HelpCut => drop(seen.output.pop()),
            Ok(_) => {}
            Err(mistake) => self.mistake(mistake, seen),
        }
        match (self, &mut seen.left) {
            (Spoil::InputRead, Some(left)) => *left -= 1,
            (Spoil::Status, _) => seen.status = Some(1),
            _ => {}
        }
    }

    /// Judging and certifying: one line on standard output.
    fn line(self, seen: &mut Printed) {
        match self {
            Spoil::LineCut => drop(seen.output.pop()),
            Spoil::LineOnError if seen.output.starts_with(b"REFUSED") => {
                seen.error.append(&mut seen.output);
            }
            Spoil::LineWrongForUnheard => other_line(&mut seen.output, "UNHEARD at ", |place| {
                format!("WRONG at {place} want 0 got 255\n")
            }),
            Spoil::LineUnheardForWrong => other_line(&mut seen.output, "WRONG at ", |place| {
                format!("UNHEARD at {place}\n")
            }),
            Spoil::LineSilencePhrase => other_line(&mut seen.output, "REFUSED 12 at ", |place| {
                format!("REFUSED 12 at {place} answer\n")
            }),
            Spoil::ErrorNoise => seen.error.push(b'\n'),
            _ => {}
        }
    }

    fn word(self, sheet: &[u8], seen: &mut Printed) {
        if let Spoil::Word(way) = self {
            way.apply(sheet, seen);
        }
    }

    fn write(self, service: Service, sheet: &[u8], seen: &mut Printed) {
        if let Spoil::Write(way) = self {
            way.apply(service, sheet, seen);
        }
    }

    fn build(self, seen: &mut Printed) {
        match self {
            Spoil::BuiltByte => change_last(&mut seen.output),
            Spoil::BuiltCut => drop(seen.output.pop()),
            Spoil::BuildRefusalOnOutput => seen.output.append(&mut seen.error),
            Spoil::BuildSilenceCause => silence_as_next_state(&mut seen.error),
            _ => {}
        }
    }

    fn read(self, seen: &mut Printed) {
        match self {
            Spoil::ReadByte => change_last(&mut seen.output),
            Spoil::ReadCut => drop(seen.output.pop()),
            Spoil::ReadMore if seen.error.is_empty() => seen.output.push(b'\n'),
            Spoil::ReadRefusalOnOutput => seen.output.append(&mut seen.error),
            Spoil::ReadRefusalLost => seen.error.clear(),
            _ => {}
        }
    }

    /// Wrong words: one line on standard error.
    fn mistake(self, mistake: Mistake, seen: &mut Printed) {
        match self {
            Spoil::MistakeOnOutput => seen.output.append(&mut seen.error),
            Spoil::MistakeChanged if mistake == Mistake::TooFew => {
                seen.error = mistaken(Mistake::TooMany).into_bytes();
            }
            Spoil::MistakeTwice => seen.error.extend(seen.error.clone()),
            Spoil::MistakeJudged => seen.output.extend(b"PASS 12 end 0\n"),
            Spoil::MistakeStatus => seen.status = Some(2),
            _ => {}
        }
    }

    /// Spoils what was asked where nothing may be read: judging waits for its
    /// input, which stays open.
    pub fn words(self, words: &[Word]) -> &[Word] {
        match self {
            Spoil::InputAwaited => &[],
            _ => words,
        }
    }

    /// How long such a run may take: the spoiled one never ends.
    pub fn limit(self) -> Duration {
        match self {
            Spoil::InputAwaited => SOON,
            _ => LIMIT,
        }
    }

    /// The way for `bench desk`, if it is one.
    pub fn desk(self) -> Option<DeskSpoil> {
        match self {
            Spoil::Desk(way) => Some(way),
            _ => None,
        }
    }

    /// Spoils what `cases` wrote for an input.
    pub fn cases(self, input: &[u8], seen: &mut Printed) {
        if let Spoil::Cases(way) = self {
            way.apply(input, seen);
        }
    }

    /// Spoils what the runs of the chain printed.
    pub fn chain(self, seen: &mut [Printed]) {
        if let (Spoil::ChainOpen, Some(last)) = (self, seen.last_mut()) {
            last.output = b"OPEN 2 recognised 204\n".to_vec();
        }
    }
}

/// Another line for the same place, where the line begins with these words.
pub fn other_line(line: &mut Vec<u8>, start: &str, other: impl Fn(&str) -> String) {
    let text = String::from_utf8_lossy(line).into_owned();
    let rest = text.strip_prefix(start);
    if let Some(place) = rest.and_then(|rest| rest.split_whitespace().next()) {
        *line = other(place).into_bytes();
    }
}

/// The line of refusal 12 becomes that of 4 with the same place.
pub fn silence_as_next_state(line: &mut Vec<u8>) {
    other_line(line, "REFUSED 12 at ", |place| {
        format!("REFUSED 4 at {place} next state\n")
    });
}

pub fn change_last(bytes: &mut [u8]) {
    if let Some(last) = bytes.last_mut() {
        *last ^= 1;
    }
}
