// Silence, the byte 255: answers to a sequence where none came at some places, and
// what the C functions told of such answers and of tables that specify it.

use super::compare::{Call, Comparer};
use super::tally::{Group, Tally};
use crate::checks::load;
use crate::machine::SILENCE;
use crate::number::{class, place, UNHEARD, WRONG};
use crate::random::Random;
use crate::sheet::{read, HEADER};

/// What has to be told of answers that have silence among them.
const ANSWERS: &str =
    "unheard at the first place, unheard between, unheard at the last place, unheard in an unfinished run, \
     nothing heard, unheard before a wrong answer, wrong before silence, not certified, too many answers";
/// Where the silence stands in tables that have it; the last two are refused with 4.
const TABLES: &str =
    "one answer, several answers, first entry, last entry, next state behind it, next state beside it";
/// What is told once the table is free of it.
const BEHIND_CERTIFY: &str = "5, 6, 7, 9, 110, 111";
const BEHIND_JUDGE: &str = "5, 6, 7, 9, 10, 11, 101, 102, 103";

const GROUPS: [Group; 4] = [
    ("answers with silence", ANSWERS),
    ("tables with silence", TABLES),
    ("certifying, behind cause 12", BEHIND_CERTIFY),
    ("judging, behind cause 12", BEHIND_JUDGE),
];

pub fn groups() -> impl Iterator<Item = Group> {
    GROUPS.into_iter()
}

/// Silence at some places of the right answers, and the name of the kind.
pub fn silent(random: &mut Random, right: Vec<u8>) -> (&'static str, Vec<u8>) {
    let mut answers = right;
    let length = answers.len();
    let here = some_place(random, length);
    match random.below(8) {
        0..=1 => {
            answers[here] = SILENCE;
            ("one answer silent", answers)
        }
        2..=3 => {
            let there = random.below(length);
            answers[there] = answers[there].wrapping_add(random.range(1, 255) as u8);
            answers[here] = SILENCE;
            ("silence and a wrong answer", answers)
        }
        4 => {
            answers[here] = SILENCE;
            answers.truncate(random.range(here, length));
            ("silence and a cut", answers)
        }
        5 => {
            answers[here..].fill(SILENCE);
            ("silence from a place on", answers)
        }
        6 => ("nothing but silence", vec![SILENCE; length]),
        _ => {
            let more = random.range(1, 3);
            answers.extend([SILENCE; 3].into_iter().take(more));
            ("too many answers, silent", answers)
        }
    }
}

/// The first and the last place come often.
fn some_place(random: &mut Random, length: usize) -> usize {
    match random.below(4) {
        0 => 0,
        1 => length - 1,
        _ => random.below(length),
    }
}

impl Comparer {
    /// Counts what this call, which gave the number, told of silence.
    pub fn silence(&mut self, call: Call, sheet: &[u8], room: usize, number: u64) {
        let tally = &mut self.counts.silence;
        match class(number) {
            4 => refused_before(tally, sheet, place(number)),
            12 => {
                refused(tally, sheet, place(number));
                let heard = heard(sheet);
                let marks = &mut vec![0; room];
                let (group, behind) = match call {
                    Call::Certify => (GROUPS[2].0, self.certifier.certify(&heard, marks)),
                    Call::Judge => (GROUPS[3].0, self.certifier.judge(&heard, marks)),
                };
                tally.meet(group, &class(behind).to_string());
            }
            10 | 11 | WRONG | UNHEARD => {
                let told = told(sheet, number);
                told.iter().for_each(|name| tally.meet(GROUPS[0].0, name));
            }
            _ => {}
        }
    }
}

/// The offsets of the table's answers that are silent; record 1 stands first.
fn offsets(sheet: &[u8]) -> Vec<usize> {
    let size = read(sheet, 1).map_or(0, |parts| parts[0].unwrap_or_default().payload.len());
    let answers = (HEADER + 3..HEADER + size).step_by(2);
    answers.filter(|&offset| sheet[offset] == SILENCE).collect()
}

/// The sheet with another answer for each of these.
fn heard(sheet: &[u8]) -> Vec<u8> {
    let mut heard = sheet.to_vec();
    for offset in offsets(sheet) {
        heard[offset] = SILENCE - 1;
    }
    heard
}

/// A table refused with 4, whose place is the offset of a next state.
fn refused_before(tally: &mut Tally, sheet: &[u8], place: usize) {
    let silent = offsets(sheet);
    if silent.first().is_some_and(|&first| first < place) {
        tally.meet(GROUPS[1].0, "next state behind it");
    }
    if sheet[place] == SILENCE && silent.contains(&(place + 1)) {
        tally.meet(GROUPS[1].0, "next state beside it");
    }
}

/// A table refused with 12, whose place is the offset of an answer.
fn refused(tally: &mut Tally, sheet: &[u8], place: usize) {
    let several = match offsets(sheet).len() {
        1 => "one answer",
        _ => "several answers",
    };
    tally.meet(GROUPS[1].0, several);
    let size = usize::from(sheet[HEADER]) * usize::from(sheet[HEADER + 1]);
    match (place - HEADER - 3) / 2 {
        0 => tally.meet(GROUPS[1].0, "first entry"),
        entry if entry + 1 == size => tally.meet(GROUPS[1].0, "last entry"),
        _ => {}
    }
}

/// The names of what judging told of answers with silence among them.
fn told(sheet: &[u8], number: u64) -> Vec<&'static str> {
    let Ok([_, _, Some(sequence), Some(answers)]) = read(sheet, 0) else {
        return Vec::new();
    };
    let (sequence, given) = (sequence.payload, answers.payload);
    if !given.contains(&SILENCE) {
        return Vec::new();
    }
    match class(number) {
        10 => vec!["too many answers"],
        11 => vec!["not certified"],
        UNHEARD => unheard(sheet, sequence, given, place(number)),
        _ => vec!["wrong before silence"],
    }
}

fn unheard(sheet: &[u8], sequence: &[u8], given: &[u8], place: usize) -> Vec<&'static str> {
    let mut met = vec![match place {
        0 => "unheard at the first place",
        _ if place + 1 == sequence.len() => "unheard at the last place",
        _ => "unheard between",
    }];
    let mut meet_if = |name, is: bool| met.extend(is.then_some(name));
    let whole = given.len() == sequence.len();
    meet_if("unheard in an unfinished run", !whole);
    let nothing = given.iter().all(|&it| it == SILENCE);
    meet_if("nothing heard", whole && nothing);
    let right = load(sheet).map(|machine| machine.answers(0, sequence));
    let right = right.unwrap_or_default();
    let mut pairs = given.iter().zip(&right);
    let wrong = pairs.any(|(it, right)| it != right && *it != SILENCE);
    meet_if("unheard before a wrong answer", wrong);
    met
}

#[cfg(test)]
mod tests {
    use super::*;
    use crate::checking::tally::names;
    use crate::known::{twin, TWIN_ANSWERS, TWIN_BUILT};
    use crate::sheet::sheet_of;

    /// What is counted of one call with room enough.
    fn counted(call: Call, sheet: &[u8]) -> String {
        let mut comparer = Comparer::new(1, None);
        let mut marks = [0; 13];
        let number = match call {
            Call::Certify => comparer.certifier.certify(sheet, &mut marks),
            Call::Judge => comparer.certifier.judge(sheet, &mut marks),
        };
        comparer.silence(call, sheet, 13, number);
        let all: Vec<String> = comparer.counts.silence.all().collect();
        all.join("; ")
    }

    fn judged(answers: &[u8]) -> String {
        let sheet = sheet_of(&twin(), &[0], Some(&TWIN_BUILT), Some(answers));
        counted(Call::Judge, &sheet).replace("answers with silence: ", "")
    }

    #[test]
    fn answers_are_counted_by_what_is_told() {
        assert_eq!(judged(&TWIN_ANSWERS), "");
        assert_eq!(judged(&[0, 9]), "");
        assert_eq!(
            judged(&[255; 12]),
            "nothing heard; unheard at the first place"
        );
        assert_eq!(
            judged(&[0, 255, 3]),
            "unheard before a wrong answer; unheard between; unheard in an unfinished run"
        );
        assert_eq!(judged(&[0, 9, 255]), "wrong before silence");
        assert_eq!(judged(&[255; 13]), "too many answers");
        let last = [&TWIN_ANSWERS[..11], &[255]].concat();
        assert_eq!(judged(&last), "unheard at the last place");
    }

    #[test]
    fn tables_are_counted_by_what_is_behind() {
        let mut machine = twin();
        machine.answer[0] = 255;
        let sheet = sheet_of(&machine, &[0], Some(&TWIN_BUILT), Some(&[255]));
        let first = "tables with silence: first entry; tables with silence: one answer";
        assert_eq!(
            counted(Call::Judge, &sheet),
            format!("judging, behind cause 12: 103; {first}")
        );
        assert_eq!(
            counted(Call::Certify, &sheet),
            format!("certifying, behind cause 12: 110; {first}")
        );
        machine.next[1] = 255;
        machine.answer[1] = 255;
        let sheet = sheet_of(&machine, &[0], Some(&TWIN_BUILT), None);
        let before =
            "tables with silence: next state behind it; tables with silence: next state beside it";
        assert_eq!(counted(Call::Certify, &sheet), before);
    }

    #[test]
    fn every_kind_of_answers_occurs() {
        let random = &mut Random::new(1);
        let mut kinds: Vec<&str> = Vec::new();
        for _ in 0..500 {
            let (kind, answers) = silent(random, TWIN_ANSWERS.to_vec());
            assert!(answers.contains(&SILENCE) || kind == "silence and a cut");
            kinds.push(kind);
        }
        kinds.sort_unstable();
        kinds.dedup();
        assert_eq!(kinds.len(), 6);
        assert!(groups().all(|(_, expected)| names(expected).count() > 3));
    }
}
