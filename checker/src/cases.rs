// The specification's own cases (§10.3), held against the model, and fast against naive.

use crate::building::{bound, build, build_into, build_sheet};
use crate::certifying::{Certificate, Certifier};
use crate::checks::load;
use crate::desk::Desk;
use crate::known::{doubling, house, house_sheet, ring, twin, LONG_WORD, TWIN_ANSWERS, TWIN_BUILT};
use crate::lines;
use crate::machine::{Machine, LONGEST_SEQUENCE, SILENCE};
use crate::naive;
use crate::random::Random;
use crate::refusal::Refusal;
use crate::searching::search;
use crate::sheet::{record, sheet_of, LONGEST_SHEET};

fn certificate(machine: &Machine, word: &[u8], sequence: &[u8]) -> (usize, Option<usize>) {
    let sheet = sheet_of(machine, word, Some(sequence), None);
    let mut marks = vec![7; sequence.len() + 2];
    let found = Certifier::new().certificate(&sheet, &mut marks).unwrap();
    let known = naive::recognised(machine, word, sequence);
    let count = marks.iter().filter(|&&mark| mark == 1).count();
    assert_eq!(marks.pop(), Some(7));
    assert_eq!(
        marks,
        known.iter().map(|&k| u8::from(k)).collect::<Vec<_>>()
    );
    assert_eq!(count, found.recognised);
    assert_eq!(naive::open_number(machine, sequence, &known), found.open);
    (found.recognised, found.open)
}

fn bench(sheet: &[u8]) -> String {
    lines::judged(Certifier::new().verdict(sheet, &mut vec![0; LONGEST_SEQUENCE + 1]))
}

fn twin_bench(answers: &[u8]) -> String {
    bench(&sheet_of(&twin(), &[0], Some(&TWIN_BUILT), Some(answers)))
}

#[test]
fn twin_is_built_and_certified() {
    assert_eq!(build(&twin(), &[0]).unwrap(), TWIN_BUILT);
    assert_eq!(certificate(&twin(), &[0], &TWIN_BUILT), (13, None));
    assert_eq!(
        certificate(&twin(), &[0], &[0, 0, 1, 0, 1, 0]),
        (5, Some(2))
    );
    assert_eq!(
        certificate(&twin(), &[0], &[0, 0, 1, 0, 1, 0, 0]),
        (8, None)
    );
    assert_eq!(certificate(&twin(), &[0], &[0]), (1, Some(1)));
    assert_eq!(certificate(&twin(), &[0], &[1, 0, 0]), (2, Some(0)));
    assert_eq!(certificate(&twin(), &[0], &[0, 0, 0]), (4, Some(2)));
}

#[test]
fn twin_is_judged() {
    assert_eq!(twin_bench(&TWIN_ANSWERS), "PASS 12 end 0\n");
    let mut wrong = TWIN_ANSWERS;
    wrong[6] = 6;
    assert_eq!(twin_bench(&wrong), "WRONG at 6 want 5 got 6\n");
    assert_eq!(twin_bench(&TWIN_ANSWERS[..4]), "UNFINISHED 4\n");
    assert_eq!(twin_bench(&[0; 13]), "REFUSED 10 at 41 answers\n");
}

#[test]
fn twin_is_refused() {
    let sheet = sheet_of(&twin(), &[1], Some(&TWIN_BUILT), Some(&TWIN_ANSWERS));
    assert_eq!(bench(&sheet), "REFUSED 6 at 1 word does not separate\n");
    let mut sheet = sheet_of(&twin(), &[0], Some(&TWIN_BUILT), Some(&TWIN_ANSWERS));
    sheet[8] = 2;
    assert_eq!(bench(&sheet), "REFUSED 4 at 8 next state\n");
    assert_eq!(bench(&[]), "REFUSED 2 at 0 record kind\n");
    let mut stuck = twin();
    stuck.next[2] = 1;
    assert_eq!(build(&stuck, &[0]), Err(Refusal::new(8, 1)));
    let sheet = sheet_of(&stuck, &[0], None, None);
    assert_eq!(build_sheet(&sheet), Err(Refusal::new(8, 1)));
}

/// The twin's right answers but for these.
fn twin_given(changes: &[(usize, u8)]) -> String {
    let mut answers = TWIN_ANSWERS;
    changes.iter().for_each(|&(place, it)| answers[place] = it);
    twin_bench(&answers)
}

#[test]
fn twin_is_unheard() {
    for place in [0, 3, 11] {
        let line = format!("UNHEARD at {place}\n");
        assert_eq!(twin_given(&[(place, SILENCE)]), line);
    }
    assert_eq!(twin_bench(&[SILENCE; 12]), "UNHEARD at 0\n");
    assert_eq!(twin_bench(&[0, 1, SILENCE]), "UNHEARD at 2\n");
    assert_eq!(twin_given(&[(5, SILENCE), (6, 6)]), "UNHEARD at 5\n");
    let wrong = "WRONG at 6 want 5 got 6\n";
    assert_eq!(twin_given(&[(6, 6), (7, SILENCE)]), wrong);
    assert_eq!(twin_given(&[(3, 254)]), "WRONG at 3 want 1 got 254\n");
    let answers = "REFUSED 10 at 41 answers\n";
    assert_eq!(twin_bench(&[SILENCE; 13]), answers);
    let open = [0, 0, 1, 0, 1, 0];
    let sheet = sheet_of(&twin(), &[0], Some(&open), Some(&[SILENCE; 6]));
    assert_eq!(bench(&sheet), "REFUSED 11 at 2 not certified\n");
    let sheet = sheet_of(&twin(), &[0], Some(&TWIN_BUILT), Some(&[0, 1, 0, SILENCE]));
    let number = Certifier::new().judge(&sheet, &mut [7; 14]);
    assert_eq!(number, (103 << 40) + (3 << 16));
}

/// What every service that reads the table says of a sheet; the sheet has all records.
fn said_of_table(sheet: &[u8]) -> Vec<Refusal> {
    let (mut marks, mut certifier) = ([7; 13], Certifier::new());
    let said = vec![
        load(sheet).map(drop),
        search(sheet).map(drop),
        build_into(sheet, &mut []).map(drop),
        build_sheet(sheet).map(drop),
        Desk::open(sheet).map(drop),
        certifier.certificate(sheet, &mut marks).map(drop),
        certifier.verdict(sheet, &mut marks).map(drop),
    ];
    assert_eq!(marks, [7; 13]);
    said.into_iter().filter_map(Result::err).collect()
}

#[test]
fn silence_is_never_specified() {
    let refused = |machine: &Machine, word: &[u8]| {
        let sheet = sheet_of(machine, word, Some(&[9]), Some(&[SILENCE; 3]));
        let said = said_of_table(&sheet);
        assert_eq!(said.len(), 7);
        assert!(said.iter().all(|it| *it == said[0]));
        said[0]
    };
    for entry in 0..4 {
        let mut machine = twin();
        machine.answer[entry] = SILENCE;
        // Before the word and its commands, whether it separates or not.
        for word in [&[0][..], &[1], &[2], &[]] {
            let place = 9 + 2 * entry;
            assert_eq!(refused(&machine, word), Refusal::new(12, place));
        }
        // The first of two; behind any next state.
        machine.answer[3] = SILENCE;
        assert_eq!(refused(&machine, &[0]), Refusal::new(12, 9 + 2 * entry));
        machine.next[3] = 2;
        assert_eq!(refused(&machine, &[0]), Refusal::new(4, 14));
        machine.next[3] = 255;
        assert_eq!(refused(&machine, &[0]), Refusal::new(4, 14));
    }
    assert_eq!(lines::refused(Refusal::new(12, 9)), "REFUSED 12 at 9\n");
    // With one state the unit whose plug is out would have passed.
    let single = Machine::from_pairs(1, 1, &[(0, SILENCE)]);
    let sheet = sheet_of(&single, &[0], Some(&[0; 4]), Some(&[SILENCE; 4]));
    assert_eq!(bench(&sheet), "REFUSED 12 at 9\n");
}

#[test]
fn smallest_machine() {
    let machine = Machine::from_pairs(1, 1, &[(0, 77)]);
    assert_eq!(build(&machine, &[0]).unwrap(), [0, 0, 0, 0]);
    assert_eq!(certificate(&machine, &[0], &[0, 0]), (3, None));
    assert_eq!(certificate(&machine, &[0], &[0]), (1, Some(1)));
}

#[test]
fn house_is_built() {
    let built = build(&house(), &[0, 1]).unwrap();
    assert_eq!(built.len(), 203);
    assert_eq!(bound(4, 4, 2), 361);
    assert_eq!(bound(10, 8, 16), LONGEST_SEQUENCE);
    assert_eq!(house().after(0, &built), 2);
    assert_eq!(certificate(&house(), &[0, 1], &built), (204, None));
    // T(0) to T(3): the word with the transfers empty; 2; 3 1 2; 3 1.
    let tests = [0, 1, 0, 1, 2, 0, 1, 3, 1, 2, 0, 1, 3, 1];
    assert_eq!(&built[..14], &tests);
}

#[test]
fn house_has_a_sheet() {
    let states = [
        [0, 31, 1, 6, 2, 6, 0, 21],
        [1, 2, 0, 6, 3, 6, 1, 21],
        [2, 31, 2, 21, 2, 21, 0, 6],
        [3, 2, 3, 21, 3, 21, 1, 6],
    ];
    let machine = [vec![34, 0, 0, 0, 1, 0, 4, 4], states.concat()].concat();
    let word = vec![2, 0, 0, 0, 2, 0, 0, 1];
    assert_eq!(house_sheet(), [machine, word].concat());
}

#[test]
fn room_and_word_limits() {
    let sheet = sheet_of(&twin(), &[0], None, None);
    let room = |bytes: usize| build_into(&sheet, &mut vec![0; bytes]);
    assert_eq!(room(11), Err(Refusal::new(9, 12)));
    assert_eq!(room(12), Ok(12));
    // The marks of 11 commands need 12 bytes.
    let sheet = sheet_of(&twin(), &[0], Some(&TWIN_BUILT[..11]), None);
    let room = |bytes: usize| Certifier::new().certificate(&sheet, &mut vec![0; bytes]);
    assert_eq!(room(11), Err(Refusal::new(9, 12)));
    assert!(room(12).is_ok());
    let word = |length: usize| sheet_of(&twin(), &vec![0; length], Some(&[0; 40]), None);
    let certify = |sheet: &[u8]| Certifier::new().certificate(sheet, &mut [0; 41]);
    assert!(certify(&word(16)).is_ok());
    assert_eq!(certify(&word(17)), Err(Refusal::new(5, 16)));
    let longest = Machine::from_pairs(10, 8, &[(0, 0); 80]);
    let sequence = [0; LONGEST_SEQUENCE];
    let sheet = sheet_of(&longest, &[0; 16], Some(&sequence), Some(&sequence));
    assert_eq!(sheet.len(), LONGEST_SHEET);
    assert_eq!(record(3, &[9]), [1, 0, 0, 0, 3, 0, 9]);
}

#[test]
fn fast_is_naive_on_random_walks() {
    let mut random = Random::new(1);
    let mut certifier = Certifier::new();
    let mut compared = 0;
    while compared < 20_000 {
        let (n, k) = (random.range(1, 5), random.range(1, 4));
        let pairs: Vec<(u8, u8)> = (0..n * k)
            .map(|_| (random.below(n) as u8, random.below(4) as u8))
            .collect();
        let machine = Machine::from_pairs(n, k, &pairs);
        let mut commands = |length| {
            (0..length)
                .map(|_| random.below(k) as u8)
                .collect::<Vec<_>>()
        };
        let (word, sequence) = (commands(1 + compared % 5), commands(1 + compared % 60));
        if machine.unseparated(&word).is_some() {
            continue;
        }
        compared += 1;
        let sheet = sheet_of(&machine, &word, Some(&sequence), None);
        let mut marks = vec![0; sequence.len() + 1];
        let fast = certifier.certificate(&sheet, &mut marks).unwrap();
        let known = naive::recognised(&machine, &word, &sequence);
        let expected = Certificate {
            recognised: known.iter().filter(|&&known| known).count(),
            open: naive::open_number(&machine, &sequence, &known),
        };
        assert_eq!(fast, expected);
        assert!(marks
            .iter()
            .zip(&known)
            .all(|(&mark, &known)| mark == u8::from(known)));
    }
}

/// The lengths and the end state are given with the machines.
#[test]
fn machines_of_the_largest_size() {
    for (machine, length) in [(ring(), 20_355), (doubling(), 8_544)] {
        let built = build(&machine, &LONG_WORD).unwrap();
        assert_eq!(built.len(), length);
    }
    let built = build(&ring(), &LONG_WORD).unwrap();
    assert_eq!(ring().after(0, &built), 1);
}
