// Readable cases with answers worked out by hand from the specification's cases and
// from the description of the notation.

use super::*;

/// Record 1 of the twin, of the house unit and of the smallest machine.
const TWIN: &str = "{1 2 2 1 0 0 5 0 1 1 5}";
const HOUSE: &str =
    "{1 4 4 0 31 1 6 2 6 0 21 1 2 0 6 3 6 1 21 2 31 2 21 2 21 0 6 3 2 3 21 3 21 1 6}";
const BUILT: &str = "{3 0*6 1 0*3 1 0}";

fn answer(line: &str) -> String {
    Answerer::new().answer(&question(line.as_bytes()))
}

/// The twin with these records behind its machine.
fn twin(service: &str, records: &str) -> String {
    answer(&format!("{service} {TWIN}{records}"))
}

fn text(input: &[u8]) -> Vec<u8> {
    let mut cases = 0;
    let text = Answerer::new().text(input, |_, _, _| cases += 1).unwrap();
    let last = format!("> {cases} cases\n");
    assert!(text.ends_with(last.as_bytes()));
    text
}

fn sheet(part: &str) -> Vec<u8> {
    match question(format!("refusal 1 {part}").as_bytes()) {
        Ok(Question::Refusal { kind: 1, sheet }) => sheet,
        other => panic!("{part}: {other:?}"),
    }
}

#[test]
fn built() {
    assert_eq!(twin("build 15", "{2 0}"), "built 12 | 0*6 1 0*3 1 0 238*3");
    assert_eq!(twin("build 12", "{2 0}"), "built 12 | 0*6 1 0*3 1 0");
    assert_eq!(twin("build 11", "{2 0}"), "refused 9 at 12 | 238*11");
    assert_eq!(twin("build 0", "{2 0}"), "refused 9 at 12 | -");
    assert_eq!(twin("build 2", "{2 1}"), "refused 6 at 1 | 238 238");
    assert_eq!(twin("build 1", ""), "refused 2 at 16 | 238");
    let stuck = "build 12 {1 2 2 1 0 0 5 1 1 1 5}{2 0}";
    assert_eq!(answer(stuck), "refused 8 at 1 | 238*12");
    let single = "build 6 {1 1 1 0 77}{2 0}";
    assert_eq!(answer(single), "built 4 | 0*4 238 238");
    let house = answer(&format!("build 203 {HOUSE}{{2 0 1}}"));
    assert!(house.starts_with("built 203 | 0 1 0 1 2 0 1 3 1 2 0 1 3 1 "));
    let room = answer(&format!("build 202 {HOUSE}{{2 0 1}}"));
    assert_eq!(room, "refused 9 at 203 | 238*202");
}

#[test]
fn certified() {
    let certify = |room: usize, sequence: &str| {
        twin(
            &format!("certify {room}"),
            &format!("{{2 0}}{{3 {sequence}}}"),
        )
    };
    assert_eq!(certify(15, "0*6 1 0*3 1 0"), "certified 13 | 1*13 238 238");
    let open = "open 2 recognised 5 | 1 1 0 1*3 0";
    assert_eq!(certify(7, "0 0 1 0 1 0"), open);
    assert_eq!(certify(9, "0 0 1 0 1 0 0"), "certified 8 | 1*8 238");
    assert_eq!(certify(2, "0"), "open 1 recognised 1 | 1 0");
    assert_eq!(certify(5, "1 0 0"), "open 0 recognised 2 | 0 1 1 0 238");
    assert_eq!(certify(4, "0 0 0"), "open 2 recognised 4 | 1*4");
    assert_eq!(certify(3, "0 0 0"), "refused 9 at 4 | 238*3");
    assert_eq!(certify(1, "0 2"), "refused 7 at 30 | 238");
    let word = |length: usize| twin("certify 2", &format!("{{2 0*{length}}}{{3 0}}"));
    assert_eq!(word(16), "open 0 recognised 0 | 0 0");
    assert_eq!(word(17), "refused 5 at 16 | 238 238");
}

#[test]
fn judged() {
    let judge = |answers: &str| twin("judge 14", &format!("{{2 0}}{BUILT}{{4 {answers}}}"));
    let right = "0 1 0 1 0 1 5 0 1 0 5 1";
    assert_eq!(judge(right), "pass 12 end 0 | 1*13 238");
    let wrong = "0 1 0 1 0 1 6 0 1 0 5 1";
    assert_eq!(judge(wrong), "wrong at 6 want 5 got 6 | 1*13 238");
    assert_eq!(judge("0 1 0 255 0 1 6"), "unheard at 3 | 1*13 238");
    assert_eq!(judge("255*12"), "unheard at 0 | 1*13 238");
    let before = "0 1 0 1 0 1 6 255";
    assert_eq!(judge(before), "wrong at 6 want 5 got 6 | 1*13 238");
    assert_eq!(judge("0 1 0 1"), "unfinished 4 | 1*13 238");
    assert_eq!(judge("0*13"), "refused 10 at 41 | 238*14");
    let unseparated = twin("judge 1", &format!("{{2 1}}{BUILT}{{4 {right}}}"));
    assert_eq!(unseparated, "refused 6 at 1 | 238");
    let open = twin("judge 8", "{2 0}{3 0 0 1 0 1 0}{4}");
    assert_eq!(open, "refused 11 at 2 | 1 1 0 1*3 0 238");
    let outside = "judge 3 {1 2 2 2 0 0 5 0 1 1 5}{2 0}{3 0}{4}";
    assert_eq!(answer(outside), "refused 4 at 8 | 238*3");
    assert_eq!(answer("judge 0 -"), "refused 2 at 0 | -");
}

/// The twin's last answer is 255, and in the second table its last next state too.
#[test]
fn silent() {
    let (silent, both) = ("{1 2 2 1 0 0 5 0 1 1 255}", "{1 2 2 1 0 0 5 0 1 255 255}");
    let services = [
        ("transfer 0 0", "", ""),
        ("word", "", ""),
        ("desk", "{2 9}", " / 0"),
        ("build 1", "{2 9}", " | 238"),
        ("certify 1", "{2 1}{3 9}", " | 238"),
        ("judge 1", "{2 1}{3 9}{4 1*3}", " | 238"),
    ];
    for (service, records, rest) in services {
        let (asked, answered) = match rest.starts_with(" | ") {
            true => ("", rest),
            false => (rest, ""),
        };
        let said = |table: &str| answer(&format!("{service} {table}{records}{asked}"));
        assert_eq!(said(silent), format!("refused 12 at 15{answered}"));
        assert_eq!(said(both), format!("refused 4 at 14{answered}"));
    }
}

#[test]
fn read() {
    let read = |wanted: &str| twin(wanted, &format!("{{2 0}}{BUILT}{{4}}"));
    assert_eq!(read("part 1"), "from 6 size 10 | 2 2 1 0 0 5 0 1 1 5");
    assert_eq!(read("part 2"), "from 22 size 1 | 0");
    assert_eq!(read("part 3"), "from 29 size 12 | 0*6 1 0*3 1 0");
    assert_eq!(read("part 4"), "from 47 size 0 | -");
    for kind in [1, 2, 3, 4] {
        assert_eq!(read(&format!("refusal {kind}")), "none");
    }
    for kind in [0, 5, 257, 258, 65535] {
        assert_eq!(read(&format!("refusal {kind}")), "refused 2 at 47");
        assert_eq!(read(&format!("part {kind}")), "from 0 size 0 | -");
    }
    assert_eq!(answer("refusal 1 -"), "refused 2 at 0");
    assert_eq!(answer("refusal 1 0*5"), "refused 1 at 0");
    assert_eq!(answer("refusal 2 {1:2 9}"), "refused 1 at 0");
    assert_eq!(answer("refusal 2 {2}{1}"), "refused 2 at 6");
    assert_eq!(answer("refusal 1 {1 0*40906}"), "none");
    assert_eq!(answer("refusal 1 {1 0*40907}"), "refused 1 at 40912");
}

#[test]
fn transferred() {
    let house = |states: &str| answer(&format!("transfer {states} {HOUSE}"));
    assert_eq!(house("1 1"), "commands -");
    assert_eq!(house("0 2"), "commands 2");
    assert_eq!(house("2 3"), "commands 3 1 2");
    assert_eq!(house("3 0"), "commands 3 1");
    for states in ["0 4", "4 0", "4 4", "255 255", "255 0"] {
        assert_eq!(house(states), "none");
    }
    let stuck = "{1 2 2 1 0 0 5 1 1 1 5}";
    assert_eq!(answer(&format!("transfer 1 0 {stuck}")), "none");
    assert_eq!(answer(&format!("transfer 0 1 {stuck}")), "commands 0");
    assert_eq!(twin("transfer 0 1", "{2}{3 9}{4 7*3}"), "commands 0");
    assert_eq!(twin("transfer 0 1", "{2}{2}"), "refused 2 at 22");
    assert_eq!(twin("transfer 0 1", " 0"), "refused 1 at 16");
    assert_eq!(answer("transfer 0 1 {2 0}"), "refused 2 at 7");
    assert_eq!(answer("transfer 0 1 {1 0 1}"), "refused 3 at 0");
    assert_eq!(answer("transfer 0 1 {1 1 1 1 0}"), "refused 4 at 8");
}

#[test]
fn driven() {
    let twin = |answers: &str| twin("desk", &format!("{{2 0}} / {answers}"));
    assert_eq!(twin("-"), "command 0");
    assert_eq!(twin("0"), "command 0 command 0");
    assert_eq!(twin("0 1"), "command 0 command 0 home after 2");
    assert_eq!(twin("1"), "command 0 home after 1");
    assert_eq!(
        twin("1*3"),
        ["command 0", &[" home after 1"; 3].concat()].concat()
    );
    assert_eq!(twin("5 1"), "command 0 stranger at 0 stranger at 0");
    assert_eq!(twin("0 0"), "command 0 command 0 stranger at 1");
    let house = |answers: &str| answer(&format!("desk {HOUSE} {{2 0 1}} / {answers}"));
    assert_eq!(house("2 6"), "command 0 command 1 home after 2");
    assert_eq!(
        house("2 6*2"),
        "command 0 command 1 home after 2 home after 2"
    );
    assert_eq!(house("7 6"), "command 0 command 1 stranger at 1");
    assert_eq!(
        answer("desk {1 2 2 1 0 0 5 1 1 1 5}{2 0} / 0"),
        "refused 8 at 1"
    );
    assert_eq!(answer("desk - / -"), "refused 2 at 0");
    assert_eq!(
        answer("desk {1 2 2 1 0 0 5 0 1 1 5}{2 1} / {1}"),
        "refused 6 at 1"
    );
}

#[test]
fn searched() {
    assert_eq!(twin("word", ""), "word 0");
    assert_eq!(answer(&format!("word {HOUSE}")), "word 0 1");
    assert_eq!(twin("word", "{2 1}{3 9}{4 7*3}"), "word 0");
    assert_eq!(answer("word {1 1 8 0*16}"), "word 0");
    assert_eq!(answer("word {1 2 1 1 5 0 5}"), "none");
    let around = "word {1 4 1 1 9 2 0 3 0 0 0}";
    assert_eq!(answer(around), "word 0*3");
    assert_eq!(answer("word {1 3 1 1 9 2 0 0 0}"), "word 0 0");
    let long = "word {1 8 1 1 9 2 0 3 0 4 0 5 0 6 0 7 0 0 0}";
    assert_eq!(answer(long), "none");
    assert_eq!(answer("word -"), "refused 2 at 0");
    assert_eq!(twin("word", " 0"), "refused 1 at 16");
    assert_eq!(twin("word", "{2}{2}"), "refused 2 at 22");
    assert_eq!(answer("word {1}"), "refused 3 at 0");
    assert_eq!(answer("word {1 1 1 1 0}"), "refused 4 at 8");
}

#[test]
fn sheets_written() {
    let parts =
        |room: &str, rest: &str| answer(&format!("write {room} 2 2 1 0 0 5 0 1 1 5 / {rest}"));
    let front = "10 0*3 1 0 2 2 1 0 0 5 0 1 1 5 1 0*3 2 0 0";
    assert_eq!(parts("25", "0"), format!("written 23 | {front} 238 238"));
    let sequence = format!("written 31 | {front} 2 0*3 3 0 0 1");
    assert_eq!(parts("31", "0 / 0 1"), sequence);
    let answers = format!("written 38 | {front} 2 0*3 3 0 0 1 1 0*3 4 0 9");
    assert_eq!(parts("38", "0 / 0 1 / 9"), answers);
    let empty = format!("written 37 | {front} 2 0*3 3 0 0 1 0*4 4 0");
    assert_eq!(parts("37", "0 / 0 1 / -"), empty);
    assert_eq!(parts("22", "0"), "refused 9 at 23 | 238*22");
    assert_eq!(parts("0", "0 / 0 1 / 9"), "refused 9 at 38 | -");
    assert_eq!(parts("0", "0 / 0 1 / 9*3"), "refused 10 at 31 | -");
    assert_eq!(parts("1", "0 / 0 2 / 9*3"), "refused 7 at 30 | 238");
    assert_eq!(parts("1", "0 / - / 9*3"), "refused 7 at 23 | 238");
    assert_eq!(parts("0", "1 / -"), "refused 6 at 1 | -");
    assert_eq!(parts("2", "1 2"), "refused 5 at 23 | 238 238");
    assert_eq!(parts("2", "-"), "refused 5 at 16 | 238 238");
    assert_eq!(answer("write 0 1 1 0 255 / -"), "refused 12 at 9 | -");
    assert_eq!(answer("write 0 1 2 0 255 1 0 / -"), "refused 4 at 10 | -");
    assert_eq!(answer("write 0 1 1 1 255 9 / -"), "refused 3 at 0 | -");
    assert_eq!(answer("write 0 {1 1 1 0 7} / 0"), "refused 3 at 0 | -");
}

#[test]
fn two_parts() {
    let both = |line: &str| match question(line.as_bytes()) {
        Ok(Question::Desk { sheet, answers }) => (sheet, answers),
        other => panic!("{line}: {other:?}"),
    };
    assert_eq!(both("desk - / -"), (vec![], vec![]));
    assert_eq!(both("desk 5*0 / 7*0"), (vec![], vec![]));
    assert_eq!(both("desk 1 2 / 3 4*2"), (vec![1, 2], vec![3, 4, 4]));
    let record = vec![1, 0, 0, 0, 2, 0, 9];
    assert_eq!(both("desk {2 9} / {2 9}"), (record.clone(), record.clone()));
    assert_eq!(
        both("desk {2 9} 5 / -"),
        ([&record[..], &[5]].concat(), vec![])
    );
    assert_eq!(
        both("desk - / 5 {2 9}"),
        (vec![], [&[5], &record[..]].concat())
    );
    let (sheet, answers) = both("desk 0*1048000 / {1 0*570}");
    assert_eq!((sheet.len(), answers.len()), (1_048_000, 576));
}

#[test]
fn several_parts() {
    let read = |line: &str| match question(line.as_bytes()) {
        Ok(Question::Write { room, parts }) => (room, parts),
        other => panic!("{line}: {other:?}"),
    };
    assert_eq!(read("write 7 - / -"), (7, vec![vec![]; 2]));
    assert_eq!(read("write 0 - / 5*0 / - / -"), (0, vec![vec![]; 4]));
    let four = vec![vec![1, 2], vec![], vec![3, 3], vec![4, 0, 0, 0, 0, 9, 0]];
    assert_eq!(read("write 1 1 2 / - / 3*2 / 4 {9}"), (1, four));
    let three = vec![vec![5], vec![6], vec![0, 0, 0, 0, 3, 0, 7]];
    assert_eq!(read("write 1 5 / 6 / {3} 7"), (1, three));
}

#[test]
fn looked_up() {
    assert_eq!(answer("house 0 0"), "next 0 answer 31");
    assert_eq!(answer("house 1 2"), "next 3 answer 6");
    assert_eq!(answer("house 3 3"), "next 1 answer 6");
    for pair in ["4 0", "0 4", "255 255", "255 0", "0 255"] {
        assert_eq!(answer(&format!("house {pair}")), "next 255 answer 0");
    }
    let limits = "states 10 commands 8 word 16 sequence 20355";
    assert_eq!(answer("limits"), limits);
}

#[test]
fn parts() {
    assert!(sheet("-").is_empty());
    assert!(sheet("255*0 1*00").is_empty());
    assert_eq!(sheet("0007 255*02 1*0 3"), [7, 255, 255, 3]);
    for empty in ["{4}", "{4 }", "{4 -}", "{4 9*0}", "{0004}", "{4:0}"] {
        assert_eq!(sheet(empty), [0, 0, 0, 0, 4, 0]);
    }
    assert_eq!(sheet("{258 9}"), [1, 0, 0, 0, 2, 1, 9]);
    for lying in ["{1:4294967295}", "{1:4294967295 }", "{1:4294967295 -}"] {
        assert_eq!(sheet(lying), [255, 255, 255, 255, 1, 0]);
    }
    assert_eq!(sheet("{65535:67305985 8 8}"), [1, 2, 3, 4, 255, 255, 8, 8]);
    let both = [2, 0, 0, 0, 1, 0, 5, 5, 0, 0, 0, 0, 2, 0];
    assert_eq!(sheet("{1 5*2}{2}"), both);
    assert_eq!(sheet("{1 5 5} {2}"), both);
    assert_eq!(sheet("9 {4} 8"), [9, 0, 0, 0, 0, 4, 0, 8]);
    let long = sheet("{1 1*300}");
    assert_eq!((long.len(), &long[..6]), (306, &[44, 1, 0, 0, 1, 0][..]));
}

#[test]
fn bytes_as_answers_write_them() {
    assert_eq!(written(&[]), "-");
    assert_eq!(written(&[0]), "0");
    assert_eq!(written(&[255, 255]), "255 255");
    assert_eq!(written(&[7; 3]), "7*3");
    assert_eq!(written(&[1, 1, 2, 2, 2, 2, 1, 1, 1, 0]), "1 1 2*4 1*3 0");
}

#[test]
fn whole_inputs() {
    assert_eq!(text(b""), b"> 0 cases\n");
    assert_eq!(text(b"\n"), b"\n> 0 cases\n");
    assert_eq!(text(b"#\xff\r"), b"#\xff\r\n> 0 cases\n");
    assert_eq!(text(b"> 5 cases\n>"), b"> 0 cases\n");
    let answered: &[u8] = b"# a\n\nhouse 9 9\n> next 255 answer 0\nlimit\n> unreadable at 6\n\
        > 2 cases\n";
    assert_eq!(text(b"# a\n\nhouse 9 9\n> old\nlimit"), answered);
    assert_eq!(text(answered), answered);
    let carriage = b"limits\r\n> unreadable at 7\n> 1 cases\n";
    assert_eq!(text(b"limits\r\n"), carriage);
}

#[test]
fn longest_input() {
    let mut input = vec![b'#'; 1_048_576];
    let answered = Answerer::new().text(&input, |_, _, _| {});
    assert_eq!(answered.map(|text| text.len()), Some(1_048_576 + 11));
    input.push(b'\n');
    assert_eq!(Answerer::new().text(&input, |_, _, _| {}), None);
}
