// Lines that are no case, with the column worked out by hand: the first byte
// with which no case goes on.

use super::*;
use crate::random::Random;

/// The column, 0 for a case.
fn column(line: &str) -> usize {
    match question(line.as_bytes()) {
        Ok(_) => 0,
        Err(Unreadable(column)) => column,
    }
}

/// Lines with `;` between them; each has a `^` before the byte that is told, or
/// at its end.
fn told(lines: &str) {
    each_told("", lines);
}

/// The same for parts in a case.
fn parts_told(parts: &str) {
    each_told("refusal 1 ", parts);
}

fn each_told(before: &str, lines: &str) {
    for line in lines.split(';') {
        let line = format!("{before}{line}");
        let place = line.find('^').expect("a line has its mark");
        let whole = line.replacen('^', "", 1);
        assert_eq!(column(&whole), place + 1, "{line}");
    }
}

/// Lines with `;` between them.
fn readable(lines: &str) {
    for line in lines.split(';') {
        assert_eq!(column(line), 0, "{line}");
    }
}

#[test]
fn described() {
    assert_eq!(column("build 300 {1 2 256}"), 18);
    assert_eq!(column("build 300"), 10);
}

#[test]
fn names() {
    told("^x;^ limits;^Judge 1 -;^-;^{1};^5;^\r;^/");
    told("j^;jud^;ju^ry 1 -;judge^;judge^s 1 -;judge^\t1 -");
    told("limit^;limi^x;limits^ ;limits^x;limits^\r;limits^ 1");
    told("part^s 1 -;pa^ss 1 -;house^;refusal^:1 -;certify^-");
    told("w^;wor^;wo^lf -;word^;word^s -;word^-;word^{1};word^/ -;^Word -");
    told("wr^;writ^;wr^ong 1 - / -;wr^ote 1 - / -;write^;write^s 1 - / -;write^-;^Write 1 - / -");
}

#[test]
fn fields() {
    told("judge ^;judge ^ 1 -;judge ^x;judge ^-1 -;judge ^+1 -;judge ^{1}");
    told("judge 1^;judge 1^x -;judge 1^, -;judge 1^-;judge 1^{1}");
    told("judge 1 ^;judge 1 ^ -;judge 1 ^x;judge 1 ^/;judge 1 ^}");
    told("transfer 1^;transfer 1 ^;transfer 1 ^- -;transfer 1 2^");
    told("transfer 1 2 ^;transfer 1 2 3^-;transfer 1 2^-");
    told("house 1^;house 1 ^;house 1 2^ ;house 1 2^ 3;house 1 2^-");
    told("word ^;word ^ -;word 1 ^;word 1 ^-;word -^ -;word -^ / -;word {1}^-;word {1} ^/ -");
    readable("word -;word 1;word {1}{2} 5;word 0*1048576");
}

#[test]
fn numbers() {
    told("build 104857^7 -;build 1048576^0 -;build 200000^0 -");
    told("refusal 6553^6 -;part 65535^0 -;part 0006553^6 -");
    told("transfer 25^6 0 -;transfer 0 25^6 -;house 26^0 0;house 0 30^0");
    told("build 184467^44073709551617 -;part 42949^67297 -");
    parts_told("25^6;3 99^9*0;{6553^6};{1 25^6};{1 5 25^6*3}");
    parts_told("{1:429496729^6};{1:4294967295^0};{1:429496730^0}");
    readable("build 1048576 -;build 0001048576 -;refusal 65535 -");
    readable("transfer 255 255 -;house 0255 000");
    readable("refusal 1 255 255*1 {65535:4294967295 255}");
    readable(&format!("house {}1 1", "0".repeat(5000)));
}

#[test]
fn items() {
    parts_told("5 ^;5 ^ 5;5^,5;5^x;5*^;5*^ 5;5*^x;5 ^*3;^*3;5*3^*3;5*3^*;^:5");
    parts_told("5^{1};5*3^{1};^};5*^{1};5 ^};5^}");
    parts_told("-^ ;-^ 5;-^5;-^-;-^{1};5 ^-;5^-;5*^-");
    parts_told("5 ^/ 5;5^/;-^/;^/ 5;{1 5 ^/ 5}");
    parts_told("5^\r;5^\0;5^|;5 ^| 5");
}

#[test]
fn records() {
    parts_told("{^;{^};{^ 1};{^:5};{^-};{^{1}}");
    parts_told("{1^;{1^x};{1^,5};{1^*2};{1^-};{1^{2}}");
    parts_told("{1:^;{1:^};{1:^ 5};{1:5^:5};{1:5^;{1:5^-};{1:^-}");
    parts_told("{1 ^;{1 ^ 5};{1 ^x};{1 ^*2};{1 ^{2}};{1 ^/}");
    parts_told("{1 5^;{1 5 ^};{1 5 ^-};{1 5^:5};{1 5^{2}};{1 5 ^{2}}");
    parts_told("{1 -^;{1 -^ };{1 -^ 5};{1 -^-};{1:5 -^ }");
    parts_told("{1}^5;{1} ^;{1} ^ {2};{1}^};{1}^-;{1} ^-;{1}^/;{1} ^/ {2}");
    parts_told("{1}{2}^x;{1}{^;{1}{2} 5^{3};{1} 5^{3}");
    readable("refusal 1 {1}{2} {3} 5 {4 }{4 -} 5;part 1 {1:5 -}{2:6 }{3:0 5 5}");
}

#[test]
fn the_first_mistake_counts() {
    told("build 104857^7 {1 256}};buil^t 300 {1 256};part 1 {1 25^6 256");
    told("house 25^6 256 x;transfer 1 ^x {;refusal 1 {1 ^ } };refusal 1 5 ^ ");
}

#[test]
fn most_bytes() {
    readable("refusal 1 0*1048576;refusal 1 0*1048576 5*0;refusal 1 0*1048576 5*000");
    readable("refusal 1 {1 0*1048570};refusal 1 0*1048570 {1};refusal 1 0*1048575 5");
    readable("refusal 1 {1 0*1048570 5*0} 5*0;refusal 1 0*1048564 {1}{2}");
    assert_eq!(column("refusal 1 0*1048577"), 19);
    assert_eq!(column("refusal 1 0*1048576 5"), 22);
    parts_told("0*104857^7;0*1048576^0;0*999999^9;0*01048576^6");
    parts_told("0*1048576 ^;0*1048576 5^;0*1048576 5^ ;0*1048576 255^ 5*0");
    parts_told("0*1048576 5*^;0*1048576 5*^1;0*1048576 5*00^1;0*1048576 25^6");
    parts_told("0*1048576 ^{1};0*1048571 ^{1};0*1048570 {1}^{2};0*1048570 {1} ^{2}");
    parts_told("{1 0*104857^1};{1 0*1048570 5^};{1 0*1048570} 5^;0*1048570 {1 5^}");
    parts_told("0*1048570 {1 5*^1};0*1048569 {1 5 5^};0*1048574 5 5 5^;{9:9 0*104857^1");
}

#[test]
fn two_parts() {
    told("desk^;desk ^;desk^/ -;desk ^/ -;desk ^ / -;des^;desk^s - / -;desk^-");
    told("desk -^;desk - ^;desk -^/;desk - ^5;desk - ^- / -;desk - /^;desk - /^5;desk - / ^");
    told("desk 5^;desk 5 ^;desk 5^/ 5;desk 5 /^;desk 5 /^/;desk 5 / ^;desk 5 / ^ 5;desk 5 ^- / 5");
    told("desk {1}^;desk {1}{2}^;desk {1}^/ 5;desk {1} /^{2};desk {1 5 ^/ 5};desk {1 ^/ 5}");
    told("desk 5 / 5 ^;desk 5 / 5 ^/ 5;desk 5 / {1} ^/ 5;desk - / -^ / -;desk - / -^/");
    told("desk 5 / ^/;desk 5 / 25^6;desk 25^6 / 5;desk 5*^ / 5;desk 5 / 5*^;desk 5 / -^ ;desk 5 / 5^-");
    readable("desk - / -;desk 5 / -;desk - / 5;desk {1} / {1};desk {1}{2} {3} 5 / {4}{4} 5*3");
}

#[test]
fn most_bytes_of_two_parts() {
    readable("desk 0*1048576 / -;desk - / 0*1048576;desk 0*1048575 / 5;desk 0*1048576 5*0 / 5*0");
    readable("desk 0*1048570 / {1};desk {1 0*1048564} / {1};desk 0*1048500 / 0*76");
    told("desk 0*1048576 / 5^;desk 0*1048575 / 5 5^;desk 0*1048571 / ^{1};desk 0*1048576 / ^{1}");
    told("desk 0*1048576 / 5*^1;desk 0*1048500 / 0*7^7;desk 1 / 0*104857^6;desk 0*1048576 5^ / -");
    told("desk 0*1048576 /^;desk 0*1048576 / ^;desk 0*104857^7 / -;desk 0*1048570 / {1 5^}");
}

#[test]
fn two_to_four_parts() {
    told("write ^;write ^ 1 - / -;write ^-;write ^/;write 1^;write 1^/ -;write 1 ^;write 1 ^ -;write 1 ^/ -");
    told("write 1 -^;write 1 - ^;write 1 - ^-;write 1 -^/ -;write 1 - /^;write 1 - / ^;write 1 - /^-");
    told("write 1 5^;write 1 5 ^;write 1 5 ^-;write 1 5^/ 5;write 1 {1}^;write 1 {1} /^{2};write 1 {1 ^/ 5}");
    told("write 1 5 / 5 ^;write 1 5 / 5^/;write 1 5 / 5 /^;write 1 5 / 5 / ^;write 1 5 / 5 ^- / 5");
    told("write 1 5 / -^-;write 1 5 / - ^;write 1 5 / - ^5;write 1 5 / -^/;write 1 5 / - /^;write 1 5 / - / ^");
    told("write 1 - / - / -^x;write 1 - / - / - ^;write 1 - / - / 5 ^;write 1 - / - / 5 / ^/;write 1 - / 25^6");
    told("write 1 - / - / - / ^;write 1 - / - / - / -^ ;write 1 - / - / - / -^ / -;write 1 - / - / - / -^5");
    told("write 1 5 / 5 / 5 / 5 ^;write 1 5 / 5 / 5 / 5 ^/ 5;write 1 5 / 5 / 5 / 5^/;write 1 5 / 5 / 5 / {1} ^/ 5");
    told("write 104857^7 - / -;write 1 25^6 / -;write 1 - / - / - / 25^6;write 1 - / - / 5*^ / -");
    readable(
        "write 0 - / -;write 1 5 / 5;write 1 - / - / -;write 1 5 / - / 5;write 1 - / - / - / -",
    );
    readable("write 1048576 5 5*3 / {1} / 0*0 / {1}{2} 5;write 001 {1} {2} / 5 6 / {3 }{4}");
}

#[test]
fn most_bytes_of_four_parts() {
    readable(
        "write 1 0*1048576 / - / - / -;write 1 - / - / - / 0*1048576;write 1 5 / 5 / 5 / 0*1048573",
    );
    readable("write 1 0*1048576 / 5*0 / 5*0;write 1 0*1048564 / {1} / {2};write 1 0*1048570 / - / - / {4}");
    told("write 1 0*104857^7 / -;write 1 5 / 0*104857^6;write 1 5 / 5 / 0*104857^5;write 1 5 / 5 / 5 / 0*104857^4");
    told("write 1 0*1048576 / 5^;write 1 0*1048576 / - / 5^ / -;write 1 0*1048576 / 5*^1");
    told(
        "write 1 0*1048576 / - / ^{1};write 1 0*1048571 / - / - / ^{1};write 1 0*1048570 / {1 5^}",
    );
    told("write 1 0*1048570 / {1} / 5^;write 1 0*1048576 5^ / -");
}

/// Cases whose ends complete whatever a case goes on from.
const WHOLE: [&str; 17] = [
    "judge 1 -",
    "certify 1 -",
    "build 1 -",
    "refusal 1 -",
    "part 1 -",
    "transfer 1 1 -",
    "house 1 1",
    "desk - / -",
    "word -",
    "write 1 - / -",
    "write 1 0*0 / 0*0 / 0*0 / 0*0",
    "write 1 {1:1 0*0} / {1:1 0*0} / {1:1 0*0} / {1:1 0*0}",
    "limits",
    "desk 0*0 / 0*0",
    "desk {1:1 0*0} / {1:1 0*0}",
    "refusal 1 0*0",
    "refusal 1 {1:1 0*0}",
];
const PIECES: [&str; 26] = [
    "0", "1", "5", "25", "255", "256", " ", " ", " ", " ", " ", "{", "{1", "{2 ", "}", "}", "} ",
    "*", "*0", "*3", ":", ":9", "-", "/", "}{", "\r",
];

fn goes_on(line: &str) -> bool {
    let ends = WHOLE
        .iter()
        .flat_map(|whole| (0..=whole.len()).map(|from| &whole[from..]));
    let mut completed = ends.map(|end| format!("{line}{end}"));
    completed.any(|line| column(&line) == 0)
}

fn random_line(random: &mut Random) -> String {
    let name = *random.pick(&WHOLE);
    let mut line = String::from(&name[..random.range(0, name.len())]);
    for _ in 0..random.below(12) {
        let piece = *random.pick(&PIECES);
        line.push_str(piece);
    }
    line
}

#[test]
fn no_case_goes_on_from_the_column() {
    let random = &mut Random::new(1);
    let mut lines: Vec<String> = (0..5000).map(|_| random_line(random)).collect();
    let full = [
        "0*1048576 5 ",
        "0*1048576 5*1",
        "0*1048576 {",
        "{1 0*1048570 5}",
    ];
    lines.extend(full.map(|part| format!("refusal 1 {part}")));
    let mut unreadable = 0;
    for line in lines {
        let column = column(&line);
        if column > 0 {
            assert!(goes_on(&line[..column - 1]), "{line}");
            assert!(column > line.len() || !goes_on(&line[..column]), "{line}");
            unreadable += 1;
        }
    }
    assert!(unreadable > 2000);
}
