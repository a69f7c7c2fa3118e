// Spoils a whole run of the program `cases`.

use crate::checking::process::Printed;
use crate::notation::{lines, Line, MOST_INPUT};

/// The last line's number, plus one.
pub fn count_more(seen: &mut Printed) {
    let text = seen.output.strip_suffix(b" cases\n").unwrap_or_default();
    let start = text.iter().rposition(|byte| !byte.is_ascii_digit());
    let (before, number) = text.split_at(start.map_or(0, |place| place + 1));
    let number = String::from_utf8_lossy(number).parse::<usize>();
    if let Ok(number) = number {
        seen.output = [before, format!("{} cases\n", number + 1).as_bytes()].concat();
    }
}

/// The first comment of the input.
pub fn comment_lost(input: &[u8], seen: &mut Printed) {
    let comment = lines(input).find_map(|line| match line {
        Line::Copied(line @ [b'#', ..]) => Some(line),
        _ => None,
    });
    let mut lost = false;
    let kept = |line: &&[u8]| {
        let is_it = !lost && comment.is_some_and(|text| line.strip_suffix(b"\n") == Some(text));
        lost |= is_it;
        !is_it
    };
    let pieces = seen.output.split_inclusive(|&byte| byte == b'\n');
    seen.output = pieces.filter(kept).flatten().copied().collect();
}

/// The input's first answer of before, in front.
pub fn answer_kept(input: &[u8], seen: &mut Printed) {
    let answer = lines(input).find_map(|line| match line {
        Line::Dropped(line) => Some(line),
        _ => None,
    });
    if let Some(answer) = answer {
        seen.output = [answer, b"\n", &seen.output].concat();
    }
}

pub fn too_long_taken(input: &[u8], seen: &mut Printed) {
    if input.len() > MOST_INPUT {
        seen.output = b"> 0 cases\n".to_vec();
    }
}

pub fn newline_lost(seen: &mut Printed) {
    seen.output.pop();
}
