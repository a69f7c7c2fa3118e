// What the program wrote against the model's text, and where they differ.

use crate::checking::process::Printed;

/// Longer lines are shown around the place where they differ.
const SHOWN: usize = 600;

/// The first line that differs.
#[derive(Debug, PartialEq, Eq)]
pub struct LineDifference<'a> {
    /// Counted from 1.
    pub number: usize,
    pub want: Option<&'a [u8]>,
    pub got: Option<&'a [u8]>,
}

/// Compares line by line, newlines included; none where the texts are the same.
pub fn first_difference<'a>(want: &'a [u8], got: &'a [u8]) -> Option<LineDifference<'a>> {
    if want == got {
        return None;
    }
    let newline = |byte: &u8| *byte == b'\n';
    let (mut wanted, mut gotten) = (want.split_inclusive(newline), got.split_inclusive(newline));
    (1..).find_map(|number| {
        let (want, got) = (wanted.next(), gotten.next());
        (want != got).then_some(LineDifference { number, want, got })
    })
}

impl LineDifference<'_> {
    /// The two lines, `first` and `second` naming where they come from.
    pub fn shown(&self, first: &str, second: &str) -> String {
        let (want, got) = (self.want.unwrap_or_default(), self.got.unwrap_or_default());
        let alike = want.iter().zip(got).take_while(|(one, other)| one == other);
        let place = alike.count();
        let side = |line: Option<&[u8]>| line.map_or(String::from("no line"), |l| cut(l, place));
        format!("{first}: {}\n{second}: {}", side(self.want), side(self.got))
    }
}

/// The line, or what stands around this place in it.
fn cut(line: &[u8], place: usize) -> String {
    if line.len() <= SHOWN {
        return format!("\"{}\"", line.escape_ascii());
    }
    let from = place.saturating_sub(SHOWN / 2);
    let to = line.len().min(place + SHOWN / 2);
    let shown = line[from.min(to)..to].escape_ascii();
    format!("{} bytes, from byte {from}: \"{shown}\"", line.len())
}

/// The whole standard output, nothing on standard error, status 0: else the
/// line that differs, 0 where it is not a line, and what differs.
pub fn program_difference(want: &[u8], got: &Printed) -> Option<(usize, String)> {
    let clean = got.error.is_empty() && got.status == Some(0);
    let streams = match clean {
        true => String::new(),
        false => streams(got),
    };
    match first_difference(want, &got.output) {
        None => (!clean).then_some((0, streams)),
        Some(found) => {
            let number = found.number;
            let sides = found.shown("expected", "came");
            let above = above(want, number).escape_ascii();
            let text = format!(
                "line {number} of what it writes differs\n{sides}\nline above: {above}\n{streams}"
            );
            Some((number, text))
        }
    }
}

/// The line above this one, empty for the first.
fn above(text: &[u8], number: usize) -> &[u8] {
    let line = number.checked_sub(2);
    let found = line.and_then(|line| text.split(|&byte| byte == b'\n').nth(line));
    found.unwrap_or_default()
}

fn streams(got: &Printed) -> String {
    let (error, status) = (got.error.escape_ascii(), got.status);
    format!("standard error \"{error}\", status {status:?}")
}

/// An input that is too long has to be told on standard error alone; else what
/// came.
pub fn untold(got: &Printed) -> Option<String> {
    let told = got.output.is_empty() && !got.error.is_empty() && got.status == Some(0);
    let (output, streams) = (got.output.len(), streams(got));
    (!told).then(|| {
        format!(
            "too long, to be told on standard error alone; \
             {output} bytes on standard output, {streams}"
        )
    })
}

#[cfg(test)]
mod tests {
    use super::*;

    #[test]
    fn lines_that_differ() {
        let number = |want: &[u8], got: &[u8]| first_difference(want, got).map(|it| it.number);
        assert_eq!(number(b"a\nb\n", b"a\nb\n"), None);
        assert_eq!(number(b"a\nb\n", b"a\nc\n"), Some(2));
        assert_eq!(number(b"a\nb\n", b"a\nb"), Some(2));
        assert_eq!(number(b"a\nb\n", b"a\n"), Some(2));
        assert_eq!(number(b"a\n", b"a\n\n"), Some(2));
        assert_eq!(number(b"", b"x"), Some(1));
        let found = first_difference(b"a\nb\n", b"a\nc\n").unwrap();
        assert_eq!(found.shown("one", "two"), "one: \"b\\n\"\ntwo: \"c\\n\"");
        let long = [vec![b'x'; 5000], vec![b'y'], vec![b'z'; 5000]].concat();
        let found = first_difference(&long, &[b'x'; 10_001]).unwrap();
        let shown = found.shown("one", "two");
        assert!(shown.len() < 3 * SHOWN && shown.contains("xyz"), "{shown}");
    }
}
