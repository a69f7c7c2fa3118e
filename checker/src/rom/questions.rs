// How each of the two programs is asked for the house unit's sixteen entries, and how they are read
// from what it writes.

use crate::known::{house_entry, house_sheet};

/// What a program shows of the entries.
#[derive(Clone, Copy, Debug, PartialEq, Eq)]
pub enum Shown {
    Specified,
    Other,
    Nothing,
}

#[derive(Clone, Copy, Debug, PartialEq, Eq)]
pub enum Question {
    /// `bench house`, the unit's sheet.
    Sheet,
    /// The lines `house S C` of the case runner, and behind them two that lie outside the table:
    /// their answers stay, or it is the numbers that are read in another way.
    Lookup,
}

type Entries = Vec<(u32, u32)>;

impl Question {
    pub fn words(self) -> &'static [&'static str] {
        match self {
            Question::Sheet => &["house"],
            Question::Lookup => &[],
        }
    }

    pub fn input(self) -> String {
        match self {
            Question::Sheet => String::new(),
            Question::Lookup => places()
                .chain(OUTSIDE)
                .map(|place| asked(place) + "\n")
                .collect(),
        }
    }

    pub fn shown(self, output: &[u8]) -> Shown {
        let entries = match self {
            Question::Sheet => in_sheet(output),
            Question::Lookup => in_text(output),
        };
        match entries {
            None => Shown::Nothing,
            Some(entries) if entries == specified() => Shown::Specified,
            Some(_) => Shown::Other,
        }
    }
}

/// A state and a command of two digits.
const OUTSIDE: [(u8, u8); 2] = [(10, 0), (0, 10)];

/// The sixteen states and commands.
fn places() -> impl Iterator<Item = (u8, u8)> {
    (0..4).flat_map(|s| (0..4).map(move |c| (s, c)))
}

fn specified() -> Entries {
    let wide = |(next, answer)| (u32::from(next), u32::from(answer));
    places().map(|(s, c)| wide(house_entry(s, c))).collect()
}

/// The entries of a sheet that differs from the unit's in nothing else.
fn in_sheet(output: &[u8]) -> Option<Entries> {
    let sheet = house_sheet();
    let table = 8..40;
    let same = |range: std::ops::Range<usize>| output.get(range.clone()) == sheet.get(range);
    let framed =
        output.len() == sheet.len() && same(0..table.start) && same(table.end..sheet.len());
    let pair = |pair: &[u8]| (u32::from(pair[0]), u32::from(pair[1]));
    framed.then(|| output[table].chunks(2).map(pair).collect())
}

fn asked((s, c): (u8, u8)) -> String {
    format!("house {s} {c}")
}

/// The entries of an answered text: each line and its answer, and last how many lines there are.
fn in_text(output: &[u8]) -> Option<Entries> {
    let mut lines = std::str::from_utf8(output).ok()?.lines();
    let mut entry = |place| {
        let same = lines.next()? == asked(place);
        let (next, answer) = lines
            .next()?
            .strip_prefix("> next ")?
            .split_once(" answer ")?;
        same.then_some((next.parse().ok()?, answer.parse().ok()?))
    };
    let entries: Entries = places().map(&mut entry).collect::<Option<_>>()?;
    let outside: Entries = OUTSIDE.into_iter().map(&mut entry).collect::<Option<_>>()?;
    let ended = lines.eq(["> 18 cases"]);
    (ended && outside == [(255, 0); 2]).then_some(entries)
}

#[cfg(test)]
mod tests {
    use super::*;

    fn text(entries: &Entries) -> String {
        let outside = [(255, 0); 2];
        let mut text = String::new();
        for (place, (next, answer)) in places().chain(OUTSIDE).zip(entries.iter().chain(&outside)) {
            text += &format!("{}\n> next {next} answer {answer}\n", asked(place));
        }
        text + "> 18 cases\n"
    }

    #[test]
    fn sheets() {
        let ask = |sheet: &[u8]| Question::Sheet.shown(sheet);
        let mut sheet = house_sheet();
        assert_eq!(ask(&sheet), Shown::Specified);
        sheet[39] ^= 1;
        assert_eq!(ask(&sheet), Shown::Other);
        assert_eq!(ask(&sheet[..47]), Shown::Nothing);
        sheet[7] ^= 1;
        assert_eq!(ask(&sheet), Shown::Nothing);
        assert_eq!(ask(&[]), Shown::Nothing);
    }

    #[test]
    fn texts() {
        let ask = |text: &str| Question::Lookup.shown(text.as_bytes());
        let mut entries = specified();
        assert_eq!(ask(&text(&entries)), Shown::Specified);
        assert_eq!(ask(&(text(&entries) + "\n")), Shown::Nothing);
        entries[15].0 = 300;
        assert_eq!(ask(&text(&entries)), Shown::Other);
        assert_eq!(
            ask(&text(&entries).replace("next 300", "next x")),
            Shown::Nothing
        );
        assert_eq!(
            ask(&text(&entries).replace("house 3", "house 2")),
            Shown::Nothing
        );
    }
}
