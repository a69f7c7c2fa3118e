// A refusal: the number of its cause and the place, and its phrase (§4.2).

#[derive(Clone, Copy, Debug, PartialEq, Eq)]
pub struct Refusal {
    pub number: u8,
    pub place: usize,
}

impl Refusal {
    pub fn new(number: u8, place: usize) -> Refusal {
        Refusal { number, place }
    }

    /// The cause phrase of the table; none above 11.
    pub fn phrase(&self) -> Option<&'static str> {
        const PHRASES: [&str; 11] = [
            "sheet cut or too long",
            "record kind",
            "machine shape",
            "next state",
            "word",
            "word does not separate",
            "sequence",
            "not connected",
            "room",
            "answers",
            "not certified",
        ];
        let index = usize::from(self.number).checked_sub(1)?;
        PHRASES.get(index).copied()
    }
}
