// The desk (§13): which command a unit of unknown state gets next, until it
// is home, in the start, or a stranger. Every order is found from all answers
// given so far; nothing is kept between them.

use crate::building::{blocks, transfer};
use crate::checks::{check, Service};
use crate::machine::Machine;
use crate::refusal::Refusal;

/// What the desk says before the first answer, and after each.
#[derive(Clone, Copy, Debug, PartialEq, Eq)]
pub enum Order {
    Command(u8),
    /// The number of commands that were sent.
    Home(usize),
    /// The number of the answer that told it, counted from 0.
    Stranger(usize),
}

impl Order {
    pub fn is_end(self) -> bool {
        !matches!(self, Order::Command(_))
    }
}

#[derive(Clone, Debug)]
pub struct Desk {
    pub machine: Machine,
    pub word: Vec<u8>,
    /// One for each state.
    ways: Vec<Way>,
}

/// What a unit that began in this state answers to the word; the commands that
/// then lead it to the start, and the answers to these.
#[derive(Clone, Debug)]
struct Way {
    read: Vec<u8>,
    commands: Vec<u8>,
    answers: Vec<u8>,
}

impl Desk {
    /// Checks 1 to 6 and 12, then building's 8 (§4.2).
    pub fn open(sheet: &[u8]) -> Result<Desk, Refusal> {
        let mut machine = Machine::default();
        let checked = check(sheet, Service::Desk, &mut machine)?;
        let word = checked.word.to_vec();
        blocks(&machine, &word)?;
        let ways = (0..machine.n).map(|state| Way::of(&machine, &word, state));
        let ways = ways.collect();
        Ok(Desk {
            machine,
            word,
            ways,
        })
    }

    /// The order after these answers, those behind its end among them.
    pub fn order(&self, answers: &[u8]) -> Order {
        let length = self.word.len();
        if answers.len() < length {
            return Order::Command(self.word[answers.len()]);
        }
        let (read, driven) = answers.split_at(length);
        // The word separates: there is no second one.
        match self.ways.iter().find(|way| way.read == read) {
            Some(way) => way.order(length, driven),
            None => Order::Stranger(length - 1),
        }
    }

    /// The order for the first command and the order after each answer.
    pub fn orders(&self, answers: &[u8]) -> Vec<Order> {
        let counts = 0..=answers.len();
        counts.map(|count| self.order(&answers[..count])).collect()
    }

    /// Every unit is finished with after at most so many commands.
    pub fn most_commands(&self) -> usize {
        self.word.len() + self.machine.n - 1
    }
}

impl Way {
    fn of(machine: &Machine, word: &[u8], state: usize) -> Way {
        let stands = machine.after(state, word);
        let commands = transfer(machine, stands, 0).expect("check 8 was made");
        Way {
            read: machine.answers(state, word),
            answers: machine.answers(stands, &commands),
            commands,
        }
    }

    /// The order after these answers to it, and to a word of this length before.
    fn order(&self, word: usize, given: &[u8]) -> Order {
        let wrong = given.iter().zip(&self.answers).position(|(a, b)| a != b);
        match (wrong, self.commands.get(given.len())) {
            (Some(place), _) => Order::Stranger(word + place),
            (None, Some(&command)) => Order::Command(command),
            (None, None) => Order::Home(word + self.commands.len()),
        }
    }
}

#[cfg(test)]
mod tests {
    use super::Order::{Command, Home, Stranger};
    use super::*;
    use crate::known::{house, twin};
    use crate::sheet::{record, sheet_of};

    fn desk(machine: Machine, word: &[u8]) -> Desk {
        Desk::open(&sheet_of(&machine, word, None, None)).unwrap()
    }

    fn house_desk() -> Desk {
        desk(house(), &[0, 1])
    }

    /// The orders as a short text: `0 1 home 2`.
    fn said(desk: &Desk, answers: &[u8]) -> String {
        let short = |order: &Order| match order {
            Command(command) => command.to_string(),
            Home(commands) => format!("home {commands}"),
            Stranger(answer) => format!("stranger {answer}"),
        };
        let orders = desk.orders(answers);
        orders.iter().map(short).collect::<Vec<_>>().join(" ")
    }

    /// State 0 goes 0, 1; 1 goes 1, 0; 2 stays and drives 3; 3 stays and drives
    /// 3 to 1 and 1 to 0.
    #[test]
    fn house_unit_from_each_state() {
        let desk = house_desk();
        assert_eq!(said(&desk, &[31, 6, 6]), "0 1 1 home 3");
        assert_eq!(said(&desk, &[2, 6]), "0 1 home 2");
        assert_eq!(said(&desk, &[31, 21, 6]), "0 1 3 home 3");
        assert_eq!(said(&desk, &[2, 21, 6, 6]), "0 1 3 1 home 4");
    }

    /// Its word leads from each state to the other.
    #[test]
    fn twin_from_each_state() {
        let desk = desk(twin(), &[0]);
        assert_eq!(said(&desk, &[0, 1]), "0 0 home 2");
        assert_eq!(said(&desk, &[1]), "0 home 1");
        let longer = self::desk(twin(), &[0, 1, 0]);
        assert_eq!(said(&longer, &[0, 5, 1]), "0 1 0 home 3");
        assert_eq!(said(&longer, &[1, 5, 0, 1]), "0 1 0 0 home 4");
    }

    #[test]
    fn strangers() {
        let desk = house_desk();
        // No state begins with 7: told at the word's last answer.
        assert_eq!(said(&desk, &[7]), "0 1");
        assert_eq!(said(&desk, &[7, 6]), "0 1 stranger 1");
        assert_eq!(said(&desk, &[31, 7]), "0 1 stranger 1");
        assert_eq!(said(&desk, &[6, 31]), "0 1 stranger 1");
        // Later: at the first and at the second answer behind the word.
        assert_eq!(said(&desk, &[31, 6, 21]), "0 1 1 stranger 2");
        assert_eq!(said(&desk, &[2, 21, 7]), "0 1 3 stranger 2");
        assert_eq!(said(&desk, &[2, 21, 6, 21]), "0 1 3 1 stranger 3");
        let twin = self::desk(twin(), &[0]);
        assert_eq!(said(&twin, &[5]), "0 stranger 0");
        assert_eq!(said(&twin, &[0, 0]), "0 0 stranger 1");
    }

    #[test]
    fn ends_are_repeated() {
        let desk = house_desk();
        assert_eq!(said(&desk, &[2, 6, 0]), "0 1 home 2 home 2");
        assert_eq!(said(&desk, &[2, 6, 2, 6]), "0 1 home 2 home 2 home 2");
        let known = "0 1 stranger 1 stranger 1 stranger 1";
        assert_eq!(said(&desk, &[7, 6, 2, 6]), known);
        let later = "0 1 3 stranger 2 stranger 2 stranger 2";
        assert_eq!(said(&desk, &[2, 21, 7, 6, 6]), later);
    }

    #[test]
    fn no_answers_and_few() {
        assert_eq!(said(&house_desk(), &[]), "0");
        assert_eq!(said(&house_desk(), &[2]), "0 1");
        assert_eq!(said(&house_desk(), &[2, 21]), "0 1 3");
        assert_eq!(house_desk().most_commands(), 5);
    }

    #[test]
    fn one_state() {
        let desk = desk(Machine::from_pairs(1, 1, &[(0, 77)]), &[0]);
        assert_eq!(said(&desk, &[77, 0]), "0 home 1 home 1");
        assert_eq!(said(&desk, &[76]), "0 stranger 0");
        assert_eq!(desk.most_commands(), 1);
    }

    #[test]
    fn refusals() {
        let refusal = |sheet: &[u8]| Desk::open(sheet).map(drop);
        let refused = |number, place| Err(Refusal::new(number, place));
        let of = |machine: &Machine, word: &[u8]| sheet_of(machine, word, None, None);
        let (mut outside, mut stuck) = (twin(), twin());
        outside.next[0] = 2;
        stuck.next[2] = 1;
        assert_eq!(refusal(&of(&twin(), &[0])[..22]), refused(1, 16));
        assert_eq!(refusal(&[]), refused(2, 0));
        assert_eq!(refusal(&of(&twin(), &[0])[..16]), refused(2, 16));
        assert_eq!(refusal(&record(1, &[2])), refused(2, 7));
        assert_eq!(refusal(&of(&outside, &[0])), refused(4, 8));
        assert_eq!(refusal(&of(&twin(), &[])), refused(5, 16));
        assert_eq!(refusal(&of(&twin(), &[0, 2])), refused(5, 23));
        assert_eq!(refusal(&of(&stuck, &[1])), refused(6, 1));
        assert_eq!(refusal(&of(&stuck, &[0])), refused(8, 1));
    }

    /// The start is reached from everywhere, and still building would refuse.
    #[test]
    fn check_8_is_that_of_building() {
        let only_home = Machine::from_pairs(2, 1, &[(0, 0), (0, 1)]);
        let sheet = sheet_of(&only_home, &[0], None, None);
        assert_eq!(Desk::open(&sheet).map(drop), Err(Refusal::new(8, 0)));
    }

    #[test]
    fn other_records_are_not_looked_at() {
        let sheet = |more: &[u8]| [&sheet_of(&twin(), &[0], None, None), more].concat();
        assert!(Desk::open(&sheet(&record(3, &[99; 5]))).is_ok());
        assert!(Desk::open(&sheet(&record(4, &[]))).is_ok());
        let cut = &record(3, &[0; 5])[..10];
        let refused = Err(Refusal::new(1, 23));
        assert_eq!(Desk::open(&sheet(cut)).map(drop), refused);
    }
}
