// Hostile sequences: chains of recognitions, each of which enables just one more.
//
// The machine answers command 0, which is the word, with its state and stays; 1 to 6 stay too,
// 7 leads to the next state. A link is a string of three commands 1 to 6 from its state. Where a
// string goes from a recognised place to a recognised place, its link is recognised: then so is
// the end of the string after every other recognised place of that state. A block, 0 and the
// strings of two links that follow one another and 0 again, passes recognition on from the first
// to the second. A layout is an order of the blocks: it decides how often a certifier that sweeps
// along the sequence has to start again.
//
// Covers are for a certifier that keeps only the first place of those that it knows to be alike:
// each string stands once more before all blocks, so that the end of the string in the block,
// where the recognition would be passed on, is never that first place.

use checker::machine::{Machine, LONGEST_SEQUENCE, MOST_COMMANDS, MOST_STATES};
use checker::random::Random;

/// The separating word of the chains' machine.
pub const WORD: [u8; 1] = [0];
/// The state whose strings fill the rest of a sequence; links have the states below it.
const FILLER: usize = MOST_STATES - 1;
const NEXT_STATE: u8 = 7;
/// No string of a link begins like this: covers end so.
const JUNK: [u8; 2] = [1, 1];

/// A link is its string.
type Link = [u8; 3];

/// A sequence with its name.
pub struct Chain {
    pub name: &'static str,
    pub sequence: Vec<u8>,
}

/// In which order the blocks of one state stand.
#[derive(Clone, Copy)]
enum Order {
    Forwards,
    Backwards,
    Shuffled,
    /// Pairs turned round, so that the chain goes one block back, three forward.
    Zigzag,
    /// All blocks of odd number, then all of even number: the same over long ways.
    Halves,
}

struct Layout {
    name: &'static str,
    order: Order,
    covers: bool,
    /// How many links at most; what is left of the sequence is filled.
    links: usize,
}

const ALL: usize = usize::MAX;

const fn layout(name: &'static str, order: Order, covers: bool, links: usize) -> Layout {
    Layout {
        name,
        order,
        covers,
        links,
    }
}

const LAYOUTS: [Layout; 7] = [
    layout("forwards", Order::Forwards, false, ALL),
    layout("backwards", Order::Backwards, false, ALL),
    layout("shuffled", Order::Shuffled, false, ALL),
    layout("zigzag", Order::Zigzag, false, ALL),
    layout("zigzag over long ways", Order::Halves, false, ALL),
    layout("covered, backwards", Order::Backwards, true, ALL),
    layout("covered, backwards, shorter", Order::Backwards, true, 1500),
];

/// The machine of all chains.
pub fn machine() -> Machine {
    let (n, k) = (MOST_STATES, MOST_COMMANDS);
    let mut pairs = Vec::new();
    for state in 0..n {
        for command in 0..k as u8 {
            let next = if command == NEXT_STATE {
                (state + 1) % n
            } else {
                state
            };
            let answer = if command == WORD[0] { state } else { n };
            pairs.push((next as u8, answer as u8));
        }
    }
    Machine::from_pairs(n, k, &pairs)
}

/// A chain of each layout.
pub fn chains(random: &mut Random) -> Vec<Chain> {
    let links = links(random);
    let of = |layout: &Layout| Chain {
        name: layout.name,
        sequence: sequence(&links, layout, random),
    };
    LAYOUTS.iter().map(of).collect()
}

/// All strings of three commands 1 to 6.
fn strings() -> Vec<Link> {
    let command = |number: usize| (number % 6) as u8 + 1;
    let string = |number| [command(number / 36), command(number / 6), command(number)];
    (0..216).map(string).collect()
}

/// The links of each state, in the order of the chain. A state's last one leads to the next state.
fn links(random: &mut Random) -> Vec<Vec<Link>> {
    let of_state = |_| {
        let mut links = strings();
        links.retain(|link| link[..2] != JUNK);
        shuffle(&mut links, random);
        links.push([2, 2, NEXT_STATE]);
        links
    };
    (0..FILLER).map(of_state).collect()
}

fn shuffle<T>(items: &mut [T], random: &mut Random) {
    for last in (1..items.len()).rev() {
        items.swap(last, random.below(last + 1));
    }
}

/// As many links as fit, laid out, and filler up to the longest sequence.
fn sequence(links: &[Vec<Link>], layout: &Layout, random: &mut Random) -> Vec<u8> {
    let start = random.clone();
    let most = layout.links.min(links.iter().map(Vec::len).sum());
    let fits = |count: &usize| {
        let written = Writer::lay_out(links, layout, *count, &mut start.clone());
        written.sequence.len() <= LONGEST_SEQUENCE
    };
    let count = (1..=most).rev().find(fits).unwrap_or(1);
    let mut writer = Writer::lay_out(links, layout, count, random);
    writer.fill(random);
    writer.sequence
}

/// A sequence as it is written, and the state that it leads to.
struct Writer {
    sequence: Vec<u8>,
    state: usize,
}

impl Writer {
    /// The first `count` links.
    fn lay_out(links: &[Vec<Link>], layout: &Layout, count: usize, random: &mut Random) -> Writer {
        let mut writer = Writer {
            sequence: Vec::new(),
            state: 0,
        };
        // Where the word stands twice, command 0 leads to a recognised place: so it does everywhere.
        for _ in 0..MOST_STATES {
            writer.put(&[WORD[0], WORD[0], NEXT_STATE]);
        }
        let mut before = None;
        let mut left = count;
        for (state, links) in links.iter().enumerate() {
            let links = &links[..links.len().min(left)];
            left -= links.len();
            if links.is_empty() {
                break;
            }
            if layout.covers {
                writer.covers(state, links);
            }
            writer.blocks(state, before, links, layout.order, random);
            before = links.last().copied();
        }
        writer.start(FILLER);
        writer
    }

    fn put(&mut self, commands: &[u8]) {
        self.sequence.extend(commands);
        let steps = commands.iter().filter(|&&c| c == NEXT_STATE).count();
        self.state = (self.state + steps) % MOST_STATES;
    }

    /// Goes on from a recognised place of the state.
    fn start(&mut self, state: usize) {
        self.put(&WORD);
        if self.state != state {
            while self.state != state {
                self.put(&[NEXT_STATE]);
            }
            self.put(&WORD);
        }
    }

    /// Every string once, in two rows: links that follow one another must not stand side by side.
    fn covers(&mut self, state: usize, links: &[Link]) {
        for row in 0..2 {
            self.start(state);
            for link in links.iter().skip(row).step_by(2) {
                if link[2] != NEXT_STATE {
                    self.put(link);
                }
            }
            self.put(&JUNK);
        }
    }

    /// The blocks that pass recognition on to each of the links; `before` is the link before them.
    fn blocks(
        &mut self,
        state: usize,
        before: Option<Link>,
        links: &[Link],
        order: Order,
        random: &mut Random,
    ) {
        for index in ordered(links.len(), order, random) {
            if index > 0 {
                self.start(state);
                self.put(&links[index - 1]);
            } else if let Some(before) = before {
                self.start(state - 1);
                self.put(&before);
            } else {
                self.start(state);
            }
            self.put(&links[index]);
        }
    }

    /// Strings of the filler's state: first all, then random ones.
    fn fill(&mut self, random: &mut Random) {
        let strings = strings();
        for string in &strings {
            self.put(string);
            self.put(&WORD);
        }
        while self.sequence.len() < LONGEST_SEQUENCE {
            let string: &Link = random.pick(&strings);
            self.put(string);
            self.put(&WORD);
        }
        self.sequence.truncate(LONGEST_SEQUENCE);
    }
}

/// The numbers of the blocks in the order in which they stand.
fn ordered(count: usize, order: Order, random: &mut Random) -> Vec<usize> {
    let mut blocks: Vec<usize> = (0..count).collect();
    match order {
        Order::Forwards => (),
        Order::Backwards => blocks.reverse(),
        Order::Shuffled => shuffle(&mut blocks, random),
        Order::Zigzag => blocks.chunks_mut(2).for_each(<[usize]>::reverse),
        Order::Halves => blocks.sort_by_key(|block| block % 2 == 0),
    }
    blocks
}
