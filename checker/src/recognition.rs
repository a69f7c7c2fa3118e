// Fast recognition: congruence closure over the places, near-linear in N.
//
// d-recognition: a place where the word stands belongs to its state's class.
// t-recognition: equal commands from one class lead to one class, and a class
// that holds a recognised place is its state's class. So each class is a node
// of a tree whose roots are the n states; when the word is found at the end of
// a branch that led to another node, the two nodes and what hangs below them
// are merged (union-find). A place is recognised if its node became a root.

use crate::machine::{Machine, LONGEST_SEQUENCE, MOST_COMMANDS, MOST_STATES};

const NONE: u16 = u16::MAX;
const MOST_NODES: usize = MOST_STATES + LONGEST_SEQUENCE + 1;

/// What recognition found: how many places, and which entries are verified
/// (bit s*k + command).
#[derive(Clone, Copy, Debug, PartialEq, Eq)]
pub struct Found {
    pub recognised: usize,
    pub verified: u128,
}

/// The workspace, reused from call to call.
pub struct Recogniser {
    /// Union-find; a parent never has the higher number, so roots stay on top.
    parent: Vec<u16>,
    /// The node below a node for each command.
    below: Vec<[u16; MOST_COMMANDS]>,
    nodes: usize,
    /// How many of the nodes, the first ones, are states.
    roots: u16,
    /// The node of each place, NONE before the first recognised place.
    node_of: Vec<u16>,
    pending: Vec<(u16, u16)>,
}

impl Default for Recogniser {
    fn default() -> Self {
        Self::new()
    }
}

impl Recogniser {
    pub fn new() -> Recogniser {
        Recogniser {
            parent: vec![0; MOST_NODES],
            below: vec![[NONE; MOST_COMMANDS]; MOST_NODES],
            nodes: 0,
            roots: 0,
            node_of: vec![NONE; LONGEST_SEQUENCE + 1],
            pending: Vec::with_capacity(MOST_NODES),
        }
    }

    /// Recognises along a checked sequence; writes marks 0 to N, which must be
    /// all of `marks`.
    pub fn recognise(
        &mut self,
        machine: &Machine,
        word: &[u8],
        sequence: &[u8],
        marks: &mut [u8],
    ) -> Found {
        self.nodes = 0;
        self.roots = machine.n as u16;
        for _ in 0..machine.n {
            self.new_node();
        }
        self.walk(machine, word, sequence);
        self.flatten();
        self.mark(machine, sequence, marks)
    }

    /// Gives each place its node, merging where the word stands.
    fn walk(&mut self, machine: &Machine, word: &[u8], sequence: &[u8]) {
        let mut ahead = Window::new(word, sequence);
        let mut state = 0;
        let mut node = if ahead.word_stands() { 0 } else { NONE };
        self.node_of[0] = node;
        for (place, &command) in (1..).zip(sequence) {
            state = machine.step(state, command);
            ahead.advance();
            if ahead.word_stands() {
                if node != NONE {
                    self.lead(node, command, state as u16);
                }
                node = state as u16;
            } else if node != NONE {
                node = self.follow(node, command);
            }
            self.node_of[place] = node;
        }
    }

    fn new_node(&mut self) -> u16 {
        let node = self.nodes as u16;
        self.parent[self.nodes] = node;
        self.below[self.nodes] = [NONE; MOST_COMMANDS];
        self.nodes += 1;
        node
    }

    /// The class of a node, halving the path to it.
    fn find(&mut self, mut node: u16) -> u16 {
        loop {
            let above = self.parent[usize::from(node)];
            if above == node {
                return node;
            }
            let over = self.parent[usize::from(above)];
            self.parent[usize::from(node)] = over;
            node = over;
        }
    }

    /// The class that the command leads to, a new one if there is none yet.
    fn follow(&mut self, node: u16, command: u8) -> u16 {
        let known = self.below[usize::from(node)][usize::from(command)];
        if known < self.roots {
            return known;
        }
        let class = match known {
            NONE => self.new_node(),
            _ => self.find(known),
        };
        self.below[usize::from(node)][usize::from(command)] = class;
        class
    }

    /// From now on the command leads from the node to the root of a state.
    fn lead(&mut self, node: u16, command: u8, root: u16) {
        let known = self.below[usize::from(node)][usize::from(command)];
        if known == NONE {
            self.below[usize::from(node)][usize::from(command)] = root;
        } else if known != root {
            self.merge(known, root);
        }
    }

    /// Merges two classes and, command by command, all that lies below both.
    fn merge(&mut self, one: u16, other: u16) {
        self.pending.push((one, other));
        while let Some((one, other)) = self.pending.pop() {
            let (one, other) = (self.find(one), self.find(other));
            if one == other {
                continue;
            }
            let (kept, gone) = (one.min(other), one.max(other));
            self.parent[usize::from(gone)] = kept;
            let lost = self.below[usize::from(gone)];
            let row = &mut self.below[usize::from(kept)];
            for (slot, node) in row.iter_mut().zip(lost) {
                if *slot == NONE {
                    *slot = node;
                } else if node != NONE && node != *slot {
                    self.pending.push((node, *slot));
                }
            }
        }
    }

    /// Makes every node's parent its class: parents have lower numbers.
    fn flatten(&mut self) {
        for node in 0..self.nodes {
            self.parent[node] = self.parent[usize::from(self.parent[node])];
        }
    }

    /// Writes the marks, counts them and collects the verified entries.
    fn mark(&self, machine: &Machine, sequence: &[u8], marks: &mut [u8]) -> Found {
        let root_of = |place: usize| match self.node_of[place] {
            NONE => NONE,
            node => self.parent[usize::from(node)],
        };
        let n = machine.n as u16;
        let mut root = root_of(0);
        marks[0] = u8::from(root < n);
        let mut recognised = usize::from(root < n);
        let mut verified = 0u128;
        for (place, &command) in (1..).zip(sequence) {
            let reached = root_of(place);
            marks[place] = u8::from(reached < n);
            recognised += usize::from(reached < n);
            if root < n && reached < n {
                verified |= 1 << (usize::from(root) * machine.k + usize::from(command));
            }
            root = reached;
        }
        Found {
            recognised,
            verified,
        }
    }
}

/// The next L commands, four bits each, moved along the sequence.
struct Window<'a> {
    word: u64,
    mask: u64,
    seen: u64,
    /// Commands not yet in the window.
    rest: std::slice::Iter<'a, u8>,
    /// False once the sequence ends inside the window.
    full: bool,
}

impl<'a> Window<'a> {
    fn new(word: &[u8], sequence: &'a [u8]) -> Window<'a> {
        let pack = |commands: &[u8]| {
            let join = |bits: u64, &command: &u8| (bits << 4) | u64::from(command);
            commands.iter().fold(0, join)
        };
        let length = word.len().min(sequence.len());
        Window {
            word: pack(word),
            mask: u64::MAX >> (64 - 4 * word.len()),
            seen: pack(&sequence[..length]),
            rest: sequence[length..].iter(),
            full: length == word.len(),
        }
    }

    fn advance(&mut self) {
        match self.rest.next() {
            Some(&command) => self.seen = ((self.seen << 4) | u64::from(command)) & self.mask,
            None => self.full = false,
        }
    }

    fn word_stands(&self) -> bool {
        self.full && self.seen == self.word
    }
}
