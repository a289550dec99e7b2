//! The image: records of nodes and types, which get their numbers and slots last.

use crate::prng::Rng;

pub const MOST_NODES: usize = 2048;
pub const MOST_TYPES: usize = 512;
pub const MOST_ROOTS: usize = 512;
pub const MOST_SLOTS: usize = 4096;
pub const MOST_WORDS: usize = 8192;

/// A word of a record; the other nodes and types stand there by their place in [`Image`].
pub enum Word {
    Is(u32),
    Node(usize),
    Type(usize),
}

pub struct Rec {
    pub kind: u32,
    pub words: Vec<Word>,
    /// how many slots a node owns; 0 for a type
    pub slots: usize,
}

/// How records get their numbers.
#[derive(Clone, Copy, Debug, Default)]
pub struct Numbering {
    /// nodes and types are numbered in any order that puts parts first, else as they were added
    pub shuffled: bool,
    /// slots are handed out in any order and with gaps
    pub loose_slots: bool,
    /// there are at least so many slots
    pub least_slots: usize,
}

#[derive(Default)]
pub struct Image {
    pub nodes: Vec<Rec>,
    pub types: Vec<Rec>,
    pub roots: Vec<usize>,
}

impl Image {
    pub fn node(&mut self, kind: u32, slots: usize, words: Vec<Word>) -> usize {
        self.nodes.push(Rec { kind, words, slots });
        self.nodes.len() - 1
    }

    pub fn ty(&mut self, kind: u32, words: Vec<Word>) -> usize {
        let slots = 0;
        self.types.push(Rec { kind, words, slots });
        self.types.len() - 1
    }

    /// How many words it has.
    pub fn len(&self) -> usize {
        let nodes = self.nodes.iter().map(|n| 2 + n.words.len());
        let types = self.types.iter().map(|t| 1 + t.words.len());
        4 + self.roots.len() + nodes.chain(types).sum::<usize>()
    }

    /// The words; `None` where they pass a limit.
    pub fn words(&self, rng: &mut Rng, how: Numbering) -> Option<Vec<u32>> {
        let nodes = order(rng, how.shuffled, &self.nodes, |w| match w {
            Word::Node(part) => Some(*part),
            _ => None,
        });
        let types = order(rng, how.shuffled, &self.types, |w| match w {
            Word::Type(part) => Some(*part),
            _ => None,
        });
        let (slots, slot_count) = self.slots(rng, &nodes, how);
        let counts = [nodes.len(), types.len(), self.roots.len(), slot_count];
        let mut words = counts.map(|n| n as u32).to_vec();
        let (node_numbers, type_numbers) = (numbers(&nodes), numbers(&types));
        words.extend(self.roots.iter().map(|&root| node_numbers[root]));
        let word = |w: &Word| match w {
            Word::Is(w) => *w,
            Word::Node(at) => node_numbers[*at],
            Word::Type(at) => type_numbers[*at],
        };
        for &at in &nodes {
            let rec = &self.nodes[at];
            words.extend([rec.kind << 28 | (2 + rec.words.len() as u32), slots[at]]);
            words.extend(rec.words.iter().map(word));
        }
        for &at in &types {
            let rec = &self.types[at];
            words.push(rec.kind << 28 | (1 + rec.words.len() as u32));
            words.extend(rec.words.iter().map(word));
        }
        let most = [MOST_NODES, MOST_TYPES, MOST_ROOTS, MOST_SLOTS];
        let fits = counts.iter().zip(most).all(|(count, most)| *count <= most);
        (fits && words.len() <= MOST_WORDS).then_some(words)
    }

    /// The first slot of each node, and how many slots there are.
    fn slots(&self, rng: &mut Rng, nodes: &[usize], how: Numbering) -> (Vec<u32>, usize) {
        let mut turn = nodes.to_vec();
        if how.loose_slots {
            rng.shuffle(&mut turn);
        }
        let (mut slots, mut next) = (vec![0; nodes.len()], 0);
        for at in turn {
            if how.loose_slots && rng.chance(10) {
                next += rng.between(1, 3);
            }
            slots[at] = next as u32;
            next += self.nodes[at].slots;
        }
        if how.loose_slots {
            next += rng.below(4);
        }
        (slots, next.max(how.least_slots))
    }
}

/// The place in `records` that gets each number: parts come before what they are parts of.
fn order(
    rng: &mut Rng,
    shuffled: bool,
    records: &[Rec],
    part: impl Fn(&Word) -> Option<usize>,
) -> Vec<usize> {
    if !shuffled {
        return (0..records.len()).collect();
    }
    let mut owners = vec![Vec::new(); records.len()];
    let mut missing = vec![0; records.len()];
    for (at, rec) in records.iter().enumerate() {
        for part in rec.words.iter().filter_map(&part) {
            owners[part].push(at);
            missing[at] += 1;
        }
    }
    let mut ready: Vec<usize> = (0..records.len()).filter(|&at| missing[at] == 0).collect();
    let mut order = Vec::new();
    while !ready.is_empty() {
        let next = ready.swap_remove(rng.below(ready.len()));
        order.push(next);
        for &owner in &owners[next] {
            missing[owner] -= 1;
            if missing[owner] == 0 {
                ready.push(owner);
            }
        }
    }
    order
}

/// The number of each place.
fn numbers(order: &[usize]) -> Vec<u32> {
    let mut numbers = vec![0; order.len()];
    for (number, &at) in order.iter().enumerate() {
        numbers[at] = number as u32;
    }
    numbers
}
