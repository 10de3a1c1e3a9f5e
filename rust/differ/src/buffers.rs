//! What is lent to the readers, and what it holds before a question.

use crate::readers::Lent;
use generate::cases::{ALL_ITEM_WORDS, ALL_NODE_WORDS, ALL_ROOM};
use generate::random::Random;

/// The most words that a case lends past a full table.
const MORE: usize = 300;
/// The words or bytes after what is lent, which no reader may change.
const GUARD: usize = 16;
/// The numbers of the places at which [`Noise`] may start.
const STARTS: usize = 4096;
/// What the guards hold.
const MARK: u64 = 0xA5A5_A5A5_A5A5_A5A5;

/// Values that the lent words and bytes hold before a question.
pub struct Noise {
    words: Vec<u64>,
    bytes: Vec<u8>,
}

impl Noise {
    /// Values from a seed.
    pub fn new(seed: u64) -> Self {
        let mut random = Random::new(seed);
        Noise {
            words: (0..ALL_ITEM_WORDS + MORE + STARTS)
                .map(|_| random.word())
                .collect(),
            bytes: random.bytes(ALL_ROOM + STARTS),
        }
    }

    /// `count` bytes that are fixed by a number.
    pub fn bytes(&self, number: u64, count: usize) -> &[u8] {
        let start = Random::new(number).below(STARTS);
        &self.bytes[start..][..count]
    }
}

/// The tables and the sheet of one reader. Only a first part of each is lent.
pub struct Buffers {
    nodes: Vec<u64>,
    items: Vec<u64>,
    sheet: Vec<u8>,
    sizes: [usize; 3],
}

impl Buffers {
    /// Buffers for all cases.
    pub fn new() -> Self {
        Buffers {
            nodes: vec![0; ALL_NODE_WORDS + MORE + GUARD],
            items: vec![0; ALL_ITEM_WORDS + MORE + GUARD],
            sheet: vec![0; ALL_ROOM + GUARD],
            sizes: [0; 3],
        }
    }

    /// Chooses how much is lent and sets the guards after it. The rest is left as it was.
    pub fn resize(&mut self, lent: &generate::Lent) {
        self.sizes = [lent.node_words, lent.item_words, lent.room];
        self.nodes[lent.node_words..][..GUARD].fill(MARK);
        self.items[lent.item_words..][..GUARD].fill(MARK);
        self.sheet[lent.room..][..GUARD].fill(MARK as u8);
    }

    /// Sets all that is lent to zeros.
    pub fn clear(&mut self) {
        let Lent {
            nodes,
            items,
            sheet,
        } = self.lend();
        nodes.fill(0);
        items.fill(0);
        sheet.fill(0);
    }

    /// Sets the lent tables to values of a noise that are fixed by a number.
    pub fn fill_tables(&mut self, noise: &Noise, number: u64) {
        let start = Random::new(number).below(STARTS);
        let Lent { nodes, items, .. } = self.lend();
        nodes.copy_from_slice(&noise.words[start..][..nodes.len()]);
        items.copy_from_slice(&noise.words[start..][..items.len()]);
    }

    /// Sets the lent sheet to values of a noise that are fixed by a number.
    pub fn fill_sheet(&mut self, noise: &Noise, number: u64) {
        let start = Random::new(number).below(STARTS);
        let sheet = self.lend().sheet;
        sheet.copy_from_slice(&noise.bytes[start..][..sheet.len()]);
    }

    /// What is lent.
    pub fn lend(&mut self) -> Lent<'_> {
        let [nodes, items, sheet] = self.sizes;
        Lent {
            nodes: &mut self.nodes[..nodes],
            items: &mut self.items[..items],
            sheet: &mut self.sheet[..sheet],
        }
    }

    /// The node words that are lent.
    pub fn nodes(&self) -> &[u64] {
        &self.nodes[..self.sizes[0]]
    }

    /// The item words that are lent.
    pub fn items(&self) -> &[u64] {
        &self.items[..self.sizes[1]]
    }

    /// The bytes for a sheet that are lent.
    pub fn sheet(&self) -> &[u8] {
        &self.sheet[..self.sizes[2]]
    }

    /// Whether nothing after what is lent has changed.
    pub fn are_guards_kept(&self) -> bool {
        let [nodes, items, sheet] = self.sizes;
        self.nodes[nodes..][..GUARD] == [MARK; GUARD]
            && self.items[items..][..GUARD] == [MARK; GUARD]
            && self.sheet[sheet..][..GUARD] == [MARK as u8; GUARD]
    }
}
