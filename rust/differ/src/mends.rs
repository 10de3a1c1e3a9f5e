//! Mending a header: what is lent, and what is left.

use crate::readers::{mended, Answer};
use generate::mends::Mend;
use generate::Lent;

/// The words or bytes after what is lent, which must not change.
const GUARD: usize = 16;

/// The tables and both buffers of one call, each with a guard after what is lent.
#[derive(Clone, Debug, PartialEq, Eq)]
pub struct Bench {
    pub nodes: Vec<u64>,
    pub items: Vec<u64>,
    pub copy: Vec<u8>,
    pub lines: Vec<u8>,
}

impl Bench {
    /// Tables and buffers that hold the values of a case.
    pub fn new(lent: &Lent, space: usize) -> Self {
        let (mut nodes, mut items, mut copy) = (lent.nodes(), lent.items(), lent.sheet());
        let mut lines = vec![lent.stale as u8 ^ 0x55; space];
        nodes.extend([lent.stale; GUARD]);
        items.extend([lent.stale; GUARD]);
        copy.extend([lent.stale as u8; GUARD]);
        lines.extend([lent.stale as u8; GUARD]);
        Bench {
            nodes,
            items,
            copy,
            lines,
        }
    }

    /// Mends a file by the proved reader.
    pub fn proved(&mut self, file: &[u8]) -> Answer {
        let [nodes, items] = [&mut self.nodes[..], &mut self.items[..]].map(lent);
        let [copy, lines] = [&mut self.copy[..], &mut self.lines[..]].map(lent);
        let answer = xmf::mend(file, nodes, items, copy, lines);
        mended(
            answer
                .map(|mended| [mended.copy, mended.lines])
                .map_err(|refusal| (refusal.number, refusal.place)),
        )
    }

    /// The same with the answer as words, in a buffer of any size.
    pub fn words(&mut self, file: &[u8], answer: &mut [u64]) {
        let [nodes, items] = [&mut self.nodes[..], &mut self.items[..]].map(lent);
        let [copy, lines] = [&mut self.copy[..], &mut self.lines[..]].map(lent);
        xmf::words::mend(file, nodes, items, copy, lines, answer);
    }

    /// Mends a file by the plain reader.
    pub fn plain(&mut self, mend: &Mend) -> Answer {
        let [nodes, items] = [&mut self.nodes[..], &mut self.items[..]].map(lent);
        let [copy, lines] = [&mut self.copy[..], &mut self.lines[..]].map(lent);
        let answer = plain::mend(&mend.file, nodes, items, copy, lines);
        mended(answer.map_err(|refusal| (refusal.number, refusal.place)))
    }

    /// Whether the proved reader reads a file into the tables.
    pub fn reads(&mut self, file: &[u8]) -> bool {
        let [nodes, items] = [&mut self.nodes[..], &mut self.items[..]].map(lent);
        xmf::read_tree(file, nodes, items).is_ok()
    }

    /// Whether nothing after what is lent has changed.
    pub fn are_guards_kept(&self, stale: u64) -> bool {
        let words = [&self.nodes, &self.items].map(|all| &all[all.len() - GUARD..]);
        let bytes = [&self.copy, &self.lines].map(|all| &all[all.len() - GUARD..]);
        words == [[stale; GUARD]; 2] && bytes == [[stale as u8; GUARD]; 2]
    }
}

/// What is lent of words or bytes with a guard.
fn lent<T>(all: &mut [T]) -> &mut [T] {
    let length = all.len() - GUARD;
    &mut all[..length]
}
