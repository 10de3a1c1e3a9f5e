//! Long runs of calls on a shelf, of two or three desks.

use crate::random::Random;

/// The number of words of a card.
pub const CARD_WORDS: usize = 4;

/// A run of calls on a shelf that is all zero at first.
#[derive(Clone, Debug)]
pub struct Run {
    /// The number of words that are lent for cards; up to three of them are left over.
    pub words: usize,
    /// The number of bytes of the text.
    pub bytes: usize,
    /// What is done, in order.
    pub steps: Vec<Step>,
    /// Whether cards and text are changed by calls alone.
    pub calls_alone: bool,
}

/// A desk, a call number and a boat number.
pub type Label = [u64; 3];

/// One step of a run.
#[derive(Clone, Debug)]
pub enum Step {
    /// A sheet is put.
    Put(Label, Vec<u8>),
    /// A sheet is got, into room of this many bytes.
    Get(Label, usize),
    /// A sheet is dropped.
    Drop(Label),
    /// A word of the cards is set, by no call.
    Word(usize, u64),
    /// A byte of the text is set, by no call.
    Byte(usize, u8),
}

impl Step {
    /// The desk, if it is a call.
    pub fn desk(&self) -> Option<u64> {
        match self {
            Step::Put([desk, ..], _) | Step::Get([desk, ..], _) | Step::Drop([desk, ..]) => {
                Some(*desk)
            }
            Step::Word(..) | Step::Byte(..) => None,
        }
    }
}

/// Makes a run. In one of four, words and bytes are also changed by no call, so that the shelf may be
/// damaged. Few labels and few cards make refusals as frequent as answers.
pub fn run(seed: u64, number: u64) -> Run {
    let random = &mut Random::for_case(seed, number);
    let cards = match random.below(8) {
        0 => random.between(15, 18),
        1 => random.below(2),
        _ => random.between(2, 8),
    };
    let words = cards * CARD_WORDS + random.below(CARD_WORDS);
    let bytes = match random.below(6) {
        0 => random.below(40),
        1 => 16 * random.between(1, 30),
        _ => random.between(16, 500),
    };
    let part = bytes / 16;
    let desks = random.between(2, 3);
    let calls_alone = !random.once_in(4);
    let count = random.between(20, 160);
    // Labels that were put, which are often those of the next calls.
    let mut known = Vec::new();
    let steps = (0..count)
        .map(|_| match random.below(20) {
            0..=7 => {
                let new = label(random, desks);
                known.push(new);
                Step::Put(new, sheet(random, part))
            }
            8..=13 => {
                let room = match random.below(4) {
                    0 => random.below(part + 2),
                    _ => part + random.below(3),
                };
                Step::Get(again(random, desks, &known), room)
            }
            14 if !calls_alone => {
                let value = match random.below(4) {
                    0 => random.word(),
                    1 => part as u64 + random.below(3) as u64,
                    _ => random.below(4) as u64,
                };
                Step::Word(random.below(words + 1), value)
            }
            15 if !calls_alone => Step::Byte(random.below(bytes + 1), random.byte()),
            _ => Step::Drop(again(random, desks, &known)),
        })
        .collect();
    Run {
        words,
        bytes,
        steps,
        calls_alone,
    }
}

/// A label that was put, one of the last eight, or any.
fn again(random: &mut Random, desks: usize, known: &[Label]) -> Label {
    match random.below(4) {
        0 => label(random, desks),
        _ => {
            let last = &known[known.len().saturating_sub(8)..];
            match last {
                [] => label(random, desks),
                _ => random.pick(last),
            }
        }
    }
}

/// A label of one of the desks. Call 0 and numbers of 64 bits occur.
fn label(random: &mut Random, desks: usize) -> Label {
    let desk = 1 + random.below(desks) as u64;
    let call = match random.below(16) {
        0 => 0,
        1 => random.pick(&[u64::MAX, 1 << 32, 1 << 63]),
        _ => 1 + random.below(6) as u64,
    };
    let boat = match random.below(16) {
        0 => u64::MAX,
        _ => random.below(2) as u64,
    };
    // Sometimes a desk with a large number, or the number 0.
    match random.below(40) {
        0 => [0, call, boat],
        1 => [u64::MAX, call, boat],
        _ => [desk, call, boat],
    }
}

/// A sheet, mostly no longer than a part.
fn sheet(random: &mut Random, part: usize) -> Vec<u8> {
    let length = match random.below(8) {
        0 => part + 1 + random.below(2),
        1 => part,
        2 => 0,
        _ => random.below(part + 1),
    };
    random.bytes(length)
}
