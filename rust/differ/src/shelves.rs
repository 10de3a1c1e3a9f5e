//! A run of calls on a shelf: what is lent, one step by either reader, and what the calls so far say.

use crate::readers::{counted, refused, words, Answer};
use generate::shelves::{Label, Run, Step, CARD_WORDS};
use std::collections::BTreeMap;

/// The words or bytes after what is lent, which must not change.
const GUARD: usize = 8;
/// What guards and the room of get hold before.
const STALE: u8 = 0xA5;

/// The cards and the text of a shelf, and the room that the last get was lent, each with a guard after
/// what is lent.
#[derive(Clone, Debug, PartialEq, Eq)]
pub struct Lent {
    pub cards: Vec<u64>,
    pub text: Vec<u8>,
    pub room: Vec<u8>,
}

impl Lent {
    /// What a run begins with: a fresh shelf.
    pub fn new(run: &Run) -> Self {
        let mut cards = vec![0; run.words];
        let mut text = vec![0; run.bytes];
        cards.extend([u64::MAX; GUARD]);
        text.extend([STALE; GUARD]);
        Lent {
            cards,
            text,
            room: Vec::new(),
        }
    }

    /// The words and the text, without their guards.
    fn lend(&mut self) -> (&mut [u64], &mut [u8]) {
        let (words, bytes) = (self.cards.len() - GUARD, self.text.len() - GUARD);
        (&mut self.cards[..words], &mut self.text[..bytes])
    }

    /// Makes new room for a get.
    fn make_room(&mut self, step: &Step) {
        let size = match step {
            Step::Get(_, room) => *room,
            _ => 0,
        };
        self.room = vec![STALE; size + GUARD];
    }

    /// Sets a word or a byte, if it is there.
    fn set(&mut self, step: &Step) {
        let (cards, text) = self.lend();
        match step {
            Step::Word(place, value) => cards
                .iter_mut()
                .skip(*place)
                .take(1)
                .for_each(|word| *word = *value),
            Step::Byte(place, value) => text
                .iter_mut()
                .skip(*place)
                .take(1)
                .for_each(|byte| *byte = *value),
            _ => {}
        }
    }

    /// One step by the proved functions; the answer, if it is a call.
    pub fn proved(&mut self, step: &Step) -> Option<Answer> {
        self.make_room(step);
        let mut room = std::mem::take(&mut self.room);
        let (cards, text) = self.lend();
        let mut shelf = xmf::Shelf::new(cards, text);
        let answer = match step {
            Step::Put(label, sheet) => done(shelf.put(proved(label), sheet).map_err(numbers)),
            Step::Get(label, size) => {
                let got = shelf.get(proved(label), &mut room[..*size]);
                counted(got.map(<[u8]>::len).map_err(numbers))
            }
            Step::Drop(label) => done(shelf.drop(proved(label)).map_err(numbers)),
            Step::Word(..) | Step::Byte(..) => {
                self.set(step);
                self.room = room;
                return None;
            }
        };
        self.room = room;
        Some(answer)
    }

    /// One step by the plain functions.
    pub fn plain(&mut self, step: &Step) -> Option<Answer> {
        self.make_room(step);
        let mut room = std::mem::take(&mut self.room);
        let (cards, text) = self.lend();
        let numbers = |refusal: plain::Refusal| (refusal.number, refusal.place);
        let answer = match step {
            Step::Put(label, sheet) => {
                done(plain::shelf_put(cards, text, *label, sheet).map_err(numbers))
            }
            Step::Get(label, size) => {
                counted(plain::shelf_get(cards, text, *label, &mut room[..*size]).map_err(numbers))
            }
            Step::Drop(label) => done(plain::shelf_drop(cards, text, *label).map_err(numbers)),
            Step::Word(..) | Step::Byte(..) => {
                self.set(step);
                self.room = room;
                return None;
            }
        };
        self.room = room;
        Some(answer)
    }

    /// One call by the proved functions with the answer as words.
    pub fn words(&mut self, step: &Step, answer: &mut [u64]) {
        self.make_room(step);
        let mut room = std::mem::take(&mut self.room);
        let (cards, text) = self.lend();
        match step {
            Step::Put(label, sheet) => {
                xmf::words::shelf_put(cards, text, proved(label), sheet, answer)
            }
            Step::Get(label, size) => {
                xmf::words::shelf_get(cards, text, proved(label), &mut room[..*size], answer)
            }
            Step::Drop(label) => xmf::words::shelf_drop(cards, text, proved(label), answer),
            Step::Word(..) | Step::Byte(..) => {}
        }
        self.room = room;
    }
}

/// The sheets that are on the shelf, as the answers so far say.
#[derive(Clone, Debug, Default)]
pub struct Sheets {
    by_label: BTreeMap<Label, Vec<u8>>,
}

impl Sheets {
    /// Whether an answer fits what was put and not dropped: a fresh shelf of at most 16 cards that is
    /// changed by calls alone never meets 39, every refusal has its reason, and get gives back what was
    /// put.
    pub fn allow(&mut self, run: &Run, step: &Step, answer: &Answer, room: &[u8]) -> bool {
        let part = run.bytes / 16;
        let full = self.by_label.len() == run.words / CARD_WORDS;
        let number = match step {
            Step::Put([_, 0, _], _) | Step::Get([_, 0, _], _) | Step::Drop([_, 0, _]) => 27,
            Step::Put(label, _) if self.by_label.contains_key(label) => 29,
            Step::Put(_, sheet) if sheet.len() > part => 30,
            Step::Put(..) if full => 28,
            Step::Put(..) => 0,
            Step::Get(label, size) => match self.by_label.get(label) {
                None => 27,
                Some(sheet) if sheet.len() > *size => 22,
                Some(sheet) => {
                    let count = answer[2] as usize;
                    return answer[0] == 0 && count == sheet.len() && room[..count] == sheet[..];
                }
            },
            Step::Drop(label) if self.by_label.contains_key(label) => 0,
            Step::Drop(_) => 27,
            Step::Word(..) | Step::Byte(..) => return true,
        };
        if number == 0 {
            match step {
                Step::Put(label, sheet) => self.by_label.insert(*label, sheet.clone()),
                Step::Drop(label) => self.by_label.remove(label),
                _ => None,
            };
        }
        answer[0] == number
    }
}

/// What a desk is answered in a run, get's bytes included, by the proved functions; of the others only
/// the calls for which `others` says so are made.
pub fn answers(
    run: &Run,
    desk: u64,
    mut others: impl FnMut(usize) -> bool,
) -> Vec<(Answer, Vec<u8>)> {
    let mut lent = Lent::new(run);
    let mut answers = Vec::new();
    for (index, step) in run.steps.iter().enumerate() {
        if step.desk() == Some(desk) {
            if let Some(answer) = lent.proved(step) {
                answers.push((answer, lent.room.clone()));
            }
        } else if others(index) {
            lent.proved(step);
        }
    }
    answers
}

/// The label of the proved functions.
fn proved(label: &Label) -> xmf::Label {
    let [desk, call, boat] = *label;
    xmf::Label { desk, call, boat }
}

fn numbers(refusal: xmf::Refusal) -> (u64, u64) {
    (refusal.number, refusal.place)
}

/// The words of an answer without a value.
fn done(answer: Result<(), (u64, u64)>) -> Answer {
    match answer {
        Ok(()) => words(&[]),
        Err((number, place)) => refused(number, place),
    }
}
