//! The shelf: cards of four words, and a text of sixteen equal parts with their sheets.

use crate::Refusal;

/// The words of a card: desk, call, boat and the length of its sheet.
const CARD_WORDS: usize = 4;
/// The most cards, and the number of parts.
const MOST_CARDS: usize = 16;

/// A desk, a call number and a boat number.
pub type Label = [u64; 3];

/// The cards, each in its words. Words that are left over are no card.
fn cards(words: &[u64]) -> impl Iterator<Item = &[u64]> {
    words.chunks_exact(CARD_WORDS)
}

/// Whether a card is taken.
fn is_taken(card: &[u64]) -> bool {
    card[1] != 0
}

/// Refuses a damaged shelf, and call 0.
fn check(words: &[u64], text: &[u8], label: Label) -> Result<(), Refusal> {
    let part = (text.len() / MOST_CARDS) as u64;
    let mut taken: Vec<&[u64]> = cards(words).filter(|card| is_taken(card)).collect();
    let long = taken.iter().any(|card| card[3] > part);
    let all = taken.len();
    taken.sort();
    taken.dedup_by_key(|card| &card[..3]);
    if cards(words).count() > MOST_CARDS || long || taken.len() < all {
        return Err(Refusal::at(39, 0));
    }
    match label[1] {
        0 => Err(Refusal::at(27, 0)),
        _ => Ok(()),
    }
}

/// The number of a label's card.
fn position(words: &[u64], label: Label) -> Option<usize> {
    cards(words).position(|card| card[..3] == label)
}

/// The part of the text with a number.
fn part(text: &[u8], number: usize) -> std::ops::Range<usize> {
    let size = text.len() / MOST_CARDS;
    number * size..(number + 1) * size
}

/// Sets a card and its part.
fn set(words: &mut [u64], text: &mut [u8], number: usize, card: [u64; CARD_WORDS], sheet: &[u8]) {
    words[number * CARD_WORDS..][..CARD_WORDS].copy_from_slice(&card);
    let place = part(text, number);
    let part = &mut text[place];
    part.fill(0);
    part[..sheet.len()].copy_from_slice(sheet);
}

pub fn put(words: &mut [u64], text: &mut [u8], label: Label, sheet: &[u8]) -> Result<(), Refusal> {
    check(words, text, label)?;
    if position(words, label).is_some() {
        return Err(Refusal::at(29, 0));
    }
    if sheet.len() > text.len() / MOST_CARDS {
        return Err(Refusal::at(30, 0));
    }
    let free = cards(words).position(|card| !is_taken(card));
    let number = free.ok_or(Refusal::at(28, 0))?;
    let [desk, call, boat] = label;
    let card = [desk, call, boat, sheet.len() as u64];
    set(words, text, number, card, sheet);
    Ok(())
}

pub fn get<'a>(words: &[u64], text: &'a [u8], label: Label) -> Result<&'a [u8], Refusal> {
    check(words, text, label)?;
    let number = position(words, label).ok_or(Refusal::at(27, 0))?;
    let length = words[number * CARD_WORDS + 3] as usize;
    Ok(&text[part(text, number)][..length])
}

pub fn drop(words: &mut [u64], text: &mut [u8], label: Label) -> Result<(), Refusal> {
    check(words, text, label)?;
    let number = position(words, label).ok_or(Refusal::at(27, 0))?;
    set(words, text, number, [0; CARD_WORDS], &[]);
    Ok(())
}
