//! Texts in UTF-16 and UTF-8, good ones and ones with a fault, and room for their conversion.

use crate::random::Random;

/// The mark that may stand in front of UTF-16, and as UTF-8.
const MARK: u32 = 0xFEFF;
/// Characters at the edges of the forms, and some that a sheet escapes.
const EDGES: [u32; 22] = [
    0x00, 0x09, 0x0A, 0x1F, 0x20, 0x41, 0x5C, 0x7E, 0x7F, 0x80, 0xE6, 0x7FF, 0x800, 0x20AC, 0xD7FF,
    0xE000, MARK, 0xFFFE, 0xFFFF, 0x1_0000, 0x1_D11E, 0x10_FFFF,
];

/// Which way a text is converted.
#[derive(Clone, Copy, Debug, PartialEq, Eq)]
pub enum Into {
    /// From UTF-16 into UTF-8.
    Utf8,
    /// From UTF-8 into UTF-16.
    Utf16,
}

/// Bytes to be converted, and what is lent for it.
#[derive(Clone, Debug)]
pub struct Text {
    /// Which way it goes.
    pub into: Into,
    /// The bytes to be converted.
    pub given: Vec<u8>,
    /// The number of bytes lent.
    pub room: usize,
}

/// Makes a text to be converted. Both ways take turns, and so do good texts and all kinds.
pub fn text(seed: u64, number: u64) -> Text {
    let random = &mut Random::for_case(seed, number);
    let turn = (number / 4) as usize;
    let (into, given) = match number % 4 {
        0 => (Into::Utf8, utf16_of_kind(random, turn % GOOD_KINDS)),
        1 => (Into::Utf8, utf16_of_kind(random, turn % UTF16_KINDS)),
        2 => (Into::Utf16, utf8_of_kind(random, turn % GOOD_KINDS)),
        _ => (Into::Utf16, utf8_of_kind(random, turn % UTF8_KINDS)),
    };
    let needed = match into {
        Into::Utf8 => lossy_from_utf16(&given).len(),
        Into::Utf16 => utf16(&String::from_utf8_lossy(&given).chars().collect::<Vec<_>>()).len(),
    };
    let room = match random.below(8) {
        0 => 0,
        1 | 2 => needed.saturating_sub(1),
        3 | 4 => needed,
        5 => needed + 1,
        6 => random.below(needed + 1),
        _ => needed + random.below(40),
    };
    Text { into, given, room }
}

/// The first kinds, which have no fault.
const GOOD_KINDS: usize = 3;
/// The kinds of UTF-16 that [`utf16_of_kind`] makes.
const UTF16_KINDS: usize = 12;

/// UTF-16 for a content, with a fault about half of the time.
pub fn any_utf16(random: &mut Random) -> Vec<u8> {
    let kind = match random.below(2) {
        0 => random.below(GOOD_KINDS),
        _ => random.below(UTF16_KINDS),
    };
    utf16_of_kind(random, kind)
}

/// UTF-16 of a kind: good without and with marks, then one for each kind of fault.
fn utf16_of_kind(random: &mut Random, kind: usize) -> Vec<u8> {
    let mut front = units(random);
    let mut end = units(random);
    let high = 0xD800 + random.below(0x400) as u16;
    let low = 0xDC00 + random.below(0x400) as u16;
    let mut odd = None;
    let fault: &[u16] = match kind {
        0 => &[],
        // the mark in front, inside, and twice in front
        1 => {
            front.insert(0, MARK as u16);
            &[]
        }
        2 => {
            let second = [MARK as u16, b'a'.into()][random.below(2)];
            front.splice(0..0, [MARK as u16, second]);
            &[MARK as u16]
        }
        // a high surrogate with no low one: before another unit, before another high one, at the end
        3 => &[high, 0x41],
        4 => &[high, high, low],
        5 => {
            end.clear();
            &[high]
        }
        // a low surrogate with no high one: alone, after a pair, before a high one
        6 => &[low],
        7 => &[high, low, low],
        8 => &[low, high],
        // an odd length: alone, and after a high surrogate
        9 => {
            odd = Some(random.byte());
            &[]
        }
        10 => {
            odd = Some(random.pick(&[0x00, 0xD8, 0xDC, 0xDF]));
            end.clear();
            &[high]
        }
        _ => {
            let size = random.below(12);
            return random.bytes(size);
        }
    };
    let all = front.iter().chain(fault).chain(&end);
    let mut bytes: Vec<u8> = all.flat_map(|unit| unit.to_be_bytes()).collect();
    bytes.extend(odd);
    bytes
}

/// The kinds of UTF-8 that [`utf8_of_kind`] makes.
const UTF8_KINDS: usize = 14;

/// UTF-8 of a kind: good without and with a mark, then one for each kind of fault.
fn utf8_of_kind(random: &mut Random, kind: usize) -> Vec<u8> {
    let front = utf8(&characters(random));
    let mut end = utf8(&characters(random));
    let mark = "\u{FEFF}".as_bytes().to_vec();
    let follow = |random: &mut Random| 0x80 + random.below(0x40) as u8;
    let fault = match kind {
        0 => Vec::new(),
        1 => return [mark, front, end].concat(),
        2 => mark,
        // forms that are too long
        3 => vec![random.pick(&[0xC0, 0xC1]), follow(random)],
        4 => vec![0xE0, 0x80 + random.below(0x20) as u8, follow(random)],
        5 => vec![
            0xF0,
            0x80 + random.below(0x10) as u8,
            follow(random),
            follow(random),
        ],
        // a surrogate
        6 => vec![0xED, 0xA0 + random.below(0x20) as u8, follow(random)],
        // above 10FFFF
        7 => vec![
            0xF4,
            0x90 + random.below(0x30) as u8,
            follow(random),
            follow(random),
        ],
        8 => vec![
            0xF5 + random.below(11) as u8,
            follow(random),
            follow(random),
            follow(random),
        ],
        // a byte that cannot be the first
        9 => vec![follow(random)],
        // a form that the next character or the end cuts
        10 | 11 => {
            let value = random.pick(&[0x80, 0x7FF, 0x800, 0xFFFD, 0x1_0000, 0x10_FFFF]);
            let mut bytes = utf8(&[char::from_u32(value).expect("a character")]);
            bytes.truncate(random.between(1, bytes.len() - 1));
            if kind == 11 {
                end.clear();
            }
            bytes
        }
        // a byte of a form that is none of those that follow
        12 => vec![0xE2, random.pick(&[0x41, 0x7F, 0xC0, 0xFF]), 0xAC],
        _ => {
            let size = random.below(12);
            return random.bytes(size);
        }
    };
    [front, fault, end].concat()
}

/// A few good characters.
fn characters(random: &mut Random) -> Vec<char> {
    let count = random.below(5);
    (0..count).map(|_| character(random)).collect()
}

/// A character: one at an edge, or any.
fn character(random: &mut Random) -> char {
    let value = match random.below(3) {
        0 => random.below(0x11_0000) as u32,
        1 => random.below(0x3000) as u32,
        _ => random.pick(&EDGES),
    };
    char::from_u32(value).unwrap_or('\u{E6}')
}

/// The units of a few good characters.
fn units(random: &mut Random) -> Vec<u16> {
    let text: String = characters(random).into_iter().collect();
    text.encode_utf16().collect()
}

/// UTF-16, high byte first.
fn utf16(characters: &[char]) -> Vec<u8> {
    let text: String = characters.iter().collect();
    text.encode_utf16().flat_map(u16::to_be_bytes).collect()
}

fn utf8(characters: &[char]) -> Vec<u8> {
    let text: String = characters.iter().collect();
    text.into_bytes()
}

/// The text of UTF-16 without a mark in front; other characters stand for what is bad.
fn lossy_from_utf16(data: &[u8]) -> String {
    let data = data.strip_prefix(&[0xFE, 0xFF]).unwrap_or(data);
    let units = data
        .chunks_exact(2)
        .map(|unit| u16::from_be_bytes([unit[0], unit[1]]));
    char::decode_utf16(units)
        .map(|result| result.unwrap_or(char::REPLACEMENT_CHARACTER))
        .collect()
}
