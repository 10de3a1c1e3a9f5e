//! Files whose header is to be mended: FileLength and TreeEnd overwritten in the bytes that they have.

use crate::cases::{case, Kind, Lent, Pair};
use crate::random::Random;
use std::ops::Range;

/// The most bytes that two lines have, and some more.
const MOST_LINES: usize = 80;

/// A file to be mended, and what is lent.
#[derive(Clone, Debug)]
pub struct Mend {
    /// The bytes of the file.
    pub file: Vec<u8>,
    /// What the file was before its two fields were overwritten, if nothing else was changed.
    pub before: Vec<u8>,
    /// What is lent; the room is that for the copy.
    pub lent: Lent,
    /// The number of bytes for the lines.
    pub space: usize,
}

/// Makes a file to be mended from a case's, of any kind. One in three has bytes lost or added besides.
pub fn mend(seed: u64, number: u64) -> Mend {
    let random = &mut Random::for_case(seed ^ 0x6D65_6E64, number);
    let made = case(seed, number);
    let mut before = made.file;
    if random.once_in(3) {
        change(random, &mut before);
    }
    let mut file = before.clone();
    overwrite(random, &mut file);
    if random.once_in(8) {
        run_on(random, &mut file);
    }
    let room = any_room(random, file.len());
    let space = match random.below(4) {
        0 => random.below(MOST_LINES),
        _ => MOST_LINES,
    };
    let lent = match made.kind {
        Kind::ShortTables => made.lent,
        _ => Lent {
            stale: made.lent.stale,
            ..Lent::full()
        },
    };
    Mend {
        file,
        before,
        lent: Lent { room, ..lent },
        space,
    }
}

/// The two files of a pair, with both fields overwritten in the same way.
pub fn mend_pair(pair: &Pair, seed: u64, number: u64) -> [Vec<u8>; 2] {
    [&pair.first, &pair.second].map(|file| {
        let mut file = file.clone();
        overwrite(&mut Random::for_case(seed, number), &mut file);
        file
    })
}

/// The bytes of FileLength and of TreeEnd, if they can be found.
pub fn fields(file: &[u8]) -> Option<[Range<usize>; 2]> {
    let opening = match file.get(4..8)? {
        b"2.00" => 16,
        _ => 8,
    };
    let length = number(file, opening)?;
    let types = number(file, length.0.end)?;
    let start = number(file, types.0.end + types.1)?;
    let last = number(file, start.0.end)?;
    Some([length.0, last.0])
}

/// The bytes of the number at a place, and its value.
fn number(file: &[u8], at: usize) -> Option<(Range<usize>, usize)> {
    let bytes = file.get(at..)?.iter().take(4);
    let last = bytes.clone().position(|&byte| byte < 0x80)?;
    let value = bytes
        .take(last + 1)
        .fold(0, |value, &byte| value << 7 | usize::from(byte & 0x7F));
    Some((at..at + last + 1, value))
}

/// Sets the mark in the last byte of a field, so that its number runs on, if it ends at all.
fn run_on(random: &mut Random, file: &mut [u8]) {
    if let Some(fields) = fields(file) {
        file[fields[random.below(2)].end - 1] |= 0x80;
    }
}

/// Overwrites one field or both with other values in the same bytes.
fn overwrite(random: &mut Random, file: &mut [u8]) {
    let Some(fields) = fields(file) else { return };
    let which = random.below(8);
    for (field, bit) in fields.into_iter().zip([1, 2]) {
        if which & bit == 0 {
            continue;
        }
        let right = number(file, field.start).map_or(0, |(_, value)| value);
        let width = field.len();
        let value = match random.below(6) {
            0 => 0,
            1 => right + 1,
            2 => right.saturating_sub(1),
            3 => (1 << (7 * width)) - 1,
            _ => random.word() as usize,
        };
        for (byte, shift) in file[field.clone()].iter_mut().rev().zip((0..).step_by(7)) {
            *byte = *byte & 0x80 | (value >> shift) as u8 & 0x7F;
        }
    }
}

/// Loses or adds bytes at the end, or changes one anywhere.
fn change(random: &mut Random, file: &mut Vec<u8>) {
    match random.below(3) {
        0 => {
            let length = file.len().saturating_sub(random.between(1, 3));
            file.truncate(length);
        }
        1 => {
            let count = random.between(1, 3);
            file.extend(random.bytes(count));
        }
        _ => {
            let place = random.below(file.len());
            if let Some(byte) = file.get_mut(place) {
                *byte = random.byte();
            }
        }
    }
}

/// Room for a copy of this length, often just enough or one byte too little.
fn any_room(random: &mut Random, length: usize) -> usize {
    match random.below(6) {
        0 => length.saturating_sub(1),
        1 => random.below(length + 1),
        2 => length + random.below(20),
        _ => length,
    }
}
