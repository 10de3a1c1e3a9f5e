//! The frames of an ID3v2.4 tag, as its own paper lays them out.

use crate::{Frame, Refusal};

/// The bytes of a tag's header, and of a frame's.
const HEADER: usize = 10;
/// A byte of a size has seven bits.
const SEVEN: u8 = 0x7F;

/// All frames of a tag, in file order.
pub fn frames(tag: &[u8]) -> Result<Vec<Frame>, Refusal> {
    let Some(&[i, d, three, version, _revision, flags, ..]) = tag.first_chunk::<HEADER>() else {
        return Err(Refusal::at(33, 0));
    };
    if [i, d, three] != *b"ID3" {
        return Err(Refusal::at(33, 0));
    }
    if version != 4 {
        return Err(Refusal::at(33, 3));
    }
    if flags & 0x80 != 0 {
        return Err(Refusal::at(35, 5));
    }
    let size = size(tag, 6)?;
    let Some(tag) = tag.get(..HEADER + size) else {
        return Err(Refusal::at(34, 6));
    };
    let mut at = HEADER;
    if flags & 0x40 != 0 {
        at += extended(tag, at)?;
    }
    let mut found = Vec::new();
    // Padding begins at a name's first byte 0 and fills the tag.
    while tag.get(at).is_some_and(|first| *first != 0) {
        let frame = frame(tag, at)?;
        at = (frame.place + frame.length) as usize;
        found.push(frame);
    }
    Ok(found)
}

/// The size at a place: four bytes.
fn size(tag: &[u8], at: usize) -> Result<usize, Refusal> {
    let bytes = tag.get(at..).and_then(|rest| rest.first_chunk::<4>());
    match bytes {
        Some(bytes) if bytes.iter().all(|byte| *byte <= SEVEN) => Ok(bytes
            .iter()
            .fold(0, |sum, byte| sum << 7 | usize::from(*byte))),
        _ => Err(Refusal::at(34, at)),
    }
}

/// The length of the extended header at a place, its size's own bytes included.
fn extended(tag: &[u8], at: usize) -> Result<usize, Refusal> {
    match size(tag, at)? {
        length if length >= 6 && length <= tag.len() - at => Ok(length),
        _ => Err(Refusal::at(34, at)),
    }
}

/// The frame at a place.
fn frame(tag: &[u8], at: usize) -> Result<Frame, Refusal> {
    let Some(name) = tag[at..].first_chunk::<4>() else {
        return Err(Refusal::at(34, at));
    };
    let length = size(tag, at + 4)?;
    let place = at + HEADER;
    if length > 0 && place + length > tag.len() {
        return Err(Refusal::at(34, at + 4));
    }
    if place > tag.len() {
        return Err(Refusal::at(34, at + 8));
    }
    if tag[at + 9] & 0x02 != 0 {
        return Err(Refusal::at(35, at + 8));
    }
    Ok(Frame {
        name: *name,
        place: place as u64,
        length: length as u64,
    })
}
