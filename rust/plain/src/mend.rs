//! Mending of a header: FileLength and TreeEnd set right, in the bytes that they have.

use crate::cursor::Cursor;
use crate::Refusal;
use std::fmt::Write;
use std::ops::Range;

/// A number of the header: its bytes and what it says.
struct Number {
    places: Range<usize>,
    value: u64,
}

/// A file with both fields set right, and the lines that tell of it; nothing when the two cannot be
/// read or their bytes do not hold what is right. Whether the file is accepted is not judged.
pub fn mended(file: &[u8]) -> Option<(Vec<u8>, Vec<u8>)> {
    let opening = match file.get(..8)?.strip_prefix(b"XMF_")? {
        b"1.00" | b"1.01" => 8,
        b"2.00" => 16,
        _ => return None,
    };
    let mut header = Cursor::new(file, opening);
    let length = number(&mut header).ok()?;
    header.block().ok()?;
    let start = header.number().ok()?;
    let last = number(&mut header).ok()?;
    // the root begins with its length, and fills the tree
    let root = Cursor::new(file, start as usize).number().ok()?;
    let end = (start + root).checked_sub(1)?;

    let mut copy = file.to_vec();
    let mut lines = String::new();
    let fields = [
        ("FileLength", length, file.len() as u64),
        ("TreeEnd", last, end),
    ];
    for (name, old, new) in fields {
        let bytes = &mut copy[old.places.clone()];
        if new >> (7 * bytes.len()) != 0 {
            return None;
        }
        for (byte, shift) in bytes.iter_mut().rev().zip((0..).step_by(7)) {
            *byte = *byte & 0x80 | (new >> shift) as u8 & 0x7F;
        }
        if old.value != new {
            let (place, value) = (old.places.start, old.value);
            writeln!(lines, "{name}\t{place}\t{value}\t{new}").expect("a string takes all");
        }
    }
    Some((copy, lines.into_bytes()))
}

/// Reads a number, with its bytes.
fn number(header: &mut Cursor) -> Result<Number, Refusal> {
    let start = header.at;
    let value = header.number()?;
    Ok(Number {
        places: start..header.at,
        value,
    })
}
