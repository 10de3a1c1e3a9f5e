//! Correcting a title: the whole file is written anew, with other data in one content.
//!
//! The file is read once more, field by field. Each number is written in its shortest form, and all
//! else that is not a number is copied. A part is written before the length in front of it, so that
//! the length is known; where lengths count their own bytes, they are grown from 0 until they fit
//! each other, which gives the least ones.

use crate::cursor::Cursor;
use crate::tree::FILE_BYTES;
use crate::{item, node, Refusal, Rows};

/// The number of bytes before FileLength: `XMF_`, the version, and in 2.00 type and revision.
pub fn opening_length(version: u64) -> usize {
    match version {
        200 => 16,
        _ => 8,
    }
}

/// Writes a file with a title as the data of an item row into lent room. The answer is the number of
/// bytes written; bytes past them are left as they were.
pub fn correct(
    rows: &Rows,
    version: u64,
    item_row: u64,
    title: &[u8],
    room: &mut [u8],
) -> Result<usize, Refusal> {
    if item_row >= rows.items.len() as u64 {
        return Err(Refusal::at(18, 0));
    }
    let mut nodes = rows.nodes.iter();
    if nodes.any(|row| matches!(row[node::REFERENCE], 2 | 3)) {
        return Err(Refusal::at(36, 0));
    }
    let words = &rows.items[item_row as usize];
    let is_hidden = words[item::FORMAT] % 2 == 1;
    let is_universal = words[item::VERSION] == 0;
    if is_hidden || !is_universal {
        return Err(Refusal::at(37, 0));
    }
    let mut writer = Writer {
        title,
        item_row: item_row as usize,
        item_count: 0,
    };
    let text = writer.file(rows.file, version)?;
    if text.len() > FILE_BYTES {
        return Err(Refusal::at(38, 0));
    }
    let Some(room) = room.get_mut(..text.len()) else {
        return Err(Refusal::at(22, 0));
    };
    room.copy_from_slice(&text);
    Ok(text.len())
}

/// What is replaced, and how far the writing has come.
struct Writer<'a> {
    /// The new data.
    title: &'a [u8],
    /// The item row that gets it.
    item_row: usize,
    /// The number of item rows written so far.
    item_count: usize,
}

impl Writer<'_> {
    /// The whole file.
    fn file(&mut self, file: &[u8], version: u64) -> Result<Vec<u8>, Refusal> {
        let (opening, _) = file.split_at(opening_length(version));
        let mut header = Cursor::new(file, opening.len());
        header.number()?;
        let types = sized(&types(header.block()?)?);
        let old_start = header.number()? as usize;
        let old_end = header.number()? as usize + 1;
        let gap = &file[header.at..old_start];
        let tree = self.node(&mut Cursor::new(&file[..old_end], old_start))?;
        let tail = &file[old_end..];

        let (mut length, mut start, mut last) = (0, 0, 0);
        loop {
            let parts = [
                opening,
                &number(length),
                &types,
                &number(start),
                &number(last),
                gap,
            ];
            let before = (length, start, last);
            start = parts.iter().map(|part| part.len()).sum();
            last = start + tree.len() - 1;
            length = start + tree.len() + tail.len();
            if before == (length, start, last) {
                return Ok([&parts.concat(), &tree[..], tail].concat());
            }
        }
    }

    /// A node with all nodes in it. The holder is moved past it.
    fn node(&mut self, holder: &mut Cursor) -> Result<Vec<u8>, Refusal> {
        let start = holder.at;
        let end = start + holder.number()? as usize;
        let mut node = holder.ending_at(end);
        holder.at = end;
        let contained = node.number()?;
        node.number()?;
        let metadata = sized(&self.items(node.block()?)?);
        let unpackers = sized(&unpackers(node.block()?)?);
        let reference = node.number()?;
        let mut contents = number(reference as usize);
        if contained > 0 {
            for _ in 0..contained {
                contents.extend(self.node(&mut node)?);
            }
        } else if reference == 1 {
            contents.extend(node.rest());
        } else {
            contents.extend(sized(node.block()?.rest()));
        }

        let (mut length, mut header_length) = (0, 0);
        loop {
            let header = [
                &number(length)[..],
                &number(contained as usize),
                &number(header_length),
                &metadata,
                &unpackers,
            ];
            let before = (length, header_length);
            header_length = header.iter().map(|part| part.len()).sum();
            length = header_length + contents.len();
            if before == (length, header_length) {
                return Ok([header.concat(), contents].concat());
            }
        }
    }

    /// The metadata items of a node, without their length.
    fn items(&mut self, mut metadata: Cursor) -> Result<Vec<u8>, Refusal> {
        let mut text = Vec::new();
        while metadata.left() > 0 {
            let name = metadata.block()?.rest();
            text.extend(sized(name));
            if name.is_empty() {
                text.extend(number(metadata.number()? as usize));
            }
            let versions = metadata.number()?;
            text.extend(number(versions as usize));
            if versions == 0 {
                let mut content = metadata.block()?;
                let format = number(content.number()? as usize);
                let data = match self.item_count == self.item_row {
                    true => self.title,
                    false => content.rest(),
                };
                text.extend(sized(&[&format, data].concat()));
                self.item_count += 1;
            }
            for _ in 0..versions {
                text.extend(number(metadata.number()? as usize));
                text.extend(sized(metadata.block()?.rest()));
                self.item_count += 1;
            }
        }
        Ok(text)
    }
}

/// The types table, without its length.
fn types(mut table: Cursor) -> Result<Vec<u8>, Refusal> {
    let count = table.number()?;
    let mut text = number(count as usize);
    for _ in 0..count {
        text.extend(number(table.number()? as usize));
        text.extend(number(table.number()? as usize));
        text.extend(sized(table.block()?.rest()));
    }
    Ok(text)
}

/// The unpackers of a node, without their length.
fn unpackers(mut unpackers: Cursor) -> Result<Vec<u8>, Refusal> {
    let mut text = Vec::new();
    while unpackers.left() > 0 {
        let kind = unpackers.number()?;
        text.extend(number(kind as usize));
        let from = unpackers;
        match kind {
            1 => unpackers.manufacturer()?,
            3 => unpackers.guid()?,
            _ => {}
        }
        text.extend(&from.rest()[..unpackers.at - from.at]);
        if kind != 3 {
            text.extend(number(unpackers.number()? as usize));
        }
        text.extend(number(unpackers.number()? as usize));
    }
    Ok(text)
}

/// A length and the bytes that it counts.
fn sized(bytes: &[u8]) -> Vec<u8> {
    [&number(bytes.len()), bytes].concat()
}

/// A number in its shortest form. One that a VLQ can't hold takes more than four bytes; it counts
/// bytes of a file that is too long.
fn number(value: usize) -> Vec<u8> {
    let mut bytes = vec![(value & 0x7F) as u8];
    let mut rest = value >> 7;
    while rest > 0 {
        bytes.insert(0, (rest & 0x7F) as u8 | 0x80);
        rest >>= 7;
    }
    bytes
}
