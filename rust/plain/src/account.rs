//! Where the bytes of a file go: each byte is marked with its kind, and the marks are counted.
//!
//! The file is read once more, field by field: its header, and the node of each row.

use crate::cursor::Cursor;
use crate::title::opening_length;
use crate::{item, node, Kinds, Refusal, Rows};

/// The largest number of files that are summed.
pub const FILE_LIMIT: u64 = 1000;

/// The kinds of bytes, in the order of the counts.
const HEADER: u8 = 0;
const NODES: u8 = 1;
const METADATA: u8 = 2;
const VISIBLE: u8 = 3;
const HIDDEN: u8 = 4;
const UNPACKERS: u8 = 5;
const REFERENCES: u8 = 6;
const INLINE: u8 = 7;
const REST: u8 = 8;

/// The kind of each byte of a file.
pub fn kinds(rows: &Rows, version: u64) -> Result<Vec<u8>, Refusal> {
    let file = rows.file;
    let mut kinds = vec![REST; file.len()];
    let mut header = Cursor::new(file, opening_length(version));
    header.number()?;
    header.block()?;
    header.number()?;
    header.number()?;
    kinds[..header.at].fill(HEADER);

    for row in rows.nodes {
        let start = row[node::START] as usize;
        let end = start + row[node::LENGTH] as usize;
        let mut node = Cursor::new(&file[..end], start);
        for _ in 0..3 {
            node.number()?;
        }
        let metadata = node.at;
        node.block()?;
        let unpackers = node.at;
        node.block()?;
        let reference = node.at;
        let number = node.number()?;
        match number {
            1 => {}
            2 | 3 => {
                node.number()?;
            }
            _ => {
                node.block()?;
            }
        }
        kinds[start..metadata].fill(NODES);
        kinds[metadata..unpackers].fill(METADATA);
        kinds[unpackers..reference].fill(UNPACKERS);
        kinds[reference..node.at].fill(REFERENCES);
        if number == 1 && row[node::CONTAINED] == 0 {
            kinds[node.at..end].fill(INLINE);
        }
    }

    for row in rows.items {
        let start = row[item::DATA] as usize;
        let is_hidden = row[item::FORMAT] % 2 == 1;
        kinds[start..][..row[item::DATA_LENGTH] as usize].fill(if is_hidden {
            HIDDEN
        } else {
            VISIBLE
        });
    }
    Ok(kinds)
}

/// The number of bytes of each kind.
pub fn count(kinds: &[u8]) -> Kinds {
    let mut counts = Kinds::default();
    for &kind in kinds {
        counts[kind as usize] += 1;
    }
    counts
}
