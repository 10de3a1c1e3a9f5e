//! The questions about a file that has been read: find, resolve, the count of a content description
//! and the Mobile XMF verdict.

use crate::cursor::Cursor;
use crate::description;
use crate::tree::row_at;
use crate::{item, node, Field, Found, ItemRow, NodeRow, Refusal, Resource, Rows};

/// The largest number of references that resolving follows.
const HOP_LIMIT: u64 = 4;
/// The standard field that names a resource's format.
const RESOURCE_FORMAT: u64 = 3;
/// The standard field that describes a tune's content.
const CONTENT_DESCRIPTION: u64 = 13;

/// Finds an item of a field, on the node of a row or on the nearest node that holds it.
pub fn find(rows: &Rows, row: u64, field: Field) -> Result<Found, Refusal> {
    let mut row = existing(rows, row)?;
    loop {
        let found = own(rows, row, field);
        let parent = rows.nodes[row][node::PARENT] as usize;
        if found.is_ok() || parent == row {
            return found;
        }
        row = parent;
    }
}

/// Finds an item of a field on the node of a row.
pub fn find_own(rows: &Rows, row: u64, field: Field) -> Result<Found, Refusal> {
    own(rows, existing(rows, row)?, field)
}

/// The first item of a field among the rows of a node.
fn own(rows: &Rows, row: usize, field: Field) -> Result<Found, Refusal> {
    let count = rows.nodes[row][node::ITEMS] as usize;
    let first = rows
        .items
        .partition_point(|words| words[item::NODE] < row as u64);
    let own = &rows.items[first..first + count];
    let index = own.iter().position(|words| rows.is_of(words, field));
    let index = index.ok_or(Refusal::at(23, 0))?;
    Ok(Found {
        row: (first + index) as u64,
        words: own[index],
    })
}

/// Resolves the resource of a row's node.
pub fn resolve(rows: &Rows, row: u64) -> Result<Resource, Refusal> {
    let mut row = existing(rows, row)?;
    let mut hops = 0;
    loop {
        let words = &rows.nodes[row];
        let reference = words[node::REFERENCE];
        if words[node::CONTAINED] > 0 {
            return Err(Refusal::at(19, 0));
        }
        if reference == 4 {
            return Err(Refusal::at(20, 0));
        }
        if reference != 1 {
            if hops == HOP_LIMIT {
                return Err(Refusal::at(21, 0));
            }
            hops += 1;
        }
        if reference != 3 {
            return Ok(Resource {
                place: words[node::TARGET],
                length: words[node::EXTENT],
                row: row as u64,
                hops,
            });
        }
        row = row_at(rows.nodes, words[node::TARGET])
            .expect("each reference 3 that has been read names a row");
    }
}

/// Judges whether a file is a Mobile XMF file: the number of the first check that fails, or 0.
pub fn judge(rows: &Rows, version: u64) -> u64 {
    let (root, children) = rows
        .nodes
        .split_first()
        .expect("a tree that has been read has a root");
    if version != 200 || rows.file[8..16] != [0, 0, 0, 2, 0, 0, 0, 1] {
        return 1;
    }
    if root[node::CONTAINED] == 0 || children.iter().any(|child| child[node::CONTAINED] > 0) {
        return 2;
    }
    if rows.nodes.iter().any(|row| row[node::REFERENCE] > 2) {
        return 3;
    }
    if rows.nodes.iter().any(|row| row[node::UNPACKER_COUNT] > 0) {
        return 4;
    }
    let Some(contents) = contents(rows, root, children) else {
        return 5;
    };
    let Some(tune) = contents.tune() else {
        return 6;
    };
    if !is_described(rows, tune) {
        return 7;
    }
    if !is_within_limits(rows) {
        return 8;
    }
    0
}

/// The count of an item row, a universal and binary content description, for a channel and a resource.
pub fn voice_count(
    rows: &Rows,
    item_row: u64,
    channel: u64,
    resource: u64,
) -> Result<u64, Refusal> {
    if item_row >= rows.items.len() as u64 {
        return Err(Refusal::at(18, 0));
    }
    let words = &rows.items[item_row as usize];
    if !is_standard(words, CONTENT_DESCRIPTION) || !is_universal_binary(words) {
        return Err(Refusal::at(23, 0));
    }
    description::count(rows.file, words, channel, resource)
}

/// The row asked for, if there is one.
fn existing(rows: &Rows, row: u64) -> Result<usize, Refusal> {
    if row >= rows.nodes.len() as u64 {
        return Err(Refusal::at(18, 0));
    }
    Ok(row as usize)
}

/// The tunes and instrument banks among the root's children: how many there are, and the row of the
/// last of each.
#[derive(Default)]
struct Contents {
    tunes: usize,
    tune_row: u64,
    banks: usize,
    bank_row: u64,
}

impl Contents {
    /// The row of the single tune, if there is one and at most one bank, which comes earlier.
    fn tune(&self) -> Option<u64> {
        let bank_is_right = match self.banks {
            0 => true,
            1 => self.bank_row < self.tune_row,
            _ => false,
        };
        (self.tunes == 1 && bank_is_right).then_some(self.tune_row)
    }
}

/// Counts tunes and banks, if each child has one right resource format.
fn contents(rows: &Rows, root: &NodeRow, children: &[NodeRow]) -> Option<Contents> {
    let mut contents = Contents::default();
    let mut rest = &rows.items[root[node::ITEMS] as usize..];
    for (row, child) in (1..).zip(children) {
        let (own, following) = rest.split_at(child[node::ITEMS] as usize);
        rest = following;
        if resource_format(rows.file, own)? == 5 {
            contents.banks += 1;
            contents.bank_row = row;
        } else {
            contents.tunes += 1;
            contents.tune_row = row;
        }
    }
    Some(contents)
}

/// The resource format that a child's items name: 0 or 1 for a tune, 5 for a bank.
fn resource_format(file: &[u8], own: &[ItemRow]) -> Option<u64> {
    let mut formats = own
        .iter()
        .filter(|words| is_standard(words, RESOURCE_FORMAT));
    let words = formats.next()?;
    if formats.next().is_some() || !is_universal_binary(words) {
        return None;
    }
    let number = data(file, words).strip_prefix(&[0])?;
    let mut number = Cursor::new(number, 0);
    let format = number.number().ok()?;
    (number.left() == 0 && matches!(format, 0 | 1 | 5)).then_some(format)
}

/// Whether content descriptions stand on the tune, at least one, and nowhere else, all of them
/// universal, binary and readable.
fn is_described(rows: &Rows, tune: u64) -> bool {
    let mut count = 0;
    for words in rows.items {
        if is_standard(words, CONTENT_DESCRIPTION) {
            if words[item::NODE] != tune
                || !is_universal_binary(words)
                || !description::is_readable(rows.file, words)
            {
                return false;
            }
            count += 1;
        }
    }
    count > 0
}

/// Whether header lengths, field numbers and name lengths are small enough. A header's length also
/// bounds the lengths of its metadata and of each universal content in it.
fn is_within_limits(rows: &Rows) -> bool {
    rows.nodes
        .iter()
        .all(|row| row[node::HEADER_LENGTH] <= 65_535)
        && rows.items.iter().all(|words| {
            let size = match words[item::KIND] {
                item::STANDARD => words[item::FIELD],
                _ => words[item::NAME_LENGTH],
            };
            size <= 256
        })
}

/// Whether an item row is of a standard field.
fn is_standard(words: &ItemRow, number: u64) -> bool {
    words[item::KIND] == item::STANDARD && words[item::FIELD] == number
}

/// Whether an item row is a universal content of binary format, visible or hidden.
fn is_universal_binary(words: &ItemRow) -> bool {
    words[item::VERSION] == 0 && matches!(words[item::FORMAT], 6 | 7)
}

/// The data of an item row.
pub fn data<'a>(file: &'a [u8], words: &ItemRow) -> &'a [u8] {
    part(file, words[item::DATA], words[item::DATA_LENGTH])
}

/// The custom name of an item row.
pub fn name<'a>(file: &'a [u8], words: &ItemRow) -> &'a [u8] {
    part(file, words[item::FIELD], words[item::NAME_LENGTH])
}

/// The part of the file with a place and a length.
pub fn part(file: &[u8], place: u64, length: u64) -> &[u8] {
    &file[place as usize..][..length as usize]
}

impl Rows<'_> {
    /// Whether an item row is of a field.
    fn is_of(&self, words: &ItemRow, field: Field) -> bool {
        match field {
            Field::Standard(number) => is_standard(words, number),
            Field::Custom(wanted) => {
                words[item::KIND] == item::CUSTOM && name(self.file, words) == wanted
            }
        }
    }
}
