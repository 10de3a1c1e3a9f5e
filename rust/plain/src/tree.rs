//! Reading of the whole file into the rows.

use crate::cursor::Cursor;
use crate::{item, node, ItemRow, NodeRow, Refusal, Tree};
use std::ops::Range;

/// The largest number of bytes a file may have.
pub const FILE_BYTES: usize = 268_435_455;
/// The largest number of node rows.
const NODE_LIMIT: usize = 256;
/// The largest number of item rows.
const ITEM_LIMIT: usize = 1024;
/// The largest depth of a node, the root being at 1.
const DEPTH_LIMIT: u64 = 16;
/// The largest number of entries in the types table.
const TYPE_LIMIT: usize = 32;

/// A type declared by the types table.
#[derive(Clone, Copy, Default)]
struct DeclaredType {
    number: u64,
    format: u64,
}

/// The state of one reading.
struct Reader<'a, 't> {
    file: &'a [u8],
    nodes: &'t mut [NodeRow],
    node_count: usize,
    items: &'t mut [ItemRow],
    item_count: usize,
    types: [DeclaredType; TYPE_LIMIT],
    type_count: usize,
    /// The place after the file header.
    header_end: usize,
    /// The places of the tree.
    tree: Range<usize>,
}

/// Where a node stands.
#[derive(Clone, Copy)]
enum Position {
    /// In the tree, at this depth, in the folder of the row `parent`.
    InTree { parent: u64, depth: u64 },
    /// Outside the tree; the first number that names it is at this place.
    Detached { named_at: usize },
}

/// Reads a file into the rows. Words past the last row, and all words after a refusal, are left for
/// the caller to clear.
pub fn read(file: &[u8], nodes: &mut [u64], items: &mut [u64]) -> Result<Tree, Refusal> {
    let nodes = nodes.as_chunks_mut().0;
    let items = items.as_chunks_mut().0;
    let node_limit = nodes.len().min(NODE_LIMIT);
    let item_limit = items.len().min(ITEM_LIMIT);
    let mut reader = Reader {
        file,
        nodes: &mut nodes[..node_limit],
        node_count: 0,
        items: &mut items[..item_limit],
        item_count: 0,
        types: [DeclaredType::default(); TYPE_LIMIT],
        type_count: 0,
        header_end: 0,
        tree: 0..0,
    };
    let version = reader.read_header()?;
    reader.read_root()?;
    reader.read_named_nodes()?;
    Ok(Tree {
        version,
        nodes: reader.node_count as u64,
        items: reader.item_count as u64,
    })
}

/// The row of the node that starts at a place. The tree's rows come first, in file order, so their
/// starts increase.
pub fn row_at(nodes: &[NodeRow], place: u64) -> Option<usize> {
    let (tree, detached) = nodes.split_at(tree_rows(nodes));
    match tree.binary_search_by_key(&place, |row| row[node::START]) {
        Ok(row) => Some(row),
        Err(_) => detached
            .iter()
            .position(|row| row[node::START] == place)
            .map(|row| tree.len() + row),
    }
}

/// The number of rows of nodes in the tree.
fn tree_rows(nodes: &[NodeRow]) -> usize {
    nodes.partition_point(|row| row[node::DETACHED] == 0)
}

impl<'a> Reader<'a, '_> {
    /// Reads the file header. The answer is the version.
    fn read_header(&mut self) -> Result<u64, Refusal> {
        let file = self.file;
        if file.len() > FILE_BYTES {
            return Err(Refusal::at(17, 0));
        }
        if file.len() < 8 || !file.starts_with(b"XMF_") {
            return Err(Refusal::at(1, 0));
        }
        let version = match &file[4..8] {
            b"1.00" => 100,
            b"1.01" => 101,
            b"2.00" => 200,
            _ => return Err(Refusal::at(2, 4)),
        };

        let mut header = Cursor::new(file, 8);
        if version == 200 {
            header.four_bytes()?;
            header.four_bytes()?;
        }
        let length_place = header.at;
        if header.number()? != file.len() as u64 {
            return Err(Refusal::at(5, length_place));
        }
        let table = header.block()?;
        self.read_types(table)?;
        let start_place = header.at;
        let start = header.number()? as usize;
        let end_place = header.at;
        let last = header.number()? as usize;
        self.header_end = header.at;
        if start < self.header_end {
            return Err(Refusal::at(7, start_place));
        }
        if last < start || last >= file.len() {
            return Err(Refusal::at(7, end_place));
        }
        self.tree = start..last + 1;
        Ok(version)
    }

    /// Reads the types table: a count, then that many entries of type, format and language.
    fn read_types(&mut self, mut table: Cursor) -> Result<(), Refusal> {
        for _ in 0..table.number()? {
            let place = table.at;
            let number = table.number()?;
            if self.type_count == TYPE_LIMIT || self.format_of(number).is_some() {
                return Err(Refusal::at(6, place));
            }
            let format = table.number()?;
            table.block()?;
            self.types[self.type_count] = DeclaredType { number, format };
            self.type_count += 1;
        }
        table.finish()
    }

    /// The format of a declared type.
    fn format_of(&self, number: u64) -> Option<u64> {
        self.types[..self.type_count]
            .iter()
            .find(|declared| declared.number == number)
            .map(|declared| declared.format)
    }

    /// Reads the root and with it the whole tree.
    fn read_root(&mut self) -> Result<(), Refusal> {
        let mut tree = Cursor::new(&self.file[..self.tree.end], self.tree.start);
        let root = Position::InTree {
            parent: 0,
            depth: 1,
        };
        self.read_node(&mut tree, root)
    }

    /// Reads the nodes outside the tree that references 3 name, in row order. The rows of these nodes
    /// take their turn as well.
    fn read_named_nodes(&mut self) -> Result<(), Refusal> {
        let mut row = 0;
        while row < self.node_count {
            let words = self.nodes[row];
            row += 1;
            let target = words[node::TARGET];
            let known = &self.nodes[..self.node_count];
            if words[node::REFERENCE] != 3 || row_at(known, target).is_some() {
                continue;
            }
            let named_at = self.offset_place(&words)?;
            let Some(mut part) = self.part_outside(target as usize) else {
                return Err(Refusal::at(16, named_at));
            };
            self.read_node(&mut part, Position::Detached { named_at })?;
        }
        Ok(())
    }

    /// The part in which a node outside the tree starts at a place: it ends at the tree's start or at
    /// the file's end. There is none in the header, in the tree, and from the file's end on.
    fn part_outside(&self, place: usize) -> Option<Cursor<'a>> {
        let before = self.header_end..self.tree.start;
        let after = self.tree.end..self.file.len();
        let part = [before, after]
            .into_iter()
            .find(|part| part.contains(&place))?;
        Some(Cursor::new(&self.file[..part.end], place))
    }

    /// The place of the offset that follows a node's ReferenceTypeID.
    fn offset_place(&self, row: &NodeRow) -> Result<usize, Refusal> {
        let reference = row[node::START] + row[node::HEADER_LENGTH];
        let mut cursor = Cursor::new(self.file, reference as usize);
        cursor.number()?;
        Ok(cursor.at)
    }

    /// Whether one of the detached nodes with a row has a byte of a part.
    fn is_taken(&self, part: &Range<usize>, rows: usize) -> bool {
        let nodes = &self.nodes[..rows];
        nodes[tree_rows(nodes)..].iter().any(|row| {
            let start = row[node::START] as usize;
            let end = start + row[node::LENGTH] as usize;
            start.max(part.start) < end.min(part.end)
        })
    }

    /// Reads a node and all nodes in it from the place where its holder is being read, and moves
    /// the holder past it.
    fn read_node(&mut self, holder: &mut Cursor<'a>, position: Position) -> Result<(), Refusal> {
        let start = holder.at;
        if matches!(position, Position::InTree { depth, .. } if depth > DEPTH_LIMIT) {
            return Err(Refusal::at(9, start));
        }
        if self.node_count == self.nodes.len() {
            return Err(Refusal::at(10, start));
        }
        let row = self.node_count;
        self.node_count += 1;

        let length = holder.number()? as usize;
        let end = start + length;
        let is_root = row == 0;
        if end > holder.end() || (is_root && end < holder.end()) {
            return Err(Refusal::at(8, start));
        }
        if let Position::Detached { named_at } = position {
            if self.is_taken(&(start..end), row) {
                return Err(Refusal::at(24, named_at));
            }
        }
        let mut node = holder.ending_at(end);
        holder.at = end;

        let contained = node.number()?;
        let (parent, depth, detached) = match position {
            Position::InTree { parent, depth } => (parent, depth, 0),
            Position::Detached { named_at } if contained > 0 => {
                return Err(Refusal::at(24, named_at));
            }
            Position::Detached { .. } => (row as u64, 0, 1),
        };
        let header_length_place = node.at;
        let header_length = node.number()? as usize;
        let header_end = start + header_length;
        if header_end > end || header_end < node.at {
            return Err(Refusal::at(8, header_length_place));
        }

        let mut header = node.ending_at(header_end);
        let metadata = header_block(&mut header)?;
        let first_item = self.item_count;
        self.read_items(metadata, row as u64)?;
        let unpackers_length_place = header.at;
        let unpackers = header_block(&mut header)?;
        if contained > 0 && unpackers.left() > 0 {
            return Err(Refusal::at(14, unpackers_length_place));
        }
        let unpacker_count = read_unpackers(unpackers)?;
        header.finish()?;

        node.at = header_end;
        let reference = node.number()?;
        if !(1..=4).contains(&reference) {
            return Err(Refusal::at(13, header_end));
        }
        if contained > 0 && reference != 1 {
            return Err(Refusal::at(14, header_end));
        }
        let (target, extent) = self.read_contents(&mut node, reference)?;
        self.nodes[row] = [
            start as u64,
            length as u64,
            header_length as u64,
            contained,
            parent,
            depth,
            reference,
            target,
            extent,
            unpackers.at as u64,
            unpacker_count,
            (self.item_count - first_item) as u64,
            detached,
        ];

        if contained > 0 {
            let child = Position::InTree {
                parent: row as u64,
                depth: depth + 1,
            };
            for _ in 0..contained {
                self.read_node(&mut node, child)?;
            }
            node.finish()?;
        }
        Ok(())
    }

    /// Reads what follows the ReferenceTypeID. The answer is the row's target and extent.
    fn read_contents(&self, node: &mut Cursor<'a>, reference: u64) -> Result<(u64, u64), Refusal> {
        let place = node.at;
        let (target, extent) = match reference {
            1 => return Ok((place as u64, node.left() as u64)),
            2 => {
                let offset = node.number()?;
                if offset < self.header_end as u64 || offset > self.file.len() as u64 {
                    return Err(Refusal::at(16, place));
                }
                (offset, self.file.len() as u64 - offset)
            }
            3 => (node.number()?, 0),
            _ => {
                let uri = node.block()?;
                (uri.at as u64, uri.left() as u64)
            }
        };
        node.finish()?;
        Ok((target, extent))
    }

    /// Reads the metadata items of a node.
    fn read_items(&mut self, mut metadata: Cursor, node: u64) -> Result<(), Refusal> {
        let mut number = 0;
        while metadata.left() > 0 {
            let mut row: ItemRow = [0; item::WORDS];
            row[item::NODE] = node;
            row[item::NUMBER] = number;
            read_field(&mut metadata, &mut row)?;
            match metadata.number()? {
                0 => self.read_universal(&mut metadata, row)?,
                count => {
                    for version in 1..=count {
                        row[item::VERSION] = version;
                        self.read_version(&mut metadata, row)?;
                    }
                }
            }
            number += 1;
        }
        Ok(())
    }

    /// Reads a universal content: a length, and in what it counts a format and the data.
    fn read_universal(&mut self, metadata: &mut Cursor, mut row: ItemRow) -> Result<(), Refusal> {
        let place = metadata.at;
        self.check_item_room(place)?;
        let mut content = metadata.block()?;
        if content.left() == 0 {
            return Err(Refusal::at(11, place));
        }
        row[item::FORMAT] = content.number()?;
        self.add_item(row, content);
        Ok(())
    }

    /// Reads a version: a declared type, a length and the data.
    fn read_version(&mut self, metadata: &mut Cursor, mut row: ItemRow) -> Result<(), Refusal> {
        let place = metadata.at;
        self.check_item_room(place)?;
        let number = metadata.number()?;
        let Some(format) = self.format_of(number) else {
            return Err(Refusal::at(11, place));
        };
        row[item::TYPE] = number;
        row[item::FORMAT] = format;
        let data = metadata.block()?;
        self.add_item(row, data);
        Ok(())
    }

    /// Refuses with 10 when no item row is left.
    fn check_item_room(&self, place: usize) -> Result<(), Refusal> {
        if self.item_count == self.items.len() {
            return Err(Refusal::at(10, place));
        }
        Ok(())
    }

    /// Completes an item row with its data and adds it.
    fn add_item(&mut self, mut row: ItemRow, data: Cursor) {
        row[item::DATA] = data.at as u64;
        row[item::DATA_LENGTH] = data.left() as u64;
        self.items[self.item_count] = row;
        self.item_count += 1;
    }
}

/// Reads a length and its block as a header field: where it runs past the header, the refusal is 8.
fn header_block<'a>(header: &mut Cursor<'a>) -> Result<Cursor<'a>, Refusal> {
    header.block().map_err(|refusal| match refusal.number {
        3 => Refusal {
            number: 8,
            ..refusal
        },
        _ => refusal,
    })
}

/// Reads an item's field, a standard number or a custom name, into its row.
fn read_field(metadata: &mut Cursor, row: &mut ItemRow) -> Result<(), Refusal> {
    let name = metadata.block()?;
    if name.left() == 0 {
        row[item::FIELD] = metadata.number()?;
    } else {
        row[item::KIND] = item::CUSTOM;
        row[item::FIELD] = name.at as u64;
        row[item::NAME_LENGTH] = name.left() as u64;
    }
    Ok(())
}

/// Reads the entries of a node's unpackers. The answer is their number.
fn read_unpackers(mut unpackers: Cursor) -> Result<u64, Refusal> {
    let mut count = 0;
    while unpackers.left() > 0 {
        let place = unpackers.at;
        match unpackers.number()? {
            0 | 2 => {
                unpackers.number()?;
            }
            1 => {
                unpackers.manufacturer()?;
                unpackers.number()?;
            }
            3 => unpackers.guid()?,
            _ => return Err(Refusal::at(12, place)),
        }
        unpackers.number()?;
        count += 1;
    }
    Ok(count)
}
