//! A reader of XMF files of versions 1.00, 1.01 and 2.00, written from the papers alone.
//!
//! It answers five questions about a file's bytes: read the tree ([`read_tree`]), find a metadata
//! item ([`find`], or [`find_own`] on the node itself), resolve a resource ([`resolve`], with
//! [`resource`] for its bytes), judge Mobile XMF ([`judge`]) and write the support sheet
//! ([`write_sheet`], or [`write_sheet2`] in its second edition). It moves a sheet from one edition to the
//! other ([`move_sheet`]). It gives what a tune needs, as a content description says ([`voice_count`]). It counts where the bytes of a file go
//! ([`account`]). It writes a file anew with a title corrected ([`correct_title`]), and copies one with its
//! header mended ([`mend`]). And it converts
//! texts from UTF-16 into UTF-8 ([`utf16_to_utf8`]) and back ([`utf8_to_utf16`]). It walks an ID3
//! tag ([`frame_count`], [`frame`]). It keeps sheets on a shelf ([`shelf_put`], [`shelf_get`],
//! [`shelf_drop`]).
//!
//! Each question takes the file and two lent tables of words, one for node rows and one for item
//! rows, of any size and whatever they hold before. It reads the file afresh. After an answer the
//! tables hold the file's rows (those of the new file, where one is written), and zeros past the last
//! row; after a refusal they hold zeros only. Nothing is allocated but for a corrected title, a mended
//! file, a moved sheet, the kinds of bytes and the cards of a shelf.
//!
//! Every place is counted from the file's first byte.

mod account;
mod cursor;
mod description;
mod id3;
mod mend;
mod mover;
mod questions;
mod sheet;
mod shelf;
mod title;
mod tree;
mod unicode;

use sheet::Edition;

pub use shelf::Label;

/// The columns of a node row.
pub mod node {
    /// The number of words in a row.
    pub const WORDS: usize = 13;
    /// Place of the node's first byte.
    pub const START: usize = 0;
    /// The node's length.
    pub const LENGTH: usize = 1;
    /// Length of the node's header, from the node's first byte to its ReferenceTypeID.
    pub const HEADER_LENGTH: usize = 2;
    /// Number of nodes the node holds; 0 for a file node.
    pub const CONTAINED: usize = 3;
    /// Row of the folder that holds the node; the own row for the root, which is 0, and for a
    /// detached node.
    pub const PARENT: usize = 4;
    /// Depth, the root being at 1; 0 for a detached node.
    pub const DEPTH: usize = 5;
    /// ReferenceTypeID, 1 to 4.
    pub const REFERENCE: usize = 6;
    /// Place of the contents (reference 1), the offset (2 and 3), or place of the URI (4).
    pub const TARGET: usize = 7;
    /// Length of the contents (reference 1), bytes to the file's end (2), 0 (3), or length of the
    /// URI (4).
    pub const EXTENT: usize = 8;
    /// Place of the byte after the unpackers' length.
    pub const UNPACKERS: usize = 9;
    /// Number of unpackers.
    pub const UNPACKER_COUNT: usize = 10;
    /// Number of item rows of the node.
    pub const ITEMS: usize = 11;
    /// 1 if the node is detached, that is, outside the tree; otherwise 0.
    pub const DETACHED: usize = 12;
}

/// The columns of an item row.
pub mod item {
    /// The number of words in a row.
    pub const WORDS: usize = 10;
    /// Row of the node that has the item.
    pub const NODE: usize = 0;
    /// Number of the item in its node, from 0.
    pub const NUMBER: usize = 1;
    /// Kind of field: [`STANDARD`] or [`CUSTOM`].
    pub const KIND: usize = 2;
    /// The standard number, or the place of the custom name.
    pub const FIELD: usize = 3;
    /// Length of the custom name; 0 for a standard field.
    pub const NAME_LENGTH: usize = 4;
    /// Number of the version, from 1; 0 for a universal content.
    pub const VERSION: usize = 5;
    /// The version's type; 0 for a universal content.
    pub const TYPE: usize = 6;
    /// String format; an odd one is hidden.
    pub const FORMAT: usize = 7;
    /// Place of the data.
    pub const DATA: usize = 8;
    /// Length of the data.
    pub const DATA_LENGTH: usize = 9;

    /// Kind of an item with a standard field.
    pub const STANDARD: u64 = 0;
    /// Kind of an item with a custom field.
    pub const CUSTOM: u64 = 1;
}

/// The words of one node row.
pub type NodeRow = [u64; node::WORDS];

/// The words of one item row.
pub type ItemRow = [u64; item::WORDS];

/// Why a question is refused.
#[derive(Clone, Copy, Debug, PartialEq, Eq)]
pub struct Refusal {
    /// The number in the refusal list.
    pub number: u64,
    /// The place of the refused field's first byte, or 0 where the list names none.
    pub place: u64,
}

impl Refusal {
    /// The refusal with a number and a place.
    fn at(number: u64, place: usize) -> Self {
        Refusal {
            number,
            place: place as u64,
        }
    }
}

/// What reading the tree answers, besides the rows.
#[derive(Clone, Copy, Debug, PartialEq, Eq)]
pub struct Tree {
    /// The version times a hundred: 100, 101 or 200.
    pub version: u64,
    /// The number of node rows.
    pub nodes: u64,
    /// The number of item rows.
    pub items: u64,
}

/// A field to be found.
#[derive(Clone, Copy, Debug, PartialEq, Eq)]
pub enum Field<'a> {
    /// A standard field, by its number.
    Standard(u64),
    /// A custom field, by the bytes of its name. An empty name is never found.
    Custom(&'a [u8]),
}

/// An item that has been found.
#[derive(Clone, Copy, Debug, PartialEq, Eq)]
pub struct Found {
    /// The number of its item row.
    pub row: u64,
    /// The words of that row.
    pub words: ItemRow,
}

/// A resource that has been resolved.
#[derive(Clone, Copy, Debug, PartialEq, Eq)]
pub struct Resource {
    /// Place of its first byte.
    pub place: u64,
    /// The number of its bytes.
    pub length: u64,
    /// The node row whose unpackers apply.
    pub row: u64,
    /// The number of references followed.
    pub hops: u64,
}

/// Bytes by kind: file header, node frames, metadata frames, visible data, hidden data, unpackers,
/// references with what belongs to them, inline data, all else.
pub type Kinds = [u64; 9];

/// Sums over files.
#[derive(Clone, Copy, Debug, Default, PartialEq, Eq)]
pub struct Totals {
    /// The number of files, refused ones too.
    pub files: u64,
    /// The number of files that were refused.
    pub refused: u64,
    /// The bytes of the others by kind.
    pub kinds: Kinds,
}

/// A frame of an ID3 tag.
#[derive(Clone, Copy, Debug, PartialEq, Eq)]
pub struct Frame {
    /// The four bytes of its name.
    pub name: [u8; 4],
    /// Place of its contents' first byte, in the tag.
    pub place: u64,
    /// The number of its contents' bytes.
    pub length: u64,
}

/// The rows of a file that has been read.
struct Rows<'a> {
    file: &'a [u8],
    nodes: &'a [NodeRow],
    items: &'a [ItemRow],
}

impl<'a> Rows<'a> {
    /// The filled rows of the lent tables.
    fn new(file: &'a [u8], nodes: &'a [u64], items: &'a [u64], tree: Tree) -> Self {
        Rows {
            file,
            nodes: &nodes.as_chunks().0[..tree.nodes as usize],
            items: &items.as_chunks().0[..tree.items as usize],
        }
    }
}

/// Reads the tree of a file, and the detached nodes that references lead to, into the lent tables.
pub fn read_tree(file: &[u8], nodes: &mut [u64], items: &mut [u64]) -> Result<Tree, Refusal> {
    let read = tree::read(file, nodes, items);
    let (node_rows, item_rows) = match read {
        Ok(tree) => (tree.nodes as usize, tree.items as usize),
        Err(_) => (0, 0),
    };
    nodes[node_rows * node::WORDS..].fill(0);
    items[item_rows * item::WORDS..].fill(0);
    read
}

/// Finds the first item of a field on the node of a row, or on the nearest node above it that has
/// one. From a detached node it looks at that node only.
///
/// Refused with 18 when there is no such row, with 23 when there is no such item.
pub fn find(
    file: &[u8],
    nodes: &mut [u64],
    items: &mut [u64],
    row: u64,
    field: Field,
) -> Result<Found, Refusal> {
    ask(file, nodes, items, |rows, _| {
        questions::find(rows, row, field)
    })
}

/// Finds the first item of a field on the node of a row itself.
///
/// Refused with 18 when there is no such row, with 23 when the node has no such item.
pub fn find_own(
    file: &[u8],
    nodes: &mut [u64],
    items: &mut [u64],
    row: u64,
    field: Field,
) -> Result<Found, Refusal> {
    ask(file, nodes, items, |rows, _| {
        questions::find_own(rows, row, field)
    })
}

/// Resolves the resource of a row's node, following at most four references.
///
/// Refused with 18 when there is no such row, with 19 when it ends at a folder, with 20 when it
/// ends at a URI, with 21 when a fifth reference would be followed.
pub fn resolve(
    file: &[u8],
    nodes: &mut [u64],
    items: &mut [u64],
    row: u64,
) -> Result<Resource, Refusal> {
    ask(file, nodes, items, |rows, _| questions::resolve(rows, row))
}

/// Gives the resource that [`resolve`] names, as a part of the lent file. A refusal gives an empty
/// part.
pub fn resource<'a>(file: &'a [u8], nodes: &mut [u64], items: &mut [u64], row: u64) -> &'a [u8] {
    match resolve(file, nodes, items, row) {
        Ok(found) => questions::part(file, found.place, found.length),
        Err(_) => &[],
    }
}

/// Resolves as [`resolve`] does, and copies the resource into lent room.
///
/// Bytes of the room past the resource are 0; after a refusal all are. Refused as [`resolve`] is, then
/// with 22 when the room is too short.
pub fn copy_resource(
    file: &[u8],
    nodes: &mut [u64],
    items: &mut [u64],
    row: u64,
    out: &mut [u8],
) -> Result<Resource, Refusal> {
    out.fill(0);
    ask(file, nodes, items, |rows, _| {
        let found = questions::resolve(rows, row)?;
        let part = questions::part(file, found.place, found.length);
        let room = out.get_mut(..part.len()).ok_or(Refusal::at(22, 0))?;
        room.copy_from_slice(part);
        Ok(found)
    })
}

/// The count that an item row, a content description, gives for a channel and a resource, both
/// numbered from 0.
///
/// Refused with 18 when there is no such item row, with 23 when it is no universal field 13 in format 6
/// or 7, with 25 when its data is not readable, placed at the first fault, then with 23 when it describes
/// no such channel or resource.
pub fn voice_count(
    file: &[u8],
    nodes: &mut [u64],
    items: &mut [u64],
    item_row: u64,
    channel: u64,
    resource: u64,
) -> Result<u64, Refusal> {
    ask(file, nodes, items, |rows, _| {
        questions::voice_count(rows, item_row, channel, resource)
    })
}

/// Judges whether a file is a Mobile XMF file: 0, or the number 1 to 8 of the first check that
/// fails.
pub fn judge(file: &[u8], nodes: &mut [u64], items: &mut [u64]) -> Result<u64, Refusal> {
    ask(file, nodes, items, |rows, tree| {
        Ok(questions::judge(rows, tree.version))
    })
}

/// Counts the bytes of a file by kind, and adds them to the totals. A refused file is one more file and
/// one more refused.
///
/// Refused with 32, before the file is read, when there were 1,000 files; the totals are kept then.
/// A sum that would not fit stays at the greatest number.
pub fn account(
    file: &[u8],
    nodes: &mut [u64],
    items: &mut [u64],
    totals: &mut Totals,
) -> Result<Kinds, Refusal> {
    if totals.files >= account::FILE_LIMIT {
        nodes.fill(0);
        items.fill(0);
        return Err(Refusal::at(32, 0));
    }
    totals.files += 1;
    let answer = ask(file, nodes, items, |rows, tree| {
        Ok(account::count(&account::kinds(rows, tree.version)?))
    });
    match answer {
        Ok(counts) => {
            for (sum, count) in totals.kinds.iter_mut().zip(counts) {
                *sum = sum.saturating_add(count);
            }
        }
        Err(_) => totals.refused = totals.refused.saturating_add(1),
    }
    answer
}

/// Writes the support sheet of a file into a lent buffer and answers the number of bytes written.
///
/// Bytes of the buffer past the sheet are 0; after a refusal all are. Refused with 22 when the
/// sheet is longer than the buffer.
pub fn write_sheet(
    file: &[u8],
    nodes: &mut [u64],
    items: &mut [u64],
    sheet: &mut [u8],
) -> Result<usize, Refusal> {
    write_edition(file, nodes, items, sheet, Edition::First)
}

/// Writes the support sheet in its second edition, as [`write_sheet`] does in the first.
pub fn write_sheet2(
    file: &[u8],
    nodes: &mut [u64],
    items: &mut [u64],
    sheet: &mut [u8],
) -> Result<usize, Refusal> {
    write_edition(file, nodes, items, sheet, Edition::Second)
}

/// Writes the support sheet in an edition.
fn write_edition(
    file: &[u8],
    nodes: &mut [u64],
    items: &mut [u64],
    sheet: &mut [u8],
    edition: Edition,
) -> Result<usize, Refusal> {
    let written = ask(file, nodes, items, |rows, tree| {
        sheet::write(rows, tree.version, edition, sheet)
    });
    sheet[written.unwrap_or(0)..].fill(0);
    written
}

/// Moves a sheet to the other edition in lent room, and answers the number of bytes written.
///
/// Bytes of the room past the sheet are 0; after a refusal all are. Refused with 31 when the sheet is
/// not well formed, placed at the number, from 1, of the first line that cannot stand after those
/// before it, or at 1 where only the counts disagree; with 22 when the room is too short.
pub fn move_sheet(sheet: &[u8], out: &mut [u8]) -> Result<usize, Refusal> {
    let written = mover::move_sheet(sheet, out);
    out[written.unwrap_or(0)..].fill(0);
    written
}

/// Replaces the data of an item row, a universal and visible content, by a title, and writes the whole
/// file anew into lent room. The answer is the number of bytes written.
///
/// Every number outside data is written in its shortest form, and lengths and places are the least that
/// fit each other; all else is copied. The tables hold the new file's rows. Bytes of the room past
/// the new file are 0; after a refusal all are.
///
/// Refused with 18 when there is no such item row, with 36 when a node refers to the file or to a
/// node, with 37 when the content is hidden or not universal, with 38 when the new file would be
/// longer than a file may be, with 22 when the room is too short.
pub fn correct_title(
    file: &[u8],
    nodes: &mut [u64],
    items: &mut [u64],
    item_row: u64,
    title: &[u8],
    out: &mut [u8],
) -> Result<usize, Refusal> {
    let written = ask(file, nodes, items, |rows, tree| {
        title::correct(rows, tree.version, item_row, title, out)
    });
    out[written.unwrap_or(0)..].fill(0);
    let length = written?;
    read_tree(&out[..length], nodes, items).expect("what has been written can be read");
    Ok(length)
}

/// Copies a file into lent room with FileLength and TreeEnd set right, in the bytes that they have, and
/// writes a line for each that changed into another: its name, its place, its old and its new value. The
/// answer is the number of bytes of each.
///
/// The tables hold the mended file's rows. Bytes past what is written are 0; after a refusal all are.
///
/// Refused, as the unchanged file is, when no values of the two, in their bytes, make a file that is
/// accepted with these tables; with 22 when either room is too short.
pub fn mend(
    file: &[u8],
    nodes: &mut [u64],
    items: &mut [u64],
    copy: &mut [u8],
    lines: &mut [u8],
) -> Result<[usize; 2], Refusal> {
    copy.fill(0);
    lines.fill(0);
    let mended = mend::mended(file);
    let mended = mended.filter(|(mended, _)| read_tree(mended, nodes, items).is_ok());
    let Some((mended, told)) = mended else {
        let refusal = read_tree(file, nodes, items).map(|_| ());
        return Err(refusal.expect_err("a file that is accepted is mended to itself"));
    };
    if copy.len() < mended.len() || lines.len() < told.len() {
        nodes.fill(0);
        items.fill(0);
        return Err(Refusal::at(22, 0));
    }
    copy[..mended.len()].copy_from_slice(&mended);
    lines[..told.len()].copy_from_slice(&told);
    Ok([mended.len(), told.len()])
}

/// Converts UTF-16, high byte first, into UTF-8 in lent room, and answers the number of bytes written.
/// One leading FEFF is dropped.
///
/// Bytes of the room past the text are 0; after a refusal all are. Refused with 26 when the data has an
/// odd length or a lone surrogate, placed in the data where the first bad character begins; with 22
/// when the room is too short.
pub fn utf16_to_utf8(data: &[u8], text: &mut [u8]) -> Result<usize, Refusal> {
    let written = unicode::from_utf16(data, text);
    text[written.unwrap_or(0)..].fill(0);
    written
}

/// Converts UTF-8 into UTF-16, high byte first, in lent room, and answers the number of bytes
/// written.
///
/// Bytes of the room past the data are 0; after a refusal all are. Refused with 26 when the text is no
/// UTF-8, placed in the text where the first bad character begins; with 22 when the room is too
/// short.
pub fn utf8_to_utf16(text: &[u8], data: &mut [u8]) -> Result<usize, Refusal> {
    let written = unicode::from_utf8(text, data);
    data[written.unwrap_or(0)..].fill(0);
    written
}

/// The number of frames in an ID3v2.4 tag.
///
/// Refused with 33 when it is no such tag, with 34 when something of it is cut short or a size is bad,
/// with 35 when it is unsynchronised.
pub fn frame_count(tag: &[u8]) -> Result<u64, Refusal> {
    Ok(id3::frames(tag)?.len() as u64)
}

/// A frame of an ID3v2.4 tag, by its number from 0 in file order.
///
/// Refused as [`frame_count`] is, then with 18 when there is no such frame.
pub fn frame(tag: &[u8], number: u64) -> Result<Frame, Refusal> {
    let frames = id3::frames(tag)?;
    let number = usize::try_from(number).unwrap_or(usize::MAX);
    frames.get(number).copied().ok_or(Refusal::at(18, 0))
}

/// Puts a sheet on a shelf. The words are cards, four words each: desk, call, boat, and the length of the
/// sheet, which is in the part of the text with the card's number; there are sixteen equal parts.
///
/// A refusal changes nothing. Refused with 39 when the shelf is damaged, with 27 for call 0, with 29 when
/// the sheet's card is there already, with 30 when it is longer than a part, with 28 when no card is free.
pub fn shelf_put(
    cards: &mut [u64],
    text: &mut [u8],
    label: Label,
    sheet: &[u8],
) -> Result<(), Refusal> {
    shelf::put(cards, text, label, sheet)
}

/// Gets a sheet from a shelf into lent room, and answers its length.
///
/// Bytes of the room past the sheet are 0; after a refusal all are. Refused with 39 when the shelf is
/// damaged, with 27 when there is no such card, with 22 when the room is too short.
pub fn shelf_get(
    cards: &[u64],
    text: &[u8],
    label: Label,
    room: &mut [u8],
) -> Result<usize, Refusal> {
    room.fill(0);
    let sheet = shelf::get(cards, text, label)?;
    let place = room.get_mut(..sheet.len()).ok_or(Refusal::at(22, 0))?;
    place.copy_from_slice(sheet);
    Ok(sheet.len())
}

/// Drops a sheet from a shelf: its card and its part of the text are 0.
///
/// A refusal changes nothing. Refused with 39 when the shelf is damaged, with 27 when there is no such
/// card.
pub fn shelf_drop(cards: &mut [u64], text: &mut [u8], label: Label) -> Result<(), Refusal> {
    shelf::drop(cards, text, label)
}

/// Reads the tree and asks about its rows. Every refusal clears the tables.
fn ask<T>(
    file: &[u8],
    nodes: &mut [u64],
    items: &mut [u64],
    question: impl FnOnce(&Rows, Tree) -> Result<T, Refusal>,
) -> Result<T, Refusal> {
    let tree = read_tree(file, nodes, items)?;
    let answer = question(&Rows::new(file, nodes, items, tree), tree);
    if answer.is_err() {
        nodes.fill(0);
        items.fill(0);
    }
    answer
}
