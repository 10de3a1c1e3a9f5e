//! Questions about XMF files of versions 1.00, 1.01 and 2.00, answered by the proved reader.
//!
//! | Question | Function |
//! |---|---|
//! | read the tree | [`read_tree`] |
//! | find the nearest metadata item, or a node's own | [`find`], [`find_own`] |
//! | resolve a resource | [`resolve`], and for its bytes [`resource`] or [`copy_resource`] |
//! | say what the tune needs | [`voice_count`] |
//! | judge Mobile XMF | [`judge`] |
//! | count where the bytes go, and sum over files | [`account`] |
//! | write the support sheet, or its second edition | [`write_sheet`], [`write_sheet2`] |
//! | correct a title | [`correct_title`] |
//! | mend a header | [`mend`] |
//!
//! Three more functions take no file: [`utf16_to_utf8`] and [`utf8_to_utf16`] convert a text, and
//! [`move_sheet`] moves a sheet from one edition to the other. [`id3_count`] and [`id3_frame`] walk an
//! ID3 tag. A [`Shelf`] keeps the sheets of desks that share it.
//!
//! Each question takes the file and two lent tables of words, one for node rows and one for item
//! rows, of any size and whatever they hold before. It reads the file afresh. After an answer the
//! tables hold the file's rows, and zeros past the last row. After a refusal they hold zeros only.
//! [`correct_title`] and [`mend`] write a file, and the tables then hold the rows of that one.
//! Nothing is allocated and nothing panics.
//!
//! Every place is counted from the file's first byte.
//!
//! [`File`] puts names on all this: it reads a file into [`Tables`], has [`Node`]s and [`Item`]s, and asks
//! the questions. A file that is not read may be mended: [`Tables::mend`] gives a [`MendedFile`].
//!
//! ```
//! use xmf::{Field, File, Tables, Version};
//!
//! let mut tables = Tables::default();
//! let mut file = File::read(include_bytes!("../../../samples/worked.xmf"), &mut tables)?;
//! assert_eq!(file.version(), Version::V200);
//! for node in file.nodes() {
//!     println!("node {} at {}, depth {}", node.row, node.start, node.depth);
//! }
//! assert_eq!(file.find(1, Field::Custom(b"a"))?.data(), b"Hi");
//! # Ok::<(), xmf::Refusal>(())
//! ```
//!
//! The functions below take tables of any size, and give rows as words: [`node`] and [`item`] name their
//! columns.
//!
//! ```
//! use xmf::{Field, ALL_ITEM_WORDS, ALL_NODE_WORDS};
//!
//! let file = include_bytes!("../../../samples/worked.xmf");
//! let mut nodes = [0; ALL_NODE_WORDS];
//! let mut items = [0; ALL_ITEM_WORDS];
//! let tree = xmf::read_tree(file, &mut nodes, &mut items).unwrap();
//! assert_eq!((tree.version, tree.nodes, tree.items), (200, 2, 3));
//!
//! let found = xmf::find(file, &mut nodes, &mut items, 1, Field::Custom(b"a")).unwrap();
//! let data = found.words[xmf::item::DATA] as usize;
//! let length = found.words[xmf::item::DATA_LENGTH] as usize;
//! assert_eq!(&file[data..data + length], b"Hi");
//! ```
//!
//! The crate needs no standard library and no allocation.

#![no_std]

use core::{error, fmt};

pub mod c;
mod kind;
mod typed;
pub mod words;

pub use kind::{RefusalKind, Verdict, VERSION};
pub use typed::{other_edition, to_utf16, to_utf8, Change, Content, File, Format, Frame};
pub use typed::{HeaderField, Item, MendedFile, Node, Reference, Tables, Tag, Version};

/// The words of a table with as many node rows as there may be.
pub const ALL_NODE_WORDS: usize = 256 * node::WORDS;
/// The words of a table with as many item rows as there may be.
pub const ALL_ITEM_WORDS: usize = 1024 * item::WORDS;
/// The words of the longest answer, that of [`find`] and [`find_own`].
pub const ANSWER_WORDS: usize = 3 + item::WORDS;

/// Bytes that are enough for the lines of [`mend`]: two, in which a number has at most nine digits.
pub const LINES_ROOM: usize = 80;

/// The columns of a node row.
pub mod node {
    /// The number of words in a row.
    pub const WORDS: usize = 13;
    /// Place of the node's first byte.
    pub const START: usize = 0;
    /// The node's length.
    pub const LENGTH: usize = 1;
    /// Length of the node's header, from the node's first byte to its reference.
    pub const HEADER_LENGTH: usize = 2;
    /// Number of nodes the node holds; 0 for a file node.
    pub const CONTAINED: usize = 3;
    /// Row of the folder that holds the node; the own row for the root, which is 0, and for a
    /// detached node.
    pub const PARENT: usize = 4;
    /// Depth, the root being at 1; 0 for a detached node.
    pub const DEPTH: usize = 5;
    /// Reference: 1 in the node, 2 a place in the file, 3 another node, 4 a URI.
    pub const REFERENCE: usize = 6;
    /// Place of the contents (reference 1), the offset (2 and 3), or place of the URI (4).
    pub const TARGET: usize = 7;
    /// Length of the contents (reference 1), bytes to the file's end (2), 0 (3), or length of the
    /// URI (4).
    pub const EXTENT: usize = 8;
    /// Place of the byte after the unpackers' length.
    pub const UNPACKERS: usize = 9;
    /// Number of unpackers.
    pub const UNPACKER_COUNT: usize = 10;
    /// Number of item rows of the node.
    pub const ITEMS: usize = 11;
    /// 1 if the node is detached, that is, outside the tree; otherwise 0.
    pub const DETACHED: usize = 12;
}

/// The columns of an item row.
pub mod item {
    /// The number of words in a row.
    pub const WORDS: usize = 10;
    /// Row of the node that has the item.
    pub const NODE: usize = 0;
    /// Number of the item in its node, from 0.
    pub const NUMBER: usize = 1;
    /// Kind of field: [`STANDARD`] or [`CUSTOM`].
    pub const KIND: usize = 2;
    /// The standard number, or the place of the custom name.
    pub const FIELD: usize = 3;
    /// Length of the custom name; 0 for a standard field.
    pub const NAME_LENGTH: usize = 4;
    /// Number of the version, from 1; 0 for a universal content.
    pub const VERSION: usize = 5;
    /// The version's type; 0 for a universal content.
    pub const TYPE: usize = 6;
    /// String format; an odd one is hidden.
    pub const FORMAT: usize = 7;
    /// Place of the data.
    pub const DATA: usize = 8;
    /// Length of the data.
    pub const DATA_LENGTH: usize = 9;

    /// Kind of an item with a standard field.
    pub const STANDARD: u64 = 0;
    /// Kind of an item with a custom field.
    pub const CUSTOM: u64 = 1;
}

/// Why a question is refused.
#[derive(Clone, Copy, Debug, PartialEq, Eq)]
pub struct Refusal {
    /// The number in the refusal list: 1 to 39.
    pub number: u64,
    /// The place of the refused field's first byte, or 0 where the list names none. For 26 the place
    /// of the first bad character in what was to be converted.
    pub place: u64,
}

impl Refusal {
    /// What the number means.
    #[must_use]
    pub fn meaning(&self) -> &'static str {
        match self.number {
            1 => "fewer than 8 bytes, or not an XMF file",
            2 => "the version is not 1.00, 1.01 or 2.00",
            3 => "a field runs past the part that holds it",
            4 => "a number has more than four bytes, or a GUID more than nineteen",
            5 => "the length in the header is not the number of bytes received",
            6 => "the types table has a type twice, or more than 32 entries",
            7 => "the tree begins inside the header, or ends before it begins or past the file",
            8 => {
                "a node does not fit its holder (the root: does not fill the tree), its header \
                 does not fit the node, or metadata or unpackers run past the header"
            }
            9 => "a node at depth 17",
            10 => {
                "no row left: more than 256 nodes or 1,024 item rows, or the lent tables are \
                 smaller"
            }
            11 => "a universal content of length 0, or a type that the file does not declare",
            12 => "an unpacker of an unknown kind",
            13 => "reference 0, or above 4",
            14 => "a folder that is packed, or whose contents do not follow in it",
            15 => "bytes left between a part's last field and its end",
            16 => {
                "a reference leads into the header, past the file's end, or into the tree where \
                 no node starts"
            }
            17 => "more than 268,435,455 bytes",
            18 => "the row asked for is not there",
            19 => "resolving ends at a folder",
            20 => "resolving ends at a URI",
            21 => "a fifth reference would be followed",
            22 => {
                "the sheet, a resource, a converted text or the new file is longer than its buffer"
            }
            23 => "no such item",
            24 => {
                "a detached node is a folder, or shares a byte with another detached node; \
                 placed at the number that refers to it"
            }
            25 => {
                "a content description is not readable: a field is cut short, a number has more \
                 than four bytes, a kind is above 5, or bytes are left over"
            }
            26 => "UTF-16 of odd length or with half of a surrogate pair, or bad UTF-8",
            27 => "call 0, or the shelf has no card with this desk, call and boat",
            28 => "all cards of the shelf are taken",
            29 => "the shelf has a card with this desk, call and boat already",
            30 => "the sheet is longer than a part of the shelf",
            31 => "the sheet is not well formed; the place is a line's number, counted from 1",
            32 => "a 1,001st file",
            33 => "fewer than ten bytes, not an ID3 tag, or not version 4 of it",
            34 => {
                "the tag is cut short, has a size byte of 80h or more, or too small an extended \
                 size"
            }
            35 => "the tag or a frame is unsynchronised",
            36 => "a node has reference 2 or 3",
            37 => "the content to be corrected is hidden, or one of several versions",
            38 => "the file with the new title would have more than 268,435,455 bytes",
            39 => "the shelf has more than 16 cards, or a taken card that is faulty",
            _ => "not in the list",
        }
    }
}

impl fmt::Display for Refusal {
    fn fmt(&self, out: &mut fmt::Formatter) -> fmt::Result {
        let Refusal { number, place } = self;
        write!(out, "refusal {number} at {place}: {}", self.meaning())
    }
}

impl error::Error for Refusal {}

/// What reading the tree answers, besides the rows.
#[derive(Clone, Copy, Debug, PartialEq, Eq)]
pub struct Tree {
    /// The version times a hundred: 100, 101 or 200.
    pub version: u64,
    /// The number of node rows.
    pub nodes: usize,
    /// The number of item rows.
    pub items: usize,
}

/// A field of an item, as it is found and as it is given.
#[derive(Clone, Copy, Debug, PartialEq, Eq, Hash)]
#[non_exhaustive]
pub enum Field<'a> {
    /// A standard field, by its number.
    Standard(u64),
    /// A custom field, by the bytes of its name. An empty name is never found.
    Custom(&'a [u8]),
}

/// An item that has been found.
#[derive(Clone, Copy, Debug, PartialEq, Eq)]
pub struct Found {
    /// The number of its item row.
    pub row: usize,
    /// The words of that row; [`item`] names the columns.
    pub words: [u64; item::WORDS],
}

/// A resource that has been resolved.
#[derive(Clone, Copy, Debug, PartialEq, Eq)]
pub struct Resource {
    /// Place of its first byte.
    pub place: usize,
    /// The number of its bytes.
    pub length: usize,
    /// The node row whose unpackers apply.
    pub row: usize,
    /// The number of references followed.
    pub hops: u64,
}

/// The bytes of a file by kind, or sums of them over files.
#[derive(Clone, Copy, Debug, Default, PartialEq, Eq)]
pub struct Kinds {
    /// The file header, the types table among it.
    pub header: u64,
    /// Node frames: the length, the contained items and the header length of each node.
    pub nodes: u64,
    /// Metadata frames: all of the metadata but its data.
    pub metadata: u64,
    /// The data of contents that are not hidden.
    pub visible: u64,
    /// The data of hidden contents.
    pub hidden: u64,
    /// Unpackers, with their length.
    pub unpackers: u64,
    /// References, with their contents other than inline data.
    pub references: u64,
    /// Inline data of file nodes.
    pub inline: u64,
    /// All else: bytes outside header, tree and detached nodes.
    pub rest: u64,
}

impl Kinds {
    /// The counts, in the order of the fields.
    #[must_use]
    pub fn counts(&self) -> [u64; 9] {
        [
            self.header,
            self.nodes,
            self.metadata,
            self.visible,
            self.hidden,
            self.unpackers,
            self.references,
            self.inline,
            self.rest,
        ]
    }
}

impl From<[u64; 9]> for Kinds {
    fn from(counts: [u64; 9]) -> Self {
        let [header, nodes, metadata, visible, hidden, unpackers, references, inline, rest] =
            counts;
        Kinds {
            header,
            nodes,
            metadata,
            visible,
            hidden,
            unpackers,
            references,
            inline,
            rest,
        }
    }
}

/// Sums over files. They begin all zero, which is their default.
#[derive(Clone, Copy, Debug, Default, PartialEq, Eq)]
pub struct Totals {
    /// The number of files, refused ones too.
    pub files: u64,
    /// The number of files that were refused.
    pub refused: u64,
    /// The bytes of the others by kind.
    pub kinds: Kinds,
}

/// Reads the tree of a file, and the detached nodes that references lead to, into the lent tables.
///
/// # Errors
///
/// The reader's refusals: 1 to 17 and 24.
pub fn read_tree(file: &[u8], nodes: &mut [u64], items: &mut [u64]) -> Result<Tree, Refusal> {
    let mut answer = [0; 5];
    words::read_tree(file, nodes, items, &mut answer);
    let [version, node_rows, item_rows] = values(answer)?;
    Ok(Tree {
        version,
        nodes: node_rows as usize,
        items: item_rows as usize,
    })
}

/// Finds the first item of a field on the node of a row, or on the nearest node above it that has
/// one. From a detached node it looks at that node only. Hidden items are found too.
///
/// # Errors
///
/// Those of [`read_tree`]. Refused with 18 when there is no such row, with 23 when there is no such
/// item.
pub fn find(
    file: &[u8],
    nodes: &mut [u64],
    items: &mut [u64],
    row: usize,
    field: Field,
) -> Result<Found, Refusal> {
    let mut answer = [0; ANSWER_WORDS];
    words::find(file, nodes, items, row, field, &mut answer);
    found(answer)
}

/// Finds the first item of a field on the node of a row itself. Hidden items are found too.
///
/// # Errors
///
/// Those of [`read_tree`]. Refused with 18 when there is no such row, with 23 when the node has no
/// such item.
pub fn find_own(
    file: &[u8],
    nodes: &mut [u64],
    items: &mut [u64],
    row: usize,
    field: Field,
) -> Result<Found, Refusal> {
    let mut answer = [0; ANSWER_WORDS];
    words::find_own(file, nodes, items, row, field, &mut answer);
    found(answer)
}

/// The item row in the words of an answer.
fn found(answer: [u64; ANSWER_WORDS]) -> Result<Found, Refusal> {
    let [row, words @ ..] = values::<ANSWER_WORDS, { 1 + item::WORDS }>(answer)?;
    Ok(Found {
        row: row as usize,
        words,
    })
}

/// Resolves the resource of a row's node, following at most four references.
///
/// # Errors
///
/// Those of [`read_tree`]. Refused with 18 when there is no such row, with 19 when it ends at a
/// folder, with 20 when it ends at a URI, with 21 when a fifth reference would be followed.
pub fn resolve(
    file: &[u8],
    nodes: &mut [u64],
    items: &mut [u64],
    row: usize,
) -> Result<Resource, Refusal> {
    let mut answer = [0; 6];
    words::resolve(file, nodes, items, row, &mut answer);
    resolved(answer)
}

/// The resource in the words of an answer.
fn resolved(answer: [u64; 6]) -> Result<Resource, Refusal> {
    let [place, length, row, hops] = values(answer)?;
    Ok(Resource {
        place: place as usize,
        length: length as usize,
        row: row as usize,
        hops,
    })
}

/// Gives the resource that [`resolve`] names, as a part of the lent file.
///
/// A reference 2 may lead to any place after the file header, so these bytes may include hidden
/// data. Do not put them into a ticket.
///
/// # Errors
///
/// Those of [`resolve`].
pub fn resource<'a>(
    file: &'a [u8],
    nodes: &mut [u64],
    items: &mut [u64],
    row: usize,
) -> Result<&'a [u8], Refusal> {
    let found = resolve(file, nodes, items, row)?;
    Ok(&file[found.place..][..found.length])
}

/// Resolves as [`resolve`] does, and copies the resource into a lent buffer.
///
/// Bytes of the buffer past the resource are 0; after a refusal all are. The bytes may include hidden
/// data, as those of [`resource`] may.
///
/// ```
/// use xmf::{ALL_ITEM_WORDS, ALL_NODE_WORDS};
///
/// let file = include_bytes!("../../../samples/worked.xmf");
/// let mut nodes = vec![0; ALL_NODE_WORDS];
/// let mut items = vec![0; ALL_ITEM_WORDS];
/// let mut out = [1; 4];
/// let found = xmf::copy_resource(file, &mut nodes, &mut items, 1, &mut out).unwrap();
/// assert_eq!((found.place, found.length), (54, 2));
/// assert_eq!(out, [0xAA, 0xBB, 0, 0]);
/// let short = xmf::copy_resource(file, &mut nodes, &mut items, 1, &mut out[..1]);
/// assert_eq!(short.unwrap_err().number, 22);
/// assert_eq!(out, [0, 0xBB, 0, 0]);
/// ```
///
/// # Errors
///
/// Those of [`resolve`], then 22 when the resource is longer than the buffer.
pub fn copy_resource(
    file: &[u8],
    nodes: &mut [u64],
    items: &mut [u64],
    row: usize,
    out: &mut [u8],
) -> Result<Resource, Refusal> {
    let mut answer = [0; 6];
    words::copy_resource(file, nodes, items, row, out, &mut answer);
    resolved(answer)
}

/// The count that an item row, a content description, gives for a channel and a resource, both
/// numbered from 0.
///
/// ```
/// use xmf::{item, ALL_ITEM_WORDS, ALL_NODE_WORDS};
///
/// let file = include_bytes!("../../../samples/mobile.xmf");
/// let mut nodes = vec![0; ALL_NODE_WORDS];
/// let mut items = vec![0; ALL_ITEM_WORDS];
/// let tune = xmf::find_own(file, &mut nodes, &mut items, 1, xmf::Field::Standard(13)).unwrap();
/// assert_eq!(tune.words[item::FORMAT], 6);
/// let voices = xmf::voice_count(file, &mut nodes, &mut items, tune.row, 0, 0);
/// assert_eq!(voices, Ok(4));
/// ```
///
/// # Errors
///
/// Those of [`read_tree`]. Refused with 18 when there is no such item row, with 23 when it is no
/// universal field 13 in format 6 or 7, with 25 when its data is not readable, placed at the first
/// fault, then with 23 when it describes no such channel or resource.
pub fn voice_count(
    file: &[u8],
    nodes: &mut [u64],
    items: &mut [u64],
    item_row: usize,
    channel: u64,
    resource: u64,
) -> Result<u64, Refusal> {
    let mut answer = [0; 3];
    words::voice_count(file, nodes, items, item_row, channel, resource, &mut answer);
    let [count] = values(answer)?;
    Ok(count)
}

/// Judges whether a file is a Mobile XMF file: 0, or the number 1 to 8 of the first check that
/// fails.
///
/// # Errors
///
/// Those of [`read_tree`].
pub fn judge(file: &[u8], nodes: &mut [u64], items: &mut [u64]) -> Result<u64, Refusal> {
    let mut answer = [0; 3];
    words::judge(file, nodes, items, &mut answer);
    let [verdict] = values(answer)?;
    Ok(verdict)
}

/// Counts the bytes of a file by kind, and adds them to the totals. Each byte is of one kind by its
/// place, and the counts sum to the file's length.
///
/// A refused file is one more file and one more refused. A sum that would not fit stays at the
/// greatest number, which no totals that begin all zero come to.
///
/// ```
/// use xmf::{Totals, ALL_ITEM_WORDS, ALL_NODE_WORDS};
///
/// let mut nodes = vec![0; ALL_NODE_WORDS];
/// let mut items = vec![0; ALL_ITEM_WORDS];
/// let mut totals = Totals::default();
/// let files: [&[u8]; 2] = [
///     include_bytes!("../../../samples/mobile.xmf"),
///     include_bytes!("../../../samples/cut.xmf"),
/// ];
/// for file in files {
///     let _ = xmf::account(file, &mut nodes, &mut items, &mut totals);
/// }
/// assert_eq!((totals.files, totals.refused), (2, 1));
/// assert_eq!((totals.kinds.inline, totals.kinds.rest), (63, 0));
/// ```
///
/// # Errors
///
/// Those of [`read_tree`]. Refused with 32, before the file is read, when the totals have 1,000
/// files; they are kept then.
pub fn account(
    file: &[u8],
    nodes: &mut [u64],
    items: &mut [u64],
    totals: &mut Totals,
) -> Result<Kinds, Refusal> {
    let mut sums = [0; 11];
    sums[..2].copy_from_slice(&[totals.files, totals.refused]);
    sums[2..].copy_from_slice(&totals.kinds.counts());
    let mut answer = [0; 11];
    words::account(file, nodes, items, &mut sums, &mut answer);
    let [files, refused, kinds @ ..] = sums;
    *totals = Totals {
        files,
        refused,
        kinds: kinds.into(),
    };
    values::<11, 9>(answer).map(Kinds::from)
}

/// Writes the support sheet of a file into a lent buffer and answers the number of bytes written.
///
/// Bytes of the buffer past the sheet are 0; after a refusal all are.
///
/// # Errors
///
/// Those of [`read_tree`]. Refused with 22 when the sheet is longer than the buffer.
pub fn write_sheet(
    file: &[u8],
    nodes: &mut [u64],
    items: &mut [u64],
    sheet: &mut [u8],
) -> Result<usize, Refusal> {
    let mut answer = [0; 3];
    words::write_sheet(file, nodes, items, sheet, &mut answer);
    let [written] = values(answer)?;
    Ok(written as usize)
}

/// Writes the support sheet in its second edition, as [`write_sheet`] does in the first: the first word
/// is `XMF2`, and the lines of a row's items stand right after the row's own line.
///
/// ```
/// use xmf::{ALL_ITEM_WORDS, ALL_NODE_WORDS};
///
/// let file = include_bytes!("../../../samples/folders.xmf");
/// let mut nodes = vec![0; ALL_NODE_WORDS];
/// let mut items = vec![0; ALL_ITEM_WORDS];
/// let [mut first, mut second, mut moved] = [[0; 1000]; 3];
/// let length = xmf::write_sheet(file, &mut nodes, &mut items, &mut first).unwrap();
/// let length2 = xmf::write_sheet2(file, &mut nodes, &mut items, &mut second).unwrap();
/// assert!(second.starts_with(b"XMF2\t1.01\t237\t6\t8\nN\t0\t0\t1\t1\t61\t155\nM\t0\tS\t9\t0\t0\t"));
/// assert_eq!(xmf::move_sheet(&first[..length], &mut moved), Ok(length2));
/// assert_eq!(moved, second);
/// ```
///
/// # Errors
///
/// Those of [`write_sheet`].
pub fn write_sheet2(
    file: &[u8],
    nodes: &mut [u64],
    items: &mut [u64],
    sheet: &mut [u8],
) -> Result<usize, Refusal> {
    let mut answer = [0; 3];
    words::write_sheet2(file, nodes, items, sheet, &mut answer);
    let [written] = values(answer)?;
    Ok(written as usize)
}

/// Replaces the data of an item row, which must be visible and universal, by a title, writes the whole
/// file anew into a lent buffer, and answers the number of bytes written.
///
/// Every number outside data is written in its shortest form, each length and place the least that fits
/// the others; all else is copied. The tables hold the new file's rows. Bytes of the buffer past the
/// new file are 0; after a refusal all are. The same title again gives the same file.
///
/// The new file holds the hidden bytes of the old one.
///
/// # Errors
///
/// Those of [`read_tree`]. Refused with 18 when there is no such item row, with 36 when a node has
/// reference 2 or 3, with 37 when the content is hidden or not universal, with 38 when the new file
/// would be longer than a file may be, with 22 when it is longer than the buffer.
pub fn correct_title(
    file: &[u8],
    nodes: &mut [u64],
    items: &mut [u64],
    item_row: usize,
    title: &[u8],
    out: &mut [u8],
) -> Result<usize, Refusal> {
    let mut answer = [0; 3];
    words::correct_title(file, nodes, items, item_row, title, out, &mut answer);
    let [written] = values(answer)?;
    Ok(written as usize)
}

/// What was written of a mended file.
#[derive(Clone, Copy, Debug, PartialEq, Eq)]
pub struct Mended {
    /// The number of bytes of the copy, which is that of the file.
    pub copy: usize,
    /// The number of bytes of the lines; 0 when nothing was changed.
    pub lines: usize,
}

/// Copies the file into a lent buffer, with `FileLength` and `TreeEnd` set right in the bytes that they
/// already have: `FileLength` to the number of bytes lent, `TreeEnd` to the place of the root's last
/// byte. No other byte differs.
///
/// Another buffer gets one line, ended by 0Ah, for each field that changed, in file order: `FileLength`
/// or `TreeEnd`, its place, its old and its new value, with tabs between. The tables hold the mended
/// file's rows. Bytes of either buffer past what is written are 0; after a refusal all are. A file that
/// is accepted as it is gives its copy and no line. [`LINES_ROOM`] bytes hold the lines of any file.
///
/// The copy holds the hidden bytes of the file.
///
/// ```
/// use xmf::{ALL_ITEM_WORDS, ALL_NODE_WORDS, LINES_ROOM};
///
/// let worked = include_bytes!("../../../samples/worked.xmf");
/// let mut file = *worked;
/// file[16] = 5;
/// let mut nodes = vec![0; ALL_NODE_WORDS];
/// let mut items = vec![0; ALL_ITEM_WORDS];
/// let (mut copy, mut lines) = ([0; 56], [0; LINES_ROOM]);
/// let mended = xmf::mend(&file, &mut nodes, &mut items, &mut copy, &mut lines).unwrap();
/// assert_eq!(&copy, worked);
/// assert_eq!(&lines[..mended.lines], b"FileLength\t16\t5\t56\n");
/// ```
///
/// # Errors
///
/// Those of [`read_tree`], as the unchanged file has them, when either field cannot be read as a number,
/// or when no values of the two, in their bytes, make a file that is accepted with these tables; then 22
/// when either buffer is too short. A file whose bytes are missing cannot be mended.
pub fn mend(
    file: &[u8],
    nodes: &mut [u64],
    items: &mut [u64],
    copy: &mut [u8],
    lines: &mut [u8],
) -> Result<Mended, Refusal> {
    let mut answer = [0; 4];
    words::mend(file, nodes, items, copy, lines, &mut answer);
    let [copy, lines] = values(answer)?;
    Ok(Mended {
        copy: copy as usize,
        lines: lines as usize,
    })
}

/// Converts UTF-16, high byte first, into UTF-8 in a lent buffer, and answers the number of bytes
/// written. One leading FEFF is dropped.
///
/// Bytes of the buffer past the text are 0; after a refusal all are.
///
/// Hidden text is converted only here, on request: the sheet never shows it, and what this function
/// gives of it is outside demand 3. Do not put it into a ticket.
///
/// # Errors
///
/// Refused with 26 when the data has an odd length or half of a surrogate pair, placed in the data
/// where the first bad character begins, then with 22 when the text is longer than the buffer.
pub fn utf16_to_utf8(data: &[u8], text: &mut [u8]) -> Result<usize, Refusal> {
    let mut answer = [0; 3];
    words::utf16_to_utf8(data, text, &mut answer);
    let [written] = values(answer)?;
    Ok(written as usize)
}

/// Converts UTF-8 into UTF-16, high byte first, in a lent buffer, and answers the number of bytes
/// written. Nothing is dropped.
///
/// Bytes of the buffer past the data are 0; after a refusal all are.
///
/// # Errors
///
/// Refused with 26 when the text is no UTF-8, placed in the text where the first bad character
/// begins, then with 22 when the data is longer than the buffer.
pub fn utf8_to_utf16(text: &[u8], data: &mut [u8]) -> Result<usize, Refusal> {
    let mut answer = [0; 3];
    words::utf8_to_utf16(text, data, &mut answer);
    let [written] = values(answer)?;
    Ok(written as usize)
}

/// Moves a sheet to the other edition in a lent buffer, and answers the number of bytes written. The
/// first line says which edition it is of. Moving it over and back gives the same bytes.
///
/// Bytes of the buffer past the sheet are 0; after a refusal all are.
///
/// # Errors
///
/// Refused with 31 when the sheet is not well formed, placed at the number, from 1, of the first line
/// that cannot stand after those before it, or at 1 where only the counts disagree; then with 22 when
/// the sheet is longer than the buffer.
pub fn move_sheet(sheet: &[u8], out: &mut [u8]) -> Result<usize, Refusal> {
    let mut answer = [0; 3];
    words::move_sheet(sheet, out, &mut answer);
    let [written] = values(answer)?;
    Ok(written as usize)
}

/// A frame of an ID3 tag.
#[derive(Clone, Copy, Debug, PartialEq, Eq)]
pub struct Id3Frame {
    /// The four bytes of its name.
    pub name: [u8; 4],
    /// Place of its contents' first byte, in the tag.
    pub place: usize,
    /// The number of its contents' bytes.
    pub length: usize,
}

/// The number of frames of an ID3v2.4 tag. Bytes behind the tag's size are not read.
///
/// The walk reads whatever it is given, hidden contents too, and what it gives of them is outside
/// demand 3. Do not put it into a ticket.
///
/// ```
/// let tag = b"ID3\x04\0\0\0\0\0\x0CTIT2\0\0\0\x02\0\0Hi";
/// assert_eq!(xmf::id3_count(tag), Ok(1));
/// let frame = xmf::id3_frame(tag, 0).unwrap();
/// assert_eq!(&frame.name, b"TIT2");
/// assert_eq!(&tag[frame.place..][..frame.length], b"Hi");
/// ```
///
/// # Errors
///
/// Refused with 33 when it is no such tag, with 34 when something of it is cut short or a size is
/// bad, with 35 when it is unsynchronised, placed in the tag.
pub fn id3_count(tag: &[u8]) -> Result<usize, Refusal> {
    let mut answer = [0; 3];
    words::id3_count(tag, &mut answer);
    let [frames] = values(answer)?;
    Ok(frames as usize)
}

/// A frame of an ID3v2.4 tag, by its number from 0 in file order.
///
/// # Errors
///
/// Refused as [`id3_count`] is, then with 18 when there is no such frame.
pub fn id3_frame(tag: &[u8], number: usize) -> Result<Id3Frame, Refusal> {
    let mut answer = [0; 5];
    words::id3_frame(tag, number, &mut answer);
    let [name, place, length] = values(answer)?;
    Ok(Id3Frame {
        name: (name as u32).to_be_bytes(),
        place: place as usize,
        length: length as usize,
    })
}

/// Which sheet on a shelf is meant: the desk, the call and the boat that it is for.
#[derive(Clone, Copy, Debug, PartialEq, Eq)]
pub struct Label {
    /// The number of the desk.
    pub desk: u64,
    /// The call number; 0 is none.
    pub call: u64,
    /// The boat number.
    pub boat: u64,
}

/// The columns of a card of a [`Shelf`].
pub mod card {
    /// The number of words of a card.
    pub const WORDS: usize = 4;
    /// The number of the desk.
    pub const DESK: usize = 0;
    /// The call number; 0 where the card is free.
    pub const CALL: usize = 1;
    /// The boat number.
    pub const BOAT: usize = 2;
    /// The number of bytes of the sheet.
    pub const LENGTH: usize = 3;
}

/// The most cards that a [`Shelf`] may have, and the number of parts of its text.
pub const MOST_CARDS: usize = 16;
/// The words of that many cards.
pub const ALL_CARD_WORDS: usize = MOST_CARDS * card::WORDS;

/// A shelf that desks share: cards, four words each, and a text of 16 equal parts that holds their
/// sheets. The sheet of a card is in the part with the card's number; a part has a sixteenth of the
/// text's bytes, rounded down. Both are borrowed, so that they can be kept and sent as they are.
///
/// A fresh shelf is all zero. It has at most 16 cards; words that are left over are no card, and bytes
/// behind the sixteen parts belong to none: they are never changed.
///
/// What a desk is answered depends on its own calls, and on which of them meet 28 (no free card), alone.
/// A call that is refused changes nothing. With 39 every call refuses a shelf of more than 16 cards, and
/// one with a taken card whose sheet is longer than a part or that has the label of another; no calls on
/// a fresh shelf lead to one.
///
/// ```
/// use xmf::{Label, RefusalKind, Shelf, ALL_CARD_WORDS, MOST_CARDS};
///
/// let mut cards = [0; ALL_CARD_WORDS];
/// let mut text = vec![0; MOST_CARDS * 65_536];
/// let mut shelf = Shelf::new(&mut cards, &mut text);
/// let label = Label { desk: 1, call: 4711, boat: 12 };
/// shelf.put(label, b"XMF\t2.00")?;
/// assert_eq!(shelf.put(label, b"").unwrap_err().kind(), RefusalKind::AlreadyThere);
///
/// let mut room = [0; 65_536];
/// assert_eq!(shelf.get(label, &mut room)?, b"XMF\t2.00");
/// shelf.drop(label)?;
/// assert_eq!(shelf.get(label, &mut room).unwrap_err().kind(), RefusalKind::NoSuchCard);
/// # Ok::<(), xmf::Refusal>(())
/// ```
pub struct Shelf<'a> {
    cards: &'a mut [u64],
    text: &'a mut [u8],
}

impl<'a> Shelf<'a> {
    /// The shelf of these cards and this text, as they are.
    pub fn new(cards: &'a mut [u64], text: &'a mut [u8]) -> Self {
        Shelf { cards, text }
    }

    /// Puts a sheet, in the lowest free card; the rest of its part is 0.
    ///
    /// # Errors
    ///
    /// 39 when the shelf is damaged, 27 for call 0, 29 when there is a sheet with this label already, 30
    /// when the sheet is longer than a part, 28 when no card is free. The shelf is then as it was.
    pub fn put(&mut self, label: Label, sheet: &[u8]) -> Result<(), Refusal> {
        let mut answer = [0; 2];
        words::shelf_put(self.cards, self.text, label, sheet, &mut answer);
        let [] = values(answer)?;
        Ok(())
    }

    /// Gets a sheet into a buffer, and gives it. Bytes of the buffer past the sheet are 0; after a refusal
    /// all are.
    ///
    /// # Errors
    ///
    /// 39 when the shelf is damaged, 27 when there is no such sheet, 22 when it is longer than the buffer.
    pub fn get<'o>(&self, label: Label, room: &'o mut [u8]) -> Result<&'o [u8], Refusal> {
        let mut answer = [0; 3];
        words::shelf_get(self.cards, self.text, label, room, &mut answer);
        let [length] = values(answer)?;
        Ok(&room[..length as usize])
    }

    /// Drops a sheet: its card and its part are 0.
    ///
    /// # Errors
    ///
    /// 39 when the shelf is damaged, 27 when there is no such sheet. The shelf is then as it was.
    pub fn drop(&mut self, label: Label) -> Result<(), Refusal> {
        let mut answer = [0; 2];
        words::shelf_drop(self.cards, self.text, label, &mut answer);
        let [] = values(answer)?;
        Ok(())
    }
}

impl fmt::Debug for Shelf<'_> {
    /// Without cards and text, which are those of all desks.
    fn fmt(&self, out: &mut fmt::Formatter) -> fmt::Result {
        out.debug_struct("Shelf").finish_non_exhaustive()
    }
}

/// The values of an answer, or its refusal. There are two words more than values.
fn values<const WORDS: usize, const VALUES: usize>(
    answer: [u64; WORDS],
) -> Result<[u64; VALUES], Refusal> {
    const { assert!(WORDS == VALUES + 2) };
    match answer[0] {
        0 => Ok(core::array::from_fn(|value| answer[value + 2])),
        number => Err(Refusal {
            number,
            place: answer[1],
        }),
    }
}
