//! A file, its rows and the answers with names.

use crate::{item, node, Field, Found, Kinds, Refusal, Resource, Totals, Verdict};
use crate::{ALL_ITEM_WORDS, ALL_NODE_WORDS, LINES_ROOM};
use core::fmt;

/// The two tables that a file is read into, with room for all rows there may be: 256 nodes and 1,024
/// items.
///
/// It has 108,544 bytes. On a small stack, put it into a `Box` or a `static`.
#[derive(Clone)]
pub struct Tables {
    nodes: [u64; ALL_NODE_WORDS],
    items: [u64; ALL_ITEM_WORDS],
}

impl Tables {
    /// Tables without rows.
    #[must_use]
    pub const fn new() -> Self {
        Tables {
            nodes: [0; ALL_NODE_WORDS],
            items: [0; ALL_ITEM_WORDS],
        }
    }

    /// Counts the bytes of a file by kind, and adds them to the totals, as [`crate::account`] does. A
    /// refused file is counted too, as one that is refused.
    ///
    /// ```
    /// use xmf::{Tables, Totals};
    ///
    /// let mut totals = Totals::default();
    /// let mut tables = Tables::default();
    /// let files: [&[u8]; 2] = [
    ///     include_bytes!("../../../samples/mobile.xmf"),
    ///     include_bytes!("../../../samples/cut.xmf"),
    /// ];
    /// for file in files {
    ///     let _ = tables.account(file, &mut totals);
    /// }
    /// assert_eq!((totals.files, totals.refused, totals.kinds.inline), (2, 1, 63));
    /// ```
    ///
    /// # Errors
    ///
    /// The reader's refusals; 32 when the totals have 1,000 files.
    pub fn account(&mut self, file: &[u8], totals: &mut Totals) -> Result<Kinds, Refusal> {
        crate::account(file, &mut self.nodes, &mut self.items, totals)
    }

    /// Copies a file, whose header may be wrong, into a buffer, with `FileLength` and `TreeEnd` set right
    /// in the bytes that they have, as [`crate::mend`] does, and gives the copy and what was changed. No
    /// other byte differs. Bytes of the buffer past the copy are 0; after a refusal all are.
    ///
    /// ```
    /// use xmf::{File, HeaderField, Tables};
    ///
    /// let file = include_bytes!("../../../samples/mendable.xmf");
    /// let mut tables = Tables::default();
    /// assert!(File::read(file, &mut tables).is_err());
    ///
    /// let mut room = [0; 1000];
    /// let mended = tables.mend(file, &mut room)?;
    /// assert_eq!(mended.lines(), "FileLength\t16\t57\t56\nTreeEnd\t20\t60\t55\n");
    /// let change = mended.changes().next().unwrap();
    /// assert_eq!(change.field, HeaderField::FileLength);
    /// assert_eq!((change.place, change.old, change.new), (16, 57, 56));
    /// File::read(mended.bytes(), &mut tables)?;
    /// # Ok::<(), xmf::Refusal>(())
    /// ```
    ///
    /// # Errors
    ///
    /// The reader's refusals, as the unchanged file has them, when either field cannot be read as a number,
    /// or when no values of the two, in their bytes, make a file that is accepted; then 22 when the file is
    /// longer than the buffer. A file whose bytes are missing cannot be mended.
    pub fn mend<'o>(&mut self, file: &[u8], copy: &'o mut [u8]) -> Result<MendedFile<'o>, Refusal> {
        let mut lines = [0; LINES_ROOM];
        let mended = crate::mend(file, &mut self.nodes, &mut self.items, copy, &mut lines)?;
        Ok(MendedFile {
            bytes: &copy[..mended.copy],
            lines,
            length: mended.lines,
        })
    }
}

impl Default for Tables {
    fn default() -> Self {
        Tables::new()
    }
}

impl fmt::Debug for Tables {
    fn fmt(&self, out: &mut fmt::Formatter) -> fmt::Result {
        out.debug_struct("Tables").finish_non_exhaustive()
    }
}

/// The version of an XMF file.
#[derive(Clone, Copy, Debug, PartialEq, Eq, Hash, PartialOrd, Ord)]
#[non_exhaustive]
pub enum Version {
    /// 1.00.
    V100,
    /// 1.01.
    V101,
    /// 2.00.
    V200,
    /// Another one, times a hundred; no file that is read has it.
    Other(u64),
}

impl Version {
    /// The version of a number, which is the version times a hundred.
    #[must_use]
    pub fn of(number: u64) -> Self {
        match number {
            100 => Version::V100,
            101 => Version::V101,
            200 => Version::V200,
            number => Version::Other(number),
        }
    }

    /// The version times a hundred.
    #[must_use]
    pub fn number(self) -> u64 {
        match self {
            Version::V100 => 100,
            Version::V101 => 101,
            Version::V200 => 200,
            Version::Other(number) => number,
        }
    }
}

impl fmt::Display for Version {
    fn fmt(&self, out: &mut fmt::Formatter) -> fmt::Result {
        let number = self.number();
        write!(out, "{}.{:02}", number / 100, number % 100)
    }
}

/// The string format of an item. The odd ones are hidden.
#[derive(Clone, Copy, Debug, PartialEq, Eq, Hash)]
#[non_exhaustive]
pub enum Format {
    /// 0: a text in an extension of ASCII.
    Text,
    /// 1: such a text, hidden.
    HiddenText,
    /// 2: a text in UTF-16, high byte first.
    Utf16,
    /// 3: such a text, hidden.
    HiddenUtf16,
    /// 4: a text in compressed Unicode.
    Compressed,
    /// 5: such a text, hidden.
    HiddenCompressed,
    /// 6: bytes.
    Binary,
    /// 7: bytes, hidden.
    HiddenBinary,
    /// Another number.
    Other(u64),
}

impl Format {
    /// The formats with a name, in the order of their numbers.
    const NAMED: [Format; 8] = [
        Format::Text,
        Format::HiddenText,
        Format::Utf16,
        Format::HiddenUtf16,
        Format::Compressed,
        Format::HiddenCompressed,
        Format::Binary,
        Format::HiddenBinary,
    ];

    /// The format of a number.
    #[must_use]
    pub fn of(number: u64) -> Self {
        let named = Format::NAMED.get(number as usize);
        named.copied().unwrap_or(Format::Other(number))
    }

    /// The number of the format.
    #[must_use]
    pub fn number(self) -> u64 {
        match self {
            Format::Text => 0,
            Format::HiddenText => 1,
            Format::Utf16 => 2,
            Format::HiddenUtf16 => 3,
            Format::Compressed => 4,
            Format::HiddenCompressed => 5,
            Format::Binary => 6,
            Format::HiddenBinary => 7,
            Format::Other(number) => number,
        }
    }

    /// Whether what has this format is hidden, that is, whether its number is odd.
    #[must_use]
    pub fn is_hidden(self) -> bool {
        self.number() % 2 == 1
    }
}

/// Where the contents of a node are.
#[derive(Clone, Copy, Debug, PartialEq, Eq, Hash)]
#[non_exhaustive]
pub enum Reference {
    /// 1: in the node: a folder's nodes, or a resource.
    InNode {
        /// Place of the first byte.
        place: usize,
        /// The number of bytes.
        length: usize,
    },
    /// 2: from a place in the file on.
    InFile {
        /// Place of the first byte.
        place: usize,
        /// The number of bytes from there to the file's end.
        length: usize,
    },
    /// 3: those of another node.
    Node {
        /// Place of that node's first byte.
        place: usize,
    },
    /// 4: outside the file, by a URI.
    Uri {
        /// Place of the URI's first byte.
        place: usize,
        /// The number of its bytes.
        length: usize,
    },
    /// Another number; no file that is read has it.
    Other(u64),
}

impl Reference {
    /// The number of the reference.
    #[must_use]
    pub fn number(self) -> u64 {
        match self {
            Reference::InNode { .. } => 1,
            Reference::InFile { .. } => 2,
            Reference::Node { .. } => 3,
            Reference::Uri { .. } => 4,
            Reference::Other(number) => number,
        }
    }
}

/// What of an item a row is: the one content it has, or one of several versions.
#[derive(Clone, Copy, Debug, PartialEq, Eq, Hash)]
#[non_exhaustive]
pub enum Content {
    /// The one content for everyone.
    Universal,
    /// A version, such as a title in one of several languages.
    Version {
        /// Its number in the item, from 1.
        number: u64,
        /// Its type, which the file header declares.
        kind: u64,
    },
}

/// A node.
#[derive(Clone, Copy, Debug, PartialEq, Eq)]
#[non_exhaustive]
pub struct Node {
    /// The number of its row.
    pub row: usize,
    /// Place of its first byte.
    pub start: usize,
    /// The number of its bytes.
    pub length: usize,
    /// The number of bytes of its header, from its first byte to its reference.
    pub header_length: usize,
    /// The number of nodes it holds; 0 for a file node.
    pub contained: usize,
    /// The row of the folder that holds it; none for the root and for a detached node.
    pub parent: Option<usize>,
    /// Its depth, the root being at 1; 0 for a detached node.
    pub depth: usize,
    /// Where its contents are.
    pub reference: Reference,
    /// Place of the byte after the unpackers' length.
    pub unpackers: usize,
    /// The number of its unpackers.
    pub unpacker_count: usize,
    /// The number of its item rows.
    pub items: usize,
    /// Whether it is outside the tree: it is there because a reference leads to it.
    pub detached: bool,
}

impl Node {
    /// Whether it holds nodes.
    #[must_use]
    pub fn is_folder(&self) -> bool {
        self.contained > 0
    }

    /// The node of a row.
    fn of(row: usize, words: &[u64]) -> Self {
        let word = |column: usize| words[column] as usize;
        let (place, length) = (word(node::TARGET), word(node::EXTENT));
        let reference = match words[node::REFERENCE] {
            1 => Reference::InNode { place, length },
            2 => Reference::InFile { place, length },
            3 => Reference::Node { place },
            4 => Reference::Uri { place, length },
            number => Reference::Other(number),
        };
        let parent = word(node::PARENT);
        Node {
            row,
            start: word(node::START),
            length: word(node::LENGTH),
            header_length: word(node::HEADER_LENGTH),
            contained: word(node::CONTAINED),
            parent: (parent != row).then_some(parent),
            depth: word(node::DEPTH),
            reference,
            unpackers: word(node::UNPACKERS),
            unpacker_count: word(node::UNPACKER_COUNT),
            items: word(node::ITEMS),
            detached: words[node::DETACHED] == 1,
        }
    }
}

/// A metadata item, or one of its versions.
#[derive(Clone, Copy, PartialEq, Eq)]
#[non_exhaustive]
pub struct Item<'f> {
    /// The number of its row.
    pub row: usize,
    /// The row of the node that has it.
    pub node: usize,
    /// The number of the item in its node, from 0.
    pub number: usize,
    /// Its field.
    pub field: Field<'f>,
    /// Whether it is universal or a version.
    pub content: Content,
    /// Its string format.
    pub format: Format,
    /// Place of the data's first byte.
    pub place: usize,
    data: &'f [u8],
}

impl<'f> Item<'f> {
    /// Its data, a part of the file. That of a hidden item is not for a ticket.
    #[must_use]
    pub fn data(&self) -> &'f [u8] {
        self.data
    }

    /// Whether it is hidden.
    #[must_use]
    pub fn is_hidden(&self) -> bool {
        self.format.is_hidden()
    }

    /// The item of a row.
    fn of(file: &'f [u8], row: usize, words: &[u64]) -> Self {
        let part = |place: usize, length: usize| {
            let part = file.get(words[place] as usize..);
            let part = part.and_then(|part| part.get(..words[length] as usize));
            part.unwrap_or_default()
        };
        let field = match words[item::KIND] {
            item::STANDARD => Field::Standard(words[item::FIELD]),
            _ => Field::Custom(part(item::FIELD, item::NAME_LENGTH)),
        };
        let content = match words[item::VERSION] {
            0 => Content::Universal,
            number => Content::Version {
                number,
                kind: words[item::TYPE],
            },
        };
        Item {
            row,
            node: words[item::NODE] as usize,
            number: words[item::NUMBER] as usize,
            field,
            content,
            format: Format::of(words[item::FORMAT]),
            place: words[item::DATA] as usize,
            data: part(item::DATA, item::DATA_LENGTH),
        }
    }
}

impl fmt::Debug for Item<'_> {
    /// Without the data of a hidden item.
    fn fmt(&self, out: &mut fmt::Formatter) -> fmt::Result {
        let mut out = out.debug_struct("Item");
        out.field("row", &self.row)
            .field("node", &self.node)
            .field("number", &self.number)
            .field("field", &self.field)
            .field("content", &self.content)
            .field("format", &self.format)
            .field("place", &self.place);
        if self.is_hidden() {
            out.field("length", &self.data.len());
        } else {
            out.field("data", &self.data);
        }
        out.finish()
    }
}

/// Standard fields by name; a standard field of any number is a [`Field::Standard`].
impl Field<'_> {
    /// The type of the XMF file.
    pub const FILE_TYPE: Field<'static> = Field::Standard(0);
    /// The node's name.
    pub const NODE_NAME: Field<'static> = Field::Standard(1);
    /// The node's number.
    pub const NODE_NUMBER: Field<'static> = Field::Standard(2);
    /// The resource's format.
    pub const RESOURCE_FORMAT: Field<'static> = Field::Standard(3);
    /// The file's name on a disk.
    pub const FILENAME: Field<'static> = Field::Standard(4);
    /// The extension of the file's name on a disk.
    pub const FILENAME_EXTENSION: Field<'static> = Field::Standard(5);
    /// The file's type and creator on Mac OS.
    pub const MAC_OS_TYPE: Field<'static> = Field::Standard(6);
    /// The MIME type.
    pub const MIME_TYPE: Field<'static> = Field::Standard(7);
    /// The title.
    pub const TITLE: Field<'static> = Field::Standard(8);
    /// The copyright.
    pub const COPYRIGHT: Field<'static> = Field::Standard(9);
    /// A comment.
    pub const COMMENT: Field<'static> = Field::Standard(10);
    /// Whether to start on its own.
    pub const AUTOSTART: Field<'static> = Field::Standard(11);
    /// Whether to load ahead.
    pub const PRELOAD: Field<'static> = Field::Standard(12);
    /// The content description: what the tune needs.
    pub const CONTENT_DESCRIPTION: Field<'static> = Field::Standard(13);
    /// An ID3 tag.
    pub const ID3: Field<'static> = Field::Standard(14);
}

/// A file that is read, with its rows in borrowed tables.
///
/// Each question is a call of the proved reader, which reads the file afresh. After one that is refused
/// or that writes a file, the file is read once more, so that the rows are always its own.
///
/// ```
/// use xmf::{Field, File, Format, Reference, Tables, Version};
///
/// let mut tables = Tables::default();
/// let mut file = File::read(include_bytes!("../../../samples/worked.xmf"), &mut tables)?;
/// assert_eq!(file.version(), Version::V200);
/// let nodes: Vec<usize> = file.nodes().map(|node| node.depth).collect();
/// assert_eq!(nodes, [1, 2]);
///
/// let item = file.find(1, Field::Custom(b"a"))?;
/// assert_eq!((item.data(), item.format), (&b"Hi"[..], Format::Text));
/// assert!(file.find(1, Field::COPYRIGHT).is_err());
/// assert_eq!(file.items().filter(|item| item.is_hidden()).count(), 1);
/// assert_eq!(file.resource(1)?, [0xAA, 0xBB]);
/// # Ok::<(), xmf::Refusal>(())
/// ```
#[derive(Debug)]
pub struct File<'f, 't> {
    bytes: &'f [u8],
    tables: &'t mut Tables,
    version: Version,
    nodes: usize,
    items: usize,
}

impl<'f, 't> File<'f, 't> {
    /// Reads a file into tables, whatever they hold.
    ///
    /// # Errors
    ///
    /// The reader's refusals, 1 to 17 and 24. The tables then have no rows.
    pub fn read(bytes: &'f [u8], tables: &'t mut Tables) -> Result<Self, Refusal> {
        let tree = crate::read_tree(bytes, &mut tables.nodes, &mut tables.items)?;
        Ok(File {
            bytes,
            tables,
            version: Version::of(tree.version),
            nodes: tree.nodes,
            items: tree.items,
        })
    }

    /// The bytes of the file.
    #[must_use]
    pub fn bytes(&self) -> &'f [u8] {
        self.bytes
    }

    /// The version of the file.
    #[must_use]
    pub fn version(&self) -> Version {
        self.version
    }

    /// The nodes: those of the tree in file order, then the detached ones.
    #[must_use]
    pub fn nodes(&self) -> impl ExactSizeIterator<Item = Node> + DoubleEndedIterator + '_ {
        let rows = self.tables.nodes.chunks_exact(node::WORDS);
        let rows = rows.take(self.nodes).enumerate();
        rows.map(|(row, words)| Node::of(row, words))
    }

    /// The node of a row, if there is one.
    #[must_use]
    pub fn node(&self, row: usize) -> Option<Node> {
        self.nodes().nth(row)
    }

    /// The items in file order, hidden ones too; each version of an item is one.
    #[must_use]
    pub fn items(&self) -> impl ExactSizeIterator<Item = Item<'f>> + DoubleEndedIterator + '_ {
        let rows = self.tables.items.chunks_exact(item::WORDS);
        let rows = rows.take(self.items).enumerate();
        rows.map(|(row, words)| Item::of(self.bytes, row, words))
    }

    /// The item of a row, if there is one.
    #[must_use]
    pub fn item(&self, row: usize) -> Option<Item<'f>> {
        self.items().nth(row)
    }

    /// The items of the node of a row.
    #[must_use]
    pub fn items_of(&self, row: usize) -> impl DoubleEndedIterator<Item = Item<'f>> + '_ {
        self.items().filter(move |item| item.node == row)
    }

    /// Finds the first item of a field on the node of a row, or on the nearest node above it that has
    /// one, hidden or not.
    ///
    /// # Errors
    ///
    /// 18 when there is no such row, 23 when there is no such item.
    pub fn find(&mut self, row: usize, field: Field) -> Result<Item<'f>, Refusal> {
        let Tables { nodes, items } = &mut *self.tables;
        let found = crate::find(self.bytes, nodes, items, row, field);
        self.found(found)
    }

    /// Finds the first item of a field on the node of a row itself, hidden or not.
    ///
    /// # Errors
    ///
    /// 18 when there is no such row, 23 when the node has no such item.
    pub fn find_own(&mut self, row: usize, field: Field) -> Result<Item<'f>, Refusal> {
        let Tables { nodes, items } = &mut *self.tables;
        let found = crate::find_own(self.bytes, nodes, items, row, field);
        self.found(found)
    }

    /// The item that was found.
    fn found(&mut self, found: Result<Found, Refusal>) -> Result<Item<'f>, Refusal> {
        let Found { row, words } = self.keep(found)?;
        Ok(Item::of(self.bytes, row, &words))
    }

    /// Says where the resource of a row's node lies, following at most four references.
    ///
    /// # Errors
    ///
    /// 18 when there is no such row, 19 when it ends at a folder, 20 when it ends at a URI, 21 when a
    /// fifth reference would be followed.
    pub fn resolve(&mut self, row: usize) -> Result<Resource, Refusal> {
        let Tables { nodes, items } = &mut *self.tables;
        let resource = crate::resolve(self.bytes, nodes, items, row);
        self.keep(resource)
    }

    /// The resource of a row's node, a part of the file. It may include hidden data: it is not for a
    /// ticket.
    ///
    /// # Errors
    ///
    /// Those of [`File::resolve`].
    pub fn resource(&mut self, row: usize) -> Result<&'f [u8], Refusal> {
        let Tables { nodes, items } = &mut *self.tables;
        let resource = crate::resource(self.bytes, nodes, items, row);
        self.keep(resource)
    }

    /// Copies the resource of a row's node into a buffer, by the proved copy, and gives what was copied.
    /// Bytes of the buffer past it are 0; after a refusal all are.
    ///
    /// # Errors
    ///
    /// Those of [`File::resolve`], then 22 when the resource is longer than the buffer.
    pub fn copy_resource<'o>(
        &mut self,
        row: usize,
        out: &'o mut [u8],
    ) -> Result<&'o [u8], Refusal> {
        let Tables { nodes, items } = &mut *self.tables;
        let copied = crate::copy_resource(self.bytes, nodes, items, row, out);
        let copied = self.keep(copied)?;
        Ok(&out[..copied.length])
    }

    /// The count that an item row, a content description, gives for a channel and a resource, both
    /// numbered from 0.
    ///
    /// ```
    /// use xmf::{Field, File, Tables};
    ///
    /// let mut tables = Tables::default();
    /// let mut file = File::read(include_bytes!("../../../samples/mobile.xmf"), &mut tables)?;
    /// let tune = file.find_own(1, Field::CONTENT_DESCRIPTION)?;
    /// assert_eq!(file.voice_count(tune.row, 0, 0)?, 4);
    /// # Ok::<(), xmf::Refusal>(())
    /// ```
    ///
    /// # Errors
    ///
    /// 18 when there is no such item row, 23 when it is no universal field 13 in format 6 or 7, 25 when
    /// its data is not readable, then 23 when it describes no such channel or resource.
    pub fn voice_count(
        &mut self,
        item_row: usize,
        channel: u64,
        resource: u64,
    ) -> Result<u64, Refusal> {
        let Tables { nodes, items } = &mut *self.tables;
        let count = crate::voice_count(self.bytes, nodes, items, item_row, channel, resource);
        self.keep(count)
    }

    /// Judges whether it is a Mobile XMF file.
    ///
    /// ```
    /// use xmf::{File, Tables, Verdict};
    ///
    /// let mut tables = Tables::default();
    /// let mut file = File::read(include_bytes!("../../../samples/mobile.xmf"), &mut tables)?;
    /// assert_eq!(file.judge()?, Verdict::Mobile);
    /// # Ok::<(), xmf::Refusal>(())
    /// ```
    ///
    /// # Errors
    ///
    /// The reader's refusals, of which a file that was read has none.
    pub fn judge(&mut self) -> Result<Verdict, Refusal> {
        let Tables { nodes, items } = &mut *self.tables;
        let verdict = crate::judge(self.bytes, nodes, items);
        self.keep(verdict).map(Verdict::of)
    }

    /// Counts the bytes by kind. To sum over files, refused ones too, use [`Tables::account`].
    ///
    /// # Errors
    ///
    /// The reader's refusals, of which a file that was read has none.
    pub fn kinds(&mut self) -> Result<Kinds, Refusal> {
        let kinds = self.tables.account(self.bytes, &mut Totals::default());
        self.keep(kinds)
    }

    /// Writes the support sheet into a buffer, and gives what was written. Bytes of the buffer past it are
    /// 0; after a refusal all are.
    ///
    /// ```
    /// use xmf::{File, Tables};
    ///
    /// let mut tables = Tables::default();
    /// let mut file = File::read(include_bytes!("../../../samples/worked.xmf"), &mut tables)?;
    /// let mut room = [0; 1000];
    /// assert!(file.write_sheet(&mut room)?.starts_with(b"XMF\t2.00\t56\t2\t3\n"));
    /// # Ok::<(), xmf::Refusal>(())
    /// ```
    ///
    /// # Errors
    ///
    /// 22 when the sheet is longer than the buffer.
    pub fn write_sheet<'o>(&mut self, sheet: &'o mut [u8]) -> Result<&'o [u8], Refusal> {
        let Tables { nodes, items } = &mut *self.tables;
        let written = crate::write_sheet(self.bytes, nodes, items, sheet);
        let length = self.keep(written)?;
        Ok(&sheet[..length])
    }

    /// Writes the support sheet in its second edition, as [`File::write_sheet`] does in the first.
    ///
    /// # Errors
    ///
    /// 22 when the sheet is longer than the buffer.
    pub fn write_sheet2<'o>(&mut self, sheet: &'o mut [u8]) -> Result<&'o [u8], Refusal> {
        let Tables { nodes, items } = &mut *self.tables;
        let written = crate::write_sheet2(self.bytes, nodes, items, sheet);
        let length = self.keep(written)?;
        Ok(&sheet[..length])
    }

    /// Writes the file with a title as the data of an item row, which must be visible and universal, into
    /// a buffer, and gives the new file. It holds the hidden bytes of this one. The rows stay those of
    /// this file.
    ///
    /// ```
    /// use xmf::{File, Tables};
    ///
    /// let mut tables = Tables::default();
    /// let mut file = File::read(include_bytes!("../../../samples/worked.xmf"), &mut tables)?;
    /// let mut room = [0; 1000];
    /// let new = file.retitle(0, b"Hello", &mut room)?;
    /// let new = File::read(new, &mut tables)?;
    /// assert_eq!(new.item(0).unwrap().data(), b"Hello");
    /// # Ok::<(), xmf::Refusal>(())
    /// ```
    ///
    /// # Errors
    ///
    /// 18 when there is no such item row, 36 when a node has reference 2 or 3, 37 when the content is
    /// hidden or not universal, 38 when the new file would be longer than a file may be, 22 when it is
    /// longer than the buffer.
    pub fn retitle<'o>(
        &mut self,
        item_row: usize,
        title: &[u8],
        out: &'o mut [u8],
    ) -> Result<&'o [u8], Refusal> {
        let Tables { nodes, items } = &mut *self.tables;
        let written = crate::correct_title(self.bytes, nodes, items, item_row, title, out);
        self.again();
        Ok(&out[..written?])
    }

    /// After a refusal the tables are empty: reads the file once more.
    fn keep<T>(&mut self, answer: Result<T, Refusal>) -> Result<T, Refusal> {
        if answer.is_err() {
            self.again();
        }
        answer
    }

    /// Reads the file once more. It was read, so it is not refused.
    fn again(&mut self) {
        let Tables { nodes, items } = &mut *self.tables;
        let tree = crate::read_tree(self.bytes, nodes, items);
        debug_assert!(tree.is_ok());
    }
}

/// A field of the file header that can be mended.
#[derive(Clone, Copy, Debug, PartialEq, Eq, Hash)]
#[non_exhaustive]
pub enum HeaderField {
    /// `FileLength`: the number of bytes of the file.
    FileLength,
    /// `TreeEnd`: the place of the tree's last byte.
    TreeEnd,
}

impl HeaderField {
    /// Its name, as it is in the lines.
    #[must_use]
    pub fn name(self) -> &'static str {
        match self {
            HeaderField::FileLength => "FileLength",
            HeaderField::TreeEnd => "TreeEnd",
        }
    }
}

/// A field of the file header that was changed.
#[derive(Clone, Copy, Debug, PartialEq, Eq, Hash)]
#[non_exhaustive]
pub struct Change {
    /// Which one.
    pub field: HeaderField,
    /// Place of its first byte.
    pub place: usize,
    /// What it was.
    pub old: u64,
    /// What it is now.
    pub new: u64,
}

impl Change {
    /// The change that a line tells of.
    fn of(line: &str) -> Option<Self> {
        let mut words = line.split('\t');
        let name = words.next()?;
        let fields = [HeaderField::FileLength, HeaderField::TreeEnd];
        Some(Change {
            field: fields.into_iter().find(|field| field.name() == name)?,
            place: words.next()?.parse().ok()?,
            old: words.next()?.parse().ok()?,
            new: words.next()?.parse().ok()?,
        })
    }
}

/// A file whose header is mended, and what was changed: what [`Tables::mend`] gives.
#[derive(Clone, Copy)]
pub struct MendedFile<'o> {
    bytes: &'o [u8],
    lines: [u8; LINES_ROOM],
    length: usize,
}

impl<'o> MendedFile<'o> {
    /// The bytes of the mended file. They hold the hidden bytes of the file.
    #[must_use]
    pub fn bytes(&self) -> &'o [u8] {
        self.bytes
    }

    /// Whether anything was changed; a file that is accepted as it is stays as it is.
    #[must_use]
    pub fn is_changed(&self) -> bool {
        self.length > 0
    }

    /// A line for each field that was changed, in file order: its name, its place, its old and its new
    /// value, with tabs between.
    ///
    /// # Panics
    ///
    /// Never: the proved call writes names of fields, digits, tabs and line ends.
    #[must_use]
    pub fn lines(&self) -> &str {
        core::str::from_utf8(&self.lines[..self.length]).expect("the lines are ASCII")
    }

    /// The fields that were changed, in file order.
    #[must_use]
    pub fn changes(&self) -> impl DoubleEndedIterator<Item = Change> + '_ {
        self.lines().lines().filter_map(Change::of)
    }
}

impl fmt::Debug for MendedFile<'_> {
    /// Without the bytes of the file, some of which may be hidden.
    fn fmt(&self, out: &mut fmt::Formatter) -> fmt::Result {
        out.debug_struct("MendedFile")
            .field("length", &self.bytes.len())
            .field("lines", &self.lines())
            .finish()
    }
}

/// An ID3v2.4 tag that is walked.
///
/// ```
/// let tag = xmf::Tag::read(b"ID3\x04\0\0\0\0\0\x0CTIT2\0\0\0\x02\0\0Hi")?;
/// let frame = tag.frames().next().unwrap();
/// assert_eq!((&frame.name, frame.data()), (b"TIT2", &b"Hi"[..]));
/// # Ok::<(), xmf::Refusal>(())
/// ```
#[derive(Clone, Copy, Debug)]
pub struct Tag<'f> {
    bytes: &'f [u8],
    frames: usize,
}

/// A frame of a [`Tag`].
#[derive(Clone, Copy, Debug, PartialEq, Eq)]
#[non_exhaustive]
pub struct Frame<'f> {
    /// The four bytes of its name.
    pub name: [u8; 4],
    /// Place of its contents' first byte, in the tag.
    pub place: usize,
    data: &'f [u8],
}

impl<'f> Frame<'f> {
    /// Its contents, a part of the tag.
    #[must_use]
    pub fn data(&self) -> &'f [u8] {
        self.data
    }
}

impl<'f> Tag<'f> {
    /// Walks a tag, such as the data of an item of [`Field::ID3`]. Bytes behind the tag's size are not
    /// read. What it gives of hidden data is not for a ticket.
    ///
    /// # Errors
    ///
    /// 33 when it is no such tag, 34 when something of it is cut short or a size is bad, 35 when it is
    /// unsynchronised; placed in the tag.
    pub fn read(bytes: &'f [u8]) -> Result<Self, Refusal> {
        let frames = crate::id3_count(bytes)?;
        Ok(Tag { bytes, frames })
    }

    /// The frames in file order. Each is found by a walk of its own from the tag's first byte.
    pub fn frames(&self) -> impl Iterator<Item = Frame<'f>> + 'f {
        let Tag { bytes, frames } = *self;
        (0..frames).map_while(move |number| {
            let frame = crate::id3_frame(bytes, number).ok()?;
            let data = bytes.get(frame.place..)?.get(..frame.length)?;
            Some(Frame {
                name: frame.name,
                place: frame.place,
                data,
            })
        })
    }
}

/// Converts UTF-16, high byte first, into a text in a buffer. One leading FEFF is dropped. What it gives
/// of hidden data is not for a ticket.
///
/// ```
/// let mut room = [0; 100];
/// assert_eq!(xmf::to_utf8(b"\0H\0i", &mut room)?, "Hi");
/// # Ok::<(), xmf::Refusal>(())
/// ```
///
/// # Errors
///
/// 26 when the data has an odd length or half of a surrogate pair, placed in the data where the first bad
/// character begins, then 22 when the text is longer than the buffer.
///
/// # Panics
///
/// Never: what the proved conversion writes is UTF-8.
pub fn to_utf8<'o>(data: &[u8], room: &'o mut [u8]) -> Result<&'o str, Refusal> {
    let length = crate::utf16_to_utf8(data, room)?;
    Ok(core::str::from_utf8(&room[..length]).expect("the conversion writes UTF-8"))
}

/// Converts a text into UTF-16, high byte first, in a buffer. Nothing is dropped.
///
/// ```
/// let mut room = [0; 100];
/// assert_eq!(xmf::to_utf16("Hi", &mut room)?, b"\0H\0i");
/// # Ok::<(), xmf::Refusal>(())
/// ```
///
/// # Errors
///
/// 22 when the data is longer than the buffer.
pub fn to_utf16<'o>(text: &str, room: &'o mut [u8]) -> Result<&'o [u8], Refusal> {
    let length = crate::utf8_to_utf16(text.as_bytes(), room)?;
    Ok(&room[..length])
}

/// Moves a sheet to its other edition in a buffer, and gives what was written.
///
/// # Errors
///
/// 31 when the sheet is not well formed, placed at the number of a line, from 1; then 22 when it is longer
/// than the buffer.
pub fn other_edition<'o>(sheet: &[u8], room: &'o mut [u8]) -> Result<&'o [u8], Refusal> {
    let length = crate::move_sheet(sheet, room)?;
    Ok(&room[..length])
}
