//! Writing of a model as bytes.

use crate::model::{Contents, Field, File, Item, Node, Part, Place};
use crate::model::{Unpacker, UnpackerName, Values, Version};
use std::ops::Range;

/// The largest number that a VLQ of four bytes can hold.
pub const LARGEST_NUMBER: usize = 268_435_455;

/// What a number in the file says.
#[derive(Clone, Copy, Debug, PartialEq, Eq)]
pub enum MarkKind {
    /// FileLength.
    FileLength,
    /// Length of the types table.
    TableLength,
    /// Number of entries in the types table.
    TableCount,
    /// Type of an entry.
    EntryType,
    /// String format of an entry.
    EntryFormat,
    /// Length of an entry's language name.
    LanguageLength,
    /// TreeStart.
    TreeStart,
    /// TreeEnd.
    TreeEnd,
    /// NodeLength.
    NodeLength,
    /// NodeContainedItems.
    ContainedItems,
    /// NodeHeaderLength.
    HeaderLength,
    /// Length of the metadata.
    MetadataLength,
    /// The 0 before a standard field's number.
    StandardSign,
    /// Number of a standard field.
    FieldNumber,
    /// Length of a custom field's name.
    NameLength,
    /// The 0 before a universal content.
    UniversalSign,
    /// Length of a universal content.
    UniversalLength,
    /// String format of a universal content.
    Format,
    /// Number of versions.
    VersionCount,
    /// Type of a version.
    VersionType,
    /// Length of a version's data.
    VersionLength,
    /// Length of the unpackers.
    UnpackersLength,
    /// Kind of an unpacker.
    UnpackerKind,
    /// Number of an unpacker.
    UnpackerNumber,
    /// Decoded size of an unpacker.
    DecodedSize,
    /// ReferenceTypeID.
    Reference,
    /// Offset of a reference 2 or 3.
    Offset,
    /// Length of a URI.
    UriLength,
}

impl MarkKind {
    /// Whether the number is a length, a count of parts or a bound of the tree.
    pub fn is_length(self) -> bool {
        use MarkKind::*;
        matches!(
            self,
            FileLength
                | TableLength
                | TableCount
                | LanguageLength
                | TreeStart
                | TreeEnd
                | NodeLength
                | ContainedItems
                | HeaderLength
                | MetadataLength
                | NameLength
                | UniversalLength
                | VersionCount
                | VersionLength
                | UnpackersLength
                | UriLength
        )
    }
}

/// Where a number stands in the file.
#[derive(Clone, Copy, Debug)]
pub struct Mark {
    /// What the number says.
    pub kind: MarkKind,
    /// The place of its first byte.
    pub place: usize,
    /// How many bytes it has.
    pub size: usize,
    /// Its right value.
    pub value: usize,
    /// The number by which [`encode_changed`] knows it.
    pub index: usize,
}

/// A kind of places at which two files may differ that are to give the same answers.
#[derive(Clone, Copy, Debug, PartialEq, Eq)]
pub enum PrivateKind {
    /// Hidden data that has a row, of fields other than standard 0, 3 and 13.
    Hidden,
    /// Inline data of a file node that has a row.
    Inline,
    /// Bytes outside header, tree and detached nodes that have rows.
    Outside,
}

/// All kinds of private places.
pub const PRIVATE_KINDS: [PrivateKind; 3] = [
    PrivateKind::Hidden,
    PrivateKind::Inline,
    PrivateKind::Outside,
];

/// A part of a file with private places only.
#[derive(Clone, Debug, PartialEq, Eq)]
pub struct PrivatePart {
    /// The kind of its places.
    pub kind: PrivateKind,
    /// Its places, at least one.
    pub places: Range<usize>,
}

/// A file as bytes.
#[derive(Clone, Debug, Default)]
pub struct Encoded {
    /// The bytes.
    pub bytes: Vec<u8>,
    /// All numbers, in file order.
    pub marks: Vec<Mark>,
    /// All private parts, in file order. No two share a place.
    pub private: Vec<PrivatePart>,
    /// Where the parts of a whole file stand.
    pub layout: Layout,
}

impl Encoded {
    /// Adds another part at the end.
    fn append(&mut self, other: Encoded) {
        let shift = self.bytes.len();
        self.bytes.extend(other.bytes);
        self.marks.extend(other.marks.into_iter().map(|mark| Mark {
            place: mark.place + shift,
            ..mark
        }));
        let private = other.private.into_iter().map(|part| PrivatePart {
            places: part.places.start + shift..part.places.end + shift,
            ..part
        });
        self.private.extend(private);
    }

    /// Adds bytes at the end, as a private part unless there are none.
    fn append_private(&mut self, kind: PrivateKind, bytes: &[u8]) {
        let start = self.bytes.len();
        self.bytes.extend(bytes);
        if !bytes.is_empty() {
            let places = start..self.bytes.len();
            self.private.push(PrivatePart { kind, places });
        }
    }
}

/// The bytes of a VLQ in its shortest form.
pub fn number_bytes(value: usize) -> Vec<u8> {
    padded_bytes(value, 1)
}

/// The bytes of a VLQ, padded to `width` bytes where it has fewer.
pub fn padded_bytes(value: usize, width: usize) -> Vec<u8> {
    assert!(value <= LARGEST_NUMBER, "no VLQ for {value}");
    let mut bytes = vec![(value & 0x7F) as u8];
    let mut rest = value >> 7;
    while rest > 0 || bytes.len() < width {
        bytes.insert(0, (rest & 0x7F) as u8 | 0x80);
        rest >>= 7;
    }
    bytes
}

/// Writes a file.
pub fn encode(file: &File) -> Encoded {
    encode_with(file, None)
}

/// Writes a file with other bytes in place of one number.
///
/// All lengths around that number count the bytes that really stand there.
pub fn encode_changed(file: &File, index: usize, bytes: &[u8]) -> Encoded {
    encode_with(file, Some((index, bytes)))
}

/// Writes the file again and again, until its places are those of the time before.
fn encode_with(file: &File, change: Option<(usize, &[u8])>) -> Encoded {
    let reached = file.reached();
    let mut layout = Layout::default();
    loop {
        let mut encoder = Encoder {
            file,
            reached: &reached,
            change,
            layout: &layout,
            given: 0,
        };
        let encoded = encoder.file();
        if encoded.layout == layout {
            return encoded;
        }
        layout = encoded.layout;
    }
}

/// The places that numbers in the file name.
#[derive(Clone, Debug, Default, PartialEq, Eq)]
pub struct Layout {
    /// The place after the file header.
    pub header_end: usize,
    /// The places of the tree.
    pub tree: Range<usize>,
    /// The file's length.
    pub length: usize,
    /// The first bytes of the tree's nodes, in row order.
    pub nodes: Vec<usize>,
    /// The first bytes of the detached nodes, in file order.
    pub detached: Vec<usize>,
}

struct Encoder<'a> {
    file: &'a File,
    /// The detached nodes that have rows.
    reached: &'a [usize],
    change: Option<(usize, &'a [u8])>,
    layout: &'a Layout,
    /// How many marks have their index.
    given: usize,
}

impl Encoder<'_> {
    /// Writes the whole file.
    fn file(&mut self) -> Encoded {
        let mut out = Encoded::default();
        out.bytes.extend(b"XMF_");
        match self.file.version {
            Version::V100 => out.bytes.extend(b"1.00"),
            Version::V101 => out.bytes.extend(b"1.01"),
            Version::V200 { kind, revision } => {
                out.bytes.extend(b"2.00");
                out.bytes.extend(kind.to_be_bytes());
                out.bytes.extend(revision.to_be_bytes());
            }
        }
        self.number(&mut out, MarkKind::FileLength, self.layout.length);
        let table = self.types();
        self.block(&mut out, MarkKind::TableLength, table);
        self.number(&mut out, MarkKind::TreeStart, self.layout.tree.start);
        let last = self.layout.tree.end.saturating_sub(1);
        self.number(&mut out, MarkKind::TreeEnd, last);
        out.layout.header_end = out.bytes.len();
        self.outside(&mut out, &self.file.gap);
        let tree_start = out.bytes.len();
        let tree = self.node(&self.file.root);
        let starts = tree.marks.iter();
        let starts = starts.filter(|mark| mark.kind == MarkKind::NodeLength);
        out.layout.nodes = starts.map(|mark| tree_start + mark.place).collect();
        out.append(tree);
        out.layout.tree = tree_start..out.bytes.len();
        self.outside(&mut out, &self.file.tail);
        out.layout.length = out.bytes.len();
        out
    }

    /// Writes parts that are outside header and tree.
    fn outside(&mut self, out: &mut Encoded, parts: &[Part]) {
        for part in parts {
            match part {
                Part::Bytes(bytes) => out.append_private(PrivateKind::Outside, bytes),
                Part::Node(node) => {
                    let number = out.layout.detached.len();
                    out.layout.detached.push(out.bytes.len());
                    let mut node = self.node(node);
                    if !self.reached.contains(&number) {
                        let places = 0..node.bytes.len();
                        let kind = PrivateKind::Outside;
                        node.private = vec![PrivatePart { kind, places }];
                    }
                    out.append(node);
                }
            }
        }
    }

    fn types(&mut self) -> Encoded {
        let mut out = Encoded::default();
        self.number(&mut out, MarkKind::TableCount, self.file.types.len());
        for entry in &self.file.types {
            self.number(&mut out, MarkKind::EntryType, entry.number);
            self.number(&mut out, MarkKind::EntryFormat, entry.format);
            self.text(&mut out, MarkKind::LanguageLength, &entry.language);
        }
        out
    }

    fn node(&mut self, node: &Node) -> Encoded {
        let length_index = self.next_index();
        let mut contained = Encoded::default();
        let children = node.children().len();
        self.number(&mut contained, MarkKind::ContainedItems, children);
        let header_index = self.next_index();
        let mut metadata = Encoded::default();
        for item in &node.items {
            self.item(&mut metadata, item);
        }
        let mut rest = Encoded::default();
        self.block(&mut rest, MarkKind::MetadataLength, metadata);
        let mut unpackers = Encoded::default();
        for unpacker in &node.unpackers {
            self.unpacker(&mut unpackers, unpacker);
        }
        self.block(&mut rest, MarkKind::UnpackersLength, unpackers);
        let contents = self.contents(&node.contents);

        // Both lengths count their own bytes, so their sizes are tried from below.
        let inner = contained.bytes.len() + rest.bytes.len();
        let (mut length, mut header_length) = (0, 0);
        loop {
            let before = (length, header_length);
            let own = self.bytes_of(length_index, length).len();
            header_length = own + inner + self.bytes_of(header_index, header_length).len();
            length = header_length + contents.bytes.len();
            if (length, header_length) == before {
                break;
            }
        }

        let mut out = Encoded::default();
        self.number_at(&mut out, length_index, MarkKind::NodeLength, length);
        out.append(contained);
        self.number_at(
            &mut out,
            header_index,
            MarkKind::HeaderLength,
            header_length,
        );
        out.append(rest);
        out.append(contents);
        out
    }

    fn item(&mut self, out: &mut Encoded, item: &Item) {
        match &item.field {
            Field::Standard(number) => {
                self.number(out, MarkKind::StandardSign, 0);
                self.number(out, MarkKind::FieldNumber, *number);
            }
            Field::Custom(name) => self.text(out, MarkKind::NameLength, name),
        }
        match &item.values {
            Values::Universal { format, data } => {
                self.number(out, MarkKind::UniversalSign, 0);
                let mut content = Encoded::default();
                self.number(&mut content, MarkKind::Format, *format);
                let is_hidden = format % 2 == 1;
                data_bytes(&mut content, data, is_hidden && item.field.is_free());
                self.block(out, MarkKind::UniversalLength, content);
            }
            Values::Versions(versions) => {
                self.number(out, MarkKind::VersionCount, versions.len());
                for (number, data) in versions {
                    self.number(out, MarkKind::VersionType, *number);
                    let is_hidden = self.file.is_hidden_type(*number);
                    let mut content = Encoded::default();
                    data_bytes(&mut content, data, is_hidden && item.field.is_free());
                    self.block(out, MarkKind::VersionLength, content);
                }
            }
        }
    }

    fn unpacker(&mut self, out: &mut Encoded, unpacker: &Unpacker) {
        match &unpacker.name {
            UnpackerName::Standard(number) => {
                self.number(out, MarkKind::UnpackerKind, 0);
                self.number(out, MarkKind::UnpackerNumber, *number);
            }
            UnpackerName::Manufacturer(manufacturer, number) => {
                self.number(out, MarkKind::UnpackerKind, 1);
                out.bytes.extend(manufacturer);
                self.number(out, MarkKind::UnpackerNumber, *number);
            }
            UnpackerName::Registered(number) => {
                self.number(out, MarkKind::UnpackerKind, 2);
                self.number(out, MarkKind::UnpackerNumber, *number);
            }
            UnpackerName::Guid(guid) => {
                self.number(out, MarkKind::UnpackerKind, 3);
                out.bytes.extend(guid);
            }
        }
        self.number(out, MarkKind::DecodedSize, unpacker.size);
    }

    fn contents(&mut self, contents: &Contents) -> Encoded {
        let mut out = Encoded::default();
        match contents {
            Contents::Folder(children) => {
                self.number(&mut out, MarkKind::Reference, 1);
                for child in children {
                    let child = self.node(child);
                    out.append(child);
                }
            }
            Contents::Inline(bytes) => {
                self.number(&mut out, MarkKind::Reference, 1);
                out.append_private(PrivateKind::Inline, bytes);
            }
            Contents::InFile(place) => {
                self.number(&mut out, MarkKind::Reference, 2);
                self.number(&mut out, MarkKind::Offset, self.place(*place));
            }
            Contents::Node(place) => {
                self.number(&mut out, MarkKind::Reference, 3);
                self.number(&mut out, MarkKind::Offset, self.place(*place));
            }
            Contents::Uri(uri) => {
                self.number(&mut out, MarkKind::Reference, 4);
                self.text(&mut out, MarkKind::UriLength, uri);
            }
        }
        out
    }

    fn place(&self, place: Place) -> usize {
        match place {
            // The layout is empty when the file is written for the first time.
            Place::Node(row) => self.layout.nodes.get(row).copied().unwrap_or(0),
            Place::InNode(row) => self.place(Place::Node(row)) + 1,
            Place::Detached(number) => self.layout.detached.get(number).copied().unwrap_or(0),
            Place::AfterHeader(count) => self.layout.header_end + count,
            Place::AfterTree(count) => self.layout.tree.end + count,
            Place::BeforeEnd(count) => self.layout.length.saturating_sub(count),
            Place::Fixed(place) => place,
        }
    }

    fn next_index(&mut self) -> usize {
        self.given += 1;
        self.given - 1
    }

    /// The bytes of a number, or those that stand in their place.
    fn bytes_of(&self, index: usize, value: usize) -> Vec<u8> {
        match self.change {
            Some((changed, bytes)) if changed == index => bytes.to_vec(),
            _ => padded_bytes(value, self.file.widths.of(index)),
        }
    }

    fn number(&mut self, out: &mut Encoded, kind: MarkKind, value: usize) {
        let index = self.next_index();
        self.number_at(out, index, kind, value);
    }

    fn number_at(&self, out: &mut Encoded, index: usize, kind: MarkKind, value: usize) {
        let bytes = self.bytes_of(index, value);
        out.marks.push(Mark {
            kind,
            place: out.bytes.len(),
            size: bytes.len(),
            value,
            index,
        });
        out.bytes.extend(bytes);
    }

    fn block(&mut self, out: &mut Encoded, kind: MarkKind, block: Encoded) {
        self.number(out, kind, block.bytes.len());
        out.append(block);
    }

    fn text(&mut self, out: &mut Encoded, kind: MarkKind, text: &[u8]) {
        self.number(out, kind, text.len());
        out.bytes.extend(text);
    }
}

/// Adds the data of an item and remembers where it stands, if it may differ.
fn data_bytes(out: &mut Encoded, data: &[u8], is_free: bool) {
    match is_free {
        true => out.append_private(PrivateKind::Hidden, data),
        false => out.bytes.extend(data),
    }
}
