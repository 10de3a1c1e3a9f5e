//! Cases for correcting a title: a file, an item row, new data and room for the new file.
//!
//! The right answer is known for each well-formed file: the model is changed and written with all
//! numbers in their shortest form.

use crate::cases::{any_lent, short_tables, Lent, ITEM_WORDS, NODE_WORDS};
use crate::damage::{damage, Damage};
use crate::encode::{encode, Encoded, Mark, MarkKind};
use crate::model::{Contents, Field, File, Item, Node, Part, TypeEntry};
use crate::model::{Unpacker, UnpackerName, Values, Version, Widths};
use crate::random::Random;
use crate::shapes;

/// A file, an item row of it, and the data that it gets.
#[derive(Clone, Debug)]
pub struct Title {
    /// The bytes of the file.
    pub file: Vec<u8>,
    /// What is lent; the room is for the new file.
    pub lent: Lent,
    /// The item row.
    pub row: u64,
    /// The new data.
    pub data: Vec<u8>,
    /// The new file or the number of the refusal, if it is known.
    pub answer: Option<Result<Vec<u8>, u64>>,
    /// The length that is brought near a border, if one is, and its value in the new file.
    pub border: Option<(Length, usize)>,
}

/// A length, or a place in the file header, that is brought near a border.
#[derive(Clone, Copy, Debug, PartialEq, Eq)]
pub enum Length {
    /// FileLength.
    File,
    /// Length of the types table.
    Table,
    /// Length of a language's name.
    Language,
    /// TreeStart.
    TreeStart,
    /// TreeEnd.
    TreeEnd,
    /// NodeLength of the root.
    Root,
    /// NodeLength of the node with the title.
    Node,
    /// NodeHeaderLength of the node with the title.
    Header,
    /// Length of the metadata around the title.
    Metadata,
    /// Length of the name of the title's field.
    Name,
    /// Length of the title's content.
    Universal,
    /// Length of a version's data.
    Version,
    /// Length of the unpackers of a node.
    Unpackers,
    /// Length of a URI.
    Uri,
}

/// All lengths that are brought near a border, in the order in which they take turns.
pub const LENGTHS: [Length; 14] = [
    Length::File,
    Length::Table,
    Length::Language,
    Length::TreeStart,
    Length::TreeEnd,
    Length::Root,
    Length::Node,
    Length::Header,
    Length::Metadata,
    Length::Name,
    Length::Universal,
    Length::Version,
    Length::Unpackers,
    Length::Uri,
];

/// The least numbers that take two and three bytes.
pub const BORDERS: [usize; 2] = [128, 16_384];

/// The number of the title's field in a file with a length near a border, if it is a standard one.
const TITLE: usize = 8;

/// A kind of case with a file of any shape.
#[derive(Clone, Copy, PartialEq, Eq)]
enum Kind {
    /// Any new data.
    Any,
    /// No new data.
    Empty,
    /// Very long new data.
    Long,
    /// The data that is there already.
    Same,
    /// A file that mostly has references 2 or 3.
    References,
    /// An item row that isn't there.
    NoRow,
    /// An item row that is hidden or a version, if there is one.
    NoTitle,
    /// Tables that may be too short.
    ShortTables,
    /// A damaged file.
    Damaged,
}

/// The kinds, in the order in which they take turns.
const KINDS: [Kind; 12] = [
    Kind::Any,
    Kind::Empty,
    Kind::Long,
    Kind::Same,
    Kind::References,
    Kind::NoRow,
    Kind::NoTitle,
    Kind::Any,
    Kind::ShortTables,
    Kind::Damaged,
    Kind::Same,
    Kind::NoTitle,
];

/// Makes a case. Lengths near a border take turns with files of any shape.
pub fn title(seed: u64, number: u64) -> Title {
    let random = &mut Random::for_case(seed, number);
    let turn = (number / 2) as usize;
    match number % 2 {
        0 => near_border(
            random,
            LENGTHS[turn % LENGTHS.len()],
            BORDERS[turn / LENGTHS.len() % BORDERS.len()],
        ),
        _ => any_title(random, KINDS[turn % KINDS.len()]),
    }
}

/// A file whose root holds `folders` folders of 16 nodes each, four item rows for each node, and no
/// reference 2 or 3; and its first item row whose title can be corrected.
pub fn folders_title(seed: u64, folders: usize) -> (Vec<u8>, u64) {
    let random = &mut Random::new(seed);
    let mut file = shapes::large(random, folders);
    remove_references(random, &mut file);
    let row = contents(&file).iter().position(Option::is_some);
    (
        encode(&file).bytes,
        row.expect("a title that can be corrected") as u64,
    )
}

/// A case with a file of any shape.
fn any_title(random: &mut Random, kind: Kind) -> Title {
    let mut file = shapes::any_file(random);
    if kind != Kind::References {
        remove_references(random, &mut file);
    }
    add_title(random, &mut file);
    file.widths = shapes::any_widths(random);

    let rows = contents(&file);
    let (good, bad): (Vec<usize>, Vec<usize>) =
        (0..rows.len()).partition(|&row| rows[row].is_some());
    let row = match kind {
        Kind::NoRow => rows.len() + random.pick(&[0, 0, 1, 1024, usize::MAX - rows.len()]),
        Kind::NoTitle if !bad.is_empty() => random.pick(&bad),
        Kind::References => random.below(rows.len() + 1),
        _ => random.pick(&good),
    };
    let data = match kind {
        Kind::Empty => Vec::new(),
        Kind::Long => {
            let size = random.pick(&[65_535, 70_000, 100_000]);
            random.bytes(size)
        }
        Kind::Same => rows[row].clone().expect("a title"),
        _ => {
            let size = random.pick(&[1, 2, 9, 40, 200]);
            random.bytes(size)
        }
    };
    let (nodes, items) = (file.nodes().len(), rows.len());
    let lent = match kind {
        Kind::ShortTables => short_tables(random, nodes, items),
        _ => any_lent(random, nodes, items),
    };
    let mut case = known(random, &file, lent, row, data);
    if kind == Kind::Damaged {
        let way = random.pick(&[
            Damage::Cut,
            Damage::Number,
            Damage::Bits,
            Damage::LengthMore,
        ]);
        case.file = damage(random, &file, way);
        case.answer = None;
    }
    case
}

/// A small file in which a length is at a border, one or two below it, or one above, once it is written
/// with its title.
fn near_border(random: &mut Random, length: Length, border: usize) -> Title {
    let wanted = border + 1 - random.below(4);
    let mut size = wanted;
    let mut small = Small::any(random);
    let title = random.below(9);
    for _ in 0..6 {
        small.set(length, size, title);
        let new = encode(&small.file);
        let value = mark(&new, length, small.row).value;
        if value == wanted {
            break;
        }
        size = (size + wanted).saturating_sub(value);
    }
    small.set(length, size, title);
    let value = mark(&encode(&small.file), length, small.row).value;

    // The data that is there before it is replaced.
    let Small { mut file, row, .. } = small;
    let new = contents(&file)[row].clone().expect("a title");
    let old_size = random.pick(&[0, 3, 126, 127, 128, 200]);
    let old = match random.below(4) {
        0 => new.clone(),
        _ => random.bytes(old_size),
    };
    set_data(&mut file, row, &old);
    file.widths = shapes::any_widths(random);
    let lent = any_lent(random, file.nodes().len(), file.item_rows());
    let mut case = known(random, &file, lent, row, new);
    case.border = Some((length, value));
    case
}

/// A case whose answer is known, with room to the byte or any other.
fn known(random: &mut Random, file: &File, mut lent: Lent, row: usize, data: Vec<u8>) -> Title {
    let old = encode(file);
    let rows = contents(file);
    let mut new = file.clone();
    new.widths = Widths::Least;
    // What stands outside header and tree is copied as it is.
    let layout = &old.layout;
    new.gap = vec![Part::Bytes(
        old.bytes[layout.header_end..layout.tree.start].to_vec(),
    )];
    new.tail = vec![Part::Bytes(old.bytes[layout.tree.end..].to_vec())];

    let is_short = lent.node_words / NODE_WORDS < file.nodes().len()
        || lent.item_words / ITEM_WORDS < rows.len();
    let nodes = file.nodes();
    let mut references = nodes.iter().map(|node| &node.contents);
    let answer = if is_short {
        Err(10)
    } else if row >= rows.len() {
        Err(18)
    } else if references.any(is_elsewhere) {
        Err(36)
    } else if rows[row].is_none() {
        Err(37)
    } else {
        set_data(&mut new, row, &data);
        Ok(encode(&new).bytes)
    };
    let needed = answer.as_ref().map_or(100, Vec::len);
    lent.room = match random.below(8) {
        0 => random.below(needed),
        1 => needed - 1,
        2 | 3 => needed,
        4 => needed + 1,
        _ => needed + random.below(200),
    };
    let answer = match answer {
        Ok(bytes) if bytes.len() > lent.room => Err(22),
        answer => answer,
    };
    Title {
        file: old.bytes,
        lent,
        row: row as u64,
        data,
        answer: Some(answer),
        border: None,
    }
}

/// A small file with all that has a length.
struct Small {
    /// The file, its numbers in the shortest form.
    file: File,
    /// The item row of the title.
    row: usize,
    /// The row of the node with the title.
    node: usize,
}

impl Small {
    /// A small file with its title on the root or on a node in it.
    fn any(random: &mut Random) -> Self {
        let (root, node) = match random.below(3) {
            0 => (Node::inline(b"x"), 0),
            1 => (Node::folder(vec![Node::inline(b"x")]), 1),
            _ => {
                let node = random.between(0, 2);
                let children = vec![Node::inline(b"x"), Node::inline(b"")];
                (Node::folder(children), node)
            }
        };
        let version = match random.below(2) {
            0 => Version::V101,
            _ => Version::V200 {
                kind: 2,
                revision: random.word() as u32,
            },
        };
        let mut file = File::new(version, root);
        let tail = random.below(3);
        file.tail = vec![Part::Bytes(random.bytes(tail))];
        let mut items = vec![Item::standard(TITLE, random.pick(&[0, 2, 128]), b"")];
        let mut row = 0;
        if random.once_in(3) {
            items.insert(0, Item::custom(b"n", 1, &random.bytes(2)));
            row = 1;
        }
        file.for_each_node(|own_row, own| {
            if own_row == node {
                own.items = items.clone();
            }
        });
        Small { file, row, node }
    }

    /// Gives the part that a length counts a size. Where that isn't the title, the title gets its own.
    fn set(&mut self, length: Length, size: usize, title: usize) {
        let bytes = vec![b'b'; size];
        let file = &mut self.file;
        let mut title = vec![b't'; title];
        match length {
            Length::Table | Length::Language => {
                file.types = vec![TypeEntry {
                    number: 1,
                    format: 0,
                    language: bytes.clone(),
                }];
            }
            Length::TreeStart => file.gap = vec![Part::Bytes(bytes.clone())],
            Length::Version => {
                file.types = vec![TypeEntry {
                    number: 1,
                    format: 0,
                    language: b"en".to_vec(),
                }];
            }
            Length::Name | Length::Unpackers | Length::Uri => {}
            _ => title = bytes.clone(),
        }
        let node = self.node;
        let row = self.row;
        file.for_each_node(|own_row, own| {
            if own_row == node {
                match length {
                    Length::Name => own.items[row].field = Field::Custom(bytes.clone()),
                    Length::Version => {
                        own.items.truncate(row + 1);
                        own.items.push(Item {
                            field: Field::Standard(TITLE),
                            values: Values::Versions(vec![(1, bytes.clone())]),
                        });
                    }
                    _ => {}
                }
            }
            if !own.is_folder() {
                match length {
                    Length::Uri => own.contents = Contents::Uri(bytes.clone()),
                    Length::Unpackers => own.unpackers = unpackers_of(size),
                    _ => {}
                }
            }
        });
        set_data(file, row, &title);
    }
}

/// Unpackers of `size` bytes, at least 3, in their shortest form: one with a GUID of 1 to 3 bytes, the
/// others of 3 bytes each.
fn unpackers_of(size: usize) -> Vec<Unpacker> {
    let size = size.max(3);
    let others = (size - 3) / 3;
    let mut guid = vec![0x80; size - 3 - others * 3];
    guid.push(1);
    let standard = Unpacker {
        name: UnpackerName::Standard(0),
        size: 1,
    };
    let mut unpackers = vec![standard; others];
    unpackers.push(Unpacker {
        name: UnpackerName::Guid(guid),
        size: 1,
    });
    unpackers
}

/// The mark of a length in a file whose gap and tail have no nodes.
fn mark(file: &Encoded, length: Length, row: usize) -> Mark {
    let marks = &file.marks;
    let is_content = |mark: &Mark| {
        matches!(
            mark.kind,
            MarkKind::UniversalLength | MarkKind::VersionLength
        )
    };
    let contents = (0..marks.len()).filter(|&index| is_content(&marks[index]));
    let title = contents.clone().nth(row).expect("a content");
    let last = |kind, marks: &[Mark]| marks.iter().rev().find(|mark| mark.kind == kind).copied();
    let first = |kind, marks: &[Mark]| marks.iter().find(|mark| mark.kind == kind).copied();
    let found = match length {
        Length::File => first(MarkKind::FileLength, marks),
        Length::Table => first(MarkKind::TableLength, marks),
        Length::Language => first(MarkKind::LanguageLength, marks),
        Length::TreeStart => first(MarkKind::TreeStart, marks),
        Length::TreeEnd => first(MarkKind::TreeEnd, marks),
        Length::Root => first(MarkKind::NodeLength, marks),
        Length::Node => last(MarkKind::NodeLength, &marks[..title]),
        Length::Header => last(MarkKind::HeaderLength, &marks[..title]),
        Length::Metadata => last(MarkKind::MetadataLength, &marks[..title]),
        Length::Name => last(MarkKind::NameLength, &marks[..title]),
        Length::Universal => Some(marks[title]),
        Length::Version => first(MarkKind::VersionLength, marks),
        Length::Unpackers => last(MarkKind::UnpackersLength, marks),
        Length::Uri => first(MarkKind::UriLength, marks),
    };
    found.expect("each length has a number")
}

/// For each item row of a file, its data if it is a universal and visible content.
fn contents(file: &File) -> Vec<Option<Vec<u8>>> {
    let nodes = file.nodes();
    let items = nodes.iter().flat_map(|node| &node.items);
    let rows = items.flat_map(|item| match &item.values {
        Values::Universal { format, data } if format % 2 == 0 => vec![Some(data.clone())],
        Values::Universal { .. } => vec![None],
        Values::Versions(versions) => vec![None; versions.len()],
    });
    rows.collect()
}

/// Gives the universal content of an item row other data. The row is of a node in the tree.
fn set_data(file: &mut File, row: usize, new: &[u8]) {
    let mut own_row = 0;
    file.for_each_node(|_, node| {
        for item in &mut node.items {
            let rows = item.rows();
            if let Values::Universal { data, .. } = &mut item.values {
                if own_row == row {
                    *data = new.to_vec();
                }
            }
            own_row += rows;
        }
    });
}

/// Whether contents are in the file or another node, by reference 2 or 3.
fn is_elsewhere(contents: &Contents) -> bool {
    matches!(contents, Contents::InFile(_) | Contents::Node(_))
}

/// Puts bytes or a URI in place of each reference 2 and 3.
fn remove_references(random: &mut Random, file: &mut File) {
    file.for_each_node(|_, node| {
        if is_elsewhere(&node.contents) {
            let size = random.below(5);
            node.contents = match random.below(3) {
                0 => Contents::Uri(random.bytes(size)),
                _ => Contents::Inline(random.bytes(size)),
            };
        }
    });
}

/// Gives one node in the tree a universal and visible content.
fn add_title(random: &mut Random, file: &mut File) {
    let size = random.pick(&[0, 1, 5, 12, 130]);
    let data = random.bytes(size);
    let format = random.pick(&[0, 0, 2, 4, 8, 128]);
    let item = match random.below(3) {
        0 => Item::custom(b"title", format, &data),
        _ => Item::standard(random.pick(&[TITLE, 3, 13, 300]), format, &data),
    };
    let row = random.below(file.tree().len());
    let at = random.below(9);
    file.for_each_node(|own_row, node| {
        if own_row == row {
            let at = at.min(node.items.len());
            node.items.insert(at, item.clone());
        }
    });
}
