//! Well-formed files of many shapes.

use crate::model::{Contents, Field, File, Item, Node, Part, Place, TypeEntry};
use crate::model::{Unpacker, UnpackerName, Values, Version, Widths};
use crate::random::Random;
use crate::texts;

/// The standard fields that items take, the last two above what Mobile XMF allows or close to it.
const FIELDS: [usize; 14] = [0, 1, 2, 3, 4, 7, 8, 10, 11, 12, 13, 14, 127, 300];
/// The names that custom fields take most often.
const NAMES: [&[u8]; 6] = [b"a", b"n", b"ab", b"name", b"a\\b", b"\x09\xFF"];
/// The string formats that contents take; the odd ones are hidden.
const FORMATS: [usize; 16] = [0, 1, 2, 2, 2, 3, 3, 4, 5, 6, 7, 8, 9, 10, 129, 130];
/// The types that the table declares most often.
const TYPES: [usize; 10] = [0, 1, 2, 3, 4, 5, 127, 128, 200, 20_000];
/// The languages that the table names.
const LANGUAGES: [&[u8]; 5] = [b"en", b"de", b"fr-CA", b"", b"ja"];
/// Numbers around the sizes of a VLQ.
const NUMBERS: [usize; 9] = [0, 1, 5, 127, 128, 16_383, 16_384, 2_097_152, 268_435_455];

/// A file of any well-formed shape.
pub fn any_file(random: &mut Random) -> File {
    match random.below(9) {
        0 => single_node(random),
        1 => chain(random),
        2 => deep(random),
        3 | 4 => detached(random),
        _ => folders(random),
    }
}

/// A file whose root is a file node.
pub fn single_node(random: &mut Random) -> File {
    let mut file = start(random);
    file.root = Node::inline(&[]);
    fill(random, &mut file);
    file
}

/// A file with a tree of folders.
pub fn folders(random: &mut Random) -> File {
    let mut file = start(random);
    let mut budget = random.between(1, 14);
    let levels = random.between(2, 6);
    file.root = folder(random, levels, &mut budget);
    fill(random, &mut file);
    file
}

/// A file that is 1 to 16 levels deep, and at each level has few other nodes.
pub fn deep(random: &mut Random) -> File {
    let mut file = start(random);
    let levels = random.between(1, 16);
    let mut node = Node::inline(&[]);
    for _ in 1..levels {
        let mut children = vec![node];
        if random.once_in(4) {
            children.insert(random.below(2), Node::inline(&[]));
        }
        node = Node::folder(children);
    }
    file.root = node;
    fill(random, &mut file);
    file
}

/// A file with a chain of one to six references 3, in either direction, and an end of any kind. In
/// half of the files its nodes after the first are in the tree, before it or after it. Up to two more
/// nodes name some node of the chain.
pub fn chain(random: &mut Random) -> File {
    let mut file = start(random);
    let links = random.between(1, 6);
    let mut order: Vec<usize> = (0..=links).collect();
    if random.once_in(2) {
        order.reverse();
    }
    let is_detached = random.once_in(2);
    let (mut tree, mut gap, mut tail) = (Vec::new(), Vec::new(), Vec::new());
    for link in order {
        match random.below(3) {
            0 if is_detached && link > 0 => gap.push(link),
            1 if is_detached && link > 0 => tail.push(link),
            _ => tree.push(link),
        }
    }
    let mut places = vec![Place::Node(0); links + 1];
    for (row, &link) in (1..).zip(&tree) {
        places[link] = Place::Node(row);
    }
    for (number, &link) in gap.iter().chain(&tail).enumerate() {
        places[link] = Place::Detached(number);
    }

    let end = match random.below(6) {
        0 => Contents::InFile(any_place(random, tree.len() + 1)),
        1 => Contents::Uri(b"file:a".to_vec()),
        2 => Contents::Node(Place::Node(0)),
        3 => Contents::Node(places[links]),
        _ => Contents::Inline(random.bytes(3)),
    };
    let next = places[1..].iter().map(|&place| Contents::Node(place));
    let contents: Vec<Contents> = next.chain([end]).collect();
    let node = |&link: &usize| Node::new(contents[link].clone());
    let mut children: Vec<Node> = tree.iter().map(node).collect();
    for _ in 0..random.below(3) {
        children.push(Node::new(Contents::Node(random.pick(&places))));
    }
    file.root = Node::folder(children);
    file.gap = gap.iter().map(node).map(Part::Node).collect();
    file.tail = tail.iter().map(node).map(Part::Node).collect();
    for_some_nodes(random, &mut file);
    file
}

/// A file with one to six detached nodes before and after the tree. Half of all file nodes name one
/// of them, so that some are named twice and some by none.
pub fn detached(random: &mut Random) -> File {
    let mut file = start(random);
    let children = random.between(1, 6);
    file.root = match random.below(8) {
        0 => Node::inline(&[]),
        _ => Node::folder(vec![Node::inline(&[]); children]),
    };
    let count = random.between(1, 6);
    for _ in 0..count {
        let parts = match random.below(2) {
            0 => &mut file.gap,
            _ => &mut file.tail,
        };
        if random.once_in(3) {
            let size = random.between(1, 9);
            parts.push(Part::Bytes(random.bytes(size)));
        }
        parts.push(Part::Node(Node::inline(&[])));
    }
    fill_nodes(random, &mut file);
    let mut is_first = true;
    file.for_each_node(|_, node| {
        if !node.is_folder() && (is_first || random.once_in(2)) {
            node.contents = Contents::Node(Place::Detached(random.below(count)));
            is_first = false;
        }
    });
    file
}

/// A file with `nodes` nodes, all but the root its children.
pub fn with_nodes(random: &mut Random, nodes: usize) -> File {
    let mut file = start(random);
    file.root = Node::folder((1..nodes).map(|_| Node::inline(b"x")).collect());
    file
}

/// A file with `rows` node rows, of which some are of detached nodes.
pub fn with_detached_nodes(random: &mut Random, rows: usize) -> File {
    let mut file = start(random);
    let detached = random.between(1, 100);
    let children = (0..rows - detached - 1).map(|child| match child {
        _ if child < detached => Node::new(Contents::Node(Place::Detached(child))),
        _ => Node::inline(b"x"),
    });
    file.root = Node::folder(children.collect());
    file.tail = vec![Part::Node(Node::inline(b"y")); detached];
    file
}

/// A file with `rows` item rows on a single node, as universal contents or as versions.
pub fn with_item_rows(random: &mut Random, rows: usize) -> File {
    let mut file = start(random);
    file.types = vec![type_entry(1, 0, b"en")];
    let items = if random.once_in(2) {
        (0..rows).map(|_| Item::standard(8, 0, b"x")).collect()
    } else {
        vec![Item {
            field: Field::Standard(8),
            values: Values::Versions(vec![(1, b"x".to_vec()); rows]),
        }]
    };
    file.root = Node::inline(b"y").with_items(items);
    file
}

/// A file whose deepest node is at this depth.
pub fn with_depth(random: &mut Random, depth: usize) -> File {
    let mut file = start(random);
    let mut node = Node::inline(b"x");
    for _ in 1..depth {
        node = Node::folder(vec![node]);
    }
    file.root = node;
    file
}

/// A file with `count` declared types.
pub fn with_types(random: &mut Random, count: usize) -> File {
    let mut file = start(random);
    file.types = (0..count)
        .map(|number| type_entry(number, random.below(9), b"en"))
        .collect();
    file.root = Node::inline(b"x").with_items(items(random, &file.types));
    file
}

/// A file with a chain of `links` references 3 that ends at bytes in a node.
pub fn with_chain(random: &mut Random, links: usize) -> File {
    let mut file = start(random);
    let mut children: Vec<Node> = (0..links)
        .map(|link| Node::new(Contents::Node(Place::Node(link + 2))))
        .collect();
    children.push(Node::inline(b"end"));
    file.root = Node::folder(children);
    file
}

/// A file with a chain of `links` references 3, all but the first in detached nodes, that ends at
/// bytes in one.
pub fn with_detached_chain(random: &mut Random, links: usize) -> File {
    let mut file = start(random);
    let first = random.below(links);
    file.root = Node::folder(vec![Node::new(Contents::Node(Place::Detached(0)))]);
    for link in 1..=links {
        let parts = match link {
            _ if link <= first => &mut file.gap,
            _ => &mut file.tail,
        };
        parts.push(Part::Node(match link {
            _ if link == links => Node::inline(b"end"),
            _ => Node::new(Contents::Node(Place::Detached(link))),
        }));
    }
    file
}

/// A file whose lengths stand at the sizes where a VLQ takes one more byte.
pub fn with_edge_lengths(random: &mut Random) -> File {
    let mut file = start(random);
    let edge = random.pick(&[128, 16_384]);
    let size = edge - random.below(16);
    let name = vec![b'n'; random.between(126, 130)];
    let mut node = Node::inline(&random.bytes(4));
    match random.below(3) {
        0 => node.contents = Contents::Inline(random.bytes(size)),
        1 => node.items = vec![Item::custom(&name, random.below(4), &random.bytes(size))],
        _ => node.contents = Contents::Uri(vec![b'u'; size]),
    }
    file.root = Node::folder(vec![node, Node::new(Contents::Node(Place::Node(1)))]);
    file
}

/// A file whose root holds `folders` folders of 16 nodes each, with four item rows for each node, of
/// which most are visible.
///
/// It has versions, hidden contents, unpackers and references 1 to 4.
pub fn large(random: &mut Random, folders: usize) -> File {
    let mut file = start(random);
    file.version = Version::V200 {
        kind: 1,
        revision: 0,
    };
    file.types = vec![
        type_entry(1, 0, b"en"),
        type_entry(2, 2, b"de"),
        type_entry(3, 1, b"fr"),
        type_entry(4, 7, b"ja"),
    ];
    file.tail = vec![Part::Bytes(random.bytes(64))];
    // With 15 folders there are 1 + 15 + 15 * 16 = 256 nodes.
    let folders = (0..folders)
        .map(|_| Node::folder(vec![Node::inline(&[]); 16]))
        .collect();
    file.root = Node::folder(folders);
    file.for_each_node(|row, node| {
        // Two universal items and one of two versions: four rows for each node.
        let number = row % 11 + 1;
        let title = (0..2).map(|version| {
            let kind = [1, 2, 3, 4][(row + version) % 4];
            (kind, text(random, 8))
        });
        let title = title.collect();
        node.items = vec![
            Item::standard(number, row % 8, &text(random, 8)),
            Item {
                field: Field::Standard(8),
                values: Values::Versions(title),
            },
            Item::custom(&text(random, 4), random.below(2) * 2, &text(random, 12)),
        ];
        if node.is_folder() {
            return;
        }
        if row % 5 == 0 {
            node.unpackers = unpackers(random);
        }
        node.contents = match row % 8 {
            1 => Contents::InFile(Place::AfterTree(row % 64)),
            2 => Contents::Node(Place::Node(row - 1)),
            3 => Contents::Uri(b"http://example.org/".to_vec()),
            _ => Contents::Inline(random.bytes(24)),
        };
    });
    file
}

/// A file with a single resource of this size.
pub fn single_resource(random: &mut Random, size: usize) -> File {
    let mut file = start(random);
    let node = Node::inline(&random.bytes(size)).with_items(vec![
        Item::standard(3, 6, &[0, 0]),
        Item::standard(8, 0, b"large"),
    ]);
    file.root = Node::folder(vec![node]);
    file
}

/// Any widths: least, mixed or all four.
pub fn any_widths(random: &mut Random) -> Widths {
    match random.below(5) {
        0 | 1 => Widths::Least,
        2 | 3 => Widths::Mixed(random.word()),
        _ => Widths::Four,
    }
}

/// A file with an empty root.
fn start(random: &mut Random) -> File {
    let version = match random.below(5) {
        0 => Version::V100,
        1 => Version::V101,
        2 => Version::V200 {
            kind: random.word() as u32,
            revision: random.below(4) as u32,
        },
        _ => Version::V200 {
            kind: 2,
            revision: 1,
        },
    };
    File::new(version, Node::inline(&[]))
}

/// Gives a file its types, its gap, its tail, and each node its items and contents.
fn fill(random: &mut Random, file: &mut File) {
    file.gap = outside(random);
    file.tail = outside(random);
    fill_nodes(random, file);
}

/// Gives a file its types, and each node its items and contents.
fn fill_nodes(random: &mut Random, file: &mut File) {
    file.types = types(random);
    let nodes = file.tree().len();
    let detached = file.detached().len();
    let types = file.types.clone();
    file.for_each_node(|_, node| {
        node.items = items(random, &types);
        if !node.is_folder() {
            if random.once_in(3) {
                node.unpackers = unpackers(random);
            }
            node.contents = contents(random, nodes, detached);
        }
    });
}

/// Bytes and empty detached nodes in any order; often nothing.
fn outside(random: &mut Random) -> Vec<Part> {
    let count = random.pick(&[0, 0, 0, 1, 1, 2, 3]);
    (0..count)
        .map(|_| match random.below(2) {
            0 => Part::Node(Node::inline(&[])),
            _ => {
                let size = random.pick(&[1, 2, 7, 100]);
                Part::Bytes(random.bytes(size))
            }
        })
        .collect()
}

/// Gives some nodes items and unpackers, and leaves their contents as they are.
fn for_some_nodes(random: &mut Random, file: &mut File) {
    let types = types(random);
    file.for_each_node(|_, node| {
        if random.once_in(4) {
            node.items = items(random, &types);
        }
        if !node.is_folder() && random.once_in(3) {
            node.unpackers = unpackers(random);
        }
    });
    file.types = types;
}

fn folder(random: &mut Random, levels: usize, budget: &mut usize) -> Node {
    let count = random.between(1, 4);
    let mut children = Vec::new();
    while children.len() < count && (*budget > 0 || children.is_empty()) {
        *budget = budget.saturating_sub(1);
        children.push(if levels > 2 && *budget > 0 && random.once_in(3) {
            folder(random, levels - 1, budget)
        } else {
            Node::inline(&[])
        });
    }
    Node::folder(children)
}

fn types(random: &mut Random) -> Vec<TypeEntry> {
    let count = match random.below(12) {
        0..=3 => 0,
        4 => random.between(5, 10),
        _ => random.between(1, 4),
    };
    let mut types: Vec<TypeEntry> = Vec::new();
    while types.len() < count {
        let number = random.pick(&TYPES);
        if types.iter().all(|entry| entry.number != number) {
            types.push(TypeEntry {
                number,
                format: random.pick(&FORMATS),
                language: random.pick(&LANGUAGES).to_vec(),
            });
        }
    }
    types
}

fn type_entry(number: usize, format: usize, language: &[u8]) -> TypeEntry {
    TypeEntry {
        number,
        format,
        language: language.to_vec(),
    }
}

/// A few items, with versions only where types are declared.
pub(crate) fn items(random: &mut Random, types: &[TypeEntry]) -> Vec<Item> {
    let count = random.pick(&[0, 0, 1, 1, 2, 3, 5]);
    (0..count).map(|_| item(random, types)).collect()
}

fn item(random: &mut Random, types: &[TypeEntry]) -> Item {
    let field = match random.below(5) {
        0..=2 => Field::Standard(random.pick(&FIELDS)),
        3 => Field::Custom(random.pick(&NAMES).to_vec()),
        _ => {
            let size = random.between(1, 5);
            Field::Custom(random.bytes(size))
        }
    };
    let values = if types.is_empty() || random.once_in(2) {
        let format = random.pick(&FORMATS);
        Values::Universal {
            format,
            data: data_of_format(random, format),
        }
    } else {
        let count = random.between(1, 3);
        let version = |random: &mut Random| {
            let TypeEntry { number, format, .. } = types[random.below(types.len())];
            (number, data_of_format(random, format))
        };
        Values::Versions((0..count).map(|_| version(random)).collect())
    };
    Item { field, values }
}

/// Data of a format: mostly UTF-16 where the format is that, otherwise any data, at times UTF-16 too.
fn data_of_format(random: &mut Random, format: usize) -> Vec<u8> {
    let is_utf16 = match format {
        2 | 3 => !random.once_in(5),
        _ => random.once_in(20),
    };
    match is_utf16 {
        true => texts::any_utf16(random),
        false => any_data(random),
    }
}

/// Data of few bytes: text, any bytes, bytes that a sheet escapes, or none.
fn any_data(random: &mut Random) -> Vec<u8> {
    let size = random.below(9);
    match random.below(5) {
        0 => random.bytes(size),
        1 => (0..size)
            .map(|_| random.pick(b"\\ ~\x7F\x1F\x80\n\t\0"))
            .collect(),
        2 => vec![0, random.pick(&[0, 1, 5])],
        _ => text(random, size),
    }
}

/// Printable text.
fn text(random: &mut Random, size: usize) -> Vec<u8> {
    (0..size).map(|_| b'a' + random.below(26) as u8).collect()
}

pub(crate) fn unpackers(random: &mut Random) -> Vec<Unpacker> {
    let count = random.between(1, 3);
    (0..count)
        .map(|_| {
            let number = random.pick(&NUMBERS);
            let name = match random.below(4) {
                0 => UnpackerName::Standard(number),
                1 => UnpackerName::Manufacturer(manufacturer(random), number),
                2 => UnpackerName::Registered(number),
                _ => {
                    let size = random.between(1, 19);
                    UnpackerName::Guid(guid(random, size))
                }
            };
            Unpacker {
                name,
                size: random.pick(&NUMBERS),
            }
        })
        .collect()
}

/// A manufacturer of one byte, or of three when the first is 0.
fn manufacturer(random: &mut Random) -> Vec<u8> {
    match random.below(3) {
        0 => vec![0, random.byte(), random.byte()],
        1 => vec![random.pick(&[0x7D, 0x80, 0xFF])],
        _ => vec![random.byte().max(1)],
    }
}

/// A GUID of `size` bytes, of which only the last is below 80h.
pub(crate) fn guid(random: &mut Random, size: usize) -> Vec<u8> {
    let mut guid: Vec<u8> = (1..size)
        .map(|_| match random.below(3) {
            0 => 0x80,
            _ => random.byte() | 0x80,
        })
        .collect();
    guid.push(random.byte() & 0x7F);
    guid
}

/// Contents of a file node in a file with `nodes` nodes in the tree and `detached` detached ones.
fn contents(random: &mut Random, nodes: usize, detached: usize) -> Contents {
    match random.below(10) {
        0 | 1 => Contents::InFile(any_place(random, nodes)),
        2 | 3 if detached > 0 && random.once_in(2) => {
            Contents::Node(Place::Detached(random.below(detached)))
        }
        2 | 3 => Contents::Node(Place::Node(random.below(nodes))),
        4 => {
            let size = random.pick(&[0, 1, 6]);
            Contents::Uri(text(random, size))
        }
        _ => {
            let size = random.below(9);
            Contents::Inline(random.bytes(size))
        }
    }
}

/// A place that a reference 2 may name.
fn any_place(random: &mut Random, nodes: usize) -> Place {
    match random.below(5) {
        0 => Place::AfterHeader(random.below(2)),
        1 => Place::AfterTree(0),
        2 => Place::BeforeEnd(0),
        3 => Place::Node(random.below(nodes)),
        _ => Place::BeforeEnd(random.below(5)),
    }
}
