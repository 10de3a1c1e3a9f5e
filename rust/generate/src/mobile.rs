//! Mobile XMF files, with every verdict.

use crate::descriptions::{Description, CONTENT_DESCRIPTION};
use crate::encode::{number_bytes, padded_bytes};
use crate::model::{Contents, Field, File, Item, Node, Part, Place};
use crate::model::{TypeEntry, Values, Version};
use crate::random::Random;
use crate::shapes::unpackers;

/// The standard field that names a resource's format.
const RESOURCE_FORMAT: usize = 3;

/// A file with this verdict, 0 to 8. Checks after the first one that fails may fail as well.
pub fn with_verdict(random: &mut Random, verdict: usize) -> File {
    let mut file = right_file(random);
    if verdict > 0 {
        if verdict < 8 && random.once_in(3) {
            let other = random.between(verdict + 1, 8);
            fail(random, &mut file, other);
        }
        fail(random, &mut file, verdict);
    }
    file
}

/// A file that passes all checks.
fn right_file(random: &mut Random) -> File {
    let mut children = Vec::new();
    if random.once_in(2) {
        children.push(child(random, 5));
    }
    let format = random.below(2);
    let mut tune = child(random, format);
    for _ in 0..random.between(1, 2) {
        let at = random.below(tune.items.len() + 1);
        let description = description(random);
        tune.items.insert(at, description);
    }
    children.push(tune);
    let version = Version::V200 {
        kind: 2,
        revision: 1,
    };
    let mut file = File::new(version, Node::folder(children));
    if random.once_in(2) {
        file.types = vec![TypeEntry {
            number: 1,
            format: random.below(4),
            language: b"en".to_vec(),
        }];
        file.root.items.push(Item {
            field: Field::Standard(8),
            values: Values::Versions(vec![(1, b"title".to_vec())]),
        });
    }
    if random.once_in(3) {
        file.gap = vec![Part::Bytes(random.bytes(2))];
    }
    if random.once_in(3) {
        file.tail = vec![Part::Bytes(random.bytes(3))];
    }
    file
}

/// A child of a resource format, with few other items.
fn child(random: &mut Random, format: usize) -> Node {
    let contents = match random.below(3) {
        0 => Contents::InFile(Place::BeforeEnd(random.below(3))),
        _ => {
            let size = random.below(9);
            Contents::Inline(random.bytes(size))
        }
    };
    let mut node = Node::new(contents);
    let width = random.pick(&[1, 1, 1, 2, 3, 4]);
    let data = [vec![0], padded_bytes(format, width)].concat();
    node.items.push(resource_format(random, &data));
    if random.once_in(2) {
        let at = random.below(2);
        let number = random.pick(&[1, 8, 255, 256]);
        node.items
            .insert(at, Item::standard(number, random.below(8), b"x"));
    }
    if random.once_in(3) {
        // A custom field whose name could be taken for a number, at times as long as it may be.
        let size = random.pick(&[1, 1, 2, 256]);
        let hidden = random.bytes(3);
        node.items
            .push(Item::custom(&vec![3; size], random.below(8), &hidden));
    }
    node
}

fn resource_format(random: &mut Random, data: &[u8]) -> Item {
    Item::standard(RESOURCE_FORMAT, random.between(6, 7), data)
}

fn description(random: &mut Random) -> Item {
    let data = Description::any(random).bytes();
    Item::standard(CONTENT_DESCRIPTION, random.between(6, 7), &data)
}

/// Makes one check fail. Only later checks may fail before.
fn fail(random: &mut Random, file: &mut File, check: usize) {
    match check {
        1 => fail_version(random, file),
        2 => fail_folders(random, file),
        3 => {
            let contents = match random.below(3) {
                0 => Contents::Node(Place::Node(0)),
                1 => Contents::Node(file.add_detached(Node::inline(b"x"))),
                _ => Contents::Uri(b"file:a".to_vec()),
            };
            if let Some(child) = any_file_child(random, file) {
                child.contents = contents;
            }
        }
        4 => {
            let unpackers = unpackers(random);
            if let Some(child) = any_file_child(random, file) {
                child.unpackers = unpackers;
            }
        }
        5 => fail_resource_format(random, file),
        6 => fail_count(random, file),
        7 => fail_description(random, file),
        _ => fail_limits(random, file),
    }
}

fn fail_version(random: &mut Random, file: &mut File) {
    let kind = random.pick(&[0, 1, 3, 258, 0x0200_0000]);
    let revision = random.pick(&[0, 2, 257, 0x0100_0000]);
    file.version = match random.below(4) {
        0 => Version::V100,
        1 => Version::V101,
        2 => Version::V200 { kind, revision: 1 },
        _ => Version::V200 { kind: 2, revision },
    };
}

fn fail_folders(random: &mut Random, file: &mut File) {
    if random.once_in(3) {
        file.root.contents = Contents::Inline(random.bytes(2));
        return;
    }
    let Some(children) = file.root.children_mut() else {
        return;
    };
    let at = random.below(children.len());
    if random.once_in(2) {
        let inner = std::mem::replace(&mut children[at], Node::folder(Vec::new()));
        children[at] = Node::folder(vec![inner]);
    } else {
        children.insert(at, Node::folder(vec![Node::inline(b"x")]));
    }
}

fn fail_resource_format(random: &mut Random, file: &mut File) {
    if file.types.is_empty() {
        file.types.push(TypeEntry {
            number: 1,
            format: 6,
            language: Vec::new(),
        });
    } else {
        file.types[0].format = 6;
    }
    let data: &[u8] = random.pick(&[
        &[0],
        &[0, 2],
        &[0, 6],
        &[1, 0],
        &[],
        &[0, 0, 0],
        &[0, 0x80, 0, 0],
        &[0, 0x80, 2],
        &[0, 0x80],
        &[0, 0x80, 0x80, 0x80, 0x80],
        &[0, 0x80, 0x80, 0x80, 0x80, 0],
        &[0x80, 0, 0],
        &[0, 0x81, 0],
        &[0, 0x85],
        &[5],
    ]);
    let wrong_data = resource_format(random, data);
    let wrong_format = Item::standard(RESOURCE_FORMAT, random.pick(&[0, 1, 4, 8, 9, 134]), &[0, 0]);
    let second = resource_format(random, &[0, 0]);
    let choice = random.below(6);
    let Some(child) = any_file_child(random, file) else {
        return;
    };
    let is_format = |item: &Item| item.field == Field::Standard(RESOURCE_FORMAT);
    let Some(at) = child.items.iter().position(is_format) else {
        return;
    };
    match choice {
        0 => {
            child.items.remove(at);
        }
        1 => child.items.push(second),
        2 => child.items[at] = wrong_format,
        3 => child.items[at].values = Values::Versions(vec![(1, vec![0, 0])]),
        _ => child.items[at] = wrong_data,
    }
}

fn fail_count(random: &mut Random, file: &mut File) {
    let tune = child(random, 1);
    let bank = child(random, 5);
    let Some(children) = file.root.children_mut() else {
        return;
    };
    match random.below(5) {
        0 => {
            // No tune: the last child goes; a root without children would be a file node.
            children.pop();
            children.push(bank);
        }
        1 => children.push(tune),
        2 => children.insert(0, tune),
        3 => {
            // Two banks.
            children.insert(0, bank.clone());
            children.insert(0, bank);
        }
        _ => children.push(bank),
    }
}

fn fail_description(random: &mut Random, file: &mut File) {
    let other = description(random);
    let wrong = Item::standard(
        CONTENT_DESCRIPTION,
        random.pick(&[0, 1, 2, 5, 8, 9, 135]),
        &[0],
    );
    let unreadable = unreadable(random);
    let choice = random.below(6);
    if file.types.is_empty() {
        file.types.push(TypeEntry {
            number: 1,
            format: 6,
            language: Vec::new(),
        });
    }
    if choice == 0 {
        file.root.items.push(other);
        return;
    }
    let Some(children) = file.root.children_mut() else {
        return;
    };
    if choice == 1 && children.len() > 1 {
        children[0].items.push(other);
        return;
    }
    let Some(tune) = children.last_mut() else {
        return;
    };
    let is_description = |item: &Item| item.field == Field::Standard(CONTENT_DESCRIPTION);
    match choice {
        2 => tune.items.push(wrong),
        3 => tune.items.push(Item {
            field: Field::Standard(CONTENT_DESCRIPTION),
            values: Values::Versions(vec![(1, vec![0])]),
        }),
        4 => tune.items.push(unreadable),
        _ => tune.items.retain(|item| !is_description(item)),
    }
}

/// A content description that is cut, or has a byte left over.
fn unreadable(random: &mut Random) -> Item {
    let mut data = Description::any(random).bytes();
    match random.below(2) {
        0 => data.truncate(random.below(data.len())),
        _ => data.push(random.byte()),
    }
    Item::standard(CONTENT_DESCRIPTION, random.between(6, 7), &data)
}

fn fail_limits(random: &mut Random, file: &mut File) {
    let number = random.pick(&[257, 300, 16_384]);
    let size = random.pick(&[257, 300]);
    let item = match random.below(12) {
        0 => Item::standard(8, 0, &random.bytes(65_530)),
        1..=6 => Item::standard(number, 0, b"x"),
        _ => Item::custom(&vec![b'n'; size], 0, b"x"),
    };
    let root_only = random.once_in(2);
    let node = match file.root.children_mut() {
        Some(children) if !root_only => children.last_mut(),
        _ => None,
    };
    match node {
        Some(child) => child.items.push(item),
        None => file.root.items.push(item),
    }
}

/// A child of the root that isn't a folder.
fn any_file_child<'a>(random: &mut Random, file: &'a mut File) -> Option<&'a mut Node> {
    let children = file.root.children_mut()?;
    let mut children: Vec<&mut Node> = children
        .iter_mut()
        .filter(|child| !child.is_folder())
        .collect();
    if children.is_empty() {
        return None;
    }
    let at = random.below(children.len());
    Some(children.swap_remove(at))
}

/// A small Standard MIDI File of format 0: a MIP message for one channel and three notes.
pub fn tune() -> Vec<u8> {
    let mut track = Vec::new();
    // The MIP message: the first channel, at most four notes.
    track.extend([0, 0xF0, 7, 0x7F, 0x7F, 0x0B, 0x01, 0x00, 0x04, 0xF7]);
    track.extend([0, 0xC0, 0]);
    for key in [60, 64, 67] {
        track.extend([0, 0x90, key, 64]);
        track.extend(number_bytes(96));
        track.extend([0x80, key, 64]);
    }
    track.extend([0, 0xFF, 0x2F, 0]);

    let mut bytes = b"MThd".to_vec();
    bytes.extend(6_u32.to_be_bytes());
    for value in [0_u16, 1, 96] {
        bytes.extend(value.to_be_bytes());
    }
    bytes.extend(b"MTrk");
    bytes.extend((track.len() as u32).to_be_bytes());
    bytes.extend(track);
    bytes
}

/// The items of a tune: its resource format, and a content description of one channel with four
/// General MIDI voices.
pub fn tune_items() -> Vec<Item> {
    vec![
        Item::standard(RESOURCE_FORMAT, 6, &[0, 0]),
        Item::standard(CONTENT_DESCRIPTION, 6, &[0, 1, 1, 0, 0, 0, 4]),
    ]
}
