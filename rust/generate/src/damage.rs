//! Damaged files.

use crate::encode::{encode, encode_changed, padded_bytes, LARGEST_NUMBER};
use crate::encode::{Encoded, Layout, Mark, MarkKind};
use crate::model::{Contents, Field, File, Item, Node, Part, Place, TypeEntry};
use crate::model::{Unpacker, UnpackerName, Values, Version};
use crate::random::Random;
use crate::shapes;

/// More than the length of any file that [`refused`] makes.
const FAR: usize = 20_000;

/// A way to damage a file.
#[derive(Clone, Copy, Debug, PartialEq, Eq)]
pub enum Damage {
    /// The file ends early.
    Cut,
    /// One length is one more than it should be.
    LengthMore,
    /// One length is one less than it should be.
    LengthLess,
    /// One number has another value.
    Number,
    /// One number has a byte more, is too long, is cut, is missing or has a byte after it.
    Form,
    /// One offset of a reference 2 or 3, if the file has any, leads to another place.
    Target,
    /// A part is replaced by a part of another file.
    Splice,
    /// Some bits have their other value.
    Bits,
    /// Some bytes are added.
    Insert,
    /// Some bytes are taken away.
    Delete,
}

/// Damages a file. Where bytes come or go, FileLength is right again in half of the cases.
pub fn damage(random: &mut Random, file: &File, way: Damage) -> Vec<u8> {
    let encoded = encode(file);
    let mut bytes = encoded.bytes.clone();
    match way {
        Damage::Cut => bytes.truncate(random.below(bytes.len())),
        Damage::LengthMore => {
            let mark = any_mark(random, &encoded, |mark| mark.kind.is_length());
            let more = padded_bytes(mark.value + 1, mark.size);
            return changed(random, file, &encoded, mark, &more);
        }
        Damage::LengthLess => {
            let mark = any_mark(random, &encoded, |mark| {
                mark.kind.is_length() && mark.value > 0
            });
            let less = padded_bytes(mark.value - 1, mark.size);
            return changed(random, file, &encoded, mark, &less);
        }
        Damage::Number => {
            let mark = any_mark(random, &encoded, |_| true);
            let value = other_value(random, mark.value, bytes.len());
            let width = random.pick(&[1, mark.size]);
            return changed(random, file, &encoded, mark, &padded_bytes(value, width));
        }
        Damage::Form => {
            let mark = any_mark(random, &encoded, |_| true);
            let form = other_form(random, mark);
            return changed(random, file, &encoded, mark, &form);
        }
        Damage::Target => {
            if let Some(mark) = some_mark(random, &encoded, |mark| mark.kind == MarkKind::Offset) {
                let place = other_place(random, &encoded.layout);
                let form = padded_bytes(place, mark.size);
                return changed(random, file, &encoded, mark, &form);
            }
        }
        Damage::Splice => {
            let mut other = shapes::any_file(random);
            other.widths = shapes::any_widths(random);
            let other = encode(&other).bytes;
            let (start, end) = any_range(random, bytes.len(), 40);
            let (other_start, other_end) = any_range(random, other.len(), 40);
            bytes.splice(start..end, other[other_start..other_end].iter().copied());
        }
        Damage::Bits => {
            for _ in 0..random.between(1, 3) {
                let at = random.below(bytes.len());
                bytes[at] ^= 1 << random.below(8);
            }
            return bytes;
        }
        Damage::Insert => {
            let at = random.below(bytes.len() + 1);
            let size = random.between(1, 3);
            bytes.splice(at..at, random.bytes(size));
        }
        Damage::Delete => {
            let (start, end) = any_range(random, bytes.len(), 3);
            bytes.drain(start..end);
        }
    }
    if random.once_in(2) {
        bytes = with_right_length(&bytes, &encoded);
    }
    bytes
}

/// All cuts of a file, from no byte to all but one.
pub fn every_cut(bytes: &[u8]) -> impl Iterator<Item = &[u8]> {
    (0..bytes.len()).map(|end| &bytes[..end])
}

/// The file with each of its lengths one more and one less, in turn, all others being right.
pub fn every_length_changed(file: &File) -> Vec<(Mark, Vec<u8>)> {
    let mut files = Vec::new();
    for mark in encode(file).marks {
        if !mark.kind.is_length() {
            continue;
        }
        let more = padded_bytes(mark.value + 1, mark.size);
        files.push((mark, encode_changed(file, mark.index, &more).bytes));
        if mark.value > 0 {
            let less = padded_bytes(mark.value - 1, mark.size);
            files.push((mark, encode_changed(file, mark.index, &less).bytes));
        }
    }
    files
}

/// The damaged bytes with the right FileLength, if its place is still there.
///
/// `before` is the file before the damage.
pub fn with_right_length(bytes: &[u8], before: &Encoded) -> Vec<u8> {
    let mut repaired = bytes.to_vec();
    let mark = first_mark(before, MarkKind::FileLength, 0);
    let end = mark.place + mark.size;
    if bytes.len() >= end {
        let others = bytes.len() - mark.size;
        let mut length = padded_bytes(bytes.len(), mark.size);
        while padded_bytes(others + length.len(), mark.size) != length {
            length = padded_bytes(others + length.len(), mark.size);
        }
        repaired.splice(mark.place..end, length);
    }
    repaired
}

/// A file that is refused with this number when the tables are large enough.
///
/// The number is 1 to 9, 11 to 16 or 24: the others depend on the tables, the question or a very
/// long file.
pub fn refused(random: &mut Random, number: usize) -> Vec<u8> {
    use MarkKind::*;
    let mut file = rich(random);
    let choice = random.below(12);
    let even = choice.is_multiple_of(2);
    let (kind, change): (MarkKind, fn(usize) -> usize) = match number {
        1 | 2 => return with_wrong_start(random, &file, number),
        3 if choice >= 10 => return with_empty_node(random, &file),
        3 if choice >= 8 => return with_cut_number(random, &file),
        3 => match choice % 6 {
            0 => (TableLength, |value| value + FAR),
            1 => (LanguageLength, |value| value + FAR),
            2 => (NameLength, |value| value + FAR),
            3 => (UniversalLength, |value| value + FAR),
            4 => (VersionLength, |value| value + FAR),
            _ => (UriLength, |value| value + FAR),
        },
        4 => return with_wrong_form(random, &file),
        5 if even => (FileLength, |value| value + 1),
        5 => (FileLength, |value| value - 1),
        6 if even => return encode(&shapes::with_types(random, 33)).bytes,
        6 => {
            let mut again = file.types[random.below(file.types.len())].clone();
            again.format = random.below(8);
            file.types.push(again);
            return encode(&file).bytes;
        }
        7 => match choice % 3 {
            0 => (TreeStart, |_| 12),
            1 => (TreeEnd, |_| 12),
            _ => (TreeEnd, |value| value + FAR),
        },
        8 => match choice % 5 {
            0 => (NodeLength, |value| value + FAR),
            1 => (HeaderLength, |value| value + FAR),
            2 => (HeaderLength, |_| 2),
            3 => (MetadataLength, |value| value + FAR),
            _ => (UnpackersLength, |value| value + 1),
        },
        9 => return encode(&shapes::with_depth(random, 17)).bytes,
        11 if even => (UniversalLength, |_| 0),
        11 => (VersionType, |_| 77),
        12 => (UnpackerKind, |value| value + 4),
        13 if even => (Reference, |_| 0),
        13 => (Reference, |value| value + 4),
        14 if even => {
            file.root.unpackers = shapes::unpackers(random);
            return encode(&file).bytes;
        }
        14 => {
            let encoded = encode(&file);
            let root = first_mark(&encoded, Reference, encoded.layout.tree.start);
            let reference = padded_bytes(random.between(2, 4), root.size);
            return encode_changed(&file, root.index, &reference).bytes;
        }
        15 => match choice % 4 {
            0 => (TableCount, |value| value - 1),
            1 => (UriLength, |value| value - 1),
            _ => {
                let mark = any_mark(random, &encode(&file), |mark| mark.kind == Offset);
                let mut form = padded_bytes(mark.value, mark.size);
                form.push(random.byte());
                return encode_changed(&file, mark.index, &form).bytes;
            }
        },
        16 => {
            let wrong = Node::new(match choice % 6 {
                0 => Contents::InFile(Place::Fixed(random.below(12))),
                1 => Contents::InFile(Place::Fixed(FAR)),
                2 => Contents::Node(Place::Fixed(random.below(12))),
                3 => Contents::Node(Place::BeforeEnd(0)),
                4 => Contents::Node(Place::Fixed(FAR)),
                _ => Contents::Node(Place::InNode(random.below(file.tree().len()))),
            });
            if random.once_in(2) {
                let place = file.add_detached(wrong);
                add_reference(&mut file, place);
            } else {
                add_child(&mut file, wrong);
            }
            return encode(&file).bytes;
        }
        24 if even => {
            let place = file.add_detached(Node::folder(vec![Node::inline(b"x")]));
            add_reference(&mut file, place);
            return encode(&file).bytes;
        }
        24 => return with_overlap(random),
        _ => panic!("no file for refusal {number}"),
    };
    let mark = any_mark(random, &encode(&file), |mark| mark.kind == kind);
    let form = padded_bytes(change(mark.value), mark.size);
    encode_changed(&file, mark.index, &form).bytes
}

/// A file with another mark at its start, or with another version.
fn with_wrong_start(random: &mut Random, file: &File, number: usize) -> Vec<u8> {
    let mut bytes = encode(file).bytes;
    if number == 2 {
        let versions: [&[u8]; 6] = [b"0.00", b"1.02", b"1.10", b"2.01", b"2.10", b"3.00"];
        bytes[4..8].copy_from_slice(random.pick(&versions));
    } else if random.once_in(2) {
        bytes.truncate(random.below(8));
    } else {
        bytes[random.below(4)] ^= 1 << random.below(8);
    }
    bytes
}

/// A file with a number that is too long.
fn with_wrong_form(random: &mut Random, file: &File) -> Vec<u8> {
    let mark = any_mark(random, &encode(file), |_| true);
    let form = match random.below(3) {
        0 => vec![0xFF; 4],
        1 => vec![0x81, 0x80, 0x80, 0x80, 0],
        _ => padded_bytes(mark.value, 5),
    };
    encode_changed(file, mark.index, &form).bytes
}

/// A file with a number that the end of its part cuts: the last decoded size, or an offset.
fn with_cut_number(random: &mut Random, file: &File) -> Vec<u8> {
    let encoded = encode(file);
    let kind = random.pick(&[MarkKind::DecodedSize, MarkKind::Offset]);
    let mut marks = encoded.marks.iter().rev();
    let mark = marks
        .find(|mark| mark.kind == kind)
        .expect("a rich file has such a number");
    let run = vec![random.pick(&[0x80, 0x81]); random.between(1, 3)];
    encode_changed(file, mark.index, &run).bytes
}

/// A file in which a reference 3 leads to a byte 0, a node of no length: one outside all nodes, or the
/// last one of a detached node.
fn with_empty_node(random: &mut Random, file: &File) -> Vec<u8> {
    let mut file = file.clone();
    if random.once_in(2) {
        let holder = file.add_detached(Node::inline(&[1, 0]));
        add_reference(&mut file, holder);
    } else {
        file.tail.push(Part::Bytes(vec![0]));
    }
    add_reference(&mut file, Place::BeforeEnd(1));
    encode(&file).bytes
}

/// A file with two detached nodes side by side, of which the first is so long that it has bytes of
/// the second: one byte, some, or all and what follows it.
fn with_overlap(random: &mut Random) -> Vec<u8> {
    let mut numbers = [0, 1];
    if random.once_in(2) {
        numbers.reverse();
    }
    let named = numbers.map(|number| Node::new(Contents::Node(Place::Detached(number))));
    let mut file = File::new(Version::V101, Node::folder(named.to_vec()));
    let more = random.below(4);
    let parts = vec![
        Part::Node(Node::inline(&random.bytes(2))),
        Part::Node(Node::inline(b"x")),
        Part::Bytes(random.bytes(more)),
    ];
    if random.once_in(2) {
        file.gap = parts;
    } else {
        file.tail = parts;
    }
    file.widths = shapes::any_widths(random);
    let encoded = encode(&file);
    let [first, second] = [0, 1].map(|number| {
        let start = encoded.layout.detached[number];
        first_mark(&encoded, MarkKind::NodeLength, start)
    });
    let shared = random.pick(&[1, second.value, second.value + more]);
    let shared = random.between(1, shared);
    let form = padded_bytes(first.value + shared, first.size);
    encode_changed(&file, first.index, &form).bytes
}

/// Adds a node at the end of the root, which is a folder.
fn add_child(file: &mut File, node: Node) {
    if let Some(children) = file.root.children_mut() {
        children.push(node);
    }
}

/// Adds a node with a reference 3 to a place at the end of the root.
fn add_reference(file: &mut File, place: Place) {
    add_child(file, Node::new(Contents::Node(place)));
}

/// A file with at least one of each kind of part. Each detached node in it has a row.
fn rich(random: &mut Random) -> File {
    let version = match random.below(3) {
        0 => Version::V100,
        1 => Version::V101,
        _ => Version::V200 {
            kind: 2,
            revision: 1,
        },
    };
    let name = |name| Unpacker { name, size: 9 };
    let guid_size = random.between(1, 19);
    let mut packed = Node::inline(&random.bytes(2));
    packed.unpackers = vec![
        name(UnpackerName::Standard(5)),
        name(UnpackerName::Manufacturer(vec![0, 0x7C, 0x7F], 200)),
        name(UnpackerName::Registered(7)),
        name(UnpackerName::Guid(shapes::guid(random, guid_size))),
    ];
    let folder = Node::folder(vec![Node::inline(&random.bytes(2))]);
    let first = Node::new(Contents::Node(Place::Node(2)));
    let mut file = File::new(version, Node::folder(vec![folder, first]));
    file.tail.push(Part::Bytes(random.bytes(3)));
    for node in [
        packed,
        Node::new(Contents::InFile(Place::AfterTree(0))),
        Node::new(Contents::Uri(b"file:x".to_vec())),
    ] {
        match random.below(4) {
            0 => file.gap.push(Part::Node(node)),
            1 => file.tail.push(Part::Node(node)),
            _ => add_child(&mut file, node),
        }
    }
    for number in 0..file.detached().len() {
        add_reference(&mut file, Place::Detached(number));
    }
    file.types = vec![
        TypeEntry {
            number: 1,
            format: 0,
            language: b"en".to_vec(),
        },
        TypeEntry {
            number: 2,
            format: 3,
            language: b"fr".to_vec(),
        },
    ];
    file.widths = shapes::any_widths(random);
    let types = file.types.clone();
    file.for_each_node(|_, node| node.items = shapes::items(random, &types));
    let own = [
        Item::standard(8, 0, b"Hi"),
        Item::custom(b"name", 1, b"hidden"),
        Item {
            field: Field::Custom(b"a".to_vec()),
            values: Values::Versions(vec![(1, b"x".to_vec()), (2, b"yz".to_vec())]),
        },
    ];
    let row = random.below(file.nodes().len());
    file.for_each_node(|own_row, node| {
        if own_row == row {
            node.items.extend(own.iter().cloned());
        }
    });
    file
}

/// Puts other bytes in place of a number: in half of the cases with all lengths around it right, in
/// the others with FileLength right or with no length changed.
fn changed(
    random: &mut Random,
    file: &File,
    encoded: &Encoded,
    mark: Mark,
    form: &[u8],
) -> Vec<u8> {
    let way = random.below(4);
    if way < 2 {
        return encode_changed(file, mark.index, form).bytes;
    }
    let mut bytes = encoded.bytes.clone();
    bytes.splice(mark.place..mark.place + mark.size, form.iter().copied());
    if way == 2 && mark.kind != MarkKind::FileLength {
        bytes = with_right_length(&bytes, encoded);
    }
    bytes
}

/// A value other than the right one, of those that tell readers apart.
fn other_value(random: &mut Random, value: usize, length: usize) -> usize {
    let values = [
        0,
        1,
        2,
        random.between(3, 6),
        value + 1,
        value.saturating_sub(1),
        value * 2,
        length - 1,
        length,
        length + 1,
        127,
        128,
        16_384,
        LARGEST_NUMBER,
        random.below(length * 2),
    ];
    random.pick(&values).min(LARGEST_NUMBER)
}

/// A number in another form, or with other bytes about it.
fn other_form(random: &mut Random, mark: Mark) -> Vec<u8> {
    let right = padded_bytes(mark.value, mark.size);
    match random.below(8) {
        0 => padded_bytes(mark.value, mark.size + 1),
        1 => vec![0xFF; 4],
        2 => vec![0x81, 0x80, 0x80, 0x80, 0],
        3 => vec![0x80; random.between(1, 4)],
        4 => vec![0x81],
        5 => Vec::new(),
        6 => [right, vec![random.byte()]].concat(),
        _ => [vec![random.byte()], right].concat(),
    }
}

/// A place other than the right one, of those that tell readers apart: where a part of the file
/// starts or ends, or the byte before or after.
fn other_place(random: &mut Random, layout: &Layout) -> usize {
    let mut places = vec![
        layout.header_end,
        layout.tree.start,
        layout.tree.end,
        layout.length,
    ];
    places.extend(&layout.nodes);
    places.extend(&layout.detached);
    random.pick(&places) + random.below(3) - 1
}

/// One of the numbers of a file.
fn any_mark(random: &mut Random, encoded: &Encoded, wanted: impl Fn(&Mark) -> bool) -> Mark {
    some_mark(random, encoded, wanted).expect("each file has such a number")
}

/// One of the numbers of a file, if it has one that is wanted.
fn some_mark(
    random: &mut Random,
    encoded: &Encoded,
    wanted: impl Fn(&Mark) -> bool,
) -> Option<Mark> {
    let marks = encoded.marks.iter().copied();
    let marks: Vec<Mark> = marks.filter(|mark| wanted(mark)).collect();
    match marks.len() {
        0 => None,
        _ => Some(random.pick(&marks)),
    }
}

/// The first number of a kind from a place on.
fn first_mark(encoded: &Encoded, kind: MarkKind, place: usize) -> Mark {
    let mut marks = encoded.marks.iter();
    *marks
        .find(|mark| mark.kind == kind && mark.place >= place)
        .expect("each file has such a number")
}

/// The start and the end of a part with at least one byte and at most `most`.
fn any_range(random: &mut Random, length: usize, most: usize) -> (usize, usize) {
    let start = random.below(length);
    let size = random.between(1, most.min(length - start));
    (start, start + size)
}
