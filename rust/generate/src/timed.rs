//! Files for timing. In each, a reader spends its time in another place.

use crate::encode::{encode, encode_changed, MarkKind};
use crate::mobile::{tune, tune_items};
use crate::model::{Contents, Field, File, Item, Node, Place, TypeEntry};
use crate::model::{Unpacker, UnpackerName, Values, Version, Widths};
use crate::random::Random;
use crate::{cases, samples, shapes};

/// Version 2.00, with type and revision of Mobile XMF.
const MOBILE: Version = Version::V200 {
    kind: 2,
    revision: 1,
};

/// All of them, each with its name.
pub fn all(seed: u64) -> Vec<(&'static str, Vec<u8>)> {
    let mut padded = shapes::large(&mut Random::new(seed), 15);
    padded.widths = Widths::Four;
    vec![
        ("large", cases::large_file(seed)),
        ("padded", encode(&padded).bytes),
        ("common", encode(&levels(common_items())).bytes),
        ("bare", encode(&levels([const { Vec::new() }; 2])).bytes),
        ("late", refused_late()),
        ("unpackers", encode(&unpackers()).bytes),
        ("types", encode(&types()).bytes),
        ("text", encode(&titled(0, &[b'a'; 20_000])).bytes),
        ("escapes", encode(&titled(0, &[0x90; 20_000])).bytes),
        ("letters", encode(&titled(2, &units([b'a']))).bytes),
        ("accents", encode(&titled(2, &units([0xe9]))).bytes),
        ("mixed", encode(&titled(2, &units(*b"na\xefve "))).bytes),
        ("over", encode(&titled(0, &vec![b'a'; 4_000_000])).bytes),
        ("children", encode(&children()).bytes),
        ("contents", encode(&contents()).bytes),
        ("detached", encode(&detached(|link| link)).bytes),
        ("backward", encode(&detached(|link| LINKS - 1 - link)).bytes),
        (
            "scattered",
            encode(&detached(|link| link * 101 % LINKS)).bytes,
        ),
        ("worked", samples::worked()),
        ("resource", cases::large_resource(seed)),
    ]
}

/// Files whose title in item row 0 is corrected, each with its name. All numbers are in their shortest
/// form but in the last one, where they have four bytes.
pub fn titles() -> Vec<(&'static str, Vec<u8>)> {
    let title = || vec![Item::standard(8, 0, b"title")];
    let packed = |name: UnpackerName, count: usize| {
        let mut root = Node::inline(&[]).with_items(title());
        root.unpackers = vec![Unpacker { name, size: 2 }; count];
        File::new(MOBILE, root)
    };
    let mut bare = levels([const { Vec::new() }; 2]);
    bare.root = bare.root.with_items(title());
    let mut padded = packed(UnpackerName::Standard(1), 5_000);
    padded.widths = Widths::Four;
    let guid = [&[0x90; 15][..], &[1]].concat();
    vec![
        ("title_full", encode(&levels(common_items())).bytes),
        ("title_bare", encode(&bare).bytes),
        (
            "title_unpackers",
            encode(&packed(UnpackerName::Standard(1), 20_000)).bytes,
        ),
        (
            "title_makers",
            encode(&packed(UnpackerName::Manufacturer(vec![0x43], 1), 15_000)).bytes,
        ),
        (
            "title_guids",
            encode(&packed(UnpackerName::Guid(guid), 3_300)).bytes,
        ),
        ("title_padded", encode(&padded).bytes),
    ]
}

/// 256 nodes: a root, 15 folders in it, 16 file nodes in each. The first items are those of a folder,
/// the second those of a file node.
fn levels([folder, leaf]: [Vec<Item>; 2]) -> File {
    let leaf = Node::inline(&[7; 24]).with_items(leaf);
    let inner = Node::folder(vec![leaf; 16]).with_items(folder.clone());
    let root = Node::folder(vec![inner; 15]).with_items(folder);
    File::new(MOBILE, root)
}

/// Four universal contents: of a folder, and of a file node, which has one custom field.
fn common_items() -> [Vec<Item>; 2] {
    let leaf = vec![
        Item::standard(8, 0, b"Boarding call"),
        Item::custom(b"token", 7, &[0x11; 16]),
        Item::standard(3, 6, &[0, 1]),
        Item::standard(10, 0, b"Studio"),
    ];
    [vec![Item::standard(8, 0, b"Folder"); 4], leaf]
}

/// The same nodes and items, with the last reference a wrong one.
fn refused_late() -> Vec<u8> {
    let file = levels(common_items());
    let marks = encode(&file).marks;
    let last = marks.iter().rfind(|mark| mark.kind == MarkKind::Reference);
    encode_changed(&file, last.expect("a reference").index, &[9]).bytes
}

/// A node with 20,000 unpackers: 60,000 numbers of one byte.
fn unpackers() -> File {
    let unpacker = Unpacker {
        name: UnpackerName::Standard(1),
        size: 2,
    };
    let mut root = Node::inline(&[]);
    root.unpackers = vec![unpacker; 20_000];
    File::new(MOBILE, root)
}

/// 32 declared types, and 1,024 versions of the last one.
fn types() -> File {
    let versions = Item {
        field: Field::Standard(8),
        values: Values::Versions(vec![(31, b"A".to_vec()); 1024]),
    };
    let mut file = File::new(MOBILE, Node::inline(&[]).with_items(vec![versions]));
    file.types = (0..32)
        .map(|number| TypeEntry {
            number,
            format: 0,
            language: Vec::new(),
        })
        .collect();
    file
}

/// One visible text.
fn titled(format: usize, data: &[u8]) -> File {
    let title = Item::standard(8, format, data);
    File::new(MOBILE, Node::inline(&[]).with_items(vec![title]))
}

/// 20,000 units of UTF-16 below 100h, which go through these.
fn units<const COUNT: usize>(low: [u8; COUNT]) -> Vec<u8> {
    let units = low.into_iter().cycle().take(20_000);
    units.flat_map(|byte| [0, byte]).collect()
}

/// A root with 255 children, of which the last is a tune. It meets the checks of Mobile XMF up to
/// the fifth.
fn children() -> File {
    let bank = Node::inline(&[2]).with_items(vec![
        Item::standard(3, 6, &[0, 5]),
        Item::standard(8, 0, b"x"),
        Item::standard(9, 0, b"y"),
        Item::standard(10, 7, b"z"),
    ]);
    let mut children = vec![bank; 254];
    children.push(Node::inline(&tune()).with_items(tune_items()));
    File::new(MOBILE, Node::folder(children))
}

/// A tune with 1,000 contents. It meets every check of Mobile XMF.
fn contents() -> File {
    let [format, description]: [Item; 2] = tune_items().try_into().expect("two items");
    let mut items = vec![format];
    items.extend(vec![description; 999]);
    let child = Node::new(Contents::Inline(tune())).with_items(items);
    File::new(MOBILE, Node::folder(vec![child]))
}

/// How many detached nodes are in a chain. With a root and the node that leads to the first of them they
/// are as many as there may be rows.
const LINKS: usize = 254;

/// A chain of references 3 through detached nodes: `number` says which of them in file order is a link.
fn detached(number: impl Fn(usize) -> usize) -> File {
    let reference = |link| Node::new(Contents::Node(Place::Detached(number(link))));
    let mut file = File::new(MOBILE, Node::folder(vec![reference(0)]));
    let mut nodes = vec![Node::inline(&[7]); LINKS];
    for link in 1..LINKS {
        nodes[number(link - 1)] = reference(link);
    }
    for node in nodes {
        file.add_detached(node);
    }
    file
}
