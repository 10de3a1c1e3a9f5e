//! Cases for comparing readers, each made from a seed and a number alone.

use crate::damage::{damage, refused, Damage};
use crate::encode::{encode, Encoded, PrivateKind, PrivatePart};
use crate::mobile;
use crate::model::{Contents, Field, File, Item, Node, Part, Place};
use crate::model::{Unpacker, UnpackerName, Values};
use crate::random::Random;
use crate::shapes;

/// The words of a node row.
pub(crate) const NODE_WORDS: usize = 13;
/// The words of an item row.
pub(crate) const ITEM_WORDS: usize = 10;
/// The words of a table with as many node rows as there may be.
pub const ALL_NODE_WORDS: usize = 256 * NODE_WORDS;
/// The words of a table with as many item rows as there may be.
pub const ALL_ITEM_WORDS: usize = 1024 * ITEM_WORDS;
/// The bytes that the program lends for a sheet.
pub const ALL_ROOM: usize = 65_536;

/// The refusals that [`refused`] can make.
const REFUSALS: [usize; 16] = [1, 2, 3, 4, 5, 6, 7, 8, 9, 11, 12, 13, 14, 15, 16, 24];

/// A kind of case.
#[derive(Clone, Copy, Debug, PartialEq, Eq)]
pub enum Kind {
    /// A well-formed file of any shape.
    WellFormed,
    /// A chain of references.
    Chain,
    /// A file with detached nodes.
    Detached,
    /// A Mobile XMF file; the verdicts 0 to 8 take turns.
    Mobile,
    /// A file at a limit or one past it.
    Limit,
    /// A file that is refused; the refusals take turns.
    Refused,
    /// A well-formed file and tables that may be too short.
    ShortTables,
    /// A damaged file.
    Damaged(Damage),
}

/// The kinds of cases, in the order in which they take turns.
pub const KINDS: [Kind; 18] = [
    Kind::WellFormed,
    Kind::Chain,
    Kind::Detached,
    Kind::Mobile,
    Kind::Limit,
    Kind::Refused,
    Kind::ShortTables,
    Kind::WellFormed,
    Kind::Damaged(Damage::Cut),
    Kind::Damaged(Damage::LengthMore),
    Kind::Damaged(Damage::LengthLess),
    Kind::Damaged(Damage::Number),
    Kind::Damaged(Damage::Form),
    Kind::Damaged(Damage::Target),
    Kind::Damaged(Damage::Splice),
    Kind::Damaged(Damage::Bits),
    Kind::Damaged(Damage::Insert),
    Kind::Damaged(Damage::Delete),
];

/// A file, what is lent with it, and what is asked about it.
#[derive(Clone, Debug)]
pub struct Case {
    /// The kind of the case.
    pub kind: Kind,
    /// The verdict, if the case is known to have one.
    pub verdict: Option<u64>,
    /// The number of the refusal for reading the tree, if the case is known to have one.
    pub refusal: Option<u64>,
    /// The bytes of the file.
    pub file: Vec<u8>,
    /// What is lent.
    pub lent: Lent,
    /// The row to ask about.
    pub row: u64,
    /// The field to be found.
    pub field: Field,
}

/// The sizes of what is lent for a question.
#[derive(Clone, Copy, Debug)]
pub struct Lent {
    /// The number of words for node rows.
    pub node_words: usize,
    /// The number of words for item rows.
    pub item_words: usize,
    /// The number of bytes for a sheet or a new file.
    pub room: usize,
    /// The seed of what the words and bytes hold before; with 0 they hold zeros.
    pub stale: u64,
}

/// Two files that differ at private places of the first only, and one question about both.
#[derive(Clone, Debug)]
pub struct Pair {
    /// The first file.
    pub first: Vec<u8>,
    /// The second file: as long, with other bytes in some of the private parts.
    pub second: Vec<u8>,
    /// The private parts of the first file.
    pub private: Vec<PrivatePart>,
    /// What is lent; the tables are always large enough.
    pub lent: Lent,
    /// The row to ask about.
    pub row: u64,
    /// The field to be found.
    pub field: Field,
}

impl Pair {
    /// Whether the files differ at a private place of this kind.
    pub fn differs_in(&self, kind: PrivateKind) -> bool {
        let mut parts = self.private.iter().filter(|part| part.kind == kind);
        parts.any(|part| self.first[part.places.clone()] != self.second[part.places.clone()])
    }
}

impl Lent {
    /// Full tables and room, all zeros.
    pub fn full() -> Self {
        Lent {
            node_words: ALL_NODE_WORDS,
            item_words: ALL_ITEM_WORDS,
            room: ALL_ROOM,
            stale: 0,
        }
    }

    /// New words for node rows.
    pub fn nodes(&self) -> Vec<u64> {
        self.words(self.node_words, 1)
    }

    /// New words for item rows.
    pub fn items(&self) -> Vec<u64> {
        self.words(self.item_words, 2)
    }

    /// New bytes for a sheet or a new file.
    pub fn sheet(&self) -> Vec<u8> {
        let words = self.words(self.room, 3);
        words.into_iter().map(|word| word as u8).collect()
    }

    fn words(&self, count: usize, number: u64) -> Vec<u64> {
        let mut random = Random::for_case(self.stale, number);
        (0..count)
            .map(|_| match self.stale {
                0 => 0,
                _ => random.word(),
            })
            .collect()
    }
}

/// Makes a case.
pub fn case(seed: u64, number: u64) -> Case {
    let random = &mut Random::for_case(seed, number);
    let kind = KINDS[(number % KINDS.len() as u64) as usize];
    let turn = (number / KINDS.len() as u64) as usize;
    let (mut verdict, mut refusal) = (None, None);
    let mut model = None;
    let file = match kind {
        Kind::Damaged(way) => {
            let mut file = match random.below(4) {
                0 if way == Damage::Target => shapes::chain(random),
                0 => mobile::with_verdict(random, 0),
                1 => shapes::detached(random),
                _ => shapes::any_file(random),
            };
            file.widths = shapes::any_widths(random);
            let bytes = damage(random, &file, way);
            model = Some(file);
            bytes
        }
        Kind::Refused => {
            let number = REFUSALS[turn % REFUSALS.len()];
            refusal = Some(number as u64);
            refused(random, number)
        }
        _ => {
            let mut file = match kind {
                Kind::Chain => shapes::chain(random),
                Kind::Detached => shapes::detached(random),
                Kind::Mobile => {
                    verdict = Some(turn as u64 % 9);
                    mobile::with_verdict(random, turn % 9)
                }
                Kind::Limit => {
                    let (file, past) = at_limit(random, turn);
                    refusal = past;
                    file
                }
                _ => shapes::any_file(random),
            };
            file.widths = shapes::any_widths(random);
            let bytes = encode(&file).bytes;
            model = Some(file);
            bytes
        }
    };
    let (nodes, items) = match &model {
        Some(file) => (file.nodes().len(), file.item_rows()),
        None => (6, 6),
    };
    let lent = match kind {
        Kind::ShortTables => short_tables(random, nodes, items),
        Kind::Limit | Kind::Refused | Kind::Mobile => any_lent(random, 256, 1024),
        _ => any_lent(random, nodes, items),
    };
    Case {
        kind,
        verdict,
        refusal,
        file,
        lent,
        row: any_row(random, nodes),
        field: any_field(random, model.as_ref()),
    }
}

/// Makes a pair of files that differ at private places of the first only.
pub fn pair(seed: u64, number: u64) -> Pair {
    let random = &mut Random::for_case(!seed, number);
    let mut file = match random.below(9) {
        0 | 1 => {
            let verdict = random.pick(&[0, 0, 5, 6, 7]);
            mobile::with_verdict(random, verdict)
        }
        2 | 3 => shapes::chain(random),
        4 | 5 => shapes::detached(random),
        6 => shapes::single_node(random),
        _ => shapes::any_file(random),
    };
    file.widths = shapes::any_widths(random);
    add_hidden_item(random, &mut file);
    if random.once_in(2) {
        add_outside(random, &mut file);
    }
    let Encoded { bytes, private, .. } = encode(&file);
    let second = with_other_private(random, &bytes, &private);
    Pair {
        first: bytes,
        second,
        private,
        lent: any_lent(random, file.nodes().len(), file.item_rows()),
        row: any_row(random, file.nodes().len()),
        field: any_field(random, Some(&file)),
    }
}

/// A file with 256 nodes and 1,024 item rows.
pub fn large_file(seed: u64) -> Vec<u8> {
    folders_file(seed, 15)
}

/// A file whose root holds `folders` folders of 16 nodes each; four item rows for each node.
pub fn folders_file(seed: u64, folders: usize) -> Vec<u8> {
    encode(&shapes::large(&mut Random::new(seed), folders)).bytes
}

/// A file with a single resource of 60,000 bytes.
pub fn large_resource(seed: u64) -> Vec<u8> {
    encode(&shapes::single_resource(&mut Random::new(seed), 60_000)).bytes
}

/// A file at a limit, or past it with the refusal that follows.
fn at_limit(random: &mut Random, turn: usize) -> (File, Option<u64>) {
    match turn % 20 {
        0 => (shapes::with_nodes(random, 256), None),
        1 => (shapes::with_nodes(random, 257), Some(10)),
        2 => (shapes::with_item_rows(random, 1024), None),
        3 => (shapes::with_item_rows(random, 1025), Some(10)),
        4 => (shapes::with_depth(random, 16), None),
        5 => (shapes::with_depth(random, 17), Some(9)),
        6 => (shapes::with_types(random, 32), None),
        7 => (shapes::with_types(random, 33), Some(6)),
        8 => (shapes::with_chain(random, 4), None),
        9 => (shapes::with_chain(random, 5), None),
        10 => (with_guid(random, 19), None),
        11 => (with_guid(random, 20), Some(4)),
        12 => {
            let mut file = shapes::single_node(random);
            file.root.contents = Contents::Node(Place::Node(0));
            (file, None)
        }
        13 => {
            let mut file = shapes::single_node(random);
            file.root.contents = Contents::InFile(Place::BeforeEnd(0));
            (file, None)
        }
        14 => (shapes::with_detached_nodes(random, 256), None),
        15 => (shapes::with_detached_nodes(random, 257), Some(10)),
        16 => (shapes::with_detached_chain(random, 4), None),
        17 => (shapes::with_detached_chain(random, 5), None),
        _ => (shapes::with_edge_lengths(random), None),
    }
}

/// A file with a GUID of `size` bytes.
fn with_guid(random: &mut Random, size: usize) -> File {
    let mut file = shapes::single_node(random);
    file.root.unpackers = vec![Unpacker {
        name: UnpackerName::Guid(shapes::guid(random, size)),
        size: 1,
    }];
    file
}

/// Tables that hold at least these numbers of rows: exactly these, a few words more, or all that may be.
pub(crate) fn any_lent(random: &mut Random, nodes: usize, items: usize) -> Lent {
    let mut lent = Lent::full();
    match random.below(4) {
        0 => {
            lent.node_words = nodes * NODE_WORDS;
            lent.item_words = items * ITEM_WORDS;
        }
        1 => {
            lent.node_words = nodes * NODE_WORDS + random.below(30);
            lent.item_words = items * ITEM_WORDS + random.below(30);
        }
        2 => {
            lent.node_words += random.below(300);
            lent.item_words += random.below(300);
        }
        _ => {}
    }
    any_room(random, &mut lent);
    lent
}

/// Tables of which at least one is about as large as its number of rows, or smaller.
pub(crate) fn short_tables(random: &mut Random, nodes: usize, items: usize) -> Lent {
    let mut lent = Lent::full();
    let which = random.below(3);
    if which != 0 {
        lent.node_words = short_table(random, nodes * NODE_WORDS);
    }
    if which != 1 {
        lent.item_words = short_table(random, items * ITEM_WORDS);
    }
    any_room(random, &mut lent);
    lent
}

fn short_table(random: &mut Random, needed: usize) -> usize {
    match random.below(4) {
        0 => 0,
        1 => needed.saturating_sub(1),
        2 => needed,
        _ => random.below(needed + 12),
    }
}

/// Chooses the room for a sheet, and whether what is lent holds other values before.
fn any_room(random: &mut Random, lent: &mut Lent) {
    lent.room = match random.below(6) {
        0 => 0,
        1 | 2 => random.below(600),
        _ => ALL_ROOM,
    };
    if random.once_in(2) {
        lent.stale = random.word();
    }
}

/// A row of a file with `nodes` nodes, at times one that isn't there.
fn any_row(random: &mut Random, nodes: usize) -> u64 {
    match random.below(12) {
        0 => nodes as u64,
        1 => random.pick(&[nodes as u64 + 1, 256, u64::MAX]),
        _ => random.below(nodes) as u64,
    }
}

/// A field, mostly one that the file has.
fn any_field(random: &mut Random, file: Option<&File>) -> Field {
    let mut fields = vec![
        Field::Standard(random.pick(&[0, 3, 8, 13, 99])),
        Field::Custom(random.pick(&[&b""[..], b"a", b"n", b"zz"]).to_vec()),
    ];
    if let Some(file) = file {
        let nodes = file.nodes();
        let items = nodes.iter().flat_map(|node| &node.items);
        fields.extend(items.map(|item| item.field.clone()));
    }
    fields.swap_remove(random.below(fields.len()))
}

/// Gives one node that has a row a hidden item with at least one byte of data.
fn add_hidden_item(random: &mut Random, file: &mut File) {
    let field = match random.below(3) {
        0 => Field::Standard(random.pick(&[1, 2, 4, 8, 12, 14, 127])),
        1 => Field::Standard(8),
        _ => Field::Custom(random.pick(&[&b"a"[..], b"n", b"\x03", b"\x0D"]).to_vec()),
    };
    let size = random.between(1, 9);
    let data = random.bytes(size);
    let hidden_type = file.types.iter().find(|entry| entry.format % 2 == 1);
    let values = match hidden_type {
        Some(entry) if random.once_in(2) => Values::Versions(vec![(entry.number, data)]),
        _ => Values::Universal {
            format: random.pick(&[1, 3, 5, 7, 9, 129]),
            data,
        },
    };
    let item = Item { field, values };
    let in_tree = file.tree().len();
    let reached = file.reached();
    let number = match reached.len() {
        0 => random.below(in_tree),
        _ if random.once_in(2) => random.below(in_tree),
        _ => in_tree + random.pick(&reached),
    };
    let at = random.below(9);
    file.for_each_node(|own_number, node: &mut Node| {
        if own_number == number {
            let at = at.min(node.items.len());
            node.items.insert(at, item.clone());
        }
    });
}

/// Adds a few bytes before the tree or after it, before, between or after what stands there.
fn add_outside(random: &mut Random, file: &mut File) {
    let size = random.between(1, 9);
    let bytes = Part::Bytes(random.bytes(size));
    let parts = match random.below(2) {
        0 => &mut file.gap,
        _ => &mut file.tail,
    };
    parts.insert(random.below(parts.len() + 1), bytes);
}

/// The same file with other bytes at private places: in some parts with hidden data, in some parts of
/// any kind, at all places of one kind, or at all private places. At least one part has hidden data.
fn with_other_private(random: &mut Random, file: &[u8], private: &[PrivatePart]) -> Vec<u8> {
    let mut second = file.to_vec();
    let choice = random.below(6);
    let kind = match choice {
        0 => PrivateKind::Hidden,
        _ => private[random.below(private.len())].kind,
    };
    while second == file {
        for part in private {
            let bytes = &mut second[part.places.clone()];
            let is_of_kind = part.kind == kind;
            match choice {
                0 if is_of_kind && random.once_in(2) => change_part(random, file, bytes),
                1..=3 if random.once_in(2) => change_part(random, file, bytes),
                4 if is_of_kind => change_all(random, bytes),
                5 => change_all(random, bytes),
                _ => {}
            }
        }
    }
    second
}

/// Puts bytes into a private part of a file, at times those that stand elsewhere in the file.
fn change_part(random: &mut Random, file: &[u8], part: &mut [u8]) {
    match random.below(5) {
        0 => part.fill(random.pick(&[0, 0xFF, 0x80, b'\\', b'\n'])),
        1 => {
            let at = random.below(part.len());
            part[at] ^= 1 << random.below(8);
        }
        2 => {
            let start = random.below(file.len() - part.len() + 1);
            part.copy_from_slice(&file[start..][..part.len()]);
        }
        _ => part.fill_with(|| random.byte()),
    }
}

/// Puts another byte at each place of a private part.
fn change_all(random: &mut Random, part: &mut [u8]) {
    for byte in part {
        *byte ^= random.between(1, 255) as u8;
    }
}
