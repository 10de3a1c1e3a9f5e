//! Content descriptions, made from a model with known counts; and cases that ask for one.

use crate::cases::{any_lent, Lent};
use crate::encode::{encode, padded_bytes, LARGEST_NUMBER};
use crate::model::{Contents, Field, File, Item, Node, TypeEntry, Values, Version, Widths};
use crate::random::Random;
use crate::shapes;

/// The standard field of a content description.
pub const CONTENT_DESCRIPTION: usize = 13;

/// What a content description says.
#[derive(Clone, Debug)]
pub struct Description {
    /// The index of the MIP message.
    pub message: usize,
    /// The number of channels.
    pub channels: usize,
    /// The resources.
    pub resources: Vec<Resource>,
    /// The group of each resource.
    pub groups: Vec<usize>,
    /// The count table: a row a channel, a count a resource.
    pub counts: Vec<usize>,
    /// How many bytes the numbers have.
    pub widths: Widths,
}

/// What names a resource.
#[derive(Clone, Debug)]
pub enum Resource {
    /// Kind 0, 2 or 4, and a number.
    Number(usize, usize),
    /// Kind 1: a manufacturer, one byte or three, and a number.
    Manufacturer(Vec<u8>, usize),
    /// Kind 3 or 5, and sixteen bytes.
    Guid(usize, Vec<u8>),
}

/// A file, an item row of it, and the count that is asked for.
#[derive(Clone, Debug)]
pub struct Described {
    /// The bytes of the file.
    pub file: Vec<u8>,
    /// What is lent.
    pub lent: Lent,
    /// The item row.
    pub row: u64,
    /// The channel.
    pub channel: u64,
    /// The resource.
    pub resource: u64,
    /// The answer, if it is known.
    pub answer: Option<Counted>,
}

/// An answer that is known.
#[derive(Clone, Copy, Debug, PartialEq, Eq)]
pub enum Counted {
    /// The count.
    Count(u64),
    /// A refusal that names no field.
    Refused(u64),
    /// Refusal 25, this number of bytes after the first one of the data.
    Faulty(usize),
}

/// A kind of case.
#[derive(Clone, Copy, PartialEq, Eq)]
enum Kind {
    /// A count that is there.
    There,
    /// A channel or a resource that is not there.
    NotThere,
    /// No resources, and any number of channels.
    NoResources,
    /// Data that is cut.
    Cut,
    /// Data with bytes left over.
    Longer,
    /// A field that is too long a number, or a kind above 5.
    Wrong,
    /// Data with a byte changed.
    Changed,
    /// An item row that is not there.
    NoRow,
    /// An item row that is no universal field 13 in format 6 or 7.
    Other,
}

/// The kinds, in the order in which they take turns.
const KINDS: [Kind; 10] = [
    Kind::There,
    Kind::NotThere,
    Kind::Cut,
    Kind::Changed,
    Kind::Longer,
    Kind::There,
    Kind::NoResources,
    Kind::Wrong,
    Kind::NoRow,
    Kind::Other,
];

impl Description {
    /// Any description, of few channels and resources.
    pub fn any(random: &mut Random) -> Self {
        let channels = random.pick(&[0, 1, 1, 2, 3, 4]);
        let resources: Vec<Resource> = (0..random.pick(&[0, 1, 1, 2, 3]))
            .map(|_| Resource::any(random))
            .collect();
        let groups = resources.iter().map(|_| any_number(random)).collect();
        let counts = (0..channels * resources.len())
            .map(|_| any_number(random))
            .collect();
        Description {
            message: any_number(random),
            channels,
            resources,
            groups,
            counts,
            widths: shapes::any_widths(random),
        }
    }

    /// The count for a channel and a resource, if they are described.
    pub fn count(&self, channel: u64, resource: u64) -> Option<u64> {
        let resources = self.resources.len() as u64;
        if channel >= self.channels as u64 || resource >= resources {
            return None;
        }
        Some(self.counts[(channel * resources + resource) as usize] as u64)
    }

    /// The bytes of each field, in their order.
    pub fn fields(&self) -> Vec<Vec<u8>> {
        let mut fields = Fields {
            widths: self.widths,
            bytes: Vec::new(),
        };
        fields.number(self.message);
        fields.number(self.channels);
        fields.number(self.resources.len());
        for resource in &self.resources {
            match resource {
                Resource::Number(kind, number) => {
                    fields.number(*kind);
                    fields.number(*number);
                }
                Resource::Manufacturer(manufacturer, number) => {
                    fields.number(1);
                    fields.bytes.push(manufacturer.clone());
                    fields.number(*number);
                }
                Resource::Guid(kind, guid) => {
                    fields.number(*kind);
                    fields.bytes.push(guid.clone());
                }
            }
        }
        for &number in self.groups.iter().chain(&self.counts) {
            fields.number(number);
        }
        fields.bytes
    }

    /// The description as bytes.
    pub fn bytes(&self) -> Vec<u8> {
        self.fields().concat()
    }
}

impl Resource {
    fn any(random: &mut Random) -> Self {
        match random.below(4) {
            0 | 1 => Resource::Number(random.pick(&[0, 2, 4]), any_number(random)),
            2 => {
                let first = random.pick(&[0, 0, 0x41, 0x7D, 0xFF]);
                let mut manufacturer = vec![first];
                if first == 0 {
                    manufacturer.extend(random.bytes(2));
                }
                Resource::Manufacturer(manufacturer, any_number(random))
            }
            _ => Resource::Guid(random.pick(&[3, 5]), random.bytes(16)),
        }
    }
}

/// The fields of a description while it is written.
struct Fields {
    widths: Widths,
    bytes: Vec<Vec<u8>>,
}

impl Fields {
    fn number(&mut self, value: usize) {
        let width = self.widths.of(self.bytes.len());
        self.bytes.push(padded_bytes(value, width));
    }
}

fn any_number(random: &mut Random) -> usize {
    random.pick(&[0, 0, 1, 2, 4, 5, 127, 128, 16_384, LARGEST_NUMBER])
}

/// Makes a case.
pub fn description(seed: u64, number: u64) -> Described {
    let random = &mut Random::for_case(seed ^ 0xDE5C, number);
    let kind = KINDS[(number % KINDS.len() as u64) as usize];
    let mut description = Description::any(random);
    if kind == Kind::NoResources {
        description.channels = random.pick(&[0, 1, 1000, LARGEST_NUMBER]);
        description.resources.clear();
        description.groups.clear();
        description.counts.clear();
    }
    let (channels, resources) = (
        description.channels as u64,
        description.resources.len() as u64,
    );
    let [mut channel, mut resource] = [channels, resources].map(|count| match count {
        0 => 0,
        _ => random.below(count as usize) as u64,
    });
    if kind == Kind::NotThere {
        let past = random.pick(&[0, 1, LARGEST_NUMBER as u64, u64::MAX - 4]);
        match random.below(3) {
            0 => channel = channels + past,
            1 => resource = resources + past,
            _ => (channel, resource) = (channels + past, resources + past),
        }
    }
    let (data, fault) = data(random, kind, &description);

    let item = match kind {
        Kind::Other => other_item(random, &data),
        _ => Item::standard(CONTENT_DESCRIPTION, random.between(6, 7), &data),
    };
    let mut file = shapes::any_file(random);
    file.types.retain(|entry| entry.number != 1);
    file.types.insert(0, binary_type());
    file.types.truncate(32);
    let at = random.below(file.root.items.len() + 1);
    let mut row: usize = file.root.items[..at].iter().map(Item::rows).sum();
    file.root.items.insert(at, item);
    file.widths = shapes::any_widths(random);
    if kind == Kind::NoRow {
        row = file.item_rows() + random.pick(&[0, 0, 1, 1024, usize::MAX - 2000]);
    }

    let answer = match (kind, fault) {
        (Kind::Changed, _) => None,
        (Kind::NoRow, _) => Some(Counted::Refused(18)),
        (Kind::Other, _) => Some(Counted::Refused(23)),
        (_, Some(place)) => Some(Counted::Faulty(place)),
        _ => Some(match description.count(channel, resource) {
            Some(count) => Counted::Count(count),
            None => Counted::Refused(23),
        }),
    };
    Described {
        lent: any_lent(random, file.nodes().len(), file.item_rows()),
        file: encode(&file).bytes,
        row: row as u64,
        channel,
        resource,
        answer,
    }
}

/// The data of a case of this kind, and the place of its first fault, if it is known to have one.
fn data(random: &mut Random, kind: Kind, description: &Description) -> (Vec<u8>, Option<usize>) {
    let mut fields = description.fields();
    let start = |fields: &[Vec<u8>], field: usize| fields[..field].iter().map(Vec::len).sum();
    match kind {
        Kind::Cut => {
            let mut data = fields.concat();
            let cut = random.below(data.len());
            data.truncate(cut);
            let ends = (0..fields.len()).map(|field| start(&fields, field + 1));
            let whole = ends.take_while(|&end: &usize| end <= cut).count();
            (data, Some(start(&fields, whole)))
        }
        Kind::Longer => {
            let mut data = fields.concat();
            let end = data.len();
            let more = random.between(1, 5);
            data.extend(random.bytes(more));
            (data, Some(end))
        }
        Kind::Wrong => {
            // The first resource's kind, or the index of the message, is wrong.
            let wrong: &[u8] = random.pick(&[
                &[6],
                &[0x7F],
                &[0x80, 0x80, 0x80, 0x80, 0x00],
                &[0xFF, 0xFF, 0xFF, 0x7F],
            ]);
            if description.resources.is_empty() {
                fields[0] = vec![0x81, 0x80, 0x80, 0x80, 0x01];
                return (fields.concat(), Some(0));
            }
            let place = start(&fields, 3);
            fields[3] = wrong.to_vec();
            (fields.concat(), Some(place))
        }
        Kind::Changed => {
            let mut data = fields.concat();
            let at = random.below(data.len());
            data[at] = random.byte();
            (data, None)
        }
        _ => (fields.concat(), None),
    }
}

/// An item that holds such data and is no universal field 13 in format 6 or 7.
fn other_item(random: &mut Random, data: &[u8]) -> Item {
    match random.below(4) {
        0 => Item::standard(random.pick(&[0, 3, 12, 14]), 6, data),
        1 => Item::custom(&[CONTENT_DESCRIPTION as u8], 6, data),
        2 => {
            let format = random.pick(&[0, 1, 4, 5, 8, 9, 134]);
            Item::standard(CONTENT_DESCRIPTION, format, data)
        }
        _ => Item {
            field: Field::Standard(CONTENT_DESCRIPTION),
            values: Values::Versions(vec![(1, data.to_vec())]),
        },
    }
}

fn binary_type() -> TypeEntry {
    TypeEntry {
        number: 1,
        format: 6,
        language: Vec::new(),
    }
}

/// The cases of one description: whole, cut at every byte, and changed at every byte to every other
/// value.
pub fn every_change(seed: u64, number: u64) -> impl Iterator<Item = Described> {
    let random = &mut Random::for_case(seed ^ 0xDE5C, number);
    let whole = Description::any(random).bytes();
    let cuts = (0..=whole.len()).map({
        let whole = whole.clone();
        move |cut| whole[..cut].to_vec()
    });
    let changes = (0..whole.len()).flat_map(move |place| {
        let whole = whole.clone();
        let others = (0..=u8::MAX).filter({
            let old = whole[place];
            move |&byte| byte != old
        });
        others.map(move |byte| {
            let mut data = whole.clone();
            data[place] = byte;
            data
        })
    });
    let (channel, resource) = (random.below(2) as u64, random.below(2) as u64);
    cuts.chain(changes).map(move |data| {
        let node = Node::new(Contents::Inline(b"tu".to_vec()));
        let item = Item::standard(CONTENT_DESCRIPTION, 6, &data);
        let file = File::new(Version::V100, node.with_items(vec![item]));
        Described {
            file: encode(&file).bytes,
            lent: Lent::full(),
            row: 0,
            channel,
            resource,
            answer: None,
        }
    })
}
