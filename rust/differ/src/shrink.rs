//! Makes bytes on which two readers differ shorter and simpler, as long as the readers differ.
//!
//! A file that the plain reader reads is shortened with its lengths set right: otherwise nearly every cut
//! would be refused by both readers in the same way. Whether the readers still differ on the same question
//! decides alone, so it does no harm when a length is set wrongly.

use crate::compare::{Comparer, Difference};
use generate::cases::{ALL_ITEM_WORDS, ALL_NODE_WORDS};
use generate::descriptions::Described;
use generate::sheets::Sheet;
use generate::tags::Tag;
use generate::texts::Text;
use generate::titles::Title;
use generate::{Case, Pair};
use plain::{item, node};
use std::ops::Range;
use std::time::{Duration, Instant};

/// The longest time that shrinking takes.
const MOST_TIME: Duration = Duration::from_secs(20);
/// Longer bytes are not shrunk: each try would take too long.
const MOST_BYTES: usize = 1 << 20;

/// Shrinks the file of a case.
pub fn case(seed: u64, number: u64, case: &Case, difference: Difference) -> (Case, Difference) {
    let mut comparer = Comparer::new(seed);
    let compare = |case: &Case| {
        let compared = comparer.case(case, number);
        let compared = compared.and_then(|()| comparer.account(case, number));
        compared.and_then(|()| comparer.editions(case))
    };
    shrink(case, difference, |case| &mut case.file, files, compare)
}

/// Shrinks the file of a content description. What its answer must be is forgotten.
pub fn description(
    seed: u64,
    number: u64,
    described: &Described,
    difference: Difference,
) -> (Described, Difference) {
    let mut comparer = Comparer::new(seed);
    let compare = |described: &Described| {
        let answer = None;
        let described = described.clone();
        comparer.description(
            &Described {
                answer,
                ..described
            },
            number,
        )
    };
    shrink(described, difference, |case| &mut case.file, files, compare)
}

/// Shrinks the file of a title, and then the title. What the answer must be is forgotten.
pub fn title(seed: u64, number: u64, title: &Title, difference: Difference) -> (Title, Difference) {
    let mut comparer = Comparer::new(seed);
    let mut compare = |title: &Title| {
        let answer = None;
        let title = title.clone();
        comparer.title(&Title { answer, ..title }, number)
    };
    let (title, difference) = shrink(
        title,
        difference,
        |title| &mut title.file,
        files,
        &mut compare,
    );
    shrink(&title, difference, |title| &mut title.data, cut, compare)
}

/// Shrinks a text.
pub fn text(seed: u64, number: u64, text: &Text, difference: Difference) -> (Text, Difference) {
    let mut comparer = Comparer::new(seed);
    let compare = |text: &Text| comparer.text(text, number);
    shrink(text, difference, |text| &mut text.given, cut, compare)
}

/// Shrinks a sheet. What it must move to is forgotten.
pub fn sheet(seed: u64, number: u64, sheet: &Sheet, difference: Difference) -> (Sheet, Difference) {
    let mut comparer = Comparer::new(seed);
    let compare = |sheet: &Sheet| {
        let other = None;
        let sheet = sheet.clone();
        comparer.sheet(&Sheet { other, ..sheet }, number)
    };
    shrink(sheet, difference, |sheet| &mut sheet.given, cut, compare)
}

/// Shrinks a tag.
pub fn tag(seed: u64, number: u64, tag: &Tag, difference: Difference) -> (Tag, Difference) {
    let mut comparer = Comparer::new(seed);
    let compare = |tag: &Tag| comparer.tag(tag, number);
    shrink(tag, difference, |tag| &mut tag.bytes, cut, compare)
}

/// Makes the files of a pair differ in fewer bytes.
pub fn pair(seed: u64, number: u64, pair: &Pair, difference: Difference) -> (Pair, Difference) {
    let mut comparer = Comparer::new(seed);
    let mut compare = |pair: &Pair| {
        let compared = comparer.pair(pair, number);
        let compared = compared.and_then(|()| comparer.title_pair(pair, number));
        compared.and_then(|()| comparer.account_pair(pair, number))
    };
    let mut best = (pair.clone(), difference);
    let end = Instant::now() + MOST_TIME;
    for size in sizes(pair.first.len()) {
        for start in (0..pair.first.len()).step_by(size) {
            let part = start..(start + size).min(pair.first.len());
            let is_equal = best.0.first[part.clone()] == best.0.second[part.clone()];
            if is_equal || Instant::now() > end {
                continue;
            }
            let mut nearer = best.0.clone();
            nearer.second[part.clone()].copy_from_slice(&pair.first[part]);
            if let Some(difference) = same(&best.1, compare(&nearer)) {
                best = (nearer, difference);
            }
        }
    }
    best
}

/// Gives what is left of bytes without a part, in one way or several.
type Cut = fn(&[u8], Range<usize>) -> Vec<Vec<u8>>;

/// Shrinks what has bytes: takes parts out of them, the large ones first, and then sets single bytes to 0,
/// until nothing more can go or the time is over.
fn shrink<T: Clone>(
    given: &T,
    difference: Difference,
    bytes: fn(&mut T) -> &mut Vec<u8>,
    cut: Cut,
    mut compare: impl FnMut(&T) -> Result<(), Difference>,
) -> (T, Difference) {
    let mut best = (given.clone(), difference);
    let end = Instant::now() + MOST_TIME;
    if bytes(&mut best.0).len() > MOST_BYTES || same(&best.1, compare(given)).is_none() {
        return best;
    }
    // Takes the shorter or simpler bytes, if the readers still differ.
    let mut is_taken = |best: &mut (T, Difference), fewer: Vec<u8>| {
        let mut other = best.0.clone();
        *bytes(&mut other) = fewer;
        match same(&best.1, compare(&other)) {
            Some(difference) => {
                *best = (other, difference);
                true
            }
            None => false,
        }
    };
    loop {
        let length = bytes(&mut best.0).len();
        for size in sizes(length) {
            let mut start = 0;
            while start < bytes(&mut best.0).len() && Instant::now() < end {
                let now = bytes(&mut best.0).clone();
                let part = start..(start + size).min(now.len());
                let mut ways = cut(&now, part).into_iter();
                if !ways.any(|fewer| is_taken(&mut best, fewer)) {
                    start += size.div_ceil(4);
                }
            }
        }
        if bytes(&mut best.0).len() == length || Instant::now() > end {
            break;
        }
    }
    for place in 0..bytes(&mut best.0).len() {
        let mut simpler = bytes(&mut best.0).clone();
        if simpler[place] != 0 && Instant::now() < end {
            simpler[place] = 0;
            is_taken(&mut best, simpler);
        }
    }
    best
}

/// The difference, if there is one and it is on the same question.
fn same(difference: &Difference, compared: Result<(), Difference>) -> Option<Difference> {
    let other = compared.err()?;
    (other.asked == difference.asked).then_some(other)
}

/// Sizes of parts, from half of a length down to 1.
fn sizes(length: usize) -> impl Iterator<Item = usize> {
    std::iter::successors(Some(length.div_ceil(2)), |size| Some(size / 2))
        .take_while(|size| *size > 0)
}

/// Bytes without a part.
fn cut(bytes: &[u8], part: Range<usize>) -> Vec<Vec<u8>> {
    vec![[&bytes[..part.start], &bytes[part.end..]].concat()]
}

/// A file without the node or the data that begins at a part's first byte or without the part, lengths set
/// right, and without the part as it is.
fn files(file: &[u8], part: Range<usize>) -> Vec<Vec<u8>> {
    let mut ways = Vec::new();
    if let Some(rows) = Rows::of(file) {
        let node = rows.nodes().map(whole);
        let node = node.filter(|node| node.start == part.start);
        ways.extend(node.filter_map(|node| rows.without(file, node)));
        ways.extend(rows.without(file, part.clone()));
    }
    ways.extend(cut(file, part));
    ways
}

/// The place of a node.
fn whole(row: &[u64]) -> Range<usize> {
    let start = row[node::START] as usize;
    start..start + row[node::LENGTH] as usize
}

/// The rows of a file that the plain reader reads.
struct Rows {
    version: u64,
    nodes: Vec<u64>,
    items: Vec<u64>,
}

impl Rows {
    fn of(file: &[u8]) -> Option<Self> {
        let mut nodes = vec![0; ALL_NODE_WORDS];
        let mut items = vec![0; ALL_ITEM_WORDS];
        let tree = plain::read_tree(file, &mut nodes, &mut items).ok()?;
        nodes.truncate(tree.nodes as usize * node::WORDS);
        items.truncate(tree.items as usize * item::WORDS);
        let version = tree.version;
        Some(Rows {
            version,
            nodes,
            items,
        })
    }

    fn nodes(&self) -> impl Iterator<Item = &[u64]> {
        self.nodes.chunks(node::WORDS)
    }

    /// The file without a part, with every length that covers the part less by its size, and every place
    /// behind it too. Nothing where a number would be less than 0.
    fn without(&self, file: &[u8], part: Range<usize>) -> Option<Vec<u8>> {
        let mut new = file.to_vec();
        let size = part.len();
        let covers = |whole: &Range<usize>| whole.start <= part.start && part.end <= whole.end;
        // Makes the number at a place less, unless it goes itself.
        let mut less = |at: usize, by: usize| {
            let (value, end) = number(file, at)?;
            if !part.contains(&at) {
                let mut value = value.checked_sub(by)?;
                for place in (at..end).rev() {
                    new[place] = (value % 128) as u8 | if place + 1 < end { 128 } else { 0 };
                    value /= 128;
                }
            }
            Some(())
        };

        // The header: length, types, start and end of the tree.
        let length = if self.version == 200 { 16 } else { 8 };
        less(length, size)?;
        let (_, types) = number(file, length)?;
        let (types_length, entries) = number(file, types)?;
        if covers(&(entries..entries + types_length)) {
            less(types, size)?;
        }
        // The tree's end is the place of its last byte.
        let tree_start = entries + types_length;
        let (start, tree_end) = number(file, tree_start)?;
        let (last, _) = number(file, tree_end)?;
        if start >= part.end {
            less(tree_start, size)?;
        }
        if last + 1 >= part.end {
            less(tree_end, size)?;
        }

        for row in self.nodes() {
            let node = whole(row);
            let header_end = node.start + row[node::HEADER_LENGTH] as usize;
            let (_, contained) = number(file, node.start)?;
            let (_, header_length) = number(file, contained)?;
            let (_, metadata) = number(file, header_length)?;
            let (metadata_length, metadata_start) = number(file, metadata)?;
            let unpackers = metadata_start + metadata_length;
            let (_, unpackers_start) = number(file, unpackers)?;
            if covers(&node) && node != part {
                less(node.start, size)?;
                if part.end <= header_end {
                    less(header_length, size)?;
                }
                if covers(&(metadata_start..unpackers)) {
                    less(metadata, size)?;
                }
                if covers(&(unpackers_start..header_end)) {
                    less(unpackers, size)?;
                }
                // Nodes that it holds and that are all in the part.
                let gone = self.nodes().filter(|inner| {
                    let inner = (whole(inner), inner[node::PARENT] as usize);
                    let is_within = part.start <= inner.0.start && inner.0.end <= part.end;
                    is_within && whole(&self.nodes[inner.1 * node::WORDS..]) == node
                });
                less(contained, gone.count())?;
            }
            // A place that it refers to.
            if matches!(row[node::REFERENCE], 2 | 3) && row[node::TARGET] as usize >= part.end {
                less(number(file, header_end)?.1, size)?;
            }
        }

        for row in self.items.chunks(item::WORDS) {
            let start = row[item::DATA] as usize;
            let data = start..start + row[item::DATA_LENGTH] as usize;
            if covers(&data) {
                // Its length stands before the data, or before a format of one byte and covers it.
                let more = usize::from(row[item::VERSION] == 0);
                let length = (1..=4).filter_map(|width| (start - more).checked_sub(width));
                let mut length = length
                    .filter(|&at| number(file, at) == Some((data.len() + more, start - more)));
                if let Some(at) = length.next() {
                    less(at, size)?;
                }
            }
        }
        new.drain(part);
        Some(new)
    }
}

/// The number at a place, and the place after it.
fn number(file: &[u8], at: usize) -> Option<(usize, usize)> {
    let rest = file.get(at..)?;
    let size = 1 + rest.iter().take(4).position(|byte| *byte < 128)?;
    let digits = rest[..size].iter().map(|byte| usize::from(byte % 128));
    Some((
        digits.fold(0, |value, digit| value * 128 + digit),
        at + size,
    ))
}

#[cfg(test)]
mod tests {
    use super::*;
    use generate::samples;

    /// Shrinks bytes as long as they are wanted.
    fn shrunk(given: &[u8], cut: Cut, is_wanted: impl Fn(&[u8]) -> bool) -> Vec<u8> {
        let difference = Difference {
            asked: "it".to_string(),
            what: String::new(),
        };
        let compare = |bytes: &Vec<u8>| match is_wanted(bytes) {
            true => Err(difference.clone()),
            false => Ok(()),
        };
        shrink(&given.to_vec(), difference.clone(), |it| it, cut, compare).0
    }

    #[test]
    fn bytes_get_fewer_and_simpler() {
        let given: Vec<u8> = (0..=255).collect();
        let is_wanted = |bytes: &[u8]| bytes.contains(&17) && bytes.contains(&200);
        assert_eq!(shrunk(&given, cut, is_wanted), [17, 200]);
        let is_wanted = |bytes: &[u8]| bytes.len() >= 3;
        assert_eq!(shrunk(&given, cut, is_wanted), [0; 3]);
        // What does not differ stays as it is.
        assert_eq!(shrunk(&given, cut, |_| false), given);
    }

    #[test]
    fn files_stay_readable() {
        let mut tried = 0;
        for (_, sample) in samples::all() {
            let Some(rows) = Rows::of(&sample) else {
                continue;
            };
            tried += 1;
            // The last node that can go.
            let reads = |file: &[u8]| Rows::of(file).is_some();
            let fewest = shrunk(&sample, files, reads);
            assert!(fewest.len() < sample.len());
            assert_eq!(Rows::of(&fewest).unwrap().nodes().count(), 1);
            if !rows.items.is_empty() {
                let has_item = |file: &[u8]| Rows::of(file).is_some_and(|r| !r.items.is_empty());
                let one = Rows::of(&shrunk(&sample, files, has_item)).unwrap();
                assert!(one.items.len() <= rows.items.len());
                for row in one.items.chunks(item::WORDS) {
                    // One item; its data gets short, unless it has versions, whose list has a length too.
                    assert_eq!(row[item::NUMBER], 0);
                    assert!(row[item::DATA_LENGTH] <= 1 || row[item::VERSION] > 0);
                }
            }
        }
        assert!(tried >= 4);
    }
}
