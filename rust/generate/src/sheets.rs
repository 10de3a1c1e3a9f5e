//! Sheets of both editions, well formed and with a fault, and room for the other edition.

use crate::random::Random;

/// The largest number that stands on a sheet.
const LARGEST: usize = 268_435_455;
/// The kinds of sheets that [`sheet`] makes: well formed, then one for each kind of fault.
const KINDS: u64 = 13;

/// A sheet to be moved, and what is lent for it.
#[derive(Clone, Debug)]
pub struct Sheet {
    /// The bytes of the sheet.
    pub given: Vec<u8>,
    /// The number of bytes lent.
    pub room: usize,
    /// The other edition, where the sheet is well formed; nothing where it has got a fault, which it
    /// may stand all the same.
    pub other: Option<Vec<u8>>,
}

/// Makes a sheet to be moved. Both editions take turns, and so do all kinds.
pub fn sheet(seed: u64, number: u64) -> Sheet {
    let random = &mut Random::for_case(seed, number);
    let is_second = number % 2 == 1;
    let [mut lines, other] = editions(random, is_second);
    let other = written(&other);
    let kind = match number / 2 % 3 {
        0 => 0,
        _ => number / 6 % KINDS,
    };
    let given = match kind {
        0 => written(&lines),
        fault => {
            damage_lines(random, &mut lines, fault);
            damage_bytes(random, written(&lines), fault)
        }
    };
    let needed = other.len();
    let room = match random.below(8) {
        0 => 0,
        1 => needed.saturating_sub(1),
        2 => random.below(needed + 1),
        3 => needed + 1,
        4 => needed + random.below(40),
        _ => needed,
    };
    Sheet {
        given,
        room,
        other: (kind == 0).then_some(other),
    }
}

/// Both editions of a sheet with `nodes` nodes, and four items on each.
pub fn growing(seed: u64, nodes: usize) -> [Vec<u8>; 2] {
    let random = &mut Random::for_case(seed, nodes as u64);
    let items = (0..nodes).map(|row| (0..4).map(|_| item(random, row)).collect());
    let items = items.collect();
    both(random, nodes, items, 0).map(|lines| written(&lines))
}

/// The lines of a sheet, and those of its other edition.
fn editions(random: &mut Random, is_second: bool) -> [Vec<Vec<u8>>; 2] {
    let most = random.pick(&[1, 3, 6, 14]);
    let nodes = random.below(most);
    let items = (0..nodes).map(|row| {
        let count = random.pick(&[0, 0, 1, 2, 5]);
        (0..count).map(|_| item(random, row)).collect()
    });
    let items = items.collect();
    let hidden = random.pick(&[0, 0, 1, 7]);
    let mut both = both(random, nodes, items, hidden);
    both.rotate_left(usize::from(is_second));
    both
}

/// The lines of both editions, with the item lines of each node and a number of hidden rows.
fn both(
    random: &mut Random,
    nodes: usize,
    items: Vec<Vec<Vec<u8>>>,
    hidden: usize,
) -> [Vec<Vec<u8>>; 2] {
    let shown: usize = items.iter().map(Vec::len).sum();
    let version = random.pick(&["1.00", "1.01", "2.00"]);
    let length = number(random);
    let rest = format!("\t{version}\t{length}\t{nodes}\t{}", shown + hidden);
    let nodes: Vec<Vec<u8>> = (0..nodes)
        .map(|row| {
            let mut line = format!("N\t{row}").into_bytes();
            for _ in 0..5 {
                field(&mut line, number(random).to_string().as_bytes());
            }
            line
        })
        .collect();
    let mut first = vec![[b"XMF", rest.as_bytes()].concat()];
    first.extend(nodes.iter().cloned());
    first.extend(items.iter().flatten().cloned());
    let mut second = vec![[b"XMF2", rest.as_bytes()].concat()];
    for (node, items) in nodes.into_iter().zip(items) {
        second.push(node);
        second.extend(items);
    }
    [first, second]
}

/// The line of an item of a row.
fn item(random: &mut Random, row: usize) -> Vec<u8> {
    let mut line = format!("M\t{row}").into_bytes();
    if random.once_in(2) {
        field(&mut line, b"S");
        field(&mut line, number(random).to_string().as_bytes());
    } else {
        field(&mut line, b"C");
        let mut name = text(random, false);
        name.push(b'n');
        field(&mut line, &name);
    }
    field(&mut line, random.below(4).to_string().as_bytes());
    let format = random.pick(&[0, 2, 2, 4, 6, 10, 22, LARGEST - 1]);
    field(&mut line, format.to_string().as_bytes());
    let text = text(random, format == 2);
    field(&mut line, &text);
    line
}

/// Adds a tab and a field.
fn field(line: &mut Vec<u8>, field: &[u8]) {
    line.push(b'\t');
    line.extend(field);
}

/// A number, often one at an edge.
fn number(random: &mut Random) -> usize {
    match random.below(6) {
        0 => 0,
        1 => LARGEST,
        2 => random.pick(&[9, 10, 99, 100, 99_999_999, 100_000_000]),
        3 => random.below(LARGEST + 1),
        _ => random.below(300),
    }
}

/// A text as a sheet spells it; of format 2 also with bytes from 80h up.
fn text(random: &mut Random, is_format_2: bool) -> Vec<u8> {
    let mut text = Vec::new();
    for _ in 0..random.below(6) {
        match random.below(4) {
            0 => {
                let byte =
                    random.pick(&[0x00, 0x09, 0x0A, 0x1F, 0x5C, 0x7F, 0x80, 0xAF, 0xFA, 0xFF]);
                text.extend(format!("\\{byte:02x}").as_bytes());
            }
            1 if is_format_2 => text.push(random.pick(&[0x80, 0xC3, 0xE2, 0xFF])),
            _ => text.extend(random.pick(&[&b"a"[..], b" ", b"~", b"Waltz", b"[", b"]", b"0"])),
        }
    }
    text
}

/// Lines, each with its end.
fn written(lines: &[Vec<u8>]) -> Vec<u8> {
    let ended = lines.iter().flat_map(|line| [&line[..], b"\n"]);
    ended.collect::<Vec<_>>().concat()
}

/// Does harm to lines, of the first kinds of faults.
fn damage_lines(random: &mut Random, lines: &mut Vec<Vec<u8>>, fault: u64) {
    let place = random.below(lines.len());
    let other = random.below(lines.len());
    match fault {
        1 => {
            lines.remove(place);
        }
        2 => lines.insert(other, lines[place].clone()),
        3 => lines.swap(place, other),
        4 => lines.insert(other, Vec::new()),
        // a field spelled otherwise
        5..=7 => {
            let mut fields: Vec<Vec<u8>> = lines[place]
                .split(|&byte| byte == b'\t')
                .map(<[u8]>::to_vec)
                .collect();
            let place_in = random.below(fields.len());
            let field = &mut fields[place_in];
            match random.below(8) {
                0 => field.insert(0, b'0'),
                1 => *field = (LARGEST + 1).to_string().into_bytes(),
                2 => field.clear(),
                3 => *field = field.to_ascii_uppercase(),
                4 => field.extend(random.pick(&[&b"\\41"[..], b"\\5C", b"\\0", b"\\", b"\\5c"])),
                5 => field.push(random.pick(&[0x80, 0x1F, 0x7F, b'5', b'1'])),
                6 => *field = number(random).to_string().into_bytes(),
                _ => {
                    fields.remove(place_in);
                }
            }
            lines[place] = fields.join(&b'\t');
        }
        // another count or row
        8 => {
            let line = &mut lines[if random.once_in(2) { 0 } else { place }];
            if let Some(last) = line.last_mut() {
                *last = random.pick(b"0123456789");
            }
        }
        _ => {}
    }
}

/// Does harm to bytes, of the other kinds of faults.
fn damage_bytes(random: &mut Random, mut bytes: Vec<u8>, fault: u64) -> Vec<u8> {
    let place = random.below(bytes.len());
    match fault {
        9 => bytes[place] = random.byte(),
        10 => {
            bytes.remove(place);
        }
        11 => bytes.insert(place, random.pick(b"\t\n\\0129aAN\x80")),
        12 => bytes.truncate(random.pick(&[place, bytes.len() - 1])),
        _ => {}
    }
    bytes
}
