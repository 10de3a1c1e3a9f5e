//! Moving a sheet to the other edition.

use crate::sheet::{is_plain, Edition};
use crate::Refusal;

/// The largest number that stands on a sheet.
const LARGEST: u64 = 268_435_455;

/// A line after the first.
enum Line {
    /// Of a node, with its row.
    Node(u64),
    /// Of an item, with its node's row.
    Item(u64),
}

/// What the first line says.
struct First {
    edition: Edition,
    nodes: u64,
    items: u64,
}

/// A node's line, and the lines of its items.
struct Group<'a> {
    node: &'a [u8],
    items: Vec<&'a [u8]>,
}

/// Writes the other edition of a sheet into lent room. The answer is the number of bytes written;
/// bytes past them are left as they were. Refused with 31 at the first line that cannot stand, or at
/// line 1 where the counts disagree; then with 22.
pub fn move_sheet(sheet: &[u8], room: &mut [u8]) -> Result<usize, Refusal> {
    let refused = |number| Refusal::at(31, number);
    let mut lines = sheet.split_inclusive(|&byte| byte == b'\n').zip(1..);
    let (line, _) = lines.next().ok_or(refused(1))?;
    let first = first_line(line).ok_or(refused(1))?;
    let mut groups: Vec<Group> = Vec::new();
    let mut items = 0;
    let mut last = 0;
    for (text, number) in lines {
        let rows = groups.len() as u64;
        match line_of(text) {
            Some(Line::Node(row))
                if row == rows && (items == 0 || first.edition == Edition::Second) =>
            {
                groups.push(Group {
                    node: text,
                    items: Vec::new(),
                });
            }
            Some(Line::Item(row))
                if last <= row
                    && row < rows
                    && (row + 1 == rows || first.edition == Edition::First) =>
            {
                groups[row as usize].items.push(text);
                items += 1;
                last = row;
            }
            _ => return Err(refused(number)),
        }
    }
    if groups.len() as u64 != first.nodes || items > first.items {
        return Err(refused(1));
    }

    let mut parts = vec![
        first.edition.other().word(),
        &line[first.edition.word().len()..],
    ];
    match first.edition {
        Edition::First => {
            for group in &groups {
                parts.push(group.node);
                parts.extend(&group.items);
            }
        }
        Edition::Second => {
            parts.extend(groups.iter().map(|group| group.node));
            parts.extend(groups.iter().flat_map(|group| &group.items));
        }
    }
    let moved = parts.concat();
    let place = room.get_mut(..moved.len()).ok_or(Refusal::at(22, 0))?;
    place.copy_from_slice(&moved);
    Ok(moved.len())
}

/// The fields of a line that ends as it should.
fn fields(line: &[u8]) -> Option<Vec<&[u8]>> {
    let line = line.strip_suffix(b"\n")?;
    Some(line.split(|&byte| byte == b'\t').collect())
}

/// The first line, if it is one.
fn first_line(line: &[u8]) -> Option<First> {
    let fields = fields(line)?;
    let &[word, b"1.00" | b"1.01" | b"2.00", length, nodes, items] = &fields[..] else {
        return None;
    };
    number(length)?;
    Some(First {
        edition: match word {
            b"XMF" => Edition::First,
            b"XMF2" => Edition::Second,
            _ => return None,
        },
        nodes: number(nodes)?,
        items: number(items)?,
    })
}

/// A line after the first, if it is one.
fn line_of(line: &[u8]) -> Option<Line> {
    match fields(line)?[..] {
        [b"N", row, parent, depth, reference, target, extent] => {
            for field in [parent, depth, reference, target, extent] {
                number(field)?;
            }
            Some(Line::Node(number(row)?))
        }
        [b"M", node, kind, field, version, format, text] => {
            let is_field = match kind {
                b"S" => number(field).is_some(),
                b"C" => !field.is_empty() && is_text(field, false),
                _ => false,
            };
            number(version)?;
            let format = number(format)?;
            let is_right = is_field && format % 2 == 0 && is_text(text, format == 2);
            is_right.then_some(Line::Item(number(node)?))
        }
        _ => None,
    }
}

/// A number in its shortest decimal form.
fn number(field: &[u8]) -> Option<u64> {
    if field.is_empty() || field.len() > 9 || (field[0] == b'0' && field.len() > 1) {
        return None;
    }
    let mut value = 0;
    for byte in field {
        if !byte.is_ascii_digit() {
            return None;
        }
        value = value * 10 + u64::from(byte - b'0');
    }
    (value <= LARGEST).then_some(value)
}

/// Whether a name or a text is spelled as a sheet spells it. In a converted text any byte from 80h up
/// stands for itself.
fn is_text(text: &[u8], is_converted: bool) -> bool {
    let mut rest = text;
    while let [byte, others @ ..] = rest {
        if is_plain(*byte) || (is_converted && *byte >= 0x80) {
            rest = others;
            continue;
        }
        let [b'\\', high, low, others @ ..] = rest else {
            return false;
        };
        let (Some(high), Some(low)) = (hex_digit(*high), hex_digit(*low)) else {
            return false;
        };
        if is_plain(high * 16 + low) {
            return false;
        }
        rest = others;
    }
    true
}

/// What a lower-case hexadecimal digit stands for.
fn hex_digit(byte: u8) -> Option<u8> {
    match byte {
        b'0'..=b'9' => Some(byte - b'0'),
        b'a'..=b'f' => Some(byte - b'a' + 10),
        _ => None,
    }
}
