//! Reading of content descriptions, as document 002, section 10, lays them out.

use crate::cursor::Cursor;
use crate::{item, ItemRow, Refusal};

/// What a content description says.
struct Description<'a> {
    channels: u64,
    resources: u64,
    /// The count table: a row a channel, a count a resource.
    counts: Cursor<'a>,
}

/// The count of an item row for a channel and a resource: refusal 25 at the first fault of its data,
/// 23 when it does not describe such a channel or resource.
pub fn count(file: &[u8], words: &ItemRow, channel: u64, resource: u64) -> Result<u64, Refusal> {
    let description = read(file, words).map_err(|fault| Refusal {
        number: 25,
        ..fault
    })?;
    if channel >= description.channels || resource >= description.resources {
        return Err(Refusal::at(23, 0));
    }
    let mut counts = description.counts;
    for _ in 0..channel * description.resources + resource {
        counts.number()?;
    }
    counts.number()
}

/// Whether the data of an item row is a content description.
pub fn is_readable(file: &[u8], words: &ItemRow) -> bool {
    read(file, words).is_ok()
}

/// Reads the data of an item row to its end. A refusal names the faulty field, or the first byte left
/// over; its number says nothing.
fn read<'a>(file: &'a [u8], words: &ItemRow) -> Result<Description<'a>, Refusal> {
    let place = words[item::DATA] as usize;
    let end = place + words[item::DATA_LENGTH] as usize;
    let mut cursor = Cursor::new(&file[..end], place);
    let _message = cursor.number()?;
    let channels = cursor.number()?;
    let resources = cursor.number()?;
    for _ in 0..resources {
        resource(&mut cursor)?;
    }
    for _ in 0..resources {
        let _group = cursor.number()?;
    }
    let counts = cursor;
    // Each count has a byte, so a table that is not there ends this at once.
    for _ in 0..channels * resources {
        cursor.number()?;
    }
    cursor.finish()?;
    Ok(Description {
        channels,
        resources,
        counts,
    })
}

/// Moves past an entry of the resource list: a kind, and what names the resource.
fn resource(cursor: &mut Cursor) -> Result<(), Refusal> {
    let start = cursor.at;
    match cursor.number()? {
        0 | 2 | 4 => cursor.number().map(drop),
        1 => {
            cursor.manufacturer()?;
            cursor.number().map(drop)
        }
        3 | 5 => cursor.sixteen_bytes(),
        _ => Err(Refusal::at(25, start)),
    }
}
