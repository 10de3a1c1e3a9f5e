//! UTF-16 with the high byte first, and UTF-8, by the standard library.

use crate::Refusal;

/// The mark that may stand in front of UTF-16.
const MARK: [u8; 2] = [0xFE, 0xFF];

/// Converts UTF-16 into UTF-8, without a mark in front. Bytes of the room past those written are left
/// as they were.
pub fn from_utf16(data: &[u8], room: &mut [u8]) -> Result<usize, Refusal> {
    let text = text(data).map_err(|place| Refusal::at(26, place))?;
    written(text.as_bytes(), room)
}

/// Converts UTF-8 into UTF-16. Bytes of the room past those written are left as they were.
pub fn from_utf8(text: &[u8], room: &mut [u8]) -> Result<usize, Refusal> {
    let text = std::str::from_utf8(text);
    let text = text.map_err(|error| Refusal::at(26, error.valid_up_to()))?;
    let data: Vec<u8> = text.encode_utf16().flat_map(u16::to_be_bytes).collect();
    written(&data, room)
}

/// The text that UTF-16 is, without a mark in front; or the place in the data where the first bad
/// character begins.
pub fn text(data: &[u8]) -> Result<String, usize> {
    let start = if data.starts_with(&MARK) { 2 } else { 0 };
    let units = data[start..].chunks_exact(2);
    let last_byte = units.remainder();
    let units = units.map(|unit| u16::from_be_bytes([unit[0], unit[1]]));
    let mut place = start;
    let mut text = String::new();
    for character in char::decode_utf16(units) {
        let character = character.map_err(|_| place)?;
        place += 2 * character.len_utf16();
        text.push(character);
    }
    match last_byte {
        [] => Ok(text),
        _ => Err(place),
    }
}

/// Puts bytes into room: refusal 22 when it is too short.
fn written(bytes: &[u8], room: &mut [u8]) -> Result<usize, Refusal> {
    let place = room.get_mut(..bytes.len()).ok_or(Refusal::at(22, 0))?;
    place.copy_from_slice(bytes);
    Ok(bytes.len())
}
