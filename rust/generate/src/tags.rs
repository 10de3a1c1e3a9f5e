//! ID3v2.4 tags, good ones and ones with a fault.

use crate::random::Random;

/// A tag, and the number of a frame to ask for.
#[derive(Clone, Debug)]
pub struct Tag {
    /// The bytes of the tag, and perhaps some behind it.
    pub bytes: Vec<u8>,
    /// The number of the frame.
    pub frame: u64,
}

/// Makes a tag. One in three is good; the others have bytes changed, or are cut.
pub fn tag(seed: u64, number: u64) -> Tag {
    let random = &mut Random::for_case(seed, number);
    let frames = random.below(6);
    let mut bytes = good(random, frames);
    match number % 3 {
        0 => {}
        1 => {
            let length = random.below(bytes.len() + 1);
            bytes.truncate(length);
        }
        _ => {
            for _ in 0..random.between(1, 3) {
                let place = match random.below(3) {
                    0 => random.below(10),
                    1 => random.below(24.min(bytes.len())),
                    _ => random.below(bytes.len()),
                };
                bytes[place] = match random.below(5) {
                    0 => random.byte(),
                    1 => bytes[place] ^ 1 << random.below(8),
                    2 => bytes[place].wrapping_add(1),
                    3 => bytes[place].wrapping_sub(1),
                    _ => random.pick(&[0x00, 0x02, 0x05, 0x06, 0x40, 0x7F, 0x80, 0xC0, 0xFF]),
                };
            }
        }
    }
    let frame = match random.below(4) {
        0 => frames as u64,
        1 => random.pick(&[u64::MAX, 1 << 32, 1 << 63]),
        _ => random.below(frames + 1) as u64,
    };
    Tag { bytes, frame }
}

/// A tag of these bytes behind its header, without flags.
pub fn with_body(body: &[u8]) -> Vec<u8> {
    let mut tag = b"ID3\x04\0\0".to_vec();
    tag.extend(size(body.len()));
    tag.extend(body);
    tag
}

/// A frame without flags.
pub fn frame(name: &[u8; 4], contents: &[u8]) -> Vec<u8> {
    let mut frame = name.to_vec();
    frame.extend(size(contents.len()));
    frame.extend([0, 0]);
    frame.extend(contents);
    frame
}

/// A good tag of some frames, perhaps with an extended header, padding, and bytes behind it.
fn good(random: &mut Random, frames: usize) -> Vec<u8> {
    let mut body = Vec::new();
    let mut flags = random.pick(&[0x00, 0x10, 0x20, 0x3F]);
    if random.once_in(3) {
        flags |= 0x40;
        let length = random.between(6, 14);
        body.extend(size(length));
        body.extend(random.bytes(length - 4));
    }
    for _ in 0..frames {
        let length = match random.below(4) {
            0 => 0,
            1 => random.between(120, 140),
            _ => random.below(12),
        };
        let first = random.between(1, 0xFF) as u8;
        let name = random.pick(&[*b"TIT2", *b"APIC", *b"PRIV", [first, 0x00, 0xFF, 0x20]]);
        body.extend(name);
        body.extend(size(length));
        body.extend([random.byte(), random.byte() & !0x02]);
        body.extend(random.bytes(length));
    }
    if random.once_in(3) {
        body.push(0);
        let padding = random.below(14);
        body.extend(random.bytes(padding));
    }
    let mut tag = b"ID3\x04".to_vec();
    tag.extend([random.byte(), flags]);
    tag.extend(size(body.len()));
    tag.extend(body);
    if random.once_in(3) {
        let behind = random.below(14);
        tag.extend(random.bytes(behind));
    }
    tag
}

/// A size: four bytes of seven bits.
fn size(length: usize) -> [u8; 4] {
    [21, 14, 7, 0].map(|shift| (length >> shift) as u8 & 0x7F)
}
