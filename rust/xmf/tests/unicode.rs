//! The conversions, compared with those of the standard library, and the sheet of a file with titles
//! in UTF-16.

use xmf::{utf16_to_utf8, utf8_to_utf16, Refusal, ALL_ITEM_WORDS, ALL_NODE_WORDS};

const UNICODE: &[u8] = include_bytes!("../../../samples/unicode.xmf");
const MARK: char = '\u{FEFF}';

fn refusal<T>(number: u64, place: usize) -> Result<T, Refusal> {
    let place = place as u64;
    Err(Refusal { number, place })
}

/// UTF-16, high byte first.
fn utf16(text: &str) -> Vec<u8> {
    text.encode_utf16().flat_map(u16::to_be_bytes).collect()
}

/// Converts with so much room, and checks what is left in it.
fn convert(
    conversion: fn(&[u8], &mut [u8]) -> Result<usize, Refusal>,
    given: &[u8],
    room: usize,
) -> Result<Vec<u8>, Refusal> {
    let mut lent = vec![0xEE; room];
    let converted = conversion(given, &mut lent);
    let rest = lent.split_off(converted.unwrap_or(0));
    assert!(rest.iter().all(|&byte| byte == 0));
    converted.map(|_| lent)
}

/// What the standard library makes of UTF-16: the text without one mark in front, or the place of the
/// first bad character.
fn from_utf16(data: &[u8]) -> Result<String, usize> {
    let units = data.chunks_exact(2);
    let units = units.map(|unit| u16::from_be_bytes([unit[0], unit[1]]));
    let mut text = String::new();
    let mut place = 0;
    for character in char::decode_utf16(units) {
        let character = character.map_err(|_| place)?;
        place += 2 * character.len_utf16();
        text.push(character);
    }
    if place < data.len() {
        return Err(place);
    }
    Ok(text.strip_prefix(MARK).map(str::to_owned).unwrap_or(text))
}

/// The same of UTF-8.
fn from_utf8(text: &[u8]) -> Result<Vec<u8>, usize> {
    match std::str::from_utf8(text) {
        Ok(text) => Ok(utf16(text)),
        Err(error) => Err(error.valid_up_to()),
    }
}

/// Compares a conversion with what the standard library gives, with just enough room, with a byte
/// less and with more.
fn compare(
    conversion: fn(&[u8], &mut [u8]) -> Result<usize, Refusal>,
    given: &[u8],
    expected: Result<Vec<u8>, usize>,
) {
    match expected {
        Ok(bytes) => {
            let size = bytes.len();
            if size > 0 {
                assert_eq!(convert(conversion, given, size - 1), refusal(22, 0));
            }
            assert_eq!(convert(conversion, given, size + 7).as_ref(), Ok(&bytes));
            assert_eq!(convert(conversion, given, size), Ok(bytes));
        }
        Err(place) => {
            for room in [0, given.len(), 2 * given.len() + 9] {
                assert_eq!(convert(conversion, given, room), refusal(26, place));
            }
        }
    }
}

fn compare_utf16(data: &[u8]) {
    compare(
        utf16_to_utf8,
        data,
        from_utf16(data).map(String::into_bytes),
    );
}

fn compare_utf8(text: &[u8]) {
    compare(utf8_to_utf16, text, from_utf8(text));
}

#[test]
fn every_scalar_value_goes_there_and_back() {
    let mut count = 0;
    for character in '\0'..=char::MAX {
        count += 1;
        let mut text = [0; 4];
        let text = character.encode_utf8(&mut text);
        let data = utf16(text);
        let mut there = [7; 6];
        let length = utf8_to_utf16(text.as_bytes(), &mut there).expect("good UTF-8");
        assert_eq!(there[..length], data);
        let mut back = [7; 6];
        let length = utf16_to_utf8(&data, &mut back).expect("good UTF-16");
        let expected = if character == MARK { "" } else { text };
        assert_eq!(back[..length], *expected.as_bytes());
    }
    assert_eq!(count, 1_112_064);

    let all: String = ('\0'..=char::MAX).collect();
    let data = utf16(&all);
    assert_eq!(
        convert(utf16_to_utf8, &data, all.len()),
        Ok(all.clone().into_bytes())
    );
    assert_eq!(convert(utf8_to_utf16, all.as_bytes(), data.len()), Ok(data));
}

#[test]
fn every_unit_and_every_pair_of_surrogates_is_judged() {
    for unit in 0..=u16::MAX {
        compare_utf16(&unit.to_be_bytes());
    }
    for first in (0xD7C0..=0xE03F_u16).step_by(61) {
        for second in 0xD7C0..=0xE03F_u16 {
            compare_utf16(&[first.to_be_bytes(), second.to_be_bytes()].concat());
        }
    }
}

#[test]
fn short_bytes_are_judged_as_utf8() {
    for first in 0..=u8::MAX {
        compare_utf8(&[first]);
        for second in 0..=u8::MAX {
            compare_utf8(&[first, second]);
            for third in [0x00, 0x41, 0x7F, 0x80, 0x8F, 0x9F, 0xA0, 0xBF, 0xC0, 0xFF] {
                compare_utf8(&[first, second, third]);
                for fourth in [0x41, 0x7F, 0x80, 0xBF, 0xC0] {
                    compare_utf8(&[first, second, third, fourth]);
                }
            }
        }
    }
}

/// Units and bytes at the edges of what is good.
const UNITS: [u16; 12] = [
    0x0041, 0x005C, 0x007F, 0x0080, 0x07FF, 0x0800, 0xD7FF, 0xD800, 0xDBFF, 0xDC00, 0xDFFF, 0xFEFF,
];
const BYTES: [u8; 16] = [
    0x41, 0x7F, 0x80, 0x8F, 0x90, 0x9F, 0xA0, 0xBF, 0xC1, 0xC2, 0xE0, 0xED, 0xEF, 0xF0, 0xF4, 0xF5,
];

#[test]
fn any_bytes_are_judged_alike() {
    let mut state: u64 = 1;
    let mut next = move || {
        state = state
            .wrapping_mul(6_364_136_223_846_793_005)
            .wrapping_add(1);
        (state >> 33) as usize
    };
    for _ in 0..200_000 {
        let count = next() % 6;
        let mut data: Vec<u8> = (0..count)
            .flat_map(|_| UNITS[next() % UNITS.len()].to_be_bytes())
            .collect();
        if next() % 3 == 0 {
            data.push(next() as u8);
        }
        compare_utf16(&data);
        let count = next() % 9;
        let text: Vec<u8> = (0..count).map(|_| BYTES[next() % BYTES.len()]).collect();
        compare_utf8(&text);
    }
}

#[test]
fn one_mark_is_dropped() {
    assert_eq!(
        convert(utf16_to_utf8, &utf16("\u{FEFF}A"), 9),
        Ok(b"A".to_vec())
    );
    let two = utf16("\u{FEFF}\u{FEFF}A");
    assert_eq!(
        convert(utf16_to_utf8, &two, 9),
        Ok("\u{FEFF}A".as_bytes().to_vec())
    );
    let text = "\u{FEFF}A";
    assert_eq!(convert(utf8_to_utf16, text.as_bytes(), 9), Ok(utf16(text)));
    assert_eq!(convert(utf16_to_utf8, &[], 0), Ok(Vec::new()));
    assert_eq!(convert(utf8_to_utf16, &[], 0), Ok(Vec::new()));
}

#[test]
fn the_sheet_shows_titles() {
    let mut nodes = vec![7; ALL_NODE_WORDS];
    let mut items = vec![7; ALL_ITEM_WORDS];
    let mut sheet = [7; 200];
    let length = xmf::write_sheet(UNICODE, &mut nodes, &mut items, &mut sheet).unwrap();
    assert_eq!(
        std::str::from_utf8(&sheet[..length]),
        Ok("XMF\t1.00\t87\t1\t4\n\
            N\t0\t0\t1\t1\t83\t4\n\
            M\t0\tS\t8\t1\t2\tFærge 𝄞\n\
            M\t0\tS\t8\t2\t0\tFerry\n\
            M\t0\tS\t9\t0\t2\t\\002\\d8\\00\n")
    );
}
