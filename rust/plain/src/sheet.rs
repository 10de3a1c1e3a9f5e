//! The support sheet, in two editions.

use crate::questions::{data, name};
use crate::{item, node, unicode, ItemRow, Refusal, Rows};

/// The string format of visible UTF-16.
const UTF16: u64 = 2;

/// The columns of a node row that its line shows, in order.
const NODE_COLUMNS: [usize; 5] = [
    node::PARENT,
    node::DEPTH,
    node::REFERENCE,
    node::TARGET,
    node::EXTENT,
];

/// The editions of the sheet.
#[derive(Clone, Copy, Debug, PartialEq, Eq)]
pub enum Edition {
    /// All node lines, then all item lines.
    First,
    /// Each node line, and after it the item lines of its row.
    Second,
}

impl Edition {
    /// The first word of a sheet of this edition.
    pub fn word(self) -> &'static [u8] {
        match self {
            Edition::First => b"XMF",
            Edition::Second => b"XMF2",
        }
    }

    /// The other edition.
    pub fn other(self) -> Self {
        match self {
            Edition::First => Edition::Second,
            Edition::Second => Edition::First,
        }
    }
}

/// Writes the sheet into lent room. The answer is the number of bytes written; bytes past them are
/// left as they were.
pub fn write(
    rows: &Rows,
    version: u64,
    edition: Edition,
    room: &mut [u8],
) -> Result<usize, Refusal> {
    let mut sheet = Sheet { room, used: 0 };
    sheet.bytes(edition.word())?;
    sheet.bytes(match version {
        100 => b"\t1.00",
        101 => b"\t1.01",
        _ => b"\t2.00",
    })?;
    sheet.column(rows.file.len() as u64)?;
    sheet.column(rows.nodes.len() as u64)?;
    sheet.column(rows.items.len() as u64)?;
    sheet.bytes(b"\n")?;

    let mut items = rows.items.iter().peekable();
    for (row, words) in (0..).zip(rows.nodes) {
        sheet.bytes(b"N")?;
        sheet.column(row)?;
        for column in NODE_COLUMNS {
            sheet.column(words[column])?;
        }
        sheet.bytes(b"\n")?;
        if edition == Edition::Second {
            while let Some(words) = items.next_if(|words| words[item::NODE] == row) {
                sheet.item(rows.file, words)?;
            }
        }
    }
    for words in items {
        sheet.item(rows.file, words)?;
    }
    Ok(sheet.used)
}

/// The room of a sheet and how much of it is written.
struct Sheet<'a> {
    room: &'a mut [u8],
    used: usize,
}

impl Sheet<'_> {
    /// Adds bytes as they are: refusal 22 when there is no room for them.
    #[inline]
    fn bytes(&mut self, bytes: &[u8]) -> Result<(), Refusal> {
        let end = self.used + bytes.len();
        let Some(room) = self.room.get_mut(self.used..end) else {
            return Err(Refusal::at(22, 0));
        };
        room.copy_from_slice(bytes);
        self.used = end;
        Ok(())
    }

    /// Adds the line of an item row, if the row is visible.
    fn item(&mut self, file: &[u8], words: &ItemRow) -> Result<(), Refusal> {
        if words[item::FORMAT] % 2 == 1 {
            return Ok(());
        }
        self.bytes(b"M")?;
        self.column(words[item::NODE])?;
        if words[item::KIND] == item::STANDARD {
            self.bytes(b"\tS")?;
            self.column(words[item::FIELD])?;
        } else {
            self.bytes(b"\tC\t")?;
            self.text(name(file, words))?;
        }
        self.column(words[item::VERSION])?;
        self.column(words[item::FORMAT])?;
        self.bytes(b"\t")?;
        let text = data(file, words);
        let is_utf16 = words[item::FORMAT] == UTF16;
        match is_utf16.then(|| unicode::text(text)) {
            Some(Ok(converted)) => self.converted(&converted)?,
            _ => self.text(text)?,
        }
        self.bytes(b"\n")
    }

    /// Adds a tab and a decimal number.
    fn column(&mut self, mut value: u64) -> Result<(), Refusal> {
        if value < 10 {
            return self.bytes(&[b'\t', b'0' + value as u8]);
        }
        let mut digits = [0; 21];
        let mut first = digits.len();
        loop {
            first -= 1;
            digits[first] = b'0' + (value % 10) as u8;
            value /= 10;
            if value == 0 {
                break;
            }
        }
        first -= 1;
        digits[first] = b'\t';
        self.bytes(&digits[first..])
    }

    /// Adds a name or a text: bytes 20h to 7Eh but the backslash as themselves, others as a
    /// backslash and two digits.
    fn text(&mut self, text: &[u8]) -> Result<(), Refusal> {
        const HEX: &[u8; 16] = b"0123456789abcdef";
        let mut rest = text;
        while !rest.is_empty() {
            let run = rest.iter().position(|&byte| !is_plain(byte));
            let (plain, other) = rest.split_at(run.unwrap_or(rest.len()));
            self.bytes(plain)?;
            let Some((&byte, following)) = other.split_first() else {
                break;
            };
            let high = HEX[usize::from(byte >> 4)];
            let low = HEX[usize::from(byte & 15)];
            self.bytes(&[b'\\', high, low])?;
            rest = following;
        }
        Ok(())
    }

    /// Adds a converted text: UTF-8 as itself, but what is below 80h as in any text.
    fn converted(&mut self, text: &str) -> Result<(), Refusal> {
        for character in text.chars() {
            let bytes = &mut [0; 4];
            let bytes = character.encode_utf8(bytes).as_bytes();
            if character.is_ascii() {
                self.text(bytes)?;
            } else {
                self.bytes(bytes)?;
            }
        }
        Ok(())
    }
}

/// Whether a byte stands for itself in a name or a text that isn't converted.
pub fn is_plain(byte: u8) -> bool {
    (0x20..=0x7E).contains(&byte) && byte != b'\\'
}
