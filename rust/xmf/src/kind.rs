//! What a refusal is about, by name.

use crate::Refusal;
use core::fmt;

// tables.py: begin (made of share/version, share/refusals.tsv and share/checks.tsv)
/// What a refusal is about, by its name in the refusal list.
#[derive(Clone, Copy, Debug, PartialEq, Eq, Hash, PartialOrd, Ord)]
#[non_exhaustive]
pub enum RefusalKind {
    /// 1: fewer than 8 bytes, or not an XMF file.
    NotXmf,
    /// 2: the version is not 1.00, 1.01 or 2.00.
    BadVersion,
    /// 3: a field runs past the part that holds it.
    CutShort,
    /// 4: a number has more than four bytes, or a GUID more than nineteen.
    BadNumber,
    /// 5: the length in the header is not the number of bytes received.
    WrongLength,
    /// 6: the types table has a type twice, or more than 32 entries.
    BadType,
    /// 7: the tree begins inside the header, or ends before it begins or past the file.
    BadTree,
    /// 8: a node does not fit its holder (the root: does not fill the tree), its header does not
    /// fit the node, or metadata or unpackers run past the header.
    BadNode,
    /// 9: a node at depth 17.
    TooDeep,
    /// 10: no row left: more than 256 nodes or 1,024 item rows, or the lent tables are smaller.
    NoRowLeft,
    /// 11: a universal content of length 0, or a type that the file does not declare.
    BadContents,
    /// 12: an unpacker of an unknown kind.
    BadUnpacker,
    /// 13: reference 0, or above 4.
    BadReference,
    /// 14: a folder that is packed, or whose contents do not follow in it.
    BadFolder,
    /// 15: bytes left between a part's last field and its end.
    BytesLeft,
    /// 16: a reference leads into the header, past the file's end, or into the tree where no node
    /// starts.
    BadTarget,
    /// 17: more than 268,435,455 bytes.
    TooLarge,
    /// 18: the row asked for is not there.
    NoSuchRow,
    /// 19: resolving ends at a folder.
    EndsAtFolder,
    /// 20: resolving ends at a URI.
    EndsAtUri,
    /// 21: a fifth reference would be followed.
    TooManyHops,
    /// 22: the sheet, a resource, a converted text or the new file is longer than its buffer.
    NoRoom,
    /// 23: no such item.
    NoSuchItem,
    /// 24: a detached node is a folder, or shares a byte with another detached node; placed at
    /// the number that refers to it.
    BadDetached,
    /// 25: a content description is not readable: a field is cut short, a number has more than
    /// four bytes, a kind is above 5, or bytes are left over.
    BadDescription,
    /// 26: UTF-16 of odd length or with half of a surrogate pair, or bad UTF-8.
    BadText,
    /// 27: call 0, or the shelf has no card with this desk, call and boat.
    NoSuchCard,
    /// 28: all cards of the shelf are taken.
    NoFreeCard,
    /// 29: the shelf has a card with this desk, call and boat already.
    AlreadyThere,
    /// 30: the sheet is longer than a part of the shelf.
    SheetTooLong,
    /// 31: the sheet is not well formed; the place is a line's number, counted from 1.
    BadSheet,
    /// 32: a 1,001st file.
    TooManyFiles,
    /// 33: fewer than ten bytes, not an ID3 tag, or not version 4 of it.
    NotATag,
    /// 34: the tag is cut short, has a size byte of 80h or more, or too small an extended size.
    BadTag,
    /// 35: the tag or a frame is unsynchronised.
    Unsynchronised,
    /// 36: a node has reference 2 or 3.
    RefersElsewhere,
    /// 37: the content to be corrected is hidden, or one of several versions.
    NotATitle,
    /// 38: the file with the new title would have more than 268,435,455 bytes.
    ResultTooLarge,
    /// 39: the shelf has more than 16 cards, or a taken card that is faulty.
    DamagedShelf,
    /// A number that is not in the list; no call gives one.
    Unlisted,
}

/// The kinds in the order of their numbers, from 1 on, each with its name in the list.
const KINDS: [(RefusalKind, &str); 39] = [
    (RefusalKind::NotXmf, "notXmf"),
    (RefusalKind::BadVersion, "badVersion"),
    (RefusalKind::CutShort, "cutShort"),
    (RefusalKind::BadNumber, "badNumber"),
    (RefusalKind::WrongLength, "wrongLength"),
    (RefusalKind::BadType, "badType"),
    (RefusalKind::BadTree, "badTree"),
    (RefusalKind::BadNode, "badNode"),
    (RefusalKind::TooDeep, "tooDeep"),
    (RefusalKind::NoRowLeft, "noRowLeft"),
    (RefusalKind::BadContents, "badContents"),
    (RefusalKind::BadUnpacker, "badUnpacker"),
    (RefusalKind::BadReference, "badReference"),
    (RefusalKind::BadFolder, "badFolder"),
    (RefusalKind::BytesLeft, "bytesLeft"),
    (RefusalKind::BadTarget, "badTarget"),
    (RefusalKind::TooLarge, "tooLarge"),
    (RefusalKind::NoSuchRow, "noSuchRow"),
    (RefusalKind::EndsAtFolder, "endsAtFolder"),
    (RefusalKind::EndsAtUri, "endsAtUri"),
    (RefusalKind::TooManyHops, "tooManyHops"),
    (RefusalKind::NoRoom, "noRoom"),
    (RefusalKind::NoSuchItem, "noSuchItem"),
    (RefusalKind::BadDetached, "badDetached"),
    (RefusalKind::BadDescription, "badDescription"),
    (RefusalKind::BadText, "badText"),
    (RefusalKind::NoSuchCard, "noSuchCard"),
    (RefusalKind::NoFreeCard, "noFreeCard"),
    (RefusalKind::AlreadyThere, "alreadyThere"),
    (RefusalKind::SheetTooLong, "sheetTooLong"),
    (RefusalKind::BadSheet, "badSheet"),
    (RefusalKind::TooManyFiles, "tooManyFiles"),
    (RefusalKind::NotATag, "notATag"),
    (RefusalKind::BadTag, "badTag"),
    (RefusalKind::Unsynchronised, "unsynchronised"),
    (RefusalKind::RefersElsewhere, "refersElsewhere"),
    (RefusalKind::NotATitle, "notATitle"),
    (RefusalKind::ResultTooLarge, "resultTooLarge"),
    (RefusalKind::DamagedShelf, "damagedShelf"),
];

/// The checks of the verdict; at 0 that all hold.
const CHECKS: [&str; 9] = [
    "it is a Mobile XMF file: all checks hold",
    "not version 2.00 with type 2 and revision 1",
    "the root is not a folder with file nodes only",
    "a node has a reference other than 1 and 2",
    "a node has unpackers",
    "a child does not have exactly one own field 3 (resource format), universal, format 6 or 7, that names a tune or an instrument bank",
    "there is not exactly one tune, or there is more than one instrument bank, or the bank comes after the tune",
    "field 13 (what the tune needs) is missing on the tune, stands elsewhere, or is not readable",
    "a header, metadata or universal length above 65,535, or a field number or a name's length above 256",
];

/// The version of the interface.
pub const VERSION: &str = "0.1.0";
// tables.py: end

impl RefusalKind {
    /// The kind of a number in the refusal list.
    #[must_use]
    pub fn of(number: u64) -> Self {
        let index = (number as usize).checked_sub(1);
        let kind = index.and_then(|index| KINDS.get(index));
        kind.map_or(RefusalKind::Unlisted, |(kind, _)| *kind)
    }

    /// The number in the refusal list; 0 for [`RefusalKind::Unlisted`].
    #[must_use]
    pub fn number(self) -> u64 {
        let index = KINDS.iter().position(|(kind, _)| *kind == self);
        index.map_or(0, |index| index as u64 + 1)
    }

    /// The name in the refusal list, such as `badVersion`.
    #[must_use]
    pub fn name(self) -> &'static str {
        let found = KINDS.iter().find(|(kind, _)| *kind == self);
        found.map_or("unlisted", |(_, name)| name)
    }

    /// What it means, as in the refusal list.
    #[must_use]
    pub fn meaning(self) -> &'static str {
        let (number, place) = (self.number(), 0);
        Refusal { number, place }.meaning()
    }
}

impl fmt::Display for RefusalKind {
    fn fmt(&self, out: &mut fmt::Formatter) -> fmt::Result {
        out.write_str(self.meaning())
    }
}

impl Refusal {
    /// What the refusal is about, by name.
    ///
    /// ```
    /// use xmf::{File, RefusalKind, Tables};
    ///
    /// let cut = include_bytes!("../../../samples/cut.xmf");
    /// let refusal = File::read(cut, &mut Tables::default()).unwrap_err();
    /// assert_eq!(refusal.kind(), RefusalKind::WrongLength);
    /// assert_eq!((refusal.number, refusal.place), (5, 16));
    /// ```
    #[must_use]
    pub fn kind(&self) -> RefusalKind {
        RefusalKind::of(self.number)
    }
}

/// Whether a file is a Mobile XMF file.
#[derive(Clone, Copy, Debug, PartialEq, Eq, Hash)]
#[non_exhaustive]
pub enum Verdict {
    /// It is: all checks hold.
    Mobile,
    /// It is not: the check of this number, 1 to 8, is the first that fails.
    Fails(u64),
}

impl Verdict {
    /// The verdict of a number: 0, or the first check that fails.
    #[must_use]
    pub fn of(number: u64) -> Self {
        match number {
            0 => Verdict::Mobile,
            number => Verdict::Fails(number),
        }
    }

    /// 0, or the number of the first check that fails.
    #[must_use]
    pub fn number(self) -> u64 {
        match self {
            Verdict::Mobile => 0,
            Verdict::Fails(number) => number,
        }
    }

    /// What the number means.
    #[must_use]
    pub fn meaning(self) -> &'static str {
        let found = CHECKS.get(self.number() as usize);
        found.copied().unwrap_or("not in the list")
    }
}

impl fmt::Display for Verdict {
    fn fmt(&self, out: &mut fmt::Formatter) -> fmt::Result {
        out.write_str(self.meaning())
    }
}
