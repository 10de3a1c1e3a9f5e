//! The two readers behind one form of questions and answers.

use generate::descriptions::{Counted, Described};
use generate::model::Field;
use generate::texts::{Into, Text};

/// The words of an answer in the order of the C interface: refusal number (0: none), place, then the
/// answer's values, and zeros.
pub type Answer = [u64; xmf::ANSWER_WORDS];

/// A question.
#[derive(Clone, Copy, Debug, PartialEq, Eq)]
pub enum Question {
    /// Read the tree.
    Tree,
    /// Find the nearest metadata item.
    Find,
    /// Find a node's own metadata item.
    FindOwn,
    /// Resolve a resource.
    Resolve,
    /// Resolve a resource and copy it.
    Resource,
    /// Give a content description's count.
    Count,
    /// Judge Mobile XMF.
    Judge,
    /// Write the support sheet.
    Sheet,
    /// Write the support sheet in its second edition.
    Sheet2,
}

impl Question {
    /// Whether it fills a buffer besides the tables.
    pub fn fills_room(self) -> bool {
        matches!(
            self,
            Question::Resource | Question::Sheet | Question::Sheet2
        )
    }
}

/// All questions.
pub const QUESTIONS: [Question; 9] = [
    Question::Tree,
    Question::Find,
    Question::FindOwn,
    Question::Resolve,
    Question::Resource,
    Question::Count,
    Question::Judge,
    Question::Sheet,
    Question::Sheet2,
];

/// What the questions are about.
#[derive(Clone, Copy, Debug)]
pub struct Subject<'a> {
    /// The bytes of the file.
    pub file: &'a [u8],
    /// The row to ask about: a node row, or an item row for the count.
    pub row: u64,
    /// The field to be found.
    pub field: &'a Field,
    /// The channel and the resource of the count.
    pub count: [u64; 2],
}

/// What is lent to a reader.
pub struct Lent<'a> {
    /// The words for node rows.
    pub nodes: &'a mut [u64],
    /// The words for item rows.
    pub items: &'a mut [u64],
    /// The bytes for a sheet or a resource.
    pub sheet: &'a mut [u8],
}

/// Asks the proved reader.
pub fn ask_proved(question: Question, about: Subject, lent: Lent) -> Answer {
    let Subject { file, row, .. } = about;
    let (nodes, items) = (lent.nodes, lent.items);
    let row = row as usize;
    let answer = match question {
        Question::Tree => xmf::read_tree(file, nodes, items)
            .map(|tree| words(&[tree.version, tree.nodes as u64, tree.items as u64])),
        Question::Find => xmf::find(file, nodes, items, row, xmf_field(about.field))
            .map(|found| item_words(found.row as u64, found.words)),
        Question::FindOwn => xmf::find_own(file, nodes, items, row, xmf_field(about.field))
            .map(|found| item_words(found.row as u64, found.words)),
        Question::Resolve => xmf::resolve(file, nodes, items, row).map(resource_words),
        Question::Resource => {
            xmf::copy_resource(file, nodes, items, row, lent.sheet).map(resource_words)
        }
        Question::Count => {
            let [channel, resource] = about.count;
            xmf::voice_count(file, nodes, items, row, channel, resource)
                .map(|count| words(&[count]))
        }
        Question::Judge => xmf::judge(file, nodes, items).map(|verdict| words(&[verdict])),
        Question::Sheet => xmf::write_sheet(file, nodes, items, lent.sheet).map(size),
        Question::Sheet2 => xmf::write_sheet2(file, nodes, items, lent.sheet).map(size),
    };
    answer.unwrap_or_else(|refusal| refused(refusal.number, refusal.place))
}

/// Asks the proved reader for the bytes of a resource; a refusal gives none.
pub fn resource_proved<'a>(about: Subject<'a>, lent: Lent) -> &'a [u8] {
    let row = about.row as usize;
    xmf::resource(about.file, lent.nodes, lent.items, row).unwrap_or(&[])
}

/// Asks the proved reader for the answer as words, in a buffer of any size.
pub fn ask_words(question: Question, about: Subject, lent: Lent, answer: &mut [u64]) {
    let Subject {
        file,
        row,
        field,
        count: [channel, resource],
    } = about;
    let (nodes, items) = (lent.nodes, lent.items);
    let row = row as usize;
    match question {
        Question::Tree => xmf::words::read_tree(file, nodes, items, answer),
        Question::Find => xmf::words::find(file, nodes, items, row, xmf_field(field), answer),
        Question::FindOwn => {
            xmf::words::find_own(file, nodes, items, row, xmf_field(field), answer)
        }
        Question::Resolve => xmf::words::resolve(file, nodes, items, row, answer),
        Question::Resource => {
            xmf::words::copy_resource(file, nodes, items, row, lent.sheet, answer)
        }
        Question::Count => {
            xmf::words::voice_count(file, nodes, items, row, channel, resource, answer)
        }
        Question::Judge => xmf::words::judge(file, nodes, items, answer),
        Question::Sheet => xmf::words::write_sheet(file, nodes, items, lent.sheet, answer),
        Question::Sheet2 => xmf::words::write_sheet2(file, nodes, items, lent.sheet, answer),
    }
}

/// Asks the plain reader.
pub fn ask_plain(question: Question, about: Subject, lent: Lent) -> Answer {
    let Subject { file, row, .. } = about;
    let (nodes, items) = (lent.nodes, lent.items);
    let field = match about.field {
        Field::Standard(number) => plain::Field::Standard(*number as u64),
        Field::Custom(name) => plain::Field::Custom(name),
    };
    let answer = match question {
        Question::Tree => plain::read_tree(file, nodes, items)
            .map(|tree| words(&[tree.version, tree.nodes, tree.items])),
        Question::Find => plain::find(file, nodes, items, row, field)
            .map(|found| item_words(found.row, found.words)),
        Question::FindOwn => plain::find_own(file, nodes, items, row, field)
            .map(|found| item_words(found.row, found.words)),
        Question::Resolve => plain::resolve(file, nodes, items, row)
            .map(|found| words(&[found.place, found.length, found.row, found.hops])),
        Question::Resource => plain::copy_resource(file, nodes, items, row, lent.sheet)
            .map(|found| words(&[found.place, found.length, found.row, found.hops])),
        Question::Count => {
            let [channel, resource] = about.count;
            plain::voice_count(file, nodes, items, row, channel, resource)
                .map(|count| words(&[count]))
        }
        Question::Judge => plain::judge(file, nodes, items).map(|verdict| words(&[verdict])),
        Question::Sheet => plain::write_sheet(file, nodes, items, lent.sheet).map(size),
        Question::Sheet2 => plain::write_sheet2(file, nodes, items, lent.sheet).map(size),
    };
    answer.unwrap_or_else(|refusal| refused(refusal.number, refusal.place))
}

fn xmf_field(field: &Field) -> xmf::Field<'_> {
    match field {
        Field::Standard(number) => xmf::Field::Standard(*number as u64),
        Field::Custom(name) => xmf::Field::Custom(name),
    }
}

/// The words of an answer with these values.
pub fn words(values: &[u64]) -> Answer {
    let mut answer = [0; xmf::ANSWER_WORDS];
    answer[2..][..values.len()].copy_from_slice(values);
    answer
}

/// The words of a number of bytes written.
fn size(length: usize) -> Answer {
    words(&[length as u64])
}

/// The words of an answer with an item row.
fn item_words(row: u64, item: [u64; xmf::item::WORDS]) -> Answer {
    let mut answer = words(&[row]);
    answer[3..].copy_from_slice(&item);
    answer
}

/// The words of an answer with a resource.
fn resource_words(found: xmf::Resource) -> Answer {
    words(&[
        found.place as u64,
        found.length as u64,
        found.row as u64,
        found.hops,
    ])
}

/// The words of a refusal.
pub fn refused(number: u64, place: u64) -> Answer {
    let mut answer = [0; xmf::ANSWER_WORDS];
    answer[..2].copy_from_slice(&[number, place]);
    answer
}

/// The answer that is known of a description, if one is. The place of its data is found by reading the
/// file.
pub fn known(case: &Described) -> Option<Answer> {
    Some(match case.answer? {
        Counted::Count(count) => words(&[count]),
        Counted::Refused(number) => refused(number, 0),
        Counted::Faulty(place) => {
            let mut nodes = vec![0; case.lent.node_words];
            let mut items = vec![0; case.lent.item_words];
            plain::read_tree(&case.file, &mut nodes, &mut items).ok()?;
            let data = items[case.row as usize * plain::item::WORDS + plain::item::DATA];
            refused(25, data + place as u64)
        }
    })
}

/// The words of a number of bytes written, or of a refusal's number and place.
pub fn counted(written: Result<usize, (u64, u64)>) -> Answer {
    match written {
        Ok(length) => size(length),
        Err((number, place)) => refused(number, place),
    }
}

/// The words of the bytes of a copy and of its lines, or of a refusal's number and place.
pub fn mended(written: Result<[usize; 2], (u64, u64)>) -> Answer {
    match written {
        Ok([copy, lines]) => words(&[copy as u64, lines as u64]),
        Err((number, place)) => refused(number, place),
    }
}

/// Converts by the proved function.
pub fn convert_proved(text: &Text, room: &mut [u8]) -> Answer {
    let converted = match text.into {
        Into::Utf8 => xmf::utf16_to_utf8(&text.given, room),
        Into::Utf16 => xmf::utf8_to_utf16(&text.given, room),
    };
    counted(converted.map_err(|refusal| (refusal.number, refusal.place)))
}

/// Converts by the proved function, with the answer as words in a buffer of any size.
pub fn convert_words(text: &Text, room: &mut [u8], answer: &mut [u64]) {
    match text.into {
        Into::Utf8 => xmf::words::utf16_to_utf8(&text.given, room, answer),
        Into::Utf16 => xmf::words::utf8_to_utf16(&text.given, room, answer),
    }
}

/// Converts by the plain function.
pub fn convert_plain(text: &Text, room: &mut [u8]) -> Answer {
    let converted = match text.into {
        Into::Utf8 => plain::utf16_to_utf8(&text.given, room),
        Into::Utf16 => plain::utf8_to_utf16(&text.given, room),
    };
    counted(converted.map_err(|refusal| (refusal.number, refusal.place)))
}

/// Totals as words: files, refused, nine sums.
pub type Sums = [u64; 11];

/// Counts the bytes of a file by the proved function.
pub fn account_proved(file: &[u8], lent: Lent, sums: &mut Sums) -> Answer {
    let [files, refused, kinds @ ..] = *sums;
    let mut totals = xmf::Totals {
        files,
        refused,
        kinds: kinds.into(),
    };
    let counts = xmf::account(file, lent.nodes, lent.items, &mut totals);
    sums[..2].copy_from_slice(&[totals.files, totals.refused]);
    sums[2..].copy_from_slice(&totals.kinds.counts());
    match counts {
        Ok(counts) => words(&counts.counts()),
        Err(refusal) => self::refused(refusal.number, refusal.place),
    }
}

/// Counts the bytes of a file by the plain function.
pub fn account_plain(file: &[u8], lent: Lent, sums: &mut Sums) -> Answer {
    let [files, refused, kinds @ ..] = *sums;
    let mut totals = plain::Totals {
        files,
        refused,
        kinds,
    };
    let counts = plain::account(file, lent.nodes, lent.items, &mut totals);
    sums[..2].copy_from_slice(&[totals.files, totals.refused]);
    sums[2..].copy_from_slice(&totals.kinds);
    match counts {
        Ok(counts) => words(&counts),
        Err(refusal) => self::refused(refusal.number, refusal.place),
    }
}

/// Moves a sheet by the proved function.
pub fn move_proved(sheet: &[u8], room: &mut [u8]) -> Answer {
    counted(xmf::move_sheet(sheet, room).map_err(|refusal| (refusal.number, refusal.place)))
}

/// Moves a sheet by the plain function.
pub fn move_plain(sheet: &[u8], room: &mut [u8]) -> Answer {
    counted(plain::move_sheet(sheet, room).map_err(|refusal| (refusal.number, refusal.place)))
}

/// Counts a tag's frames by the proved function.
pub fn frames_proved(tag: &[u8]) -> Answer {
    counted(xmf::id3_count(tag).map_err(|refusal| (refusal.number, refusal.place)))
}

/// Counts a tag's frames by the plain function.
pub fn frames_plain(tag: &[u8]) -> Answer {
    match plain::frame_count(tag) {
        Ok(count) => words(&[count]),
        Err(refusal) => refused(refusal.number, refusal.place),
    }
}

/// Gives a tag's frame by the proved function.
pub fn frame_proved(tag: &[u8], number: u64) -> Answer {
    match xmf::id3_frame(tag, number as usize) {
        Ok(frame) => frame_words(frame.name, frame.place as u64, frame.length as u64),
        Err(refusal) => refused(refusal.number, refusal.place),
    }
}

/// Gives a tag's frame by the plain function.
pub fn frame_plain(tag: &[u8], number: u64) -> Answer {
    match plain::frame(tag, number) {
        Ok(frame) => frame_words(frame.name, frame.place, frame.length),
        Err(refusal) => refused(refusal.number, refusal.place),
    }
}

/// The words of an answer with a frame.
fn frame_words(name: [u8; 4], place: u64, length: u64) -> Answer {
    words(&[u32::from_be_bytes(name).into(), place, length])
}
