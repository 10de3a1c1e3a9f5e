//! The questions, the conversions and the shelf with the answer as words, in the order of the C
//! interface: refusal number (0: none), place, then the answer's values, and zeros. A short buffer
//! gets the words that fit.
//!
//! The functions of the crate's root give the same answers as values.

use crate::{c, item, Field, Label};

/// Asks a question of the C interface: file, tables, what the question itself takes, answer.
macro_rules! ask {
    ($question:ident($file:ident, $nodes:ident, $items:ident, [$($own:expr),*], $answer:ident)) => {
        // Safety: the pointers and lengths come from slices, so they are not null, are aligned, can
        // be read and, where they are lent for writing, written, and do not overlap. The called
        // functions are proved to stay within them, whatever the values.
        unsafe {
            c::$question(
                $file.as_ptr(),
                $file.len(),
                $nodes.as_mut_ptr(),
                $nodes.len(),
                $items.as_mut_ptr(),
                $items.len(),
                $($own,)*
                $answer.as_mut_ptr(),
                $answer.len(),
            )
        }
    };
}

/// Reads the tree. Values: version (100, 101 or 200), node rows, item rows.
pub fn read_tree(file: &[u8], nodes: &mut [u64], items: &mut [u64], answer: &mut [u64]) {
    ask!(xmf_read_tree(file, nodes, items, [], answer))
}

/// Finds the nearest item of a field. Values: item row, its ten words.
pub fn find(
    file: &[u8],
    nodes: &mut [u64],
    items: &mut [u64],
    row: usize,
    field: Field,
    answer: &mut [u64],
) {
    let (kind, number, name) = asked(field);
    let (name, length) = (name.as_ptr(), name.len());
    ask!(xmf_find(
        file,
        nodes,
        items,
        [row, kind, number, name, length],
        answer
    ))
}

/// Finds a node's own item of a field. Values: item row, its ten words.
pub fn find_own(
    file: &[u8],
    nodes: &mut [u64],
    items: &mut [u64],
    row: usize,
    field: Field,
    answer: &mut [u64],
) {
    let (kind, number, name) = asked(field);
    let (name, length) = (name.as_ptr(), name.len());
    ask!(xmf_find_own(
        file,
        nodes,
        items,
        [row, kind, number, name, length],
        answer
    ))
}

/// A field as kind, number and name.
fn asked(field: Field<'_>) -> (u64, u64, &[u8]) {
    match field {
        Field::Standard(number) => (item::STANDARD, number, &[]),
        Field::Custom(name) => (item::CUSTOM, 0, name),
    }
}

/// Resolves a resource. Values: place, length, row, references followed.
pub fn resolve(file: &[u8], nodes: &mut [u64], items: &mut [u64], row: usize, answer: &mut [u64]) {
    ask!(xmf_resolve(file, nodes, items, [row], answer))
}

/// Resolves a resource and copies it. Values: place, length, row, references followed.
pub fn copy_resource(
    file: &[u8],
    nodes: &mut [u64],
    items: &mut [u64],
    row: usize,
    out: &mut [u8],
    answer: &mut [u64],
) {
    let (room, length) = (out.as_mut_ptr(), out.len());
    ask!(xmf_resource(
        file,
        nodes,
        items,
        [row, room, length],
        answer
    ))
}

/// Reads the content description that is the item row. Values: its count for a channel and a resource.
pub fn voice_count(
    file: &[u8],
    nodes: &mut [u64],
    items: &mut [u64],
    item_row: usize,
    channel: u64,
    resource: u64,
    answer: &mut [u64],
) {
    ask!(xmf_voice_count(
        file,
        nodes,
        items,
        [item_row, channel, resource],
        answer
    ))
}

/// Judges Mobile XMF. Values: the verdict.
pub fn judge(file: &[u8], nodes: &mut [u64], items: &mut [u64], answer: &mut [u64]) {
    ask!(xmf_judge(file, nodes, items, [], answer))
}

/// Counts the file's bytes by kind. Values: the nine counts. The totals go in and come back: files,
/// refused, nine sums. Of fewer words the missing ones are 0 and are not stored.
pub fn account(
    file: &[u8],
    nodes: &mut [u64],
    items: &mut [u64],
    totals: &mut [u64],
    answer: &mut [u64],
) {
    let (sums, length) = (totals.as_mut_ptr(), totals.len());
    ask!(xmf_account(file, nodes, items, [sums, length], answer))
}

/// Writes the support sheet. Values: bytes written.
pub fn write_sheet(
    file: &[u8],
    nodes: &mut [u64],
    items: &mut [u64],
    sheet: &mut [u8],
    answer: &mut [u64],
) {
    let (text, length) = (sheet.as_mut_ptr(), sheet.len());
    ask!(xmf_write_sheet(file, nodes, items, [text, length], answer))
}

/// Writes the support sheet in its second edition. Values: bytes written.
pub fn write_sheet2(
    file: &[u8],
    nodes: &mut [u64],
    items: &mut [u64],
    sheet: &mut [u8],
    answer: &mut [u64],
) {
    let (text, length) = (sheet.as_mut_ptr(), sheet.len());
    ask!(xmf_write_sheet2(file, nodes, items, [text, length], answer))
}

/// Writes the file anew with a title as the data of an item row. Values: bytes written.
pub fn correct_title(
    file: &[u8],
    nodes: &mut [u64],
    items: &mut [u64],
    item_row: usize,
    title: &[u8],
    out: &mut [u8],
    answer: &mut [u64],
) {
    let (title, title_length) = (title.as_ptr(), title.len());
    let (room, length) = (out.as_mut_ptr(), out.len());
    ask!(xmf_correct_title(
        file,
        nodes,
        items,
        [item_row, title, title_length, room, length],
        answer
    ))
}

/// Copies the file with `FileLength` and `TreeEnd` set right, and writes a line for each that changed.
/// Values: bytes of the copy, bytes of the lines.
pub fn mend(
    file: &[u8],
    nodes: &mut [u64],
    items: &mut [u64],
    copy: &mut [u8],
    lines: &mut [u8],
    answer: &mut [u64],
) {
    let (room, length) = (copy.as_mut_ptr(), copy.len());
    let (text, text_length) = (lines.as_mut_ptr(), lines.len());
    ask!(xmf_mend(
        file,
        nodes,
        items,
        [room, length, text, text_length],
        answer
    ))
}

/// Converts by a function of the C interface: what is given, the room, answer.
macro_rules! convert {
    ($conversion:ident($given:ident, $room:ident, $answer:ident)) => {
        // Safety: as for the questions.
        unsafe {
            c::$conversion(
                $given.as_ptr(),
                $given.len(),
                $room.as_mut_ptr(),
                $room.len(),
                $answer.as_mut_ptr(),
                $answer.len(),
            )
        }
    };
}

/// Converts UTF-16 into UTF-8. Values: bytes written.
pub fn utf16_to_utf8(data: &[u8], text: &mut [u8], answer: &mut [u64]) {
    convert!(xmf_utf16_to_utf8(data, text, answer))
}

/// Converts UTF-8 into UTF-16. Values: bytes written.
pub fn utf8_to_utf16(text: &[u8], data: &mut [u8], answer: &mut [u64]) {
    convert!(xmf_utf8_to_utf16(text, data, answer))
}

/// Moves a sheet to the other edition. Values: bytes written.
pub fn move_sheet(sheet: &[u8], out: &mut [u8], answer: &mut [u64]) {
    convert!(xmf_move_sheet(sheet, out, answer))
}

/// Counts the frames of an ID3v2.4 tag. Values: how many.
pub fn id3_count(tag: &[u8], answer: &mut [u64]) {
    // Safety: as for the questions.
    unsafe { c::xmf_id3_count(tag.as_ptr(), tag.len(), answer.as_mut_ptr(), answer.len()) }
}

/// Gives a frame of an ID3v2.4 tag. Values: name, place, length.
pub fn id3_frame(tag: &[u8], number: usize, answer: &mut [u64]) {
    // Safety: as for the questions.
    unsafe {
        c::xmf_id3_frame(
            tag.as_ptr(),
            tag.len(),
            number,
            answer.as_mut_ptr(),
            answer.len(),
        )
    }
}

/// Puts a sheet on a shelf of cards in words. Values: none.
pub fn shelf_put(
    cards: &mut [u64],
    text: &mut [u8],
    label: Label,
    sheet: &[u8],
    answer: &mut [u64],
) {
    // Safety: as for the questions.
    unsafe {
        c::xmf_shelf_put(
            cards.as_mut_ptr(),
            cards.len(),
            text.as_mut_ptr(),
            text.len(),
            label.desk,
            label.call,
            label.boat,
            sheet.as_ptr(),
            sheet.len(),
            answer.as_mut_ptr(),
            answer.len(),
        )
    }
}

/// Gets a sheet from a shelf of cards in words. Values: bytes of the sheet.
pub fn shelf_get(cards: &[u64], text: &[u8], label: Label, out: &mut [u8], answer: &mut [u64]) {
    // Safety: as for the questions.
    unsafe {
        c::xmf_shelf_get(
            cards.as_ptr(),
            cards.len(),
            text.as_ptr(),
            text.len(),
            label.desk,
            label.call,
            label.boat,
            out.as_mut_ptr(),
            out.len(),
            answer.as_mut_ptr(),
            answer.len(),
        )
    }
}

/// Drops a sheet from a shelf of cards in words. Values: none.
pub fn shelf_drop(cards: &mut [u64], text: &mut [u8], label: Label, answer: &mut [u64]) {
    // Safety: as for the questions.
    unsafe {
        c::xmf_shelf_drop(
            cards.as_mut_ptr(),
            cards.len(),
            text.as_mut_ptr(),
            text.len(),
            label.desk,
            label.call,
            label.boat,
            answer.as_mut_ptr(),
            answer.len(),
        )
    }
}
