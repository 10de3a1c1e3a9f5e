//! The C interface, as `include/xmf.h` declares it.
//!
//! A slice passes as a pointer and a number of elements. No function has a precondition on values.
//! The caller sees to the pointers: none is null, each is aligned, the elements of its length can be
//! read there, and written where the pointer is `*mut`. What is written overlaps nothing else that is
//! lent, and no other thread uses it during the call.

extern "C" {
    /// Reads the tree. Answer: version (100, 101 or 200), node rows, item rows.
    pub fn xmf_read_tree(
        file: *const u8,
        file_length: usize,
        nodes: *mut u64,
        node_words: usize,
        items: *mut u64,
        item_words: usize,
        answer: *mut u64,
        answer_words: usize,
    );

    /// Finds the nearest item: of the standard number (kind 0), or of the custom name (any other kind).
    /// Answer: item row, its ten words.
    pub fn xmf_find(
        file: *const u8,
        file_length: usize,
        nodes: *mut u64,
        node_words: usize,
        items: *mut u64,
        item_words: usize,
        row: usize,
        kind: u64,
        number: u64,
        name: *const u8,
        name_length: usize,
        answer: *mut u64,
        answer_words: usize,
    );

    /// Finds a node's own item: of the standard number (kind 0), or of the custom name (any other kind).
    /// Answer: item row, its ten words.
    pub fn xmf_find_own(
        file: *const u8,
        file_length: usize,
        nodes: *mut u64,
        node_words: usize,
        items: *mut u64,
        item_words: usize,
        row: usize,
        kind: u64,
        number: u64,
        name: *const u8,
        name_length: usize,
        answer: *mut u64,
        answer_words: usize,
    );

    /// Resolves a resource. Answer: place, length, row, references followed.
    pub fn xmf_resolve(
        file: *const u8,
        file_length: usize,
        nodes: *mut u64,
        node_words: usize,
        items: *mut u64,
        item_words: usize,
        row: usize,
        answer: *mut u64,
        answer_words: usize,
    );

    /// Resolves a resource and copies it. Answer: place, length, row, references followed.
    pub fn xmf_resource(
        file: *const u8,
        file_length: usize,
        nodes: *mut u64,
        node_words: usize,
        items: *mut u64,
        item_words: usize,
        row: usize,
        out: *mut u8,
        out_length: usize,
        answer: *mut u64,
        answer_words: usize,
    );

    /// Reads the content description that is the item row. Answer: its count for a channel and a
    /// resource.
    pub fn xmf_voice_count(
        file: *const u8,
        file_length: usize,
        nodes: *mut u64,
        node_words: usize,
        items: *mut u64,
        item_words: usize,
        item_row: usize,
        channel: u64,
        resource: u64,
        answer: *mut u64,
        answer_words: usize,
    );

    /// Judges Mobile XMF. Answer: the verdict.
    pub fn xmf_judge(
        file: *const u8,
        file_length: usize,
        nodes: *mut u64,
        node_words: usize,
        items: *mut u64,
        item_words: usize,
        answer: *mut u64,
        answer_words: usize,
    );

    /// Counts the file's bytes by kind. Answer: the nine counts. The totals go in and come back: files,
    /// refused, nine sums; words that are missing are 0 and are not stored.
    pub fn xmf_account(
        file: *const u8,
        file_length: usize,
        nodes: *mut u64,
        node_words: usize,
        items: *mut u64,
        item_words: usize,
        totals: *mut u64,
        total_words: usize,
        answer: *mut u64,
        answer_words: usize,
    );

    /// Writes the support sheet. Answer: bytes written.
    pub fn xmf_write_sheet(
        file: *const u8,
        file_length: usize,
        nodes: *mut u64,
        node_words: usize,
        items: *mut u64,
        item_words: usize,
        sheet: *mut u8,
        sheet_length: usize,
        answer: *mut u64,
        answer_words: usize,
    );

    /// Writes the support sheet in its second edition. Answer: bytes written.
    pub fn xmf_write_sheet2(
        file: *const u8,
        file_length: usize,
        nodes: *mut u64,
        node_words: usize,
        items: *mut u64,
        item_words: usize,
        sheet: *mut u8,
        sheet_length: usize,
        answer: *mut u64,
        answer_words: usize,
    );

    /// Writes the file anew with other data in an item row. Answer: bytes written.
    pub fn xmf_correct_title(
        file: *const u8,
        file_length: usize,
        nodes: *mut u64,
        node_words: usize,
        items: *mut u64,
        item_words: usize,
        item_row: usize,
        title: *const u8,
        title_length: usize,
        out: *mut u8,
        out_length: usize,
        answer: *mut u64,
        answer_words: usize,
    );

    /// Copies the file with its header's two fields set right. Answer: bytes of the copy, bytes of the
    /// lines.
    pub fn xmf_mend(
        file: *const u8,
        file_length: usize,
        nodes: *mut u64,
        node_words: usize,
        items: *mut u64,
        item_words: usize,
        copy: *mut u8,
        copy_length: usize,
        lines: *mut u8,
        lines_length: usize,
        answer: *mut u64,
        answer_words: usize,
    );

    /// Converts UTF-16, high byte first, into UTF-8. Answer: bytes written.
    pub fn xmf_utf16_to_utf8(
        data: *const u8,
        data_length: usize,
        text: *mut u8,
        text_length: usize,
        answer: *mut u64,
        answer_words: usize,
    );

    /// Converts UTF-8 into UTF-16, high byte first. Answer: bytes written.
    pub fn xmf_utf8_to_utf16(
        text: *const u8,
        text_length: usize,
        data: *mut u8,
        data_length: usize,
        answer: *mut u64,
        answer_words: usize,
    );

    /// Moves a sheet to the other edition. Answer: bytes written.
    pub fn xmf_move_sheet(
        sheet: *const u8,
        sheet_length: usize,
        out: *mut u8,
        out_length: usize,
        answer: *mut u64,
        answer_words: usize,
    );

    /// Counts the frames of an ID3v2.4 tag. Answer: how many.
    pub fn xmf_id3_count(tag: *const u8, tag_length: usize, answer: *mut u64, answer_words: usize);

    /// Gives a frame of an ID3v2.4 tag. Answer: name, place, length.
    pub fn xmf_id3_frame(
        tag: *const u8,
        tag_length: usize,
        number: usize,
        answer: *mut u64,
        answer_words: usize,
    );

    /// Puts a sheet on a shelf. Answer: no value.
    pub fn xmf_shelf_put(
        cards: *mut u64,
        card_words: usize,
        text: *mut u8,
        text_length: usize,
        desk: u64,
        call: u64,
        boat: u64,
        sheet: *const u8,
        sheet_length: usize,
        answer: *mut u64,
        answer_words: usize,
    );

    /// Gets a sheet from a shelf. Answer: its number of bytes.
    pub fn xmf_shelf_get(
        cards: *const u64,
        card_words: usize,
        text: *const u8,
        text_length: usize,
        desk: u64,
        call: u64,
        boat: u64,
        out: *mut u8,
        out_length: usize,
        answer: *mut u64,
        answer_words: usize,
    );

    /// Drops a sheet from a shelf. Answer: no value.
    pub fn xmf_shelf_drop(
        cards: *mut u64,
        card_words: usize,
        text: *mut u8,
        text_length: usize,
        desk: u64,
        call: u64,
        boat: u64,
        answer: *mut u64,
        answer_words: usize,
    );
}
