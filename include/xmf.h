/* Questions about XMF files (versions 1.00, 1.01 and 2.00), the correction of a title, the mending of
 * a header, two conversions of a text, the mover between the two editions of a sheet, and the shelf
 * that desks share.
 *
 * The functions are in target/staticlib/libcapi.a, which `tools/build.sh capi` proves and writes;
 * `./install` has them in libxmf.a and libxmf.so.0. They are for x86-64 Linux and need no other library.
 *
 * In short
 *
 * The functions with structs, at the end of this file, return 0 or the number of a refusal. They are for
 * C99 and newer, and for C++:
 *
 *   #include <stdio.h>
 *   #include <xmf.h>
 *   static uint8_t file[65536], text[65536];
 *   static struct xmf_tables tables;
 *   int main(void) {
 *       struct xmf_written sheet;
 *       size_t size = fread(file, 1, sizeof file, stdin);
 *       int refusal = xmf_sheet(file, size, &tables, text, sizeof text, &sheet);
 *       return refusal ? puts(xmf_refusal_text(refusal)), 2 : fwrite(text, 1, sheet.length, stdout) < sheet.length;
 *   }
 *
 * The functions of words, declared before them, are what is proved; the ones with structs only call them.
 *
 * Stack
 *
 * A call that takes a file needs at most 12 kB of stack, xmf_correct_title 22 kB, any other call 1 kB
 * (tools/stack.sh measures it; 1 kB is 1,024 bytes). What the dynamic linker needs when it first looks up
 * memset or memcpy, the two functions that the library takes from the C library, is not counted.
 *
 * What is lent
 *
 *   file    the bytes of the file; they are only read
 *   nodes   words for node rows, 13 words each; a full table has XMF_ALL_NODE_WORDS
 *   items   words for item rows, 10 words each; a full table has XMF_ALL_ITEM_WORDS
 *   answer  words for the answer; XMF_ANSWER_WORDS are enough for each question
 *
 * Each is a pointer and a number of elements. They may have any size and hold anything before the
 * call; smaller tables hold fewer rows. The caller must see to four things:
 *
 *   - each pointer is aligned for its type; it may be null only where there are 0 elements, and then
 *     nothing is read or written there (examples/c/empty.c tries this with every function);
 *   - that number of elements can be read there, and but for file, name, title, what is converted,
 *     moved or put, and the shelf that a sheet is got from, also written;
 *   - what is written overlaps nothing else that is lent in the same call;
 *   - no other thread writes what is lent, or reads what is written, until the call returns.
 *
 * What is left
 *
 * No function returns a value. The answer is, in this order:
 *
 *   answer[0]   the refusal number, or 0 when the question is answered
 *   answer[1]   the place of the refusal, or 0
 *   answer[2]   the first of the answer's values; they are listed at each function
 *
 * Words past the last value are 0. After a refusal all words from answer[2] on are 0. A shorter
 * buffer gets the words that fit.
 *
 * After an answer the tables hold the file's rows, and zeros past the last row; a call that writes a
 * file leaves the rows of that one. After a refusal both tables, and the buffer for a resource, a sheet,
 * a file or lines, hold zeros only; totals are never cleared. Each call reads the file afresh. Nothing is
 * allocated and nothing is kept between calls. Places count from 0 at the file's first byte.
 *
 * Refusals (share/refusals.tsv)
 *
 *    1  fewer than 8 bytes, or not an XMF file
 *    2  the version is not 1.00, 1.01 or 2.00
 *    3  a field runs past the part that holds it
 *    4  a number has more than four bytes, or a GUID more than nineteen
 *    5  the length in the header is not the number of bytes received
 *    6  the types table has a type twice, or more than 32 entries
 *    7  the tree begins inside the header, or ends before it begins or past the file
 *    8  a node does not fit its holder (the root: does not fill the tree), its header does not fit
 *       the node, or metadata or unpackers run past the header
 *    9  a node at depth 17
 *   10  no row left: more than 256 nodes or 1,024 item rows, or the lent tables are smaller
 *   11  a universal content of length 0, or a type that the file does not declare
 *   12  an unpacker of an unknown kind
 *   13  reference 0, or above 4
 *   14  a folder that is packed, or whose contents do not follow in it
 *   15  bytes left between a part's last field and its end
 *   16  a reference leads into the header, past the file's end, or into the tree where no node
 *       starts
 *   17  more than 268,435,455 bytes
 *   18  the row asked for is not there
 *   19  resolving ends at a folder
 *   20  resolving ends at a URI
 *   21  a fifth reference would be followed
 *   22  the sheet, a resource, a converted text or the new file is longer than its buffer
 *   23  no such item
 *   24  a detached node is a folder, or shares a byte with another detached node; placed at the
 *       number that refers to it
 *   25  a content description is not readable: a field is cut short, a number has more than four
 *       bytes, a kind is above 5, or bytes are left over
 *   26  UTF-16 of odd length or with half of a surrogate pair, or bad UTF-8
 *   27  call 0, or the shelf has no card with this desk, call and boat
 *   28  all cards of the shelf are taken
 *   29  the shelf has a card with this desk, call and boat already
 *   30  the sheet is longer than a part of the shelf
 *   31  the sheet is not well formed; the place is a line's number, counted from 1
 *   32  a 1,001st file
 *   33  fewer than ten bytes, not an ID3 tag, or not version 4 of it
 *   34  the tag is cut short, has a size byte of 80h or more, or too small an extended size
 *   35  the tag or a frame is unsynchronised
 *   36  a node has reference 2 or 3
 *   37  the content to be corrected is hidden, or one of several versions
 *   38  the file with the new title would have more than 268,435,455 bytes
 *   39  the shelf has more than 16 cards, or a taken card that is faulty
 */
#ifndef XMF_H
#define XMF_H

#include <stddef.h>
#include <stdint.h>

#ifdef __cplusplus
extern "C" {
#endif

/* The words of a node row and of an item row. */
#define XMF_NODE_WORDS 13
#define XMF_ITEM_WORDS 10

/* The words of tables with as many rows as there may be: 256 nodes and 1,024 items. */
#define XMF_ALL_NODE_WORDS (256 * XMF_NODE_WORDS)
#define XMF_ALL_ITEM_WORDS (1024 * XMF_ITEM_WORDS)

/* The words of the longest answer, that of xmf_find and xmf_find_own. */
#define XMF_ANSWER_WORDS 13

/* The words of totals. */
#define XMF_TOTAL_WORDS 11

/* Bytes that are enough for the lines of xmf_mend: two, in which a number has at most nine digits. */
#define XMF_LINES_ROOM 80

/* The words of a card of a shelf, and the most cards that a shelf may have. */
#define XMF_CARD_WORDS 4
#define XMF_MOST_CARDS 16

/* The words of a node row. The rows of the tree's nodes come first, in file order. The rows of the
 * detached nodes, which are outside the tree, follow in the order in which references first lead to
 * them. */
enum xmf_node {
    XMF_NODE_START = 0,          /* place of the node's first byte */
    XMF_NODE_LENGTH = 1,         /* the node's length */
    XMF_NODE_HEADER_LENGTH = 2,  /* length of its header, up to the reference */
    XMF_NODE_CONTAINED = 3,      /* number of nodes it holds; 0 for a file node */
    XMF_NODE_PARENT = 4,         /* row of the folder that holds it; the own row for the root, which
                                    is 0, and for a detached node */
    XMF_NODE_DEPTH = 5,          /* depth, the root being at 1; 0 for a detached node */
    XMF_NODE_REFERENCE = 6,      /* 1 in the node, 2 a place in the file, 3 another node, 4 a URI */
    XMF_NODE_TARGET = 7,         /* place of the contents (1), the offset (2, 3), place of the URI (4) */
    XMF_NODE_EXTENT = 8,         /* length of the contents (1), bytes to the file's end (2), 0 (3),
                                    length of the URI (4) */
    XMF_NODE_UNPACKERS = 9,      /* place of the byte after the unpackers' length */
    XMF_NODE_UNPACKER_COUNT = 10, /* number of unpackers */
    XMF_NODE_ITEMS = 11,         /* number of item rows of the node */
    XMF_NODE_DETACHED = 12       /* 1 if the node is detached, otherwise 0 */
};

/* The words of an item row. */
enum xmf_item {
    XMF_ITEM_NODE = 0,        /* row of the node that has the item */
    XMF_ITEM_NUMBER = 1,      /* number of the item in its node, from 0 */
    XMF_ITEM_KIND = 2,        /* XMF_STANDARD or XMF_CUSTOM */
    XMF_ITEM_FIELD = 3,       /* the standard number, or the place of the custom name */
    XMF_ITEM_NAME_LENGTH = 4, /* length of the custom name; 0 for a standard field */
    XMF_ITEM_VERSION = 5,     /* number of the version, from 1; 0 for a universal content */
    XMF_ITEM_TYPE = 6,        /* the version's type; 0 for a universal content */
    XMF_ITEM_FORMAT = 7,      /* string format; an odd one is hidden */
    XMF_ITEM_DATA = 8,        /* place of the data */
    XMF_ITEM_DATA_LENGTH = 9  /* length of the data */
};

/* The kinds of bytes: the count of a kind is answer[2 + kind], and its sum totals[2 + kind]. A
 * content's length and format are metadata frames; any other block's length goes with the block. */
enum xmf_kind {
    XMF_FILE_HEADER = 0,     /* the file header, the types table among it */
    XMF_NODE_FRAMES = 1,     /* length, contained items and header length of each node */
    XMF_METADATA_FRAMES = 2, /* all of the metadata but its data */
    XMF_VISIBLE_DATA = 3,    /* data of contents that are not hidden */
    XMF_HIDDEN_DATA = 4,     /* data of hidden contents */
    XMF_UNPACKER_BYTES = 5,  /* unpackers, with their length */
    XMF_REFERENCE_BYTES = 6, /* references, with their contents other than inline data */
    XMF_INLINE_DATA = 7,     /* inline data of file nodes */
    XMF_ALL_ELSE = 8         /* bytes outside header, tree and detached nodes */
};

/* The words of totals before the sums. */
enum xmf_totals {
    XMF_TOTAL_FILES = 0,  /* the number of files, refused ones too */
    XMF_TOTAL_REFUSED = 1 /* the number of files that were refused */
};

/* The kinds of fields. */
#define XMF_STANDARD UINT64_C(0)
#define XMF_CUSTOM UINT64_C(1)

/* Reads the tree, and the detached nodes that references lead to, into the tables.
 *
 *   answer[2]  the version: 100, 101 or 200
 *   answer[3]  the number of node rows
 *   answer[4]  the number of item rows
 */
void xmf_read_tree(const uint8_t *file, size_t file_length,
                   uint64_t *nodes, size_t node_words,
                   uint64_t *items, size_t item_words,
                   uint64_t *answer, size_t answer_words);

/* Finds the first item of a field on the node of a row, or on the nearest node above it that has one.
 * From a detached node it looks at that node only. Hidden items are found too.
 *
 * With kind XMF_STANDARD the field is the one of that number, and the name is not used. With any
 * other kind it is the custom field of that name, and the number is not used. An empty name is never
 * found.
 *
 *   answer[2]       the number of the item row
 *   answer[3..12]   the ten words of that row
 */
void xmf_find(const uint8_t *file, size_t file_length,
              uint64_t *nodes, size_t node_words,
              uint64_t *items, size_t item_words,
              size_t row, uint64_t kind, uint64_t number,
              const uint8_t *name, size_t name_length,
              uint64_t *answer, size_t answer_words);

/* Finds the first item of a field on the node of a row itself; no other node is looked at. The
 * arguments and the answer are those of xmf_find.
 */
void xmf_find_own(const uint8_t *file, size_t file_length,
                  uint64_t *nodes, size_t node_words,
                  uint64_t *items, size_t item_words,
                  size_t row, uint64_t kind, uint64_t number,
                  const uint8_t *name, size_t name_length,
                  uint64_t *answer, size_t answer_words);

/* Resolves the resource of a row's node, following at most four references.
 *
 *   answer[2]  the place of its first byte
 *   answer[3]  the number of its bytes
 *   answer[4]  the node row whose unpackers apply
 *   answer[5]  the number of references followed
 *
 * A reference 2 may lead to any place after the file header, so the bytes of the resource may include
 * hidden data. Do not put them into a ticket.
 */
void xmf_resolve(const uint8_t *file, size_t file_length,
                 uint64_t *nodes, size_t node_words,
                 uint64_t *items, size_t item_words,
                 size_t row,
                 uint64_t *answer, size_t answer_words);

/* Resolves as xmf_resolve does, and copies the bytes of the resource into a lent buffer. The answer is
 * that of xmf_resolve.
 *
 * Bytes of the buffer past the resource are 0; after a refusal all are. Refused as xmf_resolve is, then
 * with 22. The bytes may include hidden data, as said there. Do not put them into a ticket.
 */
void xmf_resource(const uint8_t *file, size_t file_length,
                  uint64_t *nodes, size_t node_words,
                  uint64_t *items, size_t item_words,
                  size_t row,
                  uint8_t *out, size_t out_length,
                  uint64_t *answer, size_t answer_words);

/* Gives what an item row, a content description (standard field 13), says that the tune needs: the count
 * for a channel and a resource, both numbered from 0. Channels stand in the order of the tune's MIP
 * message, the most important first, and each count includes those of the channels before it.
 *
 *   answer[2]  the count
 *
 * Refused with 18 when there is no such item row; with 23 when it is no universal field 13 in format 6 or
 * 7; with 25, placed at the first faulty field, or at the first byte left over; then with 23 when it
 * describes no such channel or resource.
 */
void xmf_voice_count(const uint8_t *file, size_t file_length,
                     uint64_t *nodes, size_t node_words,
                     uint64_t *items, size_t item_words,
                     size_t item_row, uint64_t channel, uint64_t resource,
                     uint64_t *answer, size_t answer_words);

/* Judges whether the file is a Mobile XMF file.
 *
 *   answer[2]  0, or the number 1 to 8 of the first check that fails
 */
void xmf_judge(const uint8_t *file, size_t file_length,
               uint64_t *nodes, size_t node_words,
               uint64_t *items, size_t item_words,
               uint64_t *answer, size_t answer_words);

/* Counts the bytes of the file by kind. Each byte is of one kind by its place, and the counts sum to
 * the file's length.
 *
 *   answer[2..10]  the bytes of each kind, in the order of enum xmf_kind
 *
 * The totals go in and come back: the number of files, the number refused, and the nine sums. Begin
 * with XMF_TOTAL_WORDS words of 0, and hand the same words to the next call. An accepted file is one
 * more file, and its counts are added; a refused one is one more file and one more refused. No refusal
 * clears the totals. Refused with 32, before the file is read, when there are 1,000 files: the totals
 * are kept then. Of fewer words the missing ones are 0 and are not stored; more are not touched. A sum
 * that would not fit stays at the greatest number, which no totals that begin all zero come to.
 */
void xmf_account(const uint8_t *file, size_t file_length,
                 uint64_t *nodes, size_t node_words,
                 uint64_t *items, size_t item_words,
                 uint64_t *totals, size_t total_words,
                 uint64_t *answer, size_t answer_words);

/* Writes the support sheet into a lent buffer. Hidden items have no line in it.
 *
 *   answer[2]  the number of bytes written
 *
 * Bytes of the buffer past the sheet are 0.
 */
void xmf_write_sheet(const uint8_t *file, size_t file_length,
                     uint64_t *nodes, size_t node_words,
                     uint64_t *items, size_t item_words,
                     uint8_t *sheet, size_t sheet_length,
                     uint64_t *answer, size_t answer_words);

/* Writes the support sheet in its second edition: the first word is XMF2, and the lines of a row's
 * items stand right after the row's own line. Otherwise it is as xmf_write_sheet.
 *
 *   answer[2]  the number of bytes written
 */
void xmf_write_sheet2(const uint8_t *file, size_t file_length,
                      uint64_t *nodes, size_t node_words,
                      uint64_t *items, size_t item_words,
                      uint8_t *sheet, size_t sheet_length,
                      uint64_t *answer, size_t answer_words);

/* Replaces the data of an item row, which must be visible and universal, by a title, and writes the
 * whole file anew into a lent buffer. Every number outside data is written in its shortest form, each
 * length and place the least that fits the others; all else is copied. The tables hold the new file's
 * rows. The same title again gives the same file.
 *
 *   answer[2]  the number of bytes written
 *
 * Bytes of the buffer past the new file are 0. Refused, after the reader's refusals, with 18, 36, 37,
 * 38 and 22, in that order. The new file holds the hidden bytes of the old one.
 */
void xmf_correct_title(const uint8_t *file, size_t file_length,
                       uint64_t *nodes, size_t node_words,
                       uint64_t *items, size_t item_words,
                       size_t item_row,
                       const uint8_t *title, size_t title_length,
                       uint8_t *out, size_t out_length,
                       uint64_t *answer, size_t answer_words);

/* Copies the file into a lent buffer, with FileLength and TreeEnd set right in the bytes that they already
 * have: FileLength to the number of bytes lent, TreeEnd to the place of the root's last byte. No other
 * byte differs. Writes one line, ended by 0Ah, for each field that changed, in file order: FileLength or
 * TreeEnd, its place, its old and its new value, with tabs between. The tables hold the mended file's
 * rows. A file that is accepted as it is gives its copy and no line.
 *
 *   answer[2]  the number of bytes of the copy
 *   answer[3]  the number of bytes of the lines
 *
 * Bytes of either buffer past what is written are 0. Refused, as the unchanged file is, when either
 * field cannot be read as a number, or when no values of the two, in their bytes, make a file that is
 * accepted with these tables; then with 22 for either buffer. A file whose bytes are missing cannot be
 * mended. The copy holds the hidden bytes of the file.
 */
void xmf_mend(const uint8_t *file, size_t file_length,
              uint64_t *nodes, size_t node_words,
              uint64_t *items, size_t item_words,
              uint8_t *copy, size_t copy_length,
              uint8_t *lines, size_t lines_length,
              uint64_t *answer, size_t answer_words);

/* Converts UTF-16, high byte first, into UTF-8. It takes lent data and lent room alone, no file and no
 * tables. One leading FEFF is dropped.
 *
 *   answer[2]  the number of bytes written
 *
 * Bytes of the text's buffer past what is written are 0; after a refusal all are. Refused with 26,
 * placed in the data where the first bad character begins; then with 22.
 *
 * Hidden text is converted only here, on request: the sheet never shows it, and what this function
 * gives of it is outside demand 3. Do not put it into a ticket.
 */
void xmf_utf16_to_utf8(const uint8_t *data, size_t data_length,
                       uint8_t *text, size_t text_length,
                       uint64_t *answer, size_t answer_words);

/* Converts UTF-8 into UTF-16, high byte first. Nothing is dropped.
 *
 *   answer[2]  the number of bytes written
 *
 * Bytes of the data's buffer past what is written are 0; after a refusal all are. Refused with 26,
 * placed in the text where the first bad character begins; then with 22.
 */
void xmf_utf8_to_utf16(const uint8_t *text, size_t text_length,
                       uint8_t *data, size_t data_length,
                       uint64_t *answer, size_t answer_words);

/* Moves a sheet to its other edition; the first line says which one it is of. It takes lent data and
 * lent room alone, no file and no tables. Moving a sheet over and back gives the same bytes, and what
 * xmf_write_sheet writes of a file moves to what xmf_write_sheet2 writes of it.
 *
 *   answer[2]  the number of bytes written
 *
 * Bytes of the buffer past the sheet are 0; after a refusal all are. Refused with 31, placed at the
 * number, from 1, of the first line that cannot stand after those before it, or at 1 where only the
 * counts of the first line disagree; then with 22.
 */
void xmf_move_sheet(const uint8_t *sheet, size_t sheet_length,
                    uint8_t *out, size_t out_length,
                    uint64_t *answer, size_t answer_words);

/* Counts the frames of an ID3v2.4 tag. It takes the tag's bytes alone, no file and no tables. Bytes
 * behind the tag's size are not read.
 *
 *   answer[2]  the number of frames
 *
 * Refused with 33, 34 and 35, placed in the tag.
 *
 * The walk reads whatever it is given, hidden contents too, and what it gives of them is outside
 * demand 3. Do not put it into a ticket.
 */
void xmf_id3_count(const uint8_t *tag, size_t tag_length,
                   uint64_t *answer, size_t answer_words);

/* Gives a frame of an ID3v2.4 tag, by its number from 0 in file order.
 *
 *   answer[2]  the four bytes of its name as one number, the first byte highest
 *   answer[3]  the place of its contents, counted from the tag's first byte
 *   answer[4]  the length of its contents
 *
 * Refused as xmf_id3_count is, then with 18 when there is no such frame.
 */
void xmf_id3_frame(const uint8_t *tag, size_t tag_length,
                   size_t number,
                   uint64_t *answer, size_t answer_words);

/* Puts a sheet on a shelf that desks share, under a desk, a call and a boat. It takes no file and no
 * tables, but
 *
 *   cards   the words of the shelf's cards, XMF_CARD_WORDS each: desk, call, boat, and the length of the
 *           sheet; a card with call 0 is free, and words that are left over are no card
 *   text    the bytes of the sheets, in 16 equal parts: the sheet of a card is in the part with the
 *           card's number. A part has a sixteenth of the bytes, rounded down
 *
 * Both are read and changed by the calls of the shelf alone; a fresh shelf is all zero and has at most
 * XMF_MOST_CARDS cards. The sheet goes into the lowest free card, and the rest of its part is 0.
 *
 * There is no value. Refused with 39 when there are more than 16 cards, or a taken card has a sheet longer
 * than its part or the desk, call and boat of another; with 27 for call 0; with 29 when there is a card
 * with this desk, call and boat; with 30 when the sheet is longer than a part; with 28 when no card is
 * free. A refusal leaves cards and text as they were.
 *
 * What a desk is answered depends on its own calls, and on which of them meet 28, alone. From a fresh
 * shelf no calls lead to 39, and what was put and not dropped is got back byte for byte.
 */
void xmf_shelf_put(uint64_t *cards, size_t card_words,
                   uint8_t *text, size_t text_length,
                   uint64_t desk, uint64_t call, uint64_t boat,
                   const uint8_t *sheet, size_t sheet_length,
                   uint64_t *answer, size_t answer_words);

/* Gets a sheet from a shelf; cards and text are only read.
 *
 *   answer[2]  the number of bytes of the sheet
 *
 * Bytes of the buffer past the sheet are 0; after a refusal all are. Refused with 39 as xmf_shelf_put is;
 * with 27 for call 0, or when there is no card with this desk, call and boat; then with 22.
 */
void xmf_shelf_get(const uint64_t *cards, size_t card_words,
                   const uint8_t *text, size_t text_length,
                   uint64_t desk, uint64_t call, uint64_t boat,
                   uint8_t *out, size_t out_length,
                   uint64_t *answer, size_t answer_words);

/* Drops a sheet from a shelf: its card and its part are 0.
 *
 * There is no value. Refused with 39 and 27 as xmf_shelf_get is. A refusal leaves cards and text as they
 * were.
 */
void xmf_shelf_drop(uint64_t *cards, size_t card_words,
                    uint8_t *text, size_t text_length,
                    uint64_t desk, uint64_t call, uint64_t boat,
                    uint64_t *answer, size_t answer_words);

#ifdef __cplusplus
}
#endif

/* ==== The functions with structs ====
 *
 * They take the file with its size, and struct xmf_tables, which has room for all rows there may be. Each
 * returns 0, or the number of the refusal (enum xmf_refusal), and sets all of the answer: after a refusal
 * its first member is the refusal's place and the others are 0; after an answer the first member is 0.
 * Where a function has no answer, there is no value, and the place is always 0. No pointer to an answer, to
 * tables, to sums or to a shelf may be null. For the rest the rules are those of the functions of words,
 * which they call: a pointer may be null only where there are 0 elements.
 */

/* Whether this compiler gets them: it has to know `inline`. */
#if defined __cplusplus || (defined __STDC_VERSION__ && __STDC_VERSION__ >= 199901L)
#define XMF_STRUCTS 1
#endif

/* tables.py: begin (made of share/version and share/refusals.tsv) */
#define XMF_VERSION "0.1.0"

/* The refusals by name; share/refusals.tsv has what to do about each. */
enum xmf_refusal {
    XMF_ANSWERED = 0,
    XMF_REFUSED_NOT_XMF = 1,
    XMF_REFUSED_BAD_VERSION = 2,
    XMF_REFUSED_CUT_SHORT = 3,
    XMF_REFUSED_BAD_NUMBER = 4,
    XMF_REFUSED_WRONG_LENGTH = 5,
    XMF_REFUSED_BAD_TYPE = 6,
    XMF_REFUSED_BAD_TREE = 7,
    XMF_REFUSED_BAD_NODE = 8,
    XMF_REFUSED_TOO_DEEP = 9,
    XMF_REFUSED_NO_ROW_LEFT = 10,
    XMF_REFUSED_BAD_CONTENTS = 11,
    XMF_REFUSED_BAD_UNPACKER = 12,
    XMF_REFUSED_BAD_REFERENCE = 13,
    XMF_REFUSED_BAD_FOLDER = 14,
    XMF_REFUSED_BYTES_LEFT = 15,
    XMF_REFUSED_BAD_TARGET = 16,
    XMF_REFUSED_TOO_LARGE = 17,
    XMF_REFUSED_NO_SUCH_ROW = 18,
    XMF_REFUSED_ENDS_AT_FOLDER = 19,
    XMF_REFUSED_ENDS_AT_URI = 20,
    XMF_REFUSED_TOO_MANY_HOPS = 21,
    XMF_REFUSED_NO_ROOM = 22,
    XMF_REFUSED_NO_SUCH_ITEM = 23,
    XMF_REFUSED_BAD_DETACHED = 24,
    XMF_REFUSED_BAD_DESCRIPTION = 25,
    XMF_REFUSED_BAD_TEXT = 26,
    XMF_REFUSED_NO_SUCH_CARD = 27,
    XMF_REFUSED_NO_FREE_CARD = 28,
    XMF_REFUSED_ALREADY_THERE = 29,
    XMF_REFUSED_SHEET_TOO_LONG = 30,
    XMF_REFUSED_BAD_SHEET = 31,
    XMF_REFUSED_TOO_MANY_FILES = 32,
    XMF_REFUSED_NOT_A_TAG = 33,
    XMF_REFUSED_BAD_TAG = 34,
    XMF_REFUSED_UNSYNCHRONISED = 35,
    XMF_REFUSED_REFERS_ELSEWHERE = 36,
    XMF_REFUSED_NOT_A_TITLE = 37,
    XMF_REFUSED_RESULT_TOO_LARGE = 38,
    XMF_REFUSED_DAMAGED_SHELF = 39
};

#ifdef XMF_STRUCTS
/* Gives the meaning of a refusal's number: "answered" for 0, "not in the list" for a number that is
 * not there. It is never null. */
static inline const char *xmf_refusal_text(int number) {
    static const char *const texts[] = {
        "answered",
        "fewer than 8 bytes, or not an XMF file",
        "the version is not 1.00, 1.01 or 2.00",
        "a field runs past the part that holds it",
        "a number has more than four bytes, or a GUID more than nineteen",
        "the length in the header is not the number of bytes received",
        "the types table has a type twice, or more than 32 entries",
        "the tree begins inside the header, or ends before it begins or past the file",
        "a node does not fit its holder (the root: does not fill the tree), its header does not fit the node, "
        "or metadata or unpackers run past the header",
        "a node at depth 17",
        "no row left: more than 256 nodes or 1,024 item rows, or the lent tables are smaller",
        "a universal content of length 0, or a type that the file does not declare",
        "an unpacker of an unknown kind",
        "reference 0, or above 4",
        "a folder that is packed, or whose contents do not follow in it",
        "bytes left between a part's last field and its end",
        "a reference leads into the header, past the file's end, or into the tree where no node starts",
        "more than 268,435,455 bytes",
        "the row asked for is not there",
        "resolving ends at a folder",
        "resolving ends at a URI",
        "a fifth reference would be followed",
        "the sheet, a resource, a converted text or the new file is longer than its buffer",
        "no such item",
        "a detached node is a folder, or shares a byte with another detached node; placed at the number that "
        "refers to it",
        "a content description is not readable: a field is cut short, a number has more than four bytes, a "
        "kind is above 5, or bytes are left over",
        "UTF-16 of odd length or with half of a surrogate pair, or bad UTF-8",
        "call 0, or the shelf has no card with this desk, call and boat",
        "all cards of the shelf are taken",
        "the shelf has a card with this desk, call and boat already",
        "the sheet is longer than a part of the shelf",
        "the sheet is not well formed; the place is a line's number, counted from 1",
        "a 1,001st file",
        "fewer than ten bytes, not an ID3 tag, or not version 4 of it",
        "the tag is cut short, has a size byte of 80h or more, or too small an extended size",
        "the tag or a frame is unsynchronised",
        "a node has reference 2 or 3",
        "the content to be corrected is hidden, or one of several versions",
        "the file with the new title would have more than 268,435,455 bytes",
        "the shelf has more than 16 cards, or a taken card that is faulty",
    };
    return number < 0 || number > 39 ? "not in the list" : texts[number];
}
#endif
/* tables.py: end */

/* Both tables at full size, 108,544 bytes: better static or allocated than on a small stack. They may hold
 * anything before a call. */
struct xmf_tables {
    uint64_t nodes[XMF_ALL_NODE_WORDS];
    uint64_t items[XMF_ALL_ITEM_WORDS];
};

/* A node row; enum xmf_node explains its words. */
struct xmf_node_row {
    uint64_t start, length, header_length, contained, parent, depth, reference;
    uint64_t target, extent, unpackers, unpacker_count, items, detached;
};

/* An item row; enum xmf_item explains its words. */
struct xmf_item_row {
    uint64_t node, number, kind, field, name_length, version, type, format, data, data_length;
};

/* A field to be found: XMF_STANDARD with a number, or XMF_CUSTOM with a name. */
struct xmf_field {
    uint64_t kind, number;
    const uint8_t *name;
    size_t name_length;
};

/* Sums over files; they begin all zero. */
struct xmf_sums {
    uint64_t files, refused, bytes[9];
};

/* Which sheet on a shelf is meant: the desk, the call and the boat that it is for. */
struct xmf_label {
    uint64_t desk, call, boat;
};

/* A shelf with all cards there may be, and its text, which is lent. A fresh one is all zero, text and cards:
 *
 *   static uint8_t text[XMF_MOST_CARDS * 65536];
 *   static struct xmf_shelf shelf = {{0}, text, sizeof text};
 */
struct xmf_shelf {
    uint64_t cards[XMF_MOST_CARDS * XMF_CARD_WORDS];
    uint8_t *text;
    size_t text_length; /* a sheet may have a sixteenth of it */
};

/* The answers. The first member of each is the place of a refusal. */
struct xmf_shape {
    uint64_t refused_at;
    uint64_t version;    /* 100, 101 or 200 */
    size_t nodes, items; /* the number of rows; xmf_node_at and xmf_item_at give one */
};
struct xmf_found {
    uint64_t refused_at;
    size_t row; /* the number of the item row */
    struct xmf_item_row item;
};
struct xmf_located {
    uint64_t refused_at;
    size_t place, length;
    size_t row;          /* the node row whose unpackers apply */
    uint64_t references; /* the number of references followed */
};
struct xmf_count {
    uint64_t refused_at;
    uint64_t count;
};
struct xmf_judged {
    uint64_t refused_at;
    uint64_t check; /* 0: it is a Mobile XMF file; otherwise the first check that fails, 1 to 8 */
};
struct xmf_kinds {
    uint64_t refused_at;
    uint64_t bytes[9]; /* by enum xmf_kind */
};
struct xmf_written {
    uint64_t refused_at;
    size_t length; /* the number of bytes written */
};
struct xmf_mended {
    uint64_t refused_at;
    size_t length; /* the number of bytes of the copy, which is that of the file */
    size_t lines;  /* the number of bytes of the lines; 0 when nothing was changed */
};
struct xmf_frame {
    uint64_t refused_at;
    char name[5]; /* the four bytes of its name, and a 0 */
    size_t place, length;
};

#ifdef XMF_STRUCTS

#ifdef __cplusplus
#define XMF_AS(type, value) (static_cast<type>(value))
#else
#define XMF_AS(type, value) ((type)(value))
#endif

/* Gives the version of this header, XMF_VERSION. The number in the name libxmf.so.0 changes when programs
 * have to be built anew. */
static inline const char *xmf_version(void) {
    return XMF_VERSION;
}

/* Gives a node row that is in the tables; all 0 for a number of 256 or more. */
static inline struct xmf_node_row xmf_node_at(const struct xmf_tables *tables, size_t row) {
    static const uint64_t none[XMF_NODE_WORDS] = {0};
    const uint64_t *words = row < 256 ? tables->nodes + row * XMF_NODE_WORDS : none;
    struct xmf_node_row node;
    node.start = words[XMF_NODE_START];
    node.length = words[XMF_NODE_LENGTH];
    node.header_length = words[XMF_NODE_HEADER_LENGTH];
    node.contained = words[XMF_NODE_CONTAINED];
    node.parent = words[XMF_NODE_PARENT];
    node.depth = words[XMF_NODE_DEPTH];
    node.reference = words[XMF_NODE_REFERENCE];
    node.target = words[XMF_NODE_TARGET];
    node.extent = words[XMF_NODE_EXTENT];
    node.unpackers = words[XMF_NODE_UNPACKERS];
    node.unpacker_count = words[XMF_NODE_UNPACKER_COUNT];
    node.items = words[XMF_NODE_ITEMS];
    node.detached = words[XMF_NODE_DETACHED];
    return node;
}

/* Gives the item row that ten words are. */
static inline struct xmf_item_row xmf_item_of(const uint64_t *words) {
    struct xmf_item_row item;
    item.node = words[XMF_ITEM_NODE];
    item.number = words[XMF_ITEM_NUMBER];
    item.kind = words[XMF_ITEM_KIND];
    item.field = words[XMF_ITEM_FIELD];
    item.name_length = words[XMF_ITEM_NAME_LENGTH];
    item.version = words[XMF_ITEM_VERSION];
    item.type = words[XMF_ITEM_TYPE];
    item.format = words[XMF_ITEM_FORMAT];
    item.data = words[XMF_ITEM_DATA];
    item.data_length = words[XMF_ITEM_DATA_LENGTH];
    return item;
}

/* Gives an item row that is in the tables; all 0 for a number of 1,024 or more. */
static inline struct xmf_item_row xmf_item_at(const struct xmf_tables *tables, size_t row) {
    static const uint64_t none[XMF_ITEM_WORDS] = {0};
    return xmf_item_of(row < 1024 ? tables->items + row * XMF_ITEM_WORDS : none);
}

/* Gives the standard field of a number. */
static inline struct xmf_field xmf_standard(uint64_t number) {
    struct xmf_field field;
    field.kind = XMF_STANDARD;
    field.number = number;
    field.name = NULL;
    field.name_length = 0;
    return field;
}

/* Gives the custom field of a name that ends with a 0; its bytes must stay until it is used. A name that
 * holds a 0 is put into the struct by hand. */
static inline struct xmf_field xmf_custom(const char *name) {
    struct xmf_field field;
    field.kind = XMF_CUSTOM;
    field.number = 0;
    field.name = XMF_AS(const uint8_t *, XMF_AS(const void *, name));
    field.name_length = 0;
    while (name[field.name_length] != 0) {
        field.name_length++;
    }
    return field;
}

/* Reads the tree, and the detached nodes that references lead to, into the tables (xmf_read_tree). */
static inline int xmf_tree(const uint8_t *file, size_t size, struct xmf_tables *tables,
                           struct xmf_shape *answer) {
    uint64_t words[5];
    xmf_read_tree(file, size, tables->nodes, XMF_ALL_NODE_WORDS, tables->items, XMF_ALL_ITEM_WORDS, words,
                  5);
    answer->refused_at = words[1];
    answer->version = words[2];
    answer->nodes = words[3];
    answer->items = words[4];
    return XMF_AS(int, words[0]);
}

/* Finds the first item of a field on the node of a row, or on the nearest node above it that has one
 * (xmf_find). */
static inline int xmf_nearest(const uint8_t *file, size_t size, struct xmf_tables *tables, size_t row,
                              struct xmf_field field, struct xmf_found *answer) {
    uint64_t words[XMF_ANSWER_WORDS];
    xmf_find(file, size, tables->nodes, XMF_ALL_NODE_WORDS, tables->items, XMF_ALL_ITEM_WORDS, row,
             field.kind, field.number, field.name, field.name_length, words, XMF_ANSWER_WORDS);
    answer->refused_at = words[1];
    answer->row = words[2];
    answer->item = xmf_item_of(words + 3);
    return XMF_AS(int, words[0]);
}

/* Finds the first item of a field on the node of a row itself (xmf_find_own). */
static inline int xmf_own(const uint8_t *file, size_t size, struct xmf_tables *tables, size_t row,
                          struct xmf_field field, struct xmf_found *answer) {
    uint64_t words[XMF_ANSWER_WORDS];
    xmf_find_own(file, size, tables->nodes, XMF_ALL_NODE_WORDS, tables->items, XMF_ALL_ITEM_WORDS, row,
                 field.kind, field.number, field.name, field.name_length, words, XMF_ANSWER_WORDS);
    answer->refused_at = words[1];
    answer->row = words[2];
    answer->item = xmf_item_of(words + 3);
    return XMF_AS(int, words[0]);
}

/* Says where the resource of a row's node lies (xmf_resolve). */
static inline int xmf_locate(const uint8_t *file, size_t size, struct xmf_tables *tables, size_t row,
                             struct xmf_located *answer) {
    uint64_t words[6];
    xmf_resolve(file, size, tables->nodes, XMF_ALL_NODE_WORDS, tables->items, XMF_ALL_ITEM_WORDS, row,
                words, 6);
    answer->refused_at = words[1];
    answer->place = words[2];
    answer->length = words[3];
    answer->row = words[4];
    answer->references = words[5];
    return XMF_AS(int, words[0]);
}

/* Copies the resource of a row's node (xmf_resource). It may hold hidden data: not for a ticket. */
static inline int xmf_extract(const uint8_t *file, size_t size, struct xmf_tables *tables, size_t row,
                              uint8_t *out, size_t room, struct xmf_located *answer) {
    uint64_t words[6];
    xmf_resource(file, size, tables->nodes, XMF_ALL_NODE_WORDS, tables->items, XMF_ALL_ITEM_WORDS, row, out,
                 room, words, 6);
    answer->refused_at = words[1];
    answer->place = words[2];
    answer->length = words[3];
    answer->row = words[4];
    answer->references = words[5];
    return XMF_AS(int, words[0]);
}

/* Gives the count of a content description, an item row, for a channel and a resource (xmf_voice_count). */
static inline int xmf_needs(const uint8_t *file, size_t size, struct xmf_tables *tables, size_t item_row,
                            uint64_t channel, uint64_t resource, struct xmf_count *answer) {
    uint64_t words[3];
    xmf_voice_count(file, size, tables->nodes, XMF_ALL_NODE_WORDS, tables->items, XMF_ALL_ITEM_WORDS,
                    item_row, channel, resource, words, 3);
    answer->refused_at = words[1];
    answer->count = words[2];
    return XMF_AS(int, words[0]);
}

/* Judges whether the file is a Mobile XMF file (xmf_judge). */
static inline int xmf_verdict(const uint8_t *file, size_t size, struct xmf_tables *tables,
                              struct xmf_judged *answer) {
    uint64_t words[3];
    xmf_judge(file, size, tables->nodes, XMF_ALL_NODE_WORDS, tables->items, XMF_ALL_ITEM_WORDS, words, 3);
    answer->refused_at = words[1];
    answer->check = words[2];
    return XMF_AS(int, words[0]);
}

/* Counts the bytes of the file by kind, and adds them to the sums (xmf_account). */
static inline int xmf_bytes(const uint8_t *file, size_t size, struct xmf_tables *tables,
                            struct xmf_sums *sums, struct xmf_kinds *answer) {
    uint64_t words[11];
    uint64_t totals[XMF_TOTAL_WORDS];
    size_t kind;
    totals[0] = sums->files;
    totals[1] = sums->refused;
    for (kind = 0; kind < 9; kind++) {
        totals[kind + 2] = sums->bytes[kind];
    }
    xmf_account(file, size, tables->nodes, XMF_ALL_NODE_WORDS, tables->items, XMF_ALL_ITEM_WORDS, totals,
                XMF_TOTAL_WORDS, words, 11);
    answer->refused_at = words[1];
    for (kind = 0; kind < 9; kind++) {
        answer->bytes[kind] = words[kind + 2];
        sums->bytes[kind] = totals[kind + 2];
    }
    sums->files = totals[0];
    sums->refused = totals[1];
    return XMF_AS(int, words[0]);
}

/* Writes the support sheet (xmf_write_sheet). */
static inline int xmf_sheet(const uint8_t *file, size_t size, struct xmf_tables *tables, uint8_t *sheet,
                            size_t room, struct xmf_written *answer) {
    uint64_t words[3];
    xmf_write_sheet(file, size, tables->nodes, XMF_ALL_NODE_WORDS, tables->items, XMF_ALL_ITEM_WORDS, sheet,
                    room, words, 3);
    answer->refused_at = words[1];
    answer->length = words[2];
    return XMF_AS(int, words[0]);
}

/* Writes the support sheet in its second edition (xmf_write_sheet2). */
static inline int xmf_sheet2(const uint8_t *file, size_t size, struct xmf_tables *tables, uint8_t *sheet,
                             size_t room, struct xmf_written *answer) {
    uint64_t words[3];
    xmf_write_sheet2(file, size, tables->nodes, XMF_ALL_NODE_WORDS, tables->items, XMF_ALL_ITEM_WORDS,
                     sheet, room, words, 3);
    answer->refused_at = words[1];
    answer->length = words[2];
    return XMF_AS(int, words[0]);
}

/* Writes the file with a title as the data of an item row (xmf_correct_title). The tables hold the new
 * file's rows. */
static inline int xmf_retitle(const uint8_t *file, size_t size, struct xmf_tables *tables, size_t item_row,
                              const uint8_t *title, size_t title_length, uint8_t *out, size_t room,
                              struct xmf_written *answer) {
    uint64_t words[3];
    xmf_correct_title(file, size, tables->nodes, XMF_ALL_NODE_WORDS, tables->items, XMF_ALL_ITEM_WORDS,
                      item_row, title, title_length, out, room, words, 3);
    answer->refused_at = words[1];
    answer->length = words[2];
    return XMF_AS(int, words[0]);
}

/* Copies the file with its header set right, and writes a line for each field that changed (xmf_mend);
 * XMF_LINES_ROOM bytes hold the lines of any file. The tables hold the mended file's rows. The copy holds the
 * hidden bytes of the file. */
static inline int xmf_mend_header(const uint8_t *file, size_t size, struct xmf_tables *tables, uint8_t *copy,
                                  size_t room, uint8_t *lines, size_t lines_room,
                                  struct xmf_mended *answer) {
    uint64_t words[4];
    xmf_mend(file, size, tables->nodes, XMF_ALL_NODE_WORDS, tables->items, XMF_ALL_ITEM_WORDS, copy, room,
             lines, lines_room, words, 4);
    answer->refused_at = words[1];
    answer->length = words[2];
    answer->lines = words[3];
    return XMF_AS(int, words[0]);
}

/* Converts UTF-16, high byte first, into UTF-8 (xmf_utf16_to_utf8). */
static inline int xmf_to_utf8(const uint8_t *data, size_t size, uint8_t *text, size_t room,
                              struct xmf_written *answer) {
    uint64_t words[3];
    xmf_utf16_to_utf8(data, size, text, room, words, 3);
    answer->refused_at = words[1];
    answer->length = words[2];
    return XMF_AS(int, words[0]);
}

/* Converts UTF-8 into UTF-16, high byte first (xmf_utf8_to_utf16). */
static inline int xmf_to_utf16(const uint8_t *text, size_t size, uint8_t *data, size_t room,
                               struct xmf_written *answer) {
    uint64_t words[3];
    xmf_utf8_to_utf16(text, size, data, room, words, 3);
    answer->refused_at = words[1];
    answer->length = words[2];
    return XMF_AS(int, words[0]);
}

/* Moves a sheet to its other edition (xmf_move_sheet). */
static inline int xmf_other_edition(const uint8_t *sheet, size_t size, uint8_t *out, size_t room,
                                    struct xmf_written *answer) {
    uint64_t words[3];
    xmf_move_sheet(sheet, size, out, room, words, 3);
    answer->refused_at = words[1];
    answer->length = words[2];
    return XMF_AS(int, words[0]);
}

/* Counts the frames of an ID3v2.4 tag (xmf_id3_count). */
static inline int xmf_tag_count(const uint8_t *tag, size_t size, struct xmf_count *answer) {
    uint64_t words[3];
    xmf_id3_count(tag, size, words, 3);
    answer->refused_at = words[1];
    answer->count = words[2];
    return XMF_AS(int, words[0]);
}

/* Gives a frame of an ID3v2.4 tag by its number from 0 (xmf_id3_frame). */
static inline int xmf_tag_frame(const uint8_t *tag, size_t size, size_t number, struct xmf_frame *answer) {
    uint64_t words[5];
    int i;
    xmf_id3_frame(tag, size, number, words, 5);
    answer->refused_at = words[1];
    for (i = 0; i < 4; i++) {
        answer->name[i] = XMF_AS(char, words[2] >> (24 - 8 * i) & 255);
    }
    answer->name[4] = 0;
    answer->place = words[3];
    answer->length = words[4];
    return XMF_AS(int, words[0]);
}

/* Puts a sheet on a shelf (xmf_shelf_put). A refusal leaves the shelf as it was. */
static inline int xmf_put_sheet(struct xmf_shelf *shelf, struct xmf_label label, const uint8_t *sheet,
                                size_t size) {
    uint64_t words[2];
    xmf_shelf_put(shelf->cards, XMF_MOST_CARDS * XMF_CARD_WORDS, shelf->text, shelf->text_length, label.desk,
                  label.call, label.boat, sheet, size, words, 2);
    return XMF_AS(int, words[0]);
}

/* Gets a sheet from a shelf (xmf_shelf_get). */
static inline int xmf_get_sheet(const struct xmf_shelf *shelf, struct xmf_label label, uint8_t *sheet,
                                size_t room, struct xmf_written *answer) {
    uint64_t words[3];
    xmf_shelf_get(shelf->cards, XMF_MOST_CARDS * XMF_CARD_WORDS, shelf->text, shelf->text_length, label.desk,
                  label.call, label.boat, sheet, room, words, 3);
    answer->refused_at = words[1];
    answer->length = words[2];
    return XMF_AS(int, words[0]);
}

/* Drops a sheet from a shelf (xmf_shelf_drop). A refusal leaves the shelf as it was. */
static inline int xmf_drop_sheet(struct xmf_shelf *shelf, struct xmf_label label) {
    uint64_t words[2];
    xmf_shelf_drop(shelf->cards, XMF_MOST_CARDS * XMF_CARD_WORDS, shelf->text, shelf->text_length, label.desk,
                   label.call, label.boat, words, 2);
    return XMF_AS(int, words[0]);
}

#endif

#endif
