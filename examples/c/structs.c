/* Tries every function with structs on the samples: structs FOLDER. Each answer must be that of the function of words. */
#include <string.h>

#include "load.h"

static int failed;
static uint64_t words[XMF_ANSWER_WORDS];
static uint64_t nodes[XMF_ALL_NODE_WORDS], items[XMF_ALL_ITEM_WORDS];
static uint8_t out[ROOM], other[ROOM], lines[XMF_LINES_ROOM], other_lines[XMF_LINES_ROOM];

static void expect(const char *what, int holds) {
    if (!holds) {
        printf("structs: %s\n", what);
        failed = 1;
    }
}

#define LENT file, size, nodes, XMF_ALL_NODE_WORDS, items, XMF_ALL_ITEM_WORDS
#define ANSWER words, XMF_ANSWER_WORDS
/* The number and the place of the answer are those in words. */
#define SAME(result, answer) ((uint64_t)(result) == words[0] && (answer).refused_at == words[1])

static void find(size_t size, size_t row, struct xmf_field field) {
    struct xmf_found found;
    int refusal = xmf_nearest(file, size, &tables, row, field, &found);
    xmf_find(LENT, row, field.kind, field.number, field.name, field.name_length, ANSWER);
    expect("nearest", SAME(refusal, found) && found.row == words[2] && found.item.node == words[3] && found.item.data_length == words[12]);
    refusal = xmf_own(file, size, &tables, row, field, &found);
    xmf_find_own(LENT, row, field.kind, field.number, field.name, field.name_length, ANSWER);
    expect("own", SAME(refusal, found) && found.row == words[2] && found.item.format == words[10] && found.item.data == words[11]);
}

static void mend(size_t size) {
    struct xmf_mended mended;
    int refusal = xmf_mend_header(file, size, &tables, out, sizeof out, lines, sizeof lines, &mended);
    xmf_mend(LENT, other, sizeof other, other_lines, sizeof other_lines, ANSWER);
    expect("mend_header", SAME(refusal, mended) && mended.length == words[2] && mended.lines == words[3]);
    expect("mended", memcmp(out, other, sizeof out) == 0 && memcmp(lines, other_lines, sizeof lines) == 0);
    expect("rows of the mended", memcmp(tables.nodes, nodes, sizeof nodes) == 0 && memcmp(tables.items, items, sizeof items) == 0);
}

static void try_file(size_t size) {
    struct xmf_shape tree;
    struct xmf_located located;
    struct xmf_count count;
    struct xmf_judged judged;
    struct xmf_kinds kinds;
    struct xmf_sums sums;
    struct xmf_written written;
    uint64_t totals[XMF_TOTAL_WORDS];
    size_t row;
    int refusal = xmf_tree(file, size, &tables, &tree);
    xmf_read_tree(LENT, ANSWER);
    expect("tree", SAME(refusal, tree) && tree.version == words[2] && tree.nodes == words[3] && tree.items == words[4]);
    expect("tables", memcmp(tables.nodes, nodes, sizeof nodes) == 0 && memcmp(tables.items, items, sizeof items) == 0);
    for (row = 0; row < tree.nodes; row++) {
        expect("node_at", xmf_node_at(&tables, row).start == nodes[13 * row] && xmf_node_at(&tables, row).detached == nodes[13 * row + 12]);
    }
    for (row = 0; row < tree.items; row++) {
        expect("item_at", xmf_item_at(&tables, row).node == items[10 * row] && xmf_item_at(&tables, row).data_length == items[10 * row + 9]);
    }
    expect("no such row", xmf_node_at(&tables, 256).length == 0 && xmf_item_at(&tables, (size_t)-1).data_length == 0);
    for (row = 0; row < 8; row++) {
        find(size, row, xmf_standard(3));
        find(size, row, xmf_standard(9));
        find(size, row, xmf_custom("key"));
        find(size, row, xmf_custom(""));
        refusal = xmf_locate(file, size, &tables, row, &located);
        xmf_resolve(LENT, row, ANSWER);
        expect("locate", SAME(refusal, located) && located.place == words[2] && located.length == words[3] && located.row == words[4] && located.references == words[5]);
        refusal = xmf_extract(file, size, &tables, row, out, sizeof out, &located);
        xmf_resource(LENT, row, other, sizeof other, ANSWER);
        expect("extract", SAME(refusal, located) && located.length == words[3] && memcmp(out, other, sizeof out) == 0);
        refusal = xmf_needs(file, size, &tables, row, 0, 0, &count);
        xmf_voice_count(LENT, row, 0, 0, ANSWER);
        expect("needs", SAME(refusal, count) && count.count == words[2]);
        refusal = xmf_retitle(file, size, &tables, row, file, 5, out, sizeof out, &written);
        xmf_correct_title(LENT, row, file, 5, other, sizeof other, ANSWER);
        expect("retitle", SAME(refusal, written) && written.length == words[2] && memcmp(out, other, sizeof out) == 0);
    }
    mend(size);
    refusal = xmf_verdict(file, size, &tables, &judged);
    xmf_judge(LENT, ANSWER);
    expect("verdict", SAME(refusal, judged) && judged.check == words[2]);
    memset(&sums, 0, sizeof sums);
    memset(totals, 0, sizeof totals);
    refusal = xmf_bytes(file, size, &tables, &sums, &kinds);
    xmf_account(LENT, totals, XMF_TOTAL_WORDS, ANSWER);
    expect("bytes", SAME(refusal, kinds) && memcmp(kinds.bytes, words + 2, sizeof kinds.bytes) == 0);
    expect("sums", sums.files == totals[0] && sums.refused == totals[1] && memcmp(sums.bytes, totals + 2, sizeof sums.bytes) == 0);
    refusal = xmf_sheet2(file, size, &tables, out, sizeof out, &written);
    xmf_write_sheet2(LENT, other, sizeof other, ANSWER);
    expect("sheet2", SAME(refusal, written) && written.length == words[2] && memcmp(out, other, sizeof out) == 0);
    refusal = xmf_sheet(file, size, &tables, out, sizeof out, &written);
    xmf_write_sheet(LENT, other, sizeof other, ANSWER);
    expect("sheet", SAME(refusal, written) && written.length == words[2] && memcmp(out, other, sizeof out) == 0);
    if (refusal == 0) {
        size = written.length;
        memcpy(file, other, size);
        refusal = xmf_other_edition(file, size, out, sizeof out, &written);
        xmf_move_sheet(file, size, other, sizeof other, ANSWER);
        expect("other_edition", SAME(refusal, written) && refusal == 0 && written.length == size + 1 && memcmp(out, other, sizeof out) == 0);
    }
}

static void try_texts(void) {
    static const uint8_t wide[] = {0xFE, 0xFF, 0, 'H', 0xD8, 0x34, 0xDD, 0x1E}, half[] = {0, 'H', 0xD8, 0x34};
    static const uint8_t tag[] = {'I', 'D', '3', 4, 0, 0, 0, 0, 0, 12, 'T', 'I', 'T', '2', 0, 0, 0, 2, 0, 0, 'H', 'i'};
    struct xmf_written written;
    struct xmf_count count;
    struct xmf_frame frame;
    expect("to_utf8", xmf_to_utf8(wide, sizeof wide, out, 9, &written) == 0 && written.length == 5 && memcmp(out, "H\xF0\x9D\x84\x9E", 5) == 0);
    expect("to_utf16", xmf_to_utf16(out, 5, other, 9, &written) == 0 && written.length == 6 && memcmp(other, wide + 2, 6) == 0);
    expect("bad text", xmf_to_utf8(half, sizeof half, out, 9, &written) == XMF_REFUSED_BAD_TEXT && written.refused_at == 2 && written.length == 0);
    expect("no room", xmf_to_utf8(wide, sizeof wide, NULL, 0, &written) == XMF_REFUSED_NO_ROOM);
    expect("tag_count", xmf_tag_count(tag, sizeof tag, &count) == 0 && count.count == 1);
    expect("tag_frame", xmf_tag_frame(tag, sizeof tag, 0, &frame) == 0 && strcmp(frame.name, "TIT2") == 0 && frame.place == 20 && frame.length == 2);
    expect("no such frame", xmf_tag_frame(tag, sizeof tag, 1, &frame) == XMF_REFUSED_NO_SUCH_ROW && frame.name[0] == 0);
    expect("cut tag", xmf_tag_count(tag, sizeof tag - 1, &count) == XMF_REFUSED_BAD_TAG);
}

/* The same calls by the functions of words, on a shelf of their own, must leave the same. */
static void try_shelf(void) {
    static const uint8_t sheet[] = "XMF\t2.00";
    static uint8_t text[XMF_MOST_CARDS * 8], other_text[sizeof text];
    static uint64_t cards[XMF_MOST_CARDS * XMF_CARD_WORDS];
    const size_t card_words = XMF_MOST_CARDS * XMF_CARD_WORDS;
    struct xmf_shelf shelf = {{0}, text, sizeof text};
    struct xmf_label label = {0, 4711, 12}, no_call = {0, 0, 12};
    struct xmf_written written;
    for (label.desk = 0; label.desk < XMF_MOST_CARDS; label.desk++) {
        expect("put_sheet", xmf_put_sheet(&shelf, label, sheet, label.desk % 9) == 0);
        xmf_shelf_put(cards, card_words, other_text, sizeof other_text, label.desk, 4711, 12, sheet, label.desk % 9, ANSWER);
    }
    expect("full", xmf_put_sheet(&shelf, label, sheet, 8) == XMF_REFUSED_NO_FREE_CARD);
    expect("too long", xmf_put_sheet(&shelf, label, sheet, 9) == XMF_REFUSED_SHEET_TOO_LONG);
    label.desk = 8;
    expect("there already", xmf_put_sheet(&shelf, label, NULL, 0) == XMF_REFUSED_ALREADY_THERE);
    expect("call 0", xmf_put_sheet(&shelf, no_call, sheet, 8) == XMF_REFUSED_NO_SUCH_CARD);
    expect("shelf", memcmp(shelf.cards, cards, sizeof cards) == 0 && memcmp(text, other_text, sizeof text) == 0);
    expect("get_sheet", xmf_get_sheet(&shelf, label, out, 9, &written) == 0 && written.length == 8 && memcmp(out, sheet, 9) == 0);
    expect("no room on a desk", xmf_get_sheet(&shelf, label, out, 7, &written) == XMF_REFUSED_NO_ROOM && written.length == 0 && out[0] == 0);
    expect("drop_sheet", xmf_drop_sheet(&shelf, label) == 0);
    xmf_shelf_drop(cards, card_words, other_text, sizeof other_text, 8, 4711, 12, ANSWER);
    expect("dropped", xmf_drop_sheet(&shelf, label) == XMF_REFUSED_NO_SUCH_CARD);
    expect("not there", xmf_get_sheet(&shelf, label, out, 9, &written) == XMF_REFUSED_NO_SUCH_CARD && written.refused_at == 0);
    expect("shelf after a drop", memcmp(shelf.cards, cards, sizeof cards) == 0 && memcmp(text, other_text, sizeof text) == 0);
    shelf.cards[3] = 9;
    expect("damaged", xmf_drop_sheet(&shelf, label) == XMF_REFUSED_DAMAGED_SHELF);
}

int main(int argc, char **argv) {
    int i;
    if (argc < 2) {
        fprintf(stderr, "usage: structs FILE..\n");
        return 1;
    }
    for (i = 1; i < argc; i++) {
        size_t size = load(argv[i]);
        try_file(size);
        size = load(argv[i]);
        try_file(size - 1);
    }
    try_texts();
    try_shelf();
    expect("version", strcmp(xmf_version(), XMF_VERSION) == 0);
    expect("texts", strcmp(xmf_refusal_text(XMF_REFUSED_NO_SUCH_ITEM), "no such item") == 0 && strcmp(xmf_refusal_text(0), "answered") == 0 &&
                        strcmp(xmf_refusal_text(-1), xmf_refusal_text(1000)) == 0);
    if (!failed) {
        printf("functions with structs: the answers of the functions of words, %d files\n", argc - 1);
    }
    return failed;
}
