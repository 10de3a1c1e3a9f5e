/* Calls every function with null pointers for 0 elements, which xmf.h allows: empty FILE, an accepted file. */
#include <inttypes.h>
#include <stdio.h>

#include "xmf.h"

static uint8_t file[65536];
static uint64_t nodes[XMF_ALL_NODE_WORDS];
static uint64_t items[XMF_ALL_ITEM_WORDS];
static uint8_t sheet[65536];
static uint64_t answer[XMF_ANSWER_WORDS];
static int failed;

/* The last answer must be this refusal. */
static void expect(const char *question, uint64_t refusal) {
    if (answer[0] != refusal) {
        printf("%s: %" PRIu64 ", not %" PRIu64 "\n", question, answer[0], refusal);
        failed = 1;
    }
}

int main(int argc, char **argv) {
    FILE *in = argc == 2 ? fopen(argv[1], "rb") : NULL;
    if (in == NULL) {
        fprintf(stderr, "usage: empty FILE\n");
        return 2;
    }
    size_t length = fread(file, 1, sizeof file, in);
    fclose(in);

    /* no file and no tables: 1, fewer than 8 bytes */
    xmf_read_tree(NULL, 0, NULL, 0, NULL, 0, answer, XMF_ANSWER_WORDS);
    expect("read_tree of nothing", 1);
    xmf_find(NULL, 0, NULL, 0, NULL, 0, 0, XMF_CUSTOM, 0, NULL, 0, answer, XMF_ANSWER_WORDS);
    expect("find in nothing", 1);
    xmf_resolve(NULL, 0, NULL, 0, NULL, 0, 0, answer, XMF_ANSWER_WORDS);
    expect("resolve in nothing", 1);
    xmf_resource(NULL, 0, NULL, 0, NULL, 0, 0, NULL, 0, answer, XMF_ANSWER_WORDS);
    expect("resource in nothing", 1);
    xmf_voice_count(NULL, 0, NULL, 0, NULL, 0, 0, 0, 0, answer, XMF_ANSWER_WORDS);
    expect("voice_count in nothing", 1);
    xmf_judge(NULL, 0, NULL, 0, NULL, 0, answer, XMF_ANSWER_WORDS);
    expect("judge nothing", 1);
    xmf_account(NULL, 0, NULL, 0, NULL, 0, NULL, 0, answer, XMF_ANSWER_WORDS);
    expect("account of nothing", 1);
    xmf_write_sheet(NULL, 0, NULL, 0, NULL, 0, NULL, 0, answer, XMF_ANSWER_WORDS);
    expect("write_sheet of nothing", 1);
    xmf_write_sheet2(NULL, 0, NULL, 0, NULL, 0, NULL, 0, answer, XMF_ANSWER_WORDS);
    expect("write_sheet2 of nothing", 1);
    xmf_move_sheet(NULL, 0, NULL, 0, answer, XMF_ANSWER_WORDS);
    expect("move_sheet of nothing", 31);
    xmf_correct_title(NULL, 0, NULL, 0, NULL, 0, 0, NULL, 0, NULL, 0, answer, XMF_ANSWER_WORDS);
    expect("correct_title of nothing", 1);
    xmf_mend(NULL, 0, NULL, 0, NULL, 0, NULL, 0, NULL, 0, answer, XMF_ANSWER_WORDS);
    expect("mend of nothing", 1);
    xmf_id3_count(NULL, 0, answer, XMF_ANSWER_WORDS);
    expect("id3_count of nothing", 33);
    xmf_id3_frame(NULL, 0, 0, answer, XMF_ANSWER_WORDS);
    expect("id3_frame of nothing", 33);

    /* no cards and no text: 28, no free card; 27, no such card */
    xmf_shelf_put(NULL, 0, NULL, 0, 1, 4711, 12, NULL, 0, answer, XMF_ANSWER_WORDS);
    expect("shelf_put on nothing", 28);
    xmf_shelf_get(NULL, 0, NULL, 0, 1, 4711, 12, NULL, 0, answer, XMF_ANSWER_WORDS);
    expect("shelf_get from nothing", 27);
    xmf_shelf_drop(NULL, 0, NULL, 0, 1, 4711, 12, answer, XMF_ANSWER_WORDS);
    expect("shelf_drop from nothing", 27);
    xmf_shelf_put(NULL, 0, NULL, 0, 1, 4711, 12, NULL, 0, NULL, 0);

    /* no tables: 10, no row left */
    xmf_read_tree(file, length, NULL, 0, NULL, 0, answer, XMF_ANSWER_WORDS);
    expect("read_tree without tables", 10);
    xmf_find(file, length, NULL, 0, NULL, 0, 0, XMF_STANDARD, 3, NULL, 0, answer, XMF_ANSWER_WORDS);
    expect("find without tables", 10);
    xmf_resolve(file, length, NULL, 0, NULL, 0, 0, answer, XMF_ANSWER_WORDS);
    expect("resolve without tables", 10);
    xmf_resource(file, length, NULL, 0, NULL, 0, 1, sheet, sizeof sheet, answer, XMF_ANSWER_WORDS);
    expect("resource without tables", 10);
    xmf_voice_count(file, length, NULL, 0, NULL, 0, 0, 0, 0, answer, XMF_ANSWER_WORDS);
    expect("voice_count without tables", 10);
    xmf_judge(file, length, NULL, 0, NULL, 0, answer, XMF_ANSWER_WORDS);
    expect("judge without tables", 10);
    xmf_account(file, length, NULL, 0, NULL, 0, NULL, 0, answer, XMF_ANSWER_WORDS);
    expect("account without tables", 10);
    xmf_write_sheet(file, length, NULL, 0, NULL, 0, sheet, sizeof sheet, answer, XMF_ANSWER_WORDS);
    expect("write_sheet without tables", 10);
    xmf_write_sheet2(file, length, NULL, 0, NULL, 0, sheet, sizeof sheet, answer, XMF_ANSWER_WORDS);
    expect("write_sheet2 without tables", 10);
    xmf_correct_title(file, length, NULL, 0, NULL, 0, 0, NULL, 0, sheet, sizeof sheet, answer, XMF_ANSWER_WORDS);
    expect("correct_title without tables", 10);
    xmf_mend(file, length, NULL, 0, NULL, 0, sheet, sizeof sheet, NULL, 0, answer, XMF_ANSWER_WORDS);
    expect("mend without tables", 10);

    /* no name: 23, no such item; no buffer for the resource, the sheet or the new file: 22; no title: taken;
     * no buffer for lines: taken, where there is none */
    xmf_find(file, length, nodes, XMF_ALL_NODE_WORDS, items, XMF_ALL_ITEM_WORDS, 0, XMF_CUSTOM, 0, NULL, 0, answer,
             XMF_ANSWER_WORDS);
    expect("find without a name", 23);
    xmf_resource(file, length, nodes, XMF_ALL_NODE_WORDS, items, XMF_ALL_ITEM_WORDS, 1, NULL, 0, answer,
                 XMF_ANSWER_WORDS);
    expect("resource without a buffer", 22);
    xmf_write_sheet(file, length, nodes, XMF_ALL_NODE_WORDS, items, XMF_ALL_ITEM_WORDS, NULL, 0, answer,
                    XMF_ANSWER_WORDS);
    expect("write_sheet without a buffer", 22);
    xmf_write_sheet2(file, length, nodes, XMF_ALL_NODE_WORDS, items, XMF_ALL_ITEM_WORDS, NULL, 0, answer,
                     XMF_ANSWER_WORDS);
    expect("write_sheet2 without a buffer", 22);
    xmf_correct_title(file, length, nodes, XMF_ALL_NODE_WORDS, items, XMF_ALL_ITEM_WORDS, 0, NULL, 0, NULL, 0, answer,
                      XMF_ANSWER_WORDS);
    expect("correct_title without a buffer", 22);
    xmf_correct_title(file, length, nodes, XMF_ALL_NODE_WORDS, items, XMF_ALL_ITEM_WORDS, 0, NULL, 0, sheet, sizeof sheet,
                      answer, XMF_ANSWER_WORDS);
    expect("correct_title without a title", 0);
    xmf_mend(file, length, nodes, XMF_ALL_NODE_WORDS, items, XMF_ALL_ITEM_WORDS, NULL, 0, NULL, 0, answer,
             XMF_ANSWER_WORDS);
    expect("mend without a buffer", 22);
    xmf_mend(file, length, nodes, XMF_ALL_NODE_WORDS, items, XMF_ALL_ITEM_WORDS, sheet, sizeof sheet, NULL, 0, answer,
             XMF_ANSWER_WORDS);
    expect("mend without a buffer for lines", 0);

    /* no words for the answer: the tables and the sheet are filled all the same */
    xmf_read_tree(file, length, nodes, XMF_ALL_NODE_WORDS, items, XMF_ALL_ITEM_WORDS, NULL, 0);
    xmf_find(file, length, nodes, XMF_ALL_NODE_WORDS, items, XMF_ALL_ITEM_WORDS, 0, XMF_CUSTOM, 0, NULL, 0, NULL, 0);
    xmf_resolve(file, length, nodes, XMF_ALL_NODE_WORDS, items, XMF_ALL_ITEM_WORDS, 0, NULL, 0);
    xmf_resource(file, length, nodes, XMF_ALL_NODE_WORDS, items, XMF_ALL_ITEM_WORDS, 1, sheet, sizeof sheet, NULL, 0);
    xmf_voice_count(file, length, nodes, XMF_ALL_NODE_WORDS, items, XMF_ALL_ITEM_WORDS, 0, 0, 0, NULL, 0);
    xmf_judge(file, length, nodes, XMF_ALL_NODE_WORDS, items, XMF_ALL_ITEM_WORDS, NULL, 0);
    xmf_account(file, length, nodes, XMF_ALL_NODE_WORDS, items, XMF_ALL_ITEM_WORDS, NULL, 0, NULL, 0);
    xmf_correct_title(file, length, nodes, XMF_ALL_NODE_WORDS, items, XMF_ALL_ITEM_WORDS, 0, NULL, 0, sheet, sizeof sheet,
                      NULL, 0);
    xmf_mend(file, length, nodes, XMF_ALL_NODE_WORDS, items, XMF_ALL_ITEM_WORDS, sheet, sizeof sheet, NULL, 0, NULL, 0);
    xmf_write_sheet2(file, length, nodes, XMF_ALL_NODE_WORDS, items, XMF_ALL_ITEM_WORDS, sheet, sizeof sheet, NULL, 0);
    xmf_move_sheet(sheet, sizeof sheet, NULL, 0, NULL, 0);
    xmf_write_sheet(file, length, nodes, XMF_ALL_NODE_WORDS, items, XMF_ALL_ITEM_WORDS, sheet, sizeof sheet, NULL, 0);
    if (sheet[0] != 'X') {
        printf("write_sheet without an answer: no sheet\n");
        failed = 1;
    }
    if (!failed) {
        printf("null pointers for 0 elements: taken\n");
    }
    return failed;
}
