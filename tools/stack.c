/* Measures the stack that each call of xmf.h uses: stack FILE.. prints, for each call, the most bytes over all files.
 *
 * Each call runs on a stack of its own that is full of marks; the lowest mark that is gone says how deep the call went. What the measuring
 * itself uses is measured with a call that does nothing, and is taken off. tools/stack.sh builds and runs it, and compares with the header. */
#define _XOPEN_SOURCE 700
#include <inttypes.h>
#include <stdio.h>
#include <stdlib.h>
#include <string.h>
#include <ucontext.h>

#include "xmf.h"

#define STACK (1 << 20)
#define MARK 0xA5

static unsigned char stack[STACK] __attribute__((aligned(64)));
static ucontext_t here, there;
static uint64_t nodes[XMF_ALL_NODE_WORDS], items[XMF_ALL_ITEM_WORDS], answer[XMF_ANSWER_WORDS], totals[XMF_TOTAL_WORDS];
static uint64_t cards[XMF_MOST_CARDS * XMF_CARD_WORDS];
static uint8_t file[1 << 20], sheet[1 << 20], out[1 << 20], text[1 << 20], lines[XMF_LINES_ROOM];
static size_t length, sheet_length, row;

#define TABLES nodes, XMF_ALL_NODE_WORDS, items, XMF_ALL_ITEM_WORDS
#define ANSWER answer, XMF_ANSWER_WORDS
#define SHELF cards, XMF_MOST_CARDS * XMF_CARD_WORDS, text, sizeof text

static void nothing(void) {}
static void read_tree(void) { xmf_read_tree(file, length, TABLES, ANSWER); }
static void find(void) { xmf_find(file, length, TABLES, row, XMF_STANDARD, 9, NULL, 0, ANSWER); }
static void find_name(void) { xmf_find(file, length, TABLES, row, XMF_CUSTOM, 0, (const uint8_t *)"key", 3, ANSWER); }
static void find_own(void) { xmf_find_own(file, length, TABLES, row, XMF_STANDARD, 9, NULL, 0, ANSWER); }
static void resolve(void) { xmf_resolve(file, length, TABLES, row, ANSWER); }
static void resource(void) { xmf_resource(file, length, TABLES, row, out, sizeof out, ANSWER); }
static void voice_count(void) { xmf_voice_count(file, length, TABLES, row, 0, 0, ANSWER); }
static void judge(void) { xmf_judge(file, length, TABLES, ANSWER); }
static void account(void) { xmf_account(file, length, TABLES, totals, XMF_TOTAL_WORDS, ANSWER); }
static void write_sheet(void) { xmf_write_sheet(file, length, TABLES, out, sizeof out, ANSWER); }
static void write_sheet2(void) { xmf_write_sheet2(file, length, TABLES, out, sizeof out, ANSWER); }
static void correct_title(void) { xmf_correct_title(file, length, TABLES, row, (const uint8_t *)"A longer title", 14, out, sizeof out, ANSWER); }
static void mend(void) { xmf_mend(file, length, TABLES, out, sizeof out, lines, sizeof lines, ANSWER); }
static void to_utf8(void) { xmf_utf16_to_utf8(file, length, out, sizeof out, ANSWER); }
static void to_utf16(void) { xmf_utf8_to_utf16(file, length, out, sizeof out, ANSWER); }
static void move_sheet(void) { xmf_move_sheet(sheet, sheet_length, out, sizeof out, ANSWER); }
static void id3_count(void) { xmf_id3_count(file, length, ANSWER); }
static void id3_frame(void) { xmf_id3_frame(file, length, 0, ANSWER); }
/* The sheets of odd rows are not dropped: the shelf fills over the first files, and refuses those of the others. */
static void shelf_put(void) { xmf_shelf_put(SHELF, row / 2, 4711, length, sheet, sheet_length, ANSWER); }
static void shelf_get(void) { xmf_shelf_get(SHELF, row / 2, 4711, length, out, sizeof out, ANSWER); }
static void shelf_drop(void) { xmf_shelf_drop(SHELF, row / 2, 4711 + row % 2, length, ANSWER); }

static const struct {
    const char *name;
    void (*call)(void);
} calls[] = {
    {"nothing", nothing},         {"xmf_read_tree", read_tree},       {"xmf_find", find},
    {"xmf_find", find_name},      {"xmf_find_own", find_own},         {"xmf_resolve", resolve},
    {"xmf_resource", resource},   {"xmf_voice_count", voice_count},   {"xmf_judge", judge},
    {"xmf_account", account},     {"xmf_write_sheet", write_sheet},   {"xmf_write_sheet2", write_sheet2},
    {"xmf_utf16_to_utf8", to_utf8}, {"xmf_utf8_to_utf16", to_utf16},  {"xmf_move_sheet", move_sheet},
    {"xmf_id3_count", id3_count}, {"xmf_id3_frame", id3_frame},       {"xmf_correct_title", correct_title},
    {"xmf_mend", mend},           {"xmf_shelf_put", shelf_put},       {"xmf_shelf_get", shelf_get},
    {"xmf_shelf_drop", shelf_drop},
};
#define CALLS (sizeof calls / sizeof calls[0])

/* The bytes of the stack that a call changes. */
static size_t used(void (*call)(void)) {
    size_t at = 0;
    memset(stack, MARK, sizeof stack);
    getcontext(&there);
    there.uc_stack.ss_sp = stack;
    there.uc_stack.ss_size = sizeof stack;
    there.uc_link = &here;
    makecontext(&there, call, 0);
    swapcontext(&here, &there);
    while (at < sizeof stack && stack[at] == MARK) {
        at++;
    }
    return sizeof stack - at;
}

int main(int argc, char **argv) {
    size_t most[CALLS] = {0}, base, call;
    int i;
    for (i = 1; i < argc; i++) {
        FILE *in = fopen(argv[i], "rb");
        if (in == NULL) {
            perror(argv[i]);
            return 1;
        }
        length = fread(file, 1, sizeof file, in);
        fclose(in);
        xmf_write_sheet(file, length, TABLES, sheet, sizeof sheet, ANSWER);
        sheet_length = answer[2];
        totals[XMF_TOTAL_FILES] = 0;
        for (row = 0; row < 8; row++) {
            for (call = 0; call < CALLS; call++) {
                size_t bytes = used(calls[call].call);
                if (bytes > most[call]) {
                    most[call] = bytes;
                }
            }
        }
    }
    base = most[0];
    for (call = 1; call < CALLS; call++) {
        printf("%-20s %6zu\n", calls[call].name, most[call] - base);
    }
    return 0;
}
