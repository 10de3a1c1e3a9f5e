// Two builds of the proved reader, for tools/compare.sh, which renames the functions of the first to before_*.
//   compare QUESTION FILE                  both take turns: the median time of a call, in nanoseconds, and the ratio after to before
//   compare BUILD QUESTION FILE CALLS      CALLS calls of one build, before or after, whose instructions are counted
// QUESTION is tree, sheet, verdict, account (with totals that are all zero), find (a field that is on no node, from the last row on, so that all of its path is looked at)
// or correct (the title of the first item row that takes another). Tables and buffer are full. Both builds must leave the same.
#include <stdint.h>
#include <stdio.h>
#include <stdlib.h>
#include <string.h>
#include <time.h>

#include "../include/xmf.h"

enum { NODE_WORDS = XMF_ALL_NODE_WORDS, ITEM_WORDS = XMF_ALL_ITEM_WORDS, ROOM = 65536, WORDS = XMF_ANSWER_WORDS, TURNS = 501, CALLS = 8 };

typedef void table_call(const uint8_t *, size_t, uint64_t *, size_t, uint64_t *, size_t, uint64_t *, size_t);
typedef void sheet_call(const uint8_t *, size_t, uint64_t *, size_t, uint64_t *, size_t, uint8_t *, size_t, uint64_t *, size_t);
typedef void totals_call(const uint8_t *, size_t, uint64_t *, size_t, uint64_t *, size_t, uint64_t *, size_t, uint64_t *, size_t);
typedef void find_call(const uint8_t *, size_t, uint64_t *, size_t, uint64_t *, size_t, size_t, uint64_t, uint64_t, const uint8_t *, size_t, uint64_t *, size_t);
typedef void title_call(const uint8_t *, size_t, uint64_t *, size_t, uint64_t *, size_t, size_t, const uint8_t *, size_t, uint8_t *, size_t, uint64_t *, size_t);
table_call before_read_tree, before_judge;
sheet_call before_write_sheet;
totals_call before_account;
find_call before_find;
title_call before_correct_title;

static table_call *const trees[] = {before_read_tree, xmf_read_tree};
static table_call *const verdicts[] = {before_judge, xmf_judge};
static sheet_call *const sheets[] = {before_write_sheet, xmf_write_sheet};
static totals_call *const accounts[] = {before_account, xmf_account};
static find_call *const finds[] = {before_find, xmf_find};
static title_call *const titles[] = {before_correct_title, xmf_correct_title};

struct lent {
    uint64_t nodes[NODE_WORDS], items[ITEM_WORDS], totals[XMF_TOTAL_WORDS], answer[WORDS];
    uint8_t sheet[ROOM];
};

static struct lent lent[2];
static uint8_t *file;
static size_t size;
static size_t last_row, title_row;
static const uint8_t new_title[] = "another title";

static void call(int build, char question) {
    struct lent *l = &lent[build];
    switch (question) {
    case 's':
        sheets[build](file, size, l->nodes, NODE_WORDS, l->items, ITEM_WORDS, l->sheet, ROOM, l->answer, WORDS);
        break;
    case 'a':
        memset(l->totals, 0, sizeof l->totals);
        accounts[build](file, size, l->nodes, NODE_WORDS, l->items, ITEM_WORDS, l->totals, XMF_TOTAL_WORDS, l->answer, WORDS);
        break;
    case 'f':
        finds[build](file, size, l->nodes, NODE_WORDS, l->items, ITEM_WORDS, last_row, 0, 0xfffffff, NULL, 0, l->answer, WORDS);
        break;
    case 'c':
        titles[build](file, size, l->nodes, NODE_WORDS, l->items, ITEM_WORDS, title_row, new_title, sizeof new_title - 1, l->sheet, ROOM, l->answer, WORDS);
        break;
    default:
        (question == 't' ? trees : verdicts)[build](file, size, l->nodes, NODE_WORDS, l->items, ITEM_WORDS, l->answer, WORDS);
    }
}

static void load(const char *path) {
    FILE *in = fopen(path, "rb");
    if (!in || fseek(in, 0, SEEK_END)) {
        perror(path);
        exit(1);
    }
    size = (size_t)ftell(in);
    file = malloc(size + 1);
    rewind(in);
    if (!file || fread(file, 1, size, in) != size) {
        perror(path);
        exit(1);
    }
    fclose(in);
    struct lent *l = &lent[1];
    xmf_read_tree(file, size, l->nodes, NODE_WORDS, l->items, ITEM_WORDS, l->answer, WORDS);
    size_t rows = l->answer[0] ? 0 : l->answer[4];
    last_row = l->answer[0] ? 0 : l->answer[3] - 1;
    while (title_row < rows) {
        const uint64_t *row = &l->items[title_row * XMF_ITEM_WORDS];
        if (row[XMF_ITEM_VERSION] == 0 && row[XMF_ITEM_FORMAT] % 2 == 0) break;
        title_row++;
    }
}

// Nanoseconds of a call, over a few calls: so short a turn is seldom broken off by another program.
static double turn(int build, char question) {
    struct timespec start, end;
    clock_gettime(CLOCK_MONOTONIC, &start);
    for (int i = 0; i < CALLS; i++) call(build, question);
    clock_gettime(CLOCK_MONOTONIC, &end);
    return ((double)(end.tv_sec - start.tv_sec) * 1e9 + (double)(end.tv_nsec - start.tv_nsec)) / CALLS;
}

static int order(const void *a, const void *b) {
    double x = *(const double *)a, y = *(const double *)b;
    return (x > y) - (x < y);
}

static double median(double *values) {
    qsort(values, TURNS, sizeof *values, order);
    return values[TURNS / 2];
}

int main(int count, char **words) {
    if (count == 5) {
        load(words[3]);
        for (long calls = atol(words[4]); calls > 0; calls--) call(words[1][0] == 'a', words[2][0]);
        return 0;
    }
    if (count != 3) return 2;
    load(words[2]);
    static double before[TURNS], after[TURNS], ratio[TURNS];
    for (int i = 0; i < TURNS; i++) {
        before[i] = turn(0, words[1][0]);
        after[i] = turn(1, words[1][0]);
        ratio[i] = after[i] / before[i];
    }
    if (memcmp(&lent[0], &lent[1], sizeof lent[0])) {
        fprintf(stderr, "%s, %s: the two builds differ\n", words[2], words[1]);
        return 1;
    }
    printf("%-8s %10.0f %10.0f %6.3f", words[1], median(before), median(after), median(ratio));
    return 0;
}
