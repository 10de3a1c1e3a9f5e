/* Prints the support sheet of a file, or one refusal line: print_sheet FILE */
#include <inttypes.h>
#include <stdio.h>

#include "xmf.h"

/* The longest file and the longest sheet that are taken. */
#define ROOM 65536

static uint8_t file[ROOM + 1];
static uint64_t nodes[XMF_ALL_NODE_WORDS];
static uint64_t items[XMF_ALL_ITEM_WORDS];
static uint8_t sheet[ROOM];

/* Reads a file of at most ROOM bytes; gives 0 and says why when that fails. */
static int read_file(const char *path, size_t *length) {
    FILE *in = fopen(path, "rb");
    if (in == NULL) {
        perror(path);
        return 0;
    }
    *length = fread(file, 1, sizeof file, in);
    int failed = ferror(in);
    fclose(in);
    if (failed) {
        fprintf(stderr, "%s: cannot be read\n", path);
        return 0;
    }
    if (*length > ROOM) {
        fprintf(stderr, "%s: more than %d bytes\n", path, ROOM);
        return 0;
    }
    return 1;
}

int main(int argc, char **argv) {
    if (argc != 2) {
        fprintf(stderr, "usage: print_sheet FILE\n");
        return 2;
    }
    size_t length;
    if (!read_file(argv[1], &length)) {
        return 1;
    }
    uint64_t answer[3];
    xmf_write_sheet(file, length, nodes, XMF_ALL_NODE_WORDS, items, XMF_ALL_ITEM_WORDS, sheet, sizeof sheet,
                    answer, 3);
    if (answer[0] != 0) {
        printf("R\t%" PRIu64 "\t%" PRIu64 "\n", answer[0], answer[1]);
        return 0;
    }
    fwrite(sheet, 1, (size_t)answer[2], stdout);
    return 0;
}
