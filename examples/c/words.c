/* The functions of words in C89: words FILE prints the version, the number of nodes and of items, or the refusal and its place. */
#include <stdio.h>

#include "xmf.h"

static uint8_t file[65536];
static struct xmf_tables tables;

int main(int argc, char **argv) {
    uint64_t answer[5];
    size_t size;
    FILE *in = argc == 2 ? fopen(argv[1], "rb") : NULL;
    if (in == NULL) {
        fprintf(stderr, "usage: words FILE\n");
        return 1;
    }
    size = fread(file, 1, sizeof file, in);
    fclose(in);
    xmf_read_tree(file, size, tables.nodes, XMF_ALL_NODE_WORDS, tables.items, XMF_ALL_ITEM_WORDS, answer, 5);
    if (answer[0] != XMF_ANSWERED) {
        printf("R\t%lu\t%lu\n", (unsigned long)answer[0], (unsigned long)answer[1]);
        return 2;
    }
    printf("%lu\t%lu\t%lu\n", (unsigned long)answer[2], (unsigned long)answer[3], (unsigned long)answer[4]);
    return 0;
}
