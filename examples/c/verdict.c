/* Says what a file is: its version, its nodes with their titles, and whether it is Mobile XMF: verdict FILE */
#include "load.h"

int main(int argc, char **argv) {
    struct xmf_shape tree;
    struct xmf_judged verdict;
    struct xmf_found title;
    size_t size, row, i;
    int refusal;
    if (argc != 2) {
        fprintf(stderr, "usage: verdict FILE\n");
        return 1;
    }
    size = load(argv[1]);
    if ((refusal = xmf_tree(file, size, &tables, &tree))) {
        return refused(refusal, tree.refused_at);
    }
    printf("version %lu.%02lu, nodes %lu, items %lu\n", (unsigned long)(tree.version / 100), (unsigned long)(tree.version % 100),
           (unsigned long)tree.nodes, (unsigned long)tree.items);
    for (row = 0; row < tree.nodes; row++) {
        /* field 8 is the title; an odd format is hidden, and formats 0 and 1 are text */
        if (xmf_own(file, size, &tables, row, xmf_standard(8), &title) == 0 && title.item.format == 0) {
            printf("node %lu: ", (unsigned long)row);
            for (i = 0; i < title.item.data_length; i++) {
                int byte = file[title.item.data + i];
                putchar(byte >= 0x20 && byte < 0x7F ? byte : '?');
            }
            putchar('\n');
        }
    }
    if ((refusal = xmf_verdict(file, size, &tables, &verdict))) {
        return refused(refusal, verdict.refused_at);
    }
    if (verdict.check != 0) {
        printf("not Mobile XMF: check %lu fails\n", (unsigned long)verdict.check);
        return 3;
    }
    printf("Mobile XMF\n");
    return 0;
}
