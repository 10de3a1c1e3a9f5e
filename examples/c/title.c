/* Writes a file with another title to standard output: title FILE ITEMROW TITLE. For a row in UTF-16 (format 2) TITLE is converted. */
#include <string.h>

#include "load.h"

int main(int argc, char **argv) {
    static uint8_t wide[ROOM], out[ROOM];
    struct xmf_shape tree;
    struct xmf_written text, result;
    const uint8_t *title;
    size_t size, row, length;
    char *end;
    int refusal;
    if (argc != 4) {
        fprintf(stderr, "usage: title FILE ITEMROW TITLE\n");
        return 1;
    }
    row = strtoul(argv[2], &end, 10);
    if (end == argv[2] || *end != 0) {
        fprintf(stderr, "title: ITEMROW is a number\n");
        return 1;
    }
    title = (const uint8_t *)argv[3];
    length = strlen(argv[3]);
    size = load(argv[1]);
    if ((refusal = xmf_tree(file, size, &tables, &tree))) {
        return refused(refusal, tree.refused_at);
    }
    if (xmf_item_at(&tables, row).format == 2) {
        if ((refusal = xmf_to_utf16(title, length, wide, sizeof wide, &text))) {
            return refused(refusal, text.refused_at);
        }
        title = wide;
        length = text.length;
    }
    refusal = xmf_retitle(file, size, &tables, row, title, length, out, sizeof out, &result);
    if (refusal == XMF_REFUSED_NOT_A_TITLE) {
        fprintf(stderr, "title: this item is hidden, or is there in several versions\n");
        return 2;
    }
    if (refusal) {
        return refused(refusal, result.refused_at);
    }
    return write_out(out, result.length);
}
