/* Writes the resource of a node to standard output: extract FILE ROW. It may hold hidden data: it is not for a ticket. */
#include "load.h"

int main(int argc, char **argv) {
    static uint8_t out[ROOM];
    struct xmf_located resource;
    size_t size, row;
    char *end;
    int refusal;
    if (argc != 3) {
        fprintf(stderr, "usage: extract FILE ROW\n");
        return 1;
    }
    row = strtoul(argv[2], &end, 10);
    if (end == argv[2] || *end != 0) {
        fprintf(stderr, "extract: ROW is a number\n");
        return 1;
    }
    size = load(argv[1]);
    if ((refusal = xmf_extract(file, size, &tables, row, out, sizeof out, &resource))) {
        return refused(refusal, resource.refused_at);
    }
    return write_out(out, resource.length);
}
