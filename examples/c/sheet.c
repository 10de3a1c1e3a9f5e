/* Prints the support sheet of a file: sheet FILE */
#include "load.h"

int main(int argc, char **argv) {
    static uint8_t out[ROOM];
    struct xmf_written sheet;
    size_t size;
    int refusal;
    if (argc != 2) {
        fprintf(stderr, "usage: sheet FILE\n");
        return 1;
    }
    size = load(argv[1]);
    if ((refusal = xmf_sheet(file, size, &tables, out, sizeof out, &sheet))) {
        return refused(refusal, sheet.refused_at);
    }
    return write_out(out, sheet.length);
}
