/* For the examples: reads a file, and says what is wrong. */
#ifndef LOAD_H
#define LOAD_H

#include <stdio.h>
#include <stdlib.h>

#include "xmf.h"

/* The longest file and the longest result that are taken. */
#define ROOM 65536

static uint8_t file[ROOM + 1];
static struct xmf_tables tables;

/* Reads a file into `file` and gives its size; ends the program, with status 1, if that fails. */
static inline size_t load(const char *path) {
    FILE *in = fopen(path, "rb");
    size_t size = in == NULL ? 0 : fread(file, 1, sizeof file, in);
    if (in == NULL || ferror(in)) {
        perror(path);
        exit(1);
    }
    fclose(in);
    if (size > ROOM) {
        fprintf(stderr, "%s: more than %d bytes\n", path, ROOM);
        exit(1);
    }
    return size;
}

/* Says that a question is refused; gives the status 2. */
static inline int refused(int refusal, uint64_t place) {
    fprintf(stderr, "refused: %s (%d at %lu)\n", xmf_refusal_text(refusal), refusal, (unsigned long)place);
    return 2;
}

/* Writes bytes to standard output; gives the status. */
static inline int write_out(const uint8_t *bytes, size_t size) {
    return fwrite(bytes, 1, size, stdout) == size && fflush(stdout) == 0 ? 0 : 1;
}

#endif
