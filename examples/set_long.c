/* Changes one `long` of a descriptor and writes the file back: set_long ROW NUMBER < FILE > NEW
 *
 *     tools/build khuyurek
 *     cc -std=c99 -Iinclude examples/set_long.c target/staticlib/libkhuyurek.a -o set_long
 *
 * Rows are counted from 0, the root; `./khuyurek FILE` lists them in this order. All other bytes of the
 * file stay as they are. The status is 0, or 1 where the file or the row is refused, or 2 where the file
 * cannot be read or written. */
#include <stdio.h>
#include <stdlib.h>

#include "khuyurek.h"

/* `long` as a number. */
#define LONG 0x6C6F6E67

static uint8_t file[KHUYUREK_LIMIT + 1], changed[KHUYUREK_LIMIT];
static uint32_t table[5][KHUYUREK_LIMIT / 5];

int main(int argc, char **argv) {
    if (argc != 3) {
        fputs("usage: set_long ROW NUMBER < FILE > NEW\n", stderr);
        return 2;
    }
    size_t row = strtoul(argv[1], NULL, 10);
    uint32_t number = (uint32_t)strtol(argv[2], NULL, 10);
    size_t size = fread(file, 1, sizeof file, stdin);
    if (ferror(stdin)) {
        perror("standard input");
        return 2;
    }
    /* A file has at most a row for every five bytes. */
    size_t most = KHUYUREK_LIMIT / 5;
    khuyurek_descriptor_answer read =
        khuyurek_descriptor_read(file, size, table[0], most, table[1], most, table[2], most,
                                 table[3], most, table[4], most);
    if (read.number != 0) {
        fprintf(stderr, "refused %u at %zu\n", (unsigned)read.number, read.place);
        return 1;
    }
    khuyurek_length written = khuyurek_descriptor_replace(
        file, size, table[0], most, table[1], most, table[2], most, table[3], most, table[4], most,
        row, LONG, 0, number, changed, sizeof changed);
    if (written.number != 0) {
        fprintf(stderr, "refused %u\n", (unsigned)written.number);
        return 1;
    }
    if (fwrite(changed, 1, size, stdout) != size || fflush(stdout) != 0) {
        perror("standard output");
        return 2;
    }
    return 0;
}
