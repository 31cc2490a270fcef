/* Takes an ACO palette from standard input in chunks, as they arrive: take_chunks [BYTES]
 *
 *     tools/build khuyurek
 *     cc -std=c99 -Iinclude examples/take_chunks.c target/staticlib/libkhuyurek.a -o take_chunks
 *
 * No more than BYTES of the file are held at a time, 1500 where none are given, beside the store for
 * the colours of list 1. It prints what the heading of the file's listing, or its refusal, would say.
 * The status is 0, or 1 where the file is refused, or 2 where it cannot be read. */
#include <stdio.h>
#include <stdlib.h>

#include "khuyurek.h"

static uint8_t store[KHUYUREK_ACO_STORE];

int main(int argc, char **argv) {
    size_t most = argc == 2 ? strtoul(argv[1], NULL, 10) : 1500;
    uint8_t *chunk = argc <= 2 && most > 0 ? malloc(most) : NULL;
    if (chunk == NULL) {
        fputs("usage: take_chunks [BYTES] < FILE\n", stderr);
        return 2;
    }
    /* A store of the need, and a stream that is handed back as it came, are never refused. */
    khuyurek_aco_stream stream = khuyurek_aco_stream_start(store, sizeof store).stream;
    size_t length;
    while ((length = fread(chunk, 1, most, stdin)) > 0) {
        stream = khuyurek_aco_stream_feed(stream, store, sizeof store, chunk, length).stream;
    }
    free(chunk);
    if (ferror(stdin)) {
        perror("standard input");
        return 2;
    }
    khuyurek_aco_answer palette = khuyurek_aco_stream_finish(stream, store, sizeof store).answer;
    if (palette.number != 0) {
        printf("refused %u at %zu\n", (unsigned)palette.number, palette.place);
    } else {
        printf("ACO %zu %s\n", palette.colours, palette.lists == 2 ? "names" : "plain");
    }
    if (fflush(stdout) != 0 || ferror(stdout)) {
        perror("standard output");
        return 2;
    }
    return palette.number != 0;
}
