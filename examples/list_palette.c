/* Lists an ACO or ASE palette: list_palette FILE
 *
 *     tools/build khuyurek
 *     cc -std=c99 -Iinclude examples/list_palette.c target/staticlib/libkhuyurek.a -o list_palette
 *
 * The status is 0, or 1 where the file is refused, or 2 where it cannot be read or listed. */
#include <stdio.h>
#include <stdlib.h>
#include <string.h>

#include "khuyurek.h"

static int refused(uint32_t number, size_t place) {
    uint8_t sentence[KHUYUREK_SENTENCE];
    khuyurek_length said = khuyurek_refusal_sentence(number, sentence, sizeof sentence);
    fprintf(stderr, "refused %u at %zu: %.*s\n", (unsigned)number, place, (int)said.length,
            (const char *)sentence);
    return 1;
}

/* A name lies in the file, by the place of its first unit and its units. The library shows an
 * unpaired surrogate as U+FFFD, and this a control character, which a terminal would obey. */
static void put_name(const uint8_t *file, size_t length, size_t place, size_t units) {
    /* Three bytes a unit are always enough. One more: a pointer is not null even where there are none. */
    uint8_t *text = malloc(3 * units + 1);
    if (text == NULL) {
        perror("name");
        exit(2);
    }
    khuyurek_length name = khuyurek_name_utf8(file, length, place, units, text, 3 * units);
    putchar('"');
    for (size_t i = 0; i < name.length; i++) {
        int wide = text[i] == 0xC2 && text[i + 1] < 0xA0; /* U+0080 to U+009F */
        if (text[i] < 0x20 || text[i] == 0x7F || wide) {
            fputs("\xEF\xBF\xBD", stdout);
            i += (size_t)wide;
        } else {
            putchar(text[i]);
        }
    }
    putchar('"');
    free(text);
}

/* A table for so many numbers. It has one more: a pointer is not null even where there are none. */
static uint32_t *table_of(size_t numbers) {
    uint32_t *table = malloc((numbers + 1) * sizeof *table);
    if (table == NULL) {
        perror("table");
        exit(2);
    }
    return table;
}

static int list_aco(const uint8_t *file, size_t length) {
    khuyurek_aco_answer palette = khuyurek_aco_judge(file, length);
    if (palette.number != 0) {
        return refused(palette.number, palette.place);
    }
    /* Reading into a table of the need is never refused where judging was not. */
    size_t numbers = KHUYUREK_ACO_WIDTH * palette.colours;
    uint32_t *table = table_of(numbers);
    khuyurek_aco_read(file, length, table, numbers);
    printf("ACO: %zu colours in %zu list(s)\n", palette.colours, palette.lists);
    for (const uint32_t *row = table; row < table + numbers; row += KHUYUREK_ACO_WIDTH) {
        put_name(file, length, row[5], row[6]);
        printf(" space %u: %u %u %u %u\n", (unsigned)row[0], (unsigned)row[1], (unsigned)row[2],
               (unsigned)row[3], (unsigned)row[4]);
    }
    free(table);
    return 0;
}

static const char *name_of(uint32_t model) {
    return model == KHUYUREK_RGB ? "RGB" : model == KHUYUREK_CMYK ? "CMYK"
         : model == KHUYUREK_LAB ? "Lab" : "gray";
}

static double channel_of(uint32_t bits) {
    float channel;
    memcpy(&channel, &bits, sizeof channel);
    return channel;
}

static int list_ase(const uint8_t *file, size_t length) {
    static const char *const TYPES[] = {"global", "spot", "normal"};
    khuyurek_ase_answer palette = khuyurek_ase_judge(file, length);
    if (palette.number != 0) {
        return refused(palette.number, palette.place);
    }
    size_t numbers = KHUYUREK_ASE_WIDTH * palette.blocks;
    uint32_t *table = table_of(numbers);
    khuyurek_ase_read(file, length, table, numbers);
    printf("ASE: %zu colours in %zu blocks\n", palette.colours, palette.blocks);
    int depth = 0;
    for (const uint32_t *row = table; row < table + numbers; row += KHUYUREK_ASE_WIDTH) {
        if (row[0] == KHUYUREK_ASE_STOP) {
            depth--;
            continue;
        }
        printf("%*s%s", 2 * depth, "", row[0] == KHUYUREK_ASE_START ? "group " : "");
        put_name(file, length, row[1], row[2]);
        if (row[0] == KHUYUREK_ASE_START) {
            depth++;
        } else {
            int channels = row[3] == KHUYUREK_GRAY ? 1 : row[3] == KHUYUREK_CMYK ? 4 : 3;
            printf(" %s:", name_of(row[3]));
            for (int i = 0; i < channels; i++) {
                printf(" %g", channel_of(row[4 + i]));
            }
            printf(" %s", TYPES[row[8]]);
        }
        putchar('\n');
    }
    free(table);
    return 0;
}

int main(int argc, char **argv) {
    if (argc != 2) {
        fputs("usage: list_palette FILE\n", stderr);
        return 2;
    }
    /* A byte past the limit is enough for the library to refuse a file that is too long. */
    uint8_t *file = malloc(KHUYUREK_LIMIT + 1);
    FILE *stream = fopen(argv[1], "rb");
    size_t length = file && stream ? fread(file, 1, KHUYUREK_LIMIT + 1, stream) : 0;
    if (file == NULL || stream == NULL || ferror(stream)) {
        perror(argv[1]);
        return 2;
    }
    fclose(stream);
    int ase = length >= 4 && memcmp(file, "ASEF", 4) == 0;
    int status = ase ? list_ase(file, length) : list_aco(file, length);
    free(file);
    if (fflush(stdout) != 0 || ferror(stdout)) {
        perror("standard output");
        return 2;
    }
    return status;
}
