/* The header and the archive from C: P3, P6 and a book of one Lab colour are read, listed by their
 * record and written back; P4 is refused with its record and field, P7 with its place, a group left
 * open and a tag that is none by the writer; the book's colour, full name and page are shown; P12 is
 * read into its rows and its entries and built from them; a document's resource section is found, read and written back; P3 and P6 are walked, and P3 is taken in chunks; a few samples and channels are converted, one by one and in runs, and those that
 * are refused are refused by their numbers. */
#include <stdio.h>
#include <string.h>

#include "khuyurek.h"

static const uint8_t P3[36] = {
    0x00, 0x01, 0x00, 0x01, 0x00, 0x00, 0xFF, 0xFF, 0x00, 0x00, 0x80, 0x80,
    0x00, 0x00, 0x00, 0x02, 0x00, 0x01, 0x00, 0x00, 0xFF, 0xFF, 0x00, 0x00,
    0x80, 0x80, 0x00, 0x00, 0x00, 0x00, 0x00, 0x02, 0x00, 0x41, 0x00, 0x00,
};

static const uint8_t P6[32] = {
    0x41, 0x53, 0x45, 0x46, 0x00, 0x01, 0x00, 0x00, 0x00, 0x00, 0x00, 0x01,
    0x00, 0x01, 0x00, 0x00, 0x00, 0x0E, 0x00, 0x01, 0x00, 0x00, 0x47, 0x72,
    0x61, 0x79, 0x3F, 0x80, 0x00, 0x00, 0x00, 0x02,
};

/* A book with the suffix `$$$/=z`, pages of one colour and the tag spot; its colour is named `n` and
 * has the components of P8. */
static const uint8_t BOOK[67] = {
    0x38, 0x42, 0x43, 0x42, 0x00, 0x01, 0x0B, 0xB8, 0x00, 0x00, 0x00, 0x00,
    0x00, 0x00, 0x00, 0x00, 0x00, 0x00, 0x00, 0x06, 0x00, 0x24, 0x00, 0x24,
    0x00, 0x24, 0x00, 0x2F, 0x00, 0x3D, 0x00, 0x7A, 0x00, 0x00, 0x00, 0x00,
    0x00, 0x01, 0x00, 0x01, 0x00, 0x00, 0x00, 0x07, 0x00, 0x00, 0x00, 0x01,
    0x00, 0x6E, 0x20, 0x20, 0x6E, 0x20, 0x20, 0x20, 0xF8, 0x7B, 0x7B, 0x73,
    0x70, 0x66, 0x6C, 0x73, 0x70, 0x6F, 0x74,
};

static const uint8_t P12[40] = {
    0x00, 0x00, 0x00, 0x10, 0x00, 0x00, 0x00, 0x00, 0x00, 0x00, 0x00, 0x01, 0x61, 0x00,
    0x00, 0x00, 0x01, 0x00, 0x00, 0x00, 0x01, 0x61, 0x56, 0x6C, 0x4C, 0x73, 0x00, 0x00,
    0x00, 0x02, 0x62, 0x6F, 0x6F, 0x6C, 0x01, 0x62, 0x6F, 0x6F, 0x6C, 0x01,
};

/* The tags `RGB `, `CMYK` and `Gray` and the kinds `bool`, `VlLs` and `Objc` as numbers, and the bits
 * of three channels. */
#define RGB_MODEL 0x52474220u
#define CMYK_MODEL 0x434D594Bu
#define GRAY_MODEL 0x47726179u
#define BOOL_KIND 0x626F6F6Cu
#define LIST_KIND 0x566C4C73u
#define OBJECT_KIND 0x4F626A63u
#define HALF 0x3F000000u
#define ONE 0x3F800000u
#define NAN_BITS 0x7FC00000u

#define CHECK(test)                                          \
    do {                                                     \
        if (!(test)) {                                       \
            printf("line %d: %s fails\n", __LINE__, #test);  \
            return 1;                                        \
        }                                                    \
    } while (0)

static int aco(void) {
    uint32_t table[KHUYUREK_ACO_WIDTH + 1] = {0};
    uint8_t out[37];
    table[KHUYUREK_ACO_WIDTH] = 99;
    memset(out, 7, sizeof out);

    khuyurek_aco_answer read = khuyurek_aco_read(P3, sizeof P3, table, KHUYUREK_ACO_WIDTH + 1);
    CHECK(read.number == 0 && read.colours == 1 && read.lists == 2);
    CHECK(table[1] == 65535 && table[3] == 32896 && table[5] == 32 && table[6] == 1);
    CHECK(table[7] == KHUYUREK_INK_NOT_STATED && table[KHUYUREK_ACO_WIDTH] == 99);

    khuyurek_aco_record record = khuyurek_aco_record_at(P3, sizeof P3, 0);
    CHECK(record.number == 0 && record.space == 0 && record.samples[2] == 32896);
    CHECK(record.name == 32 && record.units == 1);
    CHECK(khuyurek_aco_record_at(P3, sizeof P3, 1).number == KHUYUREK_NO_RECORD);

    CHECK(khuyurek_aco_length(table, KHUYUREK_ACO_WIDTH, P3, sizeof P3).length == sizeof P3);
    khuyurek_length written =
        khuyurek_aco_write(table, KHUYUREK_ACO_WIDTH, P3, sizeof P3, out, sizeof out);
    CHECK(written.number == 0 && written.length == sizeof P3);
    CHECK(memcmp(out, P3, sizeof P3) == 0 && out[36] == 7);

    uint8_t p4[sizeof P3];
    memcpy(p4, P3, sizeof P3);
    p4[25] = 0x81;
    khuyurek_aco_answer differs = khuyurek_aco_judge(p4, sizeof p4);
    CHECK(differs.number == KHUYUREK_LISTS_DISAGREE && differs.place == 24);
    CHECK(differs.record == 0 && differs.field == 3);
    return 0;
}

static int chunks(void) {
    static uint8_t store[KHUYUREK_ACO_STORE + 1];
    memset(store, 7, sizeof store);
    khuyurek_aco_fed fed = khuyurek_aco_stream_start(store, KHUYUREK_ACO_STORE - 1);
    CHECK(fed.number == KHUYUREK_NO_ROOM);
    CHECK(khuyurek_aco_stream_feed(fed.stream, store, sizeof store, P3, 1).number
          == KHUYUREK_OUT_OF_RANGE);
    fed = khuyurek_aco_stream_start(store, KHUYUREK_ACO_STORE);
    CHECK(fed.number == 0);
    for (size_t i = 0; i < sizeof P3; i++) {
        fed = khuyurek_aco_stream_feed(fed.stream, store, KHUYUREK_ACO_STORE, P3 + i, 1);
        CHECK(fed.number == 0 && fed.stream.total == i + 1);
        fed = khuyurek_aco_stream_feed(fed.stream, store, sizeof store, P3, 0);
        CHECK(fed.number == 0 && store[0] == (i < 13 ? 7 : 0));
    }
    khuyurek_aco_finished end = khuyurek_aco_stream_finish(fed.stream, store, KHUYUREK_ACO_STORE);
    CHECK(end.answer.number == 0 && end.answer.colours == 1 && end.answer.lists == 2);
    CHECK(memcmp(store, P3 + 4, 10) == 0 && store[10] == 7 && store[KHUYUREK_ACO_STORE] == 7);
    end = khuyurek_aco_stream_finish(end.stream, store, KHUYUREK_ACO_STORE);
    CHECK(end.answer.number == KHUYUREK_OUT_OF_RANGE && end.answer.colours == 0);

    fed = khuyurek_aco_stream_start(store, sizeof store);
    fed = khuyurek_aco_stream_feed(fed.stream, store, sizeof store, P3, 20);
    fed = khuyurek_aco_stream_feed(fed.stream, store, sizeof store, P3 + 18, 10);
    end = khuyurek_aco_stream_finish(fed.stream, store, sizeof store);
    CHECK(end.answer.number == KHUYUREK_LISTS_DISAGREE && end.answer.place == 20);
    CHECK(end.answer.record == 0 && end.answer.field == 1);
    CHECK(sizeof(khuyurek_aco_stream) <= 128);
    return 0;
}

static int ase(void) {
    uint32_t table[KHUYUREK_ASE_WIDTH + 1] = {0};
    uint8_t out[33];
    table[KHUYUREK_ASE_WIDTH] = 99;
    memset(out, 7, sizeof out);

    khuyurek_ase_answer read = khuyurek_ase_read(P6, sizeof P6, table, KHUYUREK_ASE_WIDTH + 1);
    CHECK(read.number == 0 && read.place == 0 && read.blocks == 1 && read.colours == 1);
    CHECK(table[0] == 1 && table[1] == 20 && table[2] == 0 && table[3] == GRAY_MODEL);
    CHECK(table[4] == ONE && table[5] == 0 && table[6] == 0 && table[7] == 0 && table[8] == 2);
    CHECK(table[KHUYUREK_ASE_WIDTH] == 99);
    CHECK(khuyurek_ase_read(P6, sizeof P6, table, KHUYUREK_ASE_WIDTH - 1).number
          == KHUYUREK_NO_ROOM);

    khuyurek_ase_record record = khuyurek_ase_record_at(P6, sizeof P6, 0);
    CHECK(record.number == 0 && record.block == 1 && record.name == 20 && record.units == 0);
    CHECK(record.model == GRAY_MODEL && record.channels[0] == ONE && record.ink == KHUYUREK_INK_NORMAL);
    CHECK(khuyurek_ase_record_at(P6, sizeof P6, 1).number == KHUYUREK_NO_RECORD);

    CHECK(khuyurek_ase_length(table, KHUYUREK_ASE_WIDTH, P6, sizeof P6).length == sizeof P6);
    khuyurek_length written =
        khuyurek_ase_write(table, KHUYUREK_ASE_WIDTH, P6, sizeof P6, out, sizeof out);
    CHECK(written.number == 0 && written.length == sizeof P6);
    CHECK(memcmp(out, P6, sizeof P6) == 0 && out[32] == 7);
    table[0] = 0xC001;
    CHECK(khuyurek_ase_length(table, KHUYUREK_ASE_WIDTH, P6, sizeof P6).number
          == KHUYUREK_UNBALANCED);

    uint8_t p7[sizeof P6 + 1] = {0};
    memcpy(p7, P6, sizeof P6);
    p7[17] = 0x0F;
    khuyurek_ase_answer longer = khuyurek_ase_judge(p7, sizeof p7);
    CHECK(longer.number == KHUYUREK_LENGTH_DISAGREES && longer.place == 14);
    CHECK(longer.blocks == 0 && longer.colours == 0);
    return 0;
}

static int acb(void) {
    uint32_t table[KHUYUREK_ACB_WIDTH + 1] = {0};
    uint8_t out[sizeof BOOK + 1];
    table[KHUYUREK_ACB_WIDTH] = 99;
    memset(out, 7, sizeof out);

    khuyurek_acb_answer read =
        khuyurek_acb_read(BOOK, sizeof BOOK, table, KHUYUREK_ACB_WIDTH + 1);
    CHECK(read.number == 0 && read.place == 0 && read.count == 1);
    CHECK(read.header.identifier == 3000 && read.header.page_size == 1);
    CHECK(read.header.space == 7 && read.header.tag == 1);
    CHECK(read.header.suffix.place == 20 && read.header.suffix.units == 6);
    CHECK(table[0] == 48 && table[1] == 1 && table[4] == 0x6E);
    CHECK(table[8] == 0xF8 && table[9] == 0x7B && table[10] == 0x7B && table[11] == 0);
    CHECK(table[KHUYUREK_ACB_WIDTH] == 99);
    CHECK(khuyurek_acb_read(BOOK, sizeof BOOK, table, KHUYUREK_ACB_WIDTH - 1).number
          == KHUYUREK_NO_ROOM);

    khuyurek_acb_record record = khuyurek_acb_record_at(BOOK, sizeof BOOK, 0);
    CHECK(record.number == 0 && record.name == 48 && record.units == 1);
    CHECK(record.code[2] == 0x6E && record.components[0] == 0xF8);
    CHECK(khuyurek_acb_record_at(BOOK, sizeof BOOK, 1).number == KHUYUREK_NO_RECORD);

    khuyurek_acb_shown shown = khuyurek_acb_shown_at(BOOK, sizeof BOOK, 0);
    CHECK(shown.number == 0 && shown.count == 3);
    CHECK(shown.values[0] == 97 && shown.values[1] == -5 && shown.values[2] == -5);
    CHECK(khuyurek_acb_shown_start(BOOK + 20, 12) == 10);
    CHECK(khuyurek_acb_full_length(BOOK, sizeof BOOK, 0).length == 4);
    khuyurek_acb_full full = khuyurek_acb_full_name(BOOK, sizeof BOOK, 0, out, sizeof out);
    CHECK(full.number == 0 && full.length == 4);
    CHECK(out[1] == 0x6E && out[3] == 0x7A && out[4] == 7);
    khuyurek_acb_page page = khuyurek_acb_page_at(BOOK, sizeof BOOK, 0);
    CHECK(page.number == 0 && page.record == 0);
    CHECK(khuyurek_acb_page_at(BOOK, sizeof BOOK, 1).number == KHUYUREK_NO_RECORD);
    uint32_t index[KHUYUREK_ACB_INDEX_WIDTH + 1] = {8, 9};
    const uint16_t wanted[2] = {0x6E, 0};
    CHECK(khuyurek_acb_index(BOOK, sizeof BOOK, index, 0).number == KHUYUREK_NO_ROOM);
    khuyurek_acb_indexed indexed = khuyurek_acb_index(BOOK, sizeof BOOK, index, 2);
    CHECK(indexed.number == 0 && indexed.place == 0 && indexed.shown == 1);
    CHECK(index[0] == 0 && index[1] == 9);
    khuyurek_acb_found found = khuyurek_acb_find(BOOK, sizeof BOOK, index, 2, wanted, 1);
    CHECK(found.number == 0 && found.place == 0 && found.record == 0);
    CHECK(khuyurek_acb_find(BOOK, sizeof BOOK, index, 1, wanted, 2).number == KHUYUREK_NO_RECORD);
    CHECK(khuyurek_acb_find(BOOK, sizeof BOOK, index, 1, wanted, 0).number == KHUYUREK_NO_RECORD);
    found = khuyurek_acb_find(BOOK, sizeof BOOK, index + 1, 1, wanted, 1);
    CHECK(found.number == KHUYUREK_OUT_OF_RANGE && found.place == 0 && found.record == 0);
    CHECK(khuyurek_acb_shown_component(read.header.space, 1, 0x7B) == -5);
    page = khuyurek_acb_page_in(table, KHUYUREK_ACB_WIDTH, read.count, read.header.page_size,
                                read.header.page_offset, 0);
    CHECK(page.number == 0 && page.record == 0);
    CHECK(khuyurek_acb_page_in(table, KHUYUREK_ACB_WIDTH - 1, 1, 1, 0, 0).number
          == KHUYUREK_NO_RECORD);

    CHECK(khuyurek_acb_length(read.header, table, KHUYUREK_ACB_WIDTH, BOOK, sizeof BOOK).length
          == sizeof BOOK);
    khuyurek_length written = khuyurek_acb_write(
        read.header, table, KHUYUREK_ACB_WIDTH, BOOK, sizeof BOOK, out, sizeof out);
    CHECK(written.number == 0 && written.length == sizeof BOOK);
    CHECK(memcmp(out, BOOK, sizeof BOOK) == 0 && out[sizeof BOOK] == 7);
    read.header.tag = 3;
    CHECK(khuyurek_acb_length(read.header, table, KHUYUREK_ACB_WIDTH, BOOK, sizeof BOOK).number
          == KHUYUREK_WRONG_MARK);
    CHECK(khuyurek_acb_write(
              read.header, table, KHUYUREK_ACB_WIDTH, BOOK, sizeof BOOK, out, sizeof out).number
          == KHUYUREK_WRONG_MARK);
    CHECK(memcmp(out, BOOK, sizeof BOOK) == 0);
    read.header.space = 1;
    CHECK(khuyurek_acb_length(read.header, table, KHUYUREK_ACB_WIDTH, BOOK, sizeof BOOK).number
          == KHUYUREK_UNKNOWN);
    khuyurek_acb_answer cut = khuyurek_acb_judge(BOOK, sizeof BOOK - 1);
    CHECK(cut.number == KHUYUREK_CUT && cut.place == 59 && cut.count == 0 && cut.header.space == 0);
    return 0;
}

static int descriptor(void) {
    uint32_t first[5] = {[4] = 99}, length[5] = {[4] = 99}, next[5] = {[4] = 99};
    uint32_t depth[5] = {[4] = 99}, kind[5] = {[4] = 99};

    CHECK(khuyurek_descriptor_judge(P12, sizeof P12).rows == 4);
    khuyurek_descriptor_answer read = khuyurek_descriptor_read(
        P12, sizeof P12, first, 5, length, 5, next, 5, depth, 5, kind, 5);
    CHECK(read.number == 0 && read.place == 0 && read.rows == 4);
    CHECK(first[0] == 0 && length[0] == 40 && next[0] == 4 && depth[0] == 0);
    CHECK(first[1] == 17 && length[1] == 23 && next[1] == 4 && depth[1] == 1);
    CHECK(first[2] == 30 && length[2] == 5 && next[2] == 3 && depth[2] == 2);
    CHECK(first[3] == 35 && length[3] == 5 && next[3] == 4 && depth[3] == 2);
    CHECK(kind[1] == LIST_KIND && kind[2] == BOOL_KIND && kind[3] == BOOL_KIND);
    CHECK(first[4] == 99 && length[4] == 99 && next[4] == 99 && depth[4] == 99 && kind[4] == 99);
    /* One run is a number short. */
    CHECK(khuyurek_descriptor_read(P12, sizeof P12, first, 4, length, 4, next, 3, depth, 4, kind, 4)
              .number
          == KHUYUREK_NO_ROOM);
    /* As many rows as any file of this length has. */
    uint32_t most[5][sizeof P12 / 5];
    CHECK(khuyurek_descriptor_read(P12, sizeof P12, most[0], sizeof P12 / 5, most[1],
                                   sizeof P12 / 5, most[2], sizeof P12 / 5, most[3],
                                   sizeof P12 / 5, most[4], sizeof P12 / 5)
              .rows
          == 4);
    uint32_t values[5] = {[4] = 99}, parents[5] = {[4] = 99};
    CHECK(khuyurek_descriptor_values(P12, sizeof P12, values, 5).rows == 4);
    CHECK(values[0] == 4 && values[1] == 26 && values[2] == 34 && values[3] == 39);
    CHECK(values[4] == 99);
    CHECK(khuyurek_descriptor_values(P12, sizeof P12, values, 3).number == KHUYUREK_NO_ROOM);
    CHECK(khuyurek_descriptor_parents(depth, 4, parents, 5).rows == 4);
    CHECK(parents[0] == 0 && parents[1] == 0 && parents[2] == 1 && parents[3] == 1);
    CHECK(parents[4] == 99);
    CHECK(khuyurek_descriptor_parents(depth, 4, parents, 3).number == KHUYUREK_NO_ROOM);

    /* The key of the list, one of length 0 with the same byte, and one that is cut. */
    static const uint8_t keys[] = {0, 0, 0, 1, 0x61, 0, 0, 0, 0, 0x61, 0, 0, 0};
    uint32_t answers[3] = {[2] = 99};
    khuyurek_found found = khuyurek_descriptor_find(P12, sizeof P12, first, 5, length, 5, next, 5,
                                                    depth, 5, kind, 5, keys, 13, answers, 3);
    CHECK(found.number == 0 && found.in_keys == 0 && found.place == 0 && found.keys == 2);
    CHECK(answers[0] == 1 && answers[1] == 4 && answers[2] == 99);
    found = khuyurek_descriptor_find(P12, sizeof P12, first, 5, length, 5, next, 5, depth, 5, kind,
                                     5, keys, 12, answers, 3);
    CHECK(found.number == KHUYUREK_CUT && found.in_keys == 1 && found.place == 9);
    found = khuyurek_descriptor_find(P12, sizeof P12, first, 5, length, 5, next, 5, depth, 5, kind,
                                     3, keys, 13, answers, 3);
    CHECK(found.number == 5 && found.in_keys == 0 && found.place == 0 && found.keys == 0);
    CHECK(khuyurek_descriptor_find(P12, sizeof P12, first, 5, length, 5, next, 5, depth, 5, kind, 5,
                                   keys, 13, answers, 1)
              .number
          == KHUYUREK_NO_ROOM);

    uint8_t turned[sizeof P12 + 1] = {[sizeof P12] = 99};
    khuyurek_length wrote = khuyurek_descriptor_replace(P12, sizeof P12, first, 5, length, 5, next, 5,
                                                        depth, 5, kind, 5, 3, BOOL_KIND, 0, 0, turned,
                                                        sizeof turned);
    CHECK(wrote.number == 0 && wrote.length == sizeof P12);
    CHECK(memcmp(turned, P12, 39) == 0 && turned[39] == 0 && turned[sizeof P12] == 99);
    CHECK(khuyurek_descriptor_replace(P12, sizeof P12, first, 5, length, 5, next, 5, depth, 5, kind,
                                      5, 3, BOOL_KIND, 0, 2, turned, sizeof turned)
              .number
          == 5);
    CHECK(khuyurek_descriptor_replace(P12, sizeof P12, first, 5, length, 5, next, 5, depth, 5, kind,
                                      5, 1, BOOL_KIND, 0, 1, turned, sizeof turned)
              .number
          == KHUYUREK_NO_COUNTERPART);
    CHECK(khuyurek_descriptor_replace(P12, sizeof P12, first, 5, length, 5, next, 5, depth, 5, kind,
                                      5, 4, BOOL_KIND, 0, 1, turned, sizeof turned)
              .number
          == KHUYUREK_NO_RECORD);

    /* P12 from its entries, with itself as the text: the root's class is the string of no units at 4
     * and the ID of one byte at 12, and the list's key the one at 21. */
    uint32_t entries[4 * KHUYUREK_DESCRIPTOR_ENTRY] = {
        [0] = OBJECT_KIND, [5] = 1, [6] = 12, [14] = 1,
        [16] = LIST_KIND, [17] = 1, [18] = 21, [30] = 2,
        [32] = BOOL_KIND, [45] = 1,
        [48] = BOOL_KIND, [61] = 1,
    };
    uint8_t made[sizeof P12 + 1] = {[sizeof P12] = 99};
    CHECK(khuyurek_descriptor_build_length(entries, 64, P12, sizeof P12).length == sizeof P12);
    wrote = khuyurek_descriptor_build(entries, 64, P12, sizeof P12, made, sizeof P12 - 1);
    CHECK(wrote.number == KHUYUREK_NO_ROOM && wrote.length == 0 && made[0] == 0 && made[3] == 0);
    wrote = khuyurek_descriptor_build(entries, 64, P12, sizeof P12, made, sizeof made);
    CHECK(wrote.number == 0 && wrote.length == sizeof P12);
    CHECK(memcmp(made, P12, sizeof P12) == 0 && made[sizeof P12] == 99);
    uint32_t taken[4 * KHUYUREK_DESCRIPTOR_ENTRY + 1] = {[63] = 99, [64] = 99};
    khuyurek_descriptor_answer answer = khuyurek_descriptor_entries(P12, sizeof P12, taken, 63);
    CHECK(answer.number == KHUYUREK_NO_ROOM && answer.rows == 0 && taken[0] == 0 && taken[63] == 99);
    answer = khuyurek_descriptor_entries(P12, sizeof P12, taken, 65);
    CHECK(answer.number == 0 && answer.rows == 4 && taken[64] == 99);
    entries[4] = 8;
    CHECK(memcmp(taken, entries, sizeof entries) == 0);
    answer = khuyurek_descriptor_entries(P12, sizeof P12 - 1, taken, 65);
    CHECK(answer.number == KHUYUREK_CUT && answer.place == 39 && taken[0] == OBJECT_KIND);
    CHECK(khuyurek_descriptor_build_length(entries, 63, P12, sizeof P12).number == KHUYUREK_CUT);
    entries[61] = 2;
    CHECK(khuyurek_descriptor_build_length(entries, 64, P12, sizeof P12).number
          == KHUYUREK_OUT_OF_RANGE);
    entries[61] = 1;
    entries[30] = 1;
    CHECK(khuyurek_descriptor_build_length(entries, 64, P12, sizeof P12).number
          == KHUYUREK_LEFT_OVER);

    khuyurek_descriptor_value value = khuyurek_descriptor_value_at(P12, sizeof P12, 1);
    CHECK(value.number == 0 && value.first == 26 && value.length == 14);
    khuyurek_descriptor_typed typed = khuyurek_descriptor_typed_at(P12, sizeof P12, 3);
    CHECK(typed.number == 0 && typed.kind == BOOL_KIND && typed.unit == 0 && typed.bits == 1);
    CHECK(khuyurek_descriptor_typed_at(P12, sizeof P12, 1).kind == 0);
    CHECK(khuyurek_descriptor_typed_at(P12, sizeof P12, 4).number == KHUYUREK_NO_RECORD);
    khuyurek_descriptor_answer cut = khuyurek_descriptor_judge(P12, sizeof P12 - 1);
    CHECK(cut.number == KHUYUREK_CUT && cut.place == 39 && cut.rows == 0);
    return 0;
}

/* A block of the ID 1000 with no name and the data `abc`, inside a document without colour mode data. */
static const uint8_t DOCUMENT[50] = {
    0x38, 0x42, 0x50, 0x53, 0x00, 0x01, 0x00, 0x00, 0x00, 0x00, 0x00, 0x00, 0x00, 0x00, 0x00, 0x00, 0x00,
    0x00, 0x00, 0x00, 0x00, 0x00, 0x00, 0x00, 0x00, 0x00, 0x00, 0x00, 0x00, 0x00, 0x00, 0x00, 0x00, 0x10,
    0x38, 0x42, 0x49, 0x4D, 0x03, 0xE8, 0x00, 0x00, 0x00, 0x00, 0x00, 0x03, 0x61, 0x62, 0x63, 0x00,
};

static int resources(void) {
    khuyurek_section lies = khuyurek_document_resources(DOCUMENT, sizeof DOCUMENT);
    CHECK(lies.number == 0 && lies.place == 0 && lies.first == 34 && lies.length == 16);
    const uint8_t *section = DOCUMENT + lies.first;
    CHECK(khuyurek_resource_judge(section, lies.length).blocks == 1);
    uint32_t table[KHUYUREK_RESOURCE_WIDTH] = {0};
    CHECK(khuyurek_resource_read(section, lies.length, table, 4).number == KHUYUREK_NO_ROOM);
    CHECK(khuyurek_resource_read(section, lies.length, table, 5).number == 0);
    CHECK(table[0] == 1000 && table[1] == 7 && table[2] == 0 && table[3] == 12 && table[4] == 3);
    khuyurek_resource_record block = khuyurek_resource_record_at(section, lies.length, 0);
    CHECK(block.number == 0 && block.id == 1000 && block.data == 12 && block.data_length == 3);
    CHECK(khuyurek_resource_find(section, lies.length, 1000).number == 0);
    CHECK(khuyurek_resource_find(section, lies.length, 7).number == KHUYUREK_NO_RECORD);
    uint8_t out[16];
    CHECK(khuyurek_resource_length(table, 5, section, lies.length).length == sizeof out);
    CHECK(khuyurek_resource_write(table, 5, section, lies.length, out, sizeof out).number == 0);
    CHECK(memcmp(out, section, sizeof out) == 0);
    khuyurek_section cut = khuyurek_document_resources(DOCUMENT, sizeof DOCUMENT - 1);
    CHECK(cut.number == KHUYUREK_CUT && cut.place == 34 && cut.first == 0 && cut.length == 0);
    return 0;
}

static int walks(void) {
    khuyurek_aco_start aco = khuyurek_aco_walk_start(P3, sizeof P3);
    CHECK(aco.number == 0 && aco.place == 0 && aco.at == 18);
    khuyurek_aco_step swatch = khuyurek_aco_walk(P3, sizeof P3, aco.at);
    CHECK(swatch.number == 0 && swatch.done == 0 && swatch.next == sizeof P3);
    CHECK(swatch.name == 32 && swatch.units == 1 && swatch.space == 0);
    CHECK(swatch.ink == KHUYUREK_INK_NOT_STATED);
    CHECK(swatch.samples[0] == 65535 && swatch.samples[2] == 32896 && swatch.samples[3] == 0);
    khuyurek_aco_step end = khuyurek_aco_walk(P3, sizeof P3, swatch.next);
    CHECK(end.number == 0 && end.done == 1 && end.next == sizeof P3 && end.samples[0] == 0);
    khuyurek_aco_step lost = khuyurek_aco_walk(P3, sizeof P3, sizeof P3 + 1);
    CHECK(lost.number == KHUYUREK_OUT_OF_RANGE && lost.done == 0);

    khuyurek_ase_start ase = khuyurek_ase_walk_start(P6, sizeof P6);
    CHECK(ase.number == 0 && ase.place == 0 && ase.at == 12);
    khuyurek_ase_step colour = khuyurek_ase_walk(P6, sizeof P6, ase.at);
    CHECK(colour.number == 0 && colour.done == 0 && colour.next == sizeof P6);
    CHECK(colour.block == KHUYUREK_ASE_COLOUR && colour.name == 20 && colour.units == 0);
    CHECK(colour.model == KHUYUREK_GRAY && colour.channels[0] == ONE && colour.ink == KHUYUREK_INK_NORMAL);
    CHECK(khuyurek_ase_walk(P6, sizeof P6, colour.next).done == 1);
    khuyurek_ase_step block = khuyurek_ase_walk_block(P6, sizeof P6, ase.at);
    CHECK(block.block == KHUYUREK_ASE_COLOUR && block.next == sizeof P6);
    CHECK(khuyurek_ase_walk_start(P6, sizeof P6 - 1).number == KHUYUREK_CUT);
    return 0;
}

static int conversions(void) {
    khuyurek_sample rgb = khuyurek_to_sample(RGB_MODEL, HALF);
    CHECK(rgb.number == 0 && rgb.sample == 32768);
    khuyurek_sample cmyk = khuyurek_to_sample(CMYK_MODEL, HALF);
    CHECK(cmyk.number == 0 && cmyk.sample == 32767);
    khuyurek_channel gray = khuyurek_to_channel(8, 10000);
    CHECK(gray.number == 0 && gray.bits == ONE);
    CHECK(khuyurek_to_channel(8, 10001).number == KHUYUREK_OUT_OF_RANGE);
    khuyurek_channel unknown = khuyurek_to_channel(3, 65535);
    CHECK(unknown.number == KHUYUREK_UNKNOWN && unknown.bits == 0);
    CHECK(khuyurek_to_channel(1, 0).number == KHUYUREK_NO_COUNTERPART);
    CHECK(khuyurek_to_channel(7, 65535).number == KHUYUREK_NO_COUNTERPART);
    CHECK(khuyurek_to_sample(0, NAN_BITS).number == KHUYUREK_UNKNOWN);
    CHECK(khuyurek_to_sample(KHUYUREK_LAB, NAN_BITS).number == KHUYUREK_OUT_OF_RANGE);
    CHECK(khuyurek_to_sample(KHUYUREK_LAB, HALF).number == KHUYUREK_NO_COUNTERPART);
    CHECK(khuyurek_to_sample(RGB_MODEL, ONE + 1).number == KHUYUREK_OUT_OF_RANGE);
    return 0;
}

static int trays(void) {
    uint16_t samples[3] = {0, 10000, 10001};
    uint32_t bits[3] = {7, 7, 7};
    khuyurek_tray tray = khuyurek_to_channels(8, samples, 3, bits, 3);
    CHECK(tray.number == KHUYUREK_OUT_OF_RANGE && tray.position == 2 && bits[0] == 7);
    CHECK(khuyurek_to_channels(8, samples, 3, bits, 2).number == KHUYUREK_OUT_OF_RANGE);
    tray = khuyurek_to_channels(8, samples, 2, bits, 1);
    CHECK(tray.number == KHUYUREK_NO_ROOM && tray.position == 0 && bits[0] == 7);
    tray = khuyurek_to_channels(8, samples, 2, bits, 3);
    CHECK(tray.number == 0 && tray.position == 0);
    CHECK(bits[0] == 0 && bits[1] == ONE && bits[2] == 7);
    CHECK(khuyurek_to_channels(3, samples, 0, bits, 0).number == 0);
    CHECK(khuyurek_to_channels(3, samples, 1, bits, 0).number == KHUYUREK_UNKNOWN);
    uint32_t channels[3] = {ONE, HALF, ONE + 1};
    tray = khuyurek_to_samples(CMYK_MODEL, channels, 3, samples, 3);
    CHECK(tray.number == KHUYUREK_OUT_OF_RANGE && tray.position == 2 && samples[2] == 10001);
    tray = khuyurek_to_samples(CMYK_MODEL, channels, 2, samples, 3);
    CHECK(tray.number == 0 && samples[0] == 0 && samples[1] == 32767 && samples[2] == 10001);
    CHECK(khuyurek_to_samples(KHUYUREK_LAB, channels, 1, samples, 0).number == KHUYUREK_NO_COUNTERPART);
    return 0;
}

static int seasons(void) {
    static const uint8_t dark[] = {0, 1, 0, 1, 0, 8, 0, 0, 0, 0, 0, 0, 0, 0};
    static const uint8_t light[] = {0, 1, 0, 1, 0, 8, 0x27, 0x10, 0, 0, 0, 0, 0, 0};
    static const uint8_t gray[] = {'A', 'S', 'E', 'F', 0, 1, 0, 0, 0, 0, 0, 1, 0, 1, 0, 0, 0, 14,
                                   0, 1, 0, 0, 'G', 'r', 'a', 'y', 0x3F, 0x80, 0, 0, 0, 2};
    uint32_t table[3] = {7, 7, 7};
    khuyurek_compared compared = khuyurek_compare(2, dark, sizeof dark, KHUYUREK_ACO, light, sizeof light, table, 3);
    CHECK(compared.number == KHUYUREK_UNKNOWN && compared.file == 0);
    compared = khuyurek_compare(KHUYUREK_ACO, dark, sizeof dark, KHUYUREK_ASE, light, sizeof light, table, 3);
    CHECK(compared.number == KHUYUREK_WRONG_MARK && compared.file == 2);
    compared = khuyurek_compare(KHUYUREK_ACO, dark, sizeof dark, KHUYUREK_ACO, light, sizeof light, table, 1);
    CHECK(compared.number == KHUYUREK_NO_ROOM && compared.file == 0 && table[0] == 7);
    compared = khuyurek_compare(KHUYUREK_ACO, dark, sizeof dark, KHUYUREK_ACO, light, sizeof light, table, 3);
    CHECK(compared.number == 0 && compared.positions == 1 && compared.differences == 1);
    CHECK(table[0] == 0 && table[1] == KHUYUREK_COLOUR_DIFFERS && table[2] == 7);
    compared = khuyurek_compare(KHUYUREK_ACO, light, sizeof light, KHUYUREK_ASE, gray, sizeof gray, table, 3);
    CHECK(compared.number == 0 && compared.differences == 0 && table[1] == KHUYUREK_SAME);

    khuyurek_report none = {{0}};
    khuyurek_reported reported = khuyurek_report_add(none, 4, light, sizeof light);
    CHECK(reported.number == KHUYUREK_UNKNOWN && reported.report.totals[0] == 0);
    reported = khuyurek_report_add(none, KHUYUREK_ACO, light, sizeof light);
    CHECK(reported.number == 0 && reported.file_number == 0);
    CHECK(reported.report.totals[0] == 1 && reported.report.totals[19] == 1 && reported.report.totals[28] == 1);
    khuyurek_reported more = khuyurek_report_add(reported.report, KHUYUREK_DESCRIPTOR, light, 0);
    CHECK(more.number == 0 && more.file_number == KHUYUREK_CUT && more.report.totals[2] == 1);
    khuyurek_merged merged = khuyurek_report_merge(reported.report, more.report);
    CHECK(merged.number == 0 && merged.report.totals[0] == 2 && merged.report.totals[2] == 1);
    merged.report.totals[0] = 4294967295u;
    more = khuyurek_report_add(merged.report, KHUYUREK_ASE, gray, sizeof gray);
    CHECK(more.number == KHUYUREK_OUT_OF_RANGE && more.report.totals[23] == 0);
    return 0;
}

static int text(void) {
    /* A, an umlaut, a euro sign, a pair, a high surrogate alone, a low one alone */
    static const uint16_t units[] = {'A', 0xFC, 0x20AC, 0xD83C, 0xDFA8, 0xD800, 'B', 0xDC00};
    static const uint8_t file[] = {9, 0, 'A', 0, 0xFC, 0x20, 0xAC, 0xD8, 0x3C, 0xDF, 0xA8, 0xD8, 0, 0, 'B', 0xDC, 0};
    static const char want[] = "A\xC3\xBC\xE2\x82\xAC\xF0\x9F\x8E\xA8\xEF\xBF\xBD" "B\xEF\xBF\xBD";
    uint8_t out[32];
    memset(out, 7, sizeof out);
    CHECK(khuyurek_utf8_length(units, 8).length == 17);
    CHECK(khuyurek_name_utf8_length(file, sizeof file, 1, 8).length == 17);
    khuyurek_length wrote = khuyurek_name_utf8(file, sizeof file, 1, 8, out, 16);
    CHECK(wrote.number == KHUYUREK_NO_ROOM && wrote.length == 0 && out[0] == 7);
    wrote = khuyurek_name_utf8(file, sizeof file, 2, 8, out, 32);
    CHECK(wrote.number == KHUYUREK_CUT && out[0] == 7);
    wrote = khuyurek_name_utf8(file, sizeof file, 1, 8, out, 17);
    CHECK(wrote.number == 0 && wrote.length == 17 && memcmp(out, want, 17) == 0 && out[17] == 7);
    memset(out, 7, sizeof out);
    wrote = khuyurek_utf8(units, 8, out, 32);
    CHECK(wrote.number == 0 && wrote.length == 17 && memcmp(out, want, 17) == 0 && out[17] == 7);
    CHECK(khuyurek_name_utf8(file, sizeof file, 99, 0, out, 0).number == 0);
    uint8_t sentence[KHUYUREK_SENTENCE];
    CHECK(khuyurek_refusal_sentence(1, sentence, sizeof sentence).length == KHUYUREK_SENTENCE);
    CHECK(khuyurek_refusal_sentence(1, sentence, sizeof sentence - 1).number == KHUYUREK_NO_ROOM);
    wrote = khuyurek_refusal_sentence(0, sentence, sizeof sentence);
    CHECK(wrote.number == 0 && wrote.length == 8 && memcmp(sentence, "accepted", 8) == 0);
    CHECK(khuyurek_refusal_sentence(15, sentence, 0).number == KHUYUREK_NO_RECORD);
    return 0;
}

int main(void) {
    if (text() || aco() || chunks() || ase() || acb() || descriptor() || resources() || walks() || conversions() || trays() || seasons()) {
        return 1;
    }
    puts("C agrees");
    return 0;
}
