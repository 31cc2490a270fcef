/* Khuyurek for C: colour files judged, read and written.
 *
 * Link target/staticlib/libkhuyurek.a, which `tools/build khuyurek` makes.
 * No call allocates, keeps a pointer or changes a buffer on a refusal; the
 * store of a palette in chunks has its own rule, see there.
 * docs/INTERFACE.md has every function with its refusals, and
 * examples/list_palette.c a program.
 *
 * A buffer is a pointer and the number of its elements. What a caller owes:
 * - so many elements are there for the whole call, aligned for their type;
 * - a buffer that is written, a table or an output, overlaps no other buffer of
 *   its call; those that are only read may overlap;
 * - no pointer is null, also where the number is 0: in the library a buffer is a
 *   reference, which never is null, and its compiler may count on that. For an
 *   empty buffer pass the address of any object of the type; it is neither read
 *   nor written. (malloc(0) may give null: ask for one element more.)
 * All else is judged by the call: any contents, any number, any place.
 */
#ifndef KHUYUREK_H
#define KHUYUREK_H

#include <stddef.h>
#include <stdint.h>

#ifdef __cplusplus
extern "C" {
#endif

/* What the number of an answer says: accepted, or why a file or a run is refused. */
#define KHUYUREK_ACCEPTED 0u
/* the file read, or the output to be written, is longer than the limit */
#define KHUYUREK_TOO_LONG 1u
/* a field needs more bytes than remain */
#define KHUYUREK_CUT 2u
/* wrong signature, version or closing tag */
#define KHUYUREK_WRONG_MARK 3u
/* unknown colour space, block type, model, item type, form or unit */
#define KHUYUREK_UNKNOWN 4u
/* a field outside its stated range */
#define KHUYUREK_OUT_OF_RANGE 5u
/* bytes left over after the end */
#define KHUYUREK_LEFT_OVER 6u
/* the two ACO lists disagree */
#define KHUYUREK_LISTS_DISAGREE 7u
/* a name badly closed */
#define KHUYUREK_BADLY_CLOSED 8u
/* groups unbalanced */
#define KHUYUREK_UNBALANCED 9u
/* nested too deep */
#define KHUYUREK_TOO_DEEP 10u
/* the lent output is shorter than the exact need */
#define KHUYUREK_NO_ROOM 11u
/* no record or page of that number */
#define KHUYUREK_NO_RECORD 12u
/* ASE block length disagrees with its content */
#define KHUYUREK_LENGTH_DISAGREES 13u
/* colour has no counterpart in the other format */
#define KHUYUREK_NO_COUNTERPART 14u

/* The longest file that is taken or written, in bytes: a longer one is 1. */
#define KHUYUREK_LIMIT 16777216u

/* Counted up at every change of a struct or of a record's numbers; docs/CHANGES.md
 * says what changed. */
#define KHUYUREK_VERSION 3

/* The inks of a record: to which station of the press a colour goes. An ASE file
 * states one of the first three, an ACO file none, a colour book what its closing tag
 * says. */
#define KHUYUREK_INK_GLOBAL 0
#define KHUYUREK_INK_SPOT 1
#define KHUYUREK_INK_NORMAL 2
#define KHUYUREK_INK_PROCESS 3
#define KHUYUREK_INK_NOT_STATED 4

/* What a writer answers. number 0: accepted, with the length in bytes. Else the
 * refusal; its place is 0. */
typedef struct {
    uint32_t number;
    size_t length;
} khuyurek_length;

/* ---- ACO */

/* The numbers of a record in a table or run: space, four samples, place of the
 * name's first unit in the file or text, number of its units (16 bits each,
 * big-endian, without the closing zero), ink (always not stated; a writer refuses any
 * other by 14, and so a record that was set to zeros, which says global). Samples run
 * from 0 to 65,535, of gray and Lab's lightness from 0 to 10,000; Lab's two
 * chrominances from -12,800 to 12,700, as unsigned 16 bits. */
#define KHUYUREK_ACO_WIDTH 8

/* number 0: accepted, with the number of colours and of lists (2: names).
 * Else the refusal and its place; for 7 also the record and field. */
typedef struct {
    uint32_t number;
    size_t place;
    size_t record;
    size_t field;
    size_t colours;
    size_t lists;
} khuyurek_aco_answer;

/* number 0: accepted, with the colour and where its name lies. Else the refusal as
 * khuyurek_aco_judge gives it, or 12; all the rest is 0. */
typedef struct {
    uint32_t number;
    uint32_t units;
    size_t place;
    size_t record;
    size_t field;
    size_t name;
    uint16_t space;
    uint16_t samples[4];
    uint32_t ink;
} khuyurek_aco_record;

/* number 0: given, with the bits of the channel, an IEEE 754 float of 32 bits.
 * Else the refusal, whose place is 0; bits is 0. */
typedef struct {
    uint32_t number;
    uint32_t bits;
} khuyurek_channel;

/* number 0: given, with the sample. Else the refusal, whose place is 0; sample is 0. */
typedef struct {
    uint32_t number;
    uint16_t sample;
} khuyurek_sample;

khuyurek_aco_answer khuyurek_aco_judge(const uint8_t *file, size_t file_len);

/* Needs KHUYUREK_ACO_WIDTH * colours numbers of the table, else 11; the rest of it
 * keeps its contents. */
khuyurek_aco_answer khuyurek_aco_read(const uint8_t *file, size_t file_len,
                                      uint32_t *table, size_t table_len);

/* Judges the whole file, then 12 where it has no such record. */
khuyurek_aco_record khuyurek_aco_record_at(const uint8_t *file, size_t file_len,
                                           size_t index);

/* The exact length that writing needs. A remainder of fewer than
 * KHUYUREK_ACO_WIDTH numbers is left alone. */
khuyurek_length khuyurek_aco_length(const uint32_t *records, size_t records_len,
                                    const uint8_t *text, size_t text_len);

khuyurek_length khuyurek_aco_write(const uint32_t *records, size_t records_len,
                                   const uint8_t *text, size_t text_len,
                                   uint8_t *out, size_t out_len);

/* ---- ACO in chunks
 *
 * A file that arrives in chunks, cut anywhere, chunks of no bytes among them: start,
 * feed for each chunk, finish. Each call is lent the same store and handed the stream
 * that the call before handed back. At the end the store begins with the colours of
 * list 1 that stand whole before the first fault (1 aside), ten bytes each as sent,
 * and past them holds what it held; it is the one buffer that a refused file changes.
 */

/* The bytes of a store: a shorter one is 11. What follows them is neither looked at
 * nor changed. */
#define KHUYUREK_ACO_STORE 40960

/* What is kept between two chunks. Its numbers are the library's own: hand them back
 * as they came. With any other numbers a call still gives a number of the table and
 * stays inside the store. total: how many bytes came; past the limit it stops. */
typedef struct {
    size_t total;
    size_t got;
    size_t place;
    uint32_t stage;
    uint32_t ended;
    uint32_t number;
    uint32_t at;
    uint32_t left;
    uint32_t zero;
    uint16_t count;
    uint16_t index;
    uint16_t record;
    uint16_t field;
    uint8_t carry[16];
} khuyurek_aco_stream;

/* number 0: taken, with the stream for the next call. Else the refusal, whose place
 * is 0, and the stream as it came. */
typedef struct {
    uint32_t number;
    khuyurek_aco_stream stream;
} khuyurek_aco_fed;

/* The answer of the whole file, and the stream, which has ended; after 11, and 5 for
 * a stream that had ended before, the stream as it came. */
typedef struct {
    khuyurek_aco_answer answer;
    khuyurek_aco_stream stream;
} khuyurek_aco_finished;

/* A short store is 11, with a stream that has ended. */
khuyurek_aco_fed khuyurek_aco_stream_start(const uint8_t *store, size_t store_len);

/* Number 0 whatever the chunk holds; 5 for a stream that has ended, then 11. */
khuyurek_aco_fed khuyurek_aco_stream_feed(khuyurek_aco_stream stream,
                                          uint8_t *store, size_t store_len,
                                          const uint8_t *chunk, size_t chunk_len);

/* 5 for a stream that has ended, then 11; else what khuyurek_aco_judge answers of all
 * chunks joined. */
khuyurek_aco_finished khuyurek_aco_stream_finish(khuyurek_aco_stream stream,
                                                 const uint8_t *store,
                                                 size_t store_len);

/* ---- ASE */

/* The numbers of a record in a table or run: the block's type, place of the name's
 * first unit in the file or text, number of its units (as for ACO), model, bits of
 * four channels, ink (that of a colour, which is its type in the file: global, spot or
 * normal). A reader fills places that a record does not use with 0; a writer ignores
 * them. */
#define KHUYUREK_ASE_WIDTH 9

/* The types of a block. */
#define KHUYUREK_ASE_START 0xC001u
#define KHUYUREK_ASE_STOP 0xC002u
#define KHUYUREK_ASE_COLOUR 0x0001u

/* number 0: accepted, with the number of blocks and of those that are colours. Else
 * the refusal and its place. */
typedef struct {
    uint32_t number;
    size_t place;
    size_t blocks;
    size_t colours;
} khuyurek_ase_answer;

/* number 0: accepted, with the record. Else the refusal and its place, and all the
 * rest is 0. */
typedef struct {
    uint32_t number;
    uint32_t block;
    size_t place;
    size_t name;
    uint32_t units;
    uint32_t model;
    uint32_t channels[4];
    uint32_t ink;
} khuyurek_ase_record;

khuyurek_ase_answer khuyurek_ase_judge(const uint8_t *file, size_t file_len);

/* Needs KHUYUREK_ASE_WIDTH * blocks numbers of the table, else 11; the rest of it
 * keeps its contents. */
khuyurek_ase_answer khuyurek_ase_read(const uint8_t *file, size_t file_len,
                                      uint32_t *table, size_t table_len);

/* Judges the whole file, then 12 where it has no such record. */
khuyurek_ase_record khuyurek_ase_record_at(const uint8_t *file, size_t file_len,
                                           size_t index);

/* The exact length that writing needs. A remainder of fewer than
 * KHUYUREK_ASE_WIDTH numbers is left alone. */
khuyurek_length khuyurek_ase_length(const uint32_t *records, size_t records_len,
                                    const uint8_t *text, size_t text_len);

khuyurek_length khuyurek_ase_write(const uint32_t *records, size_t records_len,
                                   const uint8_t *text, size_t text_len,
                                   uint8_t *out, size_t out_len);

/* ---- ACB */

/* The numbers of a record in a table or run: place of the name's first unit in the
 * file or text, number of its units (16 bits each, big-endian, no closing zero), six
 * code bytes, four components (a number each; the fourth is spare save in CMYK: a
 * reader fills it with 0, a writer ignores it), ink (the one that the book's closing
 * tag states: spot, process, or not stated without one; a writer refuses any other by
 * 14, and so records that were set to zeros, which say global). */
#define KHUYUREK_ACB_WIDTH 13

/* Where a string lies in the file or text: the place of its first unit, and its units. */
typedef struct {
    size_t place;
    uint32_t units;
} khuyurek_text;

/* tag: 0 none, 1 spot (`spflspot`), 2 process (`spflproc`); to write, any other is another
 * tag, the book's last field. */
typedef struct {
    uint16_t identifier;
    uint16_t page_size;
    uint16_t page_offset;
    uint16_t space;
    uint32_t tag;
    khuyurek_text title, prefix, suffix, description;
} khuyurek_acb_header;

/* number 0: accepted, with the header and the number of colours. Else the refusal and
 * its place, and all the rest is 0. */
typedef struct {
    uint32_t number;
    size_t place;
    size_t count;
    khuyurek_acb_header header;
} khuyurek_acb_answer;

/* number 0: accepted, with the record and where its name lies. Else the refusal and
 * its place, and all the rest is 0. */
typedef struct {
    uint32_t number;
    uint32_t units;
    size_t place;
    size_t name;
    uint8_t code[6];
    uint8_t components[4];
    uint32_t ink;
} khuyurek_acb_record;

/* number 0: accepted, with what the components show (count 3 or 4; the rest 0). Else the
 * refusal and its place, and all the rest is 0. */
typedef struct {
    uint32_t number;
    uint32_t count;
    size_t place;
    int32_t values[4];
} khuyurek_acb_shown;

/* number 0: accepted, with the full name's length in bytes. Else the refusal and its
 * place. */
typedef struct {
    uint32_t number;
    size_t length;
    size_t place;
} khuyurek_acb_full;

/* number 0: accepted, with the record that the page shows. Else the refusal and its
 * place. */
typedef struct {
    uint32_t number;
    size_t record;
    size_t place;
} khuyurek_acb_page;

khuyurek_acb_answer khuyurek_acb_judge(const uint8_t *file, size_t file_len);

/* Needs KHUYUREK_ACB_WIDTH * count numbers of the table, else 11; the rest of it keeps
 * its contents. */
khuyurek_acb_answer khuyurek_acb_read(const uint8_t *file, size_t file_len,
                                      uint32_t *table, size_t table_len);

/* Judges the whole file, then 12 where it has no such record. */
khuyurek_acb_record khuyurek_acb_record_at(const uint8_t *file, size_t file_len,
                                           size_t index);

/* Where the shown text of a string's bytes begins: after the first `=` where they begin
 * with `$$$/` and hold one, else 0. Units are pairs of bytes from the start; an odd last
 * byte is no unit and stays part of the rest. */
size_t khuyurek_acb_shown_start(const uint8_t *string, size_t string_len);

/* Each judges the whole file, then 12 where it has no such record; the last then 11 where
 * out is too short. */
khuyurek_acb_shown khuyurek_acb_shown_at(const uint8_t *file, size_t file_len,
                                         size_t index);
khuyurek_acb_full khuyurek_acb_full_length(const uint8_t *file, size_t file_len,
                                           size_t index);
khuyurek_acb_full khuyurek_acb_full_name(const uint8_t *file, size_t file_len,
                                         size_t index, uint8_t *out, size_t out_len);

/* Judges the whole file, then 12 where the page shows no record. */
khuyurek_acb_page khuyurek_acb_page_at(const uint8_t *file, size_t file_len, size_t page);

/* This and the next are for listing a whole book that khuyurek_acb_read has read: neither
 * looks at the file. What the byte of a component shows, by the header's space and the
 * component's position in its record, from 0. */
int32_t khuyurek_acb_shown_component(uint16_t space, size_t position, uint8_t byte);

/* As khuyurek_acb_page_at, by the table and by the count, page size and page offset that
 * reading answered: 12 where the page shows no record. Records that the table does not
 * hold whole are not there. */
khuyurek_acb_page khuyurek_acb_page_in(const uint32_t *table, size_t table_len, size_t count,
                                       uint16_t page_size, uint16_t page_offset,
                                       size_t page);

/* An index of a book holds a number for each record that is no dummy: the record's.
 * They are in the order of the records' names, unit by unit as numbers, a shorter name
 * before a longer one that begins with it, and equal names by record number. */
#define KHUYUREK_ACB_INDEX_WIDTH 1

/* number 0: built, and shown is how many entries there are. Else the refusal. */
typedef struct {
    uint32_t number;
    size_t place;
    size_t shown;
} khuyurek_acb_indexed;

/* number 0: found, and record is the record's number. Else the refusal. */
typedef struct {
    uint32_t number;
    size_t place;
    size_t record;
} khuyurek_acb_found;

/* The index of a book, in a run that needs one place for each shown record: 11 where it
 * is shorter. Past them it keeps its contents. */
khuyurek_acb_indexed khuyurek_acb_index(const uint8_t *file, size_t file_len,
                                        uint32_t *index, size_t index_len);

/* The lowest shown record of a name, without prefix and suffix: 12 where none has it. The
 * index is first compared with the file: 5 at 0 unless it begins with the file's. */
khuyurek_acb_found khuyurek_acb_find(const uint8_t *file, size_t file_len,
                                     const uint32_t *index, size_t index_len,
                                     const uint16_t *name, size_t name_len);

/* The exact length that writing needs: 3 for a tag above 2, after the faults of all records;
 * in the length that 1 is judged on it counts eight bytes. A remainder of fewer than
 * KHUYUREK_ACB_WIDTH numbers is left alone. */
khuyurek_length khuyurek_acb_length(khuyurek_acb_header header,
                                    const uint32_t *records, size_t records_len,
                                    const uint8_t *text, size_t text_len);

khuyurek_length khuyurek_acb_write(khuyurek_acb_header header,
                                   const uint32_t *records, size_t records_len,
                                   const uint8_t *text, size_t text_len,
                                   uint8_t *out, size_t out_len);

/* ---- image resource blocks */

/* The numbers of a block: ID, place and length of the name, place and length of the data. */
#define KHUYUREK_RESOURCE_WIDTH 5

/* number 0: accepted, with the number of blocks. Else the refusal and its place. */
typedef struct {
    uint32_t number;
    size_t place;
    size_t blocks;
} khuyurek_resource_answer;

/* number 0: accepted, with the ID and where name and data lie. Else the refusal and its
 * place, and all else is 0. */
typedef struct {
    uint32_t number;
    uint32_t id;
    size_t place;
    size_t name;
    size_t name_length;
    size_t data;
    size_t data_length;
} khuyurek_resource_record;

/* number 0: found, with the block's number. Else the refusal and its place. */
typedef struct {
    uint32_t number;
    size_t place;
    size_t index;
} khuyurek_resource_found;

/* number 0: accepted, with the place of the section's first byte and its length. Else the
 * refusal and its place. */
typedef struct {
    uint32_t number;
    size_t place;
    size_t first;
    size_t length;
} khuyurek_section;

khuyurek_resource_answer khuyurek_resource_judge(const uint8_t *section, size_t section_len);

/* 11 where the table has no room for 5 numbers a block. */
khuyurek_resource_answer khuyurek_resource_read(const uint8_t *section, size_t section_len,
                                                uint32_t *table, size_t table_len);

/* 12 where there is no such block. */
khuyurek_resource_record khuyurek_resource_record_at(const uint8_t *section,
                                                     size_t section_len, size_t index);

/* The first block with that ID, else 12. */
khuyurek_resource_found khuyurek_resource_find(const uint8_t *section, size_t section_len,
                                               uint16_t id);

khuyurek_length khuyurek_resource_length(const uint32_t *records, size_t records_len,
                                         const uint8_t *text, size_t text_len);
khuyurek_length khuyurek_resource_write(const uint32_t *records, size_t records_len,
                                        const uint8_t *text, size_t text_len,
                                        uint8_t *out, size_t out_len);

/* Where the resource section of a Photoshop document lies, from the document's first
 * bytes, as many as reach the section's end or more. */
khuyurek_section khuyurek_document_resources(const uint8_t *document, size_t document_len);

/* ---- descriptors */

/* number 0: accepted, with the number of rows. Else the refusal and its place. */
typedef struct {
    uint32_t number;
    size_t place;
    size_t rows;
} khuyurek_descriptor_answer;

/* number 0: accepted, with where the row's value lies. Else the refusal and its place,
 * and all the rest is 0. */
typedef struct {
    uint32_t number;
    size_t place;
    size_t first;
    size_t length;
} khuyurek_descriptor_value;

/* number 0: accepted, with the row's value. kind: 0 a row of another kind (then unit and
 * bits are 0), else the row's kind as four characters: `bool` (bits 0 or 1), `long` (bits:
 * the 32 bits, zero-extended), `comp` (64 bits), `doub` (64 bits of the double), `UntF`
 * (unit: its four characters; bits: 64 bits of the double). Else the refusal and its
 * place, and all the rest is 0. */
typedef struct {
    uint32_t number;
    uint32_t kind;
    size_t place;
    uint32_t unit;
    uint64_t bits;
} khuyurek_descriptor_typed;

khuyurek_descriptor_answer khuyurek_descriptor_judge(const uint8_t *file, size_t file_len);

/* The rows of a file in five runs, a number a row in each: first byte, length, next sibling,
 * depth, kind (its four characters as one number). The next sibling of the root and of a last
 * child is the number of rows. 11 where the shortest run has fewer numbers than the file has
 * rows; past the rows every run keeps its contents. A file has at most file_len / 5 rows, so
 * that runs of file_len / 5 numbers are never refused for room. */
khuyurek_descriptor_answer khuyurek_descriptor_read(const uint8_t *file, size_t file_len,
                                                    uint32_t *first, size_t first_len,
                                                    uint32_t *length, size_t length_len,
                                                    uint32_t *next, size_t next_len,
                                                    uint32_t *depth, size_t depth_len,
                                                    uint32_t *kind, size_t kind_len);

/* The first byte of every row's value, in one pass; a value ends where its row ends. 11 where
 * the run is shorter than the rows; past them it keeps its contents. */
khuyurek_descriptor_answer khuyurek_descriptor_values(const uint8_t *file, size_t file_len,
                                                      uint32_t *values, size_t values_len);

/* number 0: accepted, with the number of rows. Else the refusal. */
typedef struct {
    uint32_t number;
    size_t rows;
} khuyurek_parents;

/* The parent of every row from the depths alone: the last row before it that is less deep, 0
 * where there is none. Any depths; 11 where parents is shorter than depth, and 1 where there
 * are more than 4,294,967,295 depths. Past the rows parents keeps its contents. */
khuyurek_parents khuyurek_descriptor_parents(const uint32_t *depth, size_t depth_len,
                                             uint32_t *parents, size_t parents_len);

/* number 0: accepted, with the number of keys that were answered. Else the refusal; in_keys is 1
 * where its place is one of the keys. */
typedef struct {
    uint32_t number;
    uint32_t in_keys;
    size_t place;
    size_t keys;
} khuyurek_found;

/* Which row has each of some keys, IDs one after another, as a pair of the root: the first, or
 * the number of rows where none has it. Keys match by the same length field and the same bytes.
 * Refused are, in this order: the file by its own; a table that does not begin with its rows by
 * 5; a key that is cut by 2, in the keys; too few answers by 11. Past the keys answers keep their
 * contents. */
khuyurek_found khuyurek_descriptor_find(
    const uint8_t *file, size_t file_len, const uint32_t *first, size_t first_len,
    const uint32_t *length, size_t length_len, const uint32_t *next, size_t next_len,
    const uint32_t *depth, size_t depth_len, const uint32_t *kind, size_t kind_len,
    const uint8_t *keys, size_t keys_len, uint32_t *answers, size_t answers_len);

/* Writes the file with the value of one row replaced; all other bytes are the same. value_kind is
 * `bool`, `long`, `comp`, `doub` or `UntF` as four characters in one number, bits the value, unit
 * that of a `UntF`. Refused are, in this order and all at place 0: the file by its own; a table
 * that does not begin with its rows by 5; no such row by 12; a row of another kind by 14; the value
 * as the reader would by 4 or 5; too little room by 11. */
khuyurek_length khuyurek_descriptor_replace(
    const uint8_t *file, size_t file_len, const uint32_t *first, size_t first_len,
    const uint32_t *length, size_t length_len, const uint32_t *next, size_t next_len,
    const uint32_t *depth, size_t depth_len, const uint32_t *kind, size_t kind_len,
    size_t row, uint32_t value_kind, uint32_t unit, uint64_t bits, uint8_t *out, size_t out_len);

/* An entry of a descriptor to be built, 16 numbers: 0 the kind as four characters in one number,
 * `Objc` for the root; 1, 2 the key; 3, 4 the class's Unicode string; 5, 6 the class's ID; 7, 8 a
 * first part; 9, 10 a second part; of each of these two numbers the length or count field as it is
 * to stand in the file, and the place of its bytes in the text; 11 the unit; 12, 13 a number's high
 * and low 32 bits; 14 the count of members; 15 the number of objects. A Unicode string's count and
 * bytes have its closing zero; an ID of length field 0 has four bytes. Numbers that a kind does not
 * use are spare. docs/INTERFACE.md says which kind uses what. */
#define KHUYUREK_DESCRIPTOR_ENTRY 16

/* How many bytes building a descriptor needs, and building it. The root's entry comes first, then
 * its members in file order: an entry belongs to the innermost container that still wants members.
 * Judged is 1 on the whole length, then as the reader would judge the bytes made, in file order: an
 * entry too few or a part outside the text 2, a kind that may not stand there or an unknown unit 4,
 * a value out of its range 5, an entry too many 6, an unclosed string 8, a member at depth 33 10;
 * then 11, too little room. All refusals are at place 0. A remainder of fewer than 16 numbers is left
 * alone, and past the bytes made out keeps its contents. */
khuyurek_length khuyurek_descriptor_build_length(const uint32_t *entries, size_t entries_len,
                                                 const uint8_t *text, size_t text_len);
khuyurek_length khuyurek_descriptor_build(const uint32_t *entries, size_t entries_len,
                                          const uint8_t *text, size_t text_len,
                                          uint8_t *out, size_t out_len);

/* The entries of a file, 16 numbers a row, its own bytes being their text; spare numbers are 0.
 * Building from them, with the file as the text, gives the file again; so a descriptor can be read,
 * changed and sent back. 11 where the run is shorter than 16 numbers a row; past them it keeps its
 * contents. */
khuyurek_descriptor_answer khuyurek_descriptor_entries(const uint8_t *file, size_t file_len,
                                                       uint32_t *entries, size_t entries_len);

/* Judges the whole file, then 12 where it has no such row. */
khuyurek_descriptor_value khuyurek_descriptor_value_at(const uint8_t *file,
                                                       size_t file_len, size_t row);
khuyurek_descriptor_typed khuyurek_descriptor_typed_at(const uint8_t *file,
                                                       size_t file_len, size_t row);

/* ---- walks: colours one a call, without a table
 *
 *     khuyurek_ase_start start = khuyurek_ase_walk_start(file, file_len);
 *     if (start.number != 0) return start.number;
 *     size_t at = start.at;
 *     for (;;) {
 *         khuyurek_ase_step step = khuyurek_ase_walk(file, file_len, at);
 *         if (step.number != 0) return step.number;
 *         if (step.done) break;
 *         ... the colour; its name has step.units units from file + step.name ...
 *         at = step.next;
 *     }
 *
 * Starting judges the whole file. A step takes any place of any file: where no colour
 * stands that the layout allows it is 5, and so is every step from the next it gives; at
 * the file's end it is done. A step costs no more than the bytes that it passes. */

/* number 0: accepted, with the place of the first step. Else the refusal as
 * khuyurek_aco_judge gives it, and at is 0. */
typedef struct {
    uint32_t number;
    size_t place;
    size_t record;
    size_t field;
    size_t at;
} khuyurek_aco_start;

/* number 0: done is 1 where the colours have ended, else the colour and where its name
 * lies. Else 5, whose place is 0. next: the place of the next step; all that a step does
 * not have is 0. */
typedef struct {
    uint32_t number;
    uint32_t done;
    size_t next;
    size_t name;
    uint32_t units;
    uint16_t space;
    uint16_t samples[4];
    uint32_t ink;
} khuyurek_aco_step;

khuyurek_aco_start khuyurek_aco_walk_start(const uint8_t *file, size_t file_len);
khuyurek_aco_step khuyurek_aco_walk(const uint8_t *file, size_t file_len, size_t at);

/* As for ACO; the refusal is khuyurek_ase_judge's. */
typedef struct {
    uint32_t number;
    size_t place;
    size_t at;
} khuyurek_ase_start;

/* As for ACO, with the block's type; 0 where there is none. */
typedef struct {
    uint32_t number;
    uint32_t done;
    uint32_t block;
    uint32_t units;
    size_t next;
    size_t name;
    uint32_t model;
    uint32_t channels[4];
    uint32_t ink;
} khuyurek_ase_step;

khuyurek_ase_start khuyurek_ase_walk_start(const uint8_t *file, size_t file_len);

/* Colours alone: groups are passed over. */
khuyurek_ase_step khuyurek_ase_walk(const uint8_t *file, size_t file_len, size_t at);

/* Blocks: group starts and ends too. */
khuyurek_ase_step khuyurek_ase_walk_block(const uint8_t *file, size_t file_len, size_t at);

/* ---- samples and channels */

/* The colour models of ASE, by their tags. */
#define KHUYUREK_RGB 0x52474220u
#define KHUYUREK_CMYK 0x434D594Bu
#define KHUYUREK_LAB 0x4C414220u
#define KHUYUREK_GRAY 0x47726179u

/* One sample of an ACO space (0 RGB, 1 HSB, 2 CMYK, 7 Lab, 8 gray) to a channel from
 * 0 to 1: 4 for an unknown space, 5 for gray above 10,000, 14 for HSB and Lab. */
khuyurek_channel khuyurek_to_channel(uint16_t space, uint16_t sample);

/* One channel of a model, by its bits, to the nearest sample: 4 for an unknown model,
 * 5 for a channel that is not finite, or outside 0 to 1 save in Lab, then 14 for Lab. */
khuyurek_sample khuyurek_to_sample(uint32_t model, uint32_t bits);

/* number 0: converted, and position is 0. Else the refusal of the first element that is
 * refused, with its position; 11 has position 0, and comes after every element's own. */
typedef struct {
    uint32_t number;
    size_t position;
} khuyurek_tray;

/* A run of samples of one space to the bits of their channels, and a run of channels of
 * one model, by their bits, to samples: each element as by the call for one, in order.
 * The lent run needs as many places as there are elements; what it has behind them
 * keeps its contents. No elements are accepted for any space or model, with any room. */
khuyurek_tray khuyurek_to_channels(uint16_t space, const uint16_t *samples, size_t samples_len,
                                   uint32_t *bits, size_t bits_len);
khuyurek_tray khuyurek_to_samples(uint32_t model, const uint32_t *bits, size_t bits_len,
                                  uint16_t *samples, size_t samples_len);

/* ---- text for people */

/* A name in UTF-8: so many units of a file from the place of the first, as every record,
 * header and step gives them, which leave the closing zero out. A surrogate that is not
 * one of a pair becomes U+FFFD, so that what is written is always well-formed UTF-8; no
 * zero is put behind it. 1 where the file is longer than the limit, 2 where it does not
 * have the units, then 11; all at place 0. 3 * units bytes are always room enough, and
 * then the units are read once. Past its bytes out keeps its contents. The bytes that
 * khuyurek_acb_full_name writes are such a file too, at place 0 with half as many units. */
khuyurek_length khuyurek_name_utf8_length(const uint8_t *file, size_t file_len, size_t place,
                                          size_t units);
khuyurek_length khuyurek_name_utf8(const uint8_t *file, size_t file_len, size_t place,
                                   size_t units, uint8_t *out, size_t out_len);

/* The same of units that are numbers, as khuyurek_acb_find takes them: 1 for more than
 * 8,388,608 of them, then 11. */
khuyurek_length khuyurek_utf8_length(const uint16_t *units, size_t units_len);
khuyurek_length khuyurek_utf8(const uint16_t *units, size_t units_len, uint8_t *out,
                              size_t out_len);

/* The longest sentence of a refusal, in bytes. */
#define KHUYUREK_SENTENCE 68

/* What a number of the table says, "accepted" for 0, in printable ASCII with no zero
 * behind it: 12 for a number that the table does not have, then 11. */
khuyurek_length khuyurek_refusal_sentence(uint32_t number, uint8_t *out, size_t out_len);

/* ---- kinds of files, for the calls that take any of several */

#define KHUYUREK_ACO 0
#define KHUYUREK_ASE 1
#define KHUYUREK_ACB 2
#define KHUYUREK_DESCRIPTOR 3

/* ---- two palettes compared */

/* Numbers of a row: the position, from 0, and its kind. */
#define KHUYUREK_COMPARE_WIDTH 2

/* The kinds of a position. */
#define KHUYUREK_SAME 0u
#define KHUYUREK_NAME_DIFFERS 1u
#define KHUYUREK_COLOUR_DIFFERS 2u
#define KHUYUREK_BOTH_DIFFER 3u
#define KHUYUREK_ONLY_FIRST 4u
#define KHUYUREK_ONLY_SECOND 5u

/* number 0: compared, with the positions of the longer palette and how many of them are
 * not 0. Else the refusal: file is 1 or 2 for that file's own, with its place and, for
 * 7, record and field; it is 0 for 4 (a kind that is neither ACO nor ASE, before all
 * else) and for 11, the last. */
typedef struct {
    uint32_t number;
    uint32_t file;
    size_t place;
    size_t record;
    size_t field;
    size_t positions;
    size_t differences;
} khuyurek_compared;

/* Two palettes by position, groups left aside: a row of the table for each position of
 * the longer. Colours of one format are equal when their numbers are, of two formats
 * when the ACO colour converts to the very same bits; an absent list 2 has empty names.
 * The files may be the same bytes. */
khuyurek_compared khuyurek_compare(uint32_t first_kind, const uint8_t *first, size_t first_len,
                                   uint32_t second_kind, const uint8_t *second, size_t second_len,
                                   uint32_t *table, size_t table_len);

/* ---- reports */

/* Totals over files: 0 accepted; 1 to 14 refused by that number; 15 to 19 ACO colours of
 * space 0, 1, 2, 7, 8; 20 to 23 ASE colours RGB, CMYK, LAB, Gray; 24 to 26 ACB colours of
 * space 0, 2, 7; 27 named; 28 unnamed; 29 dummies, which count nowhere else; 30 rows of
 * descriptors. A report begins with zeros. */
typedef struct {
    uint32_t totals[31];
} khuyurek_report;

/* number: the report's own, 0 where the file's report was added, 5 where a total would
 * pass 4,294,967,295, 4 for an unknown kind. file_number and file_place: the file's, also
 * with 5; 0 with 4. report: the new totals, or those given where number is not 0. */
typedef struct {
    uint32_t number;
    uint32_t file_number;
    size_t file_place;
    khuyurek_report report;
} khuyurek_reported;

/* Adds a file's report. A refused file is no refusal of the call: it adds one to its own
 * number, and nothing else. */
khuyurek_reported khuyurek_report_add(khuyurek_report report, uint32_t kind, const uint8_t *file,
                                      size_t file_len);

/* number 0 and the sum; or 5 and the first report, where a total would pass the bound. */
typedef struct {
    uint32_t number;
    khuyurek_report report;
} khuyurek_merged;

/* The sum of two reports, so that files may be reported in parts, side by side. */
khuyurek_merged khuyurek_report_merge(khuyurek_report first, khuyurek_report second);

#ifdef __cplusplus
}
#endif

#endif
