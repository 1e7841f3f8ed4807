/* Document 01's starred cases, and those beside them in its table, as calls of the C functions. Lent rows and bytes hold sevens, so that what is written and what stays
   can be seen. A program that includes this says in `starred` what is done with an answer; `all_starred` makes the calls. */
#ifndef STARRED_CASES_H
#define STARRED_CASES_H

#include "film_index.h"

/* One answer: its status and, where that is FILM_OK, n numbers; beside it what document 01 gives. */
static void starred(const char *name, uint32_t status, uint32_t want, unsigned n, const uint64_t *numbers, const uint64_t *expected);

static film_row_number starred_rows[10];
static uint8_t starred_listing[12];

/* What stands in the lent memory behind a call. */
static void starred_memory(const char *name, unsigned n, const uint64_t *expected, uint64_t (*at)(unsigned)) {
    uint64_t numbers[12];
    for (unsigned k = 0; k < n; k++) numbers[k] = at(k);
    starred(name, FILM_OK, FILM_OK, n, numbers, expected);
}

static uint64_t starred_row_number(unsigned k) { return starred_rows[k]; }
static uint64_t starred_byte(unsigned k) { return starred_listing[k]; }

static film_row_number *starred_sevens(void) {
    for (unsigned k = 0; k < sizeof starred_rows / sizeof *starred_rows; k++) starred_rows[k] = 7;
    for (unsigned k = 0; k < sizeof starred_listing; k++) starred_listing[k] = 7;
    return starred_rows;
}

#define STARRED(name, call, want, n, ...) \
    do { \
        uint64_t out[5] = {0}; \
        const uint64_t expected[] = {__VA_ARGS__}; \
        uint32_t status = call; \
        starred(name, status, want, n, out, expected); \
    } while (0)
#define STARRED_ROWS(name, n, ...) starred_memory(name, n, (const uint64_t[]){__VA_ARGS__}, starred_row_number)
#define STARRED_BYTES(name, n, ...) starred_memory(name, n, (const uint64_t[]){__VA_ARGS__}, starred_byte)
#define BYTES(...) ((const uint8_t[]){__VA_ARGS__}), sizeof((const uint8_t[]){__VA_ARGS__})
#define FREE 'f', 'r', 'e', 'e'
#define RAP 0, 0, 0, 0, 'r', 'a', 'p', ' '
#define ROWS_313 BYTES(RAP, 0, 0, 0, 3, 0, 0, 0, 3, 0, 0, 0, 1, 0, 0, 0, 0, 0, 0, 0, 9, 0, 0, 0, 2, 0, 0, 0, 1)
#define PERIOD_122 BYTES(RAP, 0, 0, 0, 1, 0x37, 0x12, 0x20)
#define SHARED(n) 0, 0, 0, 0, 'a', 'b', 'c', 'd', 0, 0, 0, n
#define THREE_IN_9 BYTES(SHARED(3), 0, 0, 0, 0, 0, 0, 0, 0, 0)
#define TWO_IN_3 BYTES(SHARED(2), 0, 0, 0)
#define TWO_IN_2 BYTES(SHARED(2), 0, 0)
#define ROLL_BODY \
    BYTES(0, 0, 0, 36, 's', 'b', 'g', 'p', 0, 0, 0, 0, 'r', 'o', 'l', 'l', 0, 0, 0, 2, 0, 0, 0, 2, 0, 0, 0, 1, 0, 0, 0, 1, 0, 0, 0, 0, \
          0, 0, 0, 26, 's', 'g', 'p', 'd', 1, 0, 0, 0, 'r', 'o', 'l', 'l', 0, 0, 0, 2, 0, 0, 0, 1, 0xff, 0xfe)

static void starred_headers(void) {
    STARRED("no bytes", film_read_atom_header((const uint8_t *)"", 0, 0, out), FILM_NONE, 0, 0);
    STARRED("size 7", film_read_atom_header(BYTES(0, 0, 0, 7, FREE), 0, out), FILM_SMALL_SIZE, 0, 0);
    STARRED("size 8", film_read_atom_header(BYTES(0, 0, 0, 8, FREE), 0, out), FILM_OK, 5, 0x66726565, 0, 8, 8, 8);
    STARRED("body of size 8", film_read_payload(BYTES(0, 0, 0, 8, FREE), 0, out), FILM_OK, 2, 8, 0);
    STARRED("extended 15", film_read_atom_header(BYTES(0, 0, 0, 1, FREE, 0, 0, 0, 0, 0, 0, 0, 15), 0, out), FILM_SMALL_EXTENDED_SIZE, 0, 0);
    STARRED("extended 16", film_read_atom_header(BYTES(0, 0, 0, 1, FREE, 0, 0, 0, 0, 0, 0, 0, 16), 0, out), FILM_OK, 5, 0x66726565, 0, 16, 16, 16);
    STARRED("size 2^64 - 1 at 0", film_read_atom_header(BYTES(0, 0, 0, 1, FREE, 255, 255, 255, 255, 255, 255, 255, 255), 0, out), FILM_OK, 5, 0x66726565, 0, UINT64_MAX, 16, 16);
    STARRED("size 2^64 - 1 at 8", film_read_atom_header(BYTES(0, 0, 0, 8, FREE, 0, 0, 0, 1, FREE, 255, 255, 255, 255, 255, 255, 255, 255), 8, out), FILM_FAR_END, 0, 0);
}

static void starred_tables(void) {
    STARRED("sbgp", film_parse_sbgp(ROWS_313, starred_sevens(), 6, out), FILM_OK, 3, 0x72617020, 0, 3);
    STARRED_ROWS("its rows", 6, 3, 1, 0, 9, 2, 1);
    STARRED("sample 4", film_group_index_for_sample(starred_rows, 6, 4, out), FILM_OK, 1, 1);
    STARRED("sample 5", film_group_index_for_sample(starred_rows, 6, 5, out), FILM_OK, 1, 0);
    STARRED("covered", film_covered_samples(starred_rows, 6, out), FILM_OK, 1, 5);
    STARRED("sbgp, a record too few", film_parse_sbgp(ROWS_313, starred_sevens(), 4, out), FILM_NO_RECORD_LEFT, 0, 0);
    STARRED_ROWS("its rows", 4, 7, 7, 7, 7);
    STARRED("csgp [1,2,2] count 7", film_parse_csgp(PERIOD_122, starred_sevens(), 10, out), FILM_OK, 3, 0x72617020, 0, 5);
    STARRED_ROWS("its rows", 10, 1, 1, 2, 2, 1, 1, 2, 2, 1, 1);
    STARRED("csgp, a record too few", film_parse_csgp(PERIOD_122, starred_sevens(), 8, out), FILM_NO_RECORD_LEFT, 0, 0);
    STARRED_ROWS("its rows", 8, 7, 7, 7, 7, 7, 7, 7, 7);
    STARRED("csgp [5] count 2, [5,6] count 3", film_parse_csgp(BYTES(RAP, 0, 0, 0, 2, 0x12, 0x23, 0x55, 0x60), starred_sevens(), 6, out), FILM_OK, 3, 0x72617020, 0, 3);
    STARRED_ROWS("its rows", 6, 3, 5, 1, 6, 1, 5);
    STARRED("csgp [7] count 0, [8] count 1", film_parse_csgp(BYTES(RAP, 0, 0, 0, 2, 0x10, 0x11, 0x78), starred_sevens(), 2, out), FILM_OK, 3, 0x72617020, 0, 1);
    STARRED_ROWS("its rows", 2, 1, 8);
    STARRED("csgp length 0, a pair missing", film_parse_csgp(BYTES(RAP, 0, 0, 0, 2, 0x01), starred_sevens(), 2, out), FILM_PATTERN_LENGTH_CUT, 0, 0);
    STARRED_ROWS("its rows", 2, 7, 7);
    STARRED("csgp length 0", film_parse_csgp(BYTES(RAP, 0, 0, 0, 2, 0x01, 0x11), starred_sevens(), 2, out), FILM_PATTERN_LENGTH_ZERO, 0, 0);
    STARRED_ROWS("its rows", 2, 7, 7);
}

static void starred_descriptions(void) {
    STARRED("sgpd, 3 entries in 9 bytes", film_parse_sgpd(THREE_IN_9, out), FILM_OK, 5, 0, 0x61626364, 0, 0, 3);
    STARRED("entry 1", film_entry_place(THREE_IN_9, 1, out), FILM_OK, 2, 12, 3);
    STARRED("entry 2", film_entry_place(THREE_IN_9, 2, out), FILM_OK, 2, 15, 2);
    STARRED("entry 3", film_entry_place(THREE_IN_9, 3, out), FILM_OK, 2, 17, 1);
    STARRED("entry 4", film_entry_place(THREE_IN_9, 4, out), FILM_NONE, 0, 0);
    STARRED("sgpd, 2 in 3 bytes", film_parse_sgpd(TWO_IN_3, out), FILM_OK, 5, 0, 0x61626364, 0, 0, 2);
    STARRED("entry 1", film_entry_place(TWO_IN_3, 1, out), FILM_OK, 2, 12, 1);
    STARRED("entry 2", film_entry_place(TWO_IN_3, 2, out), FILM_OK, 2, 13, 1);
    STARRED("sgpd, 2 in 2 bytes", film_parse_sgpd(TWO_IN_2, out), FILM_ZERO_SHARE, 0, 0);
    STARRED("entry 1", film_entry_place(TWO_IN_2, 1, out), FILM_ZERO_SHARE, 0, 0);
}

static void starred_entries(void) {
    STARRED("roll 0xfffe", film_decode_roll(BYTES(0xff, 0xfe), (int64_t *)out), FILM_OK, 1, (uint64_t)-2);
    STARRED("roll 0x8000", film_decode_roll(BYTES(0x80, 0x00), (int64_t *)out), FILM_OK, 1, (uint64_t)-32768);
    STARRED("rash in 13 bytes", film_decode_rash(BYTES(0, 1, 0, 7, 0, 0, 0, 8, 0, 0, 0, 9, 5), out), FILM_OK, 4, 1, 8, 9, 5);
    STARRED("rash in 12 bytes", film_decode_rash(BYTES(0, 1, 0, 7, 0, 0, 0, 8, 0, 0, 0, 9), out), FILM_TRAILER_CUT, 0, 0);
    STARRED("alst in 4 bytes", film_decode_alst(BYTES(0, 0, 0, 6), out), FILM_OK, 3, 0, 6, 0);
    STARRED("alst in 5 bytes", film_decode_alst(BYTES(0, 0, 0, 6, 1), out), FILM_PIECES_CUT, 0, 0);
}

/* 3 samples: 2 of distance -2, 1 of no group. */
static void starred_cues(void) {
    STARRED("listing", film_cue_listing(ROLL_BODY, 0x726f6c6c, starred_sevens(), 4, starred_listing, 12, out), FILM_OK, 2, 12, 2);
    STARRED_ROWS("its rows", 4, 2, 1, 1, 0);
    STARRED_BYTES("its bytes", 12, 'r', 'o', 'l', 'l', 3, 2, 2, 0xfe, 0xff, 1, 1, 0);
}

static void all_starred(void) {
    starred_headers();
    starred_tables();
    starred_descriptions();
    starred_entries();
    starred_cues();
}

#endif
