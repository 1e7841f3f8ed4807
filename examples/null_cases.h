/* Calls that are lent null where a length is 0, as an empty std::vector hands it out: every function that takes a pointer and a length, with inputs, runs and outputs. A
   program that includes this says in `null_case` what is done with an answer; `all_null_cases` makes the calls. */
#ifndef NULL_CASES_H
#define NULL_CASES_H

#include "film_index.h"

/* One answer: the call in words, its status, and the status that is due. */
static void null_case(const char *call, uint32_t status, uint32_t want);

#define NULL_CASE(call, want) null_case(#call, call, want)

static void null_atoms(uint64_t *out) {
    NULL_CASE(film_read_atom_header(0, 0, 0, out), FILM_NONE);
    NULL_CASE(film_next_child(0, 0, 0, 0, 0, out), FILM_NONE);
    NULL_CASE(film_next_child(0, 0, 0, 1, 8, out), FILM_NONE);
    NULL_CASE(film_read_payload(0, 0, 0, out), FILM_NONE);
    NULL_CASE(film_read_payload_bounded(0, 0, 0, 8, out), FILM_NONE);
    NULL_CASE(film_find_stbl(0, 0, 0, out), FILM_NO_TRACK);
}

static void null_tables(uint64_t *out) {
    /* a table of no rows, or of no patterns */
    static const uint8_t empty[12] = {0, 0, 0, 0, 'r', 'o', 'l', 'l'};
    static const uint8_t row[20] = {0, 0, 0, 0, 'r', 'o', 'l', 'l', 0, 0, 0, 1, 0, 0, 0, 1, 0, 0, 0, 1};
    uint8_t body[12];
    NULL_CASE(film_parse_sbgp(0, 0, 0, 0, out), FILM_SHORT_TABLE);
    NULL_CASE(film_parse_sbgp(empty, 12, 0, 0, out), FILM_OK);
    NULL_CASE(film_parse_sbgp(row, 20, 0, 0, out), FILM_NO_RECORD_LEFT);
    NULL_CASE(film_parse_csgp(0, 0, 0, 0, out), FILM_SHORT_TABLE);
    NULL_CASE(film_parse_csgp(empty, 12, 0, 0, out), FILM_OK);
    NULL_CASE(film_sbgp_rows_needed(0, 0, out), FILM_SHORT_TABLE);
    NULL_CASE(film_csgp_rows_needed(0, 0, out), FILM_SHORT_TABLE);
    NULL_CASE(film_group_index_for_sample(0, 0, 0, out), FILM_OK);
    NULL_CASE(film_covered_samples(0, 0, out), FILM_OK);
    film_play_head head = FILM_PLAY_HEAD_FRESH;
    NULL_CASE(film_play_move(&head, 0, 0, out), FILM_OK);
    NULL_CASE(film_play_set(&head, 0, 0, 7, out), FILM_OK);
    NULL_CASE(film_preview_repaint(0, 0, 0, 0, 1, 7, out), FILM_NO_STRETCH);
    NULL_CASE(film_repaint(0, 0, 0, 0, 1, 7, out), FILM_NO_STRETCH);
    static film_fragment_queue queue;
    NULL_CASE(film_fragment_arrive(&queue, 0, 0), FILM_OK);
    NULL_CASE(film_quote_sbgp(0, 0, out), FILM_OK);
    NULL_CASE(film_quote_csgp(0, 0, out), FILM_OK);
    NULL_CASE(film_write_sbgp(FILM_TYPE_ROLL, 0, 0, 12, body, 12, out), FILM_OK);
    NULL_CASE(film_write_sbgp(FILM_TYPE_ROLL, 0, 0, 12, 0, 0, out), FILM_OUTPUT_SHORTER);
    NULL_CASE(film_write_csgp(FILM_TYPE_ROLL, 0, 0, 12, body, 12, out), FILM_OK);
    NULL_CASE(film_write_csgp(FILM_TYPE_ROLL, 0, 0, 12, 0, 0, out), FILM_OUTPUT_SHORTER);
    NULL_CASE(film_is_sync_sample(0, 0, 0, out), FILM_SYNC_TABLE_CUT);
    NULL_CASE(film_last_sync_sample(0, 0, 0, out), FILM_SYNC_TABLE_CUT);
    NULL_CASE(film_sample_dependency(0, 0, 0, out), FILM_SYNC_TABLE_CUT);
}

static void null_entries(uint64_t *out) {
    /* an sgpd of version 1 with no entry */
    static const uint8_t empty[16] = {1, 0, 0, 0, 'r', 'o', 'l', 'l', 0, 0, 0, 2};
    static const uint8_t byte[1] = {0};
    int64_t distance[1];
    NULL_CASE(film_parse_sgpd(0, 0, out), FILM_SHORT_SGPD);
    NULL_CASE(film_entry_place(0, 0, 1, out), FILM_SHORT_SGPD);
    NULL_CASE(film_entry_places(0, 0, 0, 0, out), FILM_SHORT_SGPD);
    NULL_CASE(film_entry_places(empty, 16, 0, 0, out), FILM_OK);
    NULL_CASE(film_described_place(0, 0, 0, 0, 1, out), FILM_SHORT_SGPD);
    NULL_CASE(film_described_place(empty, 16, 0, 0, 1, out), FILM_SHORT_SGPD);
    NULL_CASE(film_decode_roll(0, 0, distance), FILM_SHORT_ENTRY);
    NULL_CASE(film_decode_prol(0, 0, distance), FILM_SHORT_ENTRY);
    NULL_CASE(film_decode_rap(0, 0, out), FILM_SHORT_ENTRY);
    NULL_CASE(film_decode_tele(0, 0, out), FILM_SHORT_ENTRY);
    NULL_CASE(film_decode_sap(0, 0, out), FILM_SHORT_ENTRY);
    NULL_CASE(film_decode_rash(0, 0, out), FILM_SHORT_ENTRY);
    NULL_CASE(film_rash_operation_point(0, 0, 0, out), FILM_SHORT_ENTRY);
    NULL_CASE(film_rash_operation_points(0, 0, 0, 0, out), FILM_SHORT_ENTRY);
    NULL_CASE(film_decode_alst(0, 0, out), FILM_SHORT_ENTRY);
    NULL_CASE(film_alst_sample_offset(0, 0, 0, out), FILM_SHORT_ENTRY);
    NULL_CASE(film_alst_piece(0, 0, 0, out), FILM_SHORT_ENTRY);
    NULL_CASE(film_decode_alike(0x61626364, 0, 0, 0, 0, out), FILM_OK);
    NULL_CASE(film_decode_alike(0x61626364, byte, 1, 0, 0, out), FILM_OK);
    NULL_CASE(film_decode_alike(FILM_TYPE_ROLL, 0, 0, 0, 0, out), FILM_SHORT_ENTRY);
}

static void null_bodies(uint64_t *out) {
    /* the body of an stbl whose table covers no sample, and one of a row */
    static const uint8_t none[44] = {0, 0, 0, 20, 's', 'b', 'g', 'p', 0, 0, 0, 0, 'r', 'o', 'l', 'l', 0, 0, 0, 0,
                                     0, 0, 0, 24, 's', 'g', 'p', 'd', 1, 0, 0, 0, 'r', 'o', 'l', 'l', 0, 0, 0, 2, 0, 0, 0, 0};
    static const uint8_t row[52] = {0, 0, 0, 28, 's', 'b', 'g', 'p', 0, 0, 0, 0, 'r', 'o', 'l', 'l', 0, 0, 0, 1, 0, 0, 0, 1, 0, 0, 0, 0,
                                    0, 0, 0, 24, 's', 'g', 'p', 'd', 1, 0, 0, 0, 'r', 'o', 'l', 'l', 0, 0, 0, 2, 0, 0, 0, 0};
    film_row_number rows[FILM_ROW_NUMBERS];
    uint8_t listing[5];
    NULL_CASE(film_cue_listing(0, 0, FILM_TYPE_ROLL, 0, 0, 0, 0, out), FILM_NO_TABLE);
    NULL_CASE(film_cue_listing(none, 44, FILM_TYPE_ROLL, 0, 0, listing, 5, out), FILM_OK);
    NULL_CASE(film_cue_listing(none, 44, FILM_TYPE_ROLL, 0, 0, 0, 0, out), FILM_OUTPUT_TOO_SHORT);
    NULL_CASE(film_cue_listing(row, 52, FILM_TYPE_ROLL, 0, 0, listing, 5, out), FILM_NO_RECORD_LEFT);
    NULL_CASE(film_cue_listing(row, 52, FILM_TYPE_ROLL, rows, FILM_ROW_NUMBERS, 0, 0, out), FILM_OUTPUT_TOO_SHORT);
    NULL_CASE(film_file_cue_listing(0, 0, 0, FILM_TYPE_ROLL, 0, 0, 0, 0, out), FILM_NO_TRACK);
    NULL_CASE(film_sample_group(0, 0, FILM_TYPE_ROLL, 0, out), FILM_NO_TABLE);
    NULL_CASE(film_file_sample_group(0, 0, 0, FILM_TYPE_ROLL, 0, out), FILM_NO_TRACK);
    NULL_CASE(film_listing_needs(0, 0, FILM_TYPE_ROLL, out), FILM_NO_TABLE);
    NULL_CASE(film_file_listing_needs(0, 0, 0, FILM_TYPE_ROLL, out), FILM_NO_TRACK);
    NULL_CASE(film_profile(0, 0, out), FILM_OK);
    NULL_CASE(film_file_profile(0, 0, 0, out), FILM_NO_TRACK);
    NULL_CASE(film_roll_start(0, 0, 0, out), FILM_NO_TABLE);
    NULL_CASE(film_rap_start(0, 0, 0, out), FILM_NO_TABLE);
}

static void all_null_cases(void) {
    uint64_t out[6];
    null_atoms(out);
    null_tables(out);
    null_entries(out);
    null_bodies(out);
}

#endif
