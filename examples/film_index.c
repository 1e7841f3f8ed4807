/* Every call of film_index.h once, with its answer, and once with null for what is empty. Exits with 1 where an answer is not the expected one. */
#include <inttypes.h>
#include <stdio.h>
#include <string.h>

#include "film_index.h"
#include "null_cases.h"

static int failures;

static void expect(const char *call, uint64_t got, uint64_t want) {
    if (got != want) {
        printf("%s: %" PRIu64 ", not %" PRIu64 "\n", call, got, want);
        failures++;
    }
}

static void expect_all(const char *call, const uint64_t *got, const uint64_t *want, size_t n) {
    for (size_t i = 0; i < n; i++) {
        expect(call, got[i], want[i]);
    }
}

static void null_case(const char *call, uint32_t status, uint32_t want) { expect(call, status, want); }

/* A film's front: a container `stbl` of 92 bytes with an sbgp, a csgp and an sgpd of type roll. */
static const uint8_t film[] = {
    0, 0, 0, 92, 's', 't', 'b', 'l',
    /* sbgp, version 0: rows (2,1), (1,0) */
    0, 0, 0, 36, 's', 'b', 'g', 'p', 0, 0, 0, 0, 'r', 'o', 'l', 'l', 0, 0, 0, 2, 0, 0, 0, 2, 0, 0, 0, 1, 0, 0, 0, 1, 0, 0, 0, 0,
    /* csgp, fields of 4 bits: [1,2] over 3 samples */
    0, 0, 0, 22, 'c', 's', 'g', 'p', 0, 0, 0, 0, 'r', 'o', 'l', 'l', 0, 0, 0, 1, 0x23, 0x12,
    /* sgpd, version 1, default length 2: one entry, distance -2 */
    0, 0, 0, 26, 's', 'g', 'p', 'd', 1, 0, 0, 0, 'r', 'o', 'l', 'l', 0, 0, 0, 2, 0, 0, 0, 1, 0xff, 0xfe,
};

static void atoms(void) {
    uint64_t header[5], child[6], body[2];
    const uint64_t stbl[5] = {0x7374626c, 0, 92, 8, 8};
    expect("film_read_atom_header", film_read_atom_header(film, sizeof film, 0, header), FILM_OK);
    expect_all("film_read_atom_header", header, stbl, 5);
    expect("film_read_atom_header", film_read_atom_header(film, 7, 0, header), FILM_HEADER_CUT);
    expect("film_read_atom_header", film_read_atom_header(film, sizeof film, sizeof film, header), FILM_NONE);

    /* the children of stbl: three of them, then done */
    uint64_t at = 8, count = 0;
    uint32_t status;
    while ((status = film_next_child(film, sizeof film, at, 1, 92, child)) == FILM_OK) {
        at = child[FILM_CHILD_NEXT];
        count++;
    }
    expect("film_next_child", status, FILM_NONE);
    expect("film_next_child", count, 3);
    expect("film_next_child", film_next_child(film, sizeof film, 8, 1, 40, child), FILM_CHILD_PAST_PARENT);

    expect("film_read_payload", film_read_payload(film, sizeof film, 8, body), FILM_OK);
    expect("film_read_payload", body[FILM_PLACE], 16);
    expect("film_read_payload", body[FILM_PLACE_LENGTH], 28);
    expect("film_read_payload_bounded", film_read_payload_bounded(film, sizeof film, 8, 28, body), FILM_OK);
    expect("film_read_payload_bounded", film_read_payload_bounded(film, sizeof film, 8, 27, body), FILM_BODY_OVER_ENVELOPE);
}

static void tables(void) {
    const uint8_t *sbgp = film + 16, *csgp = film + 52;
    film_row_number rows[4 * FILM_ROW_NUMBERS];
    uint64_t head[3], one[1];
    memset(rows, 0x77, sizeof rows);
    expect("film_parse_sbgp", film_parse_sbgp(sbgp, 28, rows, FILM_ROW_NUMBERS, head), FILM_NO_RECORD_LEFT);
    expect("film_parse_sbgp", rows[0], 0x77777777);
    expect("film_parse_sbgp", film_parse_sbgp(sbgp, 28, rows, 4 * FILM_ROW_NUMBERS, head), FILM_OK);
    expect("film_parse_sbgp", head[FILM_TABLE_TYPE], FILM_TYPE_ROLL);
    expect("film_parse_sbgp", head[FILM_TABLE_PARAMETER], 0);
    expect("film_parse_sbgp", head[FILM_TABLE_ROWS], 2);
    expect("film_parse_sbgp", rows[0], 2);
    expect("film_parse_sbgp", rows[1], 1);
    expect("film_parse_sbgp", rows[4], 0x77777777);

    expect("film_sbgp_rows_needed", film_sbgp_rows_needed(sbgp, 28, one), FILM_OK);
    expect("film_sbgp_rows_needed", one[0], 2);
    expect("film_sbgp_rows_needed", film_sbgp_rows_needed(sbgp, 27, one), FILM_ROWS_CUT);

    expect("film_csgp_rows_needed", film_csgp_rows_needed(csgp, 14, one), FILM_OK);
    expect("film_csgp_rows_needed", one[0], 3);
    expect("film_csgp_rows_needed", film_csgp_rows_needed(csgp, 13, one), FILM_INDEX_CUT);
    expect("film_parse_csgp", film_parse_csgp(csgp, 14, rows, 4 * FILM_ROW_NUMBERS, head), FILM_OK);
    expect("film_parse_csgp", head[2], 3);
    expect("film_parse_csgp", rows[5], 1);
    /* sample 1 has the index 2; sample 3 is past the end */
    expect("film_group_index_for_sample", film_group_index_for_sample(rows, FILM_ROW_NUMBERS * head[FILM_TABLE_ROWS], 1, one), FILM_OK);
    expect("film_group_index_for_sample", one[0], 2);
    expect("film_group_index_for_sample", film_group_index_for_sample(rows, FILM_ROW_NUMBERS * head[FILM_TABLE_ROWS], 3, one), FILM_OK);
    expect("film_group_index_for_sample", one[0], 0);
    expect("film_covered_samples", film_covered_samples(rows, FILM_ROW_NUMBERS * head[FILM_TABLE_ROWS], one), FILM_OK);
    expect("film_covered_samples", one[0], 3);
}

static void playing(void) {
    /* the rows (2,1), (0,9), (1,3): samples 0 to 2, the end at 3 */
    const film_row_number rows[3 * FILM_ROW_NUMBERS] = {2, 1, 0, 9, 1, 3};
    const uint64_t indices[6] = {1, 1, 3, 0, 0, 0}, places[6] = {0, 1, 2, 3, 3, 3}, covering[6] = {0, 0, 2, 3, 3, 3};
    film_play_head head = FILM_PLAY_HEAD_FRESH;
    uint64_t one[1];
    for (unsigned k = 0; k < 6; k++) {
        expect("film_play_move", film_play_move(&head, rows, sizeof rows / sizeof *rows, one), FILM_OK);
        expect("film_play_move", one[0], indices[k]);
        expect("film_play_move", head.sample, places[k]);
        expect("film_play_move", head.row, covering[k]);
    }
    expect("film_play_set", film_play_set(&head, rows, sizeof rows / sizeof *rows, 1, one), FILM_OK);
    expect("film_play_set", one[0] == 1 && head.placed == 1 && head.sample == 1 && head.row == 0 && head.within == 1, 1);
    expect("film_play_set", film_play_set(&head, rows, sizeof rows / sizeof *rows, UINT32_MAX, one), FILM_OK);
    expect("film_play_set", one[0] == 0 && head.sample == 3 && head.row == 3, 1);
}

static void repainting(void) {
    /* the rows (2,1), (3,4), (1,1) and a spare record */
    film_row_number rows[4 * FILM_ROW_NUMBERS] = {2, 1, 3, 4, 1, 1, 7, 7};
    uint64_t one[1];
    expect("film_preview_repaint", film_preview_repaint(rows, 8, 3, 1, 3, 9, one), FILM_OK);
    expect("film_preview_repaint", one[0] == 4 && rows[0] == 2, 1);
    expect("film_preview_repaint", film_preview_repaint(rows, 6, 3, 1, 3, 9, one), FILM_NO_RECORD_LEFT);
    expect("film_repaint", film_repaint(rows, 8, 3, 1, 3, 9, one), FILM_OK);
    expect("film_repaint", one[0] == 4 && rows[0] == 1 && rows[2] == 2 && rows[3] == 9 && rows[4] == 2 && rows[5] == 4 && rows[6] == 1 && rows[7] == 1, 1);
    expect("film_repaint", film_repaint(rows, 8, 4, 0, 6, 5, one), FILM_OK);
    expect("film_repaint", one[0] == 1 && rows[0] == 6 && rows[1] == 5 && rows[2] == 2 && rows[3] == 9, 1);
    expect("film_repaint", film_repaint(rows, 8, 1, 0, 7, 5, one), FILM_NO_STRETCH);
}

static void fragments(void) {
    /* rows of 5 samples, 3 of them members; a fragment of no samples; one of 4 samples of which the marked one is a member */
    const film_row_number first[4] = {3, 1, 2, 0}, last[4] = {3, 0, 1, 0x80000000u};
    static film_fragment_queue queue;
    uint64_t sums[3], place[2];
    expect("film_fragment_depart", film_fragment_depart(&queue), FILM_QUEUE_EMPTY);
    expect("film_fragment_arrive", film_fragment_arrive(&queue, first, 4), FILM_OK);
    expect("film_fragment_arrive", film_fragment_arrive(&queue, first, 0), FILM_OK);
    expect("film_fragment_arrive", film_fragment_arrive(&queue, last, 4), FILM_OK);
    expect("film_fragment_sums", film_fragment_sums(&queue, sums), FILM_OK);
    expect("film_fragment_sums", sums[FILM_QUEUE_HELD] == 3 && sums[FILM_QUEUE_COVERED] == 9 && sums[FILM_QUEUE_MEMBERS] == 4, 1);
    expect("film_fragment_lookup", film_fragment_lookup(&queue, 5, place), FILM_OK);
    expect("film_fragment_lookup", place[FILM_FRAGMENT] == 2 && place[FILM_FRAGMENT_SAMPLE] == 0, 1);
    expect("film_fragment_lookup", film_fragment_lookup(&queue, 9, place), FILM_NOT_IN_QUEUE);
    expect("film_fragment_depart", film_fragment_depart(&queue), FILM_OK);
    expect("film_fragment_lookup", film_fragment_lookup(&queue, 3, place), FILM_OK);
    expect("film_fragment_lookup", place[FILM_FRAGMENT] == 1 && place[FILM_FRAGMENT_SAMPLE] == 3, 1);
    expect("film_fragment_queue", sizeof queue, 1056);
}

static void writing(void) {
    /* the rows (2,1), (0,9), (1,1), (20,2): the csgp has (3,1), (20,2), counts of 8 bits and indices of 4 */
    const film_row_number rows[8] = {2, 1, 0, 9, 1, 1, 20, 2};
    const uint8_t csgp[] = {0, 0, 0, 4, 'r', 'o', 'l', 'l', 0, 0, 0, 2, 0x10, 0x31, 0x14, 0x12};
    const film_row_number over[4] = {4294967295u, 1, 1, 1};
    uint8_t body[48];
    film_row_number back[8];
    uint64_t one[1], head[3];
    memset(body, 0x77, sizeof body);
    expect("film_quote_sbgp", film_quote_sbgp(rows, 8, one), FILM_OK);
    expect("film_quote_sbgp", one[0], 44);
    expect("film_write_sbgp", film_write_sbgp(FILM_TYPE_ROLL, rows, 8, 43, body, 48, one), FILM_LENGTH_DISAGREES);
    expect("film_write_sbgp", film_write_sbgp(FILM_TYPE_ROLL, rows, 8, 44, body, 43, one), FILM_OUTPUT_SHORTER);
    expect("film_write_sbgp", body[0], 0x77);
    expect("film_write_sbgp", film_write_sbgp(FILM_TYPE_ROLL, rows, 8, 44, body, 48, one), FILM_OK);
    expect("film_write_sbgp", one[0], 44);
    expect("film_write_sbgp", body[44], 0x77);
    expect("film_write_sbgp", film_parse_sbgp(body, 44, back, 8, head), FILM_OK);
    expect("film_write_sbgp", memcmp(back, rows, sizeof rows) == 0, 1);

    memset(body, 0x77, sizeof body);
    expect("film_quote_csgp", film_quote_csgp(over, 4, one), FILM_ROW_COUNT_OVER);
    expect("film_quote_csgp", film_quote_csgp(rows, 8, one), FILM_OK);
    expect("film_quote_csgp", one[0], sizeof csgp);
    expect("film_write_csgp", film_write_csgp(FILM_TYPE_ROLL, over, 4, 16, body, 48, one), FILM_ROW_COUNT_OVER);
    expect("film_write_csgp", film_write_csgp(FILM_TYPE_ROLL, rows, 8, 17, body, 48, one), FILM_LENGTH_DISAGREES);
    expect("film_write_csgp", film_write_csgp(FILM_TYPE_ROLL, rows, 8, 16, body, 15, one), FILM_OUTPUT_SHORTER);
    expect("film_write_csgp", body[0], 0x77);
    expect("film_write_csgp", film_write_csgp(FILM_TYPE_ROLL, rows, 8, 16, body, 48, one), FILM_OK);
    expect("film_write_csgp", memcmp(body, csgp, sizeof csgp) == 0, 1);
    expect("film_write_csgp", body[16], 0x77);
}

static void descriptions(void) {
    const uint8_t *sgpd = film + 74;
    uint64_t head[5], place[2], split[2], part[3];
    const uint64_t want[5] = {1, FILM_TYPE_ROLL, 2, 0, 1};
    expect("film_parse_sgpd", film_parse_sgpd(sgpd, 18, head), FILM_OK);
    expect_all("film_parse_sgpd", head, want, 5);
    expect("film_entry_place", film_entry_place(sgpd, 18, 1, place), FILM_OK);
    expect("film_entry_place", place[0], 16);
    expect("film_entry_place", place[1], 2);
    expect("film_entry_place", film_entry_place(sgpd, 18, 2, place), FILM_NONE);
    expect("film_entry_place", film_entry_place(sgpd, 17, 1, place), FILM_ENTRY_CUT);

    uint32_t places[4] = {7, 7, 7, 7};
    uint64_t count[1];
    expect("film_entry_places", film_entry_places(sgpd, 18, places, 1, count), FILM_NO_RECORD_LEFT);
    expect("film_entry_places", places[0], 7);
    expect("film_entry_places", film_entry_places(sgpd, 18, places, 4, count), FILM_OK);
    expect("film_entry_places", count[0], 1);
    expect("film_entry_places", places[0] * 1000 + places[1], 16002);
    expect("film_entry_places", places[2] * 1000 + places[3], 7007);

    film_split_csgp_index(0x80000001u, split);
    expect("film_split_csgp_index", split[0], 1);
    expect("film_split_csgp_index", split[1], 1);
    expect("film_described_place", film_described_place(sgpd, 18, sgpd, 18, 0x80000001u, part), FILM_OK);
    expect("film_described_place", part[0], 1);
    expect("film_described_place", part[1], 16);
    expect("film_described_place", part[2], 2);
    expect("film_described_place", film_described_place(sgpd, 11, sgpd, 18, 1, part), FILM_SHORT_SGPD);
    expect("film_rate_of_point", film_rate_of_point(4294967295u, 65535), UINT64_C(2814706816778));
    expect("film_rate_of_point, a half", film_rate_of_point(50, 1), 0);
    expect("film_rate_of_point, a half", film_rate_of_point(150, 1), 2);
}

static void entries(void) {
    static const uint8_t distance[] = {0xff, 0xfe}, bits[] = {0x83};
    static const uint8_t rash[] = {0, 1, 0, 7, 0, 0, 0, 8, 0, 0, 0, 9, 5};
    static const uint8_t alst[] = {0, 1, 0, 6, 0, 0, 0, 3, 0, 4, 0, 5};
    int64_t signed_out[1];
    uint64_t out[4];
    expect("film_decode_roll", film_decode_roll(distance, 2, signed_out), FILM_OK);
    expect("film_decode_roll", signed_out[0] == -2, 1);
    expect("film_decode_roll", film_decode_roll(distance, 1, signed_out), FILM_SHORT_ENTRY);
    expect("film_decode_prol", film_decode_prol(distance, 2, signed_out), FILM_OK);
    expect("film_decode_prol", signed_out[0] == -2, 1);
    expect("film_decode_rap", film_decode_rap(bits, 1, out), FILM_OK);
    expect("film_decode_rap", out[0] * 1000 + out[1], 1003);
    expect("film_decode_tele", film_decode_tele(bits, 1, out), FILM_OK);
    expect("film_decode_tele", out[0], 1);
    expect("film_decode_sap", film_decode_sap(bits, 1, out), FILM_OK);
    expect("film_decode_sap", out[0] * 1000 + out[1], 1003);
    expect("film_decode_rash", film_decode_rash(rash, sizeof rash, out), FILM_OK);
    const uint64_t plain[4] = {1, 8, 9, 5};
    expect_all("film_decode_rash", out, plain, 4);
    expect("film_decode_rash", film_decode_rash(rash, 12, out), FILM_TRAILER_CUT);
    expect("film_rash_operation_point", film_rash_operation_point(rash, sizeof rash, 0, out), FILM_OK);
    expect("film_rash_operation_point", out[0] * 1000 + out[1], 7);
    expect("film_rash_operation_point", film_rash_operation_point(rash, sizeof rash, 1, out), FILM_NONE);
    uint32_t points[4] = {7, 7, 7, 7};
    expect("film_rash_operation_points", film_rash_operation_points(rash, sizeof rash, points, 1, out), FILM_NO_RECORD_LEFT);
    expect("film_rash_operation_points", points[0], 7);
    expect("film_rash_operation_points", film_rash_operation_points(rash, sizeof rash, points, 4, out), FILM_OK);
    expect("film_rash_operation_points", out[0], 1);
    expect("film_rash_operation_points", points[0] * 1000 + points[1], 7);
    expect("film_rash_operation_points", points[2] * 1000 + points[3], 7007);
    expect("film_decode_alst", film_decode_alst(alst, sizeof alst, out), FILM_OK);
    const uint64_t startup[3] = {1, 6, 1};
    expect_all("film_decode_alst", out, startup, 3);
    expect("film_decode_alst", film_decode_alst(alst, 11, out), FILM_PIECES_CUT);
    expect("film_alst_sample_offset", film_alst_sample_offset(alst, sizeof alst, 0, out), FILM_OK);
    expect("film_alst_sample_offset", out[0], 3);
    expect("film_alst_piece", film_alst_piece(alst, sizeof alst, 0, out), FILM_OK);
    expect("film_alst_piece", out[0] * 1000 + out[1], 4005);
    /* the middle bits of a "sap " do not count */
    static const uint8_t other[] = {0xf3};
    expect("film_decode_alike", film_decode_alike(FILM_TYPE_SAP, bits, 1, other, 1, out), FILM_OK);
    expect("film_decode_alike", out[0], 1);
    expect("film_decode_alike", film_decode_alike(FILM_TYPE_RAP, bits, 1, other, 1, out), FILM_OK);
    expect("film_decode_alike", out[0], 0);
}

static void listing(void) {
    /* the stbl of the film without its csgp: 62 bytes */
    uint8_t body[62], output[16];
    static const uint8_t want[] = {0x72, 0x6f, 0x6c, 0x6c, 0x03, 0x02, 0x02, 0xfe, 0xff, 0x01, 0x01, 0x00};
    film_row_number rows[6];
    uint64_t lengths[2];
    memcpy(body, film + 8, 36);
    memcpy(body + 36, film + 66, 26);
    memset(output, 0x77, sizeof output);
    memset(rows, 0x77, sizeof rows);
    expect("film_cue_listing", film_cue_listing(body, 62, FILM_TYPE_ROLL, rows, 6, output, 11, lengths), FILM_OUTPUT_TOO_SHORT);
    expect("film_cue_listing", film_cue_listing(body, 62, FILM_TYPE_ROLL, rows, 3, output, 16, lengths), FILM_NO_RECORD_LEFT);
    expect("film_cue_listing", film_cue_listing(body, 62, FILM_TYPE_RAP, rows, 6, output, 16, lengths), FILM_NO_TABLE);
    expect("film_cue_listing", film_cue_listing(body, 36, FILM_TYPE_ROLL, rows, 6, output, 16, lengths), FILM_NO_SGPD);
    expect("film_cue_listing", film_cue_listing(film + 8, 84, FILM_TYPE_ROLL, rows, 6, output, 16, lengths), FILM_SECOND_TABLE);
    expect("film_cue_listing", rows[0], 0x77777777);
    expect("film_cue_listing", output[0], 0x77);
    expect("film_cue_listing", film_cue_listing(body, 62, FILM_TYPE_ROLL, rows, 6, output, 16, lengths), FILM_OK);
    expect("film_cue_listing", lengths[FILM_LISTING_LENGTH], sizeof want);
    expect("film_cue_listing", lengths[FILM_LISTING_ROWS], 2);
    expect("film_cue_listing", memcmp(output, want, sizeof want) == 0, 1);
    expect("film_cue_listing", output[12], 0x77);
    expect("film_cue_listing", rows[0] == 2 && rows[1] == 1 && rows[2] == 1 && rows[3] == 0, 1);
    expect("film_cue_listing", rows[4], 0x77777777);

    /* The same body as the only track of a film: moov, trak, mdia, minf and stbl, each in the one before it, all but the innermost with one child. */
    static const char *const path[] = {"moov", "trak", "mdia", "minf", "stbl"};
    uint8_t movie[5 * 8 + 62];
    for (unsigned level = 0; level < 5; level++) {
        uint8_t *header = movie + 8 * level;
        header[0] = header[1] = header[2] = 0;
        header[3] = (uint8_t)(sizeof movie - 8 * level);
        memcpy(header + 4, path[level], 4);
    }
    memcpy(movie + 40, body, 62);
    expect("film_find_stbl", film_find_stbl(movie, sizeof movie, 0, lengths), FILM_OK);
    expect("film_find_stbl", lengths[0], 40);
    expect("film_find_stbl", lengths[1], 62);
    expect("film_find_stbl", film_find_stbl(movie, sizeof movie, 1, lengths), FILM_NO_TRACK);
    expect("film_find_stbl", film_find_stbl(movie, sizeof movie - 1, 0, lengths), FILM_BODY_CUT);
    memset(output, 0x77, sizeof output);
    expect("film_file_cue_listing", film_file_cue_listing(movie, sizeof movie, 0, FILM_TYPE_ROLL, rows, 6, output, 16, lengths), FILM_OK);
    expect("film_file_cue_listing", lengths[FILM_LISTING_LENGTH], sizeof want);
    expect("film_file_cue_listing", memcmp(output, want, sizeof want) == 0, 1);
    expect("film_file_cue_listing", output[12], 0x77);
    movie[39] = 'x';
    expect("film_file_cue_listing", film_file_cue_listing(movie, sizeof movie, 0, FILM_TYPE_ROLL, rows, 6, output, 16, lengths), FILM_NO_CONTAINER);
}

static void starts(void) {
    /* the same stbl: samples 0 and 1 have distance -2, sample 2 has none; and with distance 1, and as random access points */
    uint8_t body[62];
    uint64_t out[1] = {0x77};
    memcpy(body, film + 8, 36);
    memcpy(body + 36, film + 66, 26);
    expect("film_roll_start", film_roll_start(body, 62, 3, out), FILM_FRAME_NOT_COVERED);
    expect("film_roll_start", film_roll_start(body, 62, 2, out), FILM_NONE);
    expect("film_roll_start", film_roll_start(body, 36, 2, out), FILM_NO_SGPD);
    expect("film_rap_start", film_rap_start(body, 62, 0, out), FILM_NO_TABLE);
    expect("film_roll_start", out[0], 0x77);
    body[60] = 0, body[61] = 1;
    expect("film_roll_start", film_roll_start(body, 62, 0, out), FILM_NONE);
    expect("film_roll_start", film_roll_start(body, 62, 1, out), FILM_OK);
    expect("film_roll_start", out[0], 0);
    expect("film_roll_start", film_roll_start(body, 62, 2, out), FILM_OK);
    expect("film_roll_start", out[0], 1);
    memcpy(body + 12, "rap ", 4);
    memcpy(body + 48, "rap ", 4);
    expect("film_rap_start", film_rap_start(body, 62, 0, out), FILM_OK);
    expect("film_rap_start", out[0], 0);
    expect("film_rap_start", film_rap_start(body, 62, 2, out), FILM_OK);
    expect("film_rap_start", out[0], 1);
}

static void sync(void) {
    static const uint8_t stss[] = {0, 0, 0, 0, 0, 0, 0, 2, 0, 0, 0, 1, 0, 0, 0, 5};
    static const uint8_t sdtp[] = {0, 0, 0, 0, 0x1b, 0xe4};
    uint64_t one[1], fields[4];
    expect("film_is_sync_sample", film_is_sync_sample(stss, sizeof stss, 4, one), FILM_OK);
    expect("film_is_sync_sample", one[0], 1);
    expect("film_is_sync_sample", film_is_sync_sample(stss, sizeof stss, UINT32_MAX, one), FILM_OK);
    expect("film_is_sync_sample", one[0], 0);
    expect("film_is_sync_sample", film_is_sync_sample(stss, 15, 4, one), FILM_SYNC_TABLE_CUT);
    expect("film_last_sync_sample", film_last_sync_sample(stss, sizeof stss, 3, one), FILM_OK);
    expect("film_last_sync_sample", one[0], 0);
    expect("film_last_sync_sample", film_last_sync_sample(stss, 8, 3, one), FILM_SYNC_TABLE_CUT);
    expect("film_sample_dependency", film_sample_dependency(sdtp, sizeof sdtp, 1, fields), FILM_OK);
    expect("film_sample_dependency", fields[0] == 3 && fields[1] == 2 && fields[2] == 1 && fields[3] == 0, 1);
    expect("film_sample_dependency", film_sample_dependency(sdtp, sizeof sdtp, 2, fields), FILM_NONE);
}

static void groups(void) {
    /* the same stbl as in starts */
    uint8_t body[62];
    uint64_t group[4], needs[2];
    memcpy(body, film + 8, 36);
    memcpy(body + 36, film + 66, 26);
    expect("film_sample_group", film_sample_group(body, 62, FILM_TYPE_ROLL, 1, group), FILM_OK);
    expect("film_sample_group", group[FILM_GROUP_KIND] == 2 && group[FILM_GROUP_INDEX] == 1 && group[FILM_GROUP_PLACE] == 60 && group[FILM_GROUP_LENGTH] == 2, 1);
    expect("film_sample_group", film_sample_group(body, 62, FILM_TYPE_ROLL, 2, group), FILM_OK);
    expect("film_sample_group", group[FILM_GROUP_KIND] == 0 && group[FILM_GROUP_INDEX] == 0 && group[FILM_GROUP_LENGTH] == 0, 1);
    expect("film_sample_group", film_sample_group(body, 62, FILM_TYPE_ROLL, 3, group), FILM_FRAME_NOT_COVERED);
    expect("film_file_sample_group", film_file_sample_group(body, 62, 0, FILM_TYPE_ROLL, 0, group), FILM_NO_TRACK);
    expect("film_listing_needs", film_listing_needs(body, 62, FILM_TYPE_ROLL, needs), FILM_OK);
    expect("film_listing_needs", needs[FILM_LISTING_LENGTH] == 12 && needs[FILM_LISTING_ROWS] == 2, 1);
    expect("film_file_listing_needs", film_file_listing_needs(body, 62, 0, FILM_TYPE_ROLL, needs), FILM_NO_TRACK);
}

static void profiles(void) {
    /* "rap ": one sample of an entry that says that its leading samples are known, or not */
    uint8_t body[57] = {0, 0, 0, 28, 's', 'b', 'g', 'p', 0, 0, 0, 0, 'r', 'a', 'p', ' ', 0, 0, 0, 1, 0, 0, 0, 1, 0, 0, 0, 1,
                        0, 0, 0, 29, 's', 'g', 'p', 'd', 1, 0, 0, 0, 'r', 'a', 'p', ' ', 0, 0, 0, 1, 0, 0, 0, 1, 0x80};
    const film_size len = 53;
    uint64_t one[1];
    body[31] = 25;
    expect("film_profile", film_profile(body, len, one), FILM_OK);
    expect("film_profile", one[0], FILM_PROFILE_MET);
    body[52] = 0;
    expect("film_profile", film_profile(body, len, one), FILM_OK);
    expect("film_profile", one[0], FILM_RULE_LEADING_KNOWN);
    body[27] = 0;
    expect("film_profile", film_profile(body, len, one), FILM_OK);
    expect("film_profile", one[0], FILM_RULE_STARTS_INSIDE);
    expect("film_profile", film_profile(body, 8, one), FILM_OK);
    expect("film_profile", one[0], FILM_RULE_LISTED);
    expect("film_file_profile", film_file_profile(body, len, 0, one), FILM_NO_TRACK);
}

int main(void) {
    atoms();
    sync();
    tables();
    playing();
    repainting();
    fragments();
    writing();
    descriptions();
    entries();
    listing();
    starts();
    groups();
    profiles();
    all_null_cases();
    if (failures == 0) {
        puts("film_index.h: every call gave its answer");
    }
    return failures == 0 ? 0 : 1;
}
