/* Film index: the atoms of QuickTime and MP4 films, and the sample groups in them.
 *
 * Every function reads what it is lent and keeps nothing. It ends on every input, and relies on no check by its caller.
 *
 * Status. Each function but film_rate_of_point and film_split_csgp_index returns a status:
 *   FILM_OK       the value is in `out`, which is then written whole;
 *   FILM_NONE     there is no such thing, or a walk is done;
 *   else          the number of a refusal (FILM_HEADER_CUT and so on): the first that applies.
 * Without FILM_OK nothing is written: `out`, rows, a listing, a body and every other lent byte stay as they were. No refusal is 0 or 255.
 * film_rate_of_point cannot fail and returns its value; film_split_csgp_index cannot fail and returns nothing.
 *
 * Lent memory. `out` has the length that the declaration names; enums below name its positions. What one call is lent must not overlap where any of it is
 * written. A pointer whose length is 0 is not read: it may be null, as an empty std::vector hands it out, or dangle.
 *
 * Limits. An input of more than FILM_INPUT_LIMIT bytes is refused before anything else (FILM_INPUT_TOO_LONG). A run of rows that is read may have
 * FILM_RECORD_LIMIT records, else the same refusal; a run or an output lent only to be filled has no limit.
 *
 * Two inputs. FILM_INPUT_TOO_LONG of either comes first; then the refusals of the first input, then those of the second.
 *
 * A type is its four bytes as one big-endian number: "roll" is FILM_TYPE_ROLL, 0x726f6c6c.
 *
 * A film of any length. The calls on films take the front of a film up to FILM_INPUT_LIMIT bytes, and need the moov alone. To find it, read 16 bytes of the file at a
 * place, give them to film_read_atom_header with `at` 0, and go on by the total size until the type is FILM_TYPE_MOOV; then lend the bytes of that atom, its header
 * first, as the film. (docs/FILMS.md has the loop.)
 */
#ifndef FILM_INDEX_H
#define FILM_INDEX_H

#include <stdint.h>

#ifdef __cplusplus
extern "C" {
#endif

/* The version of this interface. It is raised where a declaration changes that a caller has compiled. */
#define FILM_INDEX_VERSION 1u

/* A length: 64 bits on every machine, also where size_t has 32 (the archive for the controller). */
typedef uint64_t film_size;

/* A sample's number, counted from 0, and a number of a run of rows. A row takes FILM_ROW_NUMBERS of them: a sample count and a description index. */
typedef uint32_t film_sample;
typedef uint32_t film_row_number;
#define FILM_ROW_NUMBERS 2u

#define FILM_INPUT_LIMIT 67108864u /* bytes */
#define FILM_RECORD_LIMIT 8388608u /* records of a run */

/* Grouping types with a decoder, and the atoms that are named here */
#define FILM_TYPE_ROLL 0x726f6c6cu
#define FILM_TYPE_PROL 0x70726f6cu
#define FILM_TYPE_RAP 0x72617020u  /* "rap " */
#define FILM_TYPE_TELE 0x74656c65u
#define FILM_TYPE_SAP 0x73617020u  /* "sap " */
#define FILM_TYPE_RASH 0x72617368u
#define FILM_TYPE_ALST 0x616c7374u
#define FILM_TYPE_MOOV 0x6d6f6f76u
#define FILM_TYPE_SBGP 0x73626770u
#define FILM_TYPE_CSGP 0x63736770u
#define FILM_TYPE_SGPD 0x73677064u
#define FILM_TYPE_STSS 0x73747373u
#define FILM_TYPE_SDTP 0x73647470u

/* Positions in `out` */
enum film_header_out { FILM_HEADER_TYPE, FILM_HEADER_OPEN, FILM_HEADER_SIZE, FILM_HEADER_LENGTH, FILM_HEADER_BODY };
enum film_child_out { FILM_CHILD_NEXT, FILM_CHILD_HEADER }; /* the five numbers of the header begin at the second */
enum film_place_out { FILM_PLACE, FILM_PLACE_LENGTH };     /* a body, a payload, an entry */
enum film_table_out { FILM_TABLE_TYPE, FILM_TABLE_PARAMETER, FILM_TABLE_ROWS };
enum film_sgpd_out { FILM_SGPD_VERSION, FILM_SGPD_TYPE, FILM_SGPD_DEFAULT_LENGTH, FILM_SGPD_DEFAULT_INDEX, FILM_SGPD_ENTRIES };
enum film_rap_out { FILM_RAP_KNOWN, FILM_RAP_LEADING };
enum film_sap_out { FILM_SAP_DEPENDENT, FILM_SAP_TYPE };
enum film_rash_out { FILM_RASH_POINTS, FILM_RASH_MAXIMUM, FILM_RASH_MINIMUM, FILM_RASH_PRIORITY };
enum film_point_out { FILM_POINT_BITRATE, FILM_POINT_SHARE };
enum film_alst_out { FILM_ALST_ROLLS, FILM_ALST_FIRST_OUTPUT, FILM_ALST_PIECES };
enum film_piece_out { FILM_PIECE_OUTPUT, FILM_PIECE_TOTAL };
enum film_split_out { FILM_SPLIT_INDEX, FILM_SPLIT_LOCAL };
enum film_described_out { FILM_DESCRIBED_LOCAL, FILM_DESCRIBED_PLACE, FILM_DESCRIBED_LENGTH };
enum film_dependency_out { FILM_IS_LEADING, FILM_DEPENDS_ON, FILM_IS_DEPENDED_ON, FILM_HAS_REDUNDANCY };
enum film_fragment_out { FILM_FRAGMENT, FILM_FRAGMENT_SAMPLE };
enum film_fragment_sums_out { FILM_QUEUE_HELD, FILM_QUEUE_COVERED, FILM_QUEUE_MEMBERS };
enum film_listing_out { FILM_LISTING_LENGTH, FILM_LISTING_ROWS };

#define FILM_OK 0u
#define FILM_NONE 255u

/* Refusals: atoms */
#define FILM_HEADER_CUT 1u             /* 1 to 7 bytes where a header stands */
#define FILM_EXTENDED_SIZE_CUT 2u      /* the 64-bit size is incomplete */
#define FILM_SMALL_SIZE 3u             /* a size of 2 to 7 */
#define FILM_SMALL_EXTENDED_SIZE 4u    /* a 64-bit size below 16 */
#define FILM_FAR_END 5u                /* place plus size over 2^64 - 1 */
#define FILM_CHILD_PAST_PARENT 6u      /* a child ends past its parent */
#define FILM_OPEN_CHILD 7u             /* an open-ended child of a parent whose end is not known */
#define FILM_OPEN_BODY 8u              /* the body of an open-ended atom */
#define FILM_BODY_OVER_LIMIT 9u        /* a body over 67,108,864 bytes */
#define FILM_BODY_OVER_ENVELOPE 10u    /* a body over max_remaining bytes */
#define FILM_BODY_CUT 11u              /* bytes of the body are missing */
/* Refusals: sample tables */
#define FILM_SHORT_TABLE 20u           /* under 8 bytes */
#define FILM_NO_PARAMETER 21u
#define FILM_NO_COUNT 22u
#define FILM_ROWS_CUT 23u              /* sbgp */
#define FILM_PATTERN_LENGTH_CUT 24u    /* csgp, here and below */
#define FILM_PATTERN_COUNT_CUT 25u
#define FILM_PATTERN_LENGTH_ZERO 26u
#define FILM_INDEX_CUT 27u
#define FILM_ROW_COUNT_OVER 28u        /* a row would cover more than 4,294,967,295 samples */
#define FILM_NO_RECORD_LEFT 29u        /* more rows, entries or points than records were lent */
/* Refusals: group descriptions */
#define FILM_SHORT_SGPD 30u            /* under 12 bytes; in the walk of a cue listing under 8 */
#define FILM_NO_DEFAULT_INDEX 31u
#define FILM_NO_ENTRY_COUNT 32u
#define FILM_NO_ENTRY_LENGTH 33u
#define FILM_ZERO_SHARE 34u            /* version 0: no byte is left for an entry */
#define FILM_ENTRY_CUT 35u
/* Refusals: typed entries */
#define FILM_SHORT_ENTRY 40u
#define FILM_NO_POINTS 41u             /* rash */
#define FILM_POINT_CUT 42u             /* rash */
#define FILM_TRAILER_CUT 43u           /* rash */
#define FILM_OFFSETS_CUT 44u           /* alst */
#define FILM_PIECES_CUT 45u            /* alst: the tail is not a multiple of 4 */
/* Refusals: the cue listing */
#define FILM_NO_TABLE 50u              /* no sbgp and no csgp of the type */
#define FILM_SECOND_TABLE 51u
#define FILM_NO_SGPD 52u               /* no sgpd of the type */
#define FILM_SECOND_SGPD 53u
#define FILM_OUTPUT_TOO_SHORT 54u      /* the listing is longer than the output */
/* Refusals: every function with an input */
#define FILM_INPUT_TOO_LONG 55u
/* Refusals: the search for a track's stbl */
#define FILM_NO_TRACK 60u              /* no moov, or no such trak in the first one */
#define FILM_NO_CONTAINER 61u          /* no mdia in the trak, no minf in the mdia, or no stbl in the minf */
/* Refusals: where decoding begins */
#define FILM_FRAME_NOT_COVERED 62u     /* the table covers fewer samples */
/* Refusals: tables that are written */
#define FILM_LENGTH_DISAGREES 63u      /* the rows need another length than the quoted one */
#define FILM_OUTPUT_SHORTER 64u        /* the output is shorter than the quoted length */
/* Refusals: sync and dependency tables */
#define FILM_SYNC_TABLE_CUT 65u        /* bytes of an stss or an sdtp are missing */
#define FILM_SYNC_NOT_RISING 66u       /* the sample numbers of an stss do not rise, or one is 0 */
/* Refusals: marks of a csgp */
#define FILM_INDEX_TOO_LARGE 67u       /* an index of 2^31 or more, where flag bit 7 is clear */
/* Refusals: rows repainted */
#define FILM_NO_STRETCH 70u            /* more rows stated than records lent, from not below to, or to past the samples covered */
/* Refusals: a queue of fragments */
#define FILM_QUEUE_FULL 71u            /* FILM_QUEUE_FRAGMENTS are held */
#define FILM_QUEUE_EMPTY 72u           /* no fragment is there to drop */
#define FILM_NOT_IN_QUEUE 73u          /* the fragments held cover fewer samples */

/* Atoms. A place is counted in bytes from the first byte of `s`. */

/* The header at place `at` of the `len` bytes at `s`; FILM_NONE where no byte stands there.
 * out: type, open-ended (0 or 1), total size (0 if open-ended), header length, place of the body. */
uint32_t film_read_atom_header(const uint8_t *s, film_size len, uint64_t at, uint64_t out[5]);

/* The child at place `at` of a container that ends at `end`, if `known` is not 0; FILM_NONE where the walk is done.
 * out: place of the next child, then the five numbers of the child's header. An open-ended child ends with its parent. A child may end before its own body
 * begins (an open-ended one whose header crosses its parent's end), and where no end is known it may pass the input; the next call then says FILM_NONE. */
uint32_t film_next_child(const uint8_t *s, film_size len, uint64_t at, uint32_t known, uint64_t end, uint64_t out[6]);

/* The body of the atom whose header stands at place `at`; FILM_NONE where no byte stands there. out: place and length of the body.
 * Refusals, in order: the header's; FILM_OPEN_BODY; FILM_BODY_OVER_LIMIT; FILM_BODY_CUT. */
uint32_t film_read_payload(const uint8_t *s, film_size len, uint64_t at, uint64_t out[2]);

/* The same where the body may have at most `max_remaining` bytes: FILM_BODY_OVER_ENVELOPE comes directly after FILM_OPEN_BODY. */
uint32_t film_read_payload_bounded(const uint8_t *s, film_size len, uint64_t at, uint64_t max_remaining, uint64_t out[2]);

/* The body of the stbl of track number `track`, counted from 0, in the front of a film: in the first moov that trak, in it the first mdia, in that the first minf, in
 * that the first stbl. Each of them is walked to its end before the one that was found in it is used, so that a fault behind it wins. At the top an atom may pass the
 * given bytes, but the first moov, if it does, is FILM_BODY_CUT. Headers are read from all the given bytes, past a parent's end too. An open-ended atom ends where its
 * parent does, or the given bytes at the top; where its header crosses that end, it is empty, and its place is behind its header.
 *
 * Refusals, level by level: those of the walk over that level; then FILM_NO_TRACK (no moov, or no such trak) or FILM_NO_CONTAINER (below the trak); at the top last
 * FILM_BODY_CUT. It is never FILM_NONE. out: place and length of the body. */
uint32_t film_find_stbl(const uint8_t *s, film_size len, uint32_t track, uint64_t out[2]);

/* Sample tables. `s` is the payload of an sbgp or a csgp. `rows` is a run of `rows_len` numbers, FILM_ROW_NUMBERS for each record: a sample count and a description
 * index. After n rows were written, lookups over them take a rows_len of FILM_ROW_NUMBERS * n; numbers at the end that are no whole record are not used. With FILM_OK
 * the rows stand in front of the run and the numbers behind them stay. */

/* The rows of an sbgp payload, as they are. out: grouping type, parameter (0 if absent), row count. */
uint32_t film_parse_sbgp(const uint8_t *s, film_size len, film_row_number *rows, film_size rows_len, uint64_t out[3]);

/* The rows of a csgp payload: its patterns replayed over their samples, equal neighbours joined. Where flag bit 7 is set, the highest bit of each index at its own width says
 * that its description is the fragment's own: a row has that mark in bit 31 and the index in its other bits (film_split_csgp_index parts them). Where the flag is clear there are
 * no marks, and an index of 2^31 or more is FILM_INDEX_TOO_LARGE. out as for sbgp. */
uint32_t film_parse_csgp(const uint8_t *s, film_size len, film_row_number *rows, film_size rows_len, uint64_t out[3]);

/* The number of rows that an sbgp payload needs. out: that number, n. film_parse_sbgp then takes n records or more; with fewer it answers
 * FILM_NO_RECORD_LEFT. The refusals are those of film_parse_sbgp, but never FILM_NO_RECORD_LEFT. */
uint32_t film_sbgp_rows_needed(const uint8_t *s, film_size len, uint64_t out[1]);

/* The same for a csgp payload and film_parse_csgp. */
uint32_t film_csgp_rows_needed(const uint8_t *s, film_size len, uint64_t out[1]);

/* The description index (counted from 1) of a sample (counted from 0). out: the index; 0 where the sample belongs to no group, and past the last row:
 * film_covered_samples tells the two apart. */
uint32_t film_group_index_for_sample(const film_row_number *rows, film_size rows_len, film_sample sample, uint64_t out[1]);

/* The number of samples that the rows cover. out: the sum. */
uint32_t film_covered_samples(const film_row_number *rows, film_size rows_len, uint64_t out[1]);

/* A play head over rows: in play the next frame's index costs a few instructions, whatever lies before it. The caller keeps the head and lends it; four zeros are a fresh head,
 * which stands before sample 0. Its numbers are those that the calls leave; other ones are taken too, but the index and the head are then of no use. */
typedef struct film_play_head {
    uint64_t placed; /* 0: fresh; 1: at a sample */
    uint64_t sample; /* counted from 0 */
    uint64_t row;    /* the row that covers the sample, counted from 0; the row count where none does */
    uint64_t within; /* the samples of that row before it */
} film_play_head;
#define FILM_PLAY_HEAD_FRESH {0, 0, 0, 0}

/* Sets the head to a sample. It does not go beyond the smaller of the covered samples and 4,294,967,295. out: the index of the sample reached, as film_group_index_for_sample
 * gives it. The rows are walked from the first. */
uint32_t film_play_set(film_play_head *head, const film_row_number *rows, film_size rows_len, film_sample sample, uint64_t out[1]);

/* Moves the head on by one sample; a fresh one to sample 0; at the end it stays. out: the index of the sample reached. The rows are those that the head was set and moved over so
 * far; rows before the head's are not read. Over more than FILM_RECORD_LIMIT records both calls are FILM_INPUT_TOO_LONG and leave the head as it was. */
uint32_t film_play_move(film_play_head *head, const film_row_number *rows, film_size rows_len, uint64_t out[1]);

/* Rows repainted. The first `stated` records of `rows` are rows, the others are spare. The samples from `from` up to but not `to` get the index `index`; every other sample
 * keeps its own. The result are the joined rows of the changed samples, none of count 0: like neighbours are joined in all rows, not only beside the stretch. Samples are 64 bits
 * wide here, since the rows may cover more than 32 bits can count. Refusals, in order: FILM_INPUT_TOO_LONG; FILM_NO_STRETCH; then, at the first sample that cannot be entered,
 * FILM_ROW_COUNT_OVER (a joined count) or FILM_NO_RECORD_LEFT (more rows than records, the spare ones among them). */

/* What the edit would answer; nothing but `out` is written. out: the row count. */
uint32_t film_preview_repaint(const film_row_number *rows, film_size rows_len, film_size stated, uint64_t from, uint64_t to, uint32_t index, uint64_t out[1]);

/* The edit, in place: the new rows stand in front of the run, and every record behind the last of them stays as it was. The answer is that of the preview. out: the row count,
 * which the next call takes as `stated`. */
uint32_t film_repaint(film_row_number *rows, film_size rows_len, film_size stated, uint64_t from, uint64_t to, uint32_t index, uint64_t out[1]);

/* Tables written. `rows` is a run of numbers as above, which is only read. A body is written in two calls: a quote of its exact length, and a write that takes that length. Version
 * and flags but the codes of a csgp are 0, and there is no parameter. Up to FILM_INPUT_LIMIT bytes a written sbgp reads back to the same rows, and a written csgp to the same
 * index at every sample and the same total, with records enough. */

/* The length of the sbgp that holds the rows as given. out: the length in bytes. */
uint32_t film_quote_sbgp(const film_row_number *rows, film_size rows_len, uint64_t out[1]);

/* The length of the csgp that gives the same samples: rows of count 0 are dropped and like neighbours joined, each row that remains is a pattern of length 1, and the
 * widths are the narrowest that hold the largest count and the largest index; where a remaining row has bit 31, flag bit 7 is set, and the width of an index holds the other bits and
 * the mark. FILM_ROW_COUNT_OVER where a joined count is too large. out: the length in bytes. */
uint32_t film_quote_csgp(const film_row_number *rows, film_size rows_len, uint64_t out[1]);

/* Writes that sbgp in front of the `body_len` bytes of `body`; what stands behind it stays. `quoted` is the quoted length: FILM_LENGTH_DISAGREES where the rows need another one,
 * then FILM_OUTPUT_SHORTER where the output is shorter. out: the length. */
uint32_t film_write_sbgp(uint32_t grouping_type, const film_row_number *rows, film_size rows_len, film_size quoted, uint8_t *body, film_size body_len, uint64_t out[1]);

/* The same for the csgp; FILM_ROW_COUNT_OVER comes first. */
uint32_t film_write_csgp(uint32_t grouping_type, const film_row_number *rows, film_size rows_len, film_size quoted, uint8_t *body, film_size body_len, uint64_t out[1]);

/* Group descriptions. `s` is the payload of an sgpd. */

/* Reads the whole payload. out: version, grouping type, default length, default index (carried, not used), entry count. */
uint32_t film_parse_sgpd(const uint8_t *s, film_size len, uint64_t out[5]);

/* Entry `index`, counted from 1, once the whole payload is read; FILM_NONE for 0 and past the count.
 * out: place and length of the entry's bytes in the payload. */
uint32_t film_entry_place(const uint8_t *s, film_size len, uint32_t index, uint64_t out[2]);

/* All entries at once: place and length of each, in front of `places`, a run of `places_len` numbers, two to an entry; what stands behind them stays.
 * FILM_NO_RECORD_LEFT, after the payload's own refusals, where it is too short. out: entry count. */
uint32_t film_entry_places(const uint8_t *s, film_size len, uint32_t *places, film_size places_len, uint64_t out[1]);

/* Typed entries. `s` is an entry's bytes. Points, offsets and pieces are counted from 0; the decoder's refusals come first, then FILM_NONE past the count. */
uint32_t film_decode_roll(const uint8_t *s, film_size len, int64_t out[1]);  /* distance, signed */
uint32_t film_decode_prol(const uint8_t *s, film_size len, int64_t out[1]);  /* distance, signed */
uint32_t film_decode_rap(const uint8_t *s, film_size len, uint64_t out[2]);  /* known, number of leading samples */
uint32_t film_decode_tele(const uint8_t *s, film_size len, uint64_t out[1]); /* independently decodable */
uint32_t film_decode_sap(const uint8_t *s, film_size len, uint64_t out[2]);  /* dependent, type */
uint32_t film_decode_rash(const uint8_t *s, film_size len, uint64_t out[4]); /* points, maximum, minimum, priority */
uint32_t film_rash_operation_point(const uint8_t *s, film_size len, uint32_t k, uint64_t out[2]); /* bitrate, share */

/* All points at once: bitrate and share of each, in front of `points`, a run of `points_len` numbers, two to a point; what stands behind them stays.
 * FILM_NO_RECORD_LEFT, after the decoder's refusals, where it is too short. out: point count. */
uint32_t film_rash_operation_points(const uint8_t *s, film_size len, uint32_t *points, film_size points_len, uint64_t out[1]);

uint32_t film_decode_alst(const uint8_t *s, film_size len, uint64_t out[3]); /* roll count, first output sample, pieces */
uint32_t film_alst_sample_offset(const uint8_t *s, film_size len, uint32_t k, uint64_t out[1]); /* offset */
uint32_t film_alst_piece(const uint8_t *s, film_size len, uint32_t k, uint64_t out[2]); /* output samples, total samples */

/* Whether two entries of one grouping type decode to the same value. out: 1 or 0. */
uint32_t film_decode_alike(uint32_t grouping_type, const uint8_t *a, film_size a_len, const uint8_t *b, film_size b_len, uint64_t out[1]);

/* Fragments. */

/* A csgp index of a fragment. out: the index without bit 31, and that bit (1: the fragment's own description). Never refused, so there is no status. */
void film_split_csgp_index(uint32_t raw, uint64_t out[2]);

/* The entry that such an index names, in the film-wide or the fragment's sgpd payload; FILM_NONE where the payload has no such entry.
 * out: 1 for the fragment's, place and length in that payload. */
uint32_t film_described_place(const uint8_t *film, film_size film_len, const uint8_t *fragment, film_size fragment_len, uint32_t raw, uint64_t out[3]);

/* A queue of the fragments of a live film, the oldest first. Each is kept by the samples that its rows cover and by the members among them: the samples whose index, mark
 * included, is other than 0. The caller keeps the queue and lends it: 132 numbers of 64 bits, 1,056 bytes. A queue of zeros is empty. Its numbers are those that the calls leave;
 * other ones are taken too, but the answers are then of no use. A refused call leaves the queue as it was. */
#define FILM_QUEUE_FRAGMENTS 64u
typedef struct film_fragment_queue {
    uint64_t first;      /* the slot of the oldest fragment */
    uint64_t held;       /* fragments held */
    uint64_t covered;    /* samples that they cover */
    uint64_t members;    /* members among these */
    uint64_t slots[128]; /* a ring of 64 slots: samples covered, members */
} film_fragment_queue;

/* A fragment comes with its rows, which are counted; the rows are not kept. FILM_INPUT_TOO_LONG; FILM_ROW_COUNT_OVER where they cover more than 4,294,967,295 samples;
 * FILM_QUEUE_FULL. */
uint32_t film_fragment_arrive(film_fragment_queue *queue, const film_row_number *rows, film_size rows_len);

/* The oldest fragment leaves; FILM_QUEUE_EMPTY where there is none. */
uint32_t film_fragment_depart(film_fragment_queue *queue);

/* The fragment that covers a sample, which is counted from the first sample of the oldest fragment held; FILM_NOT_IN_QUEUE where none does. out: the fragment, the oldest being
 * 0, and the sample within it. */
uint32_t film_fragment_lookup(const film_fragment_queue *queue, uint64_t sample, uint64_t out[2]);

/* out: fragments held, samples that they cover, members among these. It is always FILM_OK. */
uint32_t film_fragment_sums(const film_fragment_queue *queue, uint64_t out[3]);

/* The value bitrate * share / 100, rounded to the nearest; an exact half goes to the even number. */
uint64_t film_rate_of_point(uint32_t bitrate, uint16_t share);

/* Sync and dependency tables. `s` is the body of an stss or of an sdtp. A sample is counted from 0. Each call checks all numbers of an stss. */

/* out: 1 where the sample is a sync sample of the stss, else 0. */
uint32_t film_is_sync_sample(const uint8_t *s, film_size len, film_sample sample, uint64_t out[1]);

/* The last sync sample at or before `frame`; FILM_NONE where there is none. out: the sample. */
uint32_t film_last_sync_sample(const uint8_t *s, film_size len, film_sample frame, uint64_t out[1]);

/* What the sdtp says of a sample; FILM_NONE past its last byte. out: is leading, depends on, is depended on, has redundancy, 0 to 3 each. */
uint32_t film_sample_dependency(const uint8_t *s, film_size len, film_sample sample, uint64_t out[4]);

/* Cue listing. */

/* The cue listing of one grouping type in `body`, the body of an stbl: the four type bytes, the number of samples that the type's table covers, and for each longest
 * stretch of samples of one meaning its length, its kind (0: no group, 1: an index past the entries, 2: an entry) and, for kind 2, the entry's decoded fields, or, for a
 * type without a decoder, its byte count and bytes. Numbers have seven bits to a byte, lowest first, the top bit set on all but the last. Two tables that give every
 * sample the same meaning have the same listing, byte for byte, and no others do.
 *
 * The rows of the table are left in `rows`, a run of `rows_len` numbers as above (FILM_NO_RECORD_LEFT where it is too short), and the listing in front of the
 * `listing_len` bytes of `listing`; what stands behind them stays. out: the listing's length in bytes, the row count.
 *
 * Refusals, in order: those of the walk over the children, as it meets them (FILM_OPEN_BODY, FILM_SHORT_TABLE or FILM_SHORT_SGPD of an sbgp, a csgp or an sgpd of any
 * type; a second table, a second sgpd of this type); FILM_NO_TABLE; FILM_NO_SGPD; the table's; the sgpd's; the decoder's, for the entries of samples, in their order;
 * FILM_OUTPUT_TOO_SHORT. */
uint32_t film_cue_listing(const uint8_t *body, film_size len, uint32_t grouping_type, film_row_number *rows, film_size rows_len, uint8_t *listing, film_size listing_len, uint64_t out[2]);

/* The same for a track of a film: the refusals of film_find_stbl, else the cue listing of the body that it finds. */
uint32_t film_file_cue_listing(const uint8_t *s, film_size len, uint32_t track, uint32_t grouping_type, film_row_number *rows, film_size rows_len, uint8_t *listing, film_size listing_len, uint64_t out[2]);

/* What film_cue_listing needs to be lent for a body and a type. out: bytes of the listing, rows. Lent so many, or more, the listing is given; with fewer rows it is
 * FILM_NO_RECORD_LEFT, with fewer bytes FILM_OUTPUT_TOO_SHORT. 2^63 + 1 bytes say that no output can hold the listing. Refusals: those of film_cue_listing but these two. */
uint32_t film_listing_needs(const uint8_t *body, film_size len, uint32_t grouping_type, uint64_t out[2]);

/* The same for a track of a film. */
uint32_t film_file_listing_needs(const uint8_t *s, film_size len, uint32_t track, uint32_t grouping_type, uint64_t out[2]);

/* The group of one sample, without rows: for a jump that has an stbl, a type and a frame. It costs the table's patterns and one entry, whatever the sample's number.
 * out: the kind (0: no group, 1: an index past the entries, 2: an entry), the index as the rows would have it, and for kind 2 the place and the length of the entry's bytes in
 * `body` (else 0). No decoder is asked. Refusals, in order: those of film_cue_listing up to the sgpd's, but never FILM_NO_RECORD_LEFT; FILM_FRAME_NOT_COVERED. */
enum film_group_out { FILM_GROUP_KIND, FILM_GROUP_INDEX, FILM_GROUP_PLACE, FILM_GROUP_LENGTH };
uint32_t film_sample_group(const uint8_t *body, film_size len, uint32_t grouping_type, film_sample sample, uint64_t out[4]);

/* The same for a track of a film: the refusals of film_find_stbl first. The place is counted in `s`. */
uint32_t film_file_sample_group(const uint8_t *s, film_size len, uint32_t track, uint32_t grouping_type, film_sample sample, uint64_t out[4]);

/* Where decoding begins. */

/* The latest sample at which a decoder can begin so that frame `frame`, counted from 0, is clean: by the group "roll" of `body`, the body of an stbl. A sample of an
 * entry with distance d of 0 or more begins at itself and is clean d samples later; one with a negative distance begins so many samples before itself, if there are so
 * many, and is clean at itself. Of all that are clean at or before the frame the latest begin is given; FILM_NONE where there is none. out: the sample where decoding
 * begins.
 *
 * Refusals, in order: those of film_cue_listing up to the sgpd's, but never FILM_NO_RECORD_LEFT; FILM_FRAME_NOT_COVERED; the decoder's, for the entries of the samples up
 * to the frame, in their order. */
uint32_t film_roll_start(const uint8_t *body, film_size len, film_sample frame, uint64_t out[1]);

/* The same by the group "rap ": a sample of an entry begins and is clean at itself. */
uint32_t film_rap_start(const uint8_t *body, film_size len, film_sample frame, uint64_t out[1]);

/* The dome profile. */

/* Whether `body`, the body of an stbl, meets the profile by its group "rap ". out: FILM_PROFILE_MET, or the first rule broken. A rule's number is in `out` and never a status.
 * Nothing but the body is lent: a table that would need more rows than there is memory is judged too, at a cost that does not grow with its sample counts.
 * Refusals: FILM_INPUT_TOO_LONG. A sample's kind is that of the listing: 0 no group, 1 an index past the entries, 2 an entry. */
#define FILM_PROFILE_MET 0u
#define FILM_RULE_LISTED 1u        /* its cue listing is given for long enough buffers: every other refusal breaks it */
#define FILM_RULE_STARTS_INSIDE 2u /* sample 0 has kind 2; a film that covers no samples breaks it */
#define FILM_RULE_SHORT_GAPS 3u    /* no more than 600 samples in a row are of kinds 0 and 1 together */
#define FILM_RULE_LEADING_KNOWN 4u /* every sample of kind 2 says that its leading samples are known */
#define FILM_RULE_NONE_MISSING 5u  /* no sample has kind 1 */
uint32_t film_profile(const uint8_t *body, film_size len, uint64_t out[1]);

/* The same for a track of a film: the refusals of film_find_stbl, else the verdict on the body that it finds. */
uint32_t film_file_profile(const uint8_t *s, film_size len, uint32_t track, uint64_t out[1]);

#ifdef __cplusplus
}
#endif

#endif
