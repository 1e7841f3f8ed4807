/* The library on an emulated controller: the stored answers replayed through the C functions, document 01's starred cases, and for each call the instructions
 * and the stack that it takes. */
#include "bare.h"

/* Stored answers (docs/VECTORS.md): a line is a record in hexadecimal. */
static uint8_t record[4096];

/* What stands in an output before a table is written. */
#define BEFORE 165

/* A digit's value; 16 for any other character. */
static unsigned digit(char c) { return c >= '0' && c <= '9' ? (unsigned)(c - '0') : c >= 'a' && c <= 'f' ? (unsigned)(c - 'a' + 10) : 16; }

static uint64_t big(const uint8_t *s, unsigned n) {
    uint64_t v = 0;
    while (n--) v = v << 8 | *s++;
    return v;
}

/* Whether the call that the record names gives the record's answer. */
static int agrees(const uint8_t *r, unsigned length) {
    uint64_t argument[4] = {0}, out[6] = {0};
    unsigned n = r[1];
    for (unsigned k = 0; k < n && k < 4; k++) argument[k] = big(r + 2 + 8 * k, 8);
    const uint8_t *size = r + 2 + 8 * n, *s = size + 2;
    film_size len = (film_size)big(size, 2);
    const uint8_t *told = s + len, *numbers = told + 2;
    unsigned count = 0, status = 0, lent = 0;
    uint32_t k = (uint32_t)argument[0];
    if (r[0] == 7 || r[0] == 8 || (r[0] >= 28 && r[0] <= 31))
        for (lent = 0; lent < len / 4; lent++) rows[lent] = (uint32_t)big(s + 4 * lent, 4);
    switch (r[0]) {
    case 1: status = film_read_atom_header(s, len, argument[0], out); count = 5; break;
    case 2: status = film_next_child(s, len, argument[0], (uint32_t)argument[1], argument[2], out); count = 6; break;
    case 3: status = film_read_payload(s, len, argument[0], out); count = 2; break;
    case 4: status = film_read_payload_bounded(s, len, argument[0], argument[1], out); count = 2; break;
    case 5: status = film_parse_sbgp(s, len, rows, argument[0], out); count = 3; break;
    case 6: status = film_parse_csgp(s, len, rows, argument[0], out); count = 3; break;
    case 7: status = film_group_index_for_sample(rows, lent, k, out); count = 1; break;
    case 8: status = film_covered_samples(rows, lent, out); count = 1; break;
    case 9: status = film_parse_sgpd(s, len, out); count = 5; break;
    case 10: status = film_entry_place(s, len, k, out); count = 2; break;
    case 11: status = film_decode_roll(s, len, (int64_t *)out); count = 1; break;
    case 12: status = film_decode_prol(s, len, (int64_t *)out); count = 1; break;
    case 13: status = film_decode_rap(s, len, out); count = 2; break;
    case 14: status = film_decode_tele(s, len, out); count = 1; break;
    case 15: status = film_decode_sap(s, len, out); count = 2; break;
    case 16: status = film_decode_rash(s, len, out); count = 4; break;
    case 17: status = film_rash_operation_point(s, len, k, out); count = 2; break;
    case 18: status = film_decode_alst(s, len, out); count = 3; break;
    case 19: status = film_alst_sample_offset(s, len, k, out); count = 1; break;
    case 20: status = film_alst_piece(s, len, k, out); count = 2; break;
    case 21: status = film_sbgp_rows_needed(s, len, out); count = 1; break;
    case 22: status = film_csgp_rows_needed(s, len, out); count = 1; break;
    case 23:
        if (argument[1] > 128 || argument[2] > 256) return 0;
        status = film_cue_listing(s, len, k, rows, argument[1], listing, argument[2], out);
        count = 2;
        break;
    case 24: status = film_find_stbl(s, len, k, out); count = 2; break;
    case 25:
        if (argument[2] > 128 || argument[3] > 256) return 0;
        status = film_file_cue_listing(s, len, k, (uint32_t)argument[1], rows, argument[2], listing, argument[3], out);
        count = 2;
        break;
    case 26: status = film_roll_start(s, len, k, out); count = 1; break;
    case 27: status = film_rap_start(s, len, k, out); count = 1; break;
    case 28: status = film_quote_sbgp(rows, lent, out); count = 1; break;
    case 29: status = film_quote_csgp(rows, lent, out); count = 1; break;
    case 30:
    case 31:
        if (argument[2] > 256) return 0;
        for (unsigned i = 0; i < 256; i++) listing[i] = BEFORE;
        status = (r[0] == 30 ? film_write_sbgp : film_write_csgp)(k, rows, lent, argument[1], listing, argument[2], out);
        for (unsigned i = status == 0 ? out[0] : 0; i < 256; i++)
            if (listing[i] != BEFORE) return 0;
        count = 1;
        break;
    case 32: status = film_is_sync_sample(s, len, k, out); count = 1; break;
    case 33: status = film_last_sync_sample(s, len, k, out); count = 1; break;
    case 34: status = film_sample_dependency(s, len, k, out); count = 4; break;
    case 35: status = film_entry_places(s, len, rows, argument[0], out); count = 1; break;
    case 36: status = film_rash_operation_points(s, len, rows, argument[0], out); count = 1; break;
    default: return 0;
    }
    if (told[0] != status || numbers + 8 * told[1] != r + length) return 0;
    if (status != 0) return told[1] == 0;
    for (unsigned i = 0; i < count; i++)
        if (big(numbers + 8 * i, 8) != out[i]) return 0;
    if (r[0] == 23 || r[0] == 25 || r[0] == 30 || r[0] == 31) { /* a listing's rows, then the written bytes, eight to a number, the last one filled up with zeros */
        uint64_t bytes = out[0], pairs = count == 2 ? out[1] : 0;
        if (told[1] != count + 2 * pairs + (bytes + 7) / 8) return 0;
        for (unsigned i = 0; i < 2 * pairs; i++)
            if (big(numbers + 8 * (count + i), 8) != rows[i]) return 0;
        for (unsigned i = 0; i < 8 * ((bytes + 7) / 8); i++)
            if (numbers[8 * (count + 2 * pairs) + i] != (i < bytes ? listing[i] : 0)) return 0;
        return 1;
    }
    if (r[0] != 5 && r[0] != 6 && r[0] < 35) return told[1] == count;
    uint64_t pairs = out[count - 1]; /* the last number of the head is how many follow */
    if (told[1] != count + 2 * pairs) return 0;
    for (unsigned i = 0; i < 2 * pairs; i++)
        if (big(numbers + 8 * (count + i), 8) != rows[i]) return 0;
    return 1;
}

static void replay(const char *name, const char *from, const char *to, int expected) {
    unsigned lines = 0, same = 0;
    while (from < to) {
        unsigned n = 0, good = 1;
        while (from < to && *from != '\n') {
            good &= digit(from[0]) < 16 && digit(from[1]) < 16;
            record[n++] = (uint8_t)(digit(from[0]) << 4 | digit(from[1]));
            from += 2;
        }
        from++;
        lines++;
        same += good && agrees(record, n);
    }
    text(name);
    text(": ");
    number(lines);
    text(" stored answers, ");
    number(same);
    text(expected == 1 ? " agree" : " agree (none may)");
    text(same == (expected ? lines : 0) ? "\n" : "  WRONG\n");
}

extern const char film_listings[], film_listings_end[], starts[], starts_end[], writing[], writing_end[], sync[], sync_end[], damaged_requests[], damaged_requests_end[];
extern const char records[], records_end[], films[], films_end[], listings[], listings_end[], damaged_listing[], damaged_listing_end[];
extern const char atoms[], atoms_end[], tables[], tables_end[], descriptions[], descriptions_end[], document[], document_end[], damaged[], damaged_end[];

/* Document 01's starred cases, counted. */
#include "../examples/starred_cases.h"

static unsigned answers, right;

static void starred(const char *name, uint32_t status, uint32_t want, unsigned n, const uint64_t *numbers, const uint64_t *expected) {
    unsigned good = status == want;
    for (unsigned k = 0; status == FILM_OK && k < n; k++) good = good && numbers[k] == expected[k];
    if (!good) {
        text(name);
        text(": WRONG\n");
    }
    answers++;
    right += good;
}

static void count_starred(void) {
    all_starred();
    text("starred cases: ");
    number(answers);
    text(" answers, ");
    number(right);
    text(right == answers ? " right\n" : " right  WRONG\n");
}

/* Calls with null for what is empty, counted. */
#include "../examples/null_cases.h"

static unsigned nulls, taken;

static void null_case(const char *call, uint32_t status, uint32_t want) {
    if (status != want) {
        text(call);
        text(": WRONG\n");
    }
    nulls++;
    taken += status == want;
}

static void count_nulls(void) {
    all_null_cases();
    text("null with length 0: ");
    number(nulls);
    text(" calls, ");
    number(taken);
    text(taken == nulls ? " right\n" : " right  WRONG\n");
}

/* The stack below this frame is painted, and the deepest byte that changed is found. */
extern uint8_t stack_low[];
static uint32_t idle, sink;

static uint8_t *here(void) { return (uint8_t *)__builtin_frame_address(0); }

/* So many bytes below the caller's frame are not painted: a call that takes no more is told as that. */
#define UNPAINTED 72

static __attribute__((noinline)) void paint(void) {
    for (volatile uint8_t *at = stack_low; at < here() - 64; at++) *at = 0xa5;
}

static __attribute__((noinline)) uint32_t painted(void) {
    const volatile uint8_t *at = stack_low;
    while (*at == 0xa5) at++;
    return (uint32_t)(uintptr_t)at;
}

static void report(const char *name, uint32_t elapsed, uint32_t repeat, uint32_t stack) {
    text("| ");
    text(name);
    text(" | ");
    uint64_t instructions = ((uint64_t)elapsed * 40 - (uint64_t)idle * repeat / 1000 + repeat / 2) / repeat;
    number(instructions);
    text(" | ");
    uint64_t parts = (instructions * 10 + 24) / 48; /* ten thousandths of a millisecond, at 48 MHz */
    number(parts / 10000);
    text(".");
    for (uint32_t place = 1000; place; place /= 10) number(parts / place % 10);
    text(" | ");
    if (stack <= UNPAINTED) text("at most ");
    number(stack);
    text(" |\n");
}

#define MEASURE(name, repeat, call) \
    do { \
        uint32_t top; \
        __asm__ volatile("mov %0, sp" : "=r"(top)); \
        paint(); \
        sink += (uint32_t)(call); \
        uint32_t deep = top - painted(); \
        begin(); \
        for (uint32_t turn = 0; turn < (repeat); turn++) { \
            sink += (uint32_t)(call); \
            __asm__ volatile("" ::: "memory"); \
        } \
        uint32_t spent = ticks(); \
        report(name, spent, repeat, deep); \
    } while (0)

static uint8_t input[32768];

static uint8_t *put(uint8_t *to, uint64_t n, unsigned bytes) {
    while (bytes--) *to++ = (uint8_t)(n >> 8 * bytes);
    return to;
}

static uint8_t *word(uint8_t *to, const char *type) { return put(to, big((const uint8_t *)type, 4), 4); }

/* A csgp with 32-bit lengths and counts and indices of 8 bits. */
static uint8_t *csgp_front(uint8_t *to, const char *type, unsigned patterns) { return put(word(put(to, 0x3d, 4), type), patterns, 4); }

static uint32_t walk(film_size len) {
    uint64_t at = 0, out[6];
    uint32_t count = 0;
    while (film_next_child(input, len, at, 1, len, out) == FILM_OK) {
        at = out[0];
        count++;
    }
    return count;
}

static void measured(void) {
    uint64_t out[6];
    uint8_t *end;
    text("\n| call | instructions | ms at 48 MHz | stack, bytes |\n|---|---|---|---|\n");
    begin();
    for (uint32_t turn = 0; turn < 1000; turn++) __asm__ volatile("" ::: "memory");
    idle = ticks() * 40;

    end = put(word(put(input, 72, 4), "free"), 0, 8);
    MEASURE("read_atom_header", 1000, film_read_atom_header(input, 72, 0, out));
    MEASURE("read_payload", 1000, film_read_payload(input, 72, 0, out));
    MEASURE("read_payload_bounded", 1000, film_read_payload_bounded(input, 72, 0, 64, out));
    for (unsigned k = 0; k < 1000; k++) put(word(put(input + 16 * k, 16, 4), "free"), k, 8);
    MEASURE("next_child, a walk over 1,000", 10, walk(16000));

    end = put(word(put(input, 0, 4), "rap "), 1000, 4);
    for (unsigned k = 0; k < 1000; k++) end = put(put(end, k % 7 + 1, 4), k % 3, 4);
    MEASURE("parse_sbgp, 1,000 rows", 10, film_parse_sbgp(input, (film_size)(end - input), rows, FILM_ROW_NUMBERS * 1000, out));
    MEASURE("sbgp_rows_needed, 1,000 rows", 1000, film_sbgp_rows_needed(input, (film_size)(end - input), out));
    MEASURE("group_index_for_sample, the first of 1,000 rows", 1000, film_group_index_for_sample(rows, FILM_ROW_NUMBERS * 1000, 0, out));
    MEASURE("group_index_for_sample, the last of 1,000 rows", 10, film_group_index_for_sample(rows, FILM_ROW_NUMBERS * 1000, 3993, out));
    MEASURE("covered_samples, 1,000 rows", 10, film_covered_samples(rows, FILM_ROW_NUMBERS * 1000, out));

    end = put(put(put(csgp_front(input, "rap ", 1), 1, 4), 9000, 4), 1, 1);
    MEASURE("parse_csgp, uniform", 100, film_parse_csgp(input, (film_size)(end - input), rows, ROOM, out));
    end = put(put(put(csgp_front(input, "rap ", 1), 2, 4), 2000, 4), 0x0102, 2);
    MEASURE("parse_csgp, alternating, 2,000 rows", 10, film_parse_csgp(input, (film_size)(end - input), rows, ROOM, out));
    MEASURE("csgp_rows_needed, the same", 100, film_csgp_rows_needed(input, (film_size)(end - input), out));
    end = put(put(csgp_front(input, "rap ", 1), 300, 4), 3000, 4);
    for (unsigned k = 0; k < 300; k++) *end++ = (uint8_t)(1 + k / 3 % 9);
    MEASURE("parse_csgp, 300 indices by threes, 3,000 samples", 10, film_parse_csgp(input, (film_size)(end - input), rows, ROOM, out));

    end = put(put(word(put(input, 0x01000000, 4), "abcd"), 4, 4), 1000, 4);
    for (unsigned k = 0; k < 1000; k++) end = put(end, k, 4);
    MEASURE("parse_sgpd, 1,000 entries, one length", 100, film_parse_sgpd(input, (film_size)(end - input), out));
    MEASURE("entry_place, the last, one length", 100, film_entry_place(input, (film_size)(end - input), 1000, out));
    end = put(put(word(put(input, 0x01000000, 4), "abcd"), 0, 4), 1000, 4);
    for (unsigned k = 0; k < 1000; k++) end = put(put(end, 4, 4), k, 4);
    MEASURE("parse_sgpd, 1,000 entries, lengths", 10, film_parse_sgpd(input, (film_size)(end - input), out));
    MEASURE("entry_place, the last, lengths", 10, film_entry_place(input, (film_size)(end - input), 1000, out));
    MEASURE("entry_places, all 1,000, lengths", 10, film_entry_places(input, (film_size)(end - input), rows, ROOM, out));
    MEASURE("described_place, the fragment's last, lengths", 10,
            film_described_place(input, (film_size)(end - input), input, (film_size)(end - input), 0x80000000u | 1000, out));
    end = put(word(put(input, 0, 4), "abcd"), 1000, 4);
    for (unsigned k = 0; k < 500; k++) end = put(end, 0, 4);
    MEASURE("parse_sgpd, 1,000 entries, shares", 10, film_parse_sgpd(input, (film_size)(end - input), out));
    MEASURE("entry_place, the last, shares", 10, film_entry_place(input, (film_size)(end - input), 1000, out));
    MEASURE("entry_places, all 1,000, shares", 10, film_entry_places(input, (film_size)(end - input), rows, ROOM, out));
    MEASURE("split_csgp_index", 1000, (film_split_csgp_index(0x80000007u, out), 0));
    MEASURE("rate_of_point", 1000, film_rate_of_point(4000000000u, 75));

    put(input, 0xfffe, 2);
    MEASURE("decode_roll", 1000, film_decode_roll(input, 2, (int64_t *)out));
    MEASURE("decode_prol", 1000, film_decode_prol(input, 2, (int64_t *)out));
    MEASURE("decode_rap", 1000, film_decode_rap(input, 1, out));
    MEASURE("decode_tele", 1000, film_decode_tele(input, 1, out));
    MEASURE("decode_sap", 1000, film_decode_sap(input, 1, out));
    put(input, 100, 2);
    MEASURE("decode_rash, 100 points", 1000, film_decode_rash(input, 611, out));
    MEASURE("rash_operation_point, one of 100", 1000, film_rash_operation_point(input, 611, 50, out));
    MEASURE("rash_operation_points, all 100", 100, film_rash_operation_points(input, 611, rows, ROOM, out));
    MEASURE("decode_alike, rash of 100 points", 10, film_decode_alike(0x72617368, input, 611, input, 611, out));
    MEASURE("decode_alst, 100 offsets, 50 pieces", 1000, film_decode_alst(input, 604, out));
    MEASURE("alst_sample_offset, one of 100", 1000, film_alst_sample_offset(input, 604, 50, out));
    MEASURE("alst_piece, one of 50", 1000, film_alst_piece(input, 604, 25, out));
    MEASURE("decode_alike, roll", 1000, film_decode_alike(0x726f6c6c, input, 2, input, 2, out));
    MEASURE("decode_alike, 1,000 bytes of an unknown type", 10, film_decode_alike(0x61626364, input, 1000, input, 1000, out));

    /* a million samples of type roll in a hundred patterns: most of one index, every tenth with one sample in a hundred picked out */
    uint8_t *table = input + 8;
    end = csgp_front(table, "roll", 100);
    for (unsigned k = 0; k < 100; k++) end = put(put(end, k % 10 ? 1 : 100, 4), 10000, 4);
    for (unsigned k = 0; k < 100; k++) {
        *end++ = (uint8_t)(1 + k % 3);
        for (unsigned i = 1; k % 10 == 0 && i < 100; i++) *end++ = (uint8_t)(k % 4);
    }
    word(put(input, (uint64_t)(end - input), 4), "csgp");
    uint8_t *groups = end;
    end = put(put(word(put(end + 8, 0x01000000, 4), "roll"), 0, 4), 3, 4);
    end = put(put(put(put(put(put(end, 2, 4), 0xfffe, 2), 2, 4), 3, 2), 2, 4), 0xfffe, 2);
    word(put(groups, (uint64_t)(end - groups), 4), "sgpd");
    film_size body = (film_size)(end - input);
    MEASURE("cue_listing, 1,000,000 samples", 1, film_cue_listing(input, body, 0x726f6c6c, rows, ROOM, listing, sizeof listing, out));
    MEASURE("roll_start, the last frame of the same", 1, film_roll_start(input, body, 999999, out));

    /* the same body in a film, within five containers */
    static const char path[] = "moovtrakmdiaminfstbl";
    for (film_size k = body; k > 0; k--) input[k + 39] = input[k - 1];
    for (unsigned k = 0; k < 5; k++) word(put(input + 8 * k, body + 8 * (5 - k), 4), path + 4 * k);
    MEASURE("find_stbl, the same in a film", 100, film_find_stbl(input, body + 40, 0, out));
    MEASURE("file_cue_listing, the same in a film", 1, film_file_cue_listing(input, body + 40, 0, 0x726f6c6c, rows, ROOM, listing, sizeof listing, out));

    /* `empty-far` of bench/src/listing.rs: 3,721 empty entries with lengths of their own, two of each sixteenth looked up in turn by 2,048 rows */
    const unsigned entries = 3721, apart = 233, turns = 683;
    end = put(put(put(word(put(input + 8, 2 | 3 << 2 | 3 << 4, 4), "abcd"), 1, 4), turns, 4), 2048, 4);
    for (unsigned k = 0; k < turns; k++) {
        unsigned far = (k % 16 + 1) * apart - k / 16 % 2, most = entries - k % 2;
        end = put(end, far < most ? far : most, 2);
    }
    word(put(input, (uint64_t)(end - input), 4), "csgp");
    groups = end;
    end = put(put(word(put(end + 8, 0x01000000, 4), "abcd"), 0, 4), entries, 4);
    for (unsigned k = 0; k < entries; k++) end = put(end, 0, 4);
    word(put(groups, (uint64_t)(end - groups), 4), "sgpd");
    MEASURE("cue_listing, empty-far", 1, film_cue_listing(input, (film_size)(end - input), 0x61626364, rows, ROOM, listing, sizeof listing, out));
    if (out[0] != 10 || out[1] != 2048) text("WRONG\n");

    /* the costliest body that is known, `empty-far-8` of the same file: 3,571 such entries, eighteen neighbours of them looked up in turn by 2,048 rows */
    end = put(put(put(word(put(input + 8, 1 | 3 << 2 | 3 << 4, 4), "abcd"), 1, 4), 2048, 4), 2048, 4);
    for (unsigned k = 0; k < 2048; k++) end = put(end, 224 - k % 18, 1);
    word(put(input, (uint64_t)(end - input), 4), "csgp");
    groups = end;
    end = put(put(word(put(end + 8, 0x01000000, 4), "abcd"), 0, 4), 3571, 4);
    for (unsigned k = 0; k < 3571; k++) end = put(end, 0, 4);
    word(put(groups, (uint64_t)(end - groups), 4), "sgpd");
    MEASURE("cue_listing, empty-far-8", 1, film_cue_listing(input, (film_size)(end - input), 0x61626364, rows, ROOM, listing, sizeof listing, out));
    if (out[0] != 10 || out[1] != 2048) text("WRONG\n");

    /* `shared-far` of the same file: 6,120 entries of a byte that share 12,239 */
    end = put(put(put(word(put(input + 8, 2 | 3 << 2 | 3 << 4, 4), "abcd"), 1, 4), 2048, 4), 2048, 4);
    for (unsigned k = 0; k < 2048; k++) end = put(end, (k % 15 + 1) * 383 - k / 15 % 2, 2);
    word(put(input, (uint64_t)(end - input), 4), "csgp");
    groups = end;
    end = put(word(put(end + 8, 0, 4), "abcd"), 6120, 4);
    for (unsigned k = 0; k < 12239; k++) end = put(end, 0, 1);
    word(put(groups, (uint64_t)(end - groups), 4), "sgpd");
    MEASURE("cue_listing, shared-far", 1, film_cue_listing(input, (film_size)(end - input), 0x61626364, rows, ROOM, listing, sizeof listing, out));
    if (out[0] != 11 || out[1] != 2048) text("WRONG\n");
}

void reset(void) {
    replay("atoms", atoms, atoms_end, 1);
    replay("films", films, films_end, 1);
    replay("listing", listings, listings_end, 1);
    replay("damaged_listing", damaged_listing, damaged_listing_end, 0);
    replay("film_listings", film_listings, film_listings_end, 1);
    replay("starts", starts, starts_end, 1);
    replay("writing", writing, writing_end, 1);
    replay("sync", sync, sync_end, 1);
    replay("damaged_requests", damaged_requests, damaged_requests_end, 0);
    replay("tables", tables, tables_end, 1);
    replay("document", document, document_end, 1);
    replay("descriptions", descriptions, descriptions_end, 1);
    replay("records", records, records_end, 1);
    replay("damaged", damaged, damaged_end, 0);
    count_nulls();
    count_starred();
    measured();
    host(0x18, (const void *)0x20026);
    for (;;) {
    }
}
