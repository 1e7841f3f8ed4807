//! Document 01's 55, which the Rust does not have: every entry refuses an input one byte over the limit before anything else, also before none
//! and done, and an input at the limit is not refused by it.

use super::ffi::{self, Answer, Input};
use super::listing;
use super::tally::Tally;
use crate::film_index::ROW_NUMBERS;

const BYTES: usize = 67_108_864;
const RECORDS: usize = 8_388_608;

fn too_long<T>(told: Answer<T>) -> bool {
    matches!(told, Answer::Refused(55))
}

pub fn run(tally: &mut Tally) {
    let long = Input::new(&vec![0; BYTES + 1]);
    let short = Input::new(&[0; 16]);
    for len in [BYTES, BYTES + 1] {
        let mut check = |entry, refused| tally.same(entry, refused, len > BYTES, &|| format!("55 for {len} zero bytes"));
        for at in [0, BYTES as u64, u64::MAX] {
            check("read_atom_header", too_long(ffi::read_atom_header(&long, len, at)));
            check("next_child", too_long(ffi::next_child(&long, len, at, None)));
            check("next_child", too_long(ffi::next_child(&long, len, at, Some(0))));
            check("read_payload", too_long(ffi::read_payload(&long, len, at)));
            check("read_payload_bounded", too_long(ffi::read_payload_bounded(&long, len, at, 0)));
        }
        check("find_stbl", too_long(ffi::find_stbl(&long, len, 0)));
        check("file_cue_listing", too_long(ffi::file_cue_listing(&long, len, 0, *b"roll", 4, 16)));
        check("parse_sbgp", too_long(ffi::parse_sbgp(&long, len, 4)));
        check("parse_csgp", too_long(ffi::parse_csgp(&long, len, 4)));
        check("sbgp_rows_needed", too_long(ffi::sbgp_rows_needed(&long, len)));
        check("csgp_rows_needed", too_long(ffi::csgp_rows_needed(&long, len)));
        check("parse_sgpd", too_long(ffi::parse_sgpd(&long, len)));
        check("entry", too_long(ffi::entry_place(&long, len, 0)));
        check("entry", too_long(ffi::entry_place(&long, len, u32::MAX)));
        check("entry_places", too_long(ffi::entry_places(&long, len, 4)));
        check("described", too_long(ffi::described_place(&long, len, &short, 16, 0)));
        check("described", too_long(ffi::described_place(&short, 16, &long, len, 0)));
        check("described", too_long(ffi::described_place(&short, 1, &long, len, 0)));
        check("decode_roll", too_long(ffi::decode_roll(&long, len)));
        check("decode_prol", too_long(ffi::decode_prol(&long, len)));
        check("decode_rap", too_long(ffi::decode_rap(&long, len)));
        check("decode_tele", too_long(ffi::decode_tele(&long, len)));
        check("decode_sap", too_long(ffi::decode_sap(&long, len)));
        check("decode_rash", too_long(ffi::decode_rash(&long, len)));
        check("rash_operation_point", too_long(ffi::rash_operation_point(&long, len, u32::MAX)));
        check("rash_operation_points", too_long(ffi::rash_operation_points(&long, len, 4)));
        check("decode_alst", too_long(ffi::decode_alst(&long, len)));
        check("alst_sample_offset", too_long(ffi::alst_sample_offset(&long, len, u32::MAX)));
        check("alst_piece", too_long(ffi::alst_piece(&long, len, u32::MAX)));
        check("is_sync_sample", too_long(ffi::is_sync_sample(&long, len, 0)));
        check("last_sync_sample", too_long(ffi::last_sync_sample(&long, len, u32::MAX)));
        check("sample_dependency", too_long(ffi::sample_dependency(&long, len, u32::MAX)));
        check("sample_group", too_long(ffi::sample_group(&long, len, *b"roll", 0)));
        check("file_sample_group", too_long(ffi::file_sample_group(&long, len, 0, *b"roll", 0)));
        check("listing_needs", too_long(ffi::listing_needs(&long, len, *b"roll")));
        check("file_listing_needs", too_long(ffi::file_listing_needs(&long, len, 0, *b"roll")));
        check("profile", too_long(ffi::profile(&long, len)));
        check("file_profile", too_long(ffi::file_profile(&long, len, 0)));
        check("cue_listing", too_long(ffi::cue_listing(&long, len, *b"roll", 4, 0)));
        check("cue_listing", too_long(ffi::cue_listing(&long, len, *b"abcd", 0, 16)));
        for frame in [0, u32::MAX] {
            check("roll_start", too_long(ffi::roll_start(&long, len, frame)));
            check("rap_start", too_long(ffi::rap_start(&long, len, frame)));
        }
        for kind in [*b"roll", *b"abcd"] {
            check("decode_alike", too_long(ffi::decode_alike(kind, &long, len, &short, 16)));
            check("decode_alike", too_long(ffi::decode_alike(kind, &short, 16, &long, len)));
        }
    }
    long.check();
    let rows = vec![0; ROW_NUMBERS * (RECORDS + 1)];
    for numbers in [ROW_NUMBERS * RECORDS, ROW_NUMBERS * (RECORDS + 1) - 1, ROW_NUMBERS * (RECORDS + 1)] {
        let mut check = |entry, refused| tally.same(entry, refused, numbers / ROW_NUMBERS > RECORDS, &|| format!("55 for {numbers} numbers"));
        check("group_index_for_sample", too_long(ffi::group_index_for_sample(&rows[..numbers], 0)));
        check("play_set", too_long(ffi::play([1, 2, 3, 4], &rows[..numbers], Some(0)).0));
        check("play_move", too_long(ffi::play([0; 4], &rows[..numbers], None).0));
        check("covered_samples", too_long(ffi::covered_samples(&rows[..numbers])));
        check("preview_repaint", too_long(ffi::preview_repaint(&rows[..numbers], u64::MAX, 2, 1, 0)));
        check("repaint", too_long(ffi::repaint(&rows[..numbers], u64::MAX, 2, 1, 0).0));
        check("fragment_arrive", matches!(ffi::queue_call(&[u64::MAX; 132], ffi::QueueCall::Arrive(&rows[..numbers])).0, Answer::Refused(55)));
        check("quote_sbgp", too_long(ffi::quote_sbgp(&rows[..numbers])));
        check("quote_csgp", too_long(ffi::quote_csgp(&rows[..numbers])));
        for (quoted, room) in [(0, 0), (12, 12)] {
            check("write_sbgp", too_long(ffi::write_sbgp(*b"roll", &rows[..numbers], quoted, room)));
            check("write_csgp", too_long(ffi::write_csgp(*b"roll", &rows[..numbers], quoted, room)));
        }
    }
    assert!(rows.iter().all(|&n| n == 0), "rows were written");
    // A run or an output that is lent to be filled has no limit of its own.
    let film = Input::new(&listing::starred());
    for (numbers, room) in [(ROW_NUMBERS * (RECORDS + 1), 12), (2 * ROW_NUMBERS, BYTES + 1)] {
        let told = ffi::cue_listing(&film, 62, *b"roll", numbers, room).map(|(bytes, rows)| (bytes.len(), rows.len()));
        tally.same("cue_listing", told, Answer::Given((12, 2)), &|| format!("{numbers} numbers and {room} bytes are lent"));
    }
}
