//! What an entry costs as its input grows: `growth ENTRY UNIT N`.

use crate::bench::Bench;
use crate::bench::calls::*;
use crate::bench::inputs::*;
use crate::film_index::{ROW_NUMBERS, RowNumber};
use std::hint::black_box;

const SIZES: [u32; 11] = [1, 2, 4, 8, 16, 32, 64, 128, 256, 512, 1024];

impl Bench {
    /// The work over inputs that are made outside of what is measured.
    fn grow<I>(&mut self, entry: &str, unit: &str, input: impl Fn(u32) -> I, mut work: impl FnMut(&mut I)) {
        for n in SIZES {
            let mut lent = black_box(input(n));
            self.measure(format!("growth\t{entry}\t{unit}\t{n}"), || work(&mut lent));
        }
    }
}

/// A table and room for its rows.
fn with_rows(s: Vec<u8>, rows: u32) -> (Vec<u8>, Vec<RowNumber>) {
    (s, vec![0; ROW_NUMBERS * rows as usize])
}

/// A payload and room for as many pairs.
fn with_pairs(s: Vec<u8>, pairs: u32) -> (Vec<u8>, Vec<u32>) {
    (s, vec![0; 2 * pairs as usize])
}

fn written(lent: &mut (Vec<u8>, Vec<RowNumber>)) {
    let (s, rows) = lent;
    assert_eq!(parse(film_parse_csgp, s, rows), (0, (rows.len() / ROW_NUMBERS) as u64));
}

fn needed(s: &mut Vec<u8>) {
    assert_eq!(read(film_csgp_rows_needed, s).0, 0);
}

fn rows(n: u32) -> Vec<RowNumber> {
    (0..n).flat_map(|k| [k % 7 + 1, k % 3]).collect()
}

/// A pattern of indices 1 to 15 in turn, passed through once.
fn one_pattern(n: u32) -> Vec<u8> {
    csgp(b"rap ", 1, &[(n, (0..n).map(|k| 1 + k % 15).collect())])
}

fn patterns(n: u32) -> Vec<u8> {
    csgp(b"rap ", 1, &(0..n).map(|k| (3, vec![1 + k % 15])).collect::<Vec<_>>())
}

fn listed(lent: &mut (Vec<u8>, Vec<RowNumber>, Vec<u8>)) {
    let (s, rows, listing) = lent;
    list(s, b"roll", rows, listing).unwrap();
}

/// A table of n rows that are n stretches, with room for rows and listing.
fn stretches(n: u32) -> (Vec<u8>, Vec<RowNumber>, Vec<u8>) {
    let entries: Vec<Vec<u8>> = (0..15).map(|k| vec![0, k]).collect();
    (body(&csgp(b"roll", 1, &[(n, (0..n).map(|k| 1 + k % 15).collect())]), &sgpd_of(b"roll", &entries)), vec![0; ROW_NUMBERS * n as usize], vec![0; 8 * n as usize + 64])
}

pub fn run(bench: &mut Bench) {
    bench.grow("next_child, a walk", "atoms", atoms, |s| drop(black_box(walk(s))));
    bench.grow("read_payload", "bytes of the body", |n| atom_of(b"sbgp", &vec![0; n as usize]), |s| {
        let mut out = [0; 2];
        assert_eq!(unsafe { film_read_payload(s.as_ptr(), s.len() as u64, 0, &mut out) }, 0);
    });
    bench.grow("parse_sbgp", "rows", |n| with_rows(sbgp(n), n), |(s, rows)| drop(parse(film_parse_sbgp, s, rows)));
    bench.grow("sbgp_rows_needed", "rows", sbgp, |s| drop(read(film_sbgp_rows_needed, s)));
    bench.grow("parse_csgp", "samples of a uniform pattern", |n| with_rows(csgp(b"rap ", 1, &[(n, vec![1])]), 1), written);
    bench.grow("parse_csgp", "rows of a pattern of two indices", |n| with_rows(csgp(b"rap ", 1, &[(n, vec![1, 2])]), n), written);
    bench.grow("parse_csgp", "indices, each a row", |n| with_rows(one_pattern(n), n), written);
    bench.grow("parse_csgp", "patterns, each a row", |n| with_rows(patterns(n), n), written);
    bench.grow("csgp_rows_needed", "rows of a pattern of two indices", |n| csgp(b"rap ", 1, &[(n, vec![1, 2])]), needed);
    bench.grow("csgp_rows_needed", "indices, each a row", one_pattern, needed);
    bench.grow("csgp_rows_needed", "patterns, each a row", patterns, needed);
    bench.grow("group_index_for_sample", "rows before the sample", rows, |r| drop(look_up(r, u32::MAX)));
    bench.grow("covered_samples", "rows", rows, |r| drop(covered(r)));
    for (kind, prefixed) in [("one length", false), ("lengths", true)] {
        bench.grow(&format!("parse_sgpd, {kind}"), "entries", |n| sgpd(n, prefixed), |s| assert_eq!(read(film_parse_sgpd, s).0, 0));
        bench.grow(&format!("entry_places, {kind}"), "entries", |n| with_pairs(sgpd(n, prefixed), n), |(s, places)| assert_eq!(fill(film_entry_places, s, places).0, 0));
        bench.grow(&format!("entry_place, {kind}, the last"), "entries", |n| (n, sgpd(n, prefixed)), |(n, s)| assert_eq!(numbered(film_entry_place, s, *n).0, 0));
        bench.grow(&format!("described_place, {kind}, the last of the fragment's"), "entries of each", |n| (n, sgpd(n, prefixed)), |(n, s)| {
            assert_eq!(described(s, s, 0x8000_0000 | *n).0, 0)
        });
    }
    bench.grow("decode_rash", "points", |n| rash(n as u16 + 1), |s| assert_eq!(read(film_decode_rash, s).0, 0));
    bench.grow("rash_operation_points", "points", |n| with_pairs(rash(n as u16 + 1), n + 1), |(s, points)| assert_eq!(fill(film_rash_operation_points, s, points).0, 0));
    bench.grow("rash_operation_point, the last", "points", |n| (n, rash(n as u16 + 1)), |(n, s)| assert_eq!(numbered(film_rash_operation_point, s, *n).0, 0));
    bench.grow("decode_alst", "offsets and as many pieces", |n| alst(n as u16, n as usize), |s| assert_eq!(read(film_decode_alst, s).0, 0));
    bench.grow("alst_sample_offset, the last", "offsets", |n| (n, alst(n as u16, 1)), |(n, s)| assert_eq!(numbered(film_alst_sample_offset, s, *n - 1).0, 0));
    bench.grow("alst_piece, the last", "pieces", |n| (n, alst(1, n as usize)), |(n, s)| assert_eq!(numbered(film_alst_piece, s, *n - 1).0, 0));
    bench.grow("decode_alike, an unknown type", "bytes, all the same", |n| vec![7; n as usize], |s| assert_eq!(alike(b"abcd", s, s), (0, 1)));
    bench.grow("decode_alike, rash", "points, all the same", |n| rash(n as u16 + 1), |s| assert_eq!(alike(b"rash", s, s), (0, 1)));
    bench.grow("cue_listing", "rows, each a stretch", stretches, listed);
    for (name, last) in [("first", false), ("last", true)] {
        let frame = |n: u32| if last { n - 1 } else { 0 };
        bench.grow(&format!("roll_start, the {name} frame"), "indices of a pattern", |n| (frame(n), stretches(n).0), |(frame, s)| assert_eq!(numbered(film_roll_start, s, *frame).0, 0));
    }
}

/// A csgp whose rows stay the same in number while its samples grow.
pub fn samples(bench: &mut Bench) {
    for shape in ["uniform", "three-rows"] {
        for samples in [1, 1000, 1_000_000, u32::MAX] {
            let patterns: &[(u32, Vec<u32>)] = match shape {
                "uniform" => &[(samples, vec![9])],
                _ => &[(samples, vec![1, 1]), (samples, vec![2]), (samples, vec![3])],
            };
            let s = black_box(csgp(b"rap ", 3, patterns));
            let mut run = [0u32; 16];
            bench.measure(format!("samples\t{shape}\t{samples}"), || assert_eq!(parse(film_parse_csgp, &s, &mut run).0, 0));
        }
    }
}

/// A csgp of one pattern that has two runs, and of a number of its periods: two rows for each.
pub fn periods(bench: &mut Bench) {
    for length in [10, 100, 1000] {
        for count in [10, 100, 1000] {
            let indices = (0..length).map(|k| 1 + 2 * k / length).collect();
            let s = black_box(csgp(b"rap ", 3, &[(length * count, indices)]));
            let mut run = vec![0; ROW_NUMBERS * 2 * count as usize];
            bench.measure(format!("periods\t{length}\t{count}\t{}", 2 * count), || {
                assert_eq!(parse(film_parse_csgp, &s, &mut run), (0, 2 * count as u64))
            });
        }
    }
}
