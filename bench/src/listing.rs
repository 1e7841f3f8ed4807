//! The cue listing: a film of a million samples beside the same listing by the Rust's calls, and bodies made to be costly:
//! `listing BODY BYTES ANSWER SIDE`.

use crate::bench::Bench;
use crate::bench::calls::list;
use crate::bench::inputs::*;
use crate::film_index::ROW_NUMBERS;
use crate::{atom, sample_groups};
use std::hint::black_box;
use std::io::Cursor;

/// A million samples of type roll in a hundred patterns: most of one index, every tenth with one sample in a hundred picked out.
fn million_samples() -> Vec<u8> {
    let pattern = |k: u32| {
        let mut indices = vec![k % 4; if k % 10 == 0 { 100 } else { 1 }];
        indices[0] = 1 + k % 3;
        (10_000, indices)
    };
    let patterns: Vec<(u32, Vec<u32>)> = (0..100).map(pattern).collect();
    body(&csgp(b"roll", 0, &patterns), &sgpd_of(b"roll", &[vec![0xff, 0xfe], vec![0, 3], vec![0xff, 0xfe]]))
}

fn put(out: &mut Vec<u8>, mut n: u64) {
    while n >= 128 {
        out.push(n as u8 | 128);
        n /= 128;
    }
    out.push(n as u8);
}

/// What an entry decodes to: the numbers of a typed one, in the listing's order, or the bytes of another.
#[derive(PartialEq)]
enum Value<'a> {
    Numbers(Vec<u64>),
    Raw(&'a [u8]),
}

fn value_of<'a>(kind: &[u8; 4], s: &'a [u8]) -> Value<'a> {
    use sample_groups as rust;
    let shifted = |distance: i16| vec![(distance as i64 + 32_768) as u64];
    Value::Numbers(match kind {
        b"roll" => shifted(rust::decode_roll(s).unwrap().roll_distance),
        b"prol" => shifted(rust::decode_prol(s).unwrap().roll_distance),
        b"rap " => rust::decode_rap(s).map(|v| vec![v.num_leading_samples_known as u64, v.num_leading_samples as u64]).unwrap(),
        b"tele" => vec![rust::decode_tele(s).unwrap().level_independently_decodable as u64],
        b"sap " => rust::decode_sap(s).map(|v| vec![v.dependent as u64, v.sap_type as u64]).unwrap(),
        b"rash" => {
            let v = rust::decode_rash(s).unwrap();
            let points = v.operation_points.iter().flat_map(|p| [p.available_bitrate as u64, p.target_rate_share as u64]);
            let rest = [v.maximum_bitrate as u64, v.minimum_bitrate as u64, v.discard_priority as u64];
            [v.operation_points.len() as u64].into_iter().chain(points).chain(rest).collect()
        }
        b"alst" => {
            let v = rust::decode_alst(s).unwrap();
            let pieces = v.pieces.iter().flat_map(|p| [p.num_output_samples as u64, p.num_total_samples as u64]);
            let front = [v.roll_count as u64, v.first_output_sample as u64].into_iter().chain(v.sample_offsets.iter().map(|&o| o as u64));
            front.chain([v.pieces.len() as u64]).chain(pieces).collect()
        }
        _ => return Value::Raw(s),
    })
}

/// The listing of a type by the Rust's calls: the walk, the tables, which keep their entries in memory, one decoding of each entry that a row has, and the rows joined by
/// what they mean.
fn by_rust(kind: &[u8; 4], s: &[u8]) -> Vec<u8> {
    let (mut table, mut sgpd) = (None, None);
    atom::walk_children(&mut Cursor::new(s), Some(s.len() as u64), |r, h| {
        match &h.fourcc {
            b"csgp" => table = Some(sample_groups::parse_csgp(&atom::read_payload(r, h)?)?),
            b"sgpd" => sgpd = Some(sample_groups::parse_sgpd(&atom::read_payload(r, h)?)?),
            _ => {}
        }
        Ok(())
    })
    .unwrap();
    let (table, sgpd) = (table.unwrap(), sgpd.unwrap());
    let mut values: Vec<Option<Value>> = (0..sgpd.entries.len()).map(|_| None).collect();
    // the samples, the kind, and the entry from 0
    let mut stretches: Vec<(u64, u64, usize)> = Vec::new();
    for row in &table.entries {
        let (row_kind, k) = match row.group_description_index as usize {
            0 => (0, 0),
            k if k > sgpd.entries.len() => (1, 0),
            k => (2, k - 1),
        };
        if row_kind == 2 && values[k].is_none() {
            values[k] = Some(value_of(kind, &sgpd.entries[k].payload));
        }
        match stretches.last_mut() {
            Some((n, last, v)) if *last == row_kind && (row_kind < 2 || *v == k || values[*v] == values[k]) => *n += row.sample_count as u64,
            _ => stretches.push((row.sample_count as u64, row_kind, k)),
        }
    }
    let mut out = kind.to_vec();
    put(&mut out, table.covered_samples());
    for (n, row_kind, k) in stretches {
        put(&mut out, n);
        put(&mut out, row_kind);
        match &values.get(k).filter(|_| row_kind == 2) {
            Some(Some(Value::Numbers(numbers))) => numbers.iter().for_each(|&n| put(&mut out, n)),
            Some(Some(Value::Raw(bytes))) => {
                put(&mut out, bytes.len() as u64);
                out.extend_from_slice(bytes);
            }
            _ => {}
        }
    }
    out
}

pub fn million(bench: &mut Bench) {
    let s = black_box(million_samples());
    let mut rows = vec![0; ROW_NUMBERS * 4096];
    let mut listing = vec![0u8; 1 << 15];
    let [length, _] = list(&s, b"roll", &mut rows, &mut listing).unwrap();
    assert_eq!(listing[..length as usize], by_rust(b"roll", &s));
    bench.measure("entry\tcue_listing, 1,000,000 samples\tours".into(), || drop(black_box(list(&s, b"roll", &mut rows, &mut listing).unwrap())));
    bench.measure("entry\tcue_listing, 1,000,000 samples\trust".into(), || drop(black_box(by_rust(b"roll", &s))));
}

/// What the program cue holds.
const BODY: usize = 16_384;
const ROWS: u32 = 2_048;

/// So many equal entries, as long as the body allows, in turn over all rows; `odd`: the last byte of the last entry is another.
fn in_turn(kind: &[u8; 4], entries: usize, front: &[u8], step: usize, odd: bool) -> Vec<u8> {
    equal(kind, entries, &[(ROWS, (1..=entries as u32).collect())], front, step, odd)
}

/// The first of equal entries once, then the others in turn: no row has the index that its stretch began with.
fn late(kind: &[u8; 4], entries: u32, front: &[u8], step: usize) -> Vec<u8> {
    equal(kind, entries as usize, &[(1, vec![1]), (ROWS - 1, (2..=entries).collect())], front, step, false)
}

/// The same in one pattern of a third of the rows, so that measuring passes over no period of it.
fn written_out(kind: &[u8; 4], entries: u32, front: &[u8], step: usize) -> Vec<u8> {
    let turns = (0..ROWS / 3).map(|k| 2 + k % (entries - 1));
    equal(kind, entries as usize, &[(ROWS, [1].into_iter().chain(turns).collect())], front, step, false)
}

fn equal(kind: &[u8; 4], entries: usize, patterns: &[(u32, Vec<u32>)], front: &[u8], step: usize, odd: bool) -> Vec<u8> {
    let table = csgp(kind, if entries < 16 { 0 } else { 1 }, patterns);
    let room = (BODY - table.len() - 16 - 16 - 4 * entries) / entries;
    let length = front.len() + (room - front.len()) / step * step;
    let mut entry = front.to_vec();
    entry.resize(length, 0x11);
    let mut all = vec![entry; entries];
    if odd {
        *all.last_mut().unwrap().last_mut().unwrap() ^= 1;
    }
    body(&table, &sgpd_of(kind, &all))
}

/// A pattern of a million indices, one of them another, over 4,000,000,000 samples; the two entries are alike or not.
fn odd_one_out(alike: bool) -> Vec<u8> {
    let mut indices = vec![1; 1_000_000];
    indices[700_000] = 2;
    body(&csgp(b"roll", 0, &[(4_000_000_000, indices)]), &sgpd_of(b"roll", &[vec![0, 1], vec![0, if alike { 1 } else { 2 }]]))
}

/// Like entries with lengths of their own, two from each sixteenth of them, farthest behind its landmark: each row looks its entry up.
fn far(kind: &[u8; 4], entry: &[u8]) -> Vec<u8> {
    let count = (BODY - 1_500) / (4 + entry.len());
    let apart = count.div_ceil(16);
    let turns = (0..(ROWS as usize + 1) / 3).map(|k| ((k % 16 + 1) * apart - k / 16 % 2).min(count - k % 2) as u32).collect();
    body(&csgp(kind, 2, &[(ROWS, turns)]), &sgpd_of(kind, &vec![entry.to_vec(); count]))
}

/// The same with indices of 8 bits: eighteen neighbours in turn, the last of them the farthest behind a landmark that 8 bits reach.
fn far_narrow(kind: &[u8; 4]) -> Vec<u8> {
    let count = (BODY as u32 - 52 - ROWS) / 4;
    let apart = count / 16 + 1;
    let turns = (0..ROWS).map(|k| 255 / apart * apart - k % 18).collect();
    body(&csgp(kind, 1, &[(ROWS, turns)]), &sgpd_of(kind, &vec![vec![]; count as usize]))
}

/// Version 0 of a type without a length: so many entries of one byte that one byte more would be two, two from each sixteenth as above.
fn far_shared(kind: &[u8; 4]) -> Vec<u8> {
    let count = (BODY as u32 - 47 - 2 * ROWS) / 2;
    let apart = count / 16 + 1;
    let turns = (0..ROWS).map(|k| (k % 15 + 1) * apart - k / 15 % 2).collect();
    let entries = [&[0; 4], &kind[..], &count.to_be_bytes(), &vec![0; 2 * count as usize - 1]].concat();
    body(&csgp(kind, 2, &[(ROWS, turns)]), &entries)
}

/// As many patterns of one sample as fit, five after the other with one index, of 8 equal entries.
fn short_patterns(kind: &[u8; 4]) -> Vec<u8> {
    let count = 5 * ROWS - 4;
    let indices: Vec<u32> = (0..count).map(|k| 1 + k / 5 % 8).collect();
    let table = [&[0, 0, 0, 0], &kind[..], &count.to_be_bytes(), &vec![0x11; count as usize][..], &half_bytes(&indices)].concat();
    body(&table, &sgpd_of(kind, &vec![vec![0; (BODY - table.len() - 64) / 8]; 8]))
}

const HOSTILE: [&str; 31] = [
    "raw-2",
    "raw-2-unlike",
    "raw-3",
    "raw-5",
    "raw-18",
    "raw-3-late",
    "raw-17-late",
    "raw-18-late",
    "raw-17-out",
    "raw-18-out",
    "raw-19-out",
    "raw-24-out",
    "rash-2",
    "rash-5",
    "rash-18-out",
    "alst-2",
    "alst-5",
    "alst-3-late",
    "alst-18-late",
    "alst-18-out",
    "empty-4000",
    "tele-3240",
    "empty-far",
    "tele-far",
    "sap-far",
    "rap-far",
    "empty-far-8",
    "shared-far",
    "patterns-10236",
    "odd-of-million",
    "odd-of-million-unlike",
];

fn hostile_body(name: &str) -> ([u8; 4], Vec<u8>) {
    let raw = |entries, odd| (*b"abcd", in_turn(b"abcd", entries, &[], 1, odd));
    let raw_late = |entries| (*b"abcd", late(b"abcd", entries, &[], 1));
    let raw_out = |entries| (*b"abcd", written_out(b"abcd", entries, &[], 1));
    // as many points as fit, and a trailer of 9 bytes
    let points = |room: usize, entries: usize| (((room - 60) / entries - 30) as u16 / 6).to_be_bytes();
    let rash = |entries: usize| (*b"rash", in_turn(b"rash", entries, &points(BODY, entries), 1, false));
    let offsets = [0, 3, 0, 1];
    let alst = |entries: usize| (*b"alst", in_turn(b"alst", entries, &offsets, 4, false));
    // entries of their own lengths, of which the first and the last take turns
    let jumps = |kind: &[u8; 4], entry: &[u8]| {
        let entries = vec![entry.to_vec(); 16_200 / (4 + entry.len()).max(4)];
        let last = entries.len().min(4000);
        (*kind, body(&csgp(kind, 2, &[(ROWS, vec![1, last as u32])]), &sgpd_of(kind, &entries[..last])))
    };
    match name {
        "raw-2" => raw(2, false),
        "raw-2-unlike" => raw(2, true),
        "raw-3" => raw(3, false),
        "raw-5" => raw(5, false),
        "raw-18" => raw(18, false),
        "raw-3-late" => raw_late(3),
        "raw-17-late" => raw_late(17),
        "raw-18-late" => raw_late(18),
        "raw-17-out" => raw_out(17),
        "raw-18-out" => raw_out(18),
        "raw-19-out" => raw_out(19),
        "raw-24-out" => raw_out(24),
        "rash-2" => rash(2),
        "rash-5" => rash(5),
        "rash-18-out" => (*b"rash", written_out(b"rash", 18, &points(BODY - 700, 18), 1)),
        "alst-2" => alst(2),
        "alst-5" => alst(5),
        "alst-3-late" => (*b"alst", late(b"alst", 3, &offsets, 4)),
        "alst-18-late" => (*b"alst", late(b"alst", 18, &offsets, 4)),
        "alst-18-out" => (*b"alst", written_out(b"alst", 18, &offsets, 4)),
        "empty-4000" => jumps(b"abcd", &[]),
        "tele-3240" => jumps(b"tele", &[0x80]),
        "empty-far" => (*b"abcd", far(b"abcd", &[])),
        "tele-far" => (*b"tele", far(b"tele", &[0x80])),
        "sap-far" => (*b"sap ", far(b"sap ", &[0x80])),
        "rap-far" => (*b"rap ", far(b"rap ", &[0x80])),
        "empty-far-8" => (*b"abcd", far_narrow(b"abcd")),
        "shared-far" => (*b"abcd", far_shared(b"abcd")),
        "patterns-10236" => (*b"abcd", short_patterns(b"abcd")),
        "odd-of-million" => (*b"roll", odd_one_out(true)),
        "odd-of-million-unlike" => (*b"roll", odd_one_out(false)),
        _ => panic!("hostile what?"),
    }
}

pub fn run(bench: &mut Bench) {
    for name in HOSTILE {
        let (kind, s) = black_box(hostile_body(name));
        let cue = !name.starts_with("odd");
        assert!(!cue || s.len() <= BODY, "{} bytes", s.len());
        let mut rows = vec![0; ROW_NUMBERS * if cue { ROWS as usize } else { 20_000 }];
        let mut listing = vec![0u8; if cue { BODY } else { 1 << 20 }];
        let answer = match list(&s, &kind, &mut rows, &mut listing) {
            Ok([length, count]) => format!("{count} rows, {length} bytes"),
            Err(n) => format!("refused {n}"),
        };
        bench.once(format!("listing\t{name}\t{}\t{answer}\tours", s.len()), || drop(black_box(list(&s, &kind, &mut rows, &mut listing))));
        // the Rust makes a row of every sample of a film of billions, so it is not asked for those
        if cue {
            let by_rust = black_box(by_rust);
            if let Ok([length, _]) = list(&s, &kind, &mut rows, &mut listing) {
                assert!(listing[..length as usize] == by_rust(&kind, &s), "{name}");
            }
            bench.once(format!("listing\t{name}\t{}\t{answer}\trust", s.len()), || drop(black_box(by_rust(&kind, &s))));
        }
    }
}
