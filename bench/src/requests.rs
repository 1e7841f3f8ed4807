//! The calls of document 02. Where the Rust has no counterpart, ours stands alone; a written table stands beside the Rust's reading of the same body.

use crate::bench::Bench;
use crate::bench::calls::*;
use crate::bench::inputs::*;
use crate::film_index::RowNumber;
use crate::sample_groups;
use std::hint::black_box;

type Quote = unsafe extern "C" fn(*const RowNumber, u64, *mut [u64; 1]) -> u32;
type Write = unsafe extern "C" fn(u32, *const RowNumber, u64, u64, *mut u8, u64, *mut [u64; 1]) -> u32;

/// A film of one track among `tiny` empty atoms.
fn film(tiny: u32, stbl: &[u8]) -> Vec<u8> {
    let mut inner = atom_of(b"stbl", stbl);
    for kind in [b"minf", b"mdia", b"trak"] {
        inner = atom_of(kind, &inner);
    }
    let mut moov: Vec<u8> = (0..tiny).flat_map(|_| atom_of(b"free", &[])).collect();
    moov.extend(inner);
    atom_of(b"moov", &moov)
}

/// A written table, its quote, and the Rust's reading of it.
fn written(bench: &mut Bench, name: &str, quote: Quote, write: Write, rust: fn(&[u8]) -> crate::standalone::Result<sample_groups::SampleToGroup>) {
    let rows: Vec<RowNumber> = black_box((0..1000u32).flat_map(|k| [k % 7 + 1, k % 3]).collect());
    let (mut out, rust) = ([0u64; 1], black_box(rust));
    assert_eq!(unsafe { quote(rows.as_ptr(), rows.len() as u64, &mut out) }, 0);
    let length = out[0];
    let mut body = vec![0u8; length as usize];
    bench.measure(format!("entry\tquote_{name}, 1,000 rows\tours"), || drop(black_box(unsafe { quote(rows.as_ptr(), rows.len() as u64, &mut out) })));
    let line = format!("write_{name}, 1,000 rows; the Rust reads the body");
    bench.measure(format!("entry\t{line}\tours"), || {
        let told = unsafe { write(0x726f_6c6c, rows.as_ptr(), rows.len() as u64, length, body.as_mut_ptr(), length, &mut out) };
        assert_eq!(told, 0);
    });
    bench.measure(format!("entry\t{line}\trust"), || drop(black_box(rust(&body).unwrap())));
}

pub fn run(bench: &mut Bench) {
    let s = black_box(film(1000, &[0; 64]));
    let mut out = [0u64; 2];
    bench.measure("entry\tfind_stbl, behind 1,000 atoms\tours".into(), || {
        assert_eq!(unsafe { film_find_stbl(s.as_ptr(), s.len() as u64, 0, &mut out) }, 0)
    });
    written(bench, "sbgp", film_quote_sbgp, film_write_sbgp, sample_groups::parse_sbgp);
    written(bench, "csgp", film_quote_csgp, film_write_csgp, sample_groups::parse_csgp);
    playing(bench);
    repainting(bench);
    queueing(bench);
    grouped(bench);
    let mut stss = [[0; 4], 1000u32.to_be_bytes()].concat();
    stss.extend((1..=1000u32).flat_map(|k| (10 * k).to_be_bytes()));
    let stss = black_box(stss);
    bench.measure("entry\tlast_sync_sample, 1,000 numbers\tours".into(), || {
        assert_eq!(unsafe { film_last_sync_sample(stss.as_ptr(), stss.len() as u64, 5000, front(&mut out)) }, 0)
    });
}

/// A move of a play head near the front of many rows and far behind it, beside a lookup of the same sample by both sides; a set walks the rows as a lookup does.
fn playing(bench: &mut Bench) {
    let rows: Vec<RowNumber> = black_box((0..200_000u32).flat_map(|k| [2, k % 5]).collect());
    let entries = (0..200_000u32).map(|k| sample_groups::SampleToGroupEntry { sample_count: 2, group_description_index: k % 5 }).collect();
    let table = black_box(sample_groups::SampleToGroup { grouping_type: *b"roll", grouping_type_parameter: 0, entries });
    let index = black_box(sample_groups::SampleToGroup::group_index_for_sample as fn(&sample_groups::SampleToGroup, u32) -> u32);
    let numbers = rows.len() as u64;
    for row in [1, 100_000u32] {
        let (mut out, mut begun) = ([0u64; 1], [0u64; 4]);
        let sample = 2 * row;
        assert_eq!(unsafe { film_play_set(&mut begun, rows.as_ptr(), numbers, sample, &mut out) }, 0);
        bench.measure(format!("entry\tplay_set to row {row}\tours"), || {
            let mut head = begun;
            assert_eq!(unsafe { film_play_set(&mut head, rows.as_ptr(), numbers, sample, &mut out) }, 0)
        });
        bench.measure(format!("entry\tplay_move in row {row}\tours"), || {
            let mut head = begun;
            assert_eq!(unsafe { film_play_move(&mut head, rows.as_ptr(), numbers, &mut out) }, 0)
        });
        assert_eq!(out[0], (row % 5) as u64);
        let name = format!("group_index_for_sample, the sample of that move in row {row}");
        bench.measure(format!("entry\t{name}\tours"), || drop(look_up(&rows, sample + 1)));
        bench.measure(format!("entry\t{name}\trust"), || drop(black_box(index(&table, black_box(sample + 1)))));
    }
}

/// A stretch in the middle of 1,000 rows: its preview, and the edit with a copy of the rows.
fn repainting(bench: &mut Bench) {
    let rows: Vec<RowNumber> = black_box((0..1000u32).flat_map(|k| [k % 7 + 1, k % 3]).chain([0; 4]).collect());
    let (mut run, mut out, numbers) = (rows.clone(), [0u64; 1], rows.len() as u64);
    bench.measure("entry\tpreview_repaint, 1,000 rows\tours".into(), || {
        assert_eq!(unsafe { film_preview_repaint(rows.as_ptr(), numbers, 1000, 1500, 2500, 9, &mut out) }, 0)
    });
    bench.measure("entry\trepaint, 1,000 rows, with a copy of them\tours".into(), || {
        run.copy_from_slice(&rows);
        assert_eq!(unsafe { film_repaint(run.as_mut_ptr(), numbers, 1000, 1500, 2500, 9, &mut out) }, 0)
    });
}

/// A queue that holds 63 fragments: one more of 1,000 rows, the last sample looked up, the oldest dropped.
fn queueing(bench: &mut Bench) {
    let rows: Vec<RowNumber> = black_box((0..1000u32).flat_map(|k| [k % 7 + 1, k % 3]).collect());
    let (mut queue, numbers) = ([0u64; 132], rows.len() as u64);
    for _ in 0..63 {
        assert_eq!(unsafe { film_fragment_arrive(&mut queue, rows.as_ptr(), numbers) }, 0);
    }
    let (mut place, mut sums) = ([0u64; 2], [0u64; 3]);
    bench.measure("entry\tfragment_arrive, 1,000 rows, with a copy of the queue\tours".into(), || {
        let mut queue = black_box(queue);
        assert_eq!(unsafe { film_fragment_arrive(&mut queue, rows.as_ptr(), numbers) }, 0)
    });
    bench.measure("entry\tfragment_depart, with a copy of the queue\tours".into(), || {
        let mut queue = black_box(queue);
        assert_eq!(unsafe { film_fragment_depart(&mut queue) }, 0)
    });
    assert_eq!(unsafe { film_fragment_sums(&queue, &mut sums) }, 0);
    let last = sums[1] - 1;
    bench.measure("entry\tfragment_lookup, the last of 63\tours".into(), || assert_eq!(unsafe { film_fragment_lookup(&queue, last, &mut place) }, 0));
    bench.measure("entry\tfragment_sums\tours".into(), || assert_eq!(unsafe { film_fragment_sums(&queue, &mut sums) }, 0));
}

/// The group of the last sample without rows, beside our parse and lookup, and the Rust's.
fn grouped(bench: &mut Bench) {
    let indices: Vec<u32> = (0..300).map(|k| k / 3 % 3).collect();
    let payload = black_box(csgp(b"roll", 2, &[(9000, indices)]));
    let s = black_box([atom_of(b"csgp", &payload), atom_of(b"sgpd", &sgpd_of(b"roll", &[vec![0, 1], vec![0, 2]]))].concat());
    let (parse, index) = (black_box(sample_groups::parse_csgp as fn(&[u8]) -> _), black_box(sample_groups::SampleToGroup::group_index_for_sample as fn(&sample_groups::SampleToGroup, u32) -> u32));
    let (mut rows, mut out, mut head) = (vec![0 as RowNumber; 8000], [0u64; 4], [0u64; 3]);
    let name = "sample_group, the last of 9,000 samples of 300 indices by threes; beside it parse and lookup";
    bench.measure(format!("entry\t{name}\tours"), || assert_eq!(unsafe { film_sample_group(s.as_ptr(), s.len() as u64, 0x726f_6c6c, 8999, &mut out) }, 0));
    bench.measure(format!("entry\t{name}\trust"), || {
        let table: sample_groups::SampleToGroup = crate::standalone::Result::unwrap(parse(&payload));
        drop(black_box(index(&table, black_box(8999))));
    });
    bench.measure("entry\tparse_csgp and lookup of that sample\tours".into(), || {
        assert_eq!(unsafe { film_parse_csgp(payload.as_ptr(), payload.len() as u64, rows.as_mut_ptr(), rows.len() as u64, &mut head) }, 0);
        let numbers = &rows[..2 * head[2] as usize];
        drop(look_up(numbers, 8999));
    });
    let mut needs = [0u64; 2];
    bench.measure("entry\tlisting_needs of that table\tours".into(), || assert_eq!(unsafe { film_listing_needs(s.as_ptr(), s.len() as u64, 0x726f_6c6c, &mut needs) }, 0));
}

/// Where decoding begins in a roll group, for its first and for its last frame, as its sample counts grow. A table that is longer than its count has indices that no
/// sample uses.
pub fn samples(bench: &mut Bench) {
    let near = sgpd_of(b"roll", &[vec![0, 0], vec![0, 0]]);
    let far = sgpd_of(b"roll", &[vec![0, 3], vec![0xff, 0xfe]]);
    for shape in ["an sbgp row", "csgp [1]", "csgp [1,2]", "csgp [1,2,0,9], distances 3 and -2"] {
        for last in [false, true] {
            for samples in [1, 2, 1000, 1_000_000, u32::MAX] {
                let patterned = |indices: &[u32]| atom_of(b"csgp", &csgp(b"roll", 3, &[(samples, indices.to_vec())]));
                let (table, sgpd) = match shape {
                    "an sbgp row" => {
                        let row = [[0; 4], *b"roll", 1u32.to_be_bytes(), samples.to_be_bytes(), 1u32.to_be_bytes()].concat();
                        (atom_of(b"sbgp", &row), &near)
                    }
                    "csgp [1]" => (patterned(&[1]), &near),
                    "csgp [1,2]" => (patterned(&[1, 2]), &near),
                    _ => (patterned(&[1, 2, 0, 9]), &far),
                };
                let s = black_box([table, atom_of(b"sgpd", sgpd)].concat());
                let frame = if last { samples - 1 } else { 0 };
                let (mut told, mut out) = (0, [u64::MAX; 2]);
                bench.measure(format!("samples\troll_start of the {} frame, {shape}\t{samples}", if last { "last" } else { "first" }), || {
                    told = numbered_into(film_roll_start, &s, frame, &mut out)
                });
                let begin = if sgpd == &near { Some(frame) } else { far_begin(frame) };
                assert_eq!((told, out[0]), begin.map_or((255, u64::MAX), |b| (0, b as u64)));
            }
        }
    }
}

/// The dome profile and the group of the last sample, as the sample counts of a pattern grow.
pub fn judged(bench: &mut Bench) {
    let sgpd = sgpd_of(b"rap ", &[vec![0x80]]);
    for (shape, indices) in [("[1]", vec![1]), ("[1,0]", vec![1, 0]), ("600 of 0 behind a 1", [vec![1], vec![0; 600]].concat())] {
        for samples in [1, 2, 1000, 1_000_000, u32::MAX] {
            let table = atom_of(b"csgp", &csgp(b"rap ", 3, &[(samples, indices.clone())]));
            let s = black_box([table, atom_of(b"sgpd", &sgpd)].concat());
            let (mut verdict, mut group) = ([9u64; 1], [0u64; 4]);
            bench.measure(format!("samples\tprofile, csgp {shape}\t{samples}"), || assert_eq!(unsafe { film_profile(s.as_ptr(), s.len() as u64, &mut verdict) }, 0));
            assert_eq!(verdict[0], 0);
            bench.measure(format!("samples\tsample_group of the last sample, csgp {shape}\t{samples}"), || {
                assert_eq!(unsafe { film_sample_group(s.as_ptr(), s.len() as u64, 0x7261_7020, samples - 1, &mut group) }, 0)
            });
        }
    }
}

/// Of the pattern [1,2,0,9] with the distances 3 and -2: every fourth sample begins at itself and is clean three later, the one behind it begins two before itself.
fn far_begin(frame: u32) -> Option<u32> {
    let last = |position: u32, up_to: u32| up_to.checked_sub(position).map(|k| k / 4 * 4 + position);
    let ahead = frame.checked_sub(3).and_then(|up_to| last(0, up_to));
    let behind = last(1, frame).and_then(|s| s.checked_sub(2));
    ahead.max(behind)
}
