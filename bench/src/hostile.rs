//! Inputs made to be costly: `hostile INPUT ANSWER BYTES-LENT RECORDS-LENT BYTES-WRITTEN`. What a call may cost is held to the last three.

use crate::bench::Bench;
use crate::bench::calls::*;
use crate::bench::inputs::*;
use crate::film_index::{ROW_NUMBERS, SampleToGroupEntry};
use std::hint::black_box;

const ROW_BYTES: u64 = size_of::<SampleToGroupEntry>() as u64;

impl Bench {
    /// One call; `told` gives its answer in words, and the number of bytes that it wrote.
    fn suffer<T>(&mut self, name: &str, bytes: usize, records: usize, mut work: impl FnMut() -> T, told: impl Fn(T) -> (String, u64)) {
        let (answer, written) = told(work());
        self.once(format!("hostile\t{name}\t{answer}\t{bytes}\t{records}\t{written}"), || drop(black_box(work())));
    }

    fn parsed(&mut self, name: &str, call: Filler<[u64; 3]>, s: &[u8], records: usize) {
        let mut run = vec![0; ROW_NUMBERS * records];
        self.suffer(name, s.len(), records, || parse(call, s, &mut run), |told| match told {
            (0, count) => (format!("{count} rows"), ROW_BYTES * count + 24),
            (n, _) => (format!("refused {n}"), 0),
        });
    }

    fn counted(&mut self, name: &str, call: Reader<[u64; 1]>, s: &[u8]) {
        self.suffer(name, s.len(), 0, || read(call, s), |told| match told {
            (0, out) => (format!("{} rows", out[0]), 8),
            (n, _) => (format!("refused {n}"), 0),
        });
    }
}

fn listed(told: Result<[u64; 2], u32>) -> (String, u64) {
    let [length, count] = told.unwrap();
    (format!("{count} rows, {length} bytes"), ROW_BYTES * count + length)
}

pub fn run(bench: &mut Bench) {
    // 20 bytes: lengths of 8 bits, counts of 32, indices of 4; two bytes are left over
    let claims = |count: u32| black_box([&[0, 0, 0, 0x1c], &b"rap "[..], &count.to_be_bytes(), &[1], &u32::MAX.to_be_bytes(), &[0x10, 0, 0]].concat());
    let (one, billions) = (claims(1), claims(u32::MAX));
    bench.parsed("parse_csgp: 20 bytes, one pattern of 4,294,967,295 samples", film_parse_csgp, &one, 16);
    bench.parsed("parse_csgp: 20 bytes that claim 4,294,967,295 patterns", film_parse_csgp, &billions, 16);
    bench.counted("csgp_rows_needed: 20 bytes, one pattern of 4,294,967,295 samples", film_csgp_rows_needed, &one);

    let mut indices = vec![1; 1_000_000];
    indices[700_000] = 2;
    let odd = black_box(csgp(b"rap ", 0, &[(4_000_000_000, indices)]));
    bench.parsed("parse_csgp: a million indices, one of them odd, through 4,000,000,000 samples", film_parse_csgp, &odd, 20_000);
    bench.counted("csgp_rows_needed: the same", film_csgp_rows_needed, &odd);
    let alternating = black_box(csgp(b"rap ", 0, &[(u32::MAX, vec![1, 2])]));
    bench.parsed("parse_csgp: two indices in turn through 4,294,967,295 samples", film_parse_csgp, &alternating, 20_000);
    bench.counted("csgp_rows_needed: the same", film_csgp_rows_needed, &alternating);
    let many = black_box(csgp(b"rap ", 0, &(0..1_000_000).map(|k| (0, vec![k % 16])).collect::<Vec<_>>()));
    bench.parsed("parse_csgp: a million patterns of no sample", film_parse_csgp, &many, 16);

    let mut empty = [[0; 4], *b"rap ", 1_000_000u32.to_be_bytes()].concat();
    empty.extend([0, 0, 0, 0, 0, 0, 0, 1].repeat(1_000_000));
    let empty = black_box(empty);
    bench.parsed("parse_sbgp: a million rows of count 0", film_parse_sbgp, &empty, 1_000_000);
    let rows = black_box([0u32, 1].repeat(1_000_000));
    bench.suffer("group_index_for_sample: a million rows of count 0", 0, 1_000_000, || look_up(&rows, 0), |index| (format!("index {index}"), 8));
    bench.suffer("covered_samples: a million rows of count 0", 0, 1_000_000, || covered(&rows), |sum| (format!("{sum} samples"), 8));

    let tiny = black_box([0, 0, 0, 8, b'f', b'r', b'e', b'e'].repeat(1_000_000));
    bench.suffer("next_child: a walk over a million atoms of 8 bytes", tiny.len(), 0, || walk(&tiny), |count| (format!("{count} children"), 48_000_000));
    bench.suffer("cue_listing: a million atoms of 8 bytes", tiny.len(), 0, || list(&tiny, b"roll", &mut [], &mut []), |told| (format!("refused {}", told.unwrap_err()), 0));

    let lengths = black_box(sgpd(1_000_000, true));
    bench.suffer("parse_sgpd: a million entries with lengths of their own", lengths.len(), 0, || read(film_parse_sgpd, &lengths), |told| (format!("{} entries", told.1[4]), 40));
    for index in [1_000_000, 999_999, 500_000, 1] {
        bench.suffer(&format!("entry_place: number {index} of the same"), lengths.len(), 0, || numbered(film_entry_place, &lengths, index), |told| {
            (format!("place {}", told.1[0]), 16)
        });
    }
    let mut places = vec![0u32; 2_000_000];
    bench.suffer("entry_places: all of the same", lengths.len(), 1_000_000, || fill(film_entry_places, &lengths, &mut places), |told| {
        (format!("{} entries", told.1), 8 * told.1 + 8)
    });
    bench.suffer("described_place: the same as film-wide and as fragment's", 2 * lengths.len(), 0, || described(&lengths, &lengths, 0x8000_0000 | 1_000_000), |told| {
        (format!("place {}", told.1[1]), 24)
    });

    let long = black_box(rash(65_535));
    bench.suffer("rash_operation_point: the last of 65,535 points", long.len(), 0, || numbered(film_rash_operation_point, &long, 65_534), |told| (format!("bitrate {}", told.1[0]), 16));
    let raw = black_box(vec![7; 1_000_000]);
    bench.suffer("decode_alike: a million bytes, all the same", 2 * raw.len(), 0, || alike(b"abcd", &raw, &raw), |told| (format!("alike {}", told.1), 8));

    // every row is a stretch: values that differ, in turn
    let apart = black_box(body(&csgp(b"roll", 0, &[(1_000_000, vec![1, 2])]), &sgpd_of(b"roll", &[vec![0, 1], vec![0, 2]])));
    let (mut run, mut listing) = (vec![0; ROW_NUMBERS * 1_000_000], vec![0u8; 8_000_000]);
    bench.suffer("cue_listing: a million rows, no two of them joined", apart.len(), 1_000_000, || list(&apart, b"roll", &mut run, &mut listing), listed);
    let written_out = black_box(body(
        &csgp(b"roll", 0, &[(1_000_000, (0..1_000_000).map(|k| 1 + k % 15).collect())]),
        &sgpd_of(b"roll", &(0..15).map(|k| vec![0, k]).collect::<Vec<_>>()),
    ));
    bench.suffer("cue_listing: the same, each index written out", written_out.len(), 1_000_000, || list(&written_out, b"roll", &mut run, &mut listing), listed);
}
