//! Part 3 of document 01.

use super::MIB;
use super::ffi::{self, Answer};
use super::random::Random;
use super::tables::{self, Readers};
use super::tally::Tally;
use super::vectors::Vectors;
use crate::sample_groups;

pub fn payload(random: &mut Random, version: u8, count: u32, rows: &[(u32, u32)]) -> Vec<u8> {
    let mut s = vec![version, random.next() as u8, 0, 1];
    s.extend(b"roll");
    if version == 1 {
        s.extend((random.next() as u32).to_be_bytes());
    }
    s.extend(count.to_be_bytes());
    for (n, index) in rows {
        s.extend(n.to_be_bytes());
        s.extend(index.to_be_bytes());
    }
    s
}

fn compare(tally: &mut Tally, random: &mut Random, s: &[u8]) {
    let readers = Readers {
        payloads: "payloads of sbgp",
        entry: "parse_sbgp",
        ours: ffi::parse_sbgp,
        needed: "sbgp_rows_needed",
        ours_needed: ffi::sbgp_rows_needed,
        reference: sample_groups::parse_sbgp,
    };
    tables::compare(tally, random, &readers, s);
}

pub fn run(tally: &mut Tally) {
    let mut random = Random::new(5);
    // Every version with small tables, every truncation, some bytes more, and counts around the bytes that are there.
    for version in [0, 1, 2, 3, 255] {
        for rows in 0..5u32 {
            let pairs: Vec<(u32, u32)> = (0..rows).map(|_| (random.below(4) as u32, random.below(3) as u32)).collect();
            for count in [rows, rows + 1, rows.saturating_sub(1), 0x2000_0000, 0xffff_ffff] {
                let mut s = payload(&mut random, version, count, &pairs);
                s.extend([1, 2, 3]);
                for len in 0..=s.len() {
                    compare(tally, &mut random, &s[..len]);
                }
            }
        }
    }
    // Random tables with large counts, and damaged ones.
    const COUNTS: [u32; 8] = [0, 1, 2, 7, 1000, 0x7fff_ffff, 0xffff_fffe, 0xffff_ffff];
    for _ in 0..60_000 {
        let rows: Vec<(u32, u32)> = (0..random.below(9)).map(|_| (random.pick(&COUNTS), random.pick(&COUNTS))).collect();
        let version = random.below(3) as u8;
        let mut s = payload(&mut random, version, rows.len() as u32, &rows);
        if random.one_in(3) {
            let k = random.below(s.len() as u64) as usize;
            s[k] = random.next() as u8;
        }
        if random.one_in(4) {
            s.truncate(random.below(s.len() as u64) as usize);
        }
        compare(tally, &mut random, &s);
    }
    // 1 MiB, whole, one byte short, and with a row too many.
    for version in [0, 1, 2] {
        let rows: Vec<(u32, u32)> = (0..131_070).map(|_| (random.below(9) as u32, random.next() as u32)).collect();
        for count in [rows.len() as u32, rows.len() as u32 + 1] {
            let mut s = payload(&mut random, version, count, &rows);
            let used = s.len();
            s.resize(MIB, 7);
            for len in [MIB, used, used - 1] {
                compare(tally, &mut random, &s[..len]);
            }
        }
    }
}

pub fn vectors(out: &mut Vectors) {
    let mut random = Random::new(7);
    let worked = payload(&mut random, 0, 3, &[(3, 1), (0, 9), (2, 1)]);
    tables::sample(out, 5, &worked, 2, sample_groups::parse_sbgp(&worked));
    let other = payload(&mut random, 1, 2, &[(3, 1), (2, 9)]);
    for len in [7, 8, 11, 12, 15, 16, 24, 31, 32] {
        tables::sample(out, 5, &other[..len], 0, sample_groups::parse_sbgp(&other[..len]));
    }
    for _ in 0..120 {
        let rows: Vec<(u32, u32)> = (0..random.below(5)).map(|_| (random.pick(&[0, 1, 5, u32::MAX]), random.below(4) as u32)).collect();
        let version = random.below(3) as u8;
        let mut s = payload(&mut random, version, rows.len() as u32, &rows);
        if random.one_in(3) {
            s.truncate(random.below(s.len() as u64) as usize);
        }
        let spare = random.below(4) as usize;
        tables::sample(out, 5, &s, spare, sample_groups::parse_sbgp(&s));
    }
}

/// Answers that document 01 gives and the Rust cannot: want of records.
pub fn document(out: &mut Vectors) {
    let s = payload(&mut Random::new(18), 0, 3, &[(3, 1), (0, 9), (2, 1)]);
    for numbers in [0, 1, 4, 5] {
        out.add(5, &[numbers], &s, Answer::Refused(29));
    }
}
