//! Document 02, A5: tables written from rows. The Rust has no writer, so its readers read what was written; quotes and bytes are held to a body made here bit by bit.

use super::ffi::{self, Answer};
use super::random::Random;
use super::tally::Tally;
use super::vectors::{Vectors, eights};
use super::listing;
use crate::sample_groups::{self, SampleToGroup, SampleToGroupEntry};
use crate::standalone::{Error, Result};

type Row = (u32, u32);

/// The rows that remain: none of count 0, like neighbours joined. None: a count is too large.
fn remaining(rows: &[Row]) -> Option<Vec<Row>> {
    let mut joined: Vec<(u64, u32)> = Vec::new();
    for &(count, index) in rows.iter().filter(|row| row.0 != 0) {
        match joined.last_mut() {
            Some(last) if last.1 == index => last.0 += count as u64,
            _ => joined.push((count as u64, index)),
        }
    }
    joined.into_iter().map(|(count, index)| Some((u32::try_from(count).ok()?, index))).collect()
}

fn head(flags: u8, kind: [u8; 4], count: usize) -> Vec<u8> {
    let mut s = vec![0, 0, 0, flags];
    s.extend(kind);
    s.extend((count as u32).to_be_bytes());
    s
}

pub fn sbgp_body(kind: [u8; 4], rows: &[Row]) -> Vec<u8> {
    let mut s = head(0, kind, rows.len());
    s.extend(rows.iter().flat_map(|&(count, index)| [count, index]).flat_map(u32::to_be_bytes));
    s
}

/// Numbers of some bits each, one behind the other, the last byte filled with zero bits.
#[derive(Default)]
struct Bits(Vec<bool>);

impl Bits {
    fn push(&mut self, width: u32, value: u32) {
        self.0.extend((0..width).rev().map(|bit| value >> bit & 1 == 1));
    }

    fn bytes(&self) -> impl Iterator<Item = u8> {
        self.0.chunks(8).map(|byte| byte.iter().enumerate().map(|(k, &bit)| (bit as u8) << (7 - k)).sum())
    }
}

/// Bit 31 of an index, and the others.
const MARK: u32 = 1 << 31;

/// Where a row has a mark, flag bit 7 is set, and the highest bit of each index field is its mark.
fn csgp_body(kind: [u8; 4], rows: &[Row]) -> Vec<u8> {
    let narrowest = |largest: u32, bits: u32| [4u32, 8, 16].iter().position(|&width| largest >> (width - bits) == 0).unwrap_or(3) as u8;
    let marks = rows.iter().any(|row| row.1 >= MARK);
    let count_code = narrowest(rows.iter().map(|row| row.0).max().unwrap_or(0), 0);
    let index_code = narrowest(rows.iter().map(|row| row.1 % MARK).max().unwrap_or(0), marks as u32);
    let mut s = head((marks as u8) << 7 | count_code << 2 | index_code, kind, rows.len());
    let mut bits = Bits::default();
    for &(count, _) in rows {
        bits.push(4, 1);
        bits.push(4 << count_code, count);
    }
    for &(_, index) in rows {
        let width = 4 << index_code;
        bits.push(width, index % MARK | index / MARK << (width - 1));
    }
    s.extend(bits.bytes());
    s
}

/// A written csgp by the Rust, or, where it has marks, by a calculation of our own; each pattern has one index.
fn read_csgp(s: &[u8]) -> Result<SampleToGroup> {
    if s[3] < 128 {
        return sample_groups::parse_csgp(s);
    }
    let patterns = listing::patterns(s).map_err(|n| Error::invalid(format!("document {n}")))?;
    let entries = patterns.into_iter().map(|(sample_count, indices)| {
        assert!(indices.len() == 1 && sample_count > 0);
        SampleToGroupEntry { sample_count, group_description_index: indices[0] }
    });
    Ok(SampleToGroup { grouping_type: s[4..8].try_into().unwrap(), grouping_type_parameter: 0, entries: entries.collect() })
}

struct Writers {
    bodies: &'static str,
    quote: &'static str,
    write: &'static str,
    ours_quote: fn(&[u32]) -> Answer<u64>,
    ours_write: fn([u8; 4], &[u32], usize, usize) -> Answer<Vec<u8>>,
    reference: fn(&[u8]) -> Result<SampleToGroup>,
}

const SBGP: Writers = Writers {
    bodies: "written bodies of sbgp",
    quote: "quote_sbgp",
    write: "write_sbgp",
    ours_quote: ffi::quote_sbgp,
    ours_write: ffi::write_sbgp,
    reference: sample_groups::parse_sbgp,
};

const CSGP: Writers = Writers {
    bodies: "written bodies of csgp",
    quote: "quote_csgp",
    write: "write_csgp",
    ours_quote: ffi::quote_csgp,
    ours_write: ffi::write_csgp,
    reference: read_csgp,
};

/// One list of rows: the quote, writes with other lengths and outputs, the written body, and what the Rust reads in it.
fn compare(tally: &mut Tally, random: &mut Random, writers: &Writers, kind: [u8; 4], rows: &[Row], expected: Option<Vec<u8>>) {
    let mut run: Vec<u32> = rows.iter().flat_map(|&(count, index)| [count, index]).collect();
    if random.one_in(4) {
        run.push(random.next() as u32);
    }
    let kept = run.clone();
    let shown = || format!("{:?}", &rows[..rows.len().min(20)]);
    let Some(expected) = expected else {
        tally.same(writers.quote, (writers.ours_quote)(&run), Answer::Refused(28), &shown);
        for (quoted, room) in [(12, 64), (13, 0)] {
            tally.same(writers.write, (writers.ours_write)(kind, &run, quoted, room), Answer::Refused(28), &shown);
        }
        return;
    };
    let length = expected.len();
    tally.same(writers.quote, (writers.ours_quote)(&run), Answer::Given(length as u64), &shown);
    for (quoted, room) in [(length + 1, length + 1), (length - 1, length), (0, 0), (length + 8, 0), (usize::MAX, 3)] {
        tally.same(writers.write, (writers.ours_write)(kind, &run, quoted, room), Answer::Refused(63), &shown);
    }
    for room in [length - 1, random.below(length as u64) as usize] {
        tally.same(writers.write, (writers.ours_write)(kind, &run, length, room), Answer::Refused(64), &shown);
    }
    let told = (writers.ours_write)(kind, &run, length, length + random.below(5) as usize);
    tally.same(writers.write, told, Answer::Given(expected.clone()), &shown);
    tally.input(writers.bodies);
    assert!(run == kept, "rows were written");
    read_back(tally, writers, kind, rows, &expected);
}

/// The Rust finds the type, no parameter, the same index on both sides of each seam and past the end, and the same total; of an sbgp the same rows.
fn read_back(tally: &mut Tally, writers: &Writers, kind: [u8; 4], rows: &[Row], body: &[u8]) {
    let table = (writers.reference)(body).expect("the Rust reads what was written");
    let shown = || format!("{:?} in {:02x?}", &rows[..rows.len().min(20)], &body[..body.len().min(80)]);
    tally.same(writers.write, (table.grouping_type, table.grouping_type_parameter), (kind, 0), &shown);
    tally.same(writers.write, table.covered_samples(), rows.iter().map(|row| row.0 as u64).sum(), &shown);
    let mut first = 0u64;
    for &(count, index) in rows.iter().filter(|row| row.0 != 0) {
        let last = first + count as u64 - 1;
        for sample in [first, last].into_iter().filter(|&sample| sample <= u32::MAX as u64) {
            tally.same(writers.write, table.group_index_for_sample(sample as u32), index, &shown);
        }
        first = last + 1;
    }
    if first <= u32::MAX as u64 {
        tally.same(writers.write, table.group_index_for_sample(first as u32), 0, &shown);
    }
    if writers.write == SBGP.write {
        let read: Vec<Row> = table.entries.iter().map(|e| (e.sample_count, e.group_description_index)).collect();
        tally.same(writers.write, read.as_slice(), rows, &shown);
    }
}

fn both(tally: &mut Tally, random: &mut Random, kind: [u8; 4], rows: &[Row]) {
    compare(tally, random, &SBGP, kind, rows, Some(sbgp_body(kind, rows)));
    compare(tally, random, &CSGP, kind, rows, remaining(rows).map(|rows| csgp_body(kind, &rows)));
}

pub fn run(tally: &mut Tally) {
    let mut random = Random::new(41);
    let kind = *b"roll";
    // No rows; rows of count 0 only.
    both(tally, &mut random, kind, &[]);
    for n in 1..6 {
        both(tally, &mut random, kind, &vec![(0, u32::MAX); n]);
    }
    // One to three rows at the seams of the codes: every pair of widths, bit lengths that fill the last byte and that do not.
    const COUNTS: [u32; 9] = [0, 1, 15, 16, 255, 256, 65_535, 65_536, 70_000];
    // and low bits of a marked index at the seams of its widths
    const LOW: [u32; 8] = [0, 1, 7, 8, 127, 128, 32_767, 32_768];
    const PLAIN: [u32; 9] = [0, 1, 15, 16, 255, 256, 65_535, 65_536, MARK - 1];
    let indices: Vec<u32> = PLAIN.into_iter().chain(LOW).chain(LOW.map(|low| MARK | low)).chain([u32::MAX]).collect();
    for count in COUNTS {
        for &index in &indices {
            both(tally, &mut random, kind, &[(count, index)]);
            both(tally, &mut random, kind, &[(1, 1), (count, index)]);
            both(tally, &mut random, kind, &[(count, index), (0, 3), (2, index)]);
            both(tally, &mut random, kind, &[(count, index), (3, 2), (count, 1)]);
        }
    }
    // Random rows. The Rust's reader steps through the samples one by one, so that long counts are rare.
    const SMALL: [u32; 11] = [0, 0, 1, 1, 2, 7, 14, 15, 16, 255, 256];
    for k in 0..110_000 {
        let many = if k % 100 == 0 { 60 } else { 8 };
        let wide = random.one_in(2);
        let mut rows: Vec<Row> = (0..random.below(many)).map(|_| (random.pick(&SMALL), random.below(4) as u32)).collect();
        rows.iter_mut().for_each(|row| if wide && random.one_in(3) { row.1 = random.pick(&indices) });
        if random.one_in(200) && !rows.is_empty() {
            let at = random.below(rows.len() as u64) as usize;
            rows[at].0 = random.pick(&COUNTS);
        }
        let other = (random.next() as u32).to_be_bytes();
        both(tally, &mut random, other, &rows);
    }
    // Joined counts that pass the limit, at any place, with rows of count 0 between: 28. The sbgp takes them.
    for _ in 0..20_000 {
        let index = random.below(3) as u32;
        let mut rows = vec![(u32::MAX - random.below(3) as u32, index)];
        rows.extend((0..random.below(3)).map(|_| (0, 7)));
        rows.push((3 + random.below(9) as u32, index));
        if random.one_in(2) {
            rows.insert(0, (1, 9));
        }
        if random.one_in(2) {
            rows.push((1, 9));
        }
        both(tally, &mut random, kind, &rows);
    }
    // Long bodies.
    for n in [20_000, 20_001] {
        let rows: Vec<Row> = (0..n).map(|_| (random.below(20) as u32, random.below(300) as u32)).collect();
        both(tally, &mut random, kind, &rows);
    }
}

/// The stored lines of one list of rows: both quotes, and writes with the quoted length; with `others` also other lengths and outputs. `behind` are further bytes of
/// the run.
fn sample(out: &mut Vectors, kind: [u8; 4], rows: &[Row], behind: &[u8], others: bool) {
    let mut run: Vec<u8> = rows.iter().flat_map(|&(count, index)| [count, index]).flat_map(u32::to_be_bytes).collect();
    run.extend(behind);
    let csgp = remaining(rows).map(|rows| csgp_body(kind, &rows));
    for (quote, write, body) in [(28, 30, Some(sbgp_body(kind, rows))), (29, 31, csgp)] {
        let length = body.as_ref().map(Vec::len);
        out.add(quote, &[], &run, length.map_or(Answer::Refused(28), |n| Answer::Given(vec![n as u64])));
        let n = length.unwrap_or(13);
        let mut lent = vec![(n, n + 5)];
        if others {
            lent.extend([(n, n), (n, n - 1), (n, 0), (n + 1, n + 1), (n - 1, n), (n + 8, 0), (0, 0), (usize::MAX, 3)]);
        }
        for (quoted, room) in lent {
            let answer = match &body {
                None => Answer::Refused(28),
                Some(body) if quoted != body.len() => Answer::Refused(63),
                Some(body) if room < quoted => Answer::Refused(64),
                Some(body) => Answer::Given([body.len() as u64].into_iter().chain(eights(body)).collect()),
            };
            out.add(write, &[u32::from_be_bytes(kind) as u64, quoted as u64, room as u64], &run, answer);
        }
    }
}

pub fn vectors(out: &mut Vectors) {
    let (kind, most) = (*b"roll", u32::MAX);
    // First rows of which some are dropped and joined; then none, and rows of count 0 only.
    sample(out, kind, &[(2, 1), (0, 9), (3, 1), (1, 0), (7, 300)], &[], true);
    sample(out, kind, &[], &[], true);
    sample(out, *b"rap ", &[(0, 5)], &[], true);
    sample(out, kind, &[(0, most); 3], &[], false);
    // Too large a joined count, before any disagreement of lengths; the largest that is none.
    sample(out, kind, &[(most, 1), (1, 1)], &[], true);
    sample(out, kind, &[(1, 2), (most - 1, 1), (0, 7), (2, 1), (1, 3)], &[], true);
    sample(out, kind, &[(most - 1, 1), (0, 7), (1, 1)], &[], false);
    sample(out, kind, &[(most, 1), (1, 2), (most, 1)], &[], false);
    // The seams of the widths, of counts, of counts that are joined, and of indices; one row has a half byte behind it in some widths.
    for n in [15, 16, 255, 256, 65_535, 65_536] {
        sample(out, kind, &[(n, 1)], &[], false);
        sample(out, kind, &[(n - 8, 1), (8, 1), (3, 2)], &[], false);
        sample(out, kind, &[(1, n)], &[], false);
        sample(out, kind, &[(n, n), (1, 0)], &[], false);
    }
    sample(out, kind, &[(most, most)], &[], false);
    // Marked rows: low bits at the seams of the widths, beside unmarked ones; a mark on a row that is dropped, and marks that keep neighbours apart.
    for low in [0, 7, 8, 127, 128, 32_767, 32_768, MARK - 1] {
        sample(out, kind, &[(1, MARK | low)], &[], false);
        sample(out, kind, &[(2, low), (1, MARK)], &[], false);
    }
    sample(out, kind, &[(0, MARK | 3), (2, 3)], &[], true);
    sample(out, kind, &[(1, 3), (2, MARK | 3), (0, 9), (3, MARK | 3)], &[], true);
    // Bodies with a half byte at the end and without, like neighbours at either end, and a type of any bytes.
    for n in 1..9 {
        let rows: Vec<Row> = (0..n).map(|k| (1 + k, k % 3)).collect();
        sample(out, kind, &rows, &[], n == 3);
    }
    sample(out, [0; 4], &[(1, 4), (2, 4), (3, 5), (1, 4), (4, 4)], &[], false);
    sample(out, [255; 4], &[(0, 3), (1, 3), (0, 2), (1, 3), (0, 3)], &[], false);
    // A last number without a partner is no row, and is not joined.
    sample(out, kind, &[(4, 1)], &[0, 0, 0, 9], false);
    sample(out, kind, &[], &[255; 4], false);
}
