//! What the two sample tables share: the Rust's answer, lookups over the rows, and refusals for want of records.

use super::ffi::{self, Answer, Input, Table};
use super::messages;
use super::random::Random;
use super::tally::Tally;
use super::vectors::Vectors;
use crate::film_index::{ROW_NUMBERS, RowNumber};
use crate::sample_groups::SampleToGroup;
use crate::standalone::{Error, Result};

/// The number of an error: document 01's, by the Rust's message.
pub fn number(error: &Error) -> u32 {
    let Error::InvalidData(text) = error else { panic!("an error of another kind: {error}") };
    // a refusal by a calculation of our own, where the Rust has another meaning
    if let Some(number) = text.strip_prefix("document ") {
        return number.parse().unwrap();
    }
    messages::number(
        text,
        &[
            ("header < 8 bytes", 20),
            ("missing grouping_type_parameter", 21),
            ("missing entry_count", 22),
            ("missing pattern_count", 22),
            ("truncated entries", 23),
            ("truncated pattern_length", 24),
            ("truncated sample_count", 25),
            ("pattern_length is zero", 26),
            ("truncated description index", 27),
        ],
    )
}

pub fn theirs(told: &Result<SampleToGroup>) -> Answer<Table> {
    match told {
        Ok(t) => {
            let rows = t.entries.iter().map(|e| (e.sample_count, e.group_description_index)).collect();
            Answer::Given((u32::from_be_bytes(t.grouping_type), t.grouping_type_parameter, rows))
        }
        Err(e) => Answer::Refused(number(e)),
    }
}

/// The readers of a table, by their names in the counts.
pub struct Readers {
    pub payloads: &'static str,
    pub entry: &'static str,
    pub ours: fn(&Input, usize, usize) -> Answer<Table>,
    pub needed: &'static str,
    pub ours_needed: fn(&Input, usize) -> Answer<u64>,
    pub reference: fn(&[u8]) -> Result<SampleToGroup>,
}

/// One payload: its row count, the table with records enough (exactly enough, some more, an odd number more), with one too few, and lookups
/// over its rows.
pub fn compare(tally: &mut Tally, random: &mut Random, readers: &Readers, s: &[u8]) {
    let Readers { entry, ours, .. } = *readers;
    let input = Input::new(s);
    tally.input(readers.payloads);
    let told = (readers.reference)(s);
    let expected = theirs(&told);
    let rows = told.as_ref().map_or(3, |t| t.entries.len());
    let shown = |room: usize| move || format!("{:02x?} with {room} numbers", &s[..s.len().min(80)]);
    for numbers in [ROW_NUMBERS * rows, ROW_NUMBERS * rows + 1 + random.below(5) as usize] {
        tally.same(entry, ours(&input, s.len(), numbers), expected.clone(), &shown(numbers));
    }
    let count = expected.map(|(_, _, rows)| rows.len() as u64);
    tally.same(readers.needed, (readers.ours_needed)(&input, s.len()), count, &shown(0));
    if let Ok(table) = &told {
        if rows > 0 {
            // 29 has no counterpart in the Rust: its rows say that one record is missing.
            let fewer = random.below((ROW_NUMBERS * rows) as u64) as usize;
            for numbers in [ROW_NUMBERS * rows - 1, fewer] {
                tally.same(entry, ours(&input, s.len(), numbers), Answer::Refused(29), &shown(numbers));
            }
        }
        lookups(tally, random, table);
    }
    input.check();
}

/// Every sample of a short table and some of a long one, around the total too.
fn lookups(tally: &mut Tally, random: &mut Random, table: &SampleToGroup) {
    let mut rows: Vec<RowNumber> = table.entries.iter().flat_map(|e| [e.sample_count, e.group_description_index]).collect();
    if random.one_in(4) {
        rows.push(random.next() as u32);
    }
    let kept = rows.clone();
    let covered = table.covered_samples();
    tally.same("covered_samples", ffi::covered_samples(&rows), Answer::Given(covered), &|| format!("{rows:?}"));
    let total = covered.min(u32::MAX as u64) as u32;
    let near = [0, 1, total.saturating_sub(1), total, total.saturating_add(1), u32::MAX];
    let some = (0..6).map(|_| random.below(total as u64 + 2) as u32);
    let samples: Vec<u32> = if total < 12 { (0..=total + 1).collect() } else { near.into_iter().chain(some).collect() };
    for k in samples {
        let theirs = Answer::Given(table.group_index_for_sample(k));
        tally.same("group_index_for_sample", ffi::group_index_for_sample(&rows, k), theirs, &|| format!("sample {k} of {rows:?}"));
    }
    assert!(rows == kept, "rows were written");
}

/// The number of the call that counts the rows of a table which another entry reads.
fn counting(entry: u8) -> u8 {
    if entry == 5 { 21 } else { 22 }
}

/// The Rust's table for a payload as a stored vector, with `spare` numbers more than its rows need, its row count, and lookups around its seams.
pub fn sample(out: &mut Vectors, entry: u8, s: &[u8], spare: usize, told: Result<SampleToGroup>) {
    let rows = told.as_ref().map_or(0, |t| t.entries.len());
    if s.len() > 60 || rows > 20 {
        return;
    }
    let answer = theirs(&told).map(|(kind, parameter, rows)| {
        let mut numbers = vec![kind as u64, parameter as u64, rows.len() as u64];
        numbers.extend(rows.iter().flat_map(|&(n, i)| [n as u64, i as u64]));
        numbers
    });
    out.add(counting(entry), &[], s, theirs(&told).map(|(_, _, rows)| vec![rows.len() as u64]));
    out.add(entry, &[(ROW_NUMBERS * rows + spare) as u64], s, answer);
    let Ok(table) = told else { return };
    let run: Vec<u8> = table.entries.iter().flat_map(|e| [e.sample_count, e.group_description_index]).flat_map(u32::to_be_bytes).collect();
    let covered = table.covered_samples();
    out.add(8, &[], &run, Answer::Given(vec![covered]));
    for k in [0, covered / 2, covered.saturating_sub(1), covered] {
        let k = k.min(u32::MAX as u64) as u32;
        out.add(7, &[k as u64], &run, Answer::Given(vec![table.group_index_for_sample(k) as u64]));
    }
}
