//! Document 02, A8: a play head over rows, beside the Rust's lookup at the sample that a list of calls reaches.

use super::ffi::{self, Answer};
use super::random::Random;
use super::tally::Tally;
use crate::sample_groups::{SampleToGroup, SampleToGroupEntry};

const MOST: u64 = u32::MAX as u64;

/// The row that covers a sample and the samples of it before; the row count where none does.
fn covering(rows: &[(u32, u32)], sample: u64) -> (u64, u64) {
    let mut left = sample;
    for (k, &(count, _)) in rows.iter().enumerate() {
        if left < count as u64 {
            return (k as u64, left);
        }
        left -= count as u64;
    }
    (rows.len() as u64, 0)
}

/// A list of calls from a fresh head: each gives the lookup's index at the sample reached, and a head that names its row.
fn played(tally: &mut Tally, random: &mut Random, rows: &[(u32, u32)], calls: u64) {
    let run: Vec<u32> = rows.iter().flat_map(|&(count, index)| [count, index]).collect();
    let entries = rows.iter().map(|&(sample_count, group_description_index)| SampleToGroupEntry { sample_count, group_description_index }).collect();
    let table = SampleToGroup { grouping_type: *b"roll", grouping_type_parameter: 0, entries };
    let end = table.covered_samples().min(MOST);
    tally.input("lists of calls of a play head");
    let (mut head, mut at) = ([0; 4], None::<u64>);
    for _ in 0..calls {
        let near = [0, 1, end.saturating_sub(1), end, end + 1, MOST, random.below(end + 3)];
        let call = random.one_in(5).then(|| random.pick(&near).min(MOST) as u32);
        let reached = match (call, at) {
            (Some(sample), _) => (sample as u64).min(end),
            (None, None) => 0,
            (None, Some(sample)) => (sample + 1).min(end),
        };
        let (row, within) = covering(rows, reached);
        // the Rust's own arithmetic holds below the last sample
        let index = Answer::Given(table.group_index_for_sample(reached as u32));
        let shown = || format!("{call:?} at {at:?} of {rows:?}");
        let entry = if call.is_some() { "play_set" } else { "play_move" };
        let (told, after) = ffi::play(head, &run, call);
        tally.same(entry, (told, after), (index, [1, reached, row, within]), &shown);
        // rows before the named one do not change what a move gives
        if call.is_none() && head[2] > 0 && head[2] < rows.len() as u64 {
            let mut other = run.clone();
            other[..2 * head[2] as usize].iter_mut().for_each(|n| *n = random.next() as u32);
            tally.same(entry, ffi::play(head, &other, None), (Answer::Given(table.group_index_for_sample(reached as u32)), after), &shown);
        }
        (head, at) = (after, Some(reached));
    }
}

pub fn run(tally: &mut Tally) {
    let mut random = Random::new(82);
    // every list of up to four short rows
    for code in 0..4u32.pow(4) {
        let rows: Vec<(u32, u32)> = (0..4).map(|k| code >> (2 * k) & 3).take_while(|&n| n < 3).enumerate().map(|(k, n)| (n, k as u32 + 1)).collect();
        for _ in 0..8 {
            played(tally, &mut random, &rows, 12);
        }
    }
    for k in 0..110_000u32 {
        let many = random.below(if k % 50 == 0 { 200 } else { 9 });
        let counts: [u32; 9] = [0, 0, 1, 1, 2, 3, 7, 1000, u32::MAX];
        let rows: Vec<(u32, u32)> = (0..many).map(|_| (random.pick(&counts), random.next() as u32 >> random.below(32))).collect();
        played(tally, &mut random, &rows, 10);
    }
    // totals around the last sample, passed by sets
    for _ in 0..2000 {
        let rows = [(u32::MAX - random.below(3) as u32, 1), (random.below(3) as u32, 2), (random.below(2) as u32, 3), (random.below(9) as u32, 4)];
        played(tally, &mut random, &rows, 20);
    }
    // heads of random numbers: the call ends, gives an index and writes the head alone
    for _ in 0..200_000 {
        let rows: Vec<u32> = (0..random.below(12)).map(|_| random.pick(&[0, 1, 2, 5, u32::MAX])).collect();
        let wild = [0, 1, 2, 3, MOST, MOST + 1, u64::MAX - 1, u64::MAX];
        let head = [0; 4].map(|_: u64| random.pick(&wild));
        let (told, _) = ffi::play(head, &rows, None);
        tally.same("play_move", matches!(told, Answer::Given(_)), true, &|| format!("{head:?} over {rows:?}"));
        let (told, after) = ffi::play(head, &rows, Some(2));
        let (fresh, due) = ffi::play([0; 4], &rows, Some(2));
        tally.same("play_set", (told, after), (fresh, due), &|| format!("{head:?} over {rows:?}"));
    }
}
