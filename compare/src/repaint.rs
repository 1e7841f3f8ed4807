//! Document 02, A10: a stretch of samples repainted, and its preview. The calculation is our own: the map of the samples, changed and joined; where there are too many
//! samples to write the map out, the same by runs.

use super::ffi::{self, Answer};
use super::random::Random;
use super::tally::Tally;
use crate::film_index::{ROW_NUMBERS, RowNumber};

/// A run of samples of one index.
type Run = (u64, u32);

/// A map of so many samples is written out.
const SAMPLES: u64 = 3000;

/// The changed map as joined runs, sample by sample.
fn by_samples(rows: &[Run], from: u64, to: u64, index: u32) -> Vec<Run> {
    let mut map: Vec<u32> = rows.iter().flat_map(|&(n, i)| std::iter::repeat_n(i, n as usize)).collect();
    map[from as usize..to as usize].fill(index);
    map.chunk_by(|a, b| a == b).map(|part| (part.len() as u64, part[0])).collect()
}

/// The same by runs: what lies before, within and behind the stretch.
fn by_runs(rows: &[Run], from: u64, to: u64, index: u32) -> Vec<Run> {
    let part = |first: u64, end: u64| {
        let mut place = 0;
        let cut: Vec<Run> = rows
            .iter()
            .map(|&(n, i)| {
                let (a, b) = (place.max(first), (place + n).min(end));
                place += n;
                (b.saturating_sub(a), i)
            })
            .collect();
        cut
    };
    let mut joined: Vec<Run> = vec![];
    for (n, i) in part(0, from).into_iter().chain([(to - from, index)]).chain(part(to, u64::MAX)).filter(|&(n, _)| n > 0) {
        match joined.last_mut() {
            Some((count, last)) if *last == i => *count += n,
            _ => joined.push((n, i)),
        }
    }
    joined
}

/// The new rows, or the refusal.
fn repainted(run: &[RowNumber], stated: u64, from: u64, to: u64, index: u32) -> Result<Vec<Run>, u32> {
    let records = (run.len() / ROW_NUMBERS) as u64;
    if records < stated {
        return Err(70);
    }
    let rows: Vec<Run> = ffi::rows_in(run).into_iter().take(stated as usize).map(|(n, i)| (n as u64, i)).collect();
    let total: u64 = rows.iter().map(|&(n, _)| n).sum();
    if to <= from || total < to {
        return Err(70);
    }
    let joined = by_runs(&rows, from, to, index);
    if total <= SAMPLES {
        assert_eq!(joined, by_samples(&rows, from, to, index), "two calculations differ");
    }
    for (k, &(n, _)) in joined.iter().enumerate() {
        if k as u64 >= records {
            return Err(29);
        }
        if n > u32::MAX as u64 {
            return Err(28);
        }
    }
    Ok(joined)
}

/// One edit with its preview; the run afterwards.
fn compare(tally: &mut Tally, run: &[RowNumber], stated: u64, from: u64, to: u64, index: u32) -> Vec<RowNumber> {
    let due = repainted(run, stated, from, to, index);
    tally.input(match due {
        Ok(_) => "repaints given",
        Err(28) => "repaints with a count over the limit",
        Err(29) => "repaints without a record left",
        Err(_) => "repaints of no stretch",
    });
    let mut after = run.to_vec();
    for (k, &(n, i)) in due.iter().flatten().enumerate() {
        after[ROW_NUMBERS * k..][..ROW_NUMBERS].copy_from_slice(&ffi::row(n, i));
    }
    let answer = due.map_or_else(Answer::Refused, |rows| Answer::Given(rows.len() as u64));
    let shown = || format!("{stated} of {run:?} from {from} to {to} as {index}");
    tally.same("preview_repaint", ffi::preview_repaint(run, stated, from, to, index), answer.clone(), &shown);
    tally.same("repaint", ffi::repaint(run, stated, from, to, index), (answer, after.clone()), &shown);
    after
}

fn run_of(rows: &[Run]) -> Vec<RowNumber> {
    rows.iter().flat_map(|&(n, i)| ffi::row(n, i)).collect()
}

/// Every run of up to four records of small counts and indices, with every stated number and stretch.
fn exhaustive(tally: &mut Tally) {
    for records in 0..=4u32 {
        let kinds = if records == 4 { 4u64 } else { 6 };
        for code in 0..kinds.pow(records) {
            let rows: Vec<Run> = (0..records).map(|k| code / kinds.pow(k) % kinds).map(|c| (c % 3, (c / 3) as u32 + 1)).collect();
            let run = run_of(&rows);
            for stated in 0..=records as u64 + 1 {
                let total: u64 = rows.iter().take(stated as usize).map(|&(n, _)| n).sum();
                for from in 0..=total + 1 {
                    for to in 0..=total + 1 {
                        for index in 1..=2 {
                            compare(tally, &run, stated, from, to, index);
                        }
                    }
                }
            }
        }
    }
}

/// Edits one after another on one run, with spare records and without.
fn chains(tally: &mut Tally) {
    let mut random = Random::new(0xa10);
    for round in 0..32_000 {
        let records = random.below(if round % 40 == 0 { 60 } else { 9 });
        let rows: Vec<Run> = (0..records).map(|_| (random.pick(&[0, 1, 1, 2, 3, 7, 40]), random.below(4) as u32)).collect();
        let spare = random.below(5);
        let mut run = run_of(&rows);
        run.extend((0..ROW_NUMBERS as u64 * spare + random.below(ROW_NUMBERS as u64)).map(|_| random.next() as RowNumber));
        let mut stated = records;
        for _ in 0..12 {
            let total: u64 = ffi::rows_in(&run).into_iter().take(stated as usize).map(|(n, _)| n as u64).sum();
            let to = random.below(total + 2);
            let from = if random.one_in(6) { random.below(total + 2) } else { random.below(to + 1) };
            let index = random.pick(&[0, 1, 2, 3, 1 << 31, u32::MAX]);
            let before = run.clone();
            run = compare(tally, &run, stated, from, to, index);
            if let Ok(rows) = repainted(&before, stated, from, to, index) {
                stated = rows.len() as u64;
            }
        }
    }
}

/// Counts around the limit of a row, and numbers around every limit.
fn far(tally: &mut Tally) {
    const MOST: u64 = u32::MAX as u64;
    let mut random = Random::new(0xa101);
    for _ in 0..60_000 {
        let records = 1 + random.below(5);
        let rows: Vec<Run> = (0..records).map(|_| (random.pick(&[0, 1, 2, MOST / 2, MOST - 2, MOST - 1, MOST]), random.below(3) as u32)).collect();
        let total: u64 = rows.iter().map(|&(n, _)| n).sum();
        let near = |random: &mut Random| {
            let base = random.pick(&[0, 1, MOST - 1, MOST, MOST + 1, 2 * MOST, total / 2, total, u64::MAX - 2]);
            base.saturating_add(random.below(5)).saturating_sub(2)
        };
        let (a, b) = (near(&mut random), near(&mut random));
        let (from, to) = if random.one_in(9) { (a, b) } else { (a.min(b), a.max(b).min(total)) };
        let mut run = run_of(&rows);
        let spare = random.below(4);
        run.extend((0..ROW_NUMBERS as u64 * spare).map(|_| random.next() as RowNumber));
        let stated = random.pick(&[records, records, records, records + spare, records + spare + 1, u64::MAX, 1 << 32, 0]);
        compare(tally, &run, stated, from, to, random.below(3) as u32);
    }
}

pub fn run(tally: &mut Tally) {
    exhaustive(tally);
    chains(tally);
    far(tally);
}
