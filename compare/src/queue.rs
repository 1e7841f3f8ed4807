//! Document 02, A12: a queue of fragments, beside a list of those that came and have not left.

use super::ffi::{self, Answer, Queue, QueueCall};
use super::random::Random;
use super::tally::Tally;
use crate::film_index::RowNumber;
use std::collections::VecDeque;

/// Samples covered, members among them.
type Fragment = (u64, u64);

/// The fragment that rows are: 28 where they cover too many samples.
fn fragment(rows: &[RowNumber]) -> Result<Fragment, u32> {
    let rows = ffi::rows_in(rows);
    let covered: u64 = rows.iter().map(|&(n, _)| n as u64).sum();
    let members = rows.iter().filter(|&&(_, index)| index != 0).map(|&(n, _)| n as u64).sum();
    if covered > u32::MAX as u64 { Err(28) } else { Ok((covered, members)) }
}

fn place(held: &VecDeque<Fragment>, sample: u64) -> Answer<(u64, u64)> {
    let mut left = sample;
    for (k, &(covered, _)) in held.iter().enumerate() {
        if left < covered {
            return Answer::Given((k as u64, left));
        }
        left -= covered;
    }
    Answer::Refused(73)
}

fn rows(random: &mut Random) -> Vec<RowNumber> {
    let counts: [u64; 9] = [0, 1, 1, 2, 3, 1000, u32::MAX as u64 / 2, u32::MAX as u64 - 1, u32::MAX as u64];
    let few = random.below(6);
    let mut run: Vec<RowNumber> = vec![];
    for _ in 0..few {
        let most = if random.one_in(3) { 9 } else { 6 };
        let count = counts[random.below(most) as usize];
        let index = random.pick(&[0, 0, 1, 7, 1 << 31, u32::MAX]);
        run.extend(ffi::row(count, index));
    }
    if random.one_in(8) {
        run.push(random.next() as RowNumber);
    }
    run
}

/// A list of calls from an empty queue over slots that hold anything; sums and lookups after each.
fn calls(tally: &mut Tally, random: &mut Random, many: u64, leave: u64) {
    let mut queue: Queue = std::array::from_fn(|k| if k < 4 { 0 } else { random.next() });
    let mut held: VecDeque<Fragment> = VecDeque::new();
    tally.input("lists of calls on a queue of fragments");
    for _ in 0..many {
        let rows = rows(random);
        let arrives = !random.one_in(leave);
        let due = if arrives {
            match fragment(&rows) {
                Err(n) => Answer::Refused(n),
                Ok(_) if held.len() == 64 => Answer::Refused(71),
                Ok(f) => {
                    held.push_back(f);
                    Answer::Given(())
                }
            }
        } else {
            held.pop_front().map_or(Answer::Refused(72), |_| Answer::Given(()))
        };
        let (told, after) = ffi::queue_call(&queue, if arrives { QueueCall::Arrive(&rows) } else { QueueCall::Depart });
        let (entry, shown) = (if arrives { "fragment_arrive" } else { "fragment_depart" }, format!("{rows:?} with {held:?}"));
        if due != Answer::Given(()) {
            tally.input("calls on a queue that are refused");
            tally.same(entry, &after[..], &queue[..], &|| shown.clone());
        }
        tally.same(entry, told, due, &|| shown.clone());
        queue = after;
        let sums = [held.len() as u64, held.iter().map(|f| f.0).sum(), held.iter().map(|f| f.1).sum()];
        tally.same("fragment_sums", ffi::queue_sums(&queue), sums, &|| shown.clone());
        let total = sums[1];
        for sample in [0, random.below(total + 2), total.saturating_sub(1), total, u64::MAX] {
            tally.same("fragment_lookup", ffi::queue_lookup(&queue, sample), place(&held, sample), &|| format!("{sample} of {held:?}"));
        }
    }
}

pub fn run(tally: &mut Tally) {
    let mut random = Random::new(0xa12);
    for _ in 0..100_000 {
        let many = 1 + random.below(12);
        calls(tally, &mut random, many, 3);
    }
    // up to a full queue and around it, for long
    for _ in 0..400 {
        calls(tally, &mut random, 150, 9);
        calls(tally, &mut random, 300, 2);
    }
    // queues of any numbers: each call ends, and a refused one alters nothing
    let wild = [0, 1, 2, 63, 64, 65, 127, 128, u32::MAX as u64, 274_877_906_880, 274_877_906_881, u64::MAX - 1, u64::MAX];
    for round in 0..100_000 {
        let mut queue: Queue = std::array::from_fn(|_| if round % 2 == 0 { random.pick(&wild) } else { random.next() >> random.below(64) });
        for _ in 0..4 {
            let rows = rows(&mut random);
            let call = if random.one_in(2) { QueueCall::Arrive(&rows) } else { QueueCall::Depart };
            let (told, after) = ffi::queue_call(&queue, call);
            let entry = if let QueueCall::Arrive(_) = call { "fragment_arrive" } else { "fragment_depart" };
            let fine = match told {
                Answer::Given(()) => true,
                _ => after == queue,
            };
            tally.same(entry, fine, true, &|| format!("{call:?} on {queue:?}"));
            queue = after;
            let sample = random.pick(&wild);
            tally.same("fragment_lookup", matches!(ffi::queue_lookup(&queue, sample), Answer::Given(_) | Answer::Refused(73)), true, &|| format!("{sample} of {queue:?}"));
            ffi::queue_sums(&queue);
        }
    }
}
