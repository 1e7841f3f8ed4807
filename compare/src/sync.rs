//! Request A6 of document 02: stss and sdtp. The Rust reads neither, so the answers are calculated here, by a set of numbers and by bytes.

use super::MIB;
use super::ffi::{self, Answer, Input};
use super::random::Random;
use super::tally::Tally;
use super::vectors::Vectors;
use std::collections::BTreeSet;

fn number(s: &[u8], at: usize) -> u64 {
    s[at..at + 4].iter().fold(0, |n, &b| n << 8 | b as u64)
}

type Numbers = Result<BTreeSet<u64>, u32>;

/// The numbers of an stss; 65 where one is not there, 66 where they do not rise from 1 on.
fn numbers(s: &[u8]) -> Numbers {
    if s.len() < 8 || (s.len() as u64) < 8 + 4 * number(s, 4) {
        return Err(65);
    }
    let all: Vec<u64> = (0..number(s, 4) as usize).map(|k| number(s, 8 + 4 * k)).collect();
    let set: BTreeSet<u64> = all.iter().copied().collect();
    if set.contains(&0) || set.len() != all.len() || !set.iter().eq(all.iter()) { Err(66) } else { Ok(set) }
}

fn is_sync(told: &Numbers, sample: u32) -> Answer<bool> {
    match told {
        Err(n) => Answer::Refused(*n),
        Ok(set) => Answer::Given(set.contains(&(sample as u64 + 1))),
    }
}

fn last_sync(told: &Numbers, frame: u32) -> Answer<u32> {
    match told {
        Err(n) => Answer::Refused(*n),
        Ok(set) => set.range(..=frame as u64 + 1).next_back().map_or(Answer::None, |&n| Answer::Given((n - 1) as u32)),
    }
}

fn dependency(s: &[u8], sample: u32) -> Answer<[u64; 4]> {
    match s.get(4..) {
        None => Answer::Refused(65),
        Some(bytes) => bytes.get(sample as usize).map_or(Answer::None, |&b| Answer::Given([6, 4, 2, 0].map(|shift| (b >> shift & 3) as u64))),
    }
}

fn compared(tally: &mut Tally, s: &[u8], len: usize, input: &Input, samples: &[u32]) {
    let told = numbers(&s[..len]);
    for &sample in samples {
        let shown = || format!("sample {sample} of {:02x?}", &s[..len.min(64)]);
        tally.same("is_sync_sample", ffi::is_sync_sample(input, len, sample), is_sync(&told, sample), &shown);
        tally.same("last_sync_sample", ffi::last_sync_sample(input, len, sample), last_sync(&told, sample), &shown);
        tally.same("sample_dependency", ffi::sample_dependency(input, len, sample), dependency(&s[..len], sample), &shown);
    }
}

fn stss(count: u32, numbers: &[u32]) -> Vec<u8> {
    let mut s = [[0; 4], count.to_be_bytes()].concat();
    s.extend(numbers.iter().flat_map(|n| n.to_be_bytes()));
    s
}

pub fn run(tally: &mut Tally) {
    let random = &mut Random::new(0xa6);
    for round in 0..40_000u64 {
        let n = random.below(7) as usize;
        let mut at = 0u64;
        let mut rising: Vec<u32> = (0..n)
            .map(|_| {
                at += random.pick(&[1, 1, 2, 3, 1000, 1 << 30]);
                at.min(u32::MAX as u64) as u32
            })
            .collect();
        if round % 3 == 1 && n > 0 {
            let k = random.below(n as u64) as usize;
            rising[k] = random.pick(&[0, 1, rising[0], u32::MAX, rising[n - 1]]);
        }
        let count = if round % 5 == 4 { random.pick(&[0, n as u32 + 1, u32::MAX, n as u32 / 2]) } else { n as u32 };
        let mut s = stss(count, &rising);
        let later = random.below(5) as usize;
        s.extend(random.bytes(later));
        let mut samples = vec![0, 1, u32::MAX - 1, u32::MAX];
        samples.extend(rising.iter().flat_map(|&n| [n.wrapping_sub(2), n.wrapping_sub(1), n]));
        tally.input("sync tables");
        let input = Input::new(&s);
        let from = if round % 16 == 0 { 0 } else { s.len() };
        for len in from..=s.len() {
            compared(tally, &s, len, &input, &samples);
        }
        input.check();
    }
    // a megabyte of numbers, all rising, and with the last two alike
    let many: Vec<u32> = (1..=(MIB as u32 - 8) / 4).map(|k| 3 * k).collect();
    let mut alike = many.clone();
    *alike.last_mut().unwrap() -= 3;
    for numbers in [many, alike] {
        let s = stss(numbers.len() as u32, &numbers);
        let input = Input::new(&s);
        tally.input("sync tables");
        compared(tally, &s, s.len(), &input, &[0, 1, 2, 3, 400_000, u32::MAX]);
        input.check();
    }
}

/// Tables of both kinds, samples around their numbers and at both ends of all.
pub fn vectors(out: &mut Vectors) {
    let most = u32::MAX;
    let mut add = |s: &[u8], samples: &[u32]| {
        let told = numbers(s);
        for &sample in samples {
            out.add(32, &[sample as u64], s, is_sync(&told, sample).map(|yes| vec![yes as u64]));
            out.add(33, &[sample as u64], s, last_sync(&told, sample).map(|n| vec![n as u64]));
        }
    };
    // rising from 1, from behind it, the largest number, one number, none
    add(&stss(4, &[1, 2, 5, 9]), &[0, 1, 2, 3, 4, 5, 7, 8, 9, most]);
    add(&stss(3, &[3, 300, 70_000]), &[0, 1, 2, 3, 298, 299, 300, 69_998, 69_999, most]);
    add(&stss(3, &[2, most - 1, most]), &[0, 1, most - 3, most - 2, most - 1, most]);
    add(&stss(1, &[1 << 31]), &[0, (1 << 31) - 2, (1 << 31) - 1, 1 << 31, most]);
    add(&stss(0, &[]), &[0, 1, most]);
    // a zero, equal neighbours and falling ones, before the asked sample and behind it
    for wrong in [&[0][..], &[0, 4], &[1, 0, 4], &[1, 4, 0], &[2, 2, 6], &[2, 6, 6], &[2, 6, 5], &[6, 2, 9], &[1, 2, 3, 9, 8], &[most, 1]] {
        add(&stss(wrong.len() as u32, wrong), &[0, 1, 5, most]);
    }
    // later bytes are ignored, a falling number and a zero among them; bytes of version and flags too
    add(&stss(2, &[3, 7, 2, 0]), &[0, 2, 6, 7]);
    add(&[&stss(1, &[3])[..], &[9, 9, 9]].concat(), &[1, 2]);
    add(&[&[255; 4], &stss(2, &[3, 7])[4..]].concat(), &[2, 3]);
    // bytes missing: of the head, and of the numbers, where what is there does not rise
    let whole = stss(2, &[4, 8]);
    for len in [0, 3, 4, 7, 8, 12, 15, 16] {
        add(&whole[..len], &[0, 3, most]);
    }
    for count in [3, 1 << 29, 1 << 30, most] {
        add(&stss(count, &[4, 4]), &[0, 3]);
    }
    let mut add = |s: &[u8], samples: &[u32]| {
        for &sample in samples {
            out.add(34, &[sample as u64], s, dependency(s, sample).map(|fields| fields.to_vec()));
        }
    };
    add(&[0, 0, 0, 0, 0x1b, 0xe4, 0, 255, 0x40, 0x10, 0x04, 0x01], &[0, 1, 2, 3, 4, 5, 6, 7, 8, 9, most - 1, most]);
    add(&[255, 255, 255, 255, 0x6c], &[0, 1, 2, most]);
    for len in 0..=4 {
        add(&[7; 4][..len], &[0, 1, most]);
    }
}
