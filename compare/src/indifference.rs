//! Document 02, A11: what cannot matter. The bits of a body that may differ, item by item in the request's words; bodies changed in any of them get the same listing or the same
//! refusal. Bodies changed in one bit elsewhere are counted by whether their answer differs.

use super::ffi::{self, Answer, Input};
use super::random::Random;
use super::tally::Tally;
use super::{listing, walk, stbl};
use crate::film_index::ROW_NUMBERS;
use std::collections::BTreeSet;

fn big_endian(s: &[u8], at: usize, n: usize) -> u64 {
    (at..at + n).fold(0, |v, k| v << 8 | s.get(k).copied().unwrap_or(0) as u64)
}

/// The indices that samples of the taken table use; none where no table is taken or read.
fn used(s: &[u8], kind: &[u8; 4]) -> BTreeSet<u32> {
    let Ok(sources) = listing::sources(s, kind) else { return BTreeSet::new() };
    let table = &sources.table;
    if sources.csgp {
        let patterns = listing::patterns(table).unwrap_or_default();
        return patterns.into_iter().flat_map(|(count, indices)| indices.into_iter().take(count as usize)).collect();
    }
    let Some((rows, count)) = sbgp_rows(table) else { return BTreeSet::new() };
    (0..count).map(|k| rows + 8 * k).filter(|&at| big_endian(table, at, 4) > 0).map(|at| big_endian(table, at + 4, 4) as u32).collect()
}

/// Where the rows of an sbgp that is read whole begin, and how many there are.
fn sbgp_rows(s: &[u8]) -> Option<(usize, usize)> {
    let count_at = if s.first() == Some(&1) { 12 } else { 8 };
    let count = big_endian(s, count_at, 4) as usize;
    (s.len() >= count_at + 4 && s.len() - count_at - 4 >= 8 * count).then_some((count_at + 4, count))
}

/// The pairs of a csgp, pattern length and sample count, the bit where the indices begin, and their width.
fn csgp_pairs(s: &[u8]) -> Option<(Vec<(u64, u64)>, u64, u64)> {
    let flags = *s.get(3)?;
    let width = |from: u32| 4u64 << (flags >> from & 3);
    let count_at = if flags >> 6 & 1 == 1 { 12 } else { 8 };
    if s.len() < count_at + 4 {
        return None;
    }
    let bits = |at: u64, n: u64| (at..at + n).fold(0u64, |v, k| v << 1 | (s[k as usize / 8] >> (7 - k % 8) & 1) as u64);
    let mut at = 8 * (count_at as u64 + 4);
    let mut pairs = vec![];
    for _ in 0..big_endian(s, count_at, 4) {
        let (length, count) = (width(4), width(2));
        if at + length + count > 8 * s.len() as u64 {
            return None;
        }
        pairs.push((bits(at, length), bits(at + length, count)));
        at += length + count;
    }
    Some((pairs, at, width(0)))
}

/// The entries that an sgpd declares, place and length, as far as they begin within the payload.
pub fn laid(s: &[u8]) -> Vec<(usize, usize)> {
    let version = s.first().copied().unwrap_or(0);
    let count_at = match version {
        0 => 8,
        1 => 12,
        _ => 16,
    };
    let count = big_endian(s, count_at, 4);
    let each = if version >= 1 { big_endian(s, 8, 4) as usize } else { stbl::fixed(&[s[4], s[5], s[6], s[7]]).unwrap_or(0) };
    let mut at = count_at + 4;
    let mut entries = vec![];
    while (entries.len() as u64) < count && at <= s.len() {
        let (place, size) = match each {
            0 if version >= 1 && s.len() < at + 4 => break,
            0 if version >= 1 => (at + 4, big_endian(s, at, 4) as usize),
            0 => match (s.len() - at) / count as usize {
                0 => break,
                share => (at, share),
            },
            size => (at, size),
        };
        entries.push((place, size));
        at = place + size;
    }
    entries
}

/// The first bit of an entry's contents behind what an accepting decoder of the type reads.
fn read_bits(kind: &[u8; 4], x: &[u8]) -> Option<usize> {
    match kind {
        b"roll" | b"prol" => Some(16),
        b"rap " | b"tele" | b"sap " => Some(8),
        b"rash" if listing::decoded(kind, x).is_ok() => {
            let points = big_endian(x, 0, 2) as usize;
            Some(8 * (2 + if points == 1 { 2 } else { 6 * points } + 9))
        }
        _ => None,
    }
}

/// The bits of a body that may differ: from the high bit of byte 0 on.
fn listed(s: &[u8], kind: &[u8; 4]) -> Vec<bool> {
    let used = used(s, kind);
    let mut may = vec![false; 8 * s.len()];
    let mut at = 0;
    while let Answer::Given([next, type_, _, _, _, body]) = walk::child(s, at, Some(s.len() as u64)) {
        at = next;
        if next < body {
            continue;
        }
        let p = &s[body as usize..next as usize];
        let bits = &mut may[8 * body as usize..8 * next as usize];
        let end = bits.len();
        let mut allow = |from: usize, to: usize| bits[from.min(end)..to.min(end).max(from.min(end))].fill(true);
        let other = big_endian(p, 4, 4) != u32::from_be_bytes(*kind) as u64;
        match &(type_ as u32).to_be_bytes() {
            b"sbgp" => {
                allow(8, 32);
                if p.first() == Some(&1) {
                    allow(64, 96);
                }
                if let Some((rows, count)) = sbgp_rows(p) {
                    allow(8 * (rows + 8 * count), end);
                }
            }
            b"csgp" => {
                allow(0, 24);
                if p.get(3).is_some_and(|flags| flags >> 6 & 1 == 1) {
                    allow(64, 96);
                }
                if let Some((pairs, from, width)) = csgp_pairs(p) {
                    let plain = width == 32 && p[3] >> 7 == 0;
                    let mut q = from;
                    for (length, count) in pairs {
                        for k in 0..length.min(8 * p.len() as u64) {
                            // the highest bit of a whole number of 32 bits is the side of 67
                            if used.is_empty() || k >= count {
                                let first = q + width * k;
                                allow(first as usize + plain as usize, (first + width) as usize);
                            }
                        }
                        q += width * length;
                    }
                    if listing::patterns(p).is_ok() {
                        allow(q as usize, end);
                    }
                }
            }
            b"sgpd" => {
                allow(8, 32);
                if p.len() >= 12 {
                    let entries = laid(p);
                    for (k, &(place, size)) in entries.iter().enumerate() {
                        let (first, last) = (8 * place, 8 * (place + size));
                        if !used.contains(&(k as u32 + 1)) {
                            allow(first, last);
                        }
                        match kind {
                            b"tele" => allow(first + 1, (first + 8).min(last)),
                            b"sap " => allow(first + 1, (first + 4).min(last)),
                            _ => {}
                        }
                        let x = &p[place.min(p.len())..(place + size).min(p.len())];
                        if let Some(read) = read_bits(kind, x) {
                            allow((first + read).min(last), last);
                        }
                    }
                    if crate::sample_groups::parse_sgpd(p).is_ok() {
                        let first = if p[0] == 0 { 12 } else if p[0] == 1 { 16 } else { 20 };
                        allow(8 * entries.last().map_or(first, |&(place, size)| place + size), end);
                    }
                }
            }
            _ => allow(0, end),
        }
        if other && matches!(&(type_ as u32).to_be_bytes(), b"sbgp" | b"csgp" | b"sgpd") {
            allow(64, end);
        }
    }
    may
}

/// Both answers for one room: rows and bytes that are enough for all but the largest, and sometimes less.
fn answers(random: &mut Random, kind: &[u8; 4], a: &[u8], b: &[u8]) -> (Answer<ffi::Listing>, Answer<ffi::Listing>) {
    let (numbers, room) = if random.one_in(6) { (random.below(12) as usize, random.below(40) as usize) } else { (ROW_NUMBERS * 64, 400) };
    let both = [a, b].map(|s| {
        let input = Input::new(s);
        let told = ffi::cue_listing(&input, s.len(), *kind, numbers, room);
        input.check();
        told
    });
    let [x, y] = both;
    (x, y)
}

/// A body of each kind that the listing is compared on: whole, wild, misbuilt, cut, damaged, and with names.
fn body(random: &mut Random, round: u64) -> ([u8; 4], Vec<u8>) {
    let film = listing::film(random, 8);
    let s = match round % 6 {
        0 => listing::misbuilt(random, &film),
        1 => {
            let parts = listing::cut_or_shared(random, &film);
            stbl::assembled(random, &film.kind, &parts)
        }
        2 => {
            let s = stbl::body(random, &film);
            listing::damaged(random, s)
        }
        _ => stbl::body(random, &film),
    };
    (film.kind, s)
}

pub fn run(tally: &mut Tally) {
    let mut random = Random::new(0xa11);
    for round in 0..140_000u64 {
        let (kind, s) = body(&mut random, round);
        if s.is_empty() {
            continue;
        }
        let may = listed(&s, &kind);
        let share = random.pick(&[1, 2, 2, 8, 64]);
        let mut other = s.clone();
        for i in (0..may.len()).filter(|&i| may[i]) {
            if random.one_in(share) {
                other[i / 8] ^= 0x80 >> (i % 8);
            }
        }
        if other != s {
            tally.input("bodies changed in what cannot matter");
            let (ours, theirs) = answers(&mut random, &kind, &s, &other);
            tally.same("cue_listing", theirs, ours, &|| format!("{} in {other:02x?}, changed from {s:02x?}", kind.escape_ascii()));
        }
        let outside: Vec<usize> = (0..may.len()).filter(|&i| !may[i]).collect();
        if !outside.is_empty() {
            let i = random.pick(&outside);
            let mut other = s.clone();
            other[i / 8] ^= 0x80 >> (i % 8);
            let (ours, theirs) = answers(&mut random, &kind, &s, &other);
            tally.input(if ours == theirs { "bodies changed in one bit elsewhere with the same answer" } else { "bodies changed in one bit elsewhere with another answer" });
            tally.further("cue_listing", 2);
        }
    }
}
