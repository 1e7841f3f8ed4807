//! The group of a sample without rows, and what a listing needs (ours, beyond documents 01 and 02). The index is that of the Rust's own parse and lookup where the Rust can
//! expand the table, else that of the patterns; the entries are those of the Rust's parse.

use super::ffi::{self, Answer, Input};
use super::random::Random;
use super::tally::Tally;
use super::{csgp, film, indifference, listing, walk, profile, sgpd, stbl};
use crate::film_index::ROW_NUMBERS;
use crate::sample_groups as rust;

/// Kind, index, place and length of a sample's group.
type Group = [u64; 4];

/// What the samples of one type in a body are looked up in.
struct Opened {
    patterns: Vec<(u32, Vec<u32>)>,
    table: Option<rust::SampleToGroup>,
    /// Place and length of each entry in the body.
    entries: Vec<(u64, u64)>,
}

fn opened(s: &[u8], kind: &[u8; 4]) -> Result<Opened, u32> {
    let sources = listing::sources(s, kind)?;
    let patterns = profile::patterns(&sources)?;
    if sources.csgp && !profile::rows_fit(&patterns) {
        return Err(28);
    }
    let read = rust::parse_sgpd(&sources.sgpd).map_err(|e| sgpd::number(&e))?;
    // where the taken sgpd stands
    let mut at = 0;
    let mut place = 0;
    while let Answer::Given([next, type_, _, _, _, body]) = walk::child(s, at, Some(s.len() as u64)) {
        if type_ as u32 == u32::from_be_bytes(*b"sgpd") && s[body as usize + 4..body as usize + 8] == *kind {
            place = body;
        }
        at = next;
    }
    let entries: Vec<(u64, u64)> = indifference::laid(&sources.sgpd).iter().map(|&(p, n)| (place + p as u64, n as u64)).collect();
    assert_eq!(entries.len(), read.entries.len(), "two calculations differ");
    for (&(p, n), entry) in entries.iter().zip(&read.entries) {
        assert_eq!(s[p as usize..(p + n) as usize], entry.payload, "two calculations differ");
    }
    let small = !sources.csgp || csgp::in_domain(&sources.table);
    let table = small.then(|| if sources.csgp { rust::parse_csgp(&sources.table) } else { rust::parse_sbgp(&sources.table) }).and_then(Result::ok);
    Ok(Opened { patterns, table, entries })
}

fn group(opened: &Result<Opened, u32>, sample: u32) -> Answer<Group> {
    let opened = match opened {
        Ok(opened) => opened,
        Err(n) => return Answer::Refused(*n),
    };
    let mut left = sample as u64;
    for (count, indices) in &opened.patterns {
        if left < *count as u64 {
            let index = indices[(left % indices.len() as u64) as usize];
            if let Some(table) = &opened.table {
                assert_eq!(index, table.group_index_for_sample(sample), "the Rust's lookup differs");
            }
            let (kind, place, length) = match opened.entries.get((index as usize).wrapping_sub(1)) {
                Some(&(place, length)) => (2, place, length),
                None => (if index == 0 { 0 } else { 1 }, 0, 0),
            };
            return Answer::Given([kind, index as u64, place, length]);
        }
        left -= *count as u64;
    }
    Answer::Refused(62)
}

/// The samples around the start of each pattern, around its wraps and around the end.
fn around(patterns: &[(u32, Vec<u32>)]) -> Vec<u32> {
    let (mut wanted, mut at) = (vec![0, u32::MAX], 0u64);
    for (count, indices) in patterns.iter().take(12) {
        let length = indices.len() as u64;
        let turns = *count as u64 / length;
        for turn in [0, 1, 2, turns.saturating_sub(1), turns] {
            let wrap = at + turn * length;
            wanted.extend([wrap.wrapping_sub(1), wrap, wrap + 1].into_iter().filter(|&k| k <= u32::MAX as u64).map(|k| k as u32));
        }
        at += *count as u64;
    }
    wanted.extend([at.wrapping_sub(1), at, at + 1].into_iter().filter(|&k| k <= u32::MAX as u64).map(|k| k as u32));
    wanted.sort();
    wanted.dedup();
    wanted
}

fn compare(tally: &mut Tally, kind: &[u8; 4], s: &[u8], film: bool) {
    tally.input("bodies asked for groups");
    let opened = opened(s, kind);
    let input = Input::new(s);
    let samples = opened.as_ref().map_or(vec![0, u32::MAX], |opened| around(&opened.patterns));
    for &sample in &samples {
        let text = || format!("sample {sample} of {} in {:02x?}", kind.escape_ascii(), &s[..s.len().min(400)]);
        tally.same("sample_group", ffi::sample_group(&input, s.len(), *kind, sample), group(&opened, sample), &text);
    }
    needs(tally, kind, s, &input);
    input.check();
    if film {
        let film = film::track(s);
        let (input, before) = (Input::new(&film), film.len() as u64 - s.len() as u64);
        for (track, sample) in [(0, samples[0]), (0, samples[samples.len() / 2]), (1, 0)] {
            let due = match film::find(&film, track) {
                Answer::Given(_) => group(&opened, sample).map(|[kind, index, place, length]| [kind, index, if kind == 2 { place + before } else { 0 }, length]),
                Answer::None => Answer::None,
                Answer::Refused(n) => Answer::Refused(n),
            };
            tally.same("file_sample_group", ffi::file_sample_group(&input, film.len(), track, *kind, sample), due, &|| format!("sample {sample} of track {track} of {film:02x?}"));
            let body = Input::new(s);
            let due = match film::find(&film, track) {
                Answer::Given(_) => ffi::listing_needs(&body, s.len(), *kind),
                Answer::None => Answer::None,
                Answer::Refused(n) => Answer::Refused(n),
            };
            tally.same("file_listing_needs", ffi::file_listing_needs(&input, film.len(), track, *kind), due, &|| format!("track {track} of {film:02x?}"));
        }
        input.check();
    }
}

/// As much as the listing needs; lent so much it is given, one row less is 29, one byte less 54.
fn needs(tally: &mut Tally, kind: &[u8; 4], s: &[u8], input: &Input) {
    let Some(due) = listing::needs(s, kind) else { return };
    let text = || format!("{} in {:02x?}", kind.escape_ascii(), &s[..s.len().min(400)]);
    tally.same("listing_needs", ffi::listing_needs(input, s.len(), *kind), due.clone(), &text);
    let Answer::Given([bytes, rows]) = due else { return };
    let (numbers, bytes) = (ROW_NUMBERS * rows as usize, bytes as usize);
    let mut lent = |numbers: usize, bytes: usize| match ffi::cue_listing(input, s.len(), *kind, numbers, bytes) {
        Answer::Given(_) => 0,
        Answer::Refused(n) => n,
        Answer::None => 255,
    };
    tally.same("cue_listing", lent(numbers, bytes), 0, &text);
    tally.same("cue_listing", lent(numbers, bytes - 1), 54, &text);
    if rows > 0 {
        tally.same("cue_listing", lent(numbers - 1, bytes), 29, &text);
    }
}

pub fn run(tally: &mut Tally) {
    let mut random = Random::new(0x39);
    for round in 0..210_000u64 {
        let film = listing::film(&mut random, 14);
        let (kind, s) = match round % 12 {
            0 => (film.kind, listing::misbuilt(&mut random, &film)),
            1 => {
                let s = stbl::body(&mut random, &film);
                (film.kind, listing::damaged(&mut random, s))
            }
            2 => {
                let parts = listing::cut_or_shared(&mut random, &film);
                (film.kind, stbl::assembled(&mut random, &film.kind, &parts))
            }
            3 => {
                let (film, s) = listing::large(&mut random);
                (film.kind, s)
            }
            _ => (film.kind, stbl::body(&mut random, &film)),
        };
        compare(tally, &kind, &s, round % 8 == 0);
    }
}
