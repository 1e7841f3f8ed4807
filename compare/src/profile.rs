//! Document 02, A14: the dome profile, beside a check that goes over the samples one by one. Of a pattern that is repeated very often fewer turns are looked at: more than 1,300
//! samples of it say no more about 600 in a row.

use super::ffi::{self, Answer, Input};
use super::random::Random;
use super::tally::Tally;
use super::{film, listing, stbl, tables};
use crate::sample_groups as rust;

type Pattern = (u32, Vec<u32>);

fn big_endian(s: &[u8], at: usize) -> u32 {
    u32::from_be_bytes(s[at..at + 4].try_into().unwrap())
}

/// The patterns of the taken table; an sbgp's row is a pattern of one index.
pub fn patterns(sources: &listing::Sources) -> Result<Vec<Pattern>, u32> {
    if sources.csgp {
        return listing::patterns(&sources.table);
    }
    let s = &sources.table;
    let at = if s[0] == 1 { 16 } else { 12 };
    let rows = rust::parse_sbgp(s).map_err(|e| tables::number(&e))?.entries.len();
    Ok((0..rows).map(|k| (big_endian(s, at + 8 * k), vec![big_endian(s, at + 8 * k + 4)])).collect())
}

/// No joined row of a csgp covers more than 4,294,967,295 samples. (The rows of an sbgp are not joined.)
pub fn rows_fit(patterns: &[Pattern]) -> bool {
    let (mut index, mut run) = (None, 0u64);
    for (count, indices) in patterns.iter().filter(|p| p.0 > 0) {
        let n = *count as u64;
        let used = &indices[..indices.len().min(*count as usize)];
        let front = used.iter().take_while(|&&i| i == used[0]).count() as u64;
        let uniform = front == used.len() as u64;
        run = if index == Some(used[0]) { run } else { 0 } + if uniform { n } else { front };
        if run > u32::MAX as u64 {
            return false;
        }
        index = Some(used[0]);
        if !uniform {
            let last = ((n - 1) % used.len() as u64) as usize;
            let turned: Vec<u32> = (0..used.len()).map(|k| used[(last + used.len() - k) % used.len()]).collect();
            index = Some(turned[0]);
            run = turned.iter().take_while(|&&i| i == turned[0]).count().min(*count as usize) as u64;
        }
    }
    true
}

/// The first rule broken; 0 where none is.
fn verdict(s: &[u8]) -> u64 {
    let Ok(sources) = listing::sources(s, b"rap ") else { return 1 };
    let Ok(patterns) = patterns(&sources) else { return 1 };
    if sources.csgp && !rows_fit(&patterns) {
        return 1;
    }
    let Ok(sgpd) = rust::parse_sgpd(&sources.sgpd) else { return 1 };
    // 0, 1, 2 as kinds; 3 for a sample that says that its leading samples are not known; none where the entry does not decode
    let kind = |index: u32| match sgpd.entry(index) {
        None => Some(if index == 0 { 0 } else { 1 }),
        Some(entry) => rust::decode_rap(&entry.payload).ok().map(|v| if v.num_leading_samples_known { 2 } else { 3 }),
    };
    let mut kinds = vec![];
    for (count, indices) in &patterns {
        let (length, count) = (indices.len() as u64, *count as u64);
        let turns = (count / length).min(1300 / length + 2);
        for k in 0..turns * length + count % length {
            let Some(kind) = kind(indices[(k % length) as usize]) else { return 1 };
            kinds.push(kind);
        }
    }
    if kinds.first().is_none_or(|&kind| kind < 2) {
        return 2;
    }
    let longest = kinds.chunk_by(|a, b| (*a < 2) == (*b < 2)).filter(|part| part[0] < 2).map(|part| part.len()).max();
    if longest.is_some_and(|n| n > 600) {
        return 3;
    }
    if kinds.contains(&3) {
        return 4;
    }
    if kinds.contains(&1) {
        return 5;
    }
    0
}

fn compare(tally: &mut Tally, s: &[u8]) {
    let due = verdict(s);
    tally.input(["films that meet the profile", "films that break rule one", "films that break rule two", "films that break rule three", "films that break rule four", "films that break rule five"][due as usize]);
    let input = Input::new(s);
    tally.same("profile", ffi::profile(&input, s.len()), Answer::Given(due), &|| format!("{:02x?}", &s[..s.len().min(600)]));
    input.check();
}

fn atom(kind: &[u8; 4], body: &[u8]) -> Vec<u8> {
    [&(body.len() as u32 + 8).to_be_bytes()[..], kind, body].concat()
}

/// A csgp with 32-bit fields, or an sbgp where every pattern has one index.
fn table(random: &mut Random, patterns: &[Pattern]) -> Vec<u8> {
    let words = |all: &[u32]| all.iter().flat_map(|n| n.to_be_bytes()).collect::<Vec<u8>>();
    if patterns.iter().all(|p| p.1.len() == 1) && random.one_in(2) {
        let rows: Vec<u32> = patterns.iter().flat_map(|p| [p.0, p.1[0]]).collect();
        return atom(b"sbgp", &[&[0; 4], &b"rap "[..], &words(&[patterns.len() as u32]), &words(&rows)].concat());
    }
    let pairs: Vec<u32> = patterns.iter().flat_map(|p| [p.1.len() as u32, p.0]).collect();
    let indices: Vec<u32> = patterns.iter().flat_map(|p| p.1.clone()).collect();
    atom(b"csgp", &[&[0, 0, 0, 0x3f], &b"rap "[..], &words(&[patterns.len() as u32]), &words(&pairs), &words(&indices)].concat())
}

/// Films around every rule: stretches around 600 that cross rows, patterns and wraps, few of kinds 1 and 3.
fn around(random: &mut Random) -> Vec<u8> {
    let entries: Vec<u8> = match random.below(8) {
        0 => vec![],
        1 => vec![0x80, 0x03],
        2 => vec![0x00],
        _ => vec![0x80, 0xff],
    };
    let member = |random: &mut Random| match random.below(40) {
        0 => 0,
        1 => 9,
        2 => 2,
        _ => 1,
    };
    let mut patterns: Vec<Pattern> = vec![];
    for k in 0..1 + random.below(4) {
        let gap = random.pick(&[0u64, 1, 5, 199, 200, 201, 299, 300, 301, 598, 599, 600, 601, 602]);
        let length = random.pick(&[1, 1, 2, 3, 5, 20, gap + 1, gap + 2]).max(1);
        let mut indices: Vec<u32> = (0..length).map(|_| if random.one_in(200) { 9 } else { 0 }).collect();
        if k == 0 || random.one_in(2) {
            indices[0] = member(random);
        }
        if random.one_in(3) {
            let at = random.below(length) as usize;
            indices[at] = member(random);
        }
        let count = match random.below(12) {
            0 => random.pick(&[u32::MAX, u32::MAX - 1, 1 << 31, 1 << 20]),
            1 => 0,
            2 => random.below(length + 1) as u32,
            3 => (length * (1 + random.below(3))) as u32,
            _ => (gap + random.below(4)) as u32,
        };
        patterns.push((count, indices));
    }
    let table = table(random, &patterns);
    let sgpd = atom(b"sgpd", &[&[1, 0, 0, 0], &b"rap "[..], &[0, 0, 0, 1], &(entries.len() as u32).to_be_bytes(), &entries].concat());
    let mut s = if random.one_in(2) { [table, sgpd].concat() } else { [sgpd, table].concat() };
    if random.one_in(30) {
        s = listing::damaged(random, s);
    }
    s
}

/// Bodies of the listing's comparison, as they are and as films.
fn others(tally: &mut Tally, random: &mut Random) {
    for _ in 0..20_000 {
        let mut other = listing::film(random, 9);
        other.kind = *b"rap ";
        other.values = other.values.iter().map(|_| vec![random.next() as u8]).collect();
        let s = stbl::body(random, &other);
        let s = if random.one_in(4) { listing::damaged(random, s) } else { s };
        if listing::sources(&s, b"rap ").is_ok_and(|sources| sources.table.len() < 4000) {
            compare(tally, &s);
        }
        let film = film::track(&s);
        let input = Input::new(&film);
        for track in [0, 1] {
            let due = match film::find(&film, track) {
                Answer::Given([place, size]) => {
                    let body = Input::new(&film[place as usize..(place + size) as usize]);
                    ffi::profile(&body, size as usize)
                }
                Answer::None => Answer::None,
                Answer::Refused(n) => Answer::Refused(n),
            };
            tally.same("file_profile", ffi::file_profile(&input, film.len(), track), due, &|| format!("track {track} of {film:02x?}"));
        }
        input.check();
    }
}

pub fn run(tally: &mut Tally) {
    let mut random = Random::new(0xa14);
    for _ in 0..100_000 {
        let s = around(&mut random);
        compare(tally, &s);
    }
    others(tally, &mut random);
}
