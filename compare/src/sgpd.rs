//! Parts 6 and 9 of document 01.

use super::MIB;
use super::ffi::{self, Answer, Input};
use super::messages;
use super::random::Random;
use super::tally::Tally;
use super::vectors::Vectors;
use crate::sample_groups::{self, SampleGroupDescription};
use crate::standalone::{Error, Result};

pub const TYPES: [&[u8; 4]; 9] = [b"roll", b"prol", b"rap ", b"tele", b"sap ", b"rash", b"alst", b"abcd", b"seig"];
const VERSIONS: [u8; 5] = [0, 1, 2, 3, 255];

pub fn number(error: &Error) -> u32 {
    let Error::InvalidData(text) = error else { panic!("an error of another kind: {error}") };
    messages::number(
        text,
        &[
            ("header < 12 bytes", 30),
            ("missing default_sample_description_index", 31),
            ("missing entry_count", 32),
            ("missing description_length", 33),
            ("zero-size implicit entries", 34),
            ("truncated entry payload", 35),
        ],
    )
}

fn theirs(told: &Result<SampleGroupDescription>) -> Answer<[u64; 5]> {
    match told {
        Ok(d) => {
            let kind = u32::from_be_bytes(d.grouping_type) as u64;
            let [length, index] = [d.default_length, d.default_sample_description_index].map(u64::from);
            Answer::Given([d.version as u64, kind, length, index, d.entries.len() as u64])
        }
        Err(e) => Answer::Refused(number(e)),
    }
}

/// The Rust copies its entries; where they stood is found by their lengths, in order, and their bytes must be the payload's.
fn places(s: &[u8], d: &SampleGroupDescription) -> Vec<[u64; 2]> {
    let mut place = match d.version {
        0 => 12,
        1 => 16,
        _ => 20,
    };
    let prefix = if d.version > 0 && d.default_length == 0 { 4 } else { 0 };
    let mut found = Vec::new();
    for entry in &d.entries {
        place += prefix;
        assert_eq!(s[place..place + entry.payload.len()], entry.payload);
        found.push([place as u64, entry.payload.len() as u64]);
        place += entry.payload.len();
    }
    found
}

fn entry(told: &Result<SampleGroupDescription>, places: &[[u64; 2]], index: u32) -> Answer<[u64; 2]> {
    match told {
        Err(e) => Answer::Refused(number(e)),
        Ok(d) => match d.entry(index) {
            None => Answer::None,
            Some(_) => Answer::Given(places[index as usize - 1]),
        },
    }
}

pub fn payload(random: &mut Random, version: u8, kind: &[u8; 4], default_length: u32, count: u32, body: &[u8]) -> Vec<u8> {
    let mut s = vec![version, random.next() as u8, 0, 0];
    s.extend(kind);
    if version >= 1 {
        s.extend(default_length.to_be_bytes());
    }
    if version >= 2 {
        s.extend((random.next() as u32).to_be_bytes());
    }
    s.extend(count.to_be_bytes());
    s.extend(body);
    s
}

fn compare(tally: &mut Tally, random: &mut Random, s: &[u8]) {
    let input = Input::new(s);
    let told = sample_groups::parse_sgpd(s);
    let shown = || format!("{:02x?}", &s[..s.len().min(80)]);
    tally.input("payloads of sgpd");
    tally.same("parse_sgpd", ffi::parse_sgpd(&input, s.len()), theirs(&told), &shown);
    let found = told.as_ref().map_or(vec![], |d| places(s, d));
    let count = found.len() as u32;
    let some = [0, 1, 2, count / 2, count.saturating_sub(1), count, count + 1, random.next() as u32, u32::MAX];
    let wanted: Vec<u32> = if count < 8 { (0..=count + 1).collect() } else { some.to_vec() };
    for index in wanted {
        tally.same("entry", ffi::entry_place(&input, s.len(), index), entry(&told, &found, index), &|| format!("{index} of {}", shown()));
    }
    // all at once: a number too few for them, then enough and one that has no partner
    for numbers in [(2 * found.len()).saturating_sub(1), 2 * found.len() + 1] {
        tally.same("entry_places", ffi::entry_places(&input, s.len(), numbers), all_places(&told, &found, numbers), &|| format!("{numbers} numbers for {}", shown()));
    }
    input.check();
}

/// A body of entries that have a length before each of them.
fn prefixed(random: &mut Random, entries: u64) -> Vec<u8> {
    let mut body = Vec::new();
    for _ in 0..entries {
        let n = random.below(5) as usize;
        body.extend((n as u32).to_be_bytes());
        body.extend(random.bytes(n));
    }
    body
}

/// One lookup over two payloads, with the Rust's answers for them.
fn compare_described(tally: &mut Tally, film: &Parsed, fragment: &Parsed, raw: u32) {
    let split = sample_groups::split_csgp_index(raw);
    let expected = match (&film.told, &fragment.told) {
        (Err(e), _) | (_, Err(e)) => Answer::Refused(number(e)),
        (Ok(_), Ok(_)) => {
            let picked = if split.fragment_local { fragment } else { film };
            entry(&picked.told, &picked.places, split.index).map(|[place, size]| [split.fragment_local as u64, place, size])
        }
    };
    let ours = ffi::described_place(&film.input, film.len, &fragment.input, fragment.len, raw);
    tally.same("described", ours, expected, &|| format!("{raw:08x} of {} and {}", film.shown, fragment.shown));
}

/// A payload with the Rust's answer.
struct Parsed {
    input: Input,
    len: usize,
    told: Result<SampleGroupDescription>,
    places: Vec<[u64; 2]>,
    shown: String,
}

impl Parsed {
    fn new(s: &[u8]) -> Self {
        let told = sample_groups::parse_sgpd(s);
        let places = told.as_ref().map_or(vec![], |d| places(s, d));
        Parsed { input: Input::new(s), len: s.len(), told, places, shown: format!("{:02x?}", &s[..s.len().min(80)]) }
    }

    /// Indices around the seams of the entries, and far ones.
    fn indices(&self) -> [u32; 9] {
        let count = self.places.len() as u32;
        [0, 1, 2, count / 2, count.saturating_sub(1), count, count + 1, 0x0001_0001, 0x7fff_ffff]
    }
}

/// Entries of a version, with a default length or a length before each.
fn some_entries(random: &mut Random, version: u8) -> Vec<u8> {
    let kind = random.pick(&TYPES);
    let entries = random.below(5);
    let default_length = random.pick(&[0, 0, 1, 2, 5]);
    let body = if version > 0 && default_length == 0 { prefixed(random, entries) } else { random.bytes(5 * entries as usize) };
    payload(random, version, kind, default_length, entries as u32, &body)
}

/// A fragment's payloads of 1 MiB on either side or both, whole and one byte short.
fn long_fragments(tally: &mut Tally, random: &mut Random) {
    for version in VERSIONS {
        let short = some_entries(random, version);
        let long = mebibyte(random, version, b"abcd", if version % 2 == 0 { 3 } else { 0 }).1;
        let other = mebibyte(random, VERSIONS[version as usize % 4 + 1], b"roll", 0).1;
        for (film, fragment) in [(&long, &short), (&short, &long), (&long, &other), (&other, &long)] {
            for [cut, cut_fragment] in [[0, 0], [1, 0], [0, 1]] {
                let (film, fragment) = (Parsed::new(&film[..film.len() - cut]), Parsed::new(&fragment[..fragment.len() - cut_fragment]));
                for (payload, mark) in [(&film, 0), (&fragment, 1 << 31)] {
                    for index in payload.indices() {
                        compare_described(tally, &film, &fragment, index | mark);
                    }
                }
                film.input.check();
                fragment.input.check();
            }
        }
    }
}

/// The two payloads of a fragment, in every pair of versions, whole or not: each part by its mark, indices at the seams and far ones.
fn fragments(tally: &mut Tally, random: &mut Random) {
    for film_version in VERSIONS {
        for fragment_version in VERSIONS {
            for _ in 0..1500 {
                let [film, fragment] = [film_version, fragment_version].map(|version| {
                    let mut s = some_entries(random, version);
                    if random.one_in(6) {
                        s.truncate(random.below(s.len() as u64) as usize);
                    }
                    Parsed::new(&s)
                });
                for (payload, mark) in [(&film, 0), (&fragment, 1 << 31)] {
                    for index in payload.indices() {
                        compare_described(tally, &film, &fragment, index | mark);
                    }
                }
                compare_described(tally, &film, &fragment, random.next() as u32);
                film.input.check();
                fragment.input.check();
            }
        }
    }
    for k in 0..100_000u64 {
        let raw = if k < 1000 { k as u32 } else { random.next() as u32 };
        let split = sample_groups::split_csgp_index(raw);
        tally.same("split_csgp_index", ffi::split_csgp_index(raw), Answer::Given([split.index as u64, split.fragment_local as u64]), &|| format!("{raw:08x}"));
    }
    // The rate of a point has no counterpart in the Rust: half a hundred is added and the rest dropped, and where nothing was dropped at an odd
    // number, it was an exact half, which belongs to the even one below.
    let nearest = |x: u64| {
        let up = (x + 50) / 100;
        if (x + 50) % 100 == 0 && up % 2 == 1 { up - 1 } else { up }
    };
    for bitrate in [0, 1, 2, 49, 50, 51, 99, 100, 101, 149, 150, 151, 249, 250, 251, 349, 350, 351, 12345, 1 << 31, u32::MAX - 50, u32::MAX - 1, u32::MAX] {
        for share in 0..=u16::MAX {
            tally.same("rate_of_point", ffi::rate_of_point(bitrate, share), nearest(bitrate as u64 * share as u64), &|| format!("{bitrate} {share}"));
        }
    }
}

/// Every version and type with default lengths 0 to 64 and the largest, or lengths 0 to 64 before each entry; counts around the entries that
/// are there and the largest; every truncation.
fn lengths(tally: &mut Tally, random: &mut Random) {
    for version in VERSIONS.into_iter().filter(|&version| version > 0) {
        for kind in TYPES {
            for length in (0..=64).chain([u32::MAX]) {
                let size = length.min(9) as usize;
                let body = random.bytes(if length > 64 { 9 } else { 2 * length as usize + size });
                for count in [0, 1, 2, 3, u32::MAX] {
                    if length > 0 {
                        let s = payload(random, version, kind, length, count, &body);
                        truncations(tally, random, &s);
                    }
                }
                let mut prefixed = length.to_be_bytes().to_vec();
                prefixed.extend(&body[..body.len().min(length as usize)]);
                let second = random.below(5) as u32;
                prefixed.extend(second.to_be_bytes());
                prefixed.extend(random.bytes(second as usize));
                for count in [0, 1, 2, 3, u32::MAX] {
                    let s = payload(random, version, kind, 0, count, &prefixed);
                    truncations(tally, random, &s);
                }
            }
        }
    }
}

/// Version 0: every type with bodies of 0 to 64 bytes (and twice as many for the types of two bytes), by every count up to behind their bytes
/// and by the largest.
fn shares(tally: &mut Tally, random: &mut Random) {
    for kind in TYPES {
        let body = random.bytes(132);
        for count in (0..=66).chain([u32::MAX]) {
            let s = payload(random, 0, kind, 0, count, &body);
            let longest = if matches!(kind, b"roll" | b"prol") { s.len() } else { s.len() - 66 };
            truncations(tally, random, &s[..longest]);
        }
    }
}

fn truncations(tally: &mut Tally, random: &mut Random, s: &[u8]) {
    for len in 0..=s.len() {
        compare(tally, random, &s[..len]);
    }
}

/// A payload of exactly 1 MiB and its count of entries: as many as fill it, by the version's own sizes, by a default length, or (default length 0)
/// with a length before each.
fn mebibyte(random: &mut Random, version: u8, kind: &[u8; 4], default_length: u32) -> (u32, Vec<u8>) {
    let size = MIB - payload(random, version, kind, 0, 0, &[]).len();
    let (count, body) = match (version, kind) {
        (0, b"roll" | b"prol") => (size / 2, random.bytes(size)),
        (0, b"rap " | b"tele" | b"sap ") => (size, random.bytes(size)),
        (0, _) => (size / 3, random.bytes(size)),
        _ if default_length > 0 => (size / default_length as usize, random.bytes(size)),
        _ => {
            let (mut body, mut count) = (Vec::new(), 1);
            while size - body.len() > 4 + 8 {
                body.extend(prefixed(random, 1));
                count += 1;
            }
            let last = size - body.len() - 4;
            body.extend((last as u32).to_be_bytes());
            body.extend(random.bytes(last));
            (count, body)
        }
    };
    (count as u32, payload(random, version, kind, default_length, count as u32, &body))
}

/// Every type in every version at exactly 1 MiB, whole and cut, and with an entry too many.
fn mebibytes(tally: &mut Tally, random: &mut Random) {
    for version in VERSIONS {
        for kind in TYPES {
            let forms: &[u32] = if version == 0 { &[0] } else { &[0, 3] };
            for &default_length in forms {
                let (count, mut s) = mebibyte(random, version, kind, default_length);
                assert_eq!(s.len(), MIB);
                compare(tally, random, &s);
                compare(tally, random, &s[..MIB - 1]);
                let at = [8, 12, 16][version.min(2) as usize];
                s[at..at + 4].copy_from_slice(&(count + 1).to_be_bytes());
                compare(tally, random, &s);
                s[at..at + 4].copy_from_slice(&1000u32.to_be_bytes());
                compare(tally, random, &s);
            }
        }
    }
}

pub fn run(tally: &mut Tally) {
    let mut random = Random::new(10);
    lengths(tally, &mut random);
    shares(tally, &mut random);
    // Random entries, some damaged.
    for _ in 0..300_000 {
        let version = random.pick(&VERSIONS);
        let kind = random.pick(&TYPES);
        let entries = random.below(6);
        let default_length = random.pick(&[0, 0, 1, 2, 5]);
        let body = if version > 0 && default_length == 0 { prefixed(&mut random, entries) } else { let n = random.below(20) as usize; random.bytes(n) };
        let mut s = payload(&mut random, version, kind, default_length, entries as u32, &body);
        if random.one_in(3) {
            let k = random.below(s.len() as u64) as usize;
            s[k] = random.pick(&[0, 1, 2, 255]);
        }
        compare(tally, &mut random, &s);
    }
    fragments(tally, &mut random);
}

/// The part that takes long inputs.
pub fn run_long(tally: &mut Tally) {
    let mut random = Random::new(16);
    mebibytes(tally, &mut random);
    long_fragments(tally, &mut random);
}

fn random_bytes(n: usize) -> Vec<u8> {
    Random::new(n as u64 + 100).bytes(n)
}

/// What entry_places answers with a run of so many numbers.
fn all_places(told: &Result<SampleGroupDescription>, found: &[[u64; 2]], numbers: usize) -> Answer<Vec<(u32, u32)>> {
    match told {
        Err(e) => Answer::Refused(number(e)),
        Ok(_) if numbers / 2 < found.len() => Answer::Refused(29),
        Ok(_) => Answer::Given(found.iter().map(|&[place, size]| (place as u32, size as u32)).collect()),
    }
}

/// Payloads that are stored: those of document 01's cases, one that is cut at every byte, and others.
fn stored(mut add: impl FnMut(&[u8])) {
    let mut random = Random::new(11);
    for (count, len) in [(3, 9), (2, 3), (2, 2)] {
        add(&payload(&mut Random::new(12), 0, b"abcd", 0, count, &random_bytes(len)));
    }
    let whole = payload(&mut Random::new(12), 2, b"roll", 0, 2, &[0, 0, 0, 2, 255, 254, 0, 0, 0, 1, 7]);
    for len in 11..=whole.len() {
        add(&whole[..len]);
    }
    for _ in 0..60 {
        let version = random.pick(&VERSIONS);
        let kind = random.pick(&TYPES);
        let entries = random.below(4);
        let default_length = random.pick(&[0, 0, 1, 2, 5]);
        let body = if version > 0 && default_length == 0 { prefixed(&mut random, entries) } else { let n = random.below(12) as usize; random.bytes(n) };
        let mut s = payload(&mut random, version, kind, default_length, entries as u32, &body);
        if random.one_in(3) {
            s.truncate(random.below(s.len() as u64) as usize);
        }
        add(&s);
    }
}

/// Entries 9 and 10: parse_sgpd and entry_place.
pub fn vectors(out: &mut Vectors) {
    stored(|s| {
        let told = sample_groups::parse_sgpd(s);
        out.add(9, &[], s, theirs(&told).map(|n| n.to_vec()));
        let found = told.as_ref().map_or(vec![], |d| places(s, d));
        for index in 0..=(found.len() as u32 + 1).min(4) {
            out.add(10, &[index as u64], s, entry(&told, &found, index).map(|n| n.to_vec()));
        }
    });
}

/// Entry 35: entry_places, with a number too few for all entries, then with enough and one that has no partner.
pub fn records(out: &mut Vectors) {
    stored(|s| {
        let told = sample_groups::parse_sgpd(s);
        let found = told.as_ref().map_or(vec![], |d| places(s, d));
        for numbers in [(2 * found.len()).saturating_sub(1), 2 * found.len() + 1] {
            out.add(35, &[numbers as u64], s, all_places(&told, &found, numbers).map(|all| records_of(&all)));
        }
    });
}

/// How many records, then their numbers.
pub fn records_of(all: &[(u32, u32)]) -> Vec<u64> {
    let numbers = all.iter().flat_map(|&(a, b)| [a as u64, b as u64]);
    std::iter::once(all.len() as u64).chain(numbers).collect()
}
