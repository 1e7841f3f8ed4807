//! Part 8 of document 01: the cue listing. The expected answer is computed sample by sample over the Rust's own calls; what the Rust has no
//! counterpart for (the walk's choice of children, 28, 29, 50 to 54 and the listing's form) is written here by the document's words.

use super::ffi::{self, Answer, Input, Listing};
use super::random::Random;
use super::sgpd::{self, TYPES};
use super::stbl::{self, Cue, Film, Parts};
use super::tally::Tally;
use super::vectors::{Vectors, eights};
use super::{atoms, csgp, entries, tables};
use crate::film_index::ROW_NUMBERS;
use crate::atom;
use crate::sample_groups::{self as rust, SampleGroupDescription, SampleToGroup, SampleToGroupEntry};
use crate::standalone::Error;
use std::collections::BTreeMap;
use std::io::Cursor;

/// The payloads that the walk takes.
pub struct Sources {
    pub csgp: bool,
    pub table: Vec<u8>,
    pub sgpd: Vec<u8>,
}

/// The Rust's walk over the children, with a visitor that takes those of the named type.
pub fn sources(s: &[u8], kind: &[u8; 4]) -> Result<Sources, u32> {
    let (mut table, mut sgpd, mut refusal) = (None, None, None);
    let walked = atom::walk_children(&mut Cursor::new(s), Some(s.len() as u64), |r, h| {
        let mut visit = || {
            let (short, second) = match &h.fourcc {
                b"sbgp" | b"csgp" => (20, 51),
                b"sgpd" => (30, 53),
                _ => return Ok(()),
            };
            let body = atom::read_payload(r, h).map_err(|e| atoms::number(&e, 11))?;
            if body.len() < 8 {
                return Err(short);
            }
            if body[4..8] != *kind {
                return Ok(());
            }
            let taken = if second == 51 { &mut table } else { &mut sgpd };
            match taken.replace((h.fourcc == *b"csgp", body)) {
                Some(_) => Err(second),
                None => Ok(()),
            }
        };
        visit().map_err(|n| {
            refusal = Some(n);
            Error::invalid("the visitor's refusal")
        })
    });
    if let Err(e) = walked {
        return Err(refusal.unwrap_or_else(|| atoms::number(&e, 2)));
    }
    let (csgp, table) = table.ok_or(50u32)?;
    let (_, sgpd) = sgpd.ok_or(52u32)?;
    Ok(Sources { csgp, table, sgpd })
}

/// A table that was read. `over`: behind its rows stands the sample that would make 28. `endless`: it has more rows than are here.
pub struct Rows {
    pub table: SampleToGroup,
    pub over: bool,
    pub endless: bool,
}

/// So many rows are taken of a csgp that the Rust cannot expand.
const CAP: usize = 64;

/// The patterns of a csgp that the Rust cannot expand, or to which it gives another meaning (document 02, A7): sample counts and indices, a mark in bit 31.
pub fn patterns(s: &[u8]) -> Result<Vec<(u32, Vec<u32>)>, u32> {
    let width = |from: u32| 4usize << (s[3] >> from & 3);
    let parameter = s[3] >> 6 & 1 == 1;
    if parameter && s.len() < 12 {
        return Err(21);
    }
    let at = if parameter { 12 } else { 8 };
    let declared = u32::from_be_bytes(s.get(at..at + 4).ok_or(22u32)?.try_into().unwrap());
    let mut place = 8 * (at + 4);
    let mut field = |width: usize, cut: u32| {
        if place + width > 8 * s.len() {
            return Err(cut);
        }
        let value = (place..place + width).fold(0u32, |v, k| v << 1 | (s[k / 8] >> (7 - k % 8) & 1) as u32);
        place += width;
        Ok(value)
    };
    let mut pairs = Vec::new();
    for _ in 0..declared {
        pairs.push((field(width(4), 24)?, field(width(2), 25)?));
    }
    let mut read = Vec::new();
    for (length, count) in pairs {
        if length == 0 {
            return Err(26);
        }
        let mut indices = Vec::new();
        for _ in 0..length {
            let index = field(width(0), 27)?;
            let mark = 1u32 << (width(0) - 1);
            indices.push(match s[3] >> 7 {
                1 => index % mark | (index / mark) << 31,
                _ if index >> 31 == 1 => return Err(67),
                _ => index,
            });
        }
        read.push((count, indices));
    }
    Ok(read)
}

/// Part 4's replay, where a pattern of one index is taken at once.
fn replay(patterns: &[(u32, Vec<u32>)]) -> Rows {
    let mut rows = Rows { table: SampleToGroup { grouping_type: *b"    ", grouping_type_parameter: 0, entries: vec![] }, over: false, endless: false };
    for (count, indices) in patterns {
        let step = if indices.iter().all(|i| *i == indices[0]) { *count } else { 1 };
        let mut k = 0;
        while k < *count {
            let index = indices[k as usize % indices.len()];
            match rows.table.entries.last_mut() {
                Some(row) if row.group_description_index == index => match row.sample_count.checked_add(step) {
                    Some(sum) => row.sample_count = sum,
                    None => {
                        rows.over = true;
                        return rows;
                    }
                },
                _ => rows.table.entries.push(SampleToGroupEntry { sample_count: step, group_description_index: index }),
            }
            if rows.table.entries.len() > CAP {
                rows.endless = true;
                return rows;
            }
            k += step;
        }
    }
    rows
}

pub fn read_table(sources: &Sources) -> Result<Rows, u32> {
    let s = &sources.table;
    let read = match sources.csgp {
        false => rust::parse_sbgp(s),
        true if csgp::in_domain(s) => rust::parse_csgp(s),
        true if csgp::expands(s) => csgp::by_document(s),
        true => return Ok(replay(&patterns(s)?)),
    };
    Ok(Rows { table: read.map_err(|e| tables::number(&e))?, over: false, endless: false })
}

/// What a sample means; the Rust's own equality says whether two are alike.
#[derive(Clone, Debug, PartialEq)]
pub enum Meaning {
    NoGroup,
    Past,
    Roll(rust::RollRecovery),
    Prol(rust::AudioPreRoll),
    Rap(rust::VisualRandomAccess),
    Tele(rust::TemporalLevel),
    Sap(rust::StreamAccessPoint),
    Rash(rust::RateShare),
    Alst(rust::AlternativeStartup),
    Raw(Vec<u8>),
}

pub fn decoded(kind: &[u8; 4], s: &[u8]) -> Result<Meaning, u32> {
    let read = match kind {
        b"roll" => rust::decode_roll(s).map(Meaning::Roll),
        b"prol" => rust::decode_prol(s).map(Meaning::Prol),
        b"rap " => rust::decode_rap(s).map(Meaning::Rap),
        b"tele" => rust::decode_tele(s).map(Meaning::Tele),
        b"sap " => rust::decode_sap(s).map(Meaning::Sap),
        b"rash" => rust::decode_rash(s).map(Meaning::Rash),
        b"alst" => rust::decode_alst(s).map(Meaning::Alst),
        _ => Ok(Meaning::Raw(s.to_vec())),
    };
    read.map_err(|e| entries::number(&e))
}

fn put(out: &mut Vec<u8>, mut n: u64) {
    while n >= 128 {
        out.push(n as u8 & 127 | 128);
        n /= 128;
    }
    out.push(n as u8);
}

/// The kind and the value of a stretch.
fn put_meaning(out: &mut Vec<u8>, meaning: &Meaning) {
    let mut numbers = vec![2u64];
    match meaning {
        Meaning::NoGroup => numbers = vec![0],
        Meaning::Past => numbers = vec![1],
        Meaning::Roll(v) => numbers.push((v.roll_distance as i64 + 32_768) as u64),
        Meaning::Prol(v) => numbers.push((v.roll_distance as i64 + 32_768) as u64),
        Meaning::Rap(v) => numbers.extend([v.num_leading_samples_known as u64, v.num_leading_samples as u64]),
        Meaning::Tele(v) => numbers.push(v.level_independently_decodable as u64),
        Meaning::Sap(v) => numbers.extend([v.dependent as u64, v.sap_type as u64]),
        Meaning::Rash(v) => {
            numbers.push(v.operation_points.len() as u64);
            numbers.extend(v.operation_points.iter().flat_map(|p| [p.available_bitrate as u64, p.target_rate_share as u64]));
            numbers.extend([v.maximum_bitrate as u64, v.minimum_bitrate as u64, v.discard_priority as u64]);
        }
        Meaning::Alst(v) => {
            numbers.extend([v.roll_count as u64, v.first_output_sample as u64]);
            numbers.extend(v.sample_offsets.iter().map(|&o| o as u64));
            numbers.push(v.pieces.len() as u64);
            numbers.extend(v.pieces.iter().flat_map(|p| [p.num_output_samples as u64, p.num_total_samples as u64]));
        }
        Meaning::Raw(bytes) => numbers.push(bytes.len() as u64),
    }
    numbers.into_iter().for_each(|n| put(out, n));
    if let Meaning::Raw(bytes) = meaning {
        out.extend(bytes);
    }
}

/// Tables of so many samples are listed sample by sample; longer ones row by row.
const SAMPLES: u64 = 5000;

/// The decoders' refusals in sample order, and then the listing.
fn listed(kind: &[u8; 4], table: &SampleToGroup, sgpd: &SampleGroupDescription) -> Result<Vec<u8>, u32> {
    let covered = table.covered_samples();
    let one_by_one = covered <= SAMPLES;
    let steps: Vec<(u64, u32)> = if one_by_one {
        (0..covered as u32).map(|k| (1, table.group_index_for_sample(k))).collect()
    } else {
        table.entries.iter().filter(|row| row.sample_count > 0).map(|row| (row.sample_count as u64, row.group_description_index)).collect()
    };
    let mut values: Vec<Option<Meaning>> = vec![None; sgpd.entries.len()];
    let mut stretches: Vec<(u64, Meaning)> = Vec::new();
    for (n, index) in steps {
        let meaning = match sgpd.entry(index) {
            None if index == 0 => &Meaning::NoGroup,
            None => &Meaning::Past,
            Some(entry) => {
                let value = &mut values[index as usize - 1];
                if value.is_none() {
                    *value = Some(decoded(kind, &entry.payload)?);
                }
                value.as_ref().unwrap()
            }
        };
        match stretches.last_mut() {
            Some((length, last)) if last == meaning => *length += n,
            _ => stretches.push((n, meaning.clone())),
        }
    }
    let mut out = kind.to_vec();
    put(&mut out, covered);
    for (length, meaning) in &stretches {
        put(&mut out, *length);
        put_meaning(&mut out, meaning);
    }
    Ok(out)
}

/// The expected answers of one body and type, for every room that may be lent.
enum Told {
    Refused(u32),
    Read(Rows, Result<Vec<u8>, u32>),
}

fn told(s: &[u8], kind: &[u8; 4]) -> Told {
    let sources = match sources(s, kind) {
        Ok(sources) => sources,
        Err(n) => return Told::Refused(n),
    };
    let rows = match read_table(&sources) {
        Ok(rows) => rows,
        Err(n) => return Told::Refused(n),
    };
    if rows.over || rows.endless {
        return Told::Read(rows, Err(28));
    }
    let after = rust::parse_sgpd(&sources.sgpd).map_err(|e| sgpd::number(&e)).and_then(|d| listed(kind, &rows.table, &d));
    Told::Read(rows, after)
}

impl Told {
    fn rows(&self) -> usize {
        match self {
            Told::Refused(_) => 0,
            Told::Read(rows, _) => rows.table.entries.len(),
        }
    }

    fn answer(&self, records: usize, room: usize) -> Answer<Listing> {
        match self {
            Told::Refused(n) => Answer::Refused(*n),
            Told::Read(..) if records < self.rows() => Answer::Refused(29),
            Told::Read(rows, Err(n)) => {
                assert!(!rows.endless, "the rows of this table are not known");
                Answer::Refused(*n)
            }
            Told::Read(_, Ok(listing)) if room < listing.len() => Answer::Refused(54),
            Told::Read(rows, Ok(listing)) => {
                let rows = rows.table.entries.iter().map(|e| (e.sample_count, e.group_description_index)).collect();
                Answer::Given((listing.clone(), rows))
            }
        }
    }
}

/// Bytes and rows that a listing needs, or its refusal where neither runs out; none where the rows are not known.
pub fn needs(s: &[u8], kind: &[u8; 4]) -> Option<Answer<[u64; 2]>> {
    Some(match told(s, kind) {
        Told::Refused(n) => Answer::Refused(n),
        Told::Read(rows, _) if rows.endless => return None,
        Told::Read(_, Err(n)) => Answer::Refused(n),
        Told::Read(rows, Ok(listing)) => Answer::Given([listing.len() as u64, rows.table.entries.len() as u64]),
    })
}

/// The refusals that a body of a stbl can meet, 55 aside.
const REFUSALS: [u32; 35] = [1, 2, 3, 4, 5, 6, 8, 20, 21, 22, 23, 24, 25, 26, 27, 28, 29, 30, 31, 32, 33, 34, 35, 40, 41, 42, 43, 44, 45, 50, 51, 52, 53, 54, 67];

/// How often each refusal was given.
type Seen = BTreeMap<u32, u64>;

/// One body: records and output exactly enough, some more, an odd number more, one less of either, none. The listing, where there is one.
fn compare(tally: &mut Tally, random: &mut Random, seen: &mut Seen, kind: &[u8; 4], s: &[u8]) -> Option<Vec<u8>> {
    let input = Input::new(s);
    tally.input("bodies of stbl");
    let told = told(s, kind);
    let endless = matches!(&told, Told::Read(rows, _) if rows.endless);
    let numbers = ROW_NUMBERS * told.rows();
    let mut lent = Vec::new();
    if !endless {
        let length = if let Told::Read(_, Ok(listing)) = &told { listing.len() } else { random.pick(&[0, 9, 80]) };
        lent.extend([(numbers, length), (numbers + 1 + random.below(5) as usize, length + random.below(20) as usize)]);
        if let Told::Read(_, Ok(_)) = &told {
            lent.push((numbers, length - 1));
            if random.one_in(4) {
                lent.extend([(numbers + 1, 0), (numbers, random.below(length as u64) as usize), (0, 0)]);
            }
        }
    }
    if numbers > 0 {
        lent.extend([(numbers - 1, 100), (random.below(numbers as u64) as usize, 200)]);
    }
    let mut listing = None;
    for (numbers, room) in lent {
        let expected = told.answer(numbers / ROW_NUMBERS, room);
        let ours = ffi::cue_listing(&input, s.len(), *kind, numbers, room);
        match &ours {
            Answer::Given((bytes, _)) => listing = Some(bytes.clone()),
            Answer::Refused(n) => *seen.entry(*n).or_insert(0) += 1,
            Answer::None => {}
        }
        tally.same("cue_listing", ours, expected, &|| {
            format!("{} in {:02x?} with {numbers} numbers, {room} bytes", kind.escape_ascii(), &s[..s.len().min(400)])
        });
    }
    input.check();
    listing
}

/// The sample table of document 01: 62 bytes.
pub fn starred() -> Vec<u8> {
    let sbgp = [0, 0, 0, 0, b'r', b'o', b'l', b'l', 0, 0, 0, 2, 0, 0, 0, 2, 0, 0, 0, 1, 0, 0, 0, 1, 0, 0, 0, 0];
    let sgpd = [1, 0, 0, 0, b'r', b'o', b'l', b'l', 0, 0, 0, 2, 0, 0, 0, 1, 0xff, 0xfe];
    [&[0, 0, 0, 36], &b"sbgp"[..], &sbgp, &[0, 0, 0, 26], &b"sgpd"[..], &sgpd].concat()
}

/// Values of a type, no two alike.
fn values(random: &mut Random, kind: &[u8; 4], most: u64) -> Vec<Vec<u8>> {
    let mut values: Vec<Vec<u8>> = Vec::new();
    for _ in 0..random.below(most + 1) {
        let value = stbl::entry(random, kind);
        if values.iter().all(|v| decoded(kind, v) != decoded(kind, &value)) {
            values.push(value);
        }
    }
    values
}

pub fn film(random: &mut Random, samples: u64) -> Film {
    let kind = *random.pick(&TYPES);
    let values = values(random, &kind, 4);
    let cues = stbl::cues(random, values.len(), samples);
    Film { kind, values, cues }
}

/// A film of which some entries do not decode, or have a length that is not theirs.
fn wild(random: &mut Random, samples: u64) -> Film {
    let mut film = film(random, samples);
    for value in &mut film.values {
        if random.one_in(3) {
            value.truncate(random.below(value.len() as u64 + 1) as usize);
        }
        if random.one_in(4) {
            let n = random.below(4) as usize;
            value.extend(random.bytes(n));
        }
    }
    film
}

/// Parts that the meanings say nothing of: a payload cut anywhere, or shares of version 0.
pub fn cut_or_shared(random: &mut Random, film: &Film) -> Parts {
    let mut parts = stbl::parts(random, film);
    if random.one_in(2) {
        let cut = if random.one_in(2) { &mut parts.table } else { &mut parts.sgpd };
        cut.truncate(random.below(cut.len().min(40) as u64) as usize);
        return parts;
    }
    let n = random.below(14) as usize;
    let count = random.below(5) as u32;
    let body = random.bytes(n);
    parts.sgpd = sgpd::payload(random, 0, &film.kind, 0, count, &body);
    parts
}

/// Numbers at the limits of sizes and counts.
const LIMITS: [u32; 14] = [0, 1, 2, 3, 7, 8, 15, 16, 255, 65_535, 0x1000_0000, 0x7fff_ffff, 0xffff_fffe, 0xffff_ffff];

/// One or two kinds of damage.
pub fn damaged(random: &mut Random, mut s: Vec<u8>) -> Vec<u8> {
    for _ in 0..1 + random.below(2) {
        if s.len() < 8 {
            break;
        }
        let len = s.len() as u64;
        match random.below(4) {
            0 => s[random.below(len) as usize] = random.next() as u8,
            1 => s[random.below(len) as usize] ^= 1 << random.below(8),
            2 => {
                let at = random.below(len - 3) as usize;
                s[at..at + 4].copy_from_slice(&random.pick(&LIMITS).to_be_bytes());
            }
            _ => s.truncate(random.below(len + 1) as usize),
        }
    }
    s
}

/// Children left out, doubled, open, short or past the end.
pub fn misbuilt(random: &mut Random, film: &Film) -> Vec<u8> {
    let parts = stbl::parts(random, film);
    let table = stbl::atom(random, if parts.csgp { b"csgp" } else { b"sbgp" }, &parts.table);
    let sgpd = stbl::atom(random, b"sgpd", &parts.sgpd);
    let n = random.below(9) as usize;
    let mut body = random.bytes(n);
    if n == 8 {
        body[4..8].copy_from_slice(&film.kind);
    }
    let name = random.pick(&[b"sbgp", b"csgp", b"sgpd", b"free"]);
    let short = stbl::atom(random, name, &body);
    let open = [&[0; 4], &name[..], &parts.table].concat();
    let far = [&(parts.sgpd.len() as u32 + 9).to_be_bytes(), &name[..], &parts.sgpd].concat();
    // the largest size that a header can have
    let endless = [&[0, 0, 0, 1], &name[..], &[255; 8]].concat();
    let choice = [&table, &sgpd, &table, &sgpd, &table, &sgpd, &short, &open, &far, &endless];
    let mut s = Vec::new();
    for _ in 0..random.below(5) {
        s.extend(random.pick(&choice));
    }
    s
}

/// Tables whose counts are far from what can be listed sample by sample: rows and patterns of one index, and of two.
pub fn large(random: &mut Random) -> (Film, Vec<u8>) {
    const COUNTS: [u32; 8] = [0, 1, 3, 1000, 1 << 30, 0x8000_0000, 0xffff_fffe, 0xffff_ffff];
    let mut film = film(random, 3);
    film.values.truncate(3);
    film.cues = stbl::cues(random, film.values.len(), 2);
    let mut parts = stbl::parts(random, &film);
    let rows: Vec<(u32, u32)> = (0..random.below(6)).map(|_| (random.pick(&COUNTS), random.below(4) as u32)).collect();
    let mut table = if random.one_in(2) {
        parts.csgp = false;
        super::sbgp::payload(random, 0, rows.len() as u32, &rows)
    } else {
        parts.csgp = true;
        let mixed = random.one_in(4);
        let mut pattern = |&(n, index): &(u32, u32)| {
            let length = 1 + random.below(3) as u32;
            let indices = (0..length).map(|k| if mixed && k == 1 { 5 } else { index }).collect();
            (length, n, indices)
        };
        let patterns: Vec<csgp::Pattern> = rows.iter().map(&mut pattern).collect();
        let shape = csgp::Shape { index: 0, count: 3, length: 0, parameter: false, marks: false };
        csgp::payload(random, shape, patterns.len() as u32, &patterns).unwrap()
    };
    table[4..8].copy_from_slice(&film.kind);
    parts.table = table;
    let body = stbl::assembled(random, &film.kind, &parts);
    (film, body)
}

pub fn run(tally: &mut Tally) {
    let (random, seen) = (&mut Random::new(21), &mut Seen::new());
    let starred = starred();
    for kind in TYPES {
        compare(tally, random, seen, kind, &starred);
        compare(tally, random, seen, kind, &[]);
    }
    // Every truncation of a body and every byte of it changed.
    for round in 0..400 {
        let film = if round % 4 == 3 { wild(random, 12) } else { film(random, 12) };
        let s = if round == 0 { starred.clone() } else { stbl::body(random, &film) };
        let kind = if round == 0 { *b"roll" } else { film.kind };
        for len in 0..s.len() {
            compare(tally, random, seen, &kind, &s[..len]);
        }
        for at in 0..s.len() {
            for value in [s[at] ^ 1 << random.below(8), random.next() as u8] {
                let mut changed = s.clone();
                changed[at] = value;
                compare(tally, random, seen, &kind, &changed);
            }
        }
    }
    // Whole films, films with entries that do not decode, damage, cut payloads, shares, and children that should not be there.
    for _ in 0..40_000 {
        let film = if random.one_in(3) { wild(random, 60) } else { film(random, 60) };
        let s = stbl::body(random, &film);
        compare(tally, random, seen, &film.kind, &s);
        let s = damaged(random, s);
        compare(tally, random, seen, &film.kind, &s);
        let parts = cut_or_shared(random, &film);
        let s = stbl::assembled(random, &film.kind, &parts);
        compare(tally, random, seen, &film.kind, &s);
        let s = misbuilt(random, &film);
        compare(tally, random, seen, &film.kind, &s);
    }
    for _ in 0..20_000 {
        let (film, s) = large(random);
        compare(tally, random, seen, &film.kind, &s);
    }
    // Some thousands of samples.
    for _ in 0..600 {
        let film = film(random, 5000);
        let s = stbl::body(random, &film);
        compare(tally, random, seen, &film.kind, &s);
    }
    assert!(seen.keys().eq(&REFUSALS), "not every refusal was met, or one that cannot be: {seen:?}");
}

/// The listing by this library of a film that must have one.
fn ours(tally: &mut Tally, random: &mut Random, kind: &[u8; 4], s: &[u8]) -> Vec<u8> {
    compare(tally, random, &mut Seen::new(), kind, s).expect("a film that is listed")
}

/// A film that means something else: in one sample, in a value that a sample has, in the type, or in the number of samples.
fn otherwise(random: &mut Random, film: &Film) -> Option<Film> {
    let mut other = film.clone();
    match random.below(5) {
        0 | 1 if !film.cues.is_empty() => {
            let at = random.below(film.cues.len() as u64) as usize;
            let choice: Vec<Cue> =
                [Cue::NoGroup, Cue::Past].into_iter().chain((0..film.values.len()).map(Cue::Value)).filter(|c| *c != film.cues[at]).collect();
            other.cues[at] = random.pick(&choice);
        }
        2 => {
            other.kind = match &film.kind {
                b"roll" => *b"prol",
                b"prol" => *b"roll",
                b"rap " => *b"tele",
                b"tele" => *b"sap ",
                b"sap " => *b"rap ",
                b"seig" => *b"abcd",
                _ => *b"seig",
            };
        }
        3 if !film.cues.is_empty() => {
            other.cues.pop();
        }
        3 => other.cues.push(Cue::NoGroup),
        _ => {
            let used = film.cues.iter().find_map(|c| if let Cue::Value(v) = c { Some(*v) } else { None })?;
            let value = stbl::entry(random, &film.kind);
            if film.values.iter().any(|v| decoded(&film.kind, v) == decoded(&film.kind, &value)) {
                return None;
            }
            other.values[used] = value;
        }
    }
    Some(other)
}

/// Pairs: the same meanings by other tables, numberings and descriptions have the same listing; other meanings have another.
pub fn run_pairs(tally: &mut Tally) {
    let random = &mut Random::new(22);
    for round in 0..60_000 {
        let film = film(random, if round % 500 == 0 { 3000 } else { 70 });
        let [a, b] = [0; 2].map(|_| stbl::body(random, &film));
        let listing = ours(tally, random, &film.kind, &a);
        let same = ours(tally, random, &film.kind, &b);
        tally.input("pairs of like films");
        tally.same("cue_listing", listing == same, true, &|| format!("the same listing of {film:?}: {a:02x?} and {b:02x?}"));
        if let Some(other) = otherwise(random, &film) {
            let c = stbl::body(random, &other);
            let listing_c = ours(tally, random, &other.kind, &c);
            tally.input("pairs of unlike films");
            tally.same("cue_listing", listing == listing_c, false, &|| format!("the same listing of {film:?} and {other:?}: {a:02x?} and {c:02x?}"));
        }
    }
}

/// A body's answers with their arguments, to be stored: records and output exactly enough, some more, and one less of either. None of those that would make long
/// lines.
pub fn answers(random: &mut Random, kind: &[u8; 4], s: &[u8]) -> Vec<([u64; 3], Answer<Vec<u64>>)> {
    let told = told(s, kind);
    let length = match &told {
        Told::Read(rows, _) if rows.endless => return vec![],
        Told::Read(_, Ok(listing)) => listing.len(),
        _ => 0,
    };
    let numbers = ROW_NUMBERS * told.rows();
    if s.len() > 110 || numbers > 20 || length > 60 {
        return vec![];
    }
    let spare = (numbers + random.below(4) as usize, length + random.below(9) as usize);
    let lent = [(numbers, length), spare, (numbers.saturating_sub(1), length), (numbers, length.saturating_sub(1))];
    let answer = |(numbers, room)| {
        let answer = told.answer(numbers / ROW_NUMBERS, room).map(|(listing, rows)| {
            let mut told = vec![listing.len() as u64, rows.len() as u64];
            told.extend(rows.iter().flat_map(|&(n, i)| [n as u64, i as u64]));
            told.extend(eights(&listing));
            told
        });
        ([u32::from_be_bytes(*kind) as u64, numbers as u64, room as u64], answer)
    };
    lent.map(answer).into()
}

/// Short bodies with their types: whole ones with every byte changed, entries that do not decode, damage, cut payloads, shares, children that should not be there, and
/// large counts.
pub fn short_bodies(random: &mut Random, mut take: impl FnMut(&mut Random, &[u8; 4], &[u8])) {
    take(random, b"roll", &starred());
    for kind in TYPES {
        let film = Film { kind: *kind, values: vec![stbl::entry(random, kind)], cues: vec![Cue::Value(0), Cue::Value(0), Cue::NoGroup, Cue::Past] };
        let s = stbl::body(random, &film);
        take(random, kind, &s);
        for at in 0..s.len() {
            let mut changed = s.clone();
            changed[at] = if s[at] == 1 { 0 } else { s[at] ^ 1 << random.below(8) };
            take(random, kind, &changed);
        }
    }
    // A rash without points.
    for _ in 0..8 {
        let s = stbl::body(random, &Film { kind: *b"rash", values: vec![vec![0, 0]], cues: vec![Cue::Value(0)] });
        take(random, b"rash", &s);
    }
    for _ in 0..4000 {
        let film = if random.one_in(3) { wild(random, 6) } else { film(random, 6) };
        let s = stbl::body(random, &film);
        take(random, &film.kind, &s);
        let s = damaged(random, s);
        take(random, &film.kind, &s);
        let parts = cut_or_shared(random, &film);
        let s = stbl::assembled(random, &film.kind, &parts);
        take(random, &film.kind, &s);
        let s = misbuilt(random, &film);
        take(random, &film.kind, &s);
        let (film, s) = large(random);
        take(random, &film.kind, &s);
    }
}

pub fn vectors(out: &mut Vectors) {
    short_bodies(&mut Random::new(23), |random, kind, s| {
        for (arguments, answer) in answers(random, kind, s) {
            out.add(23, &arguments, s, answer);
        }
    });
}
