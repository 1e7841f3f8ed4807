//! Document 02, A3: where decoding begins for a frame. The expected answer is computed sample by sample over the Rust's own calls: the walk, the readers of the
//! tables and of the sgpd, the lookup of the wanted frame, and the decoders; 28, 50 to 53 and 62 and the search are written here by the documents' words.

use super::ffi::{self, Answer, Input};
use super::listing::{self, Meaning};
use super::random::Random;
use super::stbl::{self, Film};
use super::tally::Tally;
use super::vectors::Vectors;
use super::{csgp, film, sbgp, sgpd, writing};
use crate::sample_groups as rust;
use std::borrow::Cow;
use std::cell::OnceCell;
use std::collections::BTreeMap;

/// A table by its patterns: sample counts and indices. A row is a pattern of one index.
type Patterns = Vec<(u32, Vec<u32>)>;

/// Whether a row of the replay would pass the largest count: of a pattern with two different indices only the first and the last samples are replayed,
/// since a period in between ends every row that began before it.
fn row_over(patterns: &Patterns) -> bool {
    let (mut last, mut count) = (None, 0u64);
    for (n, indices) in patterns {
        let (n, length) = (*n as u64, indices.len() as u64);
        let like = indices.iter().all(|i| *i == indices[0]);
        let mut k = 0;
        while k < n {
            let step = if like { n } else { 1 };
            let index = indices[(k % length) as usize];
            count = if last == Some(index) { count + step } else { step };
            last = Some(index);
            if count > u32::MAX as u64 {
                return true;
            }
            k += step;
            if !like && k == 2 * length && n - k > 2 * length {
                k += (n - k) / length * length - length;
            }
        }
    }
    false
}

/// The distance of a sample that is a member, or its decoder's refusal.
type Distance = Result<Option<i64>, u32>;

/// What is read of a body: the patterns, whether the Rust's own table has them, and the descriptions. Tables of up to `samples` samples are searched from the first to
/// the last; the distance of each of theirs is asked for once.
struct Read {
    patterns: Patterns,
    table: Option<rust::SampleToGroup>,
    entries: rust::SampleGroupDescription,
    covered: u64,
    samples: u64,
    each: OnceCell<Vec<Distance>>,
}

fn read(s: &[u8], kind: &[u8; 4]) -> Result<Read, u32> {
    let sources = listing::sources(s, kind)?;
    let whole = !sources.csgp || csgp::expands(&sources.table);
    let (patterns, table): (Patterns, _) = if whole {
        let table = listing::read_table(&sources)?.table;
        (table.entries.iter().map(|row| (row.sample_count, vec![row.group_description_index])).collect(), Some(table))
    } else {
        let patterns = listing::patterns(&sources.table)?;
        if row_over(&patterns) {
            return Err(28);
        }
        (patterns, None)
    };
    let entries = rust::parse_sgpd(&sources.sgpd).map_err(|e| sgpd::number(&e))?;
    let covered = patterns.iter().map(|(n, _)| *n as u64).sum();
    Ok(Read { patterns, table, entries, covered, samples: SAMPLES, each: OnceCell::new() })
}

/// Tables of so many samples are searched from the first sample to the last, and those that are stored of so many; of longer ones the samples up to the frame, or the
/// last so many of them.
const SAMPLES: u64 = 5000;
const STORED: u64 = 40_000;
const WINDOW: u64 = 500;

impl Read {
    /// The indices of the samples from one on, pattern by pattern.
    fn indices(&self, first: u64) -> impl Iterator<Item = u32> {
        let mut passed = 0;
        self.patterns.iter().flat_map(move |(n, indices)| {
            let n = *n as u64;
            let begin = first.saturating_sub(passed).min(n);
            passed += n;
            (begin..n).map(move |k| indices[(k % indices.len() as u64) as usize])
        })
    }

    /// The distance of a member.
    fn distance(&self, kind: &[u8; 4], index: u32) -> Distance {
        let Some(entry) = self.entries.entry(index) else { return Ok(None) };
        Ok(match listing::decoded(kind, &entry.payload)? {
            Meaning::Roll(v) => Some(v.roll_distance as i64),
            Meaning::Rap(_) => Some(0),
            other => panic!("not a type with distances: {other:?}"),
        })
    }

    /// The distances of samples: of all, or, where there are too many, of the last ones up to the frame; and the first of these samples.
    fn distances(&self, kind: &[u8; 4], frame: u64) -> (u64, Cow<'_, [Distance]>) {
        let of = |index: u32| self.distance(kind, index);
        let (first, distances): (u64, Cow<[Distance]>) = if self.covered <= self.samples {
            (0, Cow::Borrowed(self.each.get_or_init(|| self.indices(0).map(of).collect())))
        } else {
            let first = (frame + 1).saturating_sub(WINDOW);
            (first, Cow::Owned(self.indices(first).take((frame + 1 - first) as usize).map(of).collect()))
        };
        if let Some(table) = &self.table {
            assert_eq!(distances[(frame - first) as usize], of(table.group_index_for_sample(frame as u32)), "the rows and the Rust's lookup of sample {frame}");
        }
        (first, distances)
    }

    /// The refusal of the first sample up to the frame whose entry does not decode.
    fn refusal(&self, kind: &[u8; 4], frame: u64, first: u64, distances: &[Distance]) -> Option<u32> {
        if first == 0 {
            return distances[..=frame as usize].iter().find_map(|d| d.err());
        }
        let mut left = frame + 1;
        for (n, indices) in &self.patterns {
            let n = left.min(*n as u64);
            if let Some(refusal) = indices.iter().take(n as usize).find_map(|i| self.distance(kind, *i).err()) {
                return Some(refusal);
            }
            left -= n;
        }
        None
    }

    /// The answer; none of a film that is too long to be searched.
    fn start(&self, kind: &[u8; 4], frame: u64) -> Option<Answer<u32>> {
        if self.covered <= frame {
            return Some(Answer::Refused(62));
        }
        let (first, distances) = self.distances(kind, frame);
        if let Some(n) = self.refusal(kind, frame, first, &distances) {
            return Some(Answer::Refused(n));
        }
        let mut best = None;
        for (k, distance) in (first as i64..).zip(distances.iter()) {
            let Ok(Some(d)) = *distance else { continue };
            let (begin, clean) = if d >= 0 { (k, k + d) } else { (k + d, k) };
            if begin >= 0 && clean <= frame as i64 {
                best = best.max(Some(begin));
            }
        }
        match best {
            // a sample before the window begins before it too
            Some(begin) if begin as u64 >= first => Some(Answer::Given(begin as u32)),
            None if first == 0 => Some(Answer::None),
            _ => None,
        }
    }
}

/// The refusals that a body can meet here, 55 aside: no records are lent (29), both types have a byte count of their own in version 0 (34), and one refusal of their
/// decoders.
const REFUSALS: [u32; 29] = [1, 2, 3, 4, 5, 6, 8, 20, 21, 22, 23, 24, 25, 26, 27, 28, 30, 31, 32, 33, 35, 40, 50, 51, 52, 53, 62, 67, 255];

/// How often each refusal was given; 255 is none.
type Seen = BTreeMap<u32, u64>;

fn compare(tally: &mut Tally, random: &mut Random, seen: &mut Seen, kind: &[u8; 4], s: &[u8]) {
    let input = Input::new(s);
    tally.input("bodies of stbl for starts");
    let read = read(s, kind);
    let covered = read.as_ref().map_or(3, |r| r.covered).min(1 << 32);
    let last = covered.saturating_sub(1);
    let near = random.below(last.min(2000) + 1);
    let mut frames = vec![0, last, near, last - random.below(last.min(9) + 1)];
    if random.one_in(4) {
        frames.extend([covered, u32::MAX as u64, random.next() as u32 as u64]);
    }
    let (name, call) = if kind == b"roll" { ("roll_start", ffi::roll_start as fn(&Input, usize, u32) -> Answer<u32>) } else { ("rap_start", ffi::rap_start as _) };
    for frame in frames.into_iter().filter(|&f| f <= u32::MAX as u64) {
        let expected = match &read {
            Err(n) => Answer::Refused(*n),
            Ok(read) => match read.start(kind, frame) {
                Some(told) => told,
                None => continue,
            },
        };
        let ours = call(&input, s.len(), frame as u32);
        match &ours {
            Answer::Given(_) => {}
            Answer::None => *seen.entry(255).or_insert(0) += 1,
            Answer::Refused(n) => *seen.entry(*n).or_insert(0) += 1,
        }
        tally.same(name, ours, expected, &|| format!("frame {frame} of {} in {:02x?}", kind.escape_ascii(), &s[..s.len().min(400)]));
    }
    input.check();
}

/// Distances that are near each other, and some that are far.
fn entry(random: &mut Random, kind: &[u8; 4]) -> Vec<u8> {
    if kind == b"rap " {
        return random.bytes(1);
    }
    let far = [i16::MIN, i16::MAX, 300, -300];
    let d = if random.one_in(6) { random.pick(&far) } else { random.below(25) as i16 - 12 };
    d.to_be_bytes().to_vec()
}

fn film(random: &mut Random, samples: u64) -> Film {
    let kind = random.pick(&[*b"roll", *b"roll", *b"rap "]);
    let mut values: Vec<Vec<u8>> = (0..random.below(5)).map(|_| entry(random, &kind)).collect();
    if random.one_in(4) {
        // some entries that do not decode, or are longer
        for value in &mut values {
            if random.one_in(3) {
                value.truncate(random.below(value.len() as u64 + 1) as usize);
            }
            if random.one_in(4) {
                value.push(7);
            }
        }
    }
    let cues = stbl::cues(random, values.len(), samples);
    Film { kind, values, cues }
}

/// Tables with large counts: rows, and patterns of one to four indices.
fn large(random: &mut Random) -> (Film, Vec<u8>) {
    const COUNTS: [u32; 9] = [0, 1, 3, 1000, 30_000, 1 << 30, 0x8000_0000, 0xffff_fffe, 0xffff_ffff];
    let mut film = film(random, 3);
    film.values.truncate(3);
    film.cues = stbl::cues(random, film.values.len(), 2);
    let mut parts = stbl::parts(random, &film);
    let rows: Vec<(u32, u32)> = (0..1 + random.below(4)).map(|_| (random.pick(&COUNTS), random.below(4) as u32)).collect();
    let mut table = if random.one_in(3) {
        parts.csgp = false;
        sbgp::payload(random, 0, rows.len() as u32, &rows)
    } else {
        parts.csgp = true;
        let mut pattern = |&(n, index): &(u32, u32)| {
            let length = 1 + random.below(4) as u32;
            (length, n, (0..length).map(|k| if k == 0 { index } else { random.below(4) as u32 }).collect())
        };
        let patterns: Vec<csgp::Pattern> = rows.iter().map(&mut pattern).collect();
        let shape = csgp::Shape { index: 0, count: 3, length: 0, parameter: false, marks: false };
        csgp::payload(random, shape, patterns.len() as u32, &patterns).unwrap()
    };
    table[4..8].copy_from_slice(&film.kind);
    parts.table = table;
    let body = stbl::assembled(random, &film.kind, &parts);
    (film, body)
}

pub fn run(tally: &mut Tally) {
    let (random, seen) = (&mut Random::new(31), &mut Seen::new());
    let starred = listing::starred();
    for kind in [b"roll", b"rap "] {
        compare(tally, random, seen, kind, &starred);
        compare(tally, random, seen, kind, &[]);
    }
    // Every truncation of a body and every byte of it changed.
    for _ in 0..60 {
        let film = film(random, 12);
        let s = stbl::body(random, &film);
        for len in 0..s.len() {
            compare(tally, random, seen, &film.kind, &s[..len]);
        }
        for at in 0..s.len() {
            let mut changed = s.clone();
            changed[at] = random.next() as u8;
            compare(tally, random, seen, &film.kind, &changed);
        }
    }
    // Whole films, damage, cut payloads, shares, and children that should not be there.
    for _ in 0..100_000 {
        let film = film(random, 60);
        let s = stbl::body(random, &film);
        compare(tally, random, seen, &film.kind, &s);
        if random.one_in(3) {
            let s = listing::damaged(random, s);
            compare(tally, random, seen, &film.kind, &s);
            let parts = listing::cut_or_shared(random, &film);
            let s = stbl::assembled(random, &film.kind, &parts);
            compare(tally, random, seen, &film.kind, &s);
            let s = listing::misbuilt(random, &film);
            compare(tally, random, seen, &film.kind, &s);
        }
    }
    for _ in 0..10_000 {
        let (film, s) = large(random);
        compare(tally, random, seen, &film.kind, &s);
    }
    for _ in 0..100 {
        let film = film(random, 3000);
        let s = stbl::body(random, &film);
        compare(tally, random, seen, &film.kind, &s);
    }
    assert!(seen.keys().eq(&REFUSALS), "not every refusal was met, or one that cannot be: {seen:?}");
}

/// The answer for a frame, stored unless there are `most` like it; none where it is not known.
fn sample(out: &mut Vectors, most: usize, kind: &[u8; 4], s: &[u8], frame: u32) -> Option<Answer<u32>> {
    let told = match read(s, kind) {
        Err(n) => Answer::Refused(n),
        Ok(read) => Read { samples: STORED, ..read }.start(kind, frame as u64)?,
    };
    let entry = if kind == b"roll" { 26 } else { 27 };
    out.add_few(most, entry, &[frame as u64], s, told.clone().map(|k| vec![k as u64]));
    Some(told)
}

/// The body of an stbl with a table and an sgpd whose entries have these bytes.
fn body(kind: &[u8; 4], table: &Table, entries: &[&[u8]]) -> Vec<u8> {
    let bytes: Vec<u8> = entries.iter().flat_map(|e| [&(e.len() as u32).to_be_bytes(), *e].concat()).collect();
    let sgpd = sgpd::payload(&mut Random::new(33), 1, kind, 0, entries.len() as u32, &bytes);
    around(kind, table, &sgpd)
}

enum Table<'a> {
    Rows(&'a [(u32, u32)]),
    Patterns(&'a [csgp::Pattern]),
}

fn around(kind: &[u8; 4], table: &Table, sgpd: &[u8]) -> Vec<u8> {
    let table = match table {
        Table::Rows(rows) => film::wrapped_plain(b"sbgp", &writing::sbgp_body(*kind, rows)),
        Table::Patterns(patterns) => {
            let shape = csgp::Shape { index: 0, count: 3, length: 0, parameter: false, marks: false };
            let mut s = csgp::payload(&mut Random::new(32), shape, patterns.len() as u32, patterns).unwrap();
            s[4..8].copy_from_slice(kind);
            film::wrapped_plain(b"csgp", &s)
        }
    };
    [table, film::wrapped_plain(b"sgpd", sgpd)].concat()
}

/// Frames of one body with the answers that they must have by document 02's words; the calculation above has to give them too.
fn told(out: &mut Vectors, kind: &[u8; 4], s: &[u8], frames: &[(u32, Answer<u32>)]) {
    for (frame, answer) in frames {
        assert_eq!(sample(out, usize::MAX, kind, s, *frame).as_ref(), Some(answer), "frame {frame} of {s:02x?}");
    }
}

pub fn vectors(out: &mut Vectors) {
    use Answer::{Given, None, Refused};
    use Table::{Patterns, Rows};
    let most = u32::MAX;
    let distances = |table: Table, distances: &[i16]| {
        let bytes: Vec<[u8; 2]> = distances.iter().map(|d| d.to_be_bytes()).collect();
        body(b"roll", &table, &bytes.iter().map(|e| &e[..]).collect::<Vec<_>>())
    };
    let points = |table: Table| body(b"rap ", &table, &[&[0x83]]);
    // A negative distance begins before its sample, if there are so many; a positive one is clean behind it.
    let s = distances(Rows(&[(2, 0), (3, 1), (1, 0)]), &[-2]);
    told(out, b"roll", &s, &[(0, None), (1, None), (2, Given(0)), (3, Given(1)), (4, Given(2)), (5, Given(2)), (6, Refused(62)), (most, Refused(62))]);
    told(out, b"roll", &distances(Rows(&[(2, 1), (1, 0)]), &[-3]), &[(0, None), (2, None), (3, Refused(62))]);
    told(out, b"roll", &distances(Rows(&[(300, 0), (2, 1)]), &[-300]), &[(299, None), (300, Given(0)), (301, Given(1))]);
    told(out, b"roll", &distances(Rows(&[(4, 1)]), &[2]), &[(0, None), (1, None), (2, Given(0)), (3, Given(1))]);
    told(out, b"roll", &distances(Rows(&[(3, 1)]), &[0]), &[(0, Given(0)), (2, Given(2))]);
    told(out, b"roll", &distances(Rows(&[(3, 1), (3, 2)]), &[i16::MAX, i16::MIN]), &[(5, None)]);
    told(out, b"roll", &distances(Rows(&[(32_768, 0), (2, 1)]), &[i16::MIN]), &[(32_767, None), (32_768, Given(0)), (32_769, Given(1))]);
    told(out, b"roll", &distances(Rows(&[(32_769, 1)]), &[i16::MAX]), &[(32_766, None), (32_767, Given(0)), (32_768, Given(1))]);
    // The latest begin is not that of the latest sample, and a sample behind the frame does not count.
    let s = distances(Rows(&[(2, 0), (1, 1), (3, 0), (1, 2), (1, 3)]), &[0, -5, -4]);
    told(out, b"roll", &s, &[(1, None), (2, Given(2)), (5, Given(2)), (6, Given(2)), (7, Given(3))]);
    // An index past the entries is no member; an entry that is not used may be anything.
    told(out, b"roll", &distances(Rows(&[(1, 1), (3, 2), (1, most)]), &[1]), &[(0, None), (1, Given(0)), (4, Given(0))]);
    told(out, b"roll", &body(b"roll", &Rows(&[(2, 1)]), &[&[0, 0], &[]]), &[(1, Given(1))]);
    // An entry that is refused is so from its first sample on, though a later one would be found; 62 comes before.
    let s = body(b"roll", &Rows(&[(2, 1), (1, 2), (1, 1)]), &[&[0, 0], &[7]]);
    told(out, b"roll", &s, &[(1, Given(1)), (2, Refused(40)), (3, Refused(40)), (4, Refused(62))]);
    let s = body(b"roll", &Rows(&[(1, 1), (0, 2), (2, 1)]), &[&[0, 0], &[7]]);
    told(out, b"roll", &s, &[(2, Given(2))]);
    let s = body(b"roll", &Patterns(&[(3, 5, vec![1, 0, 2])]), &[&[0, 0], &[7]]);
    told(out, b"roll", &s, &[(0, Given(0)), (1, Given(0)), (2, Refused(40)), (4, Refused(40)), (5, Refused(62))]);
    let s = body(b"rap ", &Rows(&[(2, 1), (1, 2)]), &[&[1], &[]]);
    told(out, b"rap ", &s, &[(1, Given(1)), (2, Refused(40)), (3, Refused(62))]);
    // The frame at a pattern's wrap, at the next pattern, and in a pattern with more indices than samples.
    let s = distances(Patterns(&[(3, 7, vec![1, 0, 2]), (2, 1, vec![0, 1]), (1, 1, vec![2])]), &[0, -1]);
    let frames = [0, 0, 1, 3, 3, 4, 6, 6, 7];
    for (frame, begin) in (0..).zip(frames) {
        told(out, b"roll", &s, &[(frame, Given(begin))]);
    }
    let s = points(Patterns(&[(4, 9, vec![0, 0, 1, 0]), (1, 1, vec![1])]));
    told(out, b"rap ", &s, &[(1, None), (2, Given(2)), (4, Given(2)), (5, Given(2)), (6, Given(6)), (8, Given(6)), (9, Given(9)), (10, Refused(62))]);
    told(out, b"rap ", &points(Rows(&[(2, 0), (2, 1), (3, 0), (1, 2)])), &[(0, None), (1, None), (2, Given(2)), (3, Given(3)), (7, Given(3)), (8, Refused(62))]);
    told(out, b"rap ", &points(Rows(&[])), &[(0, Refused(62)), (most, Refused(62))]);
    told(out, b"roll", &distances(Patterns(&[(1, 0, vec![1])]), &[0]), &[(0, Refused(62))]);
    // Long tables.
    told(out, b"roll", &distances(Rows(&[(most, 1)]), &[-1]), &[(most - 1, Given(most - 2)), (most, Refused(62))]);
    told(out, b"roll", &distances(Rows(&[(most, 1), (most, 1)]), &[3]), &[(most, Given(most - 3))]);
    let s = points(Patterns(&[(2, most, vec![1, 0]), (1, 1, vec![1])]));
    told(out, b"rap ", &s, &[(most - 1, Given(most - 1)), (most - 2, Given(most - 3)), (most, Given(most))]);
    for kind in [b"roll", b"rap "] {
        let entry: &[u8] = if kind == b"roll" { &[0, 0] } else { &[1] };
        // 28 comes before the sgpd's, the sgpd's before 62 and 62 before the decoder's.
        let (one, over) = (Rows(&[(1, 1)]), Patterns(&[(1, most, vec![1]), (1, 1, vec![1])]));
        let prefixed = sgpd::payload(&mut Random::new(34), 1, kind, 0, 2, &[&(entry.len() as u32).to_be_bytes(), entry].concat());
        let cut = sgpd::payload(&mut Random::new(35), 1, kind, entry.len() as u32, 2, entry);
        let later = [&[2], &cut[1..]].concat();
        for (sgpd, number) in [(&prefixed[..10], 30), (&prefixed, 33), (&cut, 35), (&later[..15], 31), (&later, 32), (&cut[..14], 32)] {
            told(out, kind, &around(kind, &one, sgpd), &[(0, Refused(number)), (1, Refused(number))]);
        }
        told(out, kind, &around(kind, &over, &cut), &[(0, Refused(28))]);
        told(out, kind, &body(kind, &over, &[entry]), &[(0, Refused(28)), (most, Refused(28))]);
        // a fault behind all that is read
        let whole = body(kind, &one, &[entry]);
        for (fault, number) in film::faults().iter().zip(1..) {
            told(out, kind, &[&whole[..], fault].concat(), &[(0, Refused(number)), (1, Refused(number))]);
        }
        told(out, kind, &body(kind, &one, &[&[]]), &[(0, Refused(40)), (1, Refused(62))]);
        told(out, kind, &[], &[(0, Refused(50))]);
    }
    // Every refusal of a body.
    listing::short_bodies(&mut Random::new(0xa3), |_, kind, s| {
        if !matches!(kind, b"roll" | b"rap ") || s.len() > 100 {
            return;
        }
        let covered = read(s, kind).map_or(2, |read| read.covered);
        for frame in [covered / 2, covered].into_iter().filter(|&frame| frame <= most as u64) {
            sample(out, 3, kind, s, frame as u32);
        }
    });
}
