//! Bodies of stbl for the cue listing, by what their samples are to mean: the same meanings by many tables, numberings and descriptions.

use super::csgp::{self, Pattern, Shape, WIDTHS};
use super::random::Random;
use super::{sbgp, sgpd};

/// What one sample is to mean; a value by its number in the film.
#[derive(Clone, Copy, Debug, PartialEq, Eq)]
pub enum Cue {
    NoGroup,
    Past,
    Value(usize),
}

/// What is to be listed: a type, its values and what each sample means.
#[derive(Clone, Debug)]
pub struct Film {
    pub kind: [u8; 4],
    pub values: Vec<Vec<u8>>,
    pub cues: Vec<Cue>,
}

/// The byte count of an entry in version 0, where the type has one.
pub fn fixed(kind: &[u8; 4]) -> Option<usize> {
    match kind {
        b"roll" | b"prol" => Some(2),
        b"rap " | b"tele" | b"sap " => Some(1),
        _ => None,
    }
}

/// An entry of a type that decodes. Its fields are small, so that entries often are alike.
pub fn entry(random: &mut Random, kind: &[u8; 4]) -> Vec<u8> {
    match kind {
        b"roll" | b"prol" => random.pick(&[[0xff, 0xfe], [0, 2], [0x80, 0], [0x7f, 0xff], [0, 0], [1, 0]]).to_vec(),
        b"rap " | b"tele" | b"sap " => random.bytes(1),
        b"rash" => {
            let points = 1 + random.below(3) as u16;
            let mut s = points.to_be_bytes().to_vec();
            s.extend(random.bytes(if points == 1 { 2 } else { 6 * points as usize } + 9));
            s
        }
        b"alst" => {
            let rolls = random.below(3) as u16;
            let mut s = rolls.to_be_bytes().to_vec();
            let pairs = random.below(3) as usize;
            s.extend(random.bytes(2 + 4 * rolls as usize + 4 * pairs));
            s
        }
        _ => {
            let n = random.below(6) as usize;
            random.bytes(n)
        }
    }
}

/// Whether bytes behind an entry do not change what it decodes to.
fn may_trail(kind: &[u8; 4]) -> bool {
    fixed(kind).is_some() || kind == b"rash"
}

/// An entry that decodes alike, by other bytes where the type has bits or bytes that do not count.
fn alike(random: &mut Random, kind: &[u8; 4], value: &[u8], trailing: usize) -> Vec<u8> {
    let mut s = value.to_vec();
    if let Some(first) = s.first_mut() {
        match kind {
            b"tele" => *first = *first & 0x80 | random.next() as u8 & 0x7f,
            b"sap " => *first = *first & 0x8f | random.next() as u8 & 0x70,
            _ => {}
        }
    }
    if may_trail(kind) {
        s.extend(random.bytes(trailing));
    }
    s
}

/// The entries of a film in some order: every value at least once, some more than once, some unused ones. Beside each the value's number.
fn numbering(random: &mut Random, film: &Film) -> Vec<(usize, Vec<u8>)> {
    let most = if random.one_in(2) { 1 } else { 3 };
    let mut entries = Vec::new();
    for (number, value) in film.values.iter().enumerate() {
        for _ in 0..1 + random.below(most) {
            let trailing = if random.one_in(2) { random.below(3) as usize } else { 0 };
            entries.push((number, alike(random, &film.kind, value, trailing)));
        }
    }
    if random.one_in(4) {
        // not used by any sample: it may be anything
        let n = random.below(5) as usize;
        entries.push((usize::MAX, random.bytes(n)));
    }
    for k in (1..entries.len()).rev() {
        entries.swap(k, random.below(k as u64 + 1) as usize);
    }
    entries
}

/// An sgpd payload of such entries, in one of the ways that have these bytes; in some ways an entry is first cut or filled to the length of all.
fn description(random: &mut Random, kind: &[u8; 4], entries: &[Vec<u8>]) -> Vec<u8> {
    let count = entries.len() as u32;
    let later = random.pick(&[1, 1, 2, 3, 255]);
    if let Some(size) = fixed(kind) {
        if random.one_in(3) && entries.iter().all(|e| e.len() >= size) {
            let mut body: Vec<u8> = entries.iter().flat_map(|e| e[..size].to_vec()).collect();
            let behind = random.below(3) as usize;
            body.extend(random.bytes(behind));
            return sgpd::payload(random, 0, kind, 0, count, &body);
        }
    } else if let [only] = entries {
        if random.one_in(3) && !only.is_empty() {
            return sgpd::payload(random, 0, kind, 0, 1, only);
        }
    }
    let longest = entries.iter().map(Vec::len).max().unwrap_or(0);
    let even = entries.iter().all(|e| e.len() == longest);
    let fill = may_trail(kind) && entries.iter().all(|e| e.len() >= fixed(kind).unwrap_or(13));
    if random.one_in(2) && longest > 0 && (even || fill) {
        let length = longest + if fill { random.below(3) as usize } else { 0 };
        let mut body = Vec::new();
        for e in entries {
            body.extend(e);
            body.extend(random.bytes(length - e.len()));
        }
        let behind = random.below(3) as usize;
        body.extend(random.bytes(behind));
        return sgpd::payload(random, later, kind, length as u32, count, &body);
    }
    let mut body = Vec::new();
    for e in entries {
        body.extend((e.len() as u32).to_be_bytes());
        body.extend(e);
    }
    let behind = random.below(3) as usize;
    body.extend(random.bytes(behind));
    sgpd::payload(random, later, kind, 0, count, &body)
}

/// An sbgp payload that gives the samples these indices: runs cut at random, rows of no sample between them.
fn sbgp_of(random: &mut Random, kind: &[u8; 4], indices: &[u32]) -> Vec<u8> {
    let cut = random.pick(&[0, 2, 5, 50]);
    let mut rows: Vec<(u32, u32)> = Vec::new();
    for &index in indices {
        if random.one_in(40) {
            rows.push((0, random.below(9) as u32));
        }
        match rows.last_mut() {
            Some((n, i)) if *i == index && (cut == 0 || !random.one_in(cut)) => *n += 1,
            _ => rows.push((1, index)),
        }
    }
    if random.one_in(8) {
        rows.push((0, random.next() as u32));
    }
    let version = random.pick(&[0, 0, 1, 1, 2]);
    let mut s = sbgp::payload(random, version, rows.len() as u32, &rows);
    s[4..8].copy_from_slice(kind);
    let behind = random.pick(&[0, 0, 3]);
    s.extend(random.bytes(behind));
    s
}

/// The least period of a run of indices.
fn period(indices: &[u32]) -> usize {
    (1..indices.len()).find(|&q| (q..indices.len()).all(|k| indices[k] == indices[k - q])).unwrap_or(indices.len())
}

/// Bit 31 of an index: its description is a fragment's own.
pub const MARK: u32 = 1 << 31;

/// A csgp payload that gives the samples these indices: patterns that wrap, are longer than their samples, or have none. Marked indices, and some others, go with flag bit 7.
fn csgp_of(random: &mut Random, kind: &[u8; 4], indices: &[u32]) -> Vec<u8> {
    let marks = indices.iter().any(|&index| index >= MARK) || random.one_in(8);
    let fits = |code: usize, n: u32| (n as u64) < 1 << (WIDTHS[code] - marks as u32);
    let highest = indices.iter().map(|index| index % MARK).max().unwrap_or(0);
    let widths: Vec<usize> = (0..4).filter(|&code| fits(code, highest)).collect();
    let (index, count, length) = (random.pick(&widths), random.below(4) as usize, random.below(4) as usize);
    let parameter = random.one_in(3);
    let shape = Shape { index, count, length, parameter, marks };
    let most = |code: usize| (1usize << WIDTHS[code].min(12)) - 1;
    let (most_samples, most_length) = (most(count), most(length));
    let longest = random.pick(&[3, 20, 5000]);
    let mut patterns: Vec<Pattern> = Vec::new();
    let mut at = 0;
    while at < indices.len() {
        if random.one_in(20) {
            let n = 1 + random.below(3) as u32;
            patterns.push((n, 0, (0..n).map(|_| random.below(9) as u32).collect()));
        }
        let mut n = (1 + random.below(longest)) as usize;
        n = n.min(indices.len() - at).min(most_samples);
        let whole = period(&indices[at..at + n]);
        if whole > most_length {
            n = most_length;
        }
        let part = &indices[at..at + n];
        let q = period(part);
        let mut pattern = part[..q].to_vec();
        if random.one_in(4) {
            // the period twice, or the samples with indices behind that none of them takes
            if random.one_in(2) && 2 * q <= most_length {
                pattern.extend_from_within(..);
            } else if n + 2 <= most_length {
                pattern = part.to_vec();
                pattern.extend([random.below(9) as u32, 0]);
            }
        }
        patterns.push((pattern.len() as u32, n as u32, pattern));
        at += n;
    }
    if marks {
        let field = |index: u32| index % MARK | index / MARK << (WIDTHS[shape.index] - 1);
        patterns.iter_mut().flat_map(|(_, _, indices)| indices).for_each(|index| *index = field(*index));
    }
    let mut s = csgp::payload(random, shape, patterns.len() as u32, &patterns).expect("numbers that fit");
    s[4..8].copy_from_slice(kind);
    let behind = random.pick(&[0, 0, 3]);
    s.extend(random.bytes(behind));
    s
}

/// An atom with a header of 8 or 16 bytes.
pub fn atom(random: &mut Random, kind: &[u8; 4], body: &[u8]) -> Vec<u8> {
    let mut s = if random.one_in(8) {
        let size = body.len() as u64 + 16;
        [&[0, 0, 0, 1], &kind[..], &size.to_be_bytes()].concat()
    } else {
        [&(body.len() as u32 + 8).to_be_bytes(), &kind[..]].concat()
    };
    s.extend(body);
    s
}

/// A child that the walk passes over: another atom, or a table or description of another type.
fn passed_over(random: &mut Random, kind: &[u8; 4]) -> Vec<u8> {
    let n = random.below(12) as usize;
    let mut body = random.bytes(n);
    let name = random.pick(&[b"free", b"stts", b"sbgp", b"csgp", b"sgpd", b"sbgq"]);
    if matches!(name, b"sbgp" | b"csgp" | b"sgpd") {
        body.resize(n + 8, 1);
        let mut other = *kind;
        other[random.below(4) as usize] ^= 1 << random.below(8);
        body[4..8].copy_from_slice(&other);
    }
    atom(random, name, &body)
}

/// The payloads of a film's table and of its description; the table is a csgp or an sbgp.
pub struct Parts {
    pub csgp: bool,
    pub table: Vec<u8>,
    pub sgpd: Vec<u8>,
}

pub fn parts(random: &mut Random, film: &Film) -> Parts {
    let numbered = numbering(random, film);
    let entries: Vec<Vec<u8>> = numbered.iter().map(|(_, e)| e.clone()).collect();
    let past = match random.pick(&[1, 2, 100, 40_000, 0x7fff_0000, MARK]) {
        MARK => MARK + random.below(3) as u32,
        far => entries.len() as u32 + far,
    };
    let of_value: Vec<Vec<u32>> =
        (0..film.values.len()).map(|v| (1..=numbered.len()).filter(|&k| numbered[k - 1].0 == v).map(|k| k as u32).collect()).collect();
    // a value's index stays for a while, so that rows and patterns are of more than one sample
    let steady = random.one_in(2);
    let mut chosen: Vec<u32> = of_value.iter().map(|is| is[0]).collect();
    let indices: Vec<u32> = film
        .cues
        .iter()
        .map(|cue| match *cue {
            Cue::NoGroup => 0,
            Cue::Past => past + if steady { 0 } else { random.below(2) as u32 },
            Cue::Value(v) => {
                if !steady && random.one_in(3) {
                    chosen[v] = random.pick(&of_value[v]);
                }
                chosen[v]
            }
        })
        .collect();
    let csgp = random.one_in(2);
    let table = if csgp { csgp_of(random, &film.kind, &indices) } else { sbgp_of(random, &film.kind, &indices) };
    Parts { csgp, table, sgpd: description(random, &film.kind, &entries) }
}

/// The table and the description in either order, among other children.
pub fn assembled(random: &mut Random, kind: &[u8; 4], parts: &Parts) -> Vec<u8> {
    let table = atom(random, if parts.csgp { b"csgp" } else { b"sbgp" }, &parts.table);
    let sgpd = atom(random, b"sgpd", &parts.sgpd);
    let mut children = if random.one_in(2) { vec![table, sgpd] } else { vec![sgpd, table] };
    for _ in 0..random.pick(&[0, 0, 1, 2]) {
        let at = random.below(children.len() as u64 + 1) as usize;
        let child = passed_over(random, kind);
        children.insert(at, child);
    }
    if random.one_in(10) {
        children.push([&[0; 4], &b"free"[..], &[1, 2, 3][..]].concat());
    }
    children.concat()
}

pub fn body(random: &mut Random, film: &Film) -> Vec<u8> {
    let parts = parts(random, film);
    assembled(random, &film.kind, &parts)
}

/// What samples mean, in stretches, singly, or over and over.
pub fn cues(random: &mut Random, values: usize, most: u64) -> Vec<Cue> {
    let one = |random: &mut Random| match random.below(values as u64 + 2) as usize {
        0 => Cue::NoGroup,
        1 => Cue::Past,
        v => Cue::Value(v - 2),
    };
    let samples = random.below(most) as usize;
    let mut cues = Vec::new();
    while cues.len() < samples {
        match random.below(3) {
            0 => cues.resize(cues.len() + 1 + random.below(30) as usize, one(random)),
            1 => cues.push(one(random)),
            _ => {
                let over: Vec<Cue> = (0..1 + random.below(4)).map(|_| one(random)).collect();
                let n = 1 + random.below(40) as usize;
                cues.extend(over.iter().cycle().take(n));
            }
        }
    }
    cues.truncate(samples);
    cues
}
