//! Parts 1 and 2 of document 01: headers, children, bodies.

use super::MIB;
use super::ffi::{self, Answer, Input};
use super::messages;
use super::random::Random;
use super::tally::Tally;
use super::vectors::Vectors;
use crate::atom::{self, AtomHeader};
use crate::standalone::{Error, Result};
use std::io::{Cursor, Read, Seek, SeekFrom};

/// The number of an error: document 01's, by the Rust's message. An end of file is `eof`: 2 in a header, 11 in a body.
pub fn number(error: &Error, eof: u32) -> u32 {
    let Error::InvalidData(text) = error else {
        return match error {
            Error::Io(e) if e.kind() == std::io::ErrorKind::UnexpectedEof => eof,
            _ => panic!("an error of another kind: {error}"),
        };
    };
    messages::number(
        text,
        &[
            ("truncated atom header", 1),
            ("atom size below 8-byte", 3),
            ("extended atom size below 16-byte", 4),
            ("overflows u64", 5),
            ("child atom extends beyond parent", 6),
            ("open-ended atom inside container", 7),
            ("cannot read open-ended atom body", 8),
            ("refusing in-memory read", 9),
            ("-byte envelope", 10),
        ],
    )
}

fn numbers(h: &AtomHeader) -> [u64; 5] {
    let size = h.total_size;
    [u32::from_be_bytes(h.fourcc) as u64, size.is_none() as u64, size.unwrap_or(0), h.header_len, h.payload_offset]
}

pub fn at_place(s: &[u8], at: u64) -> Cursor<&[u8]> {
    let mut r = Cursor::new(s);
    r.seek(SeekFrom::Start(at)).unwrap();
    r
}

fn header(s: &[u8], at: u64) -> Answer<[u64; 5]> {
    match atom::read_atom_header(&mut at_place(s, at)) {
        Ok(Some(h)) => Answer::Given(numbers(&h)),
        Ok(None) => Answer::None,
        Err(e) => Answer::Refused(number(&e, 2)),
    }
}

/// The body of the atom at a place, by its header and one of the two readers; place and length, and the bytes must be the slice's.
fn payload(s: &[u8], at: u64, read: impl FnOnce(&mut Cursor<&[u8]>, &AtomHeader) -> Result<Vec<u8>>) -> Answer<[u64; 2]> {
    let mut r = at_place(s, at);
    match atom::read_atom_header(&mut r) {
        Ok(None) => Answer::None,
        Err(e) => Answer::Refused(number(&e, 2)),
        Ok(Some(h)) => match read(&mut r, &h) {
            Err(e) => Answer::Refused(number(&e, 11)),
            Ok(body) => {
                let place = h.payload_offset as usize;
                assert_eq!(body, s[place..place + body.len()]);
                Answer::Given([h.payload_offset, body.len() as u64])
            }
        },
    }
}

/// A whole walk: each child's header, then done with the place where it ended, or the refusal.
type Walk = (Vec<[u64; 5]>, Answer<u64>);

fn walk(s: &[u8], at: u64, end: Option<u64>) -> Walk {
    let mut seen = Vec::new();
    let mut r = at_place(s, at);
    let told = atom::walk_children(&mut r, end, |_, h| {
        seen.push(numbers(h));
        Ok(())
    });
    match told {
        Ok(()) => (seen, Answer::Given(r.position())),
        Err(e) => (seen, Answer::Refused(number(&e, 2))),
    }
}

/// The same walk by one call a child. The next place is where the next child's header stands.
fn our_walk(input: &Input, len: usize, at: u64, end: Option<u64>, calls: &mut u64) -> Walk {
    let mut seen = Vec::new();
    let mut place = at;
    loop {
        *calls += 1;
        match ffi::next_child(input, len, place, end) {
            Answer::None => return (seen, Answer::Given(place)),
            Answer::Refused(n) => return (seen, Answer::Refused(n)),
            Answer::Given([next, numbers @ ..]) => {
                seen.push(numbers);
                place = next;
            }
        }
    }
}

fn hex(s: &[u8]) -> String {
    let shown: String = s.iter().take(64).map(|b| format!("{b:02x}")).collect();
    format!("{shown} ({} bytes)", s.len())
}

fn compare_header(tally: &mut Tally, s: &[u8], input: &Input, at: u64) {
    tally.same("read_atom_header", ffi::read_atom_header(input, s.len(), at), header(s, at), &|| format!("{} at {at}", hex(s)));
}

fn compare_bodies(tally: &mut Tally, s: &[u8], input: &Input, at: u64, envelope: u64) {
    let ours = ffi::read_payload(input, s.len(), at);
    tally.same("read_payload", ours, payload(s, at, |r, h| atom::read_payload(r, h)), &|| format!("{} at {at}", hex(s)));
    let ours = ffi::read_payload_bounded(input, s.len(), at, envelope);
    let theirs = payload(s, at, |r, h| atom::read_payload_bounded(r, h, envelope));
    tally.same("read_payload_bounded", ours, theirs, &|| format!("{} at {at} within {envelope}", hex(s)));
}

fn compare_walk(tally: &mut Tally, s: &[u8], input: &Input, at: u64, end: Option<u64>) {
    let mut calls = 0;
    let ours = our_walk(input, s.len(), at, end, &mut calls);
    tally.input("walks over children");
    tally.same("next_child", ours, walk(s, at, end), &|| format!("{} at {at} to {end:?}", hex(s)));
    tally.further("next_child", calls - 1);
}

/// Everything at one place of one input.
fn compare_all(tally: &mut Tally, s: &[u8], at: u64, ends: &[Option<u64>], envelopes: &[u64]) {
    let input = Input::new(s);
    compare_header(tally, s, &input, at);
    for &envelope in envelopes {
        compare_bodies(tally, s, &input, at, envelope);
    }
    for &end in ends {
        compare_walk(tally, s, &input, at, end);
    }
    input.check();
}

fn sized(size: u32, kind: &[u8; 4]) -> Vec<u8> {
    let mut s = size.to_be_bytes().to_vec();
    s.extend_from_slice(kind);
    s
}

fn extended(size: u64, kind: &[u8; 4]) -> Vec<u8> {
    let mut s = sized(1, kind);
    s.extend_from_slice(&size.to_be_bytes());
    s
}

const SIZES: [u32; 12] = [33, 40, 48, 64, 255, 256, 65_535, 65_536, 67_108_872, 67_108_873, 0x7fff_ffff, 0xffff_ffff];
const PLACES: [u64; 9] = [65_536, 1 << 31, (1 << 32) - 1, 1 << 32, (1 << 63) - 1, 1 << 63, (1 << 63) + 1, u64::MAX - 1, u64::MAX];

/// A header with every small and boundary size, 32-bit and extended, at every place of a short input, with every truncation.
fn boundaries(tally: &mut Tally) {
    let mut random = Random::new(1);
    let small: Vec<u32> = (0..=32).chain(SIZES).collect();
    let mut heads: Vec<Vec<u8>> = small.iter().map(|&n| sized(n, b"abcd")).collect();
    let large = (0..=40u64).chain([1 << 32, 1 << 63, 67_108_880, 67_108_881]).chain((0..=40).map(|k| u64::MAX - k));
    heads.extend(large.map(|n| extended(n, b"wxyz")));
    for head in &heads {
        for at in 0..=17usize {
            let mut s = random.bytes(at);
            s.extend_from_slice(head);
            s.extend(random.bytes(24));
            for len in 0..=s.len() {
                let ends = [None, Some(len as u64), Some(at as u64), Some(at as u64 + 8), Some(at as u64 + 9)];
                compare_all(tally, &s[..len], at as u64, &ends, &[0, 8, 24, u64::MAX]);
            }
        }
    }
    let s = random.bytes(40);
    let input = Input::new(&s);
    for at in (0..=48).chain(PLACES) {
        compare_header(tally, &s, &input, at);
        compare_bodies(tally, &s, &input, at, 1);
        for end in [None, Some(0), Some(39), Some(40), Some(41), Some(u64::MAX)] {
            compare_walk(tally, &s, &input, at, end);
        }
    }
    input.check();
}

/// Every input of up to nine bytes over a small alphabet.
fn exhaustive(tally: &mut Tally) {
    const ALPHABET: [u8; 4] = [0, 1, 7, 8];
    for len in 0..=9u32 {
        for code in 0..4u64.pow(len) {
            let s: Vec<u8> = (0..len).map(|i| ALPHABET[(code >> (2 * i)) as usize & 3]).collect();
            let input = Input::new(&s);
            compare_header(tally, &s, &input, 0);
            if len < 7 {
                compare_bodies(tally, &s, &input, 0, code % 3);
                compare_walk(tally, &s, &input, 0, Some(len as u64));
            }
        }
    }
}

/// A tree of atoms, some of them open, extended or of a wrong size.
fn tree(random: &mut Random, depth: u32) -> Vec<u8> {
    let mut s = Vec::new();
    for _ in 0..random.below(4) {
        let body = if depth > 0 && random.one_in(2) { tree(random, depth - 1) } else { let n = random.below(20) as usize; random.bytes(n) };
        let kind = random.pick(&[b"moov", b"trak", b"stbl", b"sbgp", b"csgp", b"sgpd", b"free"]);
        let head = match random.below(12) {
            0 => sized(0, kind),
            1 => sized(random.below(12) as u32, kind),
            2 => extended(random.below(24), kind),
            3 => extended(body.len() as u64 + 16 + random.below(3), kind),
            4 => extended(u64::MAX - random.below(64), kind),
            5 => sized(body.len() as u32 + 8 + random.below(4) as u32, kind),
            6 | 7 => extended(body.len() as u64 + 16, kind),
            _ => sized(body.len() as u32 + 8, kind),
        };
        s.extend(head);
        s.extend(body);
    }
    s
}

fn trees(tally: &mut Tally) {
    let mut random = Random::new(2);
    for _ in 0..60_000 {
        let mut s = tree(&mut random, 3);
        if random.one_in(3) && !s.is_empty() {
            let k = random.below(s.len() as u64) as usize;
            s[k] = random.pick(&[0, 1, 7, 8, 16, 255]);
        }
        let len = s.len() as u64;
        let at = if random.one_in(2) { 0 } else { random.below(len + 2) };
        let end = random.below(len + 9);
        compare_all(tally, &s, at, &[None, Some(len), Some(end)], &[random.below(40), len]);
    }
}

/// Inputs up to 1 MiB, whole and damaged.
fn long(tally: &mut Tally) {
    let mut random = Random::new(3);
    for _ in 0..24 {
        let mut s = Vec::new();
        while s.len() < MIB {
            let n = random.below(30_000) as usize;
            s.extend(sized(n as u32 + 8, b"free"));
            s.extend(random.bytes(n));
        }
        s.truncate(MIB);
        let len = s.len() as u64;
        for at in [0, 8, random.below(len), len - 8, len - 1, len] {
            compare_all(tally, &s, at, &[None, Some(len)], &[len, 100]);
        }
    }
}

pub fn run(tally: &mut Tally) {
    boundaries(tally);
    exhaustive(tally);
    trees(tally);
    long(tally);
}

/// A sample of the Rust's answers: the boundary headers, whole and cut, and trees. Entries 1 to 4 are the header, the child and the two bodies.
pub fn vectors(out: &mut Vectors) {
    let mut random = Random::new(4);
    // A body over the limit within an envelope that has room for it.
    for size in [67_108_881u64, 1 << 40] {
        let s = extended(size, b"mdat");
        sample(out, &s, 0, &[None, Some(u64::MAX)], u64::MAX);
    }
    for _ in 0..120 {
        let s = tree(&mut random, 2);
        let len = s.len() as u64;
        sample(out, &s, random.below(len + 2), &[Some(len)], random.below(30));
    }
    let large = [0, 15, 16, 17, 24, 1 << 32, 67_108_880, 67_108_881, u64::MAX - 8, u64::MAX - 7, u64::MAX].map(|n| extended(n, b"wxyz"));
    let heads = [0, 1, 2, 7, 8, 9, 16, 67_108_872, 67_108_873, u32::MAX].map(|n| sized(n, b"abcd"));
    for head in heads.iter().chain(&large) {
        for at in [0, 8] {
            let mut s = sized(8, b"free")[..at].to_vec();
            s.extend(head);
            s.extend([1, 2, 3]);
            for len in [0, 1, 7, 8, 9, 15, 16, 17, s.len() - 1, s.len()] {
                if len <= s.len() {
                    sample(out, &s[..len], at as u64, &[None, Some(len as u64), Some(at as u64 + 8)], 2);
                }
            }
        }
    }
}

fn sample(out: &mut Vectors, s: &[u8], at: u64, ends: &[Option<u64>], envelope: u64) {
    if s.len() > 60 {
        return;
    }
    out.add(1, &[at], s, header(s, at).map(|n| n.to_vec()));
    out.add(3, &[at], s, payload(s, at, |r, h| atom::read_payload(r, h)).map(|n| n.to_vec()));
    out.add(4, &[at, envelope], s, payload(s, at, |r, h| atom::read_payload_bounded(r, h, envelope)).map(|n| n.to_vec()));
    for &end in ends {
        let (seen, told) = walk(s, at, end);
        // The next place is where the second child stands, or where the walk ended.
        let answer = match (seen.as_slice(), told) {
            ([], Answer::Given(_)) => Answer::None,
            ([], Answer::Refused(n)) => Answer::Refused(n),
            ([only], Answer::Given(place)) => Answer::Given([&[place], &only[..]].concat()),
            ([first, second, ..], _) => Answer::Given([&[second[4] - second[3]], &first[..]].concat()),
            _ => continue,
        };
        let (known, limit) = end.map_or((0, 0), |end| (1, end));
        out.add(2, &[at, known, limit], s, answer);
    }
}
