//! Request A1 of document 02: from the front of a film to a track's stbl. The tree is the Rust's: its header reader at the top, where an atom may pass the given
//! bytes, and its `walk_children` below.

use super::atoms::{at_place, number};
use super::ffi::{self, Answer, Input};
use super::listing;
use super::random::Random;
use super::stbl;
use super::tally::Tally;
use super::vectors::Vectors;
use crate::atom;

/// The body of an atom that ends at `end`: empty where its header passes that end.
fn body(place: u64, end: u64) -> (u64, u64) {
    (place, end.max(place))
}

/// The bodies of a level's atoms of one type, in order.
fn level(s: &[u8], (place, end): (u64, u64), kind: &[u8; 4]) -> Result<Vec<(u64, u64)>, u32> {
    let mut found = vec![];
    let walked = atom::walk_children(&mut at_place(s, place), Some(end), |_, h| {
        let ends = h.total_size.map_or(end, |size| h.payload_offset - h.header_len + size);
        if h.fourcc == *kind {
            found.push(body(h.payload_offset, ends));
        }
        Ok(())
    });
    walked.map_or_else(|e| Err(number(&e, 2)), |()| Ok(found))
}

fn top(s: &[u8]) -> Result<(u64, u64), u32> {
    let (len, mut at, mut moov) = (s.len() as u64, 0, None);
    while let Some(h) = atom::read_atom_header(&mut at_place(s, at)).map_err(|e| number(&e, 2))? {
        let next = h.total_size.map_or(len, |size| at + size);
        if h.fourcc == *b"moov" && moov.is_none() {
            moov = Some(body(h.payload_offset, next));
        }
        at = next;
    }
    match moov {
        None => Err(60),
        Some((_, end)) if end > len => Err(11),
        Some(found) => Ok(found),
    }
}

fn search(s: &[u8], track: u32) -> Result<[u64; 2], u32> {
    let mut here = top(s)?;
    for (kind, which, missing) in [(b"trak", track, 60u32), (b"mdia", 0, 61), (b"minf", 0, 61), (b"stbl", 0, 61)] {
        here = *level(s, here, kind)?.get(which as usize).ok_or(missing)?;
    }
    Ok([here.0, here.1 - here.0])
}

pub fn find(s: &[u8], track: u32) -> Answer<[u64; 2]> {
    search(s, track).map_or_else(Answer::Refused, Answer::Given)
}

const PATH: [&[u8; 4]; 5] = [b"moov", b"trak", b"mdia", b"minf", b"stbl"];

/// An atom around a body, with a size of either kind, now and then open or a few bytes off.
fn wrapped(random: &mut Random, kind: &[u8; 4], body: &[u8], open: bool) -> Vec<u8> {
    let off = if random.one_in(40) { random.pick(&[-9i64, -8, -7, -1, 1, 8, 40]) } else { 0 };
    if open {
        return [&[0; 4], &kind[..], body].concat();
    }
    if random.one_in(4) {
        let size = (body.len() as i64 + 16 + off).max(0) as u64;
        return [&1u32.to_be_bytes(), &kind[..], &size.to_be_bytes(), body].concat();
    }
    let size = (body.len() as i64 + 8 + off).max(0) as u32;
    [&size.to_be_bytes(), &kind[..], body].concat()
}

/// The children of a container of the path: some of the next type, some of others.
fn children(random: &mut Random, depth: usize, stbl: &[u8]) -> Vec<u8> {
    let count = random.pick(&[0, 1, 1, 2, 2, 3, 4]);
    let mut all = vec![];
    for k in 0..count {
        let last = k + 1 == count;
        if random.one_in(3) {
            let other = random.pick(&PATH);
            let kind = random.pick(&[b"free", b"uuid", other, b"tkhd"]);
            let n = random.below(12) as usize;
            let bytes = random.bytes(n);
            let open = last && random.one_in(6);
            all.extend(wrapped(random, kind, &bytes, open));
        } else {
            let inner = if depth == 4 { stbl.to_vec() } else { children(random, depth + 1, stbl) };
            let open = last && random.one_in(6);
            all.extend(wrapped(random, PATH[depth], &inner, open));
        }
    }
    all
}

/// A path that is all there, `tracks` times, in a moov among other atoms.
fn whole(random: &mut Random, tracks: usize, stbl: &[u8]) -> Vec<u8> {
    let mut moov = vec![];
    for _ in 0..tracks {
        let mut inner = wrapped(random, b"stbl", stbl, false);
        for kind in [b"minf", b"mdia", b"trak"] {
            let pad = random.below(10) as usize;
            let mut all = if random.one_in(2) { wrapped(random, b"free", &vec![7; pad], false) } else { vec![] };
            all.extend(inner);
            inner = wrapped(random, kind, &all, false);
        }
        moov.extend(inner);
    }
    let mut film = wrapped(random, b"ftyp", b"isomiso2", false);
    let open = random.one_in(5);
    film.extend(wrapped(random, b"moov", &moov, open));
    if !open && random.one_in(2) {
        let kind = random.pick(&[b"mdat", b"moov"]);
        film.extend(wrapped(random, kind, &[1; 20], false));
    }
    film
}

fn compared(tally: &mut Tally, s: &[u8], len: usize, input: &Input) {
    for track in [0, 1, 2, u32::MAX] {
        let wanted = find(&s[..len], track);
        tally.input(match wanted {
            Answer::Given(_) => "searches that find an stbl",
            Answer::Refused(11) => "searches that end with a moov that is cut",
            Answer::Refused(60) => "searches that find no track",
            Answer::Refused(61) => "searches that find a container missing",
            _ => "searches that a walk refuses",
        });
        tally.same("find_stbl", ffi::find_stbl(input, len, track), wanted, &|| format!("track {track} of {:02x?}", &s[..len]));
    }
}

/// Random trees, whole and damaged, each also cut at every byte where it is short.
pub fn run(tally: &mut Tally) {
    let mut random = Random::new(0xa1);
    for round in 0..60_000u64 {
        let n = random.below(30) as usize;
        let stbl = random.bytes(n);
        let mut s = if round % 3 == 0 { whole(&mut random, 1 + (round % 7 == 0) as usize, &stbl) } else { children(&mut random, 0, &stbl) };
        if round % 5 == 4 && !s.is_empty() {
            let at = random.below(s.len() as u64) as usize;
            s[at] ^= random.pick(&[1, 2, 4, 8, 0x80, 0xff]);
        }
        tally.input("films");
        let input = Input::new(&s);
        let cut = if s.len() <= 200 && round % 8 == 0 { 0 } else { s.len() };
        for len in cut..=s.len() {
            compared(tally, &s, len, &input);
        }
        input.check();
    }
    listings(tally, &mut random);
    large(tally, &mut random);
}

/// The listing of a track is that of its stbl, which is compared with the Rust elsewhere.
fn listings(tally: &mut Tally, random: &mut Random) {
    for round in 0..20_000 {
        let tracks = 1 + random.below(3) as usize;
        let (stbl, kind) = if round % 4 == 0 {
            (listing::starred(), *b"roll")
        } else {
            let film = listing::film(random, 3);
            (stbl::body(random, &film), film.kind)
        };
        let s = whole(random, tracks, &stbl);
        let input = Input::new(&s);
        tally.input("films");
        for track in 0..=tracks as u32 {
            let wanted = match find(&s, track) {
                Answer::Given([place, size]) => {
                    let body = Input::new(&s[place as usize..(place + size) as usize]);
                    ffi::cue_listing(&body, size as usize, kind, 64, 200)
                }
                Answer::None => Answer::None,
                Answer::Refused(n) => Answer::Refused(n),
            };
            tally.same("file_cue_listing", ffi::file_cue_listing(&input, s.len(), track, kind, 64, 200), wanted, &|| format!("track {track} of {s:02x?}"));
        }
        input.check();
    }
}

/// Hostile trees: many empty atoms, many tracks, a megabyte of either.
fn large(tally: &mut Tally, random: &mut Random) {
    let tiny: Vec<u8> = (0..130_000).flat_map(|_| [&8u32.to_be_bytes()[..], b"free"].concat()).collect();
    let track = wrapped(random, b"trak", &[], false);
    let tracks: Vec<u8> = (0..60_000).flat_map(|_| track.clone()).collect();
    for inner in [tiny, tracks] {
        let s = [&(inner.len() as u32 + 8).to_be_bytes()[..], b"moov", &inner].concat();
        let input = Input::new(&s);
        tally.input("films");
        for track in [0, 1, 59_999, 60_000, u32::MAX] {
            tally.same("find_stbl", ffi::find_stbl(&input, s.len(), track), find(&s, track), &|| format!("track {track} of many atoms"));
        }
        input.check();
    }
}

/// Short films, whole, damaged and cut, and a header at the top and in each container that is refused; a fault behind the match among them.
pub fn vectors(out: &mut Vectors) {
    let random = &mut Random::new(0xa11);
    let mut add = |s: &[u8]| {
        for track in [0, 1] {
            if s.len() <= 150 {
                out.add(24, &[track], s, find(s, track as u32).map(|n| n.to_vec()));
            }
        }
    };
    let path = track(&[9, 9]);
    add(&path);
    add(&[&path[..], &path[..]].concat());
    for fault in &faults() {
        add(&[&path[..], fault].concat());
        let mut inner = vec![9u8];
        for (k, kind) in PATH.iter().rev().enumerate() {
            let behind: &[u8] = if k == 2 { fault } else { &[] };
            inner = [&wrapped_plain(kind, &inner)[..], behind].concat();
        }
        add(&wrapped_plain(b"free", &inner));
        add(&inner);
    }
    for _ in 0..400 {
        let stbl = random.bytes(3);
        let s = if random.one_in(2) { whole(random, 1, &stbl) } else { children(random, 0, &stbl) };
        add(&s);
        let cut = random.below(s.len() as u64 + 1) as usize;
        add(&s[..cut]);
    }
}

/// The cue listing of a track: the search's refusal, or the listing of the body that it finds. At most `most` lines of a refusal are stored, and some more listings.
fn sample(out: &mut Vectors, random: &mut Random, most: usize, kind: &[u8; 4], track: u32, s: &[u8]) {
    let (place, size) = match find(s, track) {
        Answer::Given([place, size]) => (place as usize, size as usize),
        told => return out.add_few(most, 25, &[track as u64, u32::from_be_bytes(*kind) as u64, 8, 40], s, told.map(|n| n.to_vec())),
    };
    for ([kind, numbers, room], answer) in listing::answers(random, kind, &s[place..place + size]) {
        let most = if let Answer::Given(_) = answer { most.saturating_mul(8) } else { most };
        out.add_few(most, 25, &[track as u64, kind, numbers, room], s, answer);
    }
}

/// Films around bodies: two tracks, a fault at the top and in the stbl, a moov that is cut, containers that are missing, and every refusal of the body.
pub fn listing_vectors(out: &mut Vectors) {
    let random = &mut Random::new(0xa25);
    let (starred, all) = (listing::starred(), usize::MAX);
    let film = track(&starred);
    sample(out, random, all, b"roll", 0, &film);
    sample(out, random, all, b"prol", 0, &film);
    sample(out, random, all, b"roll", 1, &film);
    sample(out, random, all, b"roll", u32::MAX, &film);
    // Two tracks, the first without a table.
    let tracks: Vec<u8> = [&[][..], &starred].iter().flat_map(|stbl| track(stbl)[8..].to_vec()).collect();
    for track in 0..3 {
        sample(out, random, all, b"roll", track, &wrapped_plain(b"moov", &tracks));
    }
    for fault in &faults() {
        sample(out, random, all, b"roll", 0, &[&film[..], fault].concat());
        sample(out, random, all, b"roll", 0, &track(&[&starred[..], fault].concat()));
    }
    sample(out, random, all, b"roll", 0, &film[..film.len() - 1]);
    for (depth, kind) in PATH.iter().enumerate().rev() {
        let cut = PATH[..depth].iter().rev().fold(wrapped_plain(b"free", &[]), |inner, kind| wrapped_plain(kind, &inner));
        sample(out, random, all, b"roll", 0, &cut);
        // an atom of the path that passes its parent's end
        let mut far = film.clone();
        let at = 8 * depth;
        assert!(far[at + 4..at + 8] == **kind);
        far[at + 3] += 1;
        sample(out, random, all, b"roll", 0, &far);
    }
    // A rash whose trailer is cut.
    let rash = stbl::Film { kind: *b"rash", values: vec![vec![0, 1, 0, 7, 0, 0, 0, 8, 0, 0, 0, 9]], cues: vec![stbl::Cue::Value(0)] };
    let body = (0..100).map(|_| stbl::body(random, &rash)).min_by_key(Vec::len).unwrap();
    sample(out, random, 1, b"rash", 0, &track(&body));
    listing::short_bodies(&mut Random::new(0xa26), |random, kind, s| {
        let film = if random.one_in(3) { whole(random, 1, s) } else { track(s) };
        if film.len() <= 160 {
            sample(out, random, 2, kind, 0, &film);
        }
    });
}

/// Headers that are refused: 1 to 5.
pub fn faults() -> [Vec<u8>; 5] {
    [vec![0, 0, 0], vec![0, 0, 0, 1, b'a', b'b', b'c', b'd', 0], [&[0, 0, 0, 7], &b"free"[..]].concat(), extended(15), extended(u64::MAX)]
}

/// A film of one track around the body of its stbl.
pub fn track(stbl: &[u8]) -> Vec<u8> {
    PATH.iter().rev().fold(stbl.to_vec(), |inner, kind| wrapped_plain(kind, &inner))
}

pub fn wrapped_plain(kind: &[u8; 4], body: &[u8]) -> Vec<u8> {
    [&(body.len() as u32 + 8).to_be_bytes()[..], kind, body].concat()
}

fn extended(size: u64) -> Vec<u8> {
    [&1u32.to_be_bytes()[..], b"free", &size.to_be_bytes()].concat()
}
