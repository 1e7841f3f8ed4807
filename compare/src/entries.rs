//! Part 7 of document 01: the typed entries, and whether two of them decode alike.

use super::MIB;
use super::ffi::{self, Answer, Input};
use super::messages;
use super::random::Random;
use super::sgpd::{TYPES, records_of};
use super::tally::Tally;
use super::vectors::Vectors;
use crate::sample_groups as rust;
use crate::standalone::{Error, Result};

pub fn number(error: &Error) -> u32 {
    let Error::InvalidData(text) = error else { panic!("an error of another kind: {error}") };
    messages::number(
        text,
        &[
            ("entry < ", 40),
            ("operation_point_count must be non-zero", 41),
            ("truncated single share", 42),
            ("truncated operation point", 42),
            ("truncated bitrate / discard trailer", 43),
            ("truncated sample_offset table", 44),
            ("not a multiple of 4 bytes", 45),
        ],
    )
}

fn told<T, U>(read: &Result<T>, f: impl FnOnce(&T) -> U) -> Answer<U> {
    match read {
        Ok(v) => Answer::Given(f(v)),
        Err(e) => Answer::Refused(number(e)),
    }
}

/// Element k of a list in a decoded value: the decoder's refusals first, none past the count.
fn element<T, E, U>(read: &Result<T>, list: impl FnOnce(&T) -> &[E], k: u32, f: impl FnOnce(&E) -> U) -> Answer<U> {
    match read {
        Err(e) => Answer::Refused(number(e)),
        Ok(v) => list(v).get(k as usize).map_or(Answer::None, |e| Answer::Given(f(e))),
    }
}

/// Numbers far past every count: a count of 16 bits more, and the sign bit.
const FAR: [u32; 3] = [1 << 16, (1 << 16) + 1, 1 << 31];

/// Every decoder on the same bytes.
fn compare(tally: &mut Tally, random: &mut Random, s: &[u8]) {
    let input = Input::new(s);
    let len = s.len();
    let shown = || format!("{:02x?}", &s[..len.min(80)]);
    tally.input("entries");
    tally.same("decode_roll", ffi::decode_roll(&input, len), told(&rust::decode_roll(s), |v| v.roll_distance as i64), &shown);
    tally.same("decode_prol", ffi::decode_prol(&input, len), told(&rust::decode_prol(s), |v| v.roll_distance as i64), &shown);
    let rap = told(&rust::decode_rap(s), |v| [v.num_leading_samples_known as u64, v.num_leading_samples as u64]);
    tally.same("decode_rap", ffi::decode_rap(&input, len), rap, &shown);
    let tele = told(&rust::decode_tele(s), |v| [v.level_independently_decodable as u64]);
    tally.same("decode_tele", ffi::decode_tele(&input, len), tele, &shown);
    let sap = told(&rust::decode_sap(s), |v| [v.dependent as u64, v.sap_type as u64]);
    tally.same("decode_sap", ffi::decode_sap(&input, len), sap, &shown);
    let rash = rust::decode_rash(s);
    tally.same("decode_rash", ffi::decode_rash(&input, len), told(&rash, rash_numbers), &shown);
    let alst = rust::decode_alst(s);
    tally.same("decode_alst", ffi::decode_alst(&input, len), told(&alst, alst_numbers), &shown);
    let counts = [
        rash.as_ref().map_or(1, |v| v.operation_points.len()),
        alst.as_ref().map_or(1, |v| v.sample_offsets.len()),
        alst.as_ref().map_or(1, |v| v.pieces.len()),
    ];
    for (list, count) in counts.into_iter().enumerate() {
        let count = count as u32;
        for k in [0, 1, count.saturating_sub(1), count, count + 1, random.below(count as u64 + 2) as u32, u32::MAX, FAR[list]] {
            let shown = || format!("{k} of {}", shown());
            match list {
                0 => tally.same("rash_operation_point", ffi::rash_operation_point(&input, len, k), point(&rash, k), &shown),
                1 => tally.same("alst_sample_offset", ffi::alst_sample_offset(&input, len, k), offset(&alst, k), &shown),
                _ => tally.same("alst_piece", ffi::alst_piece(&input, len, k), piece(&alst, k), &shown),
            }
        }
    }
    // all points at once: a number too few for them, then enough and one that has no partner
    for numbers in [2 * counts[0] - 1, 2 * counts[0] + 1] {
        tally.same("rash_operation_points", ffi::rash_operation_points(&input, len, numbers), all_points(&rash, numbers), &|| format!("{numbers} numbers for {}", shown()));
    }
    input.check();
}

fn rash_numbers(v: &rust::RateShare) -> [u64; 4] {
    [v.operation_points.len() as u64, v.maximum_bitrate as u64, v.minimum_bitrate as u64, v.discard_priority as u64]
}

fn alst_numbers(v: &rust::AlternativeStartup) -> [u64; 3] {
    [v.roll_count as u64, v.first_output_sample as u64, v.pieces.len() as u64]
}

fn point(read: &Result<rust::RateShare>, k: u32) -> Answer<[u64; 2]> {
    element(read, |v| &v.operation_points, k, |p| [p.available_bitrate as u64, p.target_rate_share as u64])
}

/// What rash_operation_points answers with a run of so many numbers.
fn all_points(read: &Result<rust::RateShare>, numbers: usize) -> Answer<Vec<(u32, u32)>> {
    match read {
        Ok(v) if numbers / 2 < v.operation_points.len() => Answer::Refused(29),
        _ => told(read, |v| v.operation_points.iter().map(|p| (p.available_bitrate, p.target_rate_share as u32)).collect()),
    }
}

fn offset(read: &Result<rust::AlternativeStartup>, k: u32) -> Answer<[u64; 1]> {
    element(read, |v| &v.sample_offsets, k, |&o| [o as u64])
}

fn piece(read: &Result<rust::AlternativeStartup>, k: u32) -> Answer<[u64; 2]> {
    element(read, |v| &v.pieces, k, |p| [p.num_output_samples as u64, p.num_total_samples as u64])
}

/// Whether two entries decode alike, by the Rust's own equality.
fn likeness(kind: &[u8; 4], a: &[u8], b: &[u8]) -> Answer<[u64; 1]> {
    fn both<T: PartialEq>(decode: fn(&[u8]) -> Result<T>, a: &[u8], b: &[u8]) -> Answer<[u64; 1]> {
        match (decode(a), decode(b)) {
            (Err(e), _) | (_, Err(e)) => Answer::Refused(number(&e)),
            (Ok(x), Ok(y)) => Answer::Given([(x == y) as u64]),
        }
    }
    match kind {
        b"roll" => both(rust::decode_roll, a, b),
        b"prol" => both(rust::decode_prol, a, b),
        b"rap " => both(rust::decode_rap, a, b),
        b"tele" => both(rust::decode_tele, a, b),
        b"sap " => both(rust::decode_sap, a, b),
        b"rash" => both(rust::decode_rash, a, b),
        b"alst" => both(rust::decode_alst, a, b),
        _ => Answer::Given([(a == b) as u64]),
    }
}

fn compare_likeness(tally: &mut Tally, kind: &[u8; 4], a: &[u8], b: &[u8]) {
    let (x, y) = (Input::new(a), Input::new(b));
    let ours = ffi::decode_alike(*kind, &x, a.len(), &y, b.len());
    let front = |s: &[u8]| s[..s.len().min(80)].to_vec();
    tally.same("decode_alike", ours, likeness(kind, a, b), &|| format!("{kind:?}: {:02x?} and {:02x?}", front(a), front(b)));
    x.check();
    y.check();
}

/// Bytes that begin with a count, so that rash and alst find their lists.
fn counted(random: &mut Random, count: u16, len: usize) -> Vec<u8> {
    let mut s = count.to_be_bytes().to_vec();
    s.extend(random.bytes(len));
    s.truncate(len);
    s
}

/// The part that takes long inputs.
pub fn run_long(tally: &mut Tally) {
    mebibytes(tally, &mut Random::new(17));
}

/// Entries up to 1 MiB: every decoder, and each type against itself, against one that differs in a byte at either end or in the list, has bytes
/// behind, or is cut. A tail of more than 65,535 pieces is among them, and 65,535 points.
fn mebibytes(tally: &mut Tally, random: &mut Random) {
    for count in [0u16, 1, 2, 1000, 65_534, 65_535] {
        let [rash, offsets] = [2 + 6 * count as usize + 9, 4 + 4 * count as usize];
        for len in [rash, offsets + 4 * 65_535, offsets + 4 * 65_536, MIB - 3, MIB - 2, MIB - 1, MIB] {
            let s = counted(random, count, len);
            compare(tally, random, &s);
            for kind in TYPES {
                compare_likeness(tally, kind, &s, &s);
                for k in [0, 1, 5, rash - 1, offsets, len - 1] {
                    let mut other = s.clone();
                    if let Some(byte) = other.get_mut(k) {
                        *byte ^= 1;
                        compare_likeness(tally, kind, &s, &other);
                    }
                }
                compare_likeness(tally, kind, &s, &s[..len - 1]);
                compare_likeness(tally, kind, &s[..len - len.min(4)], &s);
                compare_likeness(tally, kind, &s[..1], &s[..len - 1]);
            }
        }
    }
}

pub fn run(tally: &mut Tally) {
    let mut random = Random::new(13);
    // Every length 0 to 40 with every count of points or offsets that fits in it, many times.
    for len in 0..=40 {
        for count in 0..=10 {
            for _ in 0..2100 {
                let s = counted(&mut random, count, len);
                compare(tally, &mut random, &s);
            }
        }
    }
    // Every byte and every pair of bytes.
    for first in 0..=255u8 {
        for second in 0..=255u8 {
            compare(tally, &mut random, &[first, second]);
        }
        compare(tally, &mut random, &[first]);
    }
    // Long lists, whole, cut and with bytes behind.
    for count in [2u16, 100, 1000, 32_767, 65_535] {
        for extra in [-10i64, -9, -1, 0, 1, 2, 3, 4, 8] {
            for whole in [2 + 6 * count as i64 + 9, 4 + 4 * count as i64] {
                let s = counted(&mut random, count, (whole + extra).max(0) as usize);
                compare(tally, &mut random, &s);
            }
        }
    }
    // Pairs of entries that differ in one byte, in their tail, or not at all.
    for _ in 0..300_000 {
        let kind = random.pick(&TYPES);
        let count = 1 + random.below(3) as u16;
        let len = random.below(36) as usize;
        let a = counted(&mut random, count, len);
        let mut b = a.clone();
        if random.one_in(2) && !b.is_empty() {
            let k = random.below(b.len() as u64) as usize;
            b[k] ^= 1 << random.below(8);
        }
        if random.one_in(4) {
            b.extend(random.bytes(4));
        }
        compare_likeness(tally, kind, &a, &b);
    }
    // Entries of a type without a decoder, of every length to 300: alike, and each byte of the second changed in turn.
    for len in 0..=300 {
        let a = random.bytes(len);
        compare_likeness(tally, b"abcd", &a, &a);
        for k in 0..len {
            let mut b = a.clone();
            b[k] ^= 1 << random.below(8);
            compare_likeness(tally, b"abcd", &a, &b);
        }
    }
}

/// Entries that are stored: document 01's distances, one of each long layout cut at every byte, and others.
fn stored(mut add: impl FnMut(&[u8])) {
    for s in [[0xff, 0xfe], [0x80, 0x00], [0x7f, 0xff], [0x00, 0x80]] {
        add(&s);
    }
    let rash = [0, 2, 0, 0, 0, 5, 0, 7, 0, 0, 0, 6, 0, 8, 0, 0, 0, 9, 0, 0, 0, 3, 1];
    let one = [0, 1, 0, 7, 0, 0, 0, 8, 0, 0, 0, 9, 5];
    let alst = [0, 2, 0, 6, 0, 0, 0, 3, 0, 0, 0, 4, 0, 4, 0, 5, 0, 6, 0, 7];
    for s in [&rash[..], &one, &alst] {
        for len in (0..=s.len()).rev() {
            add(&s[..len]);
        }
    }
    let mut random = Random::new(14);
    for _ in 0..70 {
        let len = random.below(30) as usize;
        let count = random.below(4) as u16;
        add(&counted(&mut random, count, len));
    }
}

/// Entries 11 to 20: the decoders, with points, offsets and pieces by number. A distance is stored as 64 bits, with its sign.
pub fn vectors(out: &mut Vectors) {
    stored(|s| sample(out, s));
}

/// Entry 36: rash_operation_points, with a number too few for all points, then with enough and one that has no partner.
pub fn records(out: &mut Vectors) {
    stored(|s| {
        let rash = rust::decode_rash(s);
        let count = rash.as_ref().map_or(1, |v| v.operation_points.len());
        for numbers in [2 * count - 1, 2 * count + 1] {
            out.add(36, &[numbers as u64], s, all_points(&rash, numbers).map(|all| records_of(&all)));
        }
    });
}

fn sample(out: &mut Vectors, s: &[u8]) {
    out.add(11, &[], s, told(&rust::decode_roll(s), |v| vec![v.roll_distance as i64 as u64]));
    out.add(12, &[], s, told(&rust::decode_prol(s), |v| vec![v.roll_distance as i64 as u64]));
    out.add(13, &[], s, told(&rust::decode_rap(s), |v| vec![v.num_leading_samples_known as u64, v.num_leading_samples as u64]));
    out.add(14, &[], s, told(&rust::decode_tele(s), |v| vec![v.level_independently_decodable as u64]));
    out.add(15, &[], s, told(&rust::decode_sap(s), |v| vec![v.dependent as u64, v.sap_type as u64]));
    let (rash, alst) = (rust::decode_rash(s), rust::decode_alst(s));
    out.add(16, &[], s, told(&rash, |v| rash_numbers(v).to_vec()));
    out.add(18, &[], s, told(&alst, |v| alst_numbers(v).to_vec()));
    for k in [0, 1, 3] {
        out.add(17, &[k], s, point(&rash, k as u32).map(|n| n.to_vec()));
        out.add(19, &[k], s, offset(&alst, k as u32).map(|n| n.to_vec()));
        out.add(20, &[k], s, piece(&alst, k as u32).map(|n| n.to_vec()));
    }
}
