//! Part 4 of document 01.

use super::MIB;
use super::ffi::{self, Answer};
use super::random::Random;
use super::tables::{self, Readers};
use super::tally::Tally;
use super::vectors::Vectors;
use super::listing;
use crate::film_index::ROW_NUMBERS;
use crate::sample_groups::{self, SampleToGroup, SampleToGroupEntry};
use crate::standalone::{Error, Result};

pub const WIDTHS: [u32; 4] = [4, 8, 16, 32];

/// The largest pattern length, and the largest sum of counts, of document 01's domain.
const MOST: u32 = 1_000_000;

/// Numbers in fields of 4 bits or a multiple of 4, high bit first.
struct Bits {
    bytes: Vec<u8>,
    half: bool,
}

impl Bits {
    fn put(&mut self, width: u32, value: u32) {
        for k in (0..width / 4).rev() {
            let four = (value >> (4 * k) & 15) as u8;
            if self.half {
                *self.bytes.last_mut().unwrap() |= four;
            } else {
                self.bytes.push(four << 4);
            }
            self.half = !self.half;
        }
    }
}

/// The codes of index, count and pattern length, whether a parameter is there, and whether the highest bit of an index is a mark (flag bit 7).
#[derive(Clone, Copy)]
pub struct Shape {
    pub index: usize,
    pub count: usize,
    pub length: usize,
    pub parameter: bool,
    pub marks: bool,
}

impl Shape {
    /// Without marks.
    fn all() -> impl Iterator<Item = Shape> {
        (0..128).map(|k| Shape { index: k % 4, count: k / 4 % 4, length: k / 16 % 4, parameter: k / 64 == 1, marks: false })
    }

    /// The bytes before the patterns.
    fn head(&self) -> usize {
        if self.parameter { 16 } else { 12 }
    }

    /// The largest pattern length and sample count that fit their fields and lie in the domain.
    fn most(&self) -> [u32; 2] {
        [self.length, self.count].map(|code| (u32::MAX >> (32 - WIDTHS[code])).min(MOST))
    }
}

/// A pattern: its declared length, its sample count and its indices.
pub type Pattern = (u32, u32, Vec<u32>);

/// A payload, or none where a number does not fit its field.
pub fn payload(random: &mut Random, shape: Shape, declared: u32, patterns: &[Pattern]) -> Option<Vec<u8>> {
    let [iw, cw, lw] = [shape.index, shape.count, shape.length].map(|c| WIDTHS[c]);
    let fits = |w: u32, v: u32| w == 32 || v < 1 << w;
    let whole = patterns.iter().all(|(l, n, is)| fits(lw, *l) && fits(cw, *n) && is.iter().all(|&i| fits(iw, i)));
    if !whole {
        return None;
    }
    let flags = (shape.index | shape.count << 2 | shape.length << 4 | (shape.parameter as usize) << 6) as u8;
    let mut s = vec![random.next() as u8, random.next() as u8, random.next() as u8, flags | random.pick(&[(shape.marks as u8) << 7])];
    s.extend(b"rap ");
    if shape.parameter {
        s.extend((random.next() as u32).to_be_bytes());
    }
    s.extend(declared.to_be_bytes());
    let mut bits = Bits { bytes: Vec::new(), half: false };
    for (length, count, _) in patterns {
        bits.put(lw, *length);
        bits.put(cw, *count);
    }
    for index in patterns.iter().flat_map(|(_, _, is)| is) {
        bits.put(iw, *index);
    }
    s.extend(bits.bytes);
    Some(s)
}

/// Whether a payload lies in the domain: flag bit 7 is clear, no index is 2^31 or more, and lengths and counts are not too large. The pairs and the indices are read as far as
/// they go.
pub fn in_domain(s: &[u8]) -> bool {
    if s.len() < 12 {
        return s.len() < 4 || s[3] < 128;
    }
    expands(s) && s[3] < 128 && !(s[3] & 3 == 3 && has_large(s))
}

/// Whether an index of 32 bits is 2^31 or more, of a payload that expands.
fn has_large(s: &[u8]) -> bool {
    let Ok((place, lengths)) = pair_table(s) else { return false };
    let indices = lengths.iter().map(|&length| length as usize).sum::<usize>();
    (0..indices).map(|k| place + 32 * k).take_while(|at| at + 32 <= 8 * s.len()).any(|at| s[at / 8] >> (7 - at % 8) & 1 == 1)
}

/// The bit place behind the pairs, and the lengths of the patterns; the pairs must all be there.
fn pair_table(s: &[u8]) -> std::result::Result<(usize, Vec<u32>), ()> {
    let (lw, cw) = (WIDTHS[s[3] as usize >> 4 & 3] as usize, WIDTHS[s[3] as usize >> 2 & 3] as usize);
    let at = if s[3] >> 6 & 1 == 1 { 12 } else { 8 };
    let declared = u32::from_be_bytes(s.get(at..at + 4).ok_or(())?.try_into().unwrap()) as usize;
    let place = 8 * (at + 4);
    if declared.saturating_mul(lw + cw) > 8 * s.len() - place {
        return Err(());
    }
    let bit = |p: usize| (s[p / 8] >> (7 - p % 8) & 1) as u32;
    let length = |k: usize| (0..lw).fold(0, |v, b| v << 1 | bit(place + (lw + cw) * k + b));
    Ok((place + (lw + cw) * declared, (0..declared).map(length).collect()))
}

/// Whether lengths and counts are within what the Rust expands in memory.
pub fn expands(s: &[u8]) -> bool {
    if s.len() < 12 {
        return true;
    }
    let flags = s[3] as usize;
    let (lw, cw) = (WIDTHS[flags >> 4 & 3] as usize, WIDTHS[flags >> 2 & 3] as usize);
    let at = if flags >> 6 & 1 == 1 { 12 } else { 8 };
    if s.len() < at + 4 {
        return true;
    }
    let declared = u32::from_be_bytes(s[at..at + 4].try_into().unwrap()) as u64;
    let bit = |p: usize| (s[p / 8] >> (7 - p % 8) & 1) as u64;
    let field = |p: usize, w: usize| (p..p + w).fold(0, |v, k| v << 1 | bit(k));
    let mut place = 8 * (at + 4);
    let mut sum = 0;
    for _ in 0..declared {
        if place + lw + cw > 8 * s.len() {
            break;
        }
        let (length, count) = (field(place, lw), field(place + lw, cw));
        sum += count;
        if length > MOST as u64 || sum > MOST as u64 {
            return false;
        }
        place += lw + cw;
    }
    true
}

/// With the Rust where it has the same meaning; else, with flag bit 7 or an index of 2^31 or more, with a calculation of our own.
fn compare(tally: &mut Tally, random: &mut Random, s: &[u8]) {
    let (payloads, reference): (_, fn(&[u8]) -> Result<SampleToGroup>) = match (in_domain(s), expands(s)) {
        (true, _) => ("payloads of csgp", sample_groups::parse_csgp),
        (false, true) => ("payloads of csgp with marks or large indices", by_document),
        (false, false) => return,
    };
    let readers =
        Readers { payloads, entry: "parse_csgp", ours: ffi::parse_csgp, needed: "csgp_rows_needed", ours_needed: ffi::csgp_rows_needed, reference };
    tables::compare(tally, random, &readers, s);
}

/// Part 4 of document 01 with A7 of document 02, sample by sample.
pub fn by_document(s: &[u8]) -> Result<SampleToGroup> {
    let refused = |n: u32| Error::invalid(format!("document {n}"));
    if s.len() < 8 {
        return Err(refused(20));
    }
    let patterns = listing::patterns(s).map_err(refused)?;
    let grouping_type_parameter = if s[3] >> 6 & 1 == 1 { u32::from_be_bytes(s[8..12].try_into().unwrap()) } else { 0 };
    let mut entries: Vec<SampleToGroupEntry> = Vec::new();
    for (count, indices) in patterns {
        for k in 0..count as usize {
            let group_description_index = indices[k % indices.len()];
            match entries.last_mut() {
                Some(row) if row.group_description_index == group_description_index => row.sample_count += 1,
                _ => entries.push(SampleToGroupEntry { sample_count: 1, group_description_index }),
            }
        }
    }
    Ok(SampleToGroup { grouping_type: s[4..8].try_into().unwrap(), grouping_type_parameter, entries })
}

/// Indices of every width with and without their mark, low bits of 0, 1 and all ones, in patterns around every wrap, whole and cut at every byte; and 32-bit indices of 2^31 and
/// more without marks, at every position, used by a sample or not, before a length of 0 and before a cut.
fn marked(tally: &mut Tally, random: &mut Random) {
    for index in 0..4 {
        let top = 1u32 << (WIDTHS[index] - 1);
        let some = [0, 1, 2, top - 1, top, top | 1, top | 2, top | (top - 1)];
        for length in 1..=5u32 {
            for count in (0..=2 * length + 2).chain([15]) {
                for _ in 0..280 {
                    let marks = index < 3 || random.one_in(2);
                    let shape = Shape { index, count: random.below(4) as usize, length: random.below(4) as usize, parameter: random.one_in(3), marks };
                    let mut pick = |n: u32| -> Vec<u32> { (0..n).map(|_| random.pick(&some)).collect() };
                    let [first, second] = [pick(length), pick(2)];
                    let behind = random.pick(&[0, 2, 2, 2]);
                    let patterns = [(length, count, first), (behind, random.below(6) as u32, second)];
                    let s = payload(random, shape, 2, &patterns).unwrap();
                    compare(tally, random, &s);
                    for _ in 0..4 {
                        let len = random.below(s.len() as u64) as usize;
                        compare(tally, random, &s[..len]);
                    }
                }
            }
        }
    }
}

/// Lengths and counts around every wrap, in every combination of widths; every truncation, so that the end falls into each field.
fn wraps(tally: &mut Tally, random: &mut Random) {
    for shape in Shape::all() {
        for length in 0..=5u32 {
            for count in (0..=2 * length + 2).chain([15]) {
                let indices: Vec<u32> = (0..length).map(|_| random.below(3) as u32).collect();
                let second: Vec<u32> = (0..1 + random.below(3) as u32).map(|_| random.below(3) as u32).collect();
                let patterns = [(length, count, indices), (second.len() as u32, random.below(9) as u32, second)];
                for declared in [2, 1, 3, 0x4000_0000] {
                    let Some(s) = payload(random, shape, declared, &patterns) else { continue };
                    if declared != 2 {
                        compare(tally, random, &s);
                        continue;
                    }
                    for len in 0..=s.len() {
                        compare(tally, random, &s[..len]);
                    }
                }
            }
        }
    }
}

/// Random patterns, joined across their seams, some damaged.
fn mixed(tally: &mut Tally, random: &mut Random) {
    for _ in 0..1_000_000 {
        let shape = Shape { index: random.below(4) as usize, count: random.below(4) as usize, length: random.below(4) as usize, parameter: random.one_in(3), marks: false };
        let patterns: Vec<Pattern> = (0..random.below(6))
            .map(|_| {
                let length = random.below(7) as u32;
                let kinds = 1 + random.below(3);
                let indices: Vec<u32> = (0..length).map(|_| random.below(kinds) as u32).collect();
                (length, random.below(16) as u32, indices)
            })
            .collect();
        let Some(mut s) = payload(random, shape, patterns.len() as u32, &patterns) else { continue };
        if random.one_in(4) {
            let k = random.below(s.len() as u64) as usize;
            s[k] = random.next() as u8;
        }
        if random.one_in(6) {
            s.truncate(random.below(s.len() as u64) as usize);
        }
        compare(tally, random, &s);
    }
}

/// One pattern with sums up to 1,000,000 and large indices.
fn large(tally: &mut Tally, random: &mut Random) {
    for round in 0..60 {
        let uniform = round % 3 == 0;
        let length = random.pick(&[1, 2, 3, 1000, 65_535, 262_139]);
        let kinds = if uniform { 1 } else { random.pick(&[2, 5, 0xffff_ffff]) };
        let base = random.next() as u32 / 2;
        let indices: Vec<u32> = (0..length).map(|_| base.wrapping_add(random.below(kinds) as u32)).collect();
        let count = random.pick(&[1, 999_999, MOST, length, length + 1, 2 * length - 1]).min(MOST);
        let shape = Shape { index: 3, count: 3, length: 3, parameter: false, marks: false };
        let s = payload(random, shape, 1, &[(length, count, indices)]).unwrap();
        compare(tally, random, &s);
    }
}

/// Patterns of at most `longest` indices whose fields fill `size` bytes, but for less than the smallest pattern, with counts of at most
/// `samples` together.
fn filling(random: &mut Random, shape: Shape, size: usize, longest: u32, mut samples: u32) -> Vec<Pattern> {
    let [iw, pair] = [WIDTHS[shape.index], WIDTHS[shape.count] + WIDTHS[shape.length]];
    let [longest, largest] = [shape.most()[0].min(longest), shape.most()[1]];
    let mut left = 8 * (size - shape.head()) as u64;
    let mut patterns = Vec::new();
    while left >= (pair + iw) as u64 {
        let fitting = ((left - pair as u64) / iw as u64).min(longest as u64) as u32;
        let length = if fitting < 16 { fitting } else { fitting - random.below(3) as u32 };
        let count = random.below(2 * length as u64 + 2).min(largest.min(samples) as u64) as u32;
        let kinds = random.pick(&[1, 2, 15]);
        patterns.push((length, count, (0..length).map(|_| random.below(kinds) as u32).collect()));
        left -= pair as u64 + iw as u64 * length as u64;
        samples -= count;
    }
    patterns
}

/// Inputs of 1 MiB, in every combination of widths, of short patterns or of the longest: whole, cut at the end and within the pair table, with
/// a pattern too many, and damaged.
fn mebibytes(tally: &mut Tally, random: &mut Random) {
    for mut shape in Shape::all().filter(|shape| !shape.parameter) {
        shape.parameter = random.one_in(2);
        let longest = random.pick(&[1, 15, MOST, MOST]);
        let samples = random.pick(&[MOST, 100_000, 10_000, 1000]);
        let patterns = filling(random, shape, MIB, longest, samples);
        let declared = patterns.len() as u32;
        let mut s = payload(random, shape, declared, &patterns).unwrap();
        let used = s.len();
        s.resize(MIB, 0);
        compare(tally, random, &s);
        compare(tally, random, &s[..used - 1]);
        let pairs = shape.head() + patterns.len() * (WIDTHS[shape.count] + WIDTHS[shape.length]) as usize / 8;
        compare(tally, random, &s[..pairs - 1]);
        s[shape.head() - 4..shape.head()].copy_from_slice(&(declared + 1).to_be_bytes());
        compare(tally, random, &s);
        let k = random.below(MIB as u64) as usize;
        s[k] ^= 1 << random.below(8);
        compare(tally, random, &s);
    }
}

/// Many periods, between patterns that their rows join, with every number of records up to enough: it runs out in each of the periods that
/// are passed in one step, too.
fn periods(tally: &mut Tally, random: &mut Random) {
    let shape = Shape { index: 1, count: 2, length: 1, parameter: false, marks: false };
    for length in 1..=6u32 {
        for round in 0..60 {
            let kinds = 1 + round % 3;
            let mut some = |n: u32| -> Vec<u32> { (0..n).map(|_| random.below(kinds) as u32).collect() };
            let [before, indices, behind] = [some(2), some(length), some(2)];
            let count = length * random.below(20) as u32 + random.below(length as u64) as u32;
            let patterns = [(2, random.below(9) as u32, before), (length, count, indices), (2, random.below(9) as u32, behind)];
            let s = payload(random, shape, 3, &patterns).unwrap();
            compare(tally, random, &s);
            let input = ffi::Input::new(&s);
            let told = sample_groups::parse_csgp(&s);
            let rows = told.as_ref().unwrap().entries.len();
            for records in 0..=rows {
                let expected = if records < rows { Answer::Refused(29) } else { tables::theirs(&told) };
                let shown = || format!("{s:02x?} with {records} records");
                tally.same("parse_csgp", ffi::parse_csgp(&input, s.len(), ROW_NUMBERS * records), expected, &shown);
            }
            input.check();
        }
    }
}

pub fn run(tally: &mut Tally) {
    let mut random = Random::new(6);
    wraps(tally, &mut random);
    mixed(tally, &mut random);
    periods(tally, &mut random);
    marked(tally, &mut Random::new(67));
}

/// The part that takes long inputs.
pub fn run_long(tally: &mut Tally) {
    let mut random = Random::new(15);
    large(tally, &mut random);
    mebibytes(tally, &mut random);
}

const WIDE: Shape = Shape { index: 1, count: 3, length: 1, parameter: false, marks: false };

pub fn vectors(out: &mut Vectors) {
    let mut random = Random::new(8);
    let worked: [&[Pattern]; 4] = [
        &[(3, 7, vec![1, 2, 2])],
        &[(1, 2, vec![5]), (2, 3, vec![5, 6])],
        &[(1, 0, vec![7]), (1, 1, vec![8])],
        &[(0, 1, vec![])],
    ];
    for patterns in worked {
        let s = payload(&mut random, WIDE, patterns.len() as u32, patterns).unwrap();
        for len in [s.len(), s.len() - 1] {
            tables::sample(out, 6, &s[..len], 0, sample_groups::parse_csgp(&s[..len]));
        }
    }
    let parameter = Shape { parameter: true, ..WIDE };
    let s = payload(&mut random, parameter, 2, &[(2, 3, vec![1, 2]), (1, 1, vec![2])]).unwrap();
    for len in 0..=s.len() {
        tables::sample(out, 6, &s[..len], 0, sample_groups::parse_csgp(&s[..len]));
    }
    for shape in Shape::all() {
        for _ in 0..3 {
            let patterns: Vec<Pattern> = (0..1 + random.below(2))
                .map(|_| {
                    let length = random.below(4) as u32;
                    (length, random.below(8) as u32, (0..length).map(|_| random.below(2) as u32).collect())
                })
                .collect();
            let Some(mut s) = payload(&mut random, shape, patterns.len() as u32, &patterns) else { continue };
            if random.one_in(3) {
                s.truncate(random.below(s.len() as u64) as usize);
            }
            let spare = random.below(3) as usize;
            tables::sample(out, 6, &s, spare, sample_groups::parse_csgp(&s));
        }
    }
}

/// Answers that document 01 gives and the Rust cannot: a run too long for it, and want of records.
pub fn document(out: &mut Vectors) {
    let mut random = Random::new(9);
    let mut add = |numbers: u64, patterns: &[Pattern], answer: Answer<Vec<u64>>| {
        let s = payload(&mut random, WIDE, patterns.len() as u32, patterns).unwrap();
        out.add(6, &[numbers], &s, answer);
    };
    let rap = u32::from_be_bytes(*b"rap ") as u64;
    let most = u32::MAX;
    add(8, &[(1, most, vec![1]), (1, 1, vec![1])], Answer::Refused(28));
    add(0, &[(1, most, vec![1]), (1, 1, vec![1])], Answer::Refused(29));
    add(1, &[(1, 1, vec![1])], Answer::Refused(29));
    add(2, &[(1, most, vec![1])], Answer::Given(vec![rap, 0, 1, most as u64, 1]));
    add(4, &[(1, most, vec![1]), (1, most, vec![2])], Answer::Given(vec![rap, 0, 2, most as u64, 1, most as u64, 2]));
    add(2, &[(1, most, vec![1]), (1, most, vec![2])], Answer::Refused(29));
    add(2, &[(2, most, vec![1, 2])], Answer::Refused(29));
    add(38, &[(2, 20, vec![1, 2])], Answer::Refused(29));
    add(2, &[(3, most, vec![4, 4, 4])], Answer::Given(vec![rap, 0, 1, most as u64, 4]));
    add(4, &[(2, 2, vec![1, 2]), (1, most, vec![2])], Answer::Refused(28));
    add(0, &[(1, 0, vec![1])], Answer::Given(vec![rap, 0, 0]));
    // A7: marks of every width, low bits of 0 too; 67 in the order of the indices, used by a sample or not, before 26 and 27 of a later pattern, after 27 of its own
    let mut add_shape = |shape: Shape, cut: usize, patterns: &[Pattern]| {
        let s = payload(&mut Random::new(10), shape, patterns.len() as u32, patterns).unwrap();
        let s = &s[..s.len() - cut];
        tables::sample(out, 6, s, 0, by_document(s));
    };
    for index in 0..4 {
        let top = 1 << (WIDTHS[index] - 1);
        let shape = Shape { index, marks: true, ..WIDE };
        add_shape(shape, 0, &[(4, 9, vec![top, 0, top | 1, top - 1])]);
        add_shape(shape, 0, &[(2, 4, vec![top | (top - 1), 1]), (1, 2, vec![1])]);
    }
    let large = Shape { index: 3, ..WIDE };
    let top = 1 << 31;
    add_shape(large, 0, &[(1, 1, vec![top - 1])]);
    add_shape(large, 0, &[(1, 1, vec![top])]);
    add_shape(large, 0, &[(2, 1, vec![1, top])]);
    add_shape(large, 0, &[(1, 0, vec![u32::MAX]), (0, 1, vec![])]);
    add_shape(large, 0, &[(0, 1, vec![]), (1, 0, vec![top])]);
    add_shape(large, 1, &[(2, 2, vec![top, top])]);
    add_shape(large, 1, &[(1, 2, vec![top])]);
    add_shape(Shape { marks: true, ..large }, 0, &[(1, 2, vec![top])]);
    let mut add_count = |patterns: &[Pattern], answer: Answer<Vec<u64>>| {
        let s = payload(&mut random, WIDE, patterns.len() as u32, patterns).unwrap();
        out.add(22, &[], &s, answer);
    };
    add_count(&[(1, most, vec![1]), (1, 1, vec![1])], Answer::Refused(28));
    add_count(&[(2, 2, vec![1, 2]), (1, most, vec![2])], Answer::Refused(28));
    add_count(&[(2, most, vec![1, 2])], Answer::Given(vec![most as u64]));
    add_count(&[(3, most, vec![4, 4, 4])], Answer::Given(vec![1]));
}
