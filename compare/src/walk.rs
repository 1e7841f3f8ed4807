//! The walk over the children of an atom, by a calculation of our own.

use super::ffi::Answer;

fn big_endian(s: &[u8], at: usize, n: usize) -> u64 {
    s[at..at + n].iter().fold(0, |v, &b| v << 8 | b as u64)
}

/// Type, open or not, size, header length and place of the body.
pub fn header(s: &[u8], at: u64) -> Answer<[u64; 5]> {
    let len = s.len() as u64;
    if len <= at {
        return Answer::None;
    }
    let left = len - at;
    if left < 8 {
        return Answer::Refused(1);
    }
    let place = at as usize;
    let (size, length) = match big_endian(s, place, 4) {
        0 => (None, 8),
        1 if left < 16 => return Answer::Refused(2),
        1 => match big_endian(s, place + 8, 8) {
            0..=15 => return Answer::Refused(4),
            n => (Some(n), 16),
        },
        2..=7 => return Answer::Refused(3),
        n => (Some(n), 8),
    };
    if size.is_some_and(|n| u64::MAX - at < n) {
        return Answer::Refused(5);
    }
    Answer::Given([big_endian(s, place + 4, 4), size.is_none() as u64, size.unwrap_or(0), length, at + length])
}

/// The next place, then the header's numbers.
pub fn child(s: &[u8], at: u64, end: Option<u64>) -> Answer<[u64; 6]> {
    if end.is_some_and(|end| end <= at) {
        return Answer::None;
    }
    let [kind, open, size, length, body] = match header(s, at) {
        Answer::Given(numbers) => numbers,
        Answer::None => return Answer::None,
        Answer::Refused(n) => return Answer::Refused(n),
    };
    let next = match (open, end) {
        (0, _) => at + size,
        (_, Some(end)) => end,
        (_, None) => return Answer::Refused(7),
    };
    if end.is_some_and(|end| end < next) {
        return Answer::Refused(6);
    }
    Answer::Given([next, kind, open, size, length, body])
}
