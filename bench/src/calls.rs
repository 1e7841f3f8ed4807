//! Calls over slices of the functions of include/film_index.h, as the module for Rust declares them. A call writes into the front of a lent array, which is long
//! enough for each that it is used with.

pub use crate::film_index::raw::*;
use crate::film_index::{RowNumber, Sample};
use std::hint::black_box;

/// By their `out`.
pub type Reader<Out> = unsafe extern "C" fn(*const u8, u64, *mut Out) -> u32;
pub type Numbered<Out> = unsafe extern "C" fn(*const u8, u64, u32, *mut Out) -> u32;
pub type Filler<Out> = unsafe extern "C" fn(*const u8, u64, *mut u32, u64, *mut Out) -> u32;

/// The front of a lent array as the `out` of a call.
#[inline(always)]
pub fn front<Out, const N: usize>(out: &mut [u64; N]) -> *mut Out {
    const { assert!(size_of::<Out>() <= 8 * N) };
    out.as_mut_ptr().cast()
}

#[inline(always)]
pub fn read_into<Out>(call: Reader<Out>, s: &[u8], out: &mut [u64; 5]) -> u32 {
    black_box(unsafe { call(s.as_ptr(), s.len() as u64, front(out)) })
}

#[inline(always)]
pub fn numbered_into<Out>(call: Numbered<Out>, s: &[u8], k: u32, out: &mut [u64; 2]) -> u32 {
    black_box(unsafe { call(s.as_ptr(), s.len() as u64, k, front(out)) })
}

pub fn read<Out>(call: Reader<Out>, s: &[u8]) -> (u32, [u64; 5]) {
    let mut out = [0; 5];
    (read_into(call, s, &mut out), black_box(out))
}

pub fn numbered<Out>(call: Numbered<Out>, s: &[u8], k: u32) -> (u32, [u64; 2]) {
    let mut out = [0; 2];
    (numbered_into(call, s, k, &mut out), black_box(out))
}

/// The status and the number of rows.
pub fn parse(call: Filler<[u64; 3]>, s: &[u8], rows: &mut [RowNumber]) -> (u32, u64) {
    let mut out = [0; 3];
    let status = unsafe { call(s.as_ptr(), s.len() as u64, rows.as_mut_ptr(), rows.len() as u64, &mut out) };
    black_box(&out);
    (status, out[2])
}

/// The status and the number of records of a call that fills a run.
pub fn fill(call: Filler<[u64; 1]>, s: &[u8], run: &mut [u32]) -> (u32, u64) {
    let mut out = [0; 1];
    let status = unsafe { call(s.as_ptr(), s.len() as u64, run.as_mut_ptr(), run.len() as u64, &mut out) };
    black_box(&out);
    (status, out[0])
}

pub fn look_up_into(rows: &[RowNumber], sample: Sample, out: &mut [u64; 1]) -> u32 {
    black_box(unsafe { film_group_index_for_sample(rows.as_ptr(), rows.len() as u64, sample, out) })
}

pub fn look_up(rows: &[RowNumber], sample: Sample) -> u64 {
    let mut out = [0];
    assert_eq!(look_up_into(rows, sample, &mut out), 0);
    black_box(out[0])
}

pub fn covered(rows: &[RowNumber]) -> u64 {
    let mut out = [0];
    assert_eq!(unsafe { film_covered_samples(rows.as_ptr(), rows.len() as u64, &mut out) }, 0);
    black_box(out[0])
}

/// The number of children, walked one after the other.
pub fn walk(s: &[u8]) -> u32 {
    let (mut at, mut count, mut out) = (0, 0, [0; 6]);
    while unsafe { film_next_child(s.as_ptr(), s.len() as u64, at, 1, s.len() as u64, &mut out) } == 0 {
        at = out[0];
        count += 1;
    }
    count
}

pub fn alike_into(kind: u32, a: &[u8], b: &[u8], out: &mut [u64; 1]) -> u32 {
    black_box(unsafe { film_decode_alike(kind, a.as_ptr(), a.len() as u64, b.as_ptr(), b.len() as u64, out) })
}

pub fn alike(kind: &[u8; 4], a: &[u8], b: &[u8]) -> (u32, u64) {
    let mut out = [0];
    (alike_into(u32::from_be_bytes(*kind), a, b, &mut out), black_box(out[0]))
}

pub fn described(film: &[u8], fragment: &[u8], raw: u32) -> (u32, [u64; 3]) {
    let mut out = [0; 3];
    let status = unsafe { film_described_place(film.as_ptr(), film.len() as u64, fragment.as_ptr(), fragment.len() as u64, raw, &mut out) };
    black_box(&out);
    (status, out)
}

/// The listing's length and the number of rows, or the refusal.
pub fn list(body: &[u8], kind: &[u8; 4], rows: &mut [RowNumber], listing: &mut [u8]) -> Result<[u64; 2], u32> {
    let mut out = [0u64; 2];
    let number = u32::from_be_bytes(*kind);
    let (run, numbers, output, room) = (rows.as_mut_ptr(), rows.len() as u64, listing.as_mut_ptr(), listing.len() as u64);
    let status = unsafe { film_cue_listing(body.as_ptr(), body.len() as u64, number, run, numbers, output, room, &mut out) };
    if status == 0 { Ok(black_box(out)) } else { Err(status) }
}
