//! The C interface of the library, behind safe functions that watch all lent memory: the input, what stands around it, and
//! everything that a call may not write. The module for Rust (rust/film_index.rs) is asked the same and must give the same answer.
//! What is empty is lent to the C interface as null; the module lends it as a pointer that dangles.

use crate::film_index::{self as module, ROW_NUMBERS, RowNumber, Sample, SampleToGroupEntry, raw};
use std::cell::Cell;
use std::fmt::Debug;
use std::sync::atomic::{AtomicU64, Ordering};

/// An answer as document 01 gives it.
#[derive(Clone, Debug, PartialEq, Eq)]
pub enum Answer<T> {
    Given(T),
    None,
    Refused(u32),
}

impl<T> Answer<T> {
    pub fn map<U>(self, f: impl FnOnce(T) -> U) -> Answer<U> {
        match self {
            Answer::Given(t) => Answer::Given(f(t)),
            Answer::None => Answer::None,
            Answer::Refused(n) => Answer::Refused(n),
        }
    }
}

impl<T> From<module::Result<T>> for Answer<T> {
    fn from(told: module::Result<T>) -> Self {
        told.map_or_else(|refusal| Answer::Refused(refusal.number()), Answer::Given)
    }
}

/// The module's answer where it may also be none.
fn maybe<T>(told: module::Result<Option<T>>) -> Answer<T> {
    match told {
        Ok(Some(value)) => Answer::Given(value),
        Ok(None) => Answer::None,
        Err(refusal) => Answer::Refused(refusal.number()),
    }
}

const GUARD: u64 = 0xdead_beef_0bad_cafe;
const GUARDS: usize = 4;

/// How often the module was asked, and how often null was lent, by all parts together.
static ASKED: AtomicU64 = AtomicU64::new(0);
static NULLS: AtomicU64 = AtomicU64::new(0);

/// Over so many bytes only every 8th call asks the module too.
const LONG: usize = 4096;

thread_local! {
    static CALLS: Cell<u64> = const { Cell::new(0) };
    static ASKED_HERE: Cell<u64> = const { Cell::new(0) };
    static NULLS_HERE: Cell<u64> = const { Cell::new(0) };
}

/// What a call is lent for `len` items that begin at a place: null where there are none.
fn lent<T>(place: *const T, len: usize) -> *const T {
    if len > 0 {
        return place;
    }
    NULLS_HERE.set(NULLS_HERE.get() + 1);
    std::ptr::null()
}

/// The module gives the same answer. `len` is the length of what is lent.
fn held<T: PartialEq + Debug>(answer: Answer<T>, len: usize, module: impl FnOnce() -> Answer<T>) -> Answer<T> {
    let calls = CALLS.get();
    CALLS.set(calls + 1);
    if len < LONG || calls % 8 == 0 {
        ASKED_HERE.set(ASKED_HERE.get() + 1);
        let told = module();
        assert!(told == answer, "the module for Rust gives {told:?}, the C interface {answer:?}");
    }
    answer
}

/// Adds what this thread asked of the module.
pub fn leave() {
    ASKED.fetch_add(ASKED_HERE.take(), Ordering::Relaxed);
    NULLS.fetch_add(NULLS_HERE.take(), Ordering::Relaxed);
}

/// How often the module was asked by the threads that have left.
pub fn asked() -> u64 {
    ASKED.load(Ordering::Relaxed)
}

/// How often they lent null.
pub fn nulls() -> u64 {
    NULLS.load(Ordering::Relaxed)
}

/// An input between guard bytes; a call reads the middle.
pub struct Input {
    framed: Vec<u8>,
    kept: Vec<u8>,
}

impl Input {
    pub fn new(bytes: &[u8]) -> Self {
        let mut framed = vec![0xa5; 16];
        framed.extend_from_slice(bytes);
        framed.extend_from_slice(&[0x5a; 16]);
        Input { kept: framed.clone(), framed }
    }

    fn part(&self, len: usize) -> *const u8 {
        lent(self.bytes(len).as_ptr(), len)
    }

    fn bytes(&self, len: usize) -> &[u8] {
        assert!(len + 32 <= self.framed.len());
        &self.framed[16..16 + len]
    }

    /// Place and length of a part of the input that the module handed back.
    fn place(&self, part: &[u8]) -> [u64; 2] {
        let (from, at) = (self.framed[16..].as_ptr().addr(), part.as_ptr().addr());
        assert!(from <= at && at + part.len() <= from + self.framed.len() - 32, "a part that is not the input's");
        [(at - from) as u64, part.len() as u64]
    }

    /// The input and its frame are as they were.
    pub fn check(&self) {
        assert!(self.framed == self.kept, "an input was written");
    }
}

/// Calls with an `out` of N numbers between guards: written whole with OK, untouched otherwise.
fn with_out<const N: usize>(call: impl FnOnce(*mut [u64; N]) -> u32) -> Answer<[u64; N]> {
    let mut numbers = [GUARD; 16];
    let framed = &mut numbers[..N + 2 * GUARDS];
    let status = call(framed[GUARDS..].as_mut_ptr().cast());
    let (front, rest) = framed.split_at(GUARDS);
    let (out, back) = rest.split_at(N);
    assert!(front.iter().chain(back).all(|&g| g == GUARD), "memory beside `out` was written");
    if status == raw::OK {
        assert!(out.iter().all(|&g| g != GUARD), "`out` was not written whole");
        return Answer::Given(out.try_into().unwrap());
    }
    assert!(out.iter().all(|&g| g == GUARD), "`out` was written without a value");
    if status == raw::NONE { Answer::None } else { Answer::Refused(status) }
}

fn kind_number(kind: [u8; 4]) -> u64 {
    u32::from_be_bytes(kind) as u64
}

fn header_numbers(h: module::AtomHeader) -> [u64; 5] {
    [kind_number(h.fourcc), h.total_size.is_none() as u64, h.total_size.unwrap_or(0), h.header_len, h.payload_offset]
}

/// A header's numbers: type, open, size, header length, place of the body.
pub fn read_atom_header(s: &Input, len: usize, at: u64) -> Answer<[u64; 5]> {
    let told = with_out(|out| unsafe { raw::film_read_atom_header(s.part(len), len as u64, at, out) });
    held(told, len, || maybe(module::read_atom_header(s.bytes(len), at)).map(header_numbers))
}

/// The place of the next child, and the header's numbers.
pub fn next_child(s: &Input, len: usize, at: u64, end: Option<u64>) -> Answer<[u64; 6]> {
    let (known, limit) = match end {
        Some(end) => (1, end),
        None => (0, 77),
    };
    let told = with_out(|out| unsafe { raw::film_next_child(s.part(len), len as u64, at, known, limit, out) });
    held(told, len, || {
        maybe(module::next_child(s.bytes(len), at, end)).map(|(header, next)| {
            let [a, b, c, d, e] = header_numbers(header);
            [next, a, b, c, d, e]
        })
    })
}

/// The place and the length of a body.
pub fn read_payload(s: &Input, len: usize, at: u64) -> Answer<[u64; 2]> {
    let told = with_out(|out| unsafe { raw::film_read_payload(s.part(len), len as u64, at, out) });
    held(told, len, || maybe(module::read_payload(s.bytes(len), at)).map(|part| s.place(part)))
}

pub fn read_payload_bounded(s: &Input, len: usize, at: u64, max_remaining: u64) -> Answer<[u64; 2]> {
    let told = with_out(|out| unsafe { raw::film_read_payload_bounded(s.part(len), len as u64, at, max_remaining, out) });
    held(told, len, || maybe(module::read_payload_bounded(s.bytes(len), at, max_remaining)).map(|part| s.place(part)))
}

/// The place and the length of the body of a track's stbl.
pub fn find_stbl(s: &Input, len: usize, track: u32) -> Answer<[u64; 2]> {
    let told = with_out(|out| unsafe { raw::film_find_stbl(s.part(len), len as u64, track, out) });
    held(told, len, || Answer::from(module::find_stbl(s.bytes(len), track)).map(|part| s.place(part)))
}

/// A table as its reader hands it out: type, parameter and rows (count, index).
pub type Table = (u32, u32, Vec<(Sample, u32)>);

const ROW_GUARD: RowNumber = 0x7e57_ab1e;
const ROW: SampleToGroupEntry = SampleToGroupEntry { sample_count: ROW_GUARD, group_description_index: ROW_GUARD };

type RawReader = unsafe extern "C" fn(*const u8, u64, *mut RowNumber, u64, *mut [u64; 3]) -> u32;
type ModuleReader = fn(&[u8], &mut [SampleToGroupEntry]) -> module::Result<module::SampleToGroup>;

/// The rows in a run of numbers.
pub fn rows_in(run: &[RowNumber]) -> Vec<(Sample, u32)> {
    run.chunks_exact(ROW_NUMBERS).map(|row| (row[0], row[1])).collect()
}

/// Calls what fills a run of `numbers` numbers, `each` to a record, between guards, and gives the numbers that were written: those of as many records as the last
/// number of `out` says. No other number of the run is written.
fn with_run<const N: usize>(numbers: usize, each: usize, call: impl FnOnce(*mut u32, *mut [u64; N]) -> u32) -> (Answer<[u64; N]>, Vec<u32>) {
    let mut framed = vec![ROW_GUARD; numbers + 2 * GUARDS];
    let run = lent(framed[GUARDS..].as_mut_ptr(), numbers).cast_mut();
    let told = with_out::<N>(|out| call(run, out));
    let written = match &told {
        Answer::Given(out) => each * out[N - 1] as usize,
        _ => 0,
    };
    assert!(written <= numbers, "more rows than records");
    let (front, back) = (&framed[..GUARDS], &framed[GUARDS + written..]);
    assert!(front.iter().chain(back).all(|&g| g == ROW_GUARD), "a record behind the rows was written");
    (told, framed[GUARDS..GUARDS + written].to_vec())
}

/// Calls a table's reader with a run of `numbers` numbers.
fn with_rows(s: &Input, len: usize, numbers: usize, call: RawReader, module: ModuleReader) -> Answer<Table> {
    let (told, written) = with_run::<3>(numbers, ROW_NUMBERS, |run, out| unsafe { call(s.part(len), len as u64, run, numbers as u64, out) });
    let table = told.map(|[kind, parameter, _]| (kind as u32, parameter as u32, rows_in(&written)));
    held(table, len, || {
        let mut lent = vec![ROW; numbers / ROW_NUMBERS];
        let told = module(s.bytes(len), &mut lent);
        let (rows, behind) = lent.split_at(told.as_ref().map_or(0, |table| table.entry_count));
        assert!(behind.iter().all(|&row| row == ROW), "a row behind the rows was written");
        let rows = rows.iter().map(|row| (row.sample_count, row.group_description_index)).collect();
        Answer::from(told).map(|table| (u32::from_be_bytes(table.grouping_type), table.grouping_type_parameter, rows))
    })
}

type RawFiller = unsafe extern "C" fn(*const u8, u64, *mut u32, u64, *mut [u64; 1]) -> u32;
type ModuleFiller = fn(&[u8], &mut [[u32; 2]]) -> module::Result<usize>;

/// The pairs that a call writes into a run of `numbers` numbers.
fn with_records(s: &Input, len: usize, numbers: usize, call: RawFiller, module: ModuleFiller) -> Answer<Vec<(u32, u32)>> {
    let (told, written) = with_run::<1>(numbers, 2, |run, out| unsafe { call(s.part(len), len as u64, run, numbers as u64, out) });
    let pairs = written.chunks_exact(2).map(|pair| (pair[0], pair[1])).collect();
    held(told.map(|_| pairs), len, || {
        let mut lent = vec![[ROW_GUARD; 2]; numbers / 2];
        let told = module(s.bytes(len), &mut lent);
        let (front, behind) = lent.split_at(told.as_ref().map_or(0, |&count| count));
        assert!(behind.iter().all(|&record| record == [ROW_GUARD; 2]), "a record behind the others was written");
        let records = front.iter().map(|&[a, b]| (a, b)).collect();
        Answer::from(told).map(|_| records)
    })
}

pub fn entry_places(s: &Input, len: usize, numbers: usize) -> Answer<Vec<(u32, u32)>> {
    with_records(s, len, numbers, raw::film_entry_places, module::entry_places)
}

pub fn rash_operation_points(s: &Input, len: usize, numbers: usize) -> Answer<Vec<(u32, u32)>> {
    with_records(s, len, numbers, raw::film_rash_operation_points, module::rash_operation_points)
}

pub fn parse_sbgp(s: &Input, len: usize, numbers: usize) -> Answer<Table> {
    with_rows(s, len, numbers, raw::film_parse_sbgp, module::parse_sbgp)
}

pub fn parse_csgp(s: &Input, len: usize, numbers: usize) -> Answer<Table> {
    with_rows(s, len, numbers, raw::film_parse_csgp, module::parse_csgp)
}

pub fn sbgp_rows_needed(s: &Input, len: usize) -> Answer<u64> {
    let told = with_out::<1>(|out| unsafe { raw::film_sbgp_rows_needed(s.part(len), len as u64, out) }).map(|[count]| count);
    held(told, len, || module::sbgp_rows_needed(s.bytes(len)).into())
}

pub fn csgp_rows_needed(s: &Input, len: usize) -> Answer<u64> {
    let told = with_out::<1>(|out| unsafe { raw::film_csgp_rows_needed(s.part(len), len as u64, out) }).map(|[count]| count);
    held(told, len, || module::csgp_rows_needed(s.bytes(len)).into())
}

/// The pairs of a run as rows; a last number without a partner is none.
fn as_rows(run: &[RowNumber]) -> &[SampleToGroupEntry] {
    unsafe { std::slice::from_raw_parts(run.as_ptr().cast(), run.len() / ROW_NUMBERS) }
}

pub fn group_index_for_sample(rows: &[RowNumber], sample: Sample) -> Answer<u32> {
    let told = with_out::<1>(|out| unsafe { raw::film_group_index_for_sample(lent(rows.as_ptr(), rows.len()), rows.len() as u64, sample, out) }).map(|[index]| index as u32);
    held(told, rows.len(), || module::group_index_for_sample(as_rows(rows), sample).into())
}

/// A head's four numbers after a call, and its answer. Without a value the head stays.
pub fn play(head: [u64; 4], rows: &[RowNumber], call: Option<Sample>) -> (Answer<u32>, [u64; 4]) {
    let mut framed = [GUARD; 4 + 2 * GUARDS];
    framed[GUARDS..GUARDS + 4].copy_from_slice(&head);
    let lent_head = framed[GUARDS..].as_mut_ptr().cast();
    let (run, numbers) = (lent(rows.as_ptr(), rows.len()), rows.len() as u64);
    let told = with_out::<1>(|out| unsafe {
        match call {
            Some(sample) => raw::film_play_set(lent_head, run, numbers, sample, out),
            None => raw::film_play_move(lent_head, run, numbers, out),
        }
    });
    assert!(framed[..GUARDS].iter().chain(&framed[GUARDS + 4..]).all(|&g| g == GUARD), "memory beside the head was written");
    let after: [u64; 4] = framed[GUARDS..GUARDS + 4].try_into().unwrap();
    let told = told.map(|[index]| index as u32);
    let told = held(told, rows.len(), || {
        let [placed, sample, row, within] = head;
        let mut head = module::PlayHead { placed, sample, row, within };
        let told = match call {
            Some(sample) => head.set(as_rows(rows), sample),
            None => head.move_on(as_rows(rows)),
        };
        assert!([head.placed, head.sample, head.row, head.within] == after, "the module for Rust leaves another head");
        told.into()
    });
    (told, after)
}

pub fn covered_samples(rows: &[RowNumber]) -> Answer<u64> {
    let told = with_out::<1>(|out| unsafe { raw::film_covered_samples(lent(rows.as_ptr(), rows.len()), rows.len() as u64, out) }).map(|[sum]| sum);
    held(told, rows.len(), || module::covered_samples(as_rows(rows)).into())
}

/// Version, type, default length, default index, entry count.
pub fn parse_sgpd(s: &Input, len: usize) -> Answer<[u64; 5]> {
    let told = with_out(|out| unsafe { raw::film_parse_sgpd(s.part(len), len as u64, out) });
    held(told, len, || {
        Answer::from(module::parse_sgpd(s.bytes(len))).map(|d| {
            let [length, index, count] = [d.default_length, d.default_sample_description_index, d.entry_count].map(u64::from);
            [d.version as u64, kind_number(d.grouping_type), length, index, count]
        })
    })
}

pub fn entry_place(s: &Input, len: usize, index: u32) -> Answer<[u64; 2]> {
    let told = with_out(|out| unsafe { raw::film_entry_place(s.part(len), len as u64, index, out) });
    held(told, len, || maybe(module::entry(s.bytes(len), index)).map(|part| s.place(part)))
}

pub fn decode_roll(s: &Input, len: usize) -> Answer<i64> {
    let told = with_out::<1>(|out| unsafe { raw::film_decode_roll(s.part(len), len as u64, out.cast()) }).map(|[distance]| distance as i64);
    held(told, len, || Answer::from(module::decode_roll(s.bytes(len))).map(|v| v.roll_distance as i64))
}

pub fn decode_prol(s: &Input, len: usize) -> Answer<i64> {
    let told = with_out::<1>(|out| unsafe { raw::film_decode_prol(s.part(len), len as u64, out.cast()) }).map(|[distance]| distance as i64);
    held(told, len, || Answer::from(module::decode_prol(s.bytes(len))).map(|v| v.roll_distance as i64))
}

pub fn decode_rap(s: &Input, len: usize) -> Answer<[u64; 2]> {
    let told = with_out(|out| unsafe { raw::film_decode_rap(s.part(len), len as u64, out) });
    held(told, len, || Answer::from(module::decode_rap(s.bytes(len))).map(|v| [v.num_leading_samples_known as u64, v.num_leading_samples as u64]))
}

pub fn decode_tele(s: &Input, len: usize) -> Answer<[u64; 1]> {
    let told = with_out(|out| unsafe { raw::film_decode_tele(s.part(len), len as u64, out) });
    held(told, len, || Answer::from(module::decode_tele(s.bytes(len))).map(|v| [v.level_independently_decodable as u64]))
}

pub fn decode_sap(s: &Input, len: usize) -> Answer<[u64; 2]> {
    let told = with_out(|out| unsafe { raw::film_decode_sap(s.part(len), len as u64, out) });
    held(told, len, || Answer::from(module::decode_sap(s.bytes(len))).map(|v| [v.dependent as u64, v.sap_type as u64]))
}

pub fn decode_rash(s: &Input, len: usize) -> Answer<[u64; 4]> {
    let told = with_out(|out| unsafe { raw::film_decode_rash(s.part(len), len as u64, out) });
    held(told, len, || {
        let numbers = |v: module::RateShare| [v.operation_point_count as u64, v.maximum_bitrate as u64, v.minimum_bitrate as u64, v.discard_priority as u64];
        Answer::from(module::decode_rash(s.bytes(len))).map(numbers)
    })
}

pub fn rash_operation_point(s: &Input, len: usize, k: u32) -> Answer<[u64; 2]> {
    let told = with_out(|out| unsafe { raw::film_rash_operation_point(s.part(len), len as u64, k, out) });
    held(told, len, || maybe(module::rash_operation_point(s.bytes(len), k)).map(|p| [p.available_bitrate as u64, p.target_rate_share as u64]))
}

pub fn decode_alst(s: &Input, len: usize) -> Answer<[u64; 3]> {
    let told = with_out(|out| unsafe { raw::film_decode_alst(s.part(len), len as u64, out) });
    held(told, len, || Answer::from(module::decode_alst(s.bytes(len))).map(|v| [v.roll_count as u64, v.first_output_sample as u64, v.piece_count as u64]))
}

pub fn alst_sample_offset(s: &Input, len: usize, k: u32) -> Answer<[u64; 1]> {
    let told = with_out(|out| unsafe { raw::film_alst_sample_offset(s.part(len), len as u64, k, out) });
    held(told, len, || maybe(module::alst_sample_offset(s.bytes(len), k)).map(|offset| [offset as u64]))
}

pub fn alst_piece(s: &Input, len: usize, k: u32) -> Answer<[u64; 2]> {
    let told = with_out(|out| unsafe { raw::film_alst_piece(s.part(len), len as u64, k, out) });
    held(told, len, || maybe(module::alst_piece(s.bytes(len), k)).map(|p| [p.num_output_samples as u64, p.num_total_samples as u64]))
}

pub fn decode_alike(kind: [u8; 4], a: &Input, a_len: usize, b: &Input, b_len: usize) -> Answer<[u64; 1]> {
    let number = u32::from_be_bytes(kind);
    let told = with_out(|out| unsafe { raw::film_decode_alike(number, a.part(a_len), a_len as u64, b.part(b_len), b_len as u64, out) });
    held(told, a_len + b_len, || Answer::from(module::decode_alike(kind, a.bytes(a_len), b.bytes(b_len))).map(|same| [same as u64]))
}

pub fn split_csgp_index(index: u32) -> Answer<[u64; 2]> {
    let told = with_out(|out| {
        unsafe { raw::film_split_csgp_index(index, out) };
        raw::OK
    });
    held(told, 0, || {
        let split = module::split_csgp_index(index);
        Answer::Given([split.index as u64, split.fragment_local as u64])
    })
}

/// 1 for the fragment, the place and the length.
pub fn described_place(film: &Input, film_len: usize, fragment: &Input, fragment_len: usize, index: u32) -> Answer<[u64; 3]> {
    let told = with_out(|out| unsafe { raw::film_described_place(film.part(film_len), film_len as u64, fragment.part(fragment_len), fragment_len as u64, index, out) });
    held(told, film_len + fragment_len, || {
        let local = index >> 31;
        maybe(module::described(film.bytes(film_len), fragment.bytes(fragment_len), index)).map(|part| {
            let [place, size] = if local == 1 { fragment.place(part) } else { film.place(part) };
            [local as u64, place, size]
        })
    })
}

pub fn is_sync_sample(s: &Input, len: usize, sample: Sample) -> Answer<bool> {
    let told = with_out(|out| unsafe { raw::film_is_sync_sample(s.part(len), len as u64, sample, out) }).map(|[n]: [u64; 1]| {
        assert!(n < 2, "neither yes nor no");
        n == 1
    });
    held(told, len, || Answer::from(module::is_sync_sample(s.bytes(len), sample)))
}

pub fn last_sync_sample(s: &Input, len: usize, frame: Sample) -> Answer<Sample> {
    let told = with_out(|out| unsafe { raw::film_last_sync_sample(s.part(len), len as u64, frame, out) }).map(|[n]: [u64; 1]| n as Sample);
    held(told, len, || maybe(module::last_sync_sample(s.bytes(len), frame)))
}

pub fn sample_dependency(s: &Input, len: usize, sample: Sample) -> Answer<[u64; 4]> {
    let told = with_out(|out| unsafe { raw::film_sample_dependency(s.part(len), len as u64, sample, out) });
    held(told, len, || {
        maybe(module::sample_dependency(s.bytes(len), sample))
            .map(|d| [d.is_leading, d.sample_depends_on, d.sample_is_depended_on, d.sample_has_redundancy].map(u64::from))
    })
}

pub fn rate_of_point(bitrate: u32, share: u16) -> u64 {
    let rate = unsafe { raw::film_rate_of_point(bitrate, share) };
    assert!(module::rate_of_point(bitrate, share) == rate, "the module for Rust gives another rate");
    rate
}

/// A cue listing as the call hands it out: its bytes and the rows of the table.
pub type Listing = (Vec<u8>, Vec<(Sample, u32)>);

/// What stands in an output before the call of the C interface, and before that of the module.
const BYTE_GUARD: u8 = 0xc3;
const OTHER_GUARD: u8 = 0x3c;

type RawListing<'a> = &'a dyn Fn(*mut RowNumber, *mut u8, *mut [u64; 2]) -> u32;
type ModuleListing<'a> = &'a dyn Fn(&mut [SampleToGroupEntry], &mut [u8]) -> module::Result<module::CueListing>;

/// A run of `numbers` numbers and an output of `room` bytes between guards. Only the rows and the listing in front of them are written.
fn with_listing(len: usize, numbers: usize, room: usize, call: RawListing, asked: ModuleListing) -> Answer<Listing> {
    let mut run = vec![ROW_GUARD; numbers + 2 * GUARDS];
    let mut output = vec![BYTE_GUARD; room + 2 * GUARDS];
    let (rows, bytes) = (lent(run[GUARDS..].as_mut_ptr(), numbers).cast_mut(), lent(output[GUARDS..].as_mut_ptr(), room).cast_mut());
    let told = with_out::<2>(|out| call(rows, bytes, out));
    let (length, count) = match &told {
        Answer::Given([length, rows]) => (*length as usize, ROW_NUMBERS * *rows as usize),
        _ => (0, 0),
    };
    assert!(count <= numbers && length <= room, "more rows or bytes than were lent");
    assert!(run[..GUARDS].iter().chain(&run[GUARDS + count..]).all(|&g| g == ROW_GUARD), "a number behind the rows was written");
    assert!(output[..GUARDS].iter().chain(&output[GUARDS + length..]).all(|&g| g == BYTE_GUARD), "a byte behind the listing was written");
    let written = rows_in(&run[GUARDS..GUARDS + count]);
    let told = told.map(|_| (output[GUARDS..GUARDS + length].to_vec(), written));
    held(told, len, || {
        let (mut lent, mut output) = (vec![ROW; numbers / ROW_NUMBERS], vec![OTHER_GUARD; room]);
        let told = asked(&mut lent, &mut output);
        let (count, length) = told.as_ref().map_or((0, 0), |told| (told.entry_count, told.length));
        assert!(lent[count..].iter().all(|&row| row == ROW), "a row behind the rows was written");
        assert!(output[length..].iter().all(|&g| g == OTHER_GUARD), "a byte behind the listing was written");
        let rows = lent[..count].iter().map(|row| (row.sample_count, row.group_description_index)).collect();
        Answer::from(told).map(|_| (output[..length].to_vec(), rows))
    })
}

pub fn cue_listing(s: &Input, len: usize, kind: [u8; 4], numbers: usize, room: usize) -> Answer<Listing> {
    let number = u32::from_be_bytes(kind);
    let call = |rows, bytes, out| unsafe { raw::film_cue_listing(s.part(len), len as u64, number, rows, numbers as u64, bytes, room as u64, out) };
    with_listing(len, numbers, room, &call, &|rows, output| module::cue_listing(s.bytes(len), kind, rows, output))
}

/// The same for a track of a film.
pub fn file_cue_listing(s: &Input, len: usize, track: u32, kind: [u8; 4], numbers: usize, room: usize) -> Answer<Listing> {
    let number = u32::from_be_bytes(kind);
    let call = |rows, bytes, out| unsafe { raw::film_file_cue_listing(s.part(len), len as u64, track, number, rows, numbers as u64, bytes, room as u64, out) };
    with_listing(len, numbers, room, &call, &|rows, output| module::file_cue_listing(s.bytes(len), track, kind, rows, output))
}

pub fn roll_start(s: &Input, len: usize, frame: Sample) -> Answer<Sample> {
    let told = with_out::<1>(|out| unsafe { raw::film_roll_start(s.part(len), len as u64, frame, out) }).map(|[sample]| sample as Sample);
    held(told, len, || maybe(module::roll_start(s.bytes(len), frame)))
}

pub fn rap_start(s: &Input, len: usize, frame: Sample) -> Answer<Sample> {
    let told = with_out::<1>(|out| unsafe { raw::film_rap_start(s.part(len), len as u64, frame, out) }).map(|[sample]| sample as Sample);
    held(told, len, || maybe(module::rap_start(s.bytes(len), frame)))
}

/// The numbers of a row.
pub fn row(count: u64, index: u32) -> [RowNumber; ROW_NUMBERS] {
    [count as RowNumber, index]
}

pub fn preview_repaint(rows: &[RowNumber], stated: u64, from: u64, to: u64, index: u32) -> Answer<u64> {
    let (run, numbers) = (lent(rows.as_ptr(), rows.len()), rows.len() as u64);
    let told = with_out::<1>(|out| unsafe { raw::film_preview_repaint(run, numbers, stated, from, to, index, out) }).map(|[count]| count);
    held(told, rows.len(), || Answer::from(module::preview_repaint(as_rows(rows), stated as usize, from..to, index)).map(|count| count as u64))
}

/// An edit of a copy, between guards; its answer and the run afterwards.
pub fn repaint(rows: &[RowNumber], stated: u64, from: u64, to: u64, index: u32) -> (Answer<u64>, Vec<RowNumber>) {
    let guard = GUARD as RowNumber;
    let mut framed = vec![guard; rows.len() + 2 * GUARDS];
    framed[GUARDS..GUARDS + rows.len()].copy_from_slice(rows);
    let run = lent(framed[GUARDS..].as_ptr(), rows.len()).cast_mut();
    let told = with_out::<1>(|out| unsafe { raw::film_repaint(run, rows.len() as u64, stated, from, to, index, out) }).map(|[count]| count);
    assert!(framed[..GUARDS].iter().chain(&framed[GUARDS + rows.len()..]).all(|&g| g == guard), "memory beside the run was written");
    let after = framed[GUARDS..GUARDS + rows.len()].to_vec();
    let told = held(told, rows.len(), || {
        let mut copy = as_rows(rows).to_vec();
        let told = module::repaint(&mut copy, stated as usize, from..to, index);
        assert!(copy == as_rows(&after), "the module for Rust leaves other rows");
        Answer::from(told).map(|count| count as u64)
    });
    (told, after)
}

/// The numbers of a queue of fragments.
pub type Queue = [u64; 132];

/// A call on a queue.
#[derive(Clone, Copy, Debug)]
pub enum QueueCall<'a> {
    Arrive(&'a [RowNumber]),
    Depart,
}

/// A call on a copy of a queue, between guards: its answer and the queue afterwards.
pub fn queue_call(queue: &Queue, call: QueueCall) -> (Answer<()>, Queue) {
    let mut framed = [GUARD; 132 + 2 * GUARDS];
    framed[GUARDS..GUARDS + 132].copy_from_slice(queue);
    let lent_queue: *mut Queue = framed[GUARDS..].as_mut_ptr().cast();
    let status = unsafe {
        match call {
            QueueCall::Arrive(rows) => raw::film_fragment_arrive(lent_queue, lent(rows.as_ptr(), rows.len()), rows.len() as u64),
            QueueCall::Depart => raw::film_fragment_depart(lent_queue),
        }
    };
    assert!(framed[..GUARDS].iter().chain(&framed[GUARDS + 132..]).all(|&g| g == GUARD), "memory beside the queue was written");
    let after: Queue = framed[GUARDS..GUARDS + 132].try_into().unwrap();
    let answer = if status == raw::OK { Answer::Given(()) } else { Answer::Refused(status) };
    let answer = held(answer, 132, || {
        let mut queue = as_queue(queue);
        let told = match call {
            QueueCall::Arrive(rows) => queue.arrive(as_rows(rows)),
            QueueCall::Depart => queue.depart(),
        };
        assert!(queue == as_queue(&after), "the module for Rust leaves another queue");
        told.into()
    });
    (answer, after)
}

fn as_queue(q: &Queue) -> module::FragmentQueue {
    let slots = std::array::from_fn(|k| [q[4 + 2 * k], q[5 + 2 * k]]);
    module::FragmentQueue { first: q[0], held: q[1], covered: q[2], members: q[3], slots }
}

pub fn queue_lookup(queue: &Queue, sample: u64) -> Answer<(u64, u64)> {
    let told = with_out(|out| unsafe { raw::film_fragment_lookup(queue, sample, out) }).map(|[fragment, within]| (fragment, within));
    held(told, 132, || as_queue(queue).lookup(sample).into())
}

/// Fragments held, samples covered, members.
pub fn queue_sums(queue: &Queue) -> [u64; 3] {
    let Answer::Given(sums) = with_out(|out| unsafe { raw::film_fragment_sums(queue, out) }) else { panic!("the sums were refused") };
    let told = as_queue(queue).sums();
    assert!(sums == [told.held, told.covered, told.members], "the module for Rust gives other sums");
    sums
}

/// 0 where the body meets the profile, else the number of the first rule broken.
pub fn profile(s: &Input, len: usize) -> Answer<u64> {
    let told = with_out::<1>(|out| unsafe { raw::film_profile(s.part(len), len as u64, out) }).map(|[rule]| rule);
    held(told, len, || Answer::from(module::profile(s.bytes(len))).map(rule_number))
}

pub fn file_profile(s: &Input, len: usize, track: u32) -> Answer<u64> {
    let told = with_out::<1>(|out| unsafe { raw::film_file_profile(s.part(len), len as u64, track, out) }).map(|[rule]| rule);
    held(told, len, || Answer::from(module::file_profile(s.bytes(len), track)).map(rule_number))
}

fn rule_number(verdict: Option<module::ProfileRule>) -> u64 {
    verdict.map_or(0, |rule| rule as u64)
}

fn group_numbers(group: module::SampleGroup, s: &Input) -> [u64; 4] {
    match group {
        module::SampleGroup::Outside => [0; 4],
        module::SampleGroup::Missing { index } => [1, index as u64, 0, 0],
        module::SampleGroup::Entry { index, payload } => {
            let [place, length] = s.place(payload);
            [2, index as u64, place, length]
        }
    }
}

/// Kind, index, place and length.
pub fn sample_group(s: &Input, len: usize, kind: [u8; 4], sample: Sample) -> Answer<[u64; 4]> {
    let told = with_out(|out| unsafe { raw::film_sample_group(s.part(len), len as u64, u32::from_be_bytes(kind), sample, out) });
    held(told, len, || Answer::from(module::sample_group(s.bytes(len), kind, sample)).map(|group| group_numbers(group, s)))
}

pub fn file_sample_group(s: &Input, len: usize, track: u32, kind: [u8; 4], sample: Sample) -> Answer<[u64; 4]> {
    let told = with_out(|out| unsafe { raw::film_file_sample_group(s.part(len), len as u64, track, u32::from_be_bytes(kind), sample, out) });
    held(told, len, || Answer::from(module::file_sample_group(s.bytes(len), track, kind, sample)).map(|group| group_numbers(group, s)))
}

/// Bytes and rows.
pub fn listing_needs(s: &Input, len: usize, kind: [u8; 4]) -> Answer<[u64; 2]> {
    let told = with_out(|out| unsafe { raw::film_listing_needs(s.part(len), len as u64, u32::from_be_bytes(kind), out) });
    held(told, len, || Answer::from(module::listing_needs(s.bytes(len), kind)).map(|needs| [needs.bytes, needs.rows]))
}

pub fn file_listing_needs(s: &Input, len: usize, track: u32, kind: [u8; 4]) -> Answer<[u64; 2]> {
    let told = with_out(|out| unsafe { raw::film_file_listing_needs(s.part(len), len as u64, track, u32::from_be_bytes(kind), out) });
    held(told, len, || Answer::from(module::file_listing_needs(s.bytes(len), track, kind)).map(|needs| [needs.bytes, needs.rows]))
}

pub fn quote_sbgp(rows: &[RowNumber]) -> Answer<u64> {
    let told = with_out::<1>(|out| unsafe { raw::film_quote_sbgp(lent(rows.as_ptr(), rows.len()), rows.len() as u64, out) }).map(|[length]| length);
    held(told, rows.len(), || Answer::from(module::quote_sbgp(as_rows(rows))).map(|length| length as u64))
}

pub fn quote_csgp(rows: &[RowNumber]) -> Answer<u64> {
    let told = with_out::<1>(|out| unsafe { raw::film_quote_csgp(lent(rows.as_ptr(), rows.len()), rows.len() as u64, out) }).map(|[length]| length);
    held(told, rows.len(), || Answer::from(module::quote_csgp(as_rows(rows))).map(|length| length as u64))
}

type RawWriter = unsafe extern "C" fn(u32, *const RowNumber, u64, u64, *mut u8, u64, *mut [u64; 1]) -> u32;
type ModuleWriter = fn([u8; 4], &[SampleToGroupEntry], usize, &mut [u8]) -> module::Result<usize>;

/// Calls a table's writer with an output of `room` bytes between guards. Only the bytes in front of it are written.
fn with_body(kind: [u8; 4], rows: &[RowNumber], quoted: usize, room: usize, call: RawWriter, module: ModuleWriter) -> Answer<Vec<u8>> {
    let mut output = vec![BYTE_GUARD; room + 2 * GUARDS];
    let body = lent(output[GUARDS..].as_mut_ptr(), room).cast_mut();
    let number = u32::from_be_bytes(kind);
    let told = with_out::<1>(|out| unsafe { call(number, lent(rows.as_ptr(), rows.len()), rows.len() as u64, quoted as u64, body, room as u64, out) });
    let length = if let Answer::Given([length]) = told { length as usize } else { 0 };
    assert!(length <= room, "more bytes than were lent");
    assert!(output[..GUARDS].iter().chain(&output[GUARDS + length..]).all(|&g| g == BYTE_GUARD), "a byte behind the body was written");
    let told = told.map(|_| output[GUARDS..GUARDS + length].to_vec());
    held(told, rows.len(), || {
        let mut output = vec![OTHER_GUARD; room];
        let told = module(kind, as_rows(rows), quoted, &mut output);
        let length = told.as_ref().map_or(0, |&length| length);
        assert!(output[length..].iter().all(|&g| g == OTHER_GUARD), "a byte behind the body was written");
        Answer::from(told).map(|_| output[..length].to_vec())
    })
}

pub fn write_sbgp(kind: [u8; 4], rows: &[RowNumber], quoted: usize, room: usize) -> Answer<Vec<u8>> {
    with_body(kind, rows, quoted, room, raw::film_write_sbgp, module::write_sbgp)
}

pub fn write_csgp(kind: [u8; 4], rows: &[RowNumber], quoted: usize, room: usize) -> Answer<Vec<u8>> {
    with_body(kind, rows, quoted, room, raw::film_write_csgp, module::write_csgp)
}
