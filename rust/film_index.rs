//! The film index for Rust: safe functions over the C interface (include/film_index.h), with the names of the Rust that the library is a port of.
//! Only `core` is used. Add this file as a module and link libfilm_index.a.
//!
//! Nothing is allocated: bodies and entries are parts of the input, rows stand in a slice that the caller lends, and points, offsets and pieces are read by number.
//! Lengths have 64 bits in the library on every machine, so `raw` takes them as u64, also where usize has 32. A pointer whose length is 0 may be null or dangle.
#![allow(dead_code)] // a program may use a part of it

/// The version of the interface: FILM_INDEX_VERSION of the header that this module was written for.
pub const VERSION: u32 = 1;
/// The longest input, in bytes.
pub const INPUT_LIMIT: usize = 67_108_864;
/// The longest slice of rows that a lookup reads.
pub const RECORD_LIMIT: usize = 8_388_608;

/// A sample's number, counted from 0, and the samples that a row covers.
pub type Sample = u32;
/// A number of a run of rows, as C has it.
pub type RowNumber = u32;
/// How many of them a row takes.
pub const ROW_NUMBERS: usize = size_of::<SampleToGroupEntry>() / size_of::<RowNumber>();

macro_rules! refusals {
    ($($name:ident = $number:literal $text:literal,)*) => {
        /// Why an input is refused; `number` is the status of the C interface.
        #[derive(Clone, Copy, Debug, PartialEq, Eq)]
        #[repr(u32)]
        pub enum Refusal {
            $(#[doc = $text] $name = $number,)*
        }

        impl Refusal {
            pub const ALL: &'static [Refusal] = &[$(Refusal::$name),*];

            fn of(status: u32) -> Refusal {
                match status {
                    $($number => Refusal::$name,)*
                    _ => panic!("a status that film_index.h does not name"),
                }
            }

            /// The reason in words.
            pub fn reason(self) -> &'static str {
                match self {
                    $(Refusal::$name => $text,)*
                }
            }
        }
    };
}

refusals! {
    HeaderCut = 1 "1 to 7 bytes where a header stands",
    ExtendedSizeCut = 2 "the 64-bit size is incomplete",
    SmallSize = 3 "a size of 2 to 7",
    SmallExtendedSize = 4 "a 64-bit size below 16",
    FarEnd = 5 "place plus size over 2^64 - 1",
    ChildPastParent = 6 "a child ends past its parent",
    OpenChild = 7 "an open-ended child of a parent whose end is not known",
    OpenBody = 8 "the body of an open-ended atom",
    BodyOverLimit = 9 "a body over 67,108,864 bytes",
    BodyOverEnvelope = 10 "a body over the envelope",
    BodyCut = 11 "bytes of the body are missing",
    ShortTable = 20 "a table under 8 bytes",
    NoParameter = 21 "the parameter is missing",
    NoCount = 22 "the count is missing",
    RowsCut = 23 "rows of the sbgp are missing",
    PatternLengthCut = 24 "a pattern's length is cut",
    PatternCountCut = 25 "a pattern's count is cut",
    PatternLengthZero = 26 "a pattern's length is 0",
    IndexCut = 27 "an index is cut",
    RowCountOver = 28 "a row would cover more than 4,294,967,295 samples",
    NoRecordLeft = 29 "more rows, entries or points than records were lent",
    ShortSgpd = 30 "an sgpd under 12 bytes, in the walk of a cue listing under 8",
    NoDefaultIndex = 31 "the default index is missing",
    NoEntryCount = 32 "the entry count is missing",
    NoEntryLength = 33 "the length of an entry is missing",
    ZeroShare = 34 "no byte is left for an entry",
    EntryCut = 35 "bytes of an entry are missing",
    ShortEntry = 40 "an entry too short for its type",
    NoPoints = 41 "a rash without points",
    PointCut = 42 "a point of a rash is cut",
    TrailerCut = 43 "the trailer of a rash is cut",
    OffsetsCut = 44 "the offsets of an alst are cut",
    PiecesCut = 45 "the tail of an alst is not a multiple of 4",
    NoTable = 50 "no sbgp and no csgp of the type",
    SecondTable = 51 "a second table of the type",
    NoSgpd = 52 "no sgpd of the type",
    SecondSgpd = 53 "a second sgpd of the type",
    OutputTooShort = 54 "the listing is longer than the output",
    InputTooLong = 55 "an input or a run of rows over the limit",
    NoTrack = 60 "no moov, or no such trak in the first one",
    NoContainer = 61 "no mdia, minf or stbl on the way to the table",
    FrameNotCovered = 62 "the table covers fewer samples than the frame's number",
    LengthDisagrees = 63 "the rows need another length than the quoted one",
    OutputShorter = 64 "the output is shorter than the quoted length",
    SyncTableCut = 65 "bytes of an stss or an sdtp are missing",
    SyncNotRising = 66 "the sample numbers of an stss do not rise, or one is 0",
    IndexTooLarge = 67 "an index of a csgp of 2^31 or more, where flag bit 7 is clear",
    NoStretch = 70 "more rows stated than records lent, or no stretch of the samples covered",
    QueueFull = 71 "the queue holds as many fragments as it can",
    QueueEmpty = 72 "the queue holds no fragment that could leave",
    NotInQueue = 73 "the fragments held cover fewer samples",
}

impl Refusal {
    pub fn number(self) -> u32 {
        self as u32
    }
}

impl core::fmt::Display for Refusal {
    fn fmt(&self, f: &mut core::fmt::Formatter<'_>) -> core::fmt::Result {
        write!(f, "refused ({}): {}", self.number(), self.reason())
    }
}

impl core::error::Error for Refusal {}

pub type Result<T> = core::result::Result<T, Refusal>;

/// The functions as C has them.
pub mod raw {
    use super::{RowNumber, Sample};

    unsafe extern "C" {
        pub fn film_read_atom_header(s: *const u8, len: u64, at: u64, out: *mut [u64; 5]) -> u32;
        pub fn film_next_child(s: *const u8, len: u64, at: u64, known: u32, end: u64, out: *mut [u64; 6]) -> u32;
        pub fn film_read_payload(s: *const u8, len: u64, at: u64, out: *mut [u64; 2]) -> u32;
        pub fn film_read_payload_bounded(s: *const u8, len: u64, at: u64, max_remaining: u64, out: *mut [u64; 2]) -> u32;
        pub fn film_find_stbl(s: *const u8, len: u64, track: u32, out: *mut [u64; 2]) -> u32;
        pub fn film_parse_sbgp(s: *const u8, len: u64, rows: *mut RowNumber, rows_len: u64, out: *mut [u64; 3]) -> u32;
        pub fn film_parse_csgp(s: *const u8, len: u64, rows: *mut RowNumber, rows_len: u64, out: *mut [u64; 3]) -> u32;
        pub fn film_sbgp_rows_needed(s: *const u8, len: u64, out: *mut [u64; 1]) -> u32;
        pub fn film_csgp_rows_needed(s: *const u8, len: u64, out: *mut [u64; 1]) -> u32;
        pub fn film_group_index_for_sample(rows: *const RowNumber, rows_len: u64, sample: Sample, out: *mut [u64; 1]) -> u32;
        pub fn film_covered_samples(rows: *const RowNumber, rows_len: u64, out: *mut [u64; 1]) -> u32;
        pub fn film_play_set(head: *mut [u64; 4], rows: *const RowNumber, rows_len: u64, sample: Sample, out: *mut [u64; 1]) -> u32;
        pub fn film_play_move(head: *mut [u64; 4], rows: *const RowNumber, rows_len: u64, out: *mut [u64; 1]) -> u32;
        pub fn film_preview_repaint(rows: *const RowNumber, rows_len: u64, stated: u64, from: u64, to: u64, index: u32, out: *mut [u64; 1]) -> u32;
        pub fn film_repaint(rows: *mut RowNumber, rows_len: u64, stated: u64, from: u64, to: u64, index: u32, out: *mut [u64; 1]) -> u32;
        pub fn film_quote_sbgp(rows: *const RowNumber, rows_len: u64, out: *mut [u64; 1]) -> u32;
        pub fn film_quote_csgp(rows: *const RowNumber, rows_len: u64, out: *mut [u64; 1]) -> u32;
        pub fn film_write_sbgp(kind: u32, rows: *const RowNumber, rows_len: u64, quoted: u64, body: *mut u8, body_len: u64, out: *mut [u64; 1]) -> u32;
        pub fn film_write_csgp(kind: u32, rows: *const RowNumber, rows_len: u64, quoted: u64, body: *mut u8, body_len: u64, out: *mut [u64; 1]) -> u32;
        pub fn film_parse_sgpd(s: *const u8, len: u64, out: *mut [u64; 5]) -> u32;
        pub fn film_entry_place(s: *const u8, len: u64, index: u32, out: *mut [u64; 2]) -> u32;
        pub fn film_entry_places(s: *const u8, len: u64, places: *mut u32, places_len: u64, out: *mut [u64; 1]) -> u32;
        pub fn film_decode_roll(s: *const u8, len: u64, out: *mut [i64; 1]) -> u32;
        pub fn film_decode_prol(s: *const u8, len: u64, out: *mut [i64; 1]) -> u32;
        pub fn film_decode_rap(s: *const u8, len: u64, out: *mut [u64; 2]) -> u32;
        pub fn film_decode_tele(s: *const u8, len: u64, out: *mut [u64; 1]) -> u32;
        pub fn film_decode_sap(s: *const u8, len: u64, out: *mut [u64; 2]) -> u32;
        pub fn film_decode_rash(s: *const u8, len: u64, out: *mut [u64; 4]) -> u32;
        pub fn film_rash_operation_point(s: *const u8, len: u64, k: u32, out: *mut [u64; 2]) -> u32;
        pub fn film_rash_operation_points(s: *const u8, len: u64, points: *mut u32, points_len: u64, out: *mut [u64; 1]) -> u32;
        pub fn film_decode_alst(s: *const u8, len: u64, out: *mut [u64; 3]) -> u32;
        pub fn film_alst_sample_offset(s: *const u8, len: u64, k: u32, out: *mut [u64; 1]) -> u32;
        pub fn film_alst_piece(s: *const u8, len: u64, k: u32, out: *mut [u64; 2]) -> u32;
        pub fn film_decode_alike(kind: u32, a: *const u8, a_len: u64, b: *const u8, b_len: u64, out: *mut [u64; 1]) -> u32;
        pub fn film_split_csgp_index(raw: u32, out: *mut [u64; 2]);
        pub fn film_described_place(film: *const u8, film_len: u64, fragment: *const u8, fragment_len: u64, raw: u32, out: *mut [u64; 3]) -> u32;
        pub fn film_fragment_arrive(queue: *mut [u64; 132], rows: *const RowNumber, rows_len: u64) -> u32;
        pub fn film_fragment_depart(queue: *mut [u64; 132]) -> u32;
        pub fn film_fragment_lookup(queue: *const [u64; 132], sample: u64, out: *mut [u64; 2]) -> u32;
        pub fn film_fragment_sums(queue: *const [u64; 132], out: *mut [u64; 3]) -> u32;
        pub fn film_rate_of_point(bitrate: u32, share: u16) -> u64;
        pub fn film_is_sync_sample(s: *const u8, len: u64, sample: Sample, out: *mut [u64; 1]) -> u32;
        pub fn film_last_sync_sample(s: *const u8, len: u64, frame: Sample, out: *mut [u64; 1]) -> u32;
        pub fn film_sample_dependency(s: *const u8, len: u64, sample: Sample, out: *mut [u64; 4]) -> u32;
        pub fn film_cue_listing(
            body: *const u8,
            len: u64,
            grouping_type: u32,
            rows: *mut RowNumber,
            rows_len: u64,
            listing: *mut u8,
            listing_len: u64,
            out: *mut [u64; 2],
        ) -> u32;
        pub fn film_file_cue_listing(
            s: *const u8,
            len: u64,
            track: u32,
            grouping_type: u32,
            rows: *mut RowNumber,
            rows_len: u64,
            listing: *mut u8,
            listing_len: u64,
            out: *mut [u64; 2],
        ) -> u32;
        pub fn film_roll_start(body: *const u8, len: u64, frame: Sample, out: *mut [u64; 1]) -> u32;
        pub fn film_rap_start(body: *const u8, len: u64, frame: Sample, out: *mut [u64; 1]) -> u32;
        pub fn film_listing_needs(body: *const u8, len: u64, grouping_type: u32, out: *mut [u64; 2]) -> u32;
        pub fn film_file_listing_needs(s: *const u8, len: u64, track: u32, grouping_type: u32, out: *mut [u64; 2]) -> u32;
        pub fn film_sample_group(body: *const u8, len: u64, grouping_type: u32, sample: Sample, out: *mut [u64; 4]) -> u32;
        pub fn film_file_sample_group(s: *const u8, len: u64, track: u32, grouping_type: u32, sample: Sample, out: *mut [u64; 4]) -> u32;
        pub fn film_profile(body: *const u8, len: u64, out: *mut [u64; 1]) -> u32;
        pub fn film_file_profile(s: *const u8, len: u64, track: u32, out: *mut [u64; 1]) -> u32;
    }

    pub const OK: u32 = 0;
    pub const NONE: u32 = 255;
}

/// A call with an `out` of N numbers: the value, or none.
fn call<const N: usize>(function: impl FnOnce(*mut [u64; N]) -> u32) -> Result<Option<[u64; N]>> {
    let mut out = [0; N];
    match function(&raw mut out) {
        raw::OK => Ok(Some(out)),
        raw::NONE => Ok(None),
        status => Err(Refusal::of(status)),
    }
}

/// The same of a call that never gives none.
fn value<const N: usize>(function: impl FnOnce(*mut [u64; N]) -> u32) -> Result<[u64; N]> {
    Ok(call(function)?.expect("a value or a refusal"))
}

fn fourcc(n: u64) -> [u8; 4] {
    (n as u32).to_be_bytes()
}

#[derive(Clone, Copy, Debug, PartialEq, Eq)]
pub struct AtomHeader {
    pub fourcc: [u8; 4],
    /// None: open-ended.
    pub total_size: Option<u64>,
    pub header_len: u64,
    pub payload_offset: u64,
}

fn header([kind, open, size, header_len, payload_offset]: [u64; 5]) -> AtomHeader {
    AtomHeader { fourcc: fourcc(kind), total_size: (open == 0).then_some(size), header_len, payload_offset }
}

/// The header at a place of the input; None where no byte stands there.
pub fn read_atom_header(s: &[u8], at: u64) -> Result<Option<AtomHeader>> {
    Ok(call(|out| unsafe { raw::film_read_atom_header(s.as_ptr(), s.len() as u64, at, out) })?.map(header))
}

/// The child at a place of a container, and the place of the next one; None where the walk is done. For `walk_children`, call it from the container's first
/// place on until it gives None.
pub fn next_child(s: &[u8], at: u64, parent_payload_end: Option<u64>) -> Result<Option<(AtomHeader, u64)>> {
    let (known, end) = parent_payload_end.map_or((0, 0), |end| (1, end));
    let told = call(|out| unsafe { raw::film_next_child(s.as_ptr(), s.len() as u64, at, known, end, out) })?;
    Ok(told.map(|[next, a, b, c, d, e]: [u64; 6]| (header([a, b, c, d, e]), next)))
}

fn part(s: &[u8], place: u64, size: u64) -> &[u8] {
    &s[place as usize..(place + size) as usize]
}

/// The body of the atom at a place; None where no byte stands there.
pub fn read_payload(s: &[u8], at: u64) -> Result<Option<&[u8]>> {
    Ok(call(|out| unsafe { raw::film_read_payload(s.as_ptr(), s.len() as u64, at, out) })?.map(|[place, size]| part(s, place, size)))
}

/// The same where the body may have at most `max_remaining` bytes.
pub fn read_payload_bounded(s: &[u8], at: u64, max_remaining: u64) -> Result<Option<&[u8]>> {
    let told = call(|out| unsafe { raw::film_read_payload_bounded(s.as_ptr(), s.len() as u64, at, max_remaining, out) })?;
    Ok(told.map(|[place, size]| part(s, place, size)))
}

/// The body of the stbl of a track, counted from 0, in the front of a film.
pub fn find_stbl(s: &[u8], track: u32) -> Result<&[u8]> {
    let [place, size] = value(|out| unsafe { raw::film_find_stbl(s.as_ptr(), s.len() as u64, track, out) })?;
    Ok(part(s, place, size))
}

/// A row: so many samples of one description index. A slice of rows lies in memory as the run of numbers that C has.
#[derive(Clone, Copy, Debug, Default, PartialEq, Eq)]
#[repr(C)]
pub struct SampleToGroupEntry {
    pub sample_count: Sample,
    pub group_description_index: u32,
}

/// How many numbers of C the rows are.
fn numbers(rows: &[SampleToGroupEntry]) -> u64 {
    (ROW_NUMBERS * rows.len()) as u64
}

/// What a table's reader found beside the rows.
#[derive(Clone, Copy, Debug, PartialEq, Eq)]
pub struct SampleToGroup {
    pub grouping_type: [u8; 4],
    pub grouping_type_parameter: u32,
    /// How many rows stand in front of the lent ones.
    pub entry_count: usize,
}

type TableReader = unsafe extern "C" fn(*const u8, u64, *mut RowNumber, u64, *mut [u64; 3]) -> u32;

fn parse(reader: TableReader, payload: &[u8], rows: &mut [SampleToGroupEntry]) -> Result<SampleToGroup> {
    let [kind, parameter, count] = value(|out| unsafe { reader(payload.as_ptr(), payload.len() as u64, rows.as_mut_ptr().cast(), numbers(rows), out) })?;
    Ok(SampleToGroup { grouping_type: fourcc(kind), grouping_type_parameter: parameter as u32, entry_count: count as usize })
}

pub fn parse_sbgp(payload: &[u8], rows: &mut [SampleToGroupEntry]) -> Result<SampleToGroup> {
    parse(raw::film_parse_sbgp, payload, rows)
}

pub fn parse_csgp(payload: &[u8], rows: &mut [SampleToGroupEntry]) -> Result<SampleToGroup> {
    parse(raw::film_parse_csgp, payload, rows)
}

/// How many rows `parse_sbgp` needs to be lent for a payload; with fewer it answers `NoRecordLeft`, which is never the answer here.
pub fn sbgp_rows_needed(payload: &[u8]) -> Result<u64> {
    let [count] = value(|out| unsafe { raw::film_sbgp_rows_needed(payload.as_ptr(), payload.len() as u64, out) })?;
    Ok(count)
}

/// The same for `parse_csgp`.
pub fn csgp_rows_needed(payload: &[u8]) -> Result<u64> {
    let [count] = value(|out| unsafe { raw::film_csgp_rows_needed(payload.as_ptr(), payload.len() as u64, out) })?;
    Ok(count)
}

/// How many rows `repaint` would leave, or its refusal. Nothing is written.
pub fn preview_repaint(rows: &[SampleToGroupEntry], stated: usize, samples: core::ops::Range<u64>, index: u32) -> Result<usize> {
    let (from, to) = (samples.start, samples.end);
    let [count] = value(|out| unsafe { raw::film_preview_repaint(rows.as_ptr().cast(), numbers(rows), stated as u64, from, to, index, out) })?;
    Ok(count as usize)
}

/// Gives the samples of a range one index. The first `stated` of `rows` are the rows, the others are spare. The joined rows of the changed samples are left in front, and how
/// many they are is told: the next call takes that number. What stands behind them stays.
pub fn repaint(rows: &mut [SampleToGroupEntry], stated: usize, samples: core::ops::Range<u64>, index: u32) -> Result<usize> {
    let (from, to) = (samples.start, samples.end);
    let numbers = numbers(rows);
    let [count] = value(|out| unsafe { raw::film_repaint(rows.as_mut_ptr().cast(), numbers, stated as u64, from, to, index, out) })?;
    Ok(count as usize)
}

/// The exact length of the sbgp that holds the rows.
pub fn quote_sbgp(rows: &[SampleToGroupEntry]) -> Result<usize> {
    let [length] = value(|out| unsafe { raw::film_quote_sbgp(rows.as_ptr().cast(), numbers(rows), out) })?;
    Ok(length as usize)
}

/// The exact length of the csgp that gives the same samples.
pub fn quote_csgp(rows: &[SampleToGroupEntry]) -> Result<usize> {
    let [length] = value(|out| unsafe { raw::film_quote_csgp(rows.as_ptr().cast(), numbers(rows), out) })?;
    Ok(length as usize)
}

type TableWriter = unsafe extern "C" fn(u32, *const RowNumber, u64, u64, *mut u8, u64, *mut [u64; 1]) -> u32;

fn write(writer: TableWriter, grouping_type: [u8; 4], rows: &[SampleToGroupEntry], quoted: usize, body: &mut [u8]) -> Result<usize> {
    let (kind, run, numbers) = (u32::from_be_bytes(grouping_type), rows.as_ptr().cast(), numbers(rows));
    let [length] = value(|out| unsafe { writer(kind, run, numbers, quoted as u64, body.as_mut_ptr(), body.len() as u64, out) })?;
    Ok(length as usize)
}

/// Writes the sbgp in front of `body`, where the rows still need the quoted length; how many bytes are told.
pub fn write_sbgp(grouping_type: [u8; 4], rows: &[SampleToGroupEntry], quoted: usize, body: &mut [u8]) -> Result<usize> {
    write(raw::film_write_sbgp, grouping_type, rows, quoted, body)
}

/// The same for the csgp.
pub fn write_csgp(grouping_type: [u8; 4], rows: &[SampleToGroupEntry], quoted: usize, body: &mut [u8]) -> Result<usize> {
    write(raw::film_write_csgp, grouping_type, rows, quoted, body)
}

/// The description index of a sample (both as in the Rust: samples from 0, descriptions from 1); 0 past the last row.
pub fn group_index_for_sample(rows: &[SampleToGroupEntry], sample: Sample) -> Result<u32> {
    let [index] = value(|out| unsafe { raw::film_group_index_for_sample(rows.as_ptr().cast(), numbers(rows), sample, out) })?;
    Ok(index as u32)
}

pub fn covered_samples(rows: &[SampleToGroupEntry]) -> Result<u64> {
    let [sum] = value(|out| unsafe { raw::film_covered_samples(rows.as_ptr().cast(), numbers(rows), out) })?;
    Ok(sum)
}

/// A play head over rows: the default one is fresh and stands before sample 0. Its fields are what the calls leave.
#[derive(Clone, Copy, Debug, Default, PartialEq, Eq)]
#[repr(C)]
pub struct PlayHead {
    /// 0: fresh; 1: at a sample.
    pub placed: u64,
    pub sample: u64,
    /// The row that covers the sample; the row count where none does.
    pub row: u64,
    /// The samples of that row before it.
    pub within: u64,
}

impl PlayHead {
    /// Sets the head to a sample, or to the end where that comes before; gives the index there.
    pub fn set(&mut self, rows: &[SampleToGroupEntry], sample: Sample) -> Result<u32> {
        let head: *mut PlayHead = self;
        let [index] = value(|out| unsafe { raw::film_play_set(head.cast(), rows.as_ptr().cast(), numbers(rows), sample, out) })?;
        Ok(index as u32)
    }

    /// Moves the head on by one sample, a fresh one to sample 0; at the end it stays. Gives the index there. The rows are those of the calls before.
    pub fn move_on(&mut self, rows: &[SampleToGroupEntry]) -> Result<u32> {
        let head: *mut PlayHead = self;
        let [index] = value(|out| unsafe { raw::film_play_move(head.cast(), rows.as_ptr().cast(), numbers(rows), out) })?;
        Ok(index as u32)
    }
}

/// The fragments of a live film, up to 64, the oldest first: each by the samples that its rows cover and by the members among them. The default queue is empty. Its fields are
/// what the calls leave.
#[derive(Clone, Debug, PartialEq, Eq)]
#[repr(C)]
pub struct FragmentQueue {
    /// The slot of the oldest fragment.
    pub first: u64,
    pub held: u64,
    pub covered: u64,
    pub members: u64,
    /// A ring of 64 slots: samples covered, members.
    pub slots: [[u64; 2]; 64],
}

impl Default for FragmentQueue {
    fn default() -> Self {
        FragmentQueue { first: 0, held: 0, covered: 0, members: 0, slots: [[0; 2]; 64] }
    }
}

#[derive(Clone, Copy, Debug, PartialEq, Eq)]
pub struct FragmentSums {
    pub held: u64,
    pub covered: u64,
    pub members: u64,
}

/// A status that comes without a value.
fn done(status: u32) -> Result<()> {
    if status == raw::OK { Ok(()) } else { Err(Refusal::of(status)) }
}

impl FragmentQueue {
    /// A fragment comes with its rows, which are counted and not kept.
    pub fn arrive(&mut self, rows: &[SampleToGroupEntry]) -> Result<()> {
        let queue: *mut FragmentQueue = self;
        done(unsafe { raw::film_fragment_arrive(queue.cast(), rows.as_ptr().cast(), numbers(rows)) })
    }

    /// The oldest fragment leaves.
    pub fn depart(&mut self) -> Result<()> {
        let queue: *mut FragmentQueue = self;
        done(unsafe { raw::film_fragment_depart(queue.cast()) })
    }

    /// The fragment that covers a sample, counted from the oldest held, and the sample within it.
    pub fn lookup(&self, sample: u64) -> Result<(u64, u64)> {
        let queue: *const FragmentQueue = self;
        let [fragment, within] = value(|out| unsafe { raw::film_fragment_lookup(queue.cast(), sample, out) })?;
        Ok((fragment, within))
    }

    pub fn sums(&self) -> FragmentSums {
        let queue: *const FragmentQueue = self;
        let mut out = [0; 3];
        unsafe { raw::film_fragment_sums(queue.cast(), &raw mut out) };
        let [held, covered, members] = out;
        FragmentSums { held, covered, members }
    }
}

#[derive(Clone, Copy, Debug, PartialEq, Eq)]
pub struct SampleGroupDescription {
    pub version: u8,
    pub grouping_type: [u8; 4],
    pub default_length: u32,
    /// Carried, not used.
    pub default_sample_description_index: u32,
    pub entry_count: u32,
}

pub fn parse_sgpd(payload: &[u8]) -> Result<SampleGroupDescription> {
    let [version, kind, length, index, count] = value(|out| unsafe { raw::film_parse_sgpd(payload.as_ptr(), payload.len() as u64, out) })?;
    Ok(SampleGroupDescription {
        version: version as u8,
        grouping_type: fourcc(kind),
        default_length: length as u32,
        default_sample_description_index: index as u32,
        entry_count: count as u32,
    })
}

type RunFiller = unsafe extern "C" fn(*const u8, u64, *mut u32, u64, *mut [u64; 1]) -> u32;

fn fill(filler: RunFiller, payload: &[u8], records: &mut [[u32; 2]]) -> Result<usize> {
    let [count] = value(|out| unsafe { filler(payload.as_ptr(), payload.len() as u64, records.as_mut_ptr().cast(), 2 * records.len() as u64, out) })?;
    Ok(count as usize)
}

/// The place and the length of every entry of an sgpd payload, in front of the lent records; how many there are is told.
pub fn entry_places(payload: &[u8], places: &mut [[u32; 2]]) -> Result<usize> {
    fill(raw::film_entry_places, payload, places)
}

/// Entry `index`, counted from 1, of an sgpd payload; None for 0 and past the count.
pub fn entry(payload: &[u8], index: u32) -> Result<Option<&[u8]>> {
    let told = call(|out| unsafe { raw::film_entry_place(payload.as_ptr(), payload.len() as u64, index, out) })?;
    Ok(told.map(|[place, size]| part(payload, place, size)))
}

#[derive(Clone, Copy, Debug, PartialEq, Eq)]
pub struct RollRecovery {
    pub roll_distance: i16,
}

pub fn decode_roll(payload: &[u8]) -> Result<RollRecovery> {
    let [distance] = value(|out| unsafe { raw::film_decode_roll(payload.as_ptr(), payload.len() as u64, out.cast()) })?;
    Ok(RollRecovery { roll_distance: distance as i16 })
}

#[derive(Clone, Copy, Debug, PartialEq, Eq)]
pub struct AudioPreRoll {
    pub roll_distance: i16,
}

pub fn decode_prol(payload: &[u8]) -> Result<AudioPreRoll> {
    let [distance] = value(|out| unsafe { raw::film_decode_prol(payload.as_ptr(), payload.len() as u64, out.cast()) })?;
    Ok(AudioPreRoll { roll_distance: distance as i16 })
}

#[derive(Clone, Copy, Debug, PartialEq, Eq)]
pub struct VisualRandomAccess {
    pub num_leading_samples_known: bool,
    pub num_leading_samples: u8,
}

pub fn decode_rap(payload: &[u8]) -> Result<VisualRandomAccess> {
    let [known, number] = value(|out| unsafe { raw::film_decode_rap(payload.as_ptr(), payload.len() as u64, out) })?;
    Ok(VisualRandomAccess { num_leading_samples_known: known == 1, num_leading_samples: number as u8 })
}

#[derive(Clone, Copy, Debug, PartialEq, Eq)]
pub struct TemporalLevel {
    pub level_independently_decodable: bool,
}

pub fn decode_tele(payload: &[u8]) -> Result<TemporalLevel> {
    let [bit] = value(|out| unsafe { raw::film_decode_tele(payload.as_ptr(), payload.len() as u64, out) })?;
    Ok(TemporalLevel { level_independently_decodable: bit == 1 })
}

#[derive(Clone, Copy, Debug, PartialEq, Eq)]
pub struct StreamAccessPoint {
    pub dependent: bool,
    pub sap_type: u8,
}

pub fn decode_sap(payload: &[u8]) -> Result<StreamAccessPoint> {
    let [dependent, kind] = value(|out| unsafe { raw::film_decode_sap(payload.as_ptr(), payload.len() as u64, out) })?;
    Ok(StreamAccessPoint { dependent: dependent == 1, sap_type: kind as u8 })
}

/// The plain fields of a rash; its points are read by number.
#[derive(Clone, Copy, Debug, PartialEq, Eq)]
pub struct RateShare {
    pub operation_point_count: u16,
    pub maximum_bitrate: u32,
    pub minimum_bitrate: u32,
    pub discard_priority: u8,
}

pub fn decode_rash(payload: &[u8]) -> Result<RateShare> {
    let [points, maximum, minimum, priority] = value(|out| unsafe { raw::film_decode_rash(payload.as_ptr(), payload.len() as u64, out) })?;
    Ok(RateShare {
        operation_point_count: points as u16,
        maximum_bitrate: maximum as u32,
        minimum_bitrate: minimum as u32,
        discard_priority: priority as u8,
    })
}

#[derive(Clone, Copy, Debug, PartialEq, Eq)]
pub struct RateShareOperationPoint {
    pub available_bitrate: u32,
    pub target_rate_share: u16,
}

/// The bitrate and the share of every point of a rash, in front of the lent records; how many there are is told.
pub fn rash_operation_points(payload: &[u8], points: &mut [[u32; 2]]) -> Result<usize> {
    fill(raw::film_rash_operation_points, payload, points)
}

/// Point `k` of a rash, counted from 0; None past the count.
pub fn rash_operation_point(payload: &[u8], k: u32) -> Result<Option<RateShareOperationPoint>> {
    let told = call(|out| unsafe { raw::film_rash_operation_point(payload.as_ptr(), payload.len() as u64, k, out) })?;
    Ok(told.map(|[bitrate, share]| RateShareOperationPoint { available_bitrate: bitrate as u32, target_rate_share: share as u16 }))
}

/// The plain fields of an alst; its offsets and pieces are read by number.
#[derive(Clone, Copy, Debug, PartialEq, Eq)]
pub struct AlternativeStartup {
    pub roll_count: u16,
    pub first_output_sample: u16,
    pub piece_count: u32,
}

pub fn decode_alst(payload: &[u8]) -> Result<AlternativeStartup> {
    let [rolls, first, pieces] = value(|out| unsafe { raw::film_decode_alst(payload.as_ptr(), payload.len() as u64, out) })?;
    Ok(AlternativeStartup { roll_count: rolls as u16, first_output_sample: first as u16, piece_count: pieces as u32 })
}

/// Offset `k` of an alst, counted from 0; None past the count.
pub fn alst_sample_offset(payload: &[u8], k: u32) -> Result<Option<u32>> {
    let told = call(|out| unsafe { raw::film_alst_sample_offset(payload.as_ptr(), payload.len() as u64, k, out) })?;
    Ok(told.map(|[offset]| offset as u32))
}

#[derive(Clone, Copy, Debug, PartialEq, Eq)]
pub struct AlternativeStartupPiece {
    pub num_output_samples: u16,
    pub num_total_samples: u16,
}

/// Piece `k` of an alst, counted from 0; None past the count.
pub fn alst_piece(payload: &[u8], k: u32) -> Result<Option<AlternativeStartupPiece>> {
    let told = call(|out| unsafe { raw::film_alst_piece(payload.as_ptr(), payload.len() as u64, k, out) })?;
    Ok(told.map(|[output, total]| AlternativeStartupPiece { num_output_samples: output as u16, num_total_samples: total as u16 }))
}

/// Whether two entries of one grouping type decode to the same value.
pub fn decode_alike(grouping_type: [u8; 4], a: &[u8], b: &[u8]) -> Result<bool> {
    let kind = u32::from_be_bytes(grouping_type);
    let [same] = value(|out| unsafe { raw::film_decode_alike(kind, a.as_ptr(), a.len() as u64, b.as_ptr(), b.len() as u64, out) })?;
    Ok(same == 1)
}

/// A csgp index of a fragment: the index without bit 31, and whether its description is the fragment's own.
#[derive(Clone, Copy, Debug, PartialEq, Eq)]
pub struct CsgpIndex {
    pub index: u32,
    pub fragment_local: bool,
}

pub fn split_csgp_index(raw: u32) -> CsgpIndex {
    let mut out = [0; 2];
    unsafe { raw::film_split_csgp_index(raw, &raw mut out) };
    let [index, local] = out;
    CsgpIndex { index: index as u32, fragment_local: local == 1 }
}

/// The entry that such an index names, a part of the film-wide or of the fragment's sgpd payload; None where that has no such entry.
pub fn described<'a>(film: &'a [u8], fragment: &'a [u8], raw: u32) -> Result<Option<&'a [u8]>> {
    let told = call(|out| unsafe { raw::film_described_place(film.as_ptr(), film.len() as u64, fragment.as_ptr(), fragment.len() as u64, raw, out) })?;
    Ok(told.map(|[local, place, size]| part(if local == 1 { fragment } else { film }, place, size)))
}

/// bitrate * share / 100, rounded to the nearest; an exact half goes to the even number.
pub fn rate_of_point(bitrate: u32, share: u16) -> u64 {
    unsafe { raw::film_rate_of_point(bitrate, share) }
}

/// What a cue listing's call left in the lent memory.
#[derive(Clone, Copy, Debug, PartialEq, Eq)]
pub struct CueListing {
    /// How many bytes of the listing stand in front of the output.
    pub length: usize,
    /// How many rows stand in front of the lent ones.
    pub entry_count: usize,
}

/// The cue listing of one grouping type in the body of an stbl (the form is told in film_index.h). The table's rows are left in `rows`.
pub fn cue_listing(body: &[u8], grouping_type: [u8; 4], rows: &mut [SampleToGroupEntry], listing: &mut [u8]) -> Result<CueListing> {
    let kind = u32::from_be_bytes(grouping_type);
    let (run, numbers, output, room) = (rows.as_mut_ptr().cast(), numbers(rows), listing.as_mut_ptr(), listing.len() as u64);
    let [length, count] = value(|out| unsafe { raw::film_cue_listing(body.as_ptr(), body.len() as u64, kind, run, numbers, output, room, out) })?;
    Ok(CueListing { length: length as usize, entry_count: count as usize })
}

/// The same for a track, counted from 0, of the front of a film.
pub fn file_cue_listing(s: &[u8], track: u32, grouping_type: [u8; 4], rows: &mut [SampleToGroupEntry], listing: &mut [u8]) -> Result<CueListing> {
    let kind = u32::from_be_bytes(grouping_type);
    let (run, numbers, output, room) = (rows.as_mut_ptr().cast(), numbers(rows), listing.as_mut_ptr(), listing.len() as u64);
    let [length, count] = value(|out| unsafe { raw::film_file_cue_listing(s.as_ptr(), s.len() as u64, track, kind, run, numbers, output, room, out) })?;
    Ok(CueListing { length: length as usize, entry_count: count as usize })
}

/// The sample where decoding begins so that a frame of an stbl's body is clean, by the group "roll" (film_index.h tells how); none where there is no such sample.
pub fn roll_start(body: &[u8], frame: Sample) -> Result<Option<Sample>> {
    let told = call(|out| unsafe { raw::film_roll_start(body.as_ptr(), body.len() as u64, frame, out) })?;
    Ok(told.map(|[sample]| sample as Sample))
}

/// The same by the group "rap ".
pub fn rap_start(body: &[u8], frame: Sample) -> Result<Option<Sample>> {
    let told = call(|out| unsafe { raw::film_rap_start(body.as_ptr(), body.len() as u64, frame, out) })?;
    Ok(told.map(|[sample]| sample as Sample))
}

/// Whether a sample, counted from 0, is a sync sample of the body of an stss.
pub fn is_sync_sample(s: &[u8], sample: Sample) -> Result<bool> {
    let [told] = value(|out| unsafe { raw::film_is_sync_sample(s.as_ptr(), s.len() as u64, sample, out) })?;
    Ok(told == 1)
}

/// The last sync sample, counted from 0, at or before a frame.
pub fn last_sync_sample(s: &[u8], frame: Sample) -> Result<Option<Sample>> {
    Ok(call(|out| unsafe { raw::film_last_sync_sample(s.as_ptr(), s.len() as u64, frame, out) })?.map(|[sample]| sample as Sample))
}

/// The fields of a sample in an sdtp, two bits each.
#[derive(Clone, Copy, Debug, PartialEq, Eq)]
pub struct SampleDependency {
    pub is_leading: u8,
    pub sample_depends_on: u8,
    pub sample_is_depended_on: u8,
    pub sample_has_redundancy: u8,
}

/// What the body of an sdtp says of a sample, counted from 0; None past its last byte.
pub fn sample_dependency(s: &[u8], sample: Sample) -> Result<Option<SampleDependency>> {
    let told = call(|out| unsafe { raw::film_sample_dependency(s.as_ptr(), s.len() as u64, sample, out) })?;
    Ok(told.map(|[a, b, c, d]| SampleDependency {
        is_leading: a as u8,
        sample_depends_on: b as u8,
        sample_is_depended_on: c as u8,
        sample_has_redundancy: d as u8,
    }))
}

/// The rules of the dome profile, in the order in which they are looked at.
#[derive(Clone, Copy, Debug, PartialEq, Eq)]
pub enum ProfileRule {
    /// The "rap " listing is given for long enough buffers.
    Listed = 1,
    /// Sample 0 has kind 2; a film that covers no samples breaks it.
    StartsInside = 2,
    /// No more than 600 samples in a row are of kinds 0 and 1 together.
    ShortGaps = 3,
    /// Every sample of kind 2 says that its leading samples are known.
    LeadingKnown = 4,
    /// No sample has kind 1.
    NoneMissing = 5,
}

fn rule([number]: [u64; 1]) -> Option<ProfileRule> {
    use ProfileRule::*;
    [Listed, StartsInside, ShortGaps, LeadingKnown, NoneMissing].into_iter().find(|&rule| rule as u64 == number)
}

/// The first rule of the dome profile that the body of an stbl breaks; None where it meets the profile.
pub fn profile(body: &[u8]) -> Result<Option<ProfileRule>> {
    Ok(rule(value(|out| unsafe { raw::film_profile(body.as_ptr(), body.len() as u64, out) })?))
}

/// The same for a track of a film.
pub fn file_profile(s: &[u8], track: u32) -> Result<Option<ProfileRule>> {
    Ok(rule(value(|out| unsafe { raw::film_file_profile(s.as_ptr(), s.len() as u64, track, out) })?))
}

/// How much a cue listing needs to be lent.
#[derive(Clone, Copy, Debug, PartialEq, Eq)]
pub struct ListingNeeds {
    pub bytes: u64,
    pub rows: u64,
}

/// What `cue_listing` needs for a body and a type. Lent so much, the listing is given; with less it is `NoRecordLeft` or `OutputTooShort`.
pub fn listing_needs(body: &[u8], grouping_type: [u8; 4]) -> Result<ListingNeeds> {
    let kind = u32::from_be_bytes(grouping_type);
    let [bytes, rows] = value(|out| unsafe { raw::film_listing_needs(body.as_ptr(), body.len() as u64, kind, out) })?;
    Ok(ListingNeeds { bytes, rows })
}

/// The same for a track of a film.
pub fn file_listing_needs(s: &[u8], track: u32, grouping_type: [u8; 4]) -> Result<ListingNeeds> {
    let kind = u32::from_be_bytes(grouping_type);
    let [bytes, rows] = value(|out| unsafe { raw::film_file_listing_needs(s.as_ptr(), s.len() as u64, track, kind, out) })?;
    Ok(ListingNeeds { bytes, rows })
}

/// The group of a sample.
#[derive(Clone, Copy, Debug, PartialEq, Eq)]
pub enum SampleGroup<'a> {
    /// Kind 0: index 0.
    Outside,
    /// Kind 1: an index past the entries.
    Missing { index: u32 },
    /// Kind 2: the index, counted from 1, and the entry's bytes.
    Entry { index: u32, payload: &'a [u8] },
}

fn sample_group_of(s: &[u8], [kind, index, place, size]: [u64; 4]) -> SampleGroup<'_> {
    let index = index as u32;
    match kind {
        0 => SampleGroup::Outside,
        1 => SampleGroup::Missing { index },
        _ => SampleGroup::Entry { index, payload: part(s, place, size) },
    }
}

/// The group of one sample of an stbl's body, without rows.
pub fn sample_group(body: &[u8], grouping_type: [u8; 4], sample: Sample) -> Result<SampleGroup<'_>> {
    let kind = u32::from_be_bytes(grouping_type);
    Ok(sample_group_of(body, value(|out| unsafe { raw::film_sample_group(body.as_ptr(), body.len() as u64, kind, sample, out) })?))
}

/// The same for a track of a film.
pub fn file_sample_group(s: &[u8], track: u32, grouping_type: [u8; 4], sample: Sample) -> Result<SampleGroup<'_>> {
    let kind = u32::from_be_bytes(grouping_type);
    Ok(sample_group_of(s, value(|out| unsafe { raw::film_file_sample_group(s.as_ptr(), s.len() as u64, track, kind, sample, out) })?))
}
