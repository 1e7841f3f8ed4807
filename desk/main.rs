//! film-index: what the library says of films as they are, of any length, with the moov in front or behind. Everything that decides stands in the library; this program reads the
//! film, lends memory and tells the answer.
//!
//!   film-index check FILM [--track N]     whether the film meets the dome profile
//!
//! Exit status: 0 yes, 1 no, 2 refused or not readable.

use crate::film_index::{self, ProfileRule, Refusal, SampleToGroupEntry};
use std::fs::File;
use std::os::unix::fs::FileExt;
use std::process::ExitCode;

const HELP: &str = "\
film-index check FILM [--track N]

Tells of each track of the film (or of track N, counted from 0) whether it meets the dome profile, or the first rule that it breaks and the first frame that
breaks it. Frames are counted from 0.

Exit status: 0 every track that was asked meets the profile; 1 one does not; 2 the film is refused or cannot be read.
";

/// No header of an atom is longer.
const HEADER: usize = 32;

/// Why a film has no answer.
enum Fault {
    Unreadable(std::io::Error),
    NoMoov,
    /// A refusal, with the place in the film where it can be known.
    Refused(Refusal, Option<u64>),
}

impl From<std::io::Error> for Fault {
    fn from(error: std::io::Error) -> Self {
        Fault::Unreadable(error)
    }
}

impl std::fmt::Display for Fault {
    fn fmt(&self, f: &mut std::fmt::Formatter) -> std::fmt::Result {
        match self {
            Fault::Unreadable(error) => write!(f, "{error}"),
            Fault::NoMoov => write!(f, "no moov"),
            Fault::Refused(refusal, None) => write!(f, "{refusal}"),
            Fault::Refused(refusal, Some(place)) => write!(f, "{refusal}, at byte {place}"),
        }
    }
}

/// Up to `buffer.len()` bytes at a place; fewer at the end of the film.
fn read_at(film: &File, place: u64, buffer: &mut [u8]) -> std::io::Result<usize> {
    let mut got = 0;
    while got < buffer.len() {
        match film.read_at(&mut buffer[got..], place + got as u64)? {
            0 => break,
            n => got += n,
        }
    }
    Ok(got)
}

/// The first moov with its header. Only the headers of the atoms before it are read.
fn moov(film: &File) -> Result<Vec<u8>, Fault> {
    let length = film.metadata()?.len();
    let mut place = 0;
    loop {
        let mut head = [0; HEADER];
        let got = read_at(film, place, &mut head)?;
        let header = film_index::read_atom_header(&head[..got], 0).map_err(|refusal| Fault::Refused(refusal, Some(place)))?;
        let Some(header) = header else { return Err(Fault::NoMoov) };
        let size = header.total_size.unwrap_or(length - place);
        if header.fourcc == *b"moov" {
            let kept = size.min(length - place).min(film_index::INPUT_LIMIT as u64 + 1);
            let mut bytes = vec![0; kept as usize];
            let got = read_at(film, place, &mut bytes)?;
            bytes.truncate(got);
            return Ok(bytes);
        }
        place = place.checked_add(size).ok_or(Fault::NoMoov)?;
    }
}

/// The listing of "rap ", with as much memory as it asks for; none where that would be more than a million rows.
fn listing(body: &[u8]) -> Option<Vec<u8>> {
    let (mut rows, mut bytes) = (1 << 10, 1 << 14);
    while rows <= 1 << 20 && bytes <= 1 << 28 {
        let mut lent = vec![SampleToGroupEntry::default(); rows];
        let mut out = vec![0; bytes];
        match film_index::cue_listing(body, *b"rap ", &mut lent, &mut out) {
            Ok(told) => {
                out.truncate(told.length);
                return Some(out);
            }
            Err(Refusal::NoRecordLeft) => rows *= 8,
            Err(Refusal::OutputTooShort) => bytes *= 8,
            Err(_) => return None,
        }
    }
    None
}

/// A stretch of samples of one meaning: its length, its kind, and whether a sample of kind 2 says that its leading samples are known.
struct Stretch {
    length: u64,
    kind: u64,
    known: bool,
}

/// The stretches of a "rap " listing: the type, the sample count, then for each stretch its length, its kind, and for kind 2 two numbers.
fn stretches(listing: &[u8]) -> Vec<Stretch> {
    let mut at = 4;
    let mut number = || {
        let (mut value, mut shift) = (0u64, 0);
        loop {
            let byte = *listing.get(at)?;
            at += 1;
            value |= ((byte & 127) as u64) << shift;
            shift += 7;
            if byte < 128 {
                return Some(value);
            }
        }
    };
    let mut all = vec![];
    number();
    while let (Some(length), Some(kind)) = (number(), number()) {
        let known = kind == 2 && (number(), number()).0 == Some(1);
        all.push(Stretch { length, kind, known });
    }
    all
}

/// The first frame that breaks a rule, by the listing. It is not part of what is proved.
fn first_frame(rule: ProfileRule, stretches: &[Stretch]) -> Option<u64> {
    let (mut place, mut gap) = (0, 0);
    for stretch in stretches {
        match rule {
            ProfileRule::Listed => return None,
            ProfileRule::StartsInside => return Some(0),
            ProfileRule::ShortGaps if stretch.kind == 2 => gap = 0,
            ProfileRule::ShortGaps if gap + stretch.length > 600 => return Some(place + 600 - gap),
            ProfileRule::ShortGaps => gap += stretch.length,
            ProfileRule::LeadingKnown if stretch.kind == 2 && !stretch.known => return Some(place),
            ProfileRule::NoneMissing if stretch.kind == 1 => return Some(place),
            _ => {}
        }
        place += stretch.length;
    }
    None
}

fn words(rule: ProfileRule) -> &'static str {
    match rule {
        ProfileRule::Listed => "the table of random access points cannot be listed",
        ProfileRule::StartsInside => "the first frame is no random access point",
        ProfileRule::ShortGaps => "more than 600 frames in a row are no random access points",
        ProfileRule::LeadingKnown => "a random access point does not know its leading frames",
        ProfileRule::NoneMissing => "a frame names a description that is not there",
    }
}

/// One track's verdict; whether it meets the profile.
fn check_track(moov: &[u8], track: u32) -> Result<bool, Refusal> {
    let body = film_index::find_stbl(moov, track)?;
    let Some(rule) = film_index::profile(body)? else {
        println!("track {track}: meets the dome profile");
        return Ok(true);
    };
    print!("track {track}: breaks rule {}: {}", rule as u32, words(rule));
    if rule == ProfileRule::Listed {
        if let Err(refusal) = film_index::cue_listing(body, *b"rap ", &mut [], &mut []) {
            if !matches!(refusal, Refusal::NoRecordLeft | Refusal::OutputTooShort) {
                print!(" ({refusal})");
            }
        }
    }
    match listing(body).and_then(|told| first_frame(rule, &stretches(&told))) {
        Some(frame) => println!(", first at frame {frame}"),
        None => println!(),
    }
    Ok(false)
}

fn check(name: &str, track: Option<u32>) -> Result<bool, Fault> {
    let moov = moov(&File::open(name)?)?;
    let refused = |refusal| Fault::Refused(refusal, None);
    if let Some(track) = track {
        return check_track(&moov, track).map_err(refused);
    }
    let (mut all, mut track) = (true, 0);
    loop {
        match check_track(&moov, track) {
            Ok(meets) => all &= meets,
            Err(Refusal::NoTrack) if track > 0 => return Ok(all),
            Err(Refusal::NoContainer) => println!("track {track}: has no sample table"),
            Err(refusal) => return Err(refused(refusal)),
        }
        track += 1;
    }
}

pub fn main() -> ExitCode {
    let words: Vec<String> = std::env::args().skip(1).collect();
    let words: Vec<&str> = words.iter().map(String::as_str).collect();
    let (name, track) = match words.as_slice() {
        ["--help"] | ["check", "--help"] => {
            print!("{HELP}");
            return ExitCode::SUCCESS;
        }
        ["check", name] => (*name, None),
        ["check", name, "--track", n] if n.parse::<u32>().is_ok() => (*name, n.parse().ok()),
        _ => {
            eprint!("{HELP}");
            return ExitCode::from(2);
        }
    };
    match check(name, track) {
        Ok(true) => ExitCode::SUCCESS,
        Ok(false) => ExitCode::from(1),
        Err(fault) => {
            eprintln!("film-index: {name}: {fault}");
            ExitCode::from(2)
        }
    }
}
