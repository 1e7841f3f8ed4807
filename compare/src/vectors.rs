//! Stored vectors: a sample of the Rust's answers as lines of hexadecimal, for the program test_vectors (docs/VECTORS.md has the format).

use super::ffi::Answer;
use std::collections::{BTreeMap, BTreeSet};

/// The longest file that the program replays.
const LIMIT: usize = 65_536;

const NONE: u8 = 255;

/// Each entry with the statuses that its stored lines must have, besides 0; 55 would take an input longer than a file.
const STATUSES: [(u8, &[u8]); 22] = [
    (1, &[1, 2, 3, 4, 5, NONE]),
    (2, &[1, 2, 3, 4, 5, 6, 7, NONE]),
    (3, &[1, 2, 3, 4, 5, 8, 9, 11, NONE]),
    (4, &[1, 2, 3, 4, 5, 8, 9, 10, 11, NONE]),
    (5, &[20, 21, 22, 23, 29]),
    (6, &[20, 21, 22, 24, 25, 26, 27, 28, 29]),
    (7, &[]),
    (8, &[]),
    (9, &[30, 31, 32, 33, 34, 35]),
    (10, &[30, 31, 32, 33, 34, 35, NONE]),
    (11, &[40]),
    (12, &[40]),
    (13, &[40]),
    (14, &[40]),
    (15, &[40]),
    (16, &[40, 41, 42, 43]),
    (17, &[40, 41, 42, 43, NONE]),
    (18, &[40, 44, 45]),
    (19, &[40, 44, 45, NONE]),
    (20, &[40, 44, 45, NONE]),
    (21, &[20, 21, 22, 23]),
    (22, &[20, 21, 22, 24, 25, 26, 27, 28]),
];

/// The same of the cue listing, of the search for an stbl and of all entries or points at once, whose damaged lines are a file of their own.
const LISTING: [(u8, &[u8]); 4] = [
    (35, &[29, 30, 31, 32, 33, 34, 35]),
    (36, &[29, 40, 41, 42, 43]),
    (24, &[1, 2, 3, 4, 5, 6, 11, 60, 61]),
    (23, &[1, 2, 3, 4, 5, 6, 8, 20, 21, 22, 23, 24, 25, 26, 27, 28, 29, 30, 31, 32, 33, 34, 35, 40, 41, 42, 43, 44, 45, 50, 51, 52, 53, 54]),
];

/// The refusals of a film's cue listing, and of a decode start, which is lent no records (29) and whose types have a byte count of their own in version 0 (34).
const FILE_LISTING: [u8; 37] =
    [1, 2, 3, 4, 5, 6, 8, 11, 20, 21, 22, 23, 24, 25, 26, 27, 28, 29, 30, 31, 32, 33, 34, 35, 40, 41, 42, 43, 44, 45, 50, 51, 52, 53, 54, 60, 61];
const START: [u8; 28] = [1, 2, 3, 4, 5, 6, 8, 20, 21, 22, 23, 24, 25, 26, 27, 28, 30, 31, 32, 33, 35, 40, 50, 51, 52, 53, 62, NONE];

/// The same of the other entries that document 02 asks for.
const REQUESTS: [(u8, &[u8]); 10] = [
    (25, &FILE_LISTING),
    (26, &START),
    (27, &START),
    (28, &[]),
    (29, &[28]),
    (30, &[63, 64]),
    (31, &[28, 63, 64]),
    (32, &[65, 66]),
    (33, &[65, 66, NONE]),
    (34, &[65, NONE]),
];

#[derive(Clone, PartialEq, Eq, PartialOrd, Ord)]
struct Line {
    entry: u8,
    arguments: Vec<u64>,
    input: Vec<u8>,
    status: u8,
    numbers: Vec<u64>,
}

impl Line {
    fn text(&self) -> String {
        let mut bytes = vec![self.entry, self.arguments.len() as u8];
        bytes.extend(self.arguments.iter().flat_map(|a| a.to_be_bytes()));
        bytes.extend((self.input.len() as u16).to_be_bytes());
        bytes.extend(&self.input);
        bytes.extend([self.status, self.numbers.len() as u8]);
        bytes.extend(self.numbers.iter().flat_map(|n| n.to_be_bytes()));
        bytes.iter().map(|b| format!("{b:02x}")).collect()
    }

    /// The same call with another answer.
    fn told(&self, status: u8, numbers: &[u64]) -> Line {
        Line { status, numbers: numbers.to_vec(), ..self.clone() }
    }
}

fn status(answer: &Answer<Vec<u64>>) -> u8 {
    match answer {
        Answer::Given(_) => 0,
        Answer::None => NONE,
        Answer::Refused(n) => *n as u8,
    }
}

/// Bytes as numbers, eight to a number, the last one filled up with zeros.
pub fn eights(bytes: &[u8]) -> impl Iterator<Item = u64> {
    bytes.chunks(8).map(|part| {
        let mut eight = [0; 8];
        eight[..part.len()].copy_from_slice(part);
        u64::from_be_bytes(eight)
    })
}

/// Lines with different inputs and answers.
#[derive(Default)]
pub struct Vectors {
    lines: Vec<Line>,
    seen: BTreeSet<Line>,
}

impl Vectors {
    /// One answer of the Rust for an entry, by the entry's number in docs/VECTORS.md.
    pub fn add(&mut self, entry: u8, arguments: &[u64], input: &[u8], answer: Answer<Vec<u64>>) {
        let status = status(&answer);
        let numbers = if let Answer::Given(numbers) = answer { numbers } else { vec![] };
        let line = Line { entry, arguments: arguments.to_vec(), input: input.to_vec(), status, numbers };
        if self.seen.insert(line.clone()) {
            self.lines.push(line);
        }
    }

    /// The same, unless there are already `most` lines of the entry with this status.
    pub fn add_few(&mut self, most: usize, entry: u8, arguments: &[u64], input: &[u8], answer: Answer<Vec<u64>>) {
        let status = status(&answer);
        if self.lines.iter().filter(|line| line.entry == entry && line.status == status).count() < most {
            self.add(entry, arguments, input, answer);
        }
    }

    /// As many lines as fit into a file: the first of each entry and status, then the second of each, and so on.
    fn chosen(&self) -> Vec<&Line> {
        let mut ranks = BTreeMap::new();
        let mut ranked: Vec<(usize, &Line)> = Vec::new();
        for line in &self.lines {
            let rank = ranks.entry((line.entry, line.status)).or_insert(0);
            ranked.push((*rank, line));
            *rank += 1;
        }
        ranked.sort_by_key(|(rank, _)| *rank);
        let mut size = 0;
        ranked.retain(|(_, line)| {
            let more = line.text().len() + 1;
            let fits = size + more <= LIMIT;
            size += if fits { more } else { 0 };
            fits
        });
        ranked.into_iter().map(|(_, line)| line).collect()
    }

    pub fn print(&self) {
        for line in self.chosen() {
            println!("{}", line.text());
        }
    }
}

/// Prints lines that a replay must find to differ, for each entry: an answer in all its parts, each of its statuses as another one, and lines that
/// are no record of a call. Fails where the files lack a status.
pub fn print_damaged(files: &[Vectors]) {
    damaged(&STATUSES, files, false)
}

pub fn print_damaged_listing(files: &[Vectors]) {
    damaged(&LISTING, files, false)
}

/// Of these entries each status is told in two other ways only. Their lines are few enough to be stored all.
pub fn print_damaged_requests(files: &[Vectors]) {
    assert!(files.iter().all(|file| file.chosen().len() == file.lines.len()), "lines that do not fit into a file");
    damaged(&REQUESTS, files, true)
}

fn damaged(entries: &[(u8, &[u8])], files: &[Vectors], few: bool) {
    let lines: Vec<&Line> = files.iter().flat_map(Vectors::chosen).collect();
    let mut damaged = Vec::new();
    for &(entry, statuses) in entries {
        let with = |status| lines.iter().filter(move |line| line.entry == entry && line.status == status);
        let of = |status| *with(status).min_by_key(|line| line.input.len()).unwrap_or_else(|| panic!("no line of entry {entry} with status {status}"));
        let value = *with(0).next().unwrap_or_else(|| panic!("no value of entry {entry}"));
        let numbers = &value.numbers;
        for status in [1, NONE] {
            damaged.extend([value.told(status, numbers), value.told(status, &[])]);
        }
        for k in 0..numbers.len() {
            let mut other = numbers.clone();
            other[k] ^= 1 << if k % 2 == 0 { 0 } else { 63 };
            damaged.push(value.told(0, &other));
        }
        let mut last = numbers.clone();
        last[numbers.len() - 1] ^= 1 << 63 | 1;
        damaged.extend([&last[..], &numbers[..numbers.len() - 1], &[&numbers[..], &[0]].concat(), &[]].map(|other| value.told(0, other)));
        for &status in statuses {
            let line = of(status);
            let others: &[u8] = if few { &[0, status ^ 1] } else { &[0, status ^ 1, NONE] };
            damaged.extend(others.iter().filter(|&&other| other != status).map(|&other| line.told(other, &[])));
            if !few {
                damaged.extend([line.told(0, numbers), line.told(status, &[0])]);
            }
        }
    }
    let mut told = BTreeSet::new();
    damaged.retain(|line| told.insert(line.clone()));
    let mut texts: Vec<String> = damaged.iter().map(Line::text).collect();
    // A record that is cut, has a byte more, is written in other digits, is empty, or is of no entry.
    let first = lines[0].text();
    let rest = &first[2..];
    texts.extend([first[..first.len() - 2].to_string(), format!("{first}00"), first.to_uppercase(), String::new(), format!("00{rest}"), format!("ff{rest}")]);
    let right: BTreeSet<String> = lines.iter().map(|line| line.text()).collect();
    assert!(texts.iter().all(|text| !right.contains(text)), "a damaged line is a right one");
    assert!(texts.iter().map(|text| text.len() + 1).sum::<usize>() <= LIMIT, "too many damaged lines");
    for text in texts {
        println!("{text}");
    }
}
