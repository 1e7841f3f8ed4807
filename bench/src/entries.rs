//! Every entry of include/film_index.h on one input, by this library and by the Rust. The Rust is called by pointers that the compiler does not look
//! through, as it does not look into the library.

use crate::bench::calls::*;
use crate::bench::inputs::*;
use crate::bench::{Bench, listing};
use crate::film_index::{ROW_NUMBERS, RowNumber};
use crate::sample_groups::*;
use crate::{atom, standalone};
use std::hint::black_box;
use std::io::{Cursor, Seek, SeekFrom};

/// Inputs of atoms are kept for good, so that one type of source has them all.
type Source = Cursor<&'static [u8]>;

impl Bench {
    fn ours(&mut self, name: &str, work: impl FnMut()) {
        self.measure(format!("entry\t{name}\tours"), work);
    }

    fn rust(&mut self, name: &str, work: impl FnMut()) {
        self.measure(format!("entry\t{name}\trust"), work);
    }

    /// A reader of whole inputs beside a function of the Rust.
    fn beside<T, Out>(&mut self, name: &str, s: Vec<u8>, ours: Reader<Out>, rust: fn(&[u8]) -> standalone::Result<T>) {
        let (s, rust) = (black_box(s), black_box(rust));
        let mut out = [0; 5];
        assert_eq!(read_into(ours, &s, &mut out), 0);
        self.ours(name, || drop(read_into(ours, &s, &mut out)));
        self.rust(name, || drop(black_box(rust(&s).unwrap())));
    }

    /// A part of an entry by its number, where the Rust decodes the entry and takes the part.
    fn by_number<T, P, Out>(&mut self, name: &str, s: Vec<u8>, ours: Numbered<Out>, rust: fn(&[u8]) -> standalone::Result<T>, parts: fn(&T) -> &[P]) {
        let (s, rust, parts) = (black_box(s), black_box(rust), black_box(parts));
        let count = parts(&rust(&s).unwrap()).len();
        let one = format!("{name}, one of {count}");
        let mut out = [0; 2];
        self.ours(&one, || drop(numbered_into(ours, &s, black_box(count as u32 / 2), &mut out)));
        self.rust(&one, || drop(black_box(&parts(&rust(&s).unwrap())[black_box(count / 2)])));
    }

    /// All parts of an entry, one after the other, where the Rust keeps what it decoded.
    fn each<T, P, Out>(&mut self, name: &str, s: Vec<u8>, ours: Numbered<Out>, rust: fn(&[u8]) -> standalone::Result<T>, parts: fn(&T) -> &[P]) {
        let (s, rust, parts) = (black_box(s), black_box(rust), black_box(parts));
        let count = parts(&rust(&s).unwrap()).len();
        let mut out = [0; 2];
        let all = format!("{name}, all {count}");
        self.ours(&all, || (0..count as u32).for_each(|k| drop(numbered_into(ours, &s, k, &mut out))));
        self.rust(&all, || parts(&rust(&s).unwrap()).iter().for_each(|p| drop(black_box(p))));
    }

    /// All parts of a payload in one call, then one after the other out of the lent run; the Rust decodes, and keeps what it decoded.
    fn filled<T, P>(&mut self, name: &str, s: Vec<u8>, ours: Filler<[u64; 1]>, rust: fn(&[u8]) -> standalone::Result<T>, parts: fn(&T) -> &[P]) {
        let (s, rust, parts) = (black_box(s), black_box(rust), black_box(parts));
        let count = parts(&rust(&s).unwrap()).len();
        let mut run = vec![0; 2 * count];
        let mut out = [0; 1];
        let name = format!("{name}, all {count}");
        self.ours(&name, || {
            assert_eq!(black_box(unsafe { ours(s.as_ptr(), s.len() as u64, run.as_mut_ptr(), run.len() as u64, &mut out) }), 0);
            run.chunks_exact(2).for_each(|p| drop(black_box(p)));
        });
        assert_eq!(out[0], count as u64);
        self.rust(&name, || parts(&rust(&s).unwrap()).iter().for_each(|p| drop(black_box(p))));
    }

    fn atoms(&mut self) {
        let header = black_box(atom::read_atom_header::<Source> as fn(&mut Source) -> standalone::Result<Option<atom::AtomHeader>>);
        let inputs = [("32-bit size", atom_of(b"free", &[0; 64])), ("64-bit size", extended_atom(b"free", &[0; 64])), ("open", [0, 0, 0, 0, b'm', b'd', b'a', b't'].to_vec())];
        for (kind, s) in inputs {
            let s: &[u8] = black_box(s).leak();
            let name = format!("read_atom_header, {kind}");
            let mut out = [0; 5];
            self.ours(&name, || drop(black_box(unsafe { film_read_atom_header(s.as_ptr(), s.len() as u64, 0, &mut out) })));
            self.rust(&name, || drop(black_box(header(&mut Cursor::new(s)).unwrap())));
        }
        // a source of its own type, so that the walk's header reader has one caller, as in a program that only walks
        let s = black_box(atoms(1000));
        assert_eq!(walk(&s), 1000);
        self.ours("next_child, a walk over 1,000", || drop(black_box(walk(&s))));
        let end = s.len() as u64;
        self.rust("next_child, a walk over 1,000", || atom::walk_children(&mut Cursor::new(&s), Some(end), |_, h| Ok(drop(black_box(h)))).unwrap());

        let payload = black_box(atom::read_payload::<Source> as fn(&mut Source, &atom::AtomHeader) -> standalone::Result<Vec<u8>>);
        let bounded = black_box(atom::read_payload_bounded::<Source> as fn(&mut Source, &atom::AtomHeader, u64) -> standalone::Result<Vec<u8>>);
        for size in [16, 4096] {
            let s: &[u8] = black_box(atom_of(b"sbgp", &vec![7; size])).leak();
            let mut out = [0; 2];
            let body = |r: &mut Source| {
                let h = header(r).unwrap().unwrap();
                r.seek(SeekFrom::Start(h.payload_offset)).unwrap();
                h
            };
            let name = format!("read_payload, {size} bytes");
            self.ours(&name, || drop(black_box(unsafe { film_read_payload(s.as_ptr(), s.len() as u64, 0, &mut out) })));
            self.rust(&name, || {
                let mut r = Cursor::new(s);
                let h = body(&mut r);
                drop(black_box(payload(&mut r, &h).unwrap()));
            });
            let name = format!("read_payload_bounded, {size} bytes");
            self.ours(&name, || drop(black_box(unsafe { film_read_payload_bounded(s.as_ptr(), s.len() as u64, 0, 5000, &mut out) })));
            self.rust(&name, || {
                let mut r = Cursor::new(s);
                let h = body(&mut r);
                drop(black_box(bounded(&mut r, &h, 5000).unwrap()));
            });
        }
    }

    fn table(&mut self, name: &str, s: Vec<u8>, ours: Filler<[u64; 3]>, needed: Reader<[u64; 1]>, rust: fn(&[u8]) -> standalone::Result<SampleToGroup>) {
        let (s, rust) = (black_box(s), black_box(rust));
        let count = rust(&s).unwrap().entries.len();
        let mut run = vec![0; ROW_NUMBERS * count];
        assert_eq!(parse(ours, &s, &mut run), (0, count as u64));
        let parsed = format!("parse_{name}, {count} rows");
        self.ours(&parsed, || drop(parse(ours, &s, &mut run)));
        self.rust(&parsed, || drop(black_box(rust(&s).unwrap())));
        let counted = format!("{}_rows_needed, {count} rows", &name[..4]);
        if !name.contains("16") && !name.contains("32") {
            let counted = if name.len() > 4 { format!("{counted}, {}", &name[6..]) } else { counted };
            let mut out = [0; 5];
            self.ours(&counted, || drop(read_into(needed, &s, &mut out)));
            self.rust(&counted, || drop(black_box(rust(&s).unwrap().entries.len())));
        }
    }

    fn tables(&mut self) {
        self.table("sbgp", sbgp(1000), film_parse_sbgp, film_sbgp_rows_needed, parse_sbgp);
        for (code, width) in [(0, 4), (1, 8), (2, 16), (3, 32)] {
            let long = (0..300).map(|k| 1 + k / 3 % 9).collect();
            for (shape, pattern) in [("uniform", (9000, vec![1])), ("alternating", (9000, vec![1, 2])), ("300 indices by threes", (9000, long))] {
                self.table(&format!("csgp, {width} bits, {shape}"), csgp(b"rap ", code, &[pattern]), film_parse_csgp, film_csgp_rows_needed, parse_csgp);
            }
        }
        let table = black_box(parse_sbgp(&sbgp(1000)).unwrap());
        let rows: Vec<RowNumber> = black_box(table.entries.iter().flat_map(|e| [e.sample_count, e.group_description_index]).collect());
        let last = covered(&rows) as u32 - 1;
        let index = black_box(SampleToGroup::group_index_for_sample as fn(&SampleToGroup, u32) -> u32);
        let mut out = [0];
        for (place, sample) in [("first", 0), ("middle", last / 2), ("last", last), ("past the end", last + 1)] {
            let name = format!("group_index_for_sample, {place} of 1,000 rows");
            self.ours(&name, || drop(look_up_into(&rows, black_box(sample), &mut out)));
            self.rust(&name, || drop(black_box(index(&table, black_box(sample)))));
        }
        let sum = black_box(SampleToGroup::covered_samples as fn(&SampleToGroup) -> u64);
        self.ours("covered_samples, 1,000 rows", || drop(covered(&rows)));
        self.rust("covered_samples, 1,000 rows", || drop(black_box(sum(&table))));
    }

    fn descriptions(&mut self) {
        let parsed = black_box(parse_sgpd as fn(&[u8]) -> standalone::Result<SampleGroupDescription>);
        let entry = black_box(SampleGroupDescription::entry as for<'a> fn(&'a SampleGroupDescription, u32) -> Option<&'a SampleGroupDescriptionEntry>);
        for (kind, prefixed) in [("one length", false), ("lengths", true)] {
            let s = black_box(sgpd(1000, prefixed));
            self.beside(&format!("parse_sgpd, 1,000 entries, {kind}"), s.clone(), film_parse_sgpd, parse_sgpd);
            let mut out = [0; 2];
            for index in [1, 500, 1000] {
                let name = format!("entry_place, {index} of 1,000, {kind}");
                self.ours(&name, || drop(numbered_into(film_entry_place, &s, black_box(index), &mut out)));
                self.rust(&name, || drop(black_box(entry(&parsed(&s).unwrap(), black_box(index)))));
            }
            self.filled(&format!("entry_places, {kind}"), s.clone(), film_entry_places, parse_sgpd, |d| &d.entries);
            let split = black_box(split_csgp_index as fn(u32) -> CsgpIndex);
            for (side, raw) in [("film-wide", 1000), ("fragment's", 0x8000_0000 | 1000)] {
                let name = format!("described_place, {side} 1,000, {kind}");
                self.ours(&name, || assert_eq!(described(&s, &s, black_box(raw)).0, 0));
                self.rust(&name, || {
                    let (film, fragment) = (parsed(&s).unwrap(), parsed(&s).unwrap());
                    let named = split(black_box(raw));
                    drop(black_box(entry(if named.fragment_local { &fragment } else { &film }, named.index)));
                });
            }
        }
        let split = black_box(split_csgp_index as fn(u32) -> CsgpIndex);
        let mut out = [0; 2];
        self.ours("split_csgp_index", || unsafe { film_split_csgp_index(black_box(0x8000_0007), &mut out) });
        self.rust("split_csgp_index", || drop(black_box(split(black_box(0x8000_0007)))));
        self.ours("rate_of_point", || drop(black_box(unsafe { film_rate_of_point(black_box(4_000_000_000), black_box(75)) })));
    }

    fn decoders(&mut self) {
        self.beside("decode_roll", vec![0xff, 0xfe], film_decode_roll, decode_roll);
        self.beside("decode_prol", vec![0, 3], film_decode_prol, decode_prol);
        self.beside("decode_rap", vec![0x83], film_decode_rap, decode_rap);
        self.beside("decode_tele", vec![0x80], film_decode_tele, decode_tele);
        self.beside("decode_sap", vec![0x82], film_decode_sap, decode_sap);
        self.beside("decode_rash, 100 points", rash(100), film_decode_rash, decode_rash);
        self.beside("decode_alst, 100 offsets, 50 pieces", alst(100, 50), film_decode_alst, decode_alst);
        self.by_number("rash_operation_point", rash(100), film_rash_operation_point, decode_rash, |r| &r.operation_points);
        self.filled("rash_operation_points", rash(100), film_rash_operation_points, decode_rash, |r| &r.operation_points);
        self.by_number("alst_sample_offset", alst(100, 50), film_alst_sample_offset, decode_alst, |a| &a.sample_offsets);
        self.each("alst_sample_offset", alst(100, 50), film_alst_sample_offset, decode_alst, |a| &a.sample_offsets);
        self.by_number("alst_piece", alst(50, 100), film_alst_piece, decode_alst, |a| &a.pieces);
        self.each("alst_piece", alst(50, 100), film_alst_piece, decode_alst, |a| &a.pieces);
    }

    /// Two entries. The Rust has no such call: beside ours stands `alike_by_type`.
    fn likeness(&mut self, name: &str, kind: &[u8; 4], a: Vec<u8>, b: Vec<u8>) {
        let rust = black_box(alike_by_type as fn(u32, &[u8], &[u8]) -> standalone::Result<bool>);
        let (a, b, number) = (black_box(a), black_box(b), u32::from_be_bytes(*kind));
        let same = rust(number, &a, &b).unwrap();
        assert_eq!(alike(kind, &a, &b), (0, same as u64));
        let name = format!("decode_alike, {name}, {}", if same { "alike" } else { "unlike" });
        let mut out = [0];
        self.ours(&name, || drop(alike_into(black_box(number), &a, &b, &mut out)));
        self.rust(&name, || drop(black_box(rust(black_box(number), &a, &b).unwrap())));
    }

    fn likenesses(&mut self) {
        for second in [vec![0, 3], vec![0, 4]] {
            self.likeness("roll", b"roll", vec![0, 3], second.clone());
            self.likeness("rap", b"rap ", vec![3], second[1..].to_vec());
            self.likeness("tele", b"tele", vec![0x80], vec![0x80 ^ second[1] << 5]);
            self.likeness("sap", b"sap ", vec![3], second[1..].to_vec());
        }
        for points in [2, 100] {
            let s = rash(points);
            self.likeness(&format!("rash of {points} points"), b"rash", s.clone(), s.clone());
            self.likeness(&format!("rash of {points} points"), b"rash", s.clone(), odd_end(&s));
        }
        for offsets in [2, 100] {
            let s = alst(offsets, 50);
            self.likeness(&format!("alst of {offsets} offsets"), b"alst", s.clone(), s.clone());
            self.likeness(&format!("alst of {offsets} offsets"), b"alst", s.clone(), odd_end(&s));
        }
        for size in [1, 3, 7, 8, 16, 32, 64, 100, 129, 500, 1000] {
            // no decoder: two slices are compared, by what the machine has for that
            let name = format!("{size} byte{} of an unknown type", if size == 1 { "" } else { "s" });
            let s = vec![7; size];
            self.likeness(&name, b"abcd", s.clone(), s.clone());
            self.likeness(&name, b"abcd", s.clone(), odd_end(&s));
        }
    }
}

/// Whether two entries decode alike by the Rust's decoders, of a type that is known at run time, as `film_decode_alike` is told it.
fn alike_by_type(kind: u32, a: &[u8], b: &[u8]) -> standalone::Result<bool> {
    const ROLL: u32 = u32::from_be_bytes(*b"roll");
    const PROL: u32 = u32::from_be_bytes(*b"prol");
    const RAP: u32 = u32::from_be_bytes(*b"rap ");
    const TELE: u32 = u32::from_be_bytes(*b"tele");
    const SAP: u32 = u32::from_be_bytes(*b"sap ");
    const RASH: u32 = u32::from_be_bytes(*b"rash");
    const ALST: u32 = u32::from_be_bytes(*b"alst");
    Ok(match kind {
        ROLL => decode_roll(a)? == decode_roll(b)?,
        PROL => decode_prol(a)? == decode_prol(b)?,
        RAP => decode_rap(a)? == decode_rap(b)?,
        TELE => decode_tele(a)? == decode_tele(b)?,
        SAP => decode_sap(a)? == decode_sap(b)?,
        RASH => decode_rash(a)? == decode_rash(b)?,
        ALST => decode_alst(a)? == decode_alst(b)?,
        _ => a == b,
    })
}

pub fn run(bench: &mut Bench) {
    bench.atoms();
    bench.tables();
    bench.descriptions();
    bench.decoders();
    bench.likenesses();
    listing::million(bench);
}
