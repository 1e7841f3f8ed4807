//! Inputs: atoms, tables, descriptions and entries.

pub fn atom_of(kind: &[u8; 4], body: &[u8]) -> Vec<u8> {
    [&(body.len() as u32 + 8).to_be_bytes(), &kind[..], body].concat()
}

/// An atom whose size stands in 8 bytes.
pub fn extended_atom(kind: &[u8; 4], body: &[u8]) -> Vec<u8> {
    [&1u32.to_be_bytes(), &kind[..], &(body.len() as u64 + 16).to_be_bytes(), body].concat()
}

/// So many atoms of 16 bytes.
pub fn atoms(count: u32) -> Vec<u8> {
    (0..count).flat_map(|k| [16u32.to_be_bytes(), *b"free", k.to_be_bytes(), [0; 4]].concat()).collect()
}

/// An sbgp of rows that cover 1 to 7 samples each.
pub fn sbgp(rows: u32) -> Vec<u8> {
    let mut s = [[0; 4], *b"rap ", rows.to_be_bytes()].concat();
    s.extend((0..rows).flat_map(|k| [(k % 7 + 1).to_be_bytes(), (k % 3).to_be_bytes()].concat()));
    s
}

/// A csgp with the given code of the index width (0: 4 bits, 1: 8 bits, 2: 16 bits, 3: 32 bits); counts and lengths have 32 bits.
pub fn csgp(kind: &[u8; 4], code: u8, patterns: &[(u32, Vec<u32>)]) -> Vec<u8> {
    let mut s = [[0, 0, 0, 0x3c | code], *kind, (patterns.len() as u32).to_be_bytes()].concat();
    for (count, indices) in patterns {
        s.extend([(indices.len() as u32).to_be_bytes(), count.to_be_bytes()].concat());
    }
    let indices: Vec<u32> = patterns.iter().flat_map(|(_, indices)| indices.iter().copied()).collect();
    match code {
        0 => s.extend(half_bytes(&indices)),
        1 => s.extend(indices.iter().map(|i| *i as u8)),
        2 => s.extend(indices.iter().flat_map(|i| (*i as u16).to_be_bytes())),
        _ => s.extend(indices.iter().flat_map(|i| i.to_be_bytes())),
    }
    s
}

pub fn half_bytes(indices: &[u32]) -> Vec<u8> {
    indices.chunks(2).map(|pair| (pair[0] << 4 | pair.get(1).unwrap_or(&0)) as u8).collect()
}

/// An sgpd of entries of 4 bytes, by a default length or by a length before each.
pub fn sgpd(count: u32, prefixed: bool) -> Vec<u8> {
    let length = if prefixed { 0 } else { 4u32 };
    let mut s = [[1, 0, 0, 0], *b"abcd", length.to_be_bytes(), count.to_be_bytes()].concat();
    for k in 0..count {
        if prefixed {
            s.extend(4u32.to_be_bytes());
        }
        s.extend(k.to_be_bytes());
    }
    s
}

/// An sgpd of version 1 whose entries have a length before each of them.
pub fn sgpd_of(kind: &[u8; 4], entries: &[Vec<u8>]) -> Vec<u8> {
    let mut s = [[1, 0, 0, 0], *kind, [0; 4], (entries.len() as u32).to_be_bytes()].concat();
    s.extend(entries.iter().flat_map(|e| [&(e.len() as u32).to_be_bytes()[..], e].concat()));
    s
}

/// A rash of so many points (2 or more).
pub fn rash(points: u16) -> Vec<u8> {
    let mut s = points.to_be_bytes().to_vec();
    s.extend((0..6 * points as usize + 9).map(|k| k as u8));
    s
}

/// An alst of so many offsets and pieces.
pub fn alst(offsets: u16, pieces: usize) -> Vec<u8> {
    let mut s = [offsets.to_be_bytes(), [0, 1]].concat();
    s.extend((0..4 * (offsets as usize + pieces)).map(|k| k as u8));
    s
}

/// The same bytes with the last one another.
pub fn odd_end(s: &[u8]) -> Vec<u8> {
    let mut t = s.to_vec();
    *t.last_mut().unwrap() ^= 1;
    t
}

/// The body of an stbl: a csgp and an sgpd.
pub fn body(table: &[u8], sgpd: &[u8]) -> Vec<u8> {
    [atom_of(b"csgp", table), atom_of(b"sgpd", sgpd)].concat()
}
