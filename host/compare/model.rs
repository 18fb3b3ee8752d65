//! Document 01's rules for lookups and scans on bytes and a region count given beside them, read once
//! more: the Rust's view keeps the bytes that it was parsed from, so it can't be asked for others.
//! Where it can be asked, this reading is held against it too.

use crate::inputs::Entry;
use keleusma_wire::ecc::{decode_word, WordStatus};

/// The voted directory; none where the bytes are shorter than that count's header.
fn directory(bytes: &[u8], count: u16) -> Vec<Entry> {
    let copy = 16 * count as usize;
    if bytes.len() < 48 + 3 * copy {
        return Vec::new();
    }
    let vote = |at: usize| -> u8 {
        let copies = [0, 1, 2].map(|i| bytes[48 + i * copy + at]);
        let most = |bit: &u8| copies.iter().filter(|&byte| byte >> bit & 1 == 1).count() >= 2;
        (0..8).filter(most).map(|bit| 1 << bit).sum()
    };
    let number = |at: usize, len: usize| -> u32 {
        (0..len).map(|i| u32::from(vote(at + i)) << (8 * i)).sum()
    };
    (0..count as usize)
        .map(|i| Entry {
            kind: number(16 * i, 2) as u16,
            flags: number(16 * i + 2, 2) as u16,
            word_offset: number(16 * i + 4, 4),
            word_length: number(16 * i + 8, 4),
            covers: number(16 * i + 12, 2) as u16,
        })
        .collect()
}

/// Whether some copy of the prologue, and of the directory, differs from its vote: of an image that
/// has both.
pub fn marks(bytes: &[u8], count: u16) -> [bool; 2] {
    let differ = |base: usize, len: usize| {
        let copy = |i: usize| &bytes[base + i * len..base + (i + 1) * len];
        copy(0) != copy(1) || copy(0) != copy(2)
    };
    [differ(0, 16), differ(48, 16 * count as usize)]
}

pub fn region_at(bytes: &[u8], count: u16, index: u16) -> Option<Entry> {
    directory(bytes, count).get(index as usize).copied()
}

pub fn find_region(bytes: &[u8], count: u16, kind: u16) -> Option<Entry> {
    directory(bytes, count).into_iter().find(|e| e.kind == kind)
}

/// Start and end, where they lie in the bytes.
fn place(bytes: &[u8], e: &Entry) -> Option<(usize, usize)> {
    let start = 8 * e.word_offset as usize;
    let end = start + 8 * e.word_length as usize;
    (end <= bytes.len()).then_some((start, end))
}

/// The plane of a kind: the first entry that is one and covers it.
pub fn ecc_for(bytes: &[u8], count: u16, kind: u16) -> Option<(usize, usize)> {
    let plane = directory(bytes, count).into_iter().find(|e| e.flags & 8 != 0 && e.covers == kind);
    place(bytes, &plane?)
}

/// Words, corrected, uncorrectable.
pub fn verify_region(bytes: &[u8], count: u16, e: &Entry) -> Option<[u64; 3]> {
    let (from, to) = place(bytes, e)?;
    let (start, end) = ecc_for(bytes, count, e.kind)?;
    let mut report = [0; 3];
    for (word, &check) in bytes[from..to].chunks_exact(8).zip(&bytes[start..end]) {
        report[0] += 1;
        match decode_word(u64::from_le_bytes(word.try_into().expect("eight bytes")), check) {
            WordStatus::Clean(_) => {}
            WordStatus::Corrected(_) => report[1] += 1,
            WordStatus::Uncorrectable => report[2] += 1,
        }
    }
    Some(report)
}

pub fn verify_all(bytes: &[u8], count: u16) -> Option<[u64; 3]> {
    directory(bytes, count)
        .iter()
        .filter(|e| e.flags & 8 == 0 && e.flags & 2 != 0)
        .filter_map(|e| verify_region(bytes, count, e))
        .reduce(|a, b| [a[0] + b[0], a[1] + b[1], a[2] + b[2]])
}
