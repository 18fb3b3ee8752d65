//! Document 01's Mend, read without a look at our mend: positions of bytes and what becomes of each.
//! The Rust has no mend; it is asked for what FORMAT 10 takes from it, parse, decoding and scrub.

use crate::answers::{api_scan, report_numbers};
use crate::inputs::Entry;
use keleusma_wire::ecc::{check_byte, decode_word, WordStatus};
use keleusma_wire::WireView;

/// A number, the answer's numbers, and the bytes afterwards.
pub type Mending = (u32, [u64; 6], Vec<u8>);

pub fn mend(bytes: &[u8]) -> Mending {
    let parsed = WireView::parse(bytes);
    let Ok(view) = &parsed else {
        let (number, answer) = api_scan(&parsed);
        return refused(bytes, number, answer[0]);
    };
    let count = view.region_count() as usize;
    let mut left = bytes.to_vec();
    vote(&mut left[..48]);
    vote(&mut left[48..48 + 48 * count]);
    let entries: Vec<Entry> = left[48..].chunks(16).take(count).map(entry).collect();
    if let Some(named) = not_apart(&entries, bytes.len()) {
        return refused(bytes, 12, named as u64);
    }
    let (mut words, mut corrected, mut uncorrectable) = (0, 0, 0);
    for (word, check) in examined(&entries) {
        words += 1;
        match decode_word(word_at(bytes, word), bytes[check]) {
            WordStatus::Clean(_) => {}
            WordStatus::Corrected(value) => {
                corrected += 1;
                left[word..word + 8].copy_from_slice(&value.to_le_bytes());
                left[check] = check_byte(value);
            }
            WordStatus::Uncorrectable => uncorrectable += 1,
        }
    }
    let report = u64::from(covered(&entries).next().is_some());
    if count <= 12 {
        beside_scrub(bytes, &left, &entries, [report, words, corrected, uncorrectable]);
    }
    let stored = left.iter().zip(bytes).filter(|(new, old)| new != old).count() as u64;
    let whole = u64::from(report == 1 && uncorrectable == 0);
    (0, [report, words, corrected, uncorrectable, stored, whole], left)
}

fn refused(bytes: &[u8], number: u32, detail: u64) -> Mending {
    (number, [detail, 0, 0, 0, 0, 0], bytes.to_vec())
}

/// Three copies become the value that most of them have, bit by bit.
fn vote(copies: &mut [u8]) {
    let one = copies.len() / 3;
    for (at, bit) in (0..one).flat_map(|at| (0..8).map(move |bit| (at, 1u8 << bit))) {
        let places = [at, at + one, at + 2 * one];
        let ones = places.iter().filter(|&&place| copies[place] & bit != 0).count();
        for place in places {
            if ones >= 2 {
                copies[place] |= bit;
            } else {
                copies[place] &= !bit;
            }
        }
    }
}

fn entry(bytes: &[u8]) -> Entry {
    let number = |at: usize, len: usize| -> u32 {
        (0..len).map(|i| u32::from(bytes[at + i]) << (8 * i)).sum()
    };
    Entry {
        kind: number(0, 2) as u16,
        flags: number(2, 2) as u16,
        word_offset: number(4, 4),
        word_length: number(8, 4),
        covers: number(12, 2) as u16,
    }
}

/// The first entry with bytes that starts inside the header or has a byte of an earlier one.
fn not_apart(entries: &[Entry], len: usize) -> Option<usize> {
    let mut taken = vec![false; len];
    entries.iter().position(|e| {
        let start = 8 * e.word_offset as usize;
        let mut bytes = start..start + 8 * e.word_length as usize;
        let meets = bytes.clone().any(|place| taken[place]);
        bytes.clone().for_each(|place| taken[place] = true);
        bytes.next().is_some_and(|first| first < 48 + 48 * entries.len()) || meets
    })
}

/// Each region that the whole scan visits, with its plane.
fn covered(entries: &[Entry]) -> impl Iterator<Item = (&Entry, &Entry)> {
    entries.iter().filter(|e| e.flags & 8 == 0 && e.flags & 2 == 2).filter_map(|e| {
        let plane = entries.iter().find(|p| p.flags & 8 == 8 && p.covers == e.kind)?;
        Some((e, plane))
    })
}

/// Where each examined word stands, and its check byte.
fn examined(entries: &[Entry]) -> Vec<(usize, usize)> {
    let words = covered(entries).flat_map(|(e, plane)| {
        let words = (e.word_length as usize).min(8 * plane.word_length as usize);
        let (word, check) = (8 * e.word_offset as usize, 8 * plane.word_offset as usize);
        (0..words).map(move |w| (word + 8 * w, check + w))
    });
    words.collect()
}

fn word_at(bytes: &[u8], at: usize) -> u64 {
    (0..8).map(|i| u64::from(bytes[at + i]) << (8 * i)).sum()
}

/// Scrub's report is the same, and so are its bytes, but for the header and the check bytes, which
/// it leaves. Where there are many regions the Rust's scrub takes too long to ask.
fn beside_scrub(bytes: &[u8], left: &[u8], entries: &[Entry], report: [u64; 4]) {
    let mut scrubbed = bytes.to_vec();
    assert_eq!(report_numbers(keleusma_wire::scrub(&mut scrubbed)), report);
    let header = 48 + 48 * entries.len();
    assert_eq!(scrubbed[..header], bytes[..header]);
    scrubbed[..header].copy_from_slice(&left[..header]);
    for (_, check) in examined(entries) {
        assert_eq!(scrubbed[check], bytes[check]);
        scrubbed[check] = left[check];
    }
    assert_eq!(scrubbed, left);
}
