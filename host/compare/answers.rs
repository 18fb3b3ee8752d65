//! The Rust's answers as the numbers that stand for them in C.

use crate::inputs::Entry;
use crate::model;
use keleusma_wire::{crc32, EccReport, Region, WireError, WireView};

/// The number and detail of FORMAT 2.
fn refusal(error: &WireError) -> [u64; 2] {
    match *error {
        WireError::Truncated => [1, 0],
        WireError::BadMagic => [2, 0],
        WireError::ForeignEndian => [3, 0],
        WireError::UnsupportedVersion { found } => [4, found.into()],
        WireError::BadPrologueChecksum => [5, 0],
        WireError::TooManyRegions { found } => [6, found.into()],
        WireError::RegionOutOfBounds { index } => [7, index.into()],
        WireError::DuplicateRegion { kind } => [8, kind.into()],
        WireError::BadRecordStride => [9, 0],
        WireError::Overflow => [10, 0],
        WireError::TooLarge => [11, 0],
        _ => panic!("a refusal that docs/FORMAT.md doesn't have"),
    }
}

/// {0, count, prologue disagreed, directory disagreed}, or {number, detail, 0, 0}
pub fn parse_numbers(bytes: &[u8], parsed: &Result<WireView, WireError>) -> [u64; 4] {
    match parsed {
        Ok(view) => {
            let [prologue, directory] = marks(bytes, view);
            [0, view.region_count().into(), prologue.into(), directory.into()]
        }
        Err(error) => {
            let [number, detail] = refusal(error);
            [number, detail, 0, 0]
        }
    }
}

/// Which copies disagreed. The view hides it, but the text that `Debug` makes of it tells, where it
/// isn't too long.
fn marks(bytes: &[u8], view: &WireView) -> [bool; 2] {
    let read = model::marks(bytes, view.region_count());
    assert_eq!(view.needs_scrub(), read[0] || read[1]);
    if bytes.len() < 200 {
        let text = format!("{view:?}");
        let said = ["prologue_disagreed: true", "directory_disagreed: true"];
        assert_eq!(said.map(|words| text.contains(words)), read);
    }
    read
}

/// What libkw.a answers to a parse: a number, and {count, scrub wanted} or {detail, 0}.
pub fn api_numbers([number, first, prologue, directory]: [u64; 4]) -> (u32, [u64; 2]) {
    (number as u32, [first, if number == 0 { prologue | directory } else { 0 }])
}

/// What a call of libkw.a that refuses as parse does answers: a number, and the numbers of an accepted
/// image or {detail, 0, ..}.
pub fn api_answer<const N: usize>(
    parsed: &Result<WireView, WireError>,
    accepted: impl Fn(&WireView) -> [u64; N],
) -> (u32, [u64; N]) {
    match parsed {
        Ok(view) => (0, accepted(view)),
        Err(error) => {
            let [number, detail] = refusal(error);
            let mut answer = [0; N];
            answer[0] = detail;
            (number as u32, answer)
        }
    }
}

pub fn api_scan(parsed: &Result<WireView, WireError>) -> (u32, [u64; 4]) {
    api_answer(parsed, |view| report_numbers(view.verify_all()))
}

/// {1, first byte, byte past the last, flags}, or zeros for nothing
pub fn api_place(view: &WireView, found: Option<Region>) -> [u64; 4] {
    found.map_or([0; 4], |region| {
        let [first, past] = bounds(view, &region);
        [1, first, past, region.flags.into()]
    })
}

/// {1, kind, flags, first byte, byte past the last, covers}, or zeros for nothing
pub fn api_entry(view: &WireView, found: Option<Region>) -> [u64; 6] {
    found.map_or([0; 6], |region| {
        let [first, past] = bounds(view, &region);
        let [kind, flags, covers] = [region.kind, region.flags, region.covers].map(u64::from);
        [1, kind, flags, first, past, covers]
    })
}

/// Where the bytes stand that the Rust gives for a region.
fn bounds(view: &WireView, region: &Region) -> [u64; 2] {
    let part = view.region_bytes(region).expect("parse accepted the region");
    let (first, past) = place_in(view.bytes(), part);
    [first, past].map(|place| place as u64)
}

pub fn entry(region: Region) -> Entry {
    Entry {
        kind: region.kind,
        flags: region.flags,
        word_offset: region.word_offset,
        word_length: region.word_length,
        covers: region.covers,
    }
}

/// {1, kind, flags, word offset, word length, covers}, or zeros for nothing
pub fn entry_numbers(found: Option<Entry>) -> [u64; 6] {
    found.map_or([0; 6], |e| {
        let [kind, flags, covers] = [e.kind, e.flags, e.covers].map(u64::from);
        [1, kind, flags, e.word_offset.into(), e.word_length.into(), covers]
    })
}

/// {1, start, end}, or zeros for nothing
pub fn place_numbers(found: Option<(usize, usize)>) -> [u64; 3] {
    found.map_or([0; 3], |(start, end)| [1, start as u64, end as u64])
}

/// Where a part of the bytes starts and ends, by its address.
pub fn place_in(bytes: &[u8], part: &[u8]) -> (usize, usize) {
    let start = part.as_ptr() as usize - bytes.as_ptr() as usize;
    assert!(start + part.len() <= bytes.len(), "no part of the bytes");
    (start, start + part.len())
}

/// {0, start, end}, or {number, detail, 0}
pub fn span_numbers(bytes: &[u8], part: &Result<&[u8], WireError>) -> [u64; 3] {
    match part {
        Ok(part) => {
            let (start, end) = place_in(bytes, part);
            [0, start as u64, end as u64]
        }
        Err(error) => {
            let [number, detail] = refusal(error);
            [number, detail, 0]
        }
    }
}

/// {length, CRC-32}; no part has no bytes
pub fn part_numbers(part: Option<&[u8]>) -> [u64; 2] {
    let part = part.unwrap_or(&[]);
    [part.len() as u64, crc32(part).into()]
}

/// {1, words, corrected, uncorrectable}, or zeros for nothing
pub fn report_numbers(report: Option<EccReport>) -> [u64; 4] {
    three_numbers(report.map(|r| [r.words, r.corrected, r.uncorrectable].map(|n| n as u64)))
}

pub fn three_numbers(counts: Option<[u64; 3]>) -> [u64; 4] {
    counts.map_or([0; 4], |[words, corrected, uncorrectable]| [1, words, corrected, uncorrectable])
}
