//! The functions of libkw_test.a on images: the reader's, those on parts, the scans, scrub. As in
//! `ffi`, nothing is interpreted.

use crate::ffi::{numbers, UNWRITTEN};
use crate::inputs::Entry;

mod c {
    extern "C" {
        pub fn kwt_parse(b: *const u8, len: usize, answer: *mut u64);
        pub fn kwt_region_at(b: *const u8, len: usize, count: u16, index: u16, answer: *mut u64);
        pub fn kwt_find_region(b: *const u8, len: usize, count: u16, kind: u16, answer: *mut u64);
        pub fn kwt_ecc_for(b: *const u8, len: usize, count: u16, kind: u16, answer: *mut u64);
        pub fn kwt_region_span(len: usize, word_offset: u32, word_length: u32, answer: *mut u64);
        pub fn kwt_records_span(
            len: usize,
            word_offset: u32,
            word_length: u32,
            stride: usize,
            answer: *mut u64,
        );
        pub fn kwt_record_place(len: usize, stride: usize, index: usize, answer: *mut u64);
        pub fn kwt_pool_place(len: usize, offset: u32, size: u32, answer: *mut u64);
        pub fn kwt_is_table(b: *const u8, len: usize, stride: usize) -> u32;
        pub fn kwt_record_count(b: *const u8, len: usize, stride: usize) -> usize;
        pub fn kwt_range_is_forward(
            b: *const u8,
            len: usize,
            stride: usize,
            at: usize,
            first: u32,
            count: u32,
        ) -> u32;
        pub fn kwt_region_bytes(
            b: *const u8,
            len: usize,
            word_offset: u32,
            word_length: u32,
            answer: *mut u64,
        );
        pub fn kwt_records_bytes(
            b: *const u8,
            len: usize,
            word_offset: u32,
            word_length: u32,
            stride: usize,
            answer: *mut u64,
        );
        pub fn kwt_record_bytes(
            b: *const u8,
            len: usize,
            stride: usize,
            index: usize,
            answer: *mut u64,
        );
        pub fn kwt_pool_bytes(b: *const u8, len: usize, offset: u32, size: u32, answer: *mut u64);
        pub fn kwt_verify_region(
            b: *const u8,
            len: usize,
            count: u16,
            kind: u16,
            flags: u16,
            word_offset: u32,
            word_length: u32,
            covers: u16,
            answer: *mut u64,
        );
        pub fn kwt_verify_all(b: *const u8, len: usize, count: u16, answer: *mut u64);
        pub fn kwt_scrub(b: *mut u8, len: usize, answer: *mut u64);
    }
}

// Safety: as in `ffi`.

/// {0, count, prologue disagreed, directory disagreed}, or {number, detail, 0, 0}
pub fn parse(b: &[u8]) -> [u64; 4] {
    numbers(|answer| unsafe { c::kwt_parse(b.as_ptr(), b.len(), answer) })
}

/// {1, kind, flags, word offset, word length, covers}, or zeros for nothing
pub fn region_at(b: &[u8], count: u16, index: u16) -> [u64; 6] {
    numbers(|answer| unsafe { c::kwt_region_at(b.as_ptr(), b.len(), count, index, answer) })
}

pub fn find_region(b: &[u8], count: u16, kind: u16) -> [u64; 6] {
    numbers(|answer| unsafe { c::kwt_find_region(b.as_ptr(), b.len(), count, kind, answer) })
}

/// {1, start, end}, or zeros for nothing
pub fn ecc_for(b: &[u8], count: u16, kind: u16) -> [u64; 3] {
    numbers(|answer| unsafe { c::kwt_ecc_for(b.as_ptr(), b.len(), count, kind, answer) })
}

/// {0, start, end}, or {number, detail, 0}
pub fn region_span(len: usize, offset: u32, length: u32) -> [u64; 3] {
    numbers(|answer| unsafe { c::kwt_region_span(len, offset, length, answer) })
}

pub fn records_span(len: usize, offset: u32, length: u32, stride: usize) -> [u64; 3] {
    numbers(|answer| unsafe { c::kwt_records_span(len, offset, length, stride, answer) })
}

/// {1, start, end}, or zeros for nothing
pub fn record_place(len: usize, stride: usize, index: usize) -> [u64; 3] {
    numbers(|answer| unsafe { c::kwt_record_place(len, stride, index, answer) })
}

pub fn pool_place(len: usize, offset: u32, size: u32) -> [u64; 3] {
    numbers(|answer| unsafe { c::kwt_pool_place(len, offset, size, answer) })
}

pub fn is_table(b: &[u8], stride: usize) -> u32 {
    unsafe { c::kwt_is_table(b.as_ptr(), b.len(), stride) }
}

pub fn record_count(b: &[u8], stride: usize) -> usize {
    unsafe { c::kwt_record_count(b.as_ptr(), b.len(), stride) }
}

pub fn range_is_forward(b: &[u8], stride: usize, at: usize, first: u32, count: u32) -> u32 {
    unsafe { c::kwt_range_is_forward(b.as_ptr(), b.len(), stride, at, first, count) }
}

/// {length, CRC-32} of the part, here and in the next three
pub fn region_bytes(b: &[u8], offset: u32, length: u32) -> [u64; 2] {
    numbers(|answer| unsafe { c::kwt_region_bytes(b.as_ptr(), b.len(), offset, length, answer) })
}

pub fn records_bytes(b: &[u8], offset: u32, length: u32, stride: usize) -> [u64; 2] {
    numbers(|answer| unsafe {
        c::kwt_records_bytes(b.as_ptr(), b.len(), offset, length, stride, answer)
    })
}

pub fn record_bytes(b: &[u8], stride: usize, index: usize) -> [u64; 2] {
    numbers(|answer| unsafe { c::kwt_record_bytes(b.as_ptr(), b.len(), stride, index, answer) })
}

pub fn pool_bytes(b: &[u8], offset: u32, size: u32) -> [u64; 2] {
    numbers(|answer| unsafe { c::kwt_pool_bytes(b.as_ptr(), b.len(), offset, size, answer) })
}

/// {1, words, corrected, uncorrectable}, or zeros for nothing
pub fn verify_region(b: &[u8], count: u16, e: Entry) -> [u64; 4] {
    numbers(|answer| unsafe {
        c::kwt_verify_region(
            b.as_ptr(),
            b.len(),
            count,
            e.kind,
            e.flags,
            e.word_offset,
            e.word_length,
            e.covers,
            answer,
        )
    })
}

pub fn verify_all(b: &[u8], count: u16) -> [u64; 4] {
    numbers(|answer| unsafe { c::kwt_verify_all(b.as_ptr(), b.len(), count, answer) })
}

/// The report's numbers, and the bytes afterwards.
pub fn scrub(b: &[u8]) -> ([u64; 4], Vec<u8>) {
    let mut left = Guarded::new(b);
    let answer =
        numbers(|answer| unsafe { c::kwt_scrub(left.bytes().as_mut_ptr(), b.len(), answer) });
    (answer, left.unguarded())
}

/// A copy of some bytes to be written, with guards before and behind it.
pub struct Guarded(Vec<u8>);

const GUARDS: usize = 16;

impl Guarded {
    pub fn new(bytes: &[u8]) -> Self {
        let guards = [UNWRITTEN as u8; GUARDS];
        Guarded([&guards, bytes, &guards].concat())
    }

    pub fn bytes(&mut self) -> &mut [u8] {
        let end = self.0.len() - GUARDS;
        &mut self.0[GUARDS..end]
    }

    pub fn unguarded(mut self) -> Vec<u8> {
        let behind = self.0.split_off(self.0.len() - GUARDS);
        let bytes = self.0.split_off(GUARDS);
        let guards = self.0.iter().chain(&behind);
        assert!(guards.copied().all(|b| b == UNWRITTEN as u8), "a call wrote beside its bytes");
        bytes
    }
}
