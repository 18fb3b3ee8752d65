//! The functions of libkw.a, as C firmware calls them. As in `ffi`, nothing is interpreted.

use crate::ffi::numbers;
use crate::ffi_reader::Guarded;

mod c {
    extern "C" {
        pub fn kw_parse(image: *const u8, len: usize, answer: *mut u64) -> u32;
        pub fn kw_region(image: *const u8, len: usize, kind: u16, answer: *mut u64) -> u32;
        pub fn kw_region_at(image: *const u8, len: usize, index: u32, answer: *mut u64) -> u32;
        pub fn kw_scan(image: *const u8, len: usize, answer: *mut u64) -> u32;
        pub fn kw_scrub(image: *mut u8, len: usize, answer: *mut u64) -> u32;
        pub fn kw_mend(image: *mut u8, len: usize, answer: *mut u64) -> u32;
    }
}

// Safety: as in `ffi`; include/kw.h says how long each answer is.

pub fn parse(image: &[u8]) -> (u32, [u64; 2]) {
    let mut number = 0;
    let answer = numbers(|answer| unsafe {
        number = c::kw_parse(image.as_ptr(), image.len(), answer);
    });
    (number, answer)
}

pub fn region(image: &[u8], kind: u16) -> (u32, [u64; 4]) {
    let mut number = 0;
    let answer = numbers(|answer| unsafe {
        number = c::kw_region(image.as_ptr(), image.len(), kind, answer);
    });
    (number, answer)
}

pub fn region_at(image: &[u8], index: u32) -> (u32, [u64; 6]) {
    let mut number = 0;
    let answer = numbers(|answer| unsafe {
        number = c::kw_region_at(image.as_ptr(), image.len(), index, answer);
    });
    (number, answer)
}

pub fn scan(image: &[u8]) -> (u32, [u64; 4]) {
    let mut number = 0;
    let answer = numbers(|answer| unsafe {
        number = c::kw_scan(image.as_ptr(), image.len(), answer);
    });
    (number, answer)
}

/// Writes to the image itself.
pub fn scrub_in_place(image: &mut [u8]) -> (u32, [u64; 4]) {
    let mut number = 0;
    let answer = numbers(|answer| unsafe {
        number = c::kw_scrub(image.as_mut_ptr(), image.len(), answer);
    });
    (number, answer)
}

/// The number, the answer, and the bytes afterwards.
pub fn scrub(image: &[u8]) -> (u32, [u64; 4], Vec<u8>) {
    let mut left = Guarded::new(image);
    let (number, answer) = scrub_in_place(left.bytes());
    (number, answer, left.unguarded())
}

/// Writes to the image itself.
pub fn mend_in_place(image: &mut [u8]) -> (u32, [u64; 6]) {
    let mut number = 0;
    let answer = numbers(|answer| unsafe {
        number = c::kw_mend(image.as_mut_ptr(), image.len(), answer);
    });
    (number, answer)
}

/// The number, the answer, and the bytes afterwards.
pub fn mend(image: &[u8]) -> (u32, [u64; 6], Vec<u8>) {
    let mut left = Guarded::new(image);
    let (number, answer) = mend_in_place(left.bytes());
    (number, answer, left.unguarded())
}
