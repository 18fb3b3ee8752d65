//! The functions of libkw_test.a on values that hold bytes. As in `ffi`, nothing is interpreted.

use crate::ffi::numbers;

mod c {
    extern "C" {
        pub fn kwt_borrowed_table(b: *const u8, len: usize, stride: usize, answer: *mut u64);
        pub fn kwt_borrowed_record(
            b: *const u8,
            len: usize,
            stride: usize,
            index: usize,
            answer: *mut u64,
        );
        pub fn kwt_borrowed_forward(
            b: *const u8,
            len: usize,
            stride: usize,
            at: usize,
            first: u32,
            count: u32,
        ) -> u32;
        pub fn kwt_borrowed_pool(
            b: *const u8,
            len: usize,
            offset: u32,
            size: u32,
            answer: *mut u64,
        );
        pub fn kwt_borrowed_plane(
            parity: *const u8,
            parity_len: usize,
            data: *const u8,
            data_len: usize,
            index: usize,
            answer: *mut u64,
        );
    }
}

/// {len, is_empty, stride} of the table that is made of the bytes
pub fn table(b: &[u8], stride: usize) -> [u64; 3] {
    numbers(|answer| unsafe { c::kwt_borrowed_table(b.as_ptr(), b.len(), stride, answer) })
}

/// Its record's place, and {length, CRC-32} of the record
pub fn record(b: &[u8], stride: usize, index: usize) -> [u64; 5] {
    numbers(|answer| unsafe { c::kwt_borrowed_record(b.as_ptr(), b.len(), stride, index, answer) })
}

pub fn range_is_forward(b: &[u8], stride: usize, at: usize, first: u32, count: u32) -> u32 {
    unsafe { c::kwt_borrowed_forward(b.as_ptr(), b.len(), stride, at, first, count) }
}

/// {length, CRC-32} of the pool's bytes, a part's place, and {length, CRC-32} of the part
pub fn pool(b: &[u8], offset: u32, size: u32) -> [u64; 7] {
    numbers(|answer| unsafe { c::kwt_borrowed_pool(b.as_ptr(), b.len(), offset, size, answer) })
}

/// {length, CRC-32} of the plane's bytes, a word's three numbers, and a scan's
pub fn plane(parity: &[u8], data: &[u8], index: usize) -> [u64; 8] {
    numbers(|answer| unsafe {
        let (p, d) = (parity.as_ptr(), data.as_ptr());
        c::kwt_borrowed_plane(p, parity.len(), d, data.len(), index, answer)
    })
}
