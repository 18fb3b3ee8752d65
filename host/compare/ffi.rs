//! The functions of libkw_test.a, each behind a safe wrapper that hands back its raw numbers.
//!
//! Nothing is interpreted here: where C writes {1, value} or {0, 0}, the wrapper gives that pair,
//! so that a stray value beside a "nothing" is seen as a difference.

mod c {
    extern "C" {
        pub fn kwt_u8_at(b: *const u8, len: usize, at: usize, answer: *mut u64);
        pub fn kwt_u16_at(b: *const u8, len: usize, at: usize, answer: *mut u64);
        pub fn kwt_u32_at(b: *const u8, len: usize, at: usize, answer: *mut u64);
        pub fn kwt_u64_at(b: *const u8, len: usize, at: usize, answer: *mut u64);
        pub fn kwt_u8_bytes(v: u8, out: *mut u8);
        pub fn kwt_u16_bytes(v: u16, out: *mut u8);
        pub fn kwt_u32_bytes(v: u32, out: *mut u8);
        pub fn kwt_u64_bytes(v: u64, out: *mut u8);
        pub fn kwt_maj3(a: u8, b: u8, c: u8) -> u8;
        pub fn kwt_crc32(b: *const u8, len: usize) -> u32;
        pub fn kwt_words_for(bytes: usize, answer: *mut u64);
        pub fn kwt_header_bytes(count: usize, answer: *mut u64);
        pub fn kwt_region(
            kind: u16,
            flags: u16,
            word_offset: u32,
            word_length: u32,
            covers: u16,
            answer: *mut u64,
        );
        pub fn kwt_plane_kind_for(kind: u16) -> u16;
        pub fn kwt_check_byte(data: u64) -> u8;
        pub fn kwt_decode_word(data: u64, check: u8, answer: *mut u64);
        pub fn kwt_plane_word(
            parity: *const u8,
            parity_len: usize,
            data: *const u8,
            data_len: usize,
            index: usize,
            answer: *mut u64,
        );
        pub fn kwt_plane_scan(
            parity: *const u8,
            parity_len: usize,
            data: *const u8,
            data_len: usize,
            answer: *mut u64,
        );
        pub fn kwt_report(words: usize, corrected: usize, uncorrectable: usize, answer: *mut u64);
    }
}

/// What a lent number or byte holds before the call. A callee must write all of its answer; what it
/// leaves out keeps this value and so differs from the Rust's.
pub const UNWRITTEN: u64 = 0xA5A5_A5A5_A5A5_A5A5;

/// Lends room for `N` numbers; as many guards stand behind them.
pub fn numbers<const N: usize>(call: impl FnOnce(*mut u64)) -> [u64; N] {
    let mut room = [[UNWRITTEN; N]; 2];
    call(room.as_mut_ptr().cast());
    assert!(room[1] == [UNWRITTEN; N], "a call wrote past its answer");
    room[0]
}

/// Lends room for `N` bytes; as many guards stand behind them.
fn bytes<const N: usize>(call: impl FnOnce(*mut u8)) -> [u8; N] {
    let mut room = [[UNWRITTEN as u8; N]; 2];
    call(room.as_mut_ptr().cast());
    assert!(room[1] == [UNWRITTEN as u8; N], "a call wrote past its bytes");
    room[0]
}

// Safety, here and below: a slice's pointer and length describe memory that may be read, and the
// room lent for an answer is as large as tests/kw_test.h says that the callee writes.

pub fn u8_at(b: &[u8], at: usize) -> [u64; 2] {
    numbers(|answer| unsafe { c::kwt_u8_at(b.as_ptr(), b.len(), at, answer) })
}

pub fn u16_at(b: &[u8], at: usize) -> [u64; 2] {
    numbers(|answer| unsafe { c::kwt_u16_at(b.as_ptr(), b.len(), at, answer) })
}

pub fn u32_at(b: &[u8], at: usize) -> [u64; 2] {
    numbers(|answer| unsafe { c::kwt_u32_at(b.as_ptr(), b.len(), at, answer) })
}

pub fn u64_at(b: &[u8], at: usize) -> [u64; 2] {
    numbers(|answer| unsafe { c::kwt_u64_at(b.as_ptr(), b.len(), at, answer) })
}

pub fn u8_bytes(v: u8) -> [u8; 1] {
    bytes(|out| unsafe { c::kwt_u8_bytes(v, out) })
}

pub fn u16_bytes(v: u16) -> [u8; 2] {
    bytes(|out| unsafe { c::kwt_u16_bytes(v, out) })
}

pub fn u32_bytes(v: u32) -> [u8; 4] {
    bytes(|out| unsafe { c::kwt_u32_bytes(v, out) })
}

pub fn u64_bytes(v: u64) -> [u8; 8] {
    bytes(|out| unsafe { c::kwt_u64_bytes(v, out) })
}

pub fn maj3(a: u8, b: u8, c: u8) -> u8 {
    unsafe { c::kwt_maj3(a, b, c) }
}

pub fn crc32(b: &[u8]) -> u32 {
    unsafe { c::kwt_crc32(b.as_ptr(), b.len()) }
}

pub fn words_for(bytes: usize) -> [u64; 2] {
    numbers(|answer| unsafe { c::kwt_words_for(bytes, answer) })
}

pub fn header_bytes(count: usize) -> [u64; 2] {
    numbers(|answer| unsafe { c::kwt_header_bytes(count, answer) })
}

/// {byte offset, byte length, is encrypted, is an ECC plane, has ECC}
pub fn region(kind: u16, flags: u16, offset: u32, length: u32, covers: u16) -> [u64; 5] {
    numbers(|answer| unsafe { c::kwt_region(kind, flags, offset, length, covers, answer) })
}

pub fn plane_kind_for(kind: u16) -> u16 {
    unsafe { c::kwt_plane_kind_for(kind) }
}

pub fn check_byte(data: u64) -> u8 {
    unsafe { c::kwt_check_byte(data) }
}

/// {0 clean or 1 corrected, word}, or {2, 0} for uncorrectable
pub fn decode_word(data: u64, check: u8) -> [u64; 2] {
    numbers(|answer| unsafe { c::kwt_decode_word(data, check, answer) })
}

/// {1, the two numbers of a decoded word}, or {0, 0, 0} for nothing
pub fn plane_word(parity: &[u8], data: &[u8], index: usize) -> [u64; 3] {
    let (plane, bytes) = (parity.as_ptr(), data.as_ptr());
    numbers(|answer| unsafe {
        c::kwt_plane_word(plane, parity.len(), bytes, data.len(), index, answer)
    })
}

/// {words, corrected, uncorrectable}
pub fn plane_scan(parity: &[u8], data: &[u8]) -> [u64; 3] {
    let (plane, bytes) = (parity.as_ptr(), data.as_ptr());
    numbers(|answer| unsafe { c::kwt_plane_scan(plane, parity.len(), bytes, data.len(), answer) })
}

/// {is clean, needs scrub}
pub fn report(words: usize, corrected: usize, uncorrectable: usize) -> [u64; 2] {
    numbers(|answer| unsafe { c::kwt_report(words, corrected, uncorrectable, answer) })
}
