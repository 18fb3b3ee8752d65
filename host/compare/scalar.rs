//! Crate `scalar`: the readers at an offset, the byte writers, the majority of three bytes.

use crate::inputs::{contents, edges, hex, numbers};
use crate::{ffi, Run};
use keleusma_wire::scalar as rust;

pub fn compare(run: &mut Run) {
    compare_reads(run, "u8_at", ffi::u8_at, |b, at| pair(rust::u8_at(b, at)));
    compare_reads(run, "u16_at", ffi::u16_at, |b, at| pair(rust::u16_at(b, at)));
    compare_reads(run, "u32_at", ffi::u32_at, |b, at| pair(rust::u32_at(b, at)));
    compare_reads(run, "u64_at", ffi::u64_at, |b, at| pair(rust::u64_at(b, at)));
    compare_short_writes(run);
    compare_long_writes(run);
    compare_maj3(run);
}

type Read = fn(&[u8], usize) -> [u64; 2];

/// The pair that stands for an answer in C.
fn pair<T: Into<u64>>(answer: Option<T>) -> [u64; 2] {
    answer.map_or([0, 0], |value| [1, value.into()])
}

/// Every length 0 to 20, at every offset 0 to 40 and at the edges up to the largest.
fn compare_reads(run: &mut Run, name: &'static str, ours: Read, rusts: Read) {
    let mut offsets: Vec<usize> =
        (0..=40).chain(edges(9).into_iter().map(|at| at as usize)).collect();
    offsets.sort_unstable();
    offsets.dedup();
    run.tally.group(name, |group| {
        for len in 0..=20 {
            let windowed = contents(&mut run.random, len + 8, 8 * run.rounds);
            for (start, window) in (0..8).cycle().zip(windowed) {
                // A part of a longer run, at each alignment: a byte beside it could be misread.
                let bytes = &window[start..start + len];
                for &at in &offsets {
                    group.same(ours(bytes, at), rusts(bytes, at), || {
                        format!("{}, {at}", hex(bytes))
                    });
                }
            }
        }
    });
}

/// Every value.
fn compare_short_writes(run: &mut Run) {
    run.tally.group("u8_bytes", |group| {
        for v in 0..=u8::MAX {
            group.same(ffi::u8_bytes(v), rust::u8_bytes(v), || format!("{v}"));
        }
    });
    run.tally.group("u16_bytes", |group| {
        for v in 0..=u16::MAX {
            group.same(ffi::u16_bytes(v), rust::u16_bytes(v), || format!("{v}"));
        }
    });
}

fn compare_long_writes(run: &mut Run) {
    let randoms = 100_000 * run.rounds;
    run.tally.group("u32_bytes", |group| {
        for v in numbers(&mut run.random, 300, randoms).map(|v| v as u32) {
            group.same(ffi::u32_bytes(v), rust::u32_bytes(v), || format!("{v}"));
        }
    });
    run.tally.group("u64_bytes", |group| {
        for v in numbers(&mut run.random, 300, randoms) {
            group.same(ffi::u64_bytes(v), rust::u64_bytes(v), || format!("{v}"));
        }
    });
}

/// Every triple of bytes.
fn compare_maj3(run: &mut Run) {
    run.tally.group("maj3", |group| {
        for triple in 0..1u32 << 24 {
            let [a, b, c, _] = triple.to_le_bytes();
            group.same(ffi::maj3(a, b, c), rust::maj3(a, b, c), || format!("{a}, {b}, {c}"));
        }
    });
}
