//! Crate `borrowed`: every method of a table, a pool and a plane, beside the Rust's of the same name.
//!
//! Where the Rust makes no table ours is the one without bytes, of stride 0: it has no records.

use crate::answers::{part_numbers, place_in, place_numbers};
use crate::ecc::{damaged, decoded};
use crate::inputs::{edges, edges32, hex};
use crate::tables::{indices, strides};
use crate::{ffi_borrowed as ours, Run};
use keleusma_wire::{EccPlane, EccReport, Pool, RecordTable};

pub fn compare(run: &mut Run) {
    compare_tables(run);
    compare_ranges(run);
    compare_pools(run);
    compare_planes(run);
}

/// Every length 0 to 80 and a few above, every stride; every record, the next two, the largest indices.
fn compare_tables(run: &mut Run) {
    let bytes = run.random.bytes(400);
    let strides = strides();
    let tables = || {
        let lengths = (0..=80).chain([96, 160, 392, 400]).map(|len| &bytes[..len]);
        lengths.flat_map(|bytes| strides.iter().map(move |&stride| (bytes, stride)))
    };
    run.tally.group("borrowed_table", |group| {
        for (bytes, stride) in tables() {
            let rusts = RecordTable::from_bytes(bytes, stride).map_or([0, 1, 0], |table| {
                [table.len() as u64, table.is_empty().into(), table.stride() as u64]
            });
            let input = || format!("{} bytes, stride {stride}", bytes.len());
            group.same(ours::table(bytes, stride), rusts, input);
        }
    });
    run.tally.group("borrowed_record", |group| {
        for (bytes, stride) in tables() {
            let table = RecordTable::from_bytes(bytes, stride);
            let few = || vec![0, 1, usize::MAX];
            for index in table.map_or_else(few, |table| indices(table.len()).collect()) {
                let rusts = numbers(bytes, table.and_then(|table| table.get(index)));
                let input = || format!("{} bytes, stride {stride}, record {index}", bytes.len());
                group.same(ours::record(bytes, stride, index).to_vec(), rusts, input);
            }
        }
    });
}

/// A part's place and its {length, CRC-32}
fn numbers(bytes: &[u8], part: Option<&[u8]>) -> Vec<u64> {
    let place = place_numbers(part.map(|part| place_in(bytes, part)));
    [&place[..], &part_numbers(part)].concat()
}

/// Ranges around every record of tables of none to five records, of bytes that are no table, and at
/// the edges.
fn compare_ranges(run: &mut Run) {
    let bytes = run.random.bytes(80);
    let small = || (0..=7).chain([u32::MAX / 2, u32::MAX - 1, u32::MAX]);
    let at = || (0..=7).chain([1 << 32, usize::MAX / 2, usize::MAX - 1, usize::MAX]);
    run.tally.group("borrowed_range_is_forward", |group| {
        for (len, stride) in (0..=80).flat_map(|len| [0, 8, 12, 16].map(|stride| (len, stride))) {
            let bytes = &bytes[..len];
            let table = RecordTable::from_bytes(bytes, stride);
            for (at, first, count) in at().flat_map(|at| {
                small().flat_map(move |first| small().map(move |count| (at, first, count)))
            }) {
                let rusts = table.is_some_and(|table| table.range_is_forward(at, first, count));
                let ours = ours::range_is_forward(bytes, stride, at, first, count);
                group.same(ours, rusts.into(), || {
                    format!("{len} bytes, stride {stride}, {at}, {first}, {count}")
                });
            }
        }
    });
}

fn compare_pools(run: &mut Run) {
    let bytes = run.random.bytes(40);
    let offsets = || (0..=42).chain(edges32(2));
    run.tally.group("borrowed_pool", |group| {
        for bytes in (0..=40).map(|len| &bytes[..len]) {
            for (offset, size) in offsets().flat_map(|o| offsets().map(move |s| (o, s))) {
                let pool = Pool::from_bytes(bytes);
                assert_eq!(place_in(bytes, pool.bytes()), (0, bytes.len()));
                let mut rusts = part_numbers(Some(pool.bytes())).to_vec();
                rusts.extend(numbers(bytes, pool.slice(offset, size)));
                group.same(ours::pool(bytes, offset, size).to_vec(), rusts, || {
                    format!("{}, {offset}, {size}", hex(bytes))
                });
            }
        }
    });
}

/// Every length of the data up to five words, every length of the plane up to seven bytes.
fn compare_planes(run: &mut Run) {
    let indices = || (0..=9).chain(edges(2).into_iter().map(|at| at as usize));
    run.tally.group("borrowed_plane", |group| {
        for (data_len, plane_len) in (0..=41).flat_map(|d| (0..=7).map(move |p| (d, p))) {
            for _ in 0..run.rounds {
                let (data, parity) = damaged(&mut run.random, data_len, plane_len);
                let plane = EccPlane::new(&parity);
                let EccReport { words, corrected, uncorrectable, .. } = plane.scan(&data);
                for index in indices() {
                    let word = plane.word(&data, index).map(decoded);
                    let mut rusts = part_numbers(Some(plane.bytes())).to_vec();
                    rusts.extend(word.map_or([0; 3], |[how, word]| [1, how, word]));
                    rusts.extend([words, corrected, uncorrectable].map(|n| n as u64));
                    group.same(ours::plane(&parity, &data, index).to_vec(), rusts, || {
                        format!("{}, {}, {index}", hex(&parity), hex(&data))
                    });
                }
            }
        }
    });
}
