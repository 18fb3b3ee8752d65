//! Crate `tables`: places and parts of regions, record tables, records, pools.

use crate::answers::{part_numbers, place_in, place_numbers, span_numbers};
use crate::inputs::{edges, edges32, hex, image, Entry, RegionMaker};
use crate::tally::Group;

use crate::{ffi_reader as ours, Run};
use keleusma_wire::{Pool, RecordTable, WireView};

pub fn compare(run: &mut Run) {
    compare_regions(run);
    compare_tables(run);
    compare_strides_by_hand(run);
    compare_ranges(run);
    compare_pools(run);
}

/// Strides around and far from those that are taken.
pub fn strides() -> Vec<usize> {
    let mut all: Vec<usize> = (0..=33).chain([40, 48, 64, 72, 128, 400, 408]).collect();
    all.extend(edges(1).into_iter().map(|n| n as usize));
    all.extend((3..64).map(|bit| (1usize << bit) - 8));
    all.sort_unstable();
    all.dedup();
    all
}

/// A region's and a table's place and bytes in an image of every length 48 to 120, at offsets and
/// lengths around its end, at the edges, and where eight times their sum leaves 32 bits.
fn compare_regions(run: &mut Run) {
    let maker = RegionMaker::new();
    let numbers = || (0..=17).chain(edges32(1));
    let strides = strides();
    let mut image = image(&[], 120);
    image[48..].copy_from_slice(&run.random.bytes(72));
    run.tally.group("region_bytes", |group| {
        for len in 48..=120 {
            for (offset, length) in numbers().flat_map(|o| numbers().map(move |l| (o, l))) {
                same_region(group, &maker, &image[..len], offset, length);
            }
        }
    });
    run.tally.group("records", |group| {
        for len in 112..=120 {
            for (offset, length) in (0..=16).flat_map(|o| (0..=16).map(move |l| (o, l))) {
                for &stride in &strides {
                    same_records(group, &maker, &image[..len], (offset, length), stride);
                }
            }
        }
        for (offset, length) in numbers().flat_map(|o| numbers().map(move |l| (o, l))) {
            for stride in [0, 7, 8, 24, usize::MAX - 7] {
                same_records(group, &maker, &image, (offset, length), stride);
            }
        }
    });
}

fn same_region(group: &mut Group, maker: &RegionMaker, bytes: &[u8], offset: u32, length: u32) {
    let view = WireView::parse(bytes).expect("it has no regions");
    let region = Entry { word_offset: offset, word_length: length, ..Entry::default() };
    let rusts = view.region_bytes(&maker.with(region));
    let input = || format!("{} bytes, {offset}, {length}", bytes.len());
    group.same(ours::region_span(bytes.len(), offset, length), span_numbers(bytes, &rusts), input);
    group.same(ours::region_bytes(bytes, offset, length), part_numbers(rusts.ok()), input);
    // a pool is the same part
    let pool = view.pool(&maker.with(region)).map(|pool| pool.bytes());
    group.same(ours::region_span(bytes.len(), offset, length), span_numbers(bytes, &pool), input);
}

/// The view's table hides its bytes; that it is the region's is seen by making one of those.
fn same_records(
    group: &mut Group,
    maker: &RegionMaker,
    bytes: &[u8],
    (offset, length): (u32, u32),
    stride: usize,
) {
    let view = WireView::parse(bytes).expect("it has no regions");
    let region = maker.with(Entry { word_offset: offset, word_length: length, ..Entry::default() });
    let rusts = view.records(&region, stride).map(|table| {
        let part = view.region_bytes(&region).expect("a table has bytes");
        assert_eq!(Some(table), RecordTable::from_bytes(part, stride));
        part
    });
    let input = || format!("{} bytes, {offset}, {length}, stride {stride}", bytes.len());
    let span = ours::records_span(bytes.len(), offset, length, stride);
    group.same(span, span_numbers(bytes, &rusts), input);
    group.same(ours::records_bytes(bytes, offset, length, stride), part_numbers(rusts.ok()), input);
}

/// Bytes in hand as a table: every length 0 to 80; every record, the next two, the largest indices.
fn compare_tables(run: &mut Run) {
    let bytes = run.random.bytes(400);
    let strides = strides();
    let lengths = (0..=80).chain([96, 160, 392, 400]);
    run.tally.group("record_table", |group| {
        for bytes in lengths.map(|len| &bytes[..len]) {
            for &stride in &strides {
                let rusts = RecordTable::from_bytes(bytes, stride);
                let input = || format!("{} bytes, stride {stride}", bytes.len());
                group.same(ours::is_table(bytes, stride), rusts.is_some().into(), input);
                let Some(table) = rusts else { continue };
                group.same(ours::record_count(bytes, stride), table.len(), input);
                for index in indices(table.len()) {
                    same_record(group, bytes, stride, index, table.get(index));
                }
            }
        }
    });
}

pub fn indices(count: usize) -> impl Iterator<Item = usize> {
    (0..count + 3).chain(edges(1).into_iter().map(|n| n as usize))
}

fn same_record(g: &mut Group, bytes: &[u8], stride: usize, index: usize, rusts: Option<&[u8]>) {
    let input = || format!("{} bytes, stride {stride}, record {index}", bytes.len());
    let place = place_numbers(rusts.map(|part| place_in(bytes, part)));
    g.same(ours::record_place(bytes.len(), stride, index), place, input);
    g.same(ours::record_bytes(bytes, stride, index), part_numbers(rusts), input);
}

/// Strides that the Rust makes no table of, held against docs/FORMAT.md: record i is at i x stride, and a
/// stride of 0 has no records.
fn compare_strides_by_hand(run: &mut Run) {
    let bytes = run.random.bytes(60);
    let strides = strides();
    run.tally.group("record_by_hand", |group| {
        for bytes in (0..=60).map(|len| &bytes[..len]) {
            for &stride in strides.iter().filter(|s| RecordTable::from_bytes(bytes, **s).is_none())
            {
                let count = bytes.len().checked_div(stride).unwrap_or(0);
                let input = || format!("{} bytes, stride {stride}", bytes.len());
                group.same(ours::record_count(bytes, stride), count, input);
                for index in indices(count.min(4)) {
                    let record = |start: usize| bytes.get(start..start.checked_add(stride)?);
                    let record = index.checked_mul(stride).filter(|_| stride > 0).and_then(record);
                    same_record(group, bytes, stride, index, record);
                }
            }
        }
    });
}

/// Ranges around every record of tables of none to five records, and at the edges.
fn compare_ranges(run: &mut Run) {
    let bytes = run.random.bytes(80);
    let small = || (0..=7).chain([u32::MAX / 2, u32::MAX - 1, u32::MAX]);
    let at = || (0..=7).chain([1 << 32, usize::MAX / 2, usize::MAX - 1, usize::MAX]);
    run.tally.group("range_is_forward", |group| {
        for (records, stride) in (0..=5).flat_map(|n| [8, 16].map(move |stride| (n, stride))) {
            let bytes = &bytes[..records * stride];
            let table = RecordTable::from_bytes(bytes, stride).expect("whole records");
            for (at, first, count) in at().flat_map(|at| {
                small().flat_map(move |first| small().map(move |count| (at, first, count)))
            }) {
                let ours = ours::range_is_forward(bytes, stride, at, first, count);
                group.same(ours, table.range_is_forward(at, first, count).into(), || {
                    format!("{records} records of {stride}, {at}, {first}, {count}")
                });
            }
        }
    });
}

fn compare_pools(run: &mut Run) {
    let bytes = run.random.bytes(40);
    let numbers = || (0..=42).chain(edges32(2));
    run.tally.group("pool", |group| {
        for bytes in (0..=40).map(|len| &bytes[..len]) {
            for (offset, size) in numbers().flat_map(|o| numbers().map(move |s| (o, s))) {
                let rusts = Pool::from_bytes(bytes).slice(offset, size);
                let input = || format!("{}, {offset}, {size}", hex(bytes));
                let place = place_numbers(rusts.map(|part| place_in(bytes, part)));
                group.same(ours::pool_place(bytes.len(), offset, size), place, input);
                group.same(ours::pool_bytes(bytes, offset, size), part_numbers(rusts), input);
            }
        }
    });
}
