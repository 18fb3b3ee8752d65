//! Crate `layout`: words for some bytes, the header's length, a region's byte numbers and flags.

use crate::inputs::{edges32, numbers, Entry, RegionMaker};
use crate::tally::Group;
use crate::{ffi, Run};
use keleusma_wire::layout as rust;

pub fn compare(run: &mut Run) {
    compare_sizes(run, "words_for", ffi::words_for, rust::words_for);
    compare_sizes(run, "header_bytes", ffi::header_bytes, rust::header_bytes);
    compare_regions(run);
}

type Size = fn(usize) -> [u64; 2];
type RustSize = fn(usize) -> Option<usize>;

/// Every small number, the edges up to the largest, random ones.
fn compare_sizes(run: &mut Run, name: &'static str, ours: Size, rusts: RustSize) {
    run.tally.group(name, |group| {
        for n in (0..=4096).chain(numbers(&mut run.random, 64, 100_000 * run.rounds)) {
            let rusts = rusts(n as usize).map_or([0, 0], |value| [1, value as u64]);
            group.same(ours(n as usize), rusts, || format!("{n}"));
        }
    });
}

fn compare_regions(run: &mut Run) {
    let maker = RegionMaker::new();
    run.tally.group("region_flags", |group| {
        for flags in 0..=u16::MAX {
            same_region(group, &maker, Entry { flags, ..Entry::any(&mut run.random) });
        }
    });
    run.tally.group("region_limits", |group| {
        for word_offset in edges32(9) {
            for word_length in edges32(9) {
                let entry = Entry { word_offset, word_length, ..Entry::any(&mut run.random) };
                same_region(group, &maker, entry);
            }
        }
    });
    run.tally.group("region_random", |group| {
        for _ in 0..100_000 * run.rounds {
            same_region(group, &maker, Entry::any(&mut run.random));
        }
    });
}

fn same_region(group: &mut Group, maker: &RegionMaker, e: Entry) {
    let ours = ffi::region(e.kind, e.flags, e.word_offset, e.word_length, e.covers);
    let region = maker.with(e);
    // Eight times a 32-bit number fits in 64 bits, so the Rust never answers None here.
    let rusts = [
        region.byte_offset().expect("fits") as u64,
        region.byte_length().expect("fits") as u64,
        u64::from(region.is_encrypted()),
        u64::from(region.is_ecc_plane()),
        u64::from(region.has_ecc()),
    ];
    group.same(ours, rusts, || format!("{e:?}"));
}
