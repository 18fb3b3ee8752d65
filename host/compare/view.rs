//! Crate `view`: parse, and the lookups on the image that was parsed and on other bytes.

use crate::answers::{api_numbers, entry, entry_numbers, parse_numbers, place_in, place_numbers};
use crate::images::{self, FAMILIES};
use crate::inputs::{hex, Entry, RegionMaker};
use crate::tally::Group;
use crate::{ffi_api as api, ffi_reader as ours, model, region, Run};
use keleusma_wire::WireView;

pub fn compare(run: &mut Run) {
    let maker = RegionMaker::new();
    let mut seen = [0; 9];
    for family in &FAMILIES {
        run.tally.group(format!("view_{}", family.name).leak(), |group| {
            (family.each)(&mut run.random, run.rounds, &mut |bytes| {
                seen[same(group, &maker, bytes)] += 1;
            });
        });
    }
    run.tally.group("view_many_regions", |group| {
        for bytes in images::many_regions() {
            seen[same(group, &maker, &bytes)] += 1;
        }
    });
    println!("parse: accepted and refused with 1 to 8: {seen:?}");
    assert!(seen.iter().all(|&times| times > 0), "an answer never came up");
    compare_other_bytes(run);
}

/// Parse and lookups through both archives; those of the archive for tests on what is accepted. Hands back
/// the refusal's number.
fn same(group: &mut Group, maker: &RegionMaker, bytes: &[u8]) -> usize {
    let input = || hex(&bytes[..bytes.len().min(2000)]);
    let rusts = WireView::parse(bytes);
    let parsed = parse_numbers(bytes, &rusts);
    group.same(ours::parse(bytes), parsed, || format!("parse {}", input()));
    group.same(api::parse(bytes), api_numbers(parsed), || format!("kw_parse {}", input()));
    region::same(group, bytes);
    let Ok(view) = rusts else { return parsed[0] as usize };
    let count = view.region_count();
    let entries: Vec<Entry> = (0..count).filter_map(|i| view.region_at(i)).map(entry).collect();
    for index in indices(count) {
        let rusts = view.region_at(index).map(entry);
        group.same(ours::region_at(bytes, count, index), entry_numbers(rusts), || {
            format!("region_at {index} {}", input())
        });
    }
    for kind in kinds(&entries) {
        let rusts = view.find_region(kind).map(entry);
        group.same(ours::find_region(bytes, count, kind), entry_numbers(rusts), || {
            format!("find_region {kind} {}", input())
        });
        let region = maker.with(Entry { kind, ..Entry::default() });
        let rusts = view.ecc_for(&region).map(|plane| place_in(bytes, plane.bytes()));
        group.same(ours::ecc_for(bytes, count, kind), place_numbers(rusts), || {
            format!("ecc_for {kind} {}", input())
        });
    }
    0
}

/// The first, the last, the next two and the largest, or all of a short directory.
pub fn indices(count: u16) -> Vec<u16> {
    let mut all: Vec<u16> = (0..count.min(9)).collect();
    all.extend([count.wrapping_sub(1), count, count.saturating_add(1), u16::MAX]);
    all.dedup();
    all
}

/// The kinds there are and that are covered, of a long directory the first and the last; some others.
pub fn kinds(entries: &[Entry]) -> Vec<u16> {
    let ends = entries.iter().take(8).chain(entries.iter().rev().take(2));
    let mut kinds: Vec<u16> = ends.flat_map(|e| [e.kind, e.covers]).collect();
    kinds.extend([0, 1, 0x8001, u16::MAX]);
    kinds.sort_unstable();
    kinds.dedup();
    kinds
}

/// Lookups with a count that the bytes weren't parsed to; also of bytes that don't parse.
fn compare_other_bytes(run: &mut Run) {
    let all = other_bytes(run);
    run.tally.group("view_other_bytes", |group| {
        for bytes in all {
            for count in [0, 1, 2, 3, 5, 9, 1023, 1024, u16::MAX] {
                same_lookups(group, &bytes, count);
            }
        }
        // as long as the header of the largest count, and a byte shorter
        let mut bytes = run.random.bytes(48 + 48 * 65535);
        same_lookups(group, &bytes, u16::MAX);
        bytes.pop();
        same_lookups(group, &bytes, u16::MAX);
    });
}

/// Good images, cut at every eighth byte, and random bytes of every length to 400.
pub fn other_bytes(run: &mut Run) -> Vec<Vec<u8>> {
    let mut all = Vec::new();
    for bytes in images::good(&mut run.random) {
        all.extend((0..bytes.len()).step_by(8).map(|len| bytes[..len].to_vec()));
        all.extend([bytes.clone(), bytes.repeat(3)]);
    }
    for _ in 0..run.rounds {
        all.extend((0..=400).map(|len| run.random.bytes(len)));
        // few bits set, so that kinds and flags come up again and offsets stay small
        all.extend((0..=400).map(|len| {
            let sparse = |byte: u8| if byte < 32 { byte % 4 } else { 0 };
            run.random.bytes(len).into_iter().map(sparse).collect()
        }));
    }
    all
}

fn same_lookups(group: &mut Group, bytes: &[u8], count: u16) {
    let input = || format!("count {count}, {}", hex(&bytes[..bytes.len().min(2000)]));
    let mut entries = Vec::new();
    for index in indices(count) {
        let read = model::region_at(bytes, count, index);
        entries.extend(read);
        group.same(ours::region_at(bytes, count, index), entry_numbers(read), || {
            format!("region_at {index}, {}", input())
        });
    }
    for kind in kinds(&entries) {
        let read = model::find_region(bytes, count, kind);
        group.same(ours::find_region(bytes, count, kind), entry_numbers(read), || {
            format!("find_region {kind}, {}", input())
        });
        let read = model::ecc_for(bytes, count, kind);
        group.same(ours::ecc_for(bytes, count, kind), place_numbers(read), || {
            format!("ecc_for {kind}, {}", input())
        });
    }
}
