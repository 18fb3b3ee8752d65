//! Crate `scan`: one region against its plane, and the whole scan.

use crate::answers::{api_scan, entry, report_numbers, three_numbers};
use crate::images::{self, plane, protected, FAMILIES};
use crate::inputs::{hex, image, Entry, Random, RegionMaker};
use crate::tally::Group;
use crate::view::other_bytes;
use crate::{ffi_api as api, ffi_reader as ours, model, region, Run};
use keleusma_wire::WireView;

pub fn compare(run: &mut Run) {
    let maker = RegionMaker::new();
    for family in &FAMILIES {
        let mut other = Random::new(run.random.next());
        run.tally.group(format!("scan_{}", family.name).leak(), |group| {
            (family.each)(&mut run.random, run.rounds, &mut |bytes| {
                same(group, &maker, &mut other, bytes);
            });
        });
    }
    let mut other = Random::new(run.random.next());
    run.tally.group("scan_many_regions", |group| {
        for bytes in images::many_regions() {
            same(group, &maker, &mut other, &bytes);
        }
    });
    compare_other_bytes(run);
}

/// The whole scan, through both archives, and that of each region, of a region that is none of the
/// image's and of one of no bytes, with the kind of each.
fn same(group: &mut Group, maker: &RegionMaker, random: &mut Random, bytes: &[u8]) {
    let input = || hex(&bytes[..bytes.len().min(2000)]);
    let parsed = WireView::parse(bytes);
    group.same(api::scan(bytes), api_scan(&parsed), || format!("kw_scan {}", input()));
    region::same(group, bytes);
    let Ok(view) = parsed else { return };
    let count = view.region_count();
    group.same(ours::verify_all(bytes, count), report_numbers(view.verify_all()), || {
        format!("verify_all {}", input())
    });
    for region in (0..count).filter_map(|i| view.region_at(i)).map(entry) {
        for e in [
            region,
            Entry { kind: region.kind, ..Entry::any(random) },
            Entry { word_offset: random.next() as u32 % 32, ..region },
            Entry { word_length: 0, ..region },
        ] {
            let rusts = report_numbers(view.verify_region(&maker.with(e)));
            group.same(ours::verify_region(bytes, count, e), rusts, || {
                format!("verify_region {e:?} {}", input())
            });
        }
    }
}

/// With a count that the bytes weren't parsed to, held against the reading of docs/FORMAT.md.
fn compare_other_bytes(run: &mut Run) {
    let all = other_bytes(run);
    run.tally.group("scan_other_bytes", |group| {
        for bytes in all {
            for count in [0, 1, 2, 3, 5, 9, 1024, u16::MAX] {
                let input = || format!("count {count}, {}", hex(&bytes[..bytes.len().min(2000)]));
                let read = three_numbers(model::verify_all(&bytes, count));
                group.same(ours::verify_all(&bytes, count), read, || format!("all, {}", input()));
                for index in 0..count.min(4) {
                    let e = model::region_at(&bytes, count, index);
                    let e = e.unwrap_or_else(|| Entry::any(&mut run.random));
                    let read = three_numbers(model::verify_region(&bytes, count, &e));
                    group.same(ours::verify_region(&bytes, count, e), read, || {
                        format!("{e:?}, {}", input())
                    });
                }
            }
        }
        // the largest count: a region and its plane at the directory's end
        let mut entries = vec![Entry::default(); 65535];
        entries[65533] = plane(2, 1, 0, 1);
        entries[65534] = protected(1, 1, 3);
        let bytes = image(&entries, 0);
        let read = three_numbers(model::verify_all(&bytes, u16::MAX));
        group.same(ours::verify_all(&bytes, u16::MAX), read, || "65535 regions".into());
    });
}
