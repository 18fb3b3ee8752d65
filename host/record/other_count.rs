//! Lookups and scans on bytes beside a count that is not theirs, which the Rust's view can't be asked:
//! answers of our reading of docs/FORMAT.md (model.rs).

use crate::answers::{entry_numbers, place_numbers, three_numbers};
use crate::image::{image_text, spaced};
use crate::images::{self, plane, protected};
use crate::inputs::{Entry, Random};
use crate::model;

/// An image of two planes, whole and cut inside either plane and before the header's end; one whose
/// plane stands before its region, cut between the two.
pub fn lines() -> Vec<String> {
    let random = &mut Random::new(20);
    let mut lines = Vec::new();
    let bytes = images::planned(random, &[(1, 2, 2), (7, 2, 1)]);
    let regions = [protected(1, 30, 2), protected(7, 32, 1)];
    for count in [0, 3, 4, 5, u16::MAX] {
        asked(&mut lines, &bytes, count, &regions);
    }
    for (len, count) in [(279, 4), (271, 4), (239, 4), (239, 3)] {
        asked(&mut lines, &bytes[..len], count, &regions);
    }
    let regions = [protected(1, 20, 2), plane(2, 1, 18, 1)];
    let bytes = images::sealed(random, &regions, 176);
    for len in [176, 175, 152, 151] {
        asked(&mut lines, &bytes[..len], 2, &regions[..1]);
    }
    lines
}

fn asked(lines: &mut Vec<String>, bytes: &[u8], count: u16, regions: &[Entry]) {
    let pair = format!("{} {count}", image_text(bytes));
    for index in [count.saturating_sub(1), count] {
        let found = spaced(entry_numbers(model::region_at(bytes, count, index)));
        lines.push(format!("region_at {pair} {index} -> {found}"));
    }
    let all = spaced(three_numbers(model::verify_all(bytes, count)));
    lines.push(format!("verify_all {pair} -> {all}"));
    for e in regions {
        let Entry { kind, flags, word_offset, word_length, covers } = e;
        let found = spaced(entry_numbers(model::find_region(bytes, count, *kind)));
        lines.push(format!("find_region {pair} {kind} -> {found}"));
        let place = spaced(place_numbers(model::ecc_for(bytes, count, *kind)));
        lines.push(format!("ecc_for {pair} {kind} -> {place}"));
        let one = spaced(three_numbers(model::verify_region(bytes, count, e)));
        lines.push(format!(
            "verify_region {pair} {kind} {flags} {word_offset} {word_length} {covers} -> {one}"
        ));
    }
}
