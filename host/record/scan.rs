use crate::answers::{api_scan, entry, report_numbers};
use crate::image::{image_text, spaced};
use crate::images::{self, plain, plane, protected};
use crate::inputs::{Entry, Random, RegionMaker};
use keleusma_wire::WireView;

pub fn lines() -> Vec<String> {
    let random = &mut Random::new(10);
    let mut lines = Vec::new();
    for mut bytes in images::good(random) {
        scans(&mut lines, &bytes);
        // one word off by a bit, one by two, one check byte off
        let len = bytes.len();
        for (at, by) in [(144, 1), (len - 1, 0x10), (len - 9, 3)] {
            bytes.get_mut(at).map(|byte| *byte ^= by);
            scans(&mut lines, &bytes);
        }
    }
    for entries in planes() {
        scans(&mut lines, &images::sealed(random, &entries, 8 * 36));
    }
    let bytes = images::planned(random, &[]);
    for cut in [0, 47] {
        scans(&mut lines, &bytes[..cut]);
    }
    lines
}

/// Planes that cover nothing, two for a kind, one that is flagged 2, shorter and longer than the
/// region, of no bytes; protected without a plane; a plane without flag 2.
fn planes() -> Vec<Vec<Entry>> {
    vec![
        vec![protected(1, 24, 1), plane(2, 3, 25, 1)],
        vec![protected(1, 24, 1), plane(2, 1, 25, 1), plane(3, 1, 26, 1)],
        vec![protected(1, 24, 1), Entry { flags: 10, ..plane(2, 1, 25, 1) }, plane(3, 2, 26, 1)],
        vec![protected(1, 24, 9), plane(2, 1, 33, 1)],
        vec![protected(1, 24, 2), plane(2, 1, 33, 2)],
        vec![protected(1, 24, 2), plane(2, 1, 33, 0)],
        vec![protected(1, 24, 0), plane(2, 1, 33, 1)],
        vec![protected(1, 24, 2)],
        vec![plain(1, 24, 2), plane(2, 1, 33, 1)],
        vec![plain(1, 24, 2), protected(3, 26, 2), plane(2, 1, 33, 1)],
    ]
}

fn scans(lines: &mut Vec<String>, bytes: &[u8]) {
    let text = image_text(bytes);
    let parsed = WireView::parse(bytes);
    let (number, answer) = api_scan(&parsed);
    lines.push(format!("kw_scan {text} -> {number} {}", spaced(answer)));
    let Ok(view) = parsed else { return };
    let count = view.region_count();
    let all = spaced(report_numbers(view.verify_all()));
    lines.push(format!("verify_all {text} {count} -> {all}"));
    let maker = RegionMaker::new();
    for e in (0..count.min(3)).filter_map(|i| view.region_at(i)).map(entry) {
        let Entry { kind, flags, word_offset, word_length, covers } = e;
        let one = spaced(report_numbers(view.verify_region(&maker.with(e))));
        lines.push(format!(
            "verify_region {text} {count} {kind} {flags} {word_offset} {word_length} {covers} -> {one}"
        ));
    }
}
