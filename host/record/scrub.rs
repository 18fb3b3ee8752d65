use crate::answers::report_numbers;
use crate::image::{image_text, spaced};
use crate::images::{self, plane, protected};
use crate::inputs::Random;

/// Of the families of images some, with all kinds of outcome among them.
pub fn lines() -> Vec<String> {
    let random = &mut Random::new(11);
    let mut lines = Vec::new();
    for bytes in images::good(random) {
        scrub(&mut lines, &bytes);
    }
    lines.push("# the image of 4 March: a byte of an approved region moves".into());
    scrub(&mut lines, &images::march(random).0);
    lines.push("# a protected region that has no words but a plane: a report of none".into());
    no_words().iter().for_each(|bytes| scrub(&mut lines, bytes));
    lines.push("# protected regions that share bytes, and that lie on the header".into());
    for family in images::FAMILIES.iter().filter(|f| SAMPLED.contains(&f.name)) {
        let mut left = [15; 4];
        let mut turn = 0;
        (family.each)(random, 1, &mut |bytes| {
            turn += 1;
            let outcome = outcome(bytes);
            // some of each outcome, not the first ones, which are much alike
            if turn % 7 == 0 && bytes.len() < 420 && left[outcome] > 0 {
                left[outcome] -= 1;
                scrub(&mut lines, bytes);
            }
        });
    }
    lines
}

const SAMPLED: [&str; 2] = ["shared", "regions_on_the_header"];

/// A damaged image that can be repaired, one with an uncorrectable word, the image of 4 March, one
/// that has no protected region, one that is refused.
pub fn examples() -> Vec<(&'static str, Vec<u8>)> {
    let random = &mut Random::new(12);
    let mut damaged = images::planned(random, &[(1, 2, 3), (2, 0, 1), (7, 2, 9)]);
    let payload = 48 + 48 * 5;
    damaged[20] ^= 4; // of the prologue's second copy
    damaged[payload + 17] ^= 0x20;
    let mut uncorrectable = damaged.clone();
    uncorrectable[payload + 3] ^= 0x11;
    let march = images::march(random).0;
    let unprotected = images::planned(random, &[(1, 0, 2)]);
    let mut refused = unprotected.clone();
    refused.truncate(111);
    vec![
        ("damaged", damaged),
        ("uncorrectable", uncorrectable),
        ("march", march),
        ("unprotected", unprotected),
        ("refused", refused),
    ]
}

/// Protected regions of no words: with a plane of none, with one of a word, without a plane.
pub fn no_words() -> [Vec<u8>; 3] {
    let random = &mut Random::new(19);
    let entries = [protected(1, 18, 0), plane(2, 1, 18, 1)];
    [
        images::planned(random, &[(1, 2, 0)]),
        images::sealed(random, &entries, 152),
        images::sealed(random, &entries[..1], 144),
    ]
}

/// Nothing, a report, a report with a byte that moved, nothing after a byte that moved.
fn outcome(bytes: &[u8]) -> usize {
    let mut left = bytes.to_vec();
    let report = keleusma_wire::scrub(&mut left);
    match (report.is_some(), left != bytes) {
        (false, false) => 0,
        (true, false) => 1,
        (true, true) => 2,
        (false, true) => 3,
    }
}

/// The report's numbers, and each byte that moved as `PLACE=VALUE`, `-` where none did.
fn scrub(lines: &mut Vec<String>, bytes: &[u8]) {
    let mut left = bytes.to_vec();
    let report = spaced(report_numbers(keleusma_wire::scrub(&mut left)));
    let moved = left.iter().zip(bytes).enumerate().filter(|(_, (new, old))| new != old);
    let moved: Vec<String> = moved.map(|(at, (new, _))| format!("{at}={new:02x}")).collect();
    let moved = if moved.is_empty() { "-".into() } else { moved.join(",") };
    let text = image_text(bytes);
    lines.push(format!("scrub {text} -> {report} {moved}"));
    lines.push(format!("kw_scrub {text} -> 0 {report} {moved}"));
}
