//! What the programs are run on, and what they have to print: report by the Rust's answers, scrub by
//! our reading of docs/FORMAT.md.

use crate::answers::{api_numbers, api_scan, parse_numbers};
use crate::images::{self, plain};
use crate::inputs::{self, Random};
use crate::mending;
use crate::scrub;
use keleusma_wire::{crc32, WireView};

pub struct Case {
    pub name: &'static str,
    pub input: Vec<u8>,
    /// Standard output of report.
    pub report: String,
    /// Standard output and standard error of scrub.
    pub image: Vec<u8>,
    pub line: String,
}

/// The plan's images, each refusal's number by an input of its own, and the example's images.
pub fn cases() -> Vec<Case> {
    let random = &mut Random::new(16);
    let empty = inputs::prologue(0).repeat(3);
    let claims = |count| inputs::prologue(count).repeat(3);
    let mut inputs = vec![
        ("empty-plan", empty.clone()),
        ("one-row", images::planned(random, &[(1, 2, 1)])),
        ("no-bytes", Vec::new()),
        ("47-bytes", empty[..47].to_vec()),
        ("1024-regions-claimed", claims(1024)),
        ("2-magic", spoiled(&empty, 0)),
        ("3-marker", spoiled(&empty, 4)),
        ("4-version", spoiled(&empty, 6)),
        ("5-checksum", spoiled(&empty, 12)),
        ("6-regions-1025", claims(1025)),
        ("7-out-of-bounds", inputs::image(&[plain(1, 18, 1), plain(2, 19, 2)], 160)),
        ("8-duplicate", inputs::image(&[plain(5, 18, 1), plain(5, 19, 1)], 160)),
        ("12-on-the-header", inputs::image(&[plain(1, 11, 1)], 104)),
        ("12-overlap", inputs::image(&[plain(1, 18, 2), plain(2, 19, 1)], 160)),
    ];
    inputs.extend(scrub::examples());
    inputs.into_iter().map(|(name, input)| case(name, input)).collect()
}

/// The byte at one place of all three copies is another; the checksum is right where it can be.
fn spoiled(prologues: &[u8], at: usize) -> Vec<u8> {
    let mut one = prologues[..16].to_vec();
    one[at] ^= 0x41;
    if at < 12 {
        let crc = crc32(&one[..12]);
        one[12..].copy_from_slice(&crc.to_le_bytes());
    }
    one.repeat(3)
}

fn case(name: &'static str, input: Vec<u8>) -> Case {
    let parsed = WireView::parse(&input);
    let report = match (api_numbers(parse_numbers(&input, &parsed)), api_scan(&parsed).1) {
        ((0, [count, wanted]), [some, words, corrected, uncorrectable]) => {
            let wanted = ["no", "yes"][wanted as usize];
            let ecc = format!("{words} {corrected} {uncorrectable}");
            let ecc = if some == 0 { "none".into() } else { ecc };
            format!("regions {count} scrub {wanted}\necc {ecc}\n")
        }
        ((number, [detail, _]), _) => format!("refused {number} {detail}\n"),
    };
    let (image, line) = match mending::mend(&input) {
        (0, [_, _, _, _, stored, _], left) => (left, format!("stored {stored}\n")),
        (number, [detail, ..], _) => (Vec::new(), format!("refused {number} {detail}\n")),
    };
    Case { name, input, report, image, line }
}
