//! Crate `scrubbing`: scrub's answer and every byte afterwards.

use crate::answers::report_numbers;
use crate::images::{self, FAMILIES};
use crate::inputs::hex;
use crate::tally::Group;
use crate::{ffi_api as api, ffi_reader as ours, region, Run};
use keleusma_wire::WireView;

pub fn compare(run: &mut Run) {
    let mut seen = Seen::default();
    for family in &FAMILIES {
        run.tally.group(format!("scrub_{}", family.name).leak(), |group| {
            (family.each)(&mut run.random, run.rounds, &mut |bytes| same(group, &mut seen, bytes));
        });
    }
    run.tally.group("scrub_many_regions", |group| {
        for bytes in images::many_regions().iter().filter(|b| WireView::parse(b).is_err()) {
            same(group, &mut seen, bytes);
        }
        let rows: Vec<(u16, u16, u32)> = (0..512).map(|kind| (kind, 2, 1)).collect();
        let mut bytes = images::planned(&mut run.random, &rows);
        // a word to correct in the last protected region, and an uncorrectable one in the first
        bytes[49_200] ^= 6;
        bytes[49_200 + 8 * 511] ^= 1;
        same(group, &mut seen, &bytes);
    });
    compare_4_march(run, &mut seen);
    seen.print();
}

/// What was seen of the Rust, so that a case which never comes up is noticed.
#[derive(Default)]
struct Seen {
    reports: u64,
    with_a_write: u64,
    refused_after_writing: u64,
}

impl Seen {
    fn print(&self) {
        println!(
            "scrub: {} reports, {} with a byte that moved, {} refusals after writing",
            self.reports, self.with_a_write, self.refused_after_writing
        );
        assert!(self.reports > 0 && self.with_a_write > 0 && self.refused_after_writing > 0);
    }
}

/// Scrub through both archives, and the C API's lookups on what it left.
fn same(group: &mut Group, seen: &mut Seen, bytes: &[u8]) {
    let mut left = bytes.to_vec();
    let report = keleusma_wire::scrub(&mut left);
    seen.reports += u64::from(report.is_some());
    seen.with_a_write += u64::from(report.is_some() && left != bytes);
    seen.refused_after_writing += u64::from(report.is_none() && left != bytes);
    let report = report_numbers(report);
    let input = || hex(&bytes[..bytes.len().min(2000)]);
    let (answer, ours_left) = ours::scrub(bytes);
    group.same((answer, &ours_left), (report, &left), || format!("scrub {}", input()));
    let (number, answer, ours_left) = api::scrub(bytes);
    group
        .same((number, answer, &ours_left), (0, report, &left), || format!("kw_scrub {}", input()));
    region::same(group, &left);
}

fn compare_4_march(run: &mut Run, seen: &mut Seen) {
    let (bytes, moved) = images::march(&mut run.random);
    run.tally.group("scrub_4_march", |group| {
        same(group, seen, &bytes);
        let mut expected = bytes.clone();
        expected[moved] ^= 1;
        let (answer, left) = ours::scrub(&bytes);
        group.same((answer, left), ([1, 2, 1, 0], expected), || "the 4 March image".into());
    });
}
