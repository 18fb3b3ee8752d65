//! Times ours beside the Rust's in one run and prints a table: work, our time, what it is held against,
//! its time, ratio, bar. The Rust has no mend, which is held against our own scan and parse.
//!
//! Exit status 1 if a ratio is above its bar.

#[path = "../compare/ffi.rs"]
#[allow(dead_code)] // the comparison uses the rest
mod ffi;
#[path = "../compare/ffi_api.rs"]
#[allow(dead_code)]
mod ffi_api;
#[path = "../compare/ffi_reader.rs"]
#[allow(dead_code)]
mod ffi_reader;
#[path = "../compare/images.rs"]
#[allow(dead_code)]
mod images;
#[path = "../compare/inputs.rs"]
#[allow(dead_code)]
mod inputs;

use inputs::Random;
use keleusma_wire::ecc::{check_byte, EccPlane};
use keleusma_wire::{EccReport, WireView};
use std::hint::black_box;
use std::process::ExitCode;
use std::time::{Duration, Instant};

const ROUNDS: usize = 25;

const RUST: &str = "the Rust";
const SCAN: &str = "our scan";
const PARSE: &str = "our parse";

fn main() -> ExitCode {
    println!(
        "{:<36} {:>12} {:>10} {:>13} {:>9} {:>6}",
        "work", "time", "beside", "its time", "ratio", "bar"
    );
    let rows = [
        crc32_over_1_mib(),
        parse_1_024_regions(),
        scan_900_000_words(),
        scan_every_word_corrected(),
        scan_random_check_bytes(),
        scan_image_of_160_bytes(),
        scan_image_of_1_024_regions(),
        scan_image_of_900_000_words(),
        scrub_1_024_regions(),
        scrub_image_of_900_000_words(),
        mend_clean_900_000_words(),
        mend_900_000_words(),
        mend_1_024_regions(),
        lie_apart_1_024_regions(),
        lie_apart("mend, 1,024 regions, falling", |kind| 1023 - kind),
        lie_apart("mend, 1,024 regions, in no order", |kind| 389 * kind % 1024),
    ];
    if rows.iter().all(|&within| within) {
        ExitCode::SUCCESS
    } else {
        ExitCode::FAILURE
    }
}

fn crc32_over_1_mib() -> bool {
    let bytes = Random::new(4).bytes(1 << 20);
    row(
        "crc32 over 1 MiB",
        RUST,
        0.6,
        ROUNDS,
        || ffi::crc32(black_box(&bytes)),
        || keleusma_wire::crc32(black_box(&bytes)),
    )
}

/// The check bytes of 900,000 random words, and the words.
fn words_900_000() -> (Vec<u8>, Vec<u8>) {
    let data = Random::new(5).bytes(8 * 900_000);
    let words = data.chunks_exact(8).map(|word| u64::from_le_bytes(word.try_into().unwrap()));
    (words.map(check_byte).collect(), data)
}

fn scan_words(work: &str, bar: f64, parity: &[u8], data: &[u8]) -> bool {
    row(
        work,
        RUST,
        bar,
        ROUNDS,
        || ffi::plane_scan(black_box(parity), black_box(data)),
        || {
            let report = EccPlane::new(black_box(parity)).scan(black_box(data));
            [report.words, report.corrected, report.uncorrectable].map(|n| n as u64)
        },
    )
}

/// Each thousandth word has a flipped bit.
fn scan_900_000_words() -> bool {
    let (parity, mut data) = words_900_000();
    data.iter_mut().step_by(8 * 1000).for_each(|byte| *byte ^= 1);
    scan_words("scan, 900,000 words", 0.2, &parity, &data)
}

/// Each word has one flipped bit, of its 64 and the 8 of its check byte.
fn scan_every_word_corrected() -> bool {
    let (mut parity, mut data) = words_900_000();
    let mut random = Random::new(6);
    for (check, word) in parity.iter_mut().zip(data.chunks_exact_mut(8)) {
        let bit = (random.next() % 72) as usize;
        *word.get_mut(bit / 8).unwrap_or(check) ^= 1 << (bit % 8);
    }
    scan_words("the same, every word corrected", 0.5, &parity, &data)
}

fn scan_random_check_bytes() -> bool {
    let (_, data) = words_900_000();
    let parity = Random::new(7).bytes(900_000);
    scan_words("the same, random check bytes", 0.5, &parity, &data)
}

/// 512 protected regions of a word, each with its plane, and nothing to repair.
fn image_of_1_024_regions() -> Vec<u8> {
    let rows: Vec<(u16, u16, u32)> = (0..512).map(|kind| (kind, 2, 1)).collect();
    images::planned(&mut Random::new(13), &rows)
}

fn parse_1_024_regions() -> bool {
    let image = image_of_1_024_regions();
    row(
        "parse, 1,024 regions",
        RUST,
        0.02,
        ROUNDS,
        || ffi_api::parse(black_box(&image)),
        || {
            let view = WireView::parse(black_box(&image)).expect("a good image");
            (0, [view.region_count().into(), view.needs_scrub().into()])
        },
    )
}

/// Once: the Rust takes seconds.
fn scrub_1_024_regions() -> bool {
    let image = image_of_1_024_regions();
    let (mut ours, mut rusts) = (image.clone(), image);
    row(
        "scrub, 1,024 regions, clean",
        RUST,
        0.001,
        1,
        || ffi_api::scrub_in_place(black_box(&mut ours)),
        || (0, report(keleusma_wire::scrub(black_box(&mut rusts)))),
    )
}

/// One region, of which each thousandth word's check byte has a flipped bit: it is counted as
/// corrected each time, since scrub writes no check byte.
fn image_of_900_000_words() -> Vec<u8> {
    let mut image = images::planned(&mut Random::new(14), &[(1, 2, 900_000)]);
    let plane = image.len() - 900_000;
    image[plane..].iter_mut().step_by(1000).for_each(|check| *check ^= 1);
    image
}

fn scan_image(work: &str, bar: f64, calls: usize, image: &[u8]) -> bool {
    row(
        work,
        RUST,
        bar,
        ROUNDS,
        || last_of(calls, || ffi_api::scan(black_box(image))),
        || {
            last_of(calls, || {
                let view = WireView::parse(black_box(image)).expect("a good image");
                (0, report(view.verify_all()))
            })
        },
    )
}

/// One protected word, a thousand scans at a time: what a call takes before its first word.
fn scan_image_of_160_bytes() -> bool {
    let image = images::planned(&mut Random::new(15), &[(1, 2, 1)]);
    scan_image("1,000 scans, image of 160 bytes", 2.0, 1000, &image)
}

fn scan_image_of_1_024_regions() -> bool {
    scan_image("scan, image of 1,024 regions", 1.0, 1, &image_of_1_024_regions())
}

fn scan_image_of_900_000_words() -> bool {
    scan_image("scan, image of 900,000 words", 0.2, 1, &image_of_900_000_words())
}

fn scrub_image_of_900_000_words() -> bool {
    let image = image_of_900_000_words();
    let (mut ours, mut rusts) = (image.clone(), image);
    row(
        "scrub, image of 900,000 words",
        RUST,
        0.2,
        ROUNDS,
        || ffi_api::scrub_in_place(black_box(&mut ours)),
        || (0, report(keleusma_wire::scrub(black_box(&mut rusts)))),
    )
}

fn mend_clean_900_000_words() -> bool {
    let image = images::planned(&mut Random::new(14), &[(1, 2, 900_000)]);
    let mut mended = image.clone();
    row(
        "mend, 900,000 words, clean",
        SCAN,
        1.5,
        ROUNDS,
        || mend(black_box(&mut mended)),
        || ffi_api::scan(black_box(&image)),
    )
}

/// Each thousandth word has a flipped bit; mending leaves none, so they are flipped before each turn,
/// which is timed too.
fn mend_900_000_words() -> bool {
    let mut mended = images::planned(&mut Random::new(14), &[(1, 2, 900_000)]);
    let flip = |image: &mut [u8]| {
        image[144..144 + 8 * 900_000].iter_mut().step_by(8000).for_each(|byte| *byte ^= 1);
    };
    let mut damaged = mended.clone();
    flip(&mut damaged);
    row(
        "mend, a bit in each 1,000th word",
        SCAN,
        1.5,
        ROUNDS,
        || {
            flip(&mut mended);
            mend(black_box(&mut mended))
        },
        || ffi_api::scan(black_box(&damaged)),
    )
}

fn mend_1_024_regions() -> bool {
    let image = image_of_1_024_regions();
    let mut mended = image.clone();
    row(
        "mend, 1,024 regions, clean",
        SCAN,
        1.5,
        ROUNDS,
        || mend(black_box(&mut mended)),
        || ffi_api::scan(black_box(&image)),
    )
}

/// What mend takes more than a scan, which is mostly the check that regions lie apart, beside a parse.
fn lie_apart_1_024_regions() -> bool {
    let image = image_of_1_024_regions();
    let mut mended = image.clone();
    let [mut mends, mut scans, mut parses] = [Duration::MAX; 3];
    for _ in 0..20 * ROUNDS {
        let (mend_answer, took) = time(&mut || mend(black_box(&mut mended)));
        mends = mends.min(took);
        let (scan_answer, took) = time(&mut || ffi_api::scan(black_box(&image)));
        scans = scans.min(took);
        parses = parses.min(time(&mut || ffi_api::parse(black_box(&image))).1);
        assert!(mend_answer == scan_answer);
    }
    print_row("the same, less what the scan takes", PARSE, 1.0, mends.saturating_sub(scans), parses)
}

/// Regions of a word, each at the place that `order` gives its kind: where they don't rise, every pair is
/// looked at.
fn lie_apart(work: &str, order: fn(u32) -> u32) -> bool {
    let first = 6 + 6 * 1024;
    let entries: Vec<_> =
        (0..1024).map(|kind| images::plain(kind, first + order(kind.into()), 1)).collect();
    let image = inputs::image(&entries, 8 * (first as usize + 1024));
    let mut mended = image.clone();
    row(
        work,
        PARSE,
        8.0,
        20 * ROUNDS,
        || mend(black_box(&mut mended)).0,
        || ffi_api::parse(black_box(&image)).0,
    )
}

/// The number and the report.
fn mend(image: &mut [u8]) -> (u32, [u64; 4]) {
    let (number, [some, words, corrected, uncorrectable, _, _]) = ffi_api::mend_in_place(image);
    (number, [some, words, corrected, uncorrectable])
}

fn report(report: Option<EccReport>) -> [u64; 4] {
    let report = report.expect("there is a protected region");
    [1, report.words as u64, report.corrected as u64, report.uncorrectable as u64]
}

/// Prints one row; true if the ratio is within the bar. The two sides take turns, so that a change
/// of the machine's speed meets both, and the best round of each counts.
fn row<A: PartialEq>(
    work: &str,
    beside: &str,
    bar: f64,
    rounds: usize,
    mut ours: impl FnMut() -> A,
    mut other: impl FnMut() -> A,
) -> bool {
    let (mut our_best, mut other_best) = (Duration::MAX, Duration::MAX);
    for _ in 0..rounds {
        let (our_answer, our_time) = time(&mut ours);
        let (other_answer, other_time) = time(&mut other);
        assert!(
            our_answer == other_answer,
            "{work}: the answers differ, so the times mean nothing"
        );
        our_best = our_best.min(our_time);
        other_best = other_best.min(other_time);
    }
    print_row(work, beside, bar, our_best, other_best)
}

fn print_row(work: &str, beside: &str, bar: f64, ours: Duration, other: Duration) -> bool {
    let ratio = ours.as_secs_f64() / other.as_secs_f64();
    let over = if ratio > bar { "  over the bar" } else { "" };
    println!(
        "{work:<36} {:>9.3} ms {beside:>10} {:>10.3} ms {ratio:>9.5} {bar:>6}{over}",
        millis(ours),
        millis(other)
    );
    ratio <= bar
}

/// The last answer of so many calls.
fn last_of<A>(calls: usize, mut call: impl FnMut() -> A) -> A {
    (1..calls).for_each(|_| drop(black_box(call())));
    call()
}

fn time<A>(work: &mut impl FnMut() -> A) -> (A, Duration) {
    let began = Instant::now();
    let answer = black_box(work());
    (answer, began.elapsed())
}

fn millis(time: Duration) -> f64 {
    time.as_secs_f64() * 1000.0
}
