use crate::answers::{
    api_answer, api_entry, api_numbers, api_place, entry, entry_numbers, parse_numbers,
    part_numbers, place_in, place_numbers,
};
use crate::image::{image_text, spaced};
use crate::images::{self, plain, plane, protected};
use crate::inputs::{hex, image, prologue, Entry, Random, RegionMaker};
use keleusma_wire::{crc32, WireView};

pub fn lines() -> Vec<String> {
    let random = &mut Random::new(7);
    let mut lines = Vec::new();
    let good = images::good(random);
    for bytes in &good {
        parse(&mut lines, &image_text(bytes), bytes);
        lookups(&mut lines, bytes);
    }
    truncated(&mut lines, &good[1]);
    changed(&mut lines, &good[1]);
    for entries in directories() {
        let bytes = images::sealed(random, &entries, 8 * 28);
        parse(&mut lines, &image_text(&bytes), &bytes);
    }
    long(&mut lines);
    at_the_bounds(&mut lines);
    lines
}

/// One line of kwt_parse, and one of kw_parse; of a refused image one of each lookup of the C API.
fn parse(lines: &mut Vec<String>, text: &str, bytes: &[u8]) {
    let numbers = parse_numbers(bytes, &WireView::parse(bytes));
    lines.push(format!("parse {text} -> {}", spaced(numbers)));
    let (number, answer) = api_numbers(numbers);
    lines.push(format!("kw_parse {text} -> {number} {}", spaced(answer)));
    if number != 0 {
        api_lookups(lines, text, bytes, 1, 0);
    }
}

/// One line of kw_region, and one of kw_region_at.
fn api_lookups(lines: &mut Vec<String>, text: &str, bytes: &[u8], kind: u16, index: u32) {
    let parsed = WireView::parse(bytes);
    let (number, answer) = api_answer(&parsed, |view| api_place(view, view.find_region(kind)));
    lines.push(format!("kw_region {text} {kind} -> {number} {}", spaced(answer)));
    let (number, answer) = api_answer(&parsed, |view| {
        let found = u16::try_from(index).ok().and_then(|index| view.region_at(index));
        api_entry(view, found)
    });
    lines.push(format!("kw_region_at {text} {index} -> {number} {}", spaced(answer)));
}

/// Around every boundary: 47 and 48 bytes, the header's end, the image's.
fn truncated(lines: &mut Vec<String>, bytes: &[u8]) {
    for len in [0, 1, 15, 16, 47, 48, 143, 144, 151, 152, 159] {
        parse(lines, &image_text(&bytes[..len]), &bytes[..len]);
    }
}

/// Each field of the header changed in one copy, in two, in all three; of the prologue also with a
/// checksum that is good again.
fn changed(lines: &mut Vec<String>, bytes: &[u8]) {
    for (at, copy) in [0, 4, 6, 8, 9, 10, 12]
        .map(|at| (at, 16))
        .into_iter()
        .chain([48, 50, 52, 55, 56, 59, 60, 62, 64, 68].map(|at| (at, 32)))
    {
        for copies in [&[0][..], &[1, 2], &[0, 1, 2]] {
            let mut bytes = bytes.to_vec();
            copies.iter().for_each(|i| bytes[at + i * copy] ^= 0x81);
            parse(lines, &image_text(&bytes), &bytes);
        }
        if copy == 16 {
            let mut bytes = bytes.to_vec();
            bytes[at] ^= 0x81;
            let sum = crc32(&bytes[..12]).to_le_bytes();
            bytes[12..16].copy_from_slice(&sum);
            bytes.copy_within(0..16, 16);
            bytes.copy_within(0..16, 32);
            parse(lines, &image_text(&bytes), &bytes);
        }
    }
}

/// In 224 bytes: regions on the header, of no bytes, at the end, past it, the largest numbers; an
/// entry out of bounds that repeats a kind, or is repeated.
fn directories() -> Vec<Vec<Entry>> {
    let most = u32::MAX;
    let mut all: Vec<Vec<Entry>> = [
        (0, 18),
        (0, 28),
        (27, 1),
        (27, 2),
        (28, 0),
        (28, 1),
        (29, 0),
        (most, 0),
        (0, most),
        (most, most),
        (1 << 29, 0),
        (0, 1 << 29),
    ]
    .map(|(offset, words)| vec![plain(1, 18, 1), plain(2, offset, words)])
    .to_vec();
    all.push(vec![plain(1, 18, 1), plain(1, 28, 1)]);
    all.push(vec![plain(1, 28, 1), plain(1, 18, 1)]);
    all.push(vec![plain(1, 24, 1), plain(2, 28, 1), plain(2, 24, 1)]);
    all.push(vec![plain(1, 24, 1), plain(2, 24, 1), plain(1, 28, 1)]);
    all
}

/// Every index and the next, every kind and another; a plane that covers nothing, two for a kind. Of the C
/// API also an index that 16 bits don't hold.
fn lookups(lines: &mut Vec<String>, bytes: &[u8]) {
    let view = WireView::parse(bytes).expect("a good image");
    let (text, count) = (image_text(bytes), view.region_count());
    for index in (0..=count).chain([u16::MAX]) {
        let found = entry_numbers(view.region_at(index).map(entry));
        lines.push(format!("region_at {text} {count} {index} -> {}", spaced(found)));
    }
    let maker = RegionMaker::new();
    let kinds = (0..count).filter_map(|i| view.region_at(i)).map(|region| region.kind);
    for (kind, index) in kinds.clone().chain([0, 0x7FFF]).zip((0..=count.into()).chain([1 << 16])) {
        api_lookups(lines, &text, bytes, kind, index);
    }
    for kind in kinds.chain([0]) {
        let found = entry_numbers(view.find_region(kind).map(entry));
        lines.push(format!("find_region {text} {count} {kind} -> {}", spaced(found)));
        let plane = view.ecc_for(&maker.with(Entry { kind, ..Entry::default() }));
        let found = place_numbers(plane.map(|plane| place_in(bytes, plane.bytes())));
        lines.push(format!("ecc_for {text} {count} {kind} -> {}", spaced(found)));
    }
}

/// 48 bytes that claim 1024 and 1025 regions, and as many; a byte shorter than the header; the last
/// entry's kind once more.
fn long(lines: &mut Vec<String>) {
    for count in [1023, 1024, 1025, 0xFFFF] {
        let bytes = prologue(count).repeat(3);
        parse(lines, &image_text(&bytes), &bytes);
    }
    for count in [1023, 1024, 1025] {
        let entries: Vec<Entry> = (0..count).map(|kind| plain(kind, 0, 0)).collect();
        let bytes = image(&entries, 0);
        let text = format!("{}*3+#{count}*3", hex(&bytes[..16]));
        parse(lines, &text, &bytes);
        parse(lines, &format!("{text}+aa"), &[&bytes[..], &[0xAA]].concat());
    }
    for entries in [
        vec![protected(1, 24, 1), plane(2, 1, 25, 1), plane(3, 1, 26, 1)],
        vec![protected(1, 24, 1), plane(2, 3, 25, 1), Entry { flags: 10, ..plane(3, 2, 26, 1) }],
    ] {
        lookups(lines, &images::sealed(&mut Random::new(8), &entries, 8 * 27));
    }
}

/// Images that parse accepts though a region is an odd one, each with a neighbour that it refuses.
fn at_the_bounds(lines: &mut Vec<String>) {
    let random = &mut Random::new(18);
    let mut image = |title: &str, entries: &[Entry], len| {
        let bytes = images::sealed(random, entries, len);
        lines.push(format!("# {title}"));
        parse(lines, &image_text(&bytes), &bytes);
        if WireView::parse(&bytes).is_ok() {
            lookups(lines, &bytes);
            contents(lines, &bytes);
        }
    };
    image("a region that ends at the last byte", &[plain(1, 12, 2)], 112);
    image("a byte less", &[plain(1, 12, 2)], 111);
    image("an empty region at the last byte", &[plain(1, 13, 0)], 104);
    image("an empty region a byte past it", &[plain(1, 13, 0)], 103);
    image("a region on the header", &[plain(1, 0, 12)], 96);
    image("an empty region on the header", &[plain(1, 0, 0)], 96);
    image("two regions that overlap", &[plain(1, 18, 2), plain(2, 19, 2)], 168);
    image("two regions on the same bytes", &[plain(1, 18, 1), plain(2, 18, 1)], 152);
    image("bytes after all regions", &[plain(1, 12, 1)], 109);
}

/// The bytes of each region.
fn contents(lines: &mut Vec<String>, bytes: &[u8]) {
    let view = WireView::parse(bytes).expect("a good image");
    for region in (0..view.region_count()).filter_map(|i| view.region_at(i)) {
        let (text, Entry { word_offset, word_length, .. }) = (image_text(bytes), entry(region));
        let part = spaced(part_numbers(view.region_bytes(&region).ok()));
        lines.push(format!("region_bytes {text} {word_offset} {word_length} -> {part}"));
    }
}
