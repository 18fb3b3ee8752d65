use crate::inputs::{Entry, Random, RegionMaker};
use crate::pair;
use keleusma_wire::layout::{header_bytes, words_for};

pub fn lines() -> Vec<String> {
    let random = &mut Random::new(3);
    let mut lines = Vec::new();
    for n in sizes(random) {
        lines.push(format!("words_for {n} -> {}", pair(words_for(n).map(|n| n as u64))));
        lines.push(format!("header_bytes {n} -> {}", pair(header_bytes(n).map(|n| n as u64))));
    }
    let maker = RegionMaker::new();
    lines.push("# each flag's bit, and all 16; then places and lengths".into());
    lines.extend(entries(random).into_iter().map(|entry| region_line(&maker, entry)));
    lines
}

/// Small numbers, the region limit, the largest that each function takes and the next, random ones.
fn sizes(random: &mut Random) -> Vec<usize> {
    let mut sizes: Vec<usize> = (0..=9).chain([15, 16, 17, 1023, 1024, 1025]).collect();
    for limit in [usize::MAX - 7, (usize::MAX - 48) / 48, usize::MAX / 48, usize::MAX / 16] {
        sizes.extend(limit - 1..=limit + 1);
    }
    sizes.push(usize::MAX);
    sizes.extend((0..16).map(|_| random.any_size() as usize));
    sizes
}

/// Each flag alone and all together; offsets and lengths of which the byte number leaves 32 bits.
fn entries(random: &mut Random) -> Vec<Entry> {
    let plain = Entry { kind: 1, flags: 0, word_offset: 18, word_length: 1, covers: 0 };
    let mut entries = vec![plain];
    entries.extend((0..16).map(|bit| Entry { flags: 1 << bit, ..plain }));
    entries.push(Entry { flags: 0xFFFF, ..plain });
    for n in [0, 1, (1 << 29) - 1, 1 << 29, 1 << 31, u32::MAX] {
        entries.push(Entry { word_offset: n, ..plain });
        entries.push(Entry { word_length: n, ..plain });
    }
    entries.extend((0..12).map(|_| Entry::any(random)));
    entries
}

fn region_line(maker: &RegionMaker, e: Entry) -> String {
    let region = maker.with(e);
    format!(
        "region {} {} {} {} {} -> {} {} {} {} {}",
        e.kind,
        e.flags,
        e.word_offset,
        e.word_length,
        e.covers,
        region.byte_offset().expect("eight times 32 bits fits in 64"),
        region.byte_length().expect("eight times 32 bits fits in 64"),
        u8::from(region.is_encrypted()),
        u8::from(region.is_ecc_plane()),
        u8::from(region.has_ecc()),
    )
}
