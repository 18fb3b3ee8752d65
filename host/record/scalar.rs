use crate::inputs::Random;
use crate::{pair, text};
use keleusma_wire::scalar::*;

pub fn lines() -> Vec<String> {
    let random = &mut Random::new(1);
    let mut lines = Vec::new();
    reads(&mut lines, random, "u8_at", 1, |b, at| u8_at(b, at).map(u64::from));
    reads(&mut lines, random, "u16_at", 2, |b, at| u16_at(b, at).map(u64::from));
    reads(&mut lines, random, "u32_at", 4, |b, at| u32_at(b, at).map(u64::from));
    reads(&mut lines, random, "u64_at", 8, u64_at);
    writes(&mut lines, random);
    votes(&mut lines, random);
    lines
}

type Read = fn(&[u8], usize) -> Option<u64>;

/// Lengths around the reader's width, offsets around the last that fits and at the largest numbers.
fn reads(lines: &mut Vec<String>, random: &mut Random, name: &str, width: usize, read: Read) {
    for len in [0, width - 1, width, width + 1, 20] {
        let bytes = random.bytes(len);
        let last = len.saturating_sub(width);
        let mut offsets = vec![0, 1, last, last + 1, len, len + 1];
        offsets.extend([1 << 32, 1 << 63, usize::MAX - width + 1, usize::MAX]);
        offsets.sort_unstable();
        offsets.dedup();
        for at in offsets {
            lines.push(format!("{name} {} {at} -> {}", text(&bytes), pair(read(&bytes, at))));
        }
    }
}

fn writes(lines: &mut Vec<String>, random: &mut Random) {
    let mut values = vec![0, 1, 0x0102_0304_0506_0708, u64::MAX];
    values.extend((0..8).map(|_| random.next()));
    for v in values {
        let (v8, v16, v32) = (v as u8, v as u16, v as u32);
        lines.push(format!("u8_bytes {v8} -> {}", text(&u8_bytes(v8))));
        lines.push(format!("u16_bytes {v16} -> {}", text(&u16_bytes(v16))));
        lines.push(format!("u32_bytes {v32} -> {}", text(&u32_bytes(v32))));
        lines.push(format!("u64_bytes {v} -> {}", text(&u64_bytes(v))));
    }
}

/// Every triple of 0 and 255, the figure of 1, 2 and 3, and random triples.
fn votes(lines: &mut Vec<String>, random: &mut Random) {
    let mut triples: Vec<[u8; 3]> =
        (0..8).map(|bits| [0, 1, 2].map(|i| (bits >> i & 1) * 255)).collect();
    triples.push([1, 2, 3]);
    triples.extend((0..24).map(|_| [0; 3].map(|_| random.next() as u8)));
    for [a, b, c] in triples {
        lines.push(format!("maj3 {a} {b} {c} -> {}", maj3(a, b, c)));
    }
}
