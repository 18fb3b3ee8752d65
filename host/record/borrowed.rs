//! Every method of the Rust's table, pool and plane. Bytes that it makes no table of have none of a
//! table's numbers: no records, empty, stride 0.

use crate::answers::{part_numbers, place_in, place_numbers};
use crate::ecc::{damaged_planes, status};
use crate::image::spaced;
use crate::inputs::Random;
use crate::text;
use keleusma_wire::{EccPlane, Pool, RecordTable};

pub fn lines() -> Vec<String> {
    let random = &mut Random::new(17);
    let mut lines = Vec::new();
    tables(&mut lines, &random.bytes(48));
    ranges(&mut lines, &random.bytes(32));
    pools(&mut lines, &random.bytes(20));
    planes(&mut lines, random);
    lines
}

/// Bytes of some lengths, strides that make a table of them and others; records to the largest index.
fn tables(lines: &mut Vec<String>, bytes: &[u8]) {
    for (len, stride) in [0, 8, 47, 48]
        .into_iter()
        .flat_map(|len| [0, 1, 4, 8, 12, 16, 24, 32, 48, 1 << 63].map(move |stride| (len, stride)))
    {
        let (bytes, text) = (&bytes[..len], text(&bytes[..len]));
        let table = RecordTable::from_bytes(bytes, stride);
        let numbers = table.map_or([0, 1, 0], |table| {
            [table.len() as u64, table.is_empty().into(), table.stride() as u64]
        });
        lines.push(format!("borrowed_table {text} {stride} -> {}", spaced(numbers)));
        let count = table.map_or(0, |table| table.len());
        let mut indices = vec![0, 1, count.saturating_sub(1), count, usize::MAX / 8, usize::MAX];
        indices.sort_unstable();
        indices.dedup();
        for index in indices {
            let record = part_answer(bytes, table.and_then(|table| table.get(index)));
            lines.push(format!("borrowed_record {text} {stride} {index} -> {record}"));
        }
    }
}

/// A part's place, and its length and checksum.
fn part_answer(bytes: &[u8], part: Option<&[u8]>) -> String {
    let place = place_numbers(part.map(|part| place_in(bytes, part)));
    format!("{} {}", spaced(place), spaced(part_numbers(part)))
}

/// Of four records, of two, of bytes that are no table: before, at and behind the record, past the
/// end, of none.
fn ranges(lines: &mut Vec<String>, bytes: &[u8]) {
    let ranges = [(0, 0), (1, 1), (1, 3), (3, 0), (3, 1), (3, 2), (4, 0), (u32::MAX, u32::MAX)];
    for stride in [8, 16, 12] {
        let table = RecordTable::from_bytes(bytes, stride);
        for (at, (first, count)) in
            [0, 2, 3, usize::MAX].into_iter().flat_map(|at| ranges.map(|range| (at, range)))
        {
            let forward = table.is_some_and(|table| table.range_is_forward(at, first, count));
            let (text, forward) = (text(bytes), u8::from(forward));
            lines.push(format!(
                "borrowed_forward {text} {stride} {at} {first} {count} -> {forward}"
            ));
        }
    }
}

fn pools(lines: &mut Vec<String>, bytes: &[u8]) {
    let most = u32::MAX;
    for bytes in [bytes, &[]] {
        let pool = Pool::from_bytes(bytes);
        let own = spaced(part_numbers(Some(pool.bytes())));
        for (offset, size) in [
            (0, 0),
            (0, 20),
            (0, 21),
            (3, 5),
            (19, 1),
            (20, 0),
            (20, 1),
            (21, 0),
            (most, 0),
            (0, most),
            (most, most),
        ] {
            let part = part_answer(bytes, pool.slice(offset, size));
            lines.push(format!("borrowed_pool {} {offset} {size} -> {own} {part}", text(bytes)));
        }
    }
}

fn planes(lines: &mut Vec<String>, random: &mut Random) {
    for (parity, data) in damaged_planes(random) {
        let plane = EccPlane::new(&parity);
        let own = spaced(part_numbers(Some(plane.bytes())));
        let found = plane.scan(&data);
        let report = spaced([found.words, found.corrected, found.uncorrectable].map(|n| n as u64));
        for index in [0, 1, 2, usize::MAX / 8 + 1, usize::MAX] {
            let word = plane.word(&data, index);
            let word = word.map_or("0 0 0".into(), |found| format!("1 {}", status(found)));
            let (parity, data) = (text(&parity), text(&data));
            lines.push(format!("borrowed_plane {parity} {data} {index} -> {own} {word} {report}"));
        }
    }
}
