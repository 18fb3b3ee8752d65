use crate::answers::{part_numbers, place_in, place_numbers, span_numbers};
use crate::image::{image_text, spaced};
use crate::inputs::{image, Entry, Random, RegionMaker};
use crate::text;
use keleusma_wire::{Pool, RecordTable, WireView};

pub fn lines() -> Vec<String> {
    let random = &mut Random::new(9);
    let mut lines = Vec::new();
    let mut bytes = image(&[], 73);
    bytes[48..].copy_from_slice(&random.bytes(25));
    lines.push("# bytes requests: what ends past the image is refused with 7 and 0".into());
    regions(&mut lines, &bytes);
    lines.push("# tables, ranges and pools of bytes in hand".into());
    tables(&mut lines, &random.bytes(48));
    ranges(&mut lines, &random.bytes(32));
    pools(&mut lines, &random.bytes(20));
    lines
}

/// Places of regions and tables in an image of 73 bytes: around its end, the largest numbers.
fn regions(lines: &mut Vec<String>, bytes: &[u8]) {
    let maker = RegionMaker::new();
    let view = WireView::parse(bytes).expect("it has no regions");
    let (most, len, text) = (u32::MAX, bytes.len(), image_text(bytes));
    for (offset, length) in [
        (0, 0),
        (0, 9),
        (0, 10),
        (6, 3),
        (6, 4),
        (8, 1),
        (9, 0),
        (9, 1),
        (10, 0),
        (most, 0),
        (0, most),
        (most, most),
        (1 << 29, 0),
        (1 << 31, 1 << 31),
    ] {
        let region =
            maker.with(Entry { word_offset: offset, word_length: length, ..Entry::default() });
        let part = view.region_bytes(&region);
        let span = spaced(span_numbers(bytes, &part));
        lines.push(format!("region_span {len} {offset} {length} -> {span}"));
        let part = spaced(part_numbers(part.ok()));
        lines.push(format!("region_bytes {text} {offset} {length} -> {part}"));
        for stride in [0, 4, 8, 16, 24, 1 << 63, usize::MAX] {
            let table = view.records(&region, stride);
            let part = table.and_then(|_| view.region_bytes(&region));
            let span = spaced(span_numbers(bytes, &part));
            lines.push(format!("records_span {len} {offset} {length} {stride} -> {span}"));
            if stride == 24 {
                let part = spaced(part_numbers(part.ok()));
                lines.push(format!("records_bytes {text} {offset} {length} {stride} -> {part}"));
            }
        }
    }
}

/// Bytes in hand as tables, and each table's records.
fn tables(lines: &mut Vec<String>, bytes: &[u8]) {
    for (len, stride) in [0, 8, 47, 48]
        .into_iter()
        .flat_map(|len| [0, 1, 4, 8, 12, 16, 24, 32, 48, 1 << 63].map(move |stride| (len, stride)))
    {
        let (bytes, text) = (&bytes[..len], text(&bytes[..len]));
        let table = RecordTable::from_bytes(bytes, stride);
        lines.push(format!("is_table {text} {stride} -> {}", u8::from(table.is_some())));
        let Some(table) = table else { continue };
        lines.push(format!("record_count {text} {stride} -> {}", table.len()));
        for index in [0, 1, table.len(), usize::MAX / stride, usize::MAX] {
            let record = table.get(index);
            let place = spaced(place_numbers(record.map(|part| place_in(bytes, part))));
            lines.push(format!("record_place {len} {stride} {index} -> {place}"));
            let part = spaced(part_numbers(record));
            lines.push(format!("record_bytes {text} {stride} {index} -> {part}"));
        }
    }
}

/// In a table of four records: before, at and behind the record, past the end, of none.
fn ranges(lines: &mut Vec<String>, bytes: &[u8]) {
    let table = RecordTable::from_bytes(bytes, 8).expect("four records");
    for at in [0, 2, 3, 4, usize::MAX] {
        for (first, count) in [(0, 0), (3, 0), (3, 1), (3, 2), (4, 0), (5, 0), (1, 3)] {
            let forward = u8::from(table.range_is_forward(at, first, count));
            let text = text(bytes);
            lines.push(format!("range_is_forward {text} 8 {at} {first} {count} -> {forward}"));
        }
    }
    let most = u32::MAX;
    let forward = u8::from(table.range_is_forward(0, most, most));
    lines.push(format!("range_is_forward {} 8 0 {most} {most} -> {forward}", text(bytes)));
}

fn pools(lines: &mut Vec<String>, bytes: &[u8]) {
    let most = u32::MAX;
    for (offset, size) in [
        (0, 0),
        (0, 20),
        (0, 21),
        (3, 5),
        (20, 0),
        (20, 1),
        (21, 0),
        (most, 0),
        (0, most),
        (most, most),
    ] {
        let part = Pool::from_bytes(bytes).slice(offset, size);
        let place = spaced(place_numbers(part.map(|part| place_in(bytes, part))));
        lines.push(format!("pool_place {} {offset} {size} -> {place}", bytes.len()));
        let part = spaced(part_numbers(part));
        lines.push(format!("pool_bytes {} {offset} {size} -> {part}", text(bytes)));
    }
}
