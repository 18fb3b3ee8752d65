//! Plans at each limit of docs/FORMAT.md's "Writer and plan", and what its reading in plan.rs makes of them.
//!
//! The output's bytes are part of every answer, those behind the image and those of a refused plan too.

use crate::inputs::hex;
use crate::plan::{self, Row};
use keleusma_wire::crc32;

/// Rows with these flags and words, of as many kinds as the count says, ascending from the first.
type Run = (u16, u16, u32, u16);

pub fn lines() -> Vec<String> {
    let mut lines = Vec::new();
    figures(&mut lines);
    kinds_and_flags(&mut lines);
    planes(&mut lines);
    payloads(&mut lines);
    counts(&mut lines);
    sizes(&mut lines);
    lines
}

fn figures(lines: &mut Vec<String>) {
    lines.push("# the empty plan".into());
    every_room(lines, &[]);
    lines.push("# the table's row: payload at word 18, plane at word 19, image 160".into());
    every_room(lines, &[(1, 2, 1, 1)]);
}

fn kinds_and_flags(lines: &mut Vec<String>) {
    lines.push("# the largest kind of a row, and the next; a bad row behind a good one".into());
    for kind in [0x7FFE, 0x7FFF, 0x8000, 0x8001, 0xFFFF] {
        full(lines, &[(kind, 2, 1, 1)]);
        full(lines, &[(1, 0, 1, 1), (kind, 0, 1, 1)]);
    }
    lines.push("# each flag of a row and all three; each other bit".into());
    for flags in (0..=8).chain((4..16).map(|bit| 1 << bit)).chain([15, 0x8007, 0xFFFF]) {
        full(lines, &[(5, flags, 1, 1)]);
    }
    full(lines, &[(5, 7, 1, 1), (6, 8, 1, 1)]);
    lines.push("# the kind of an earlier row; beside a bad row; in a bad row".into());
    full(lines, &[(3, 2, 1, 1), (3, 0, 1, 1)]);
    full(lines, &[(0, 0, 0, 1), (7, 0, 1, 1), (0, 0, 0, 1)]);
    full(lines, &[(3, 2, 1, 1), (4, 2, 1, 1), (4, 2, 1, 1), (3, 2, 1, 1)]);
    full(lines, &[(3, 2, 1, 1), (3, 2, 1, 1), (4, 8, 1, 1)]);
    full(lines, &[(3, 2, 1, 1), (4, 8, 1, 1), (3, 2, 1, 1)]);
    full(lines, &[(3, 2, 1, 1), (3, 8, 1, 1)]);
}

fn planes(lines: &mut Vec<String>) {
    lines.push("# a plane holds whole words: its tail is 0".into());
    for words in [0, 1, 7, 8, 9, 15, 16, 17] {
        full(lines, &[(5, 2, words, 1)]);
    }
    lines.push("# planes stand behind all rows, in row order".into());
    every_room(lines, &[(7, 2, 9, 1), (1, 0, 1, 1), (3, 6, 1, 1), (2, 4, 0, 1)]);
    every_room(lines, &[(3, 3, 1, 1), (2, 1, 1, 1), (1, 7, 1, 1)]);
}

fn payloads(lines: &mut Vec<String>) {
    lines.push("# a payload that is a byte off, or a word; of no rows; before the room".into());
    for (runs, lengths) in [
        (&[(1, 2, 1, 1)][..], &[0, 7, 9, 16][..]),
        (&[(1, 2, 1, 1), (2, 0, 3, 1)], &[0, 31, 33, 40]),
        (&[], &[1, 8]),
    ] {
        for &length in lengths {
            write(lines, runs, length, 200);
            write(lines, runs, length, 0);
        }
    }
    lines.push("# sums of words that 32 bits do not hold".into());
    for runs in [[(3, 2, u32::MAX, 1), (4, 2, 1, 1)], [(3, 0, u32::MAX, 1), (4, 0, u32::MAX, 1)]] {
        write(lines, &runs, 0, 200);
    }
}

fn counts(lines: &mut Vec<String>) {
    lines.push("# 1,024 regions and more, of rows, of planes, of both".into());
    for runs in [
        &[(0, 0, 0, 1023)][..],
        &[(0, 0, 1, 1024)],
        &[(0, 0, 0, 1025)],
        &[(0, 2, 1, 512)],
        &[(0, 2, 1, 512), (600, 0, 0, 1)],
        &[(0, 2, 0, 513)],
        &[(0, 4, 0, 1022), (2000, 2, 3, 1)],
        &[(0, 4, 0, 1023), (2000, 2, 3, 1)],
        &[(0, 2, 0, 0x8000)],
    ] {
        full(lines, runs);
    }
    lines.push("# a bad row and a repeated kind are told before that, a payload is not".into());
    full(lines, &[(0, 0, 0, 1024), (2000, 8, 0, 1)]);
    full(lines, &[(0, 0, 0, 1025), (1023, 0, 0, 1)]);
    full(lines, &[(0, 0, 0, 1025), (1024, 0, 0, 1)]);
    write(lines, &[(0, 0, 0, 1024)], 1, 49_200);
    write(lines, &[(0, 0, 0, 1025)], 1, 49_248);
}

fn sizes(lines: &mut Vec<String>) {
    let most = 8_388_608;
    lines.push("# an image of 8,388,608 bytes, and one word more".into());
    let words = (most - 96) / 8;
    for room in [most, most - 1, most + 77] {
        write(lines, &[(9, 1, words, 1)], 8 * words as usize, room as usize);
    }
    for room in [most + 8, 0] {
        write(lines, &[(9, 1, words + 1, 1)], 8 * words as usize + 8, room as usize);
    }
    lines.push("# the same of a row with a plane, and a payload that is off".into());
    let words = 932_051; // with 116,507 of the plane and 18 of the header, 1,048,576
    full(lines, &[(9, 2, words, 1)]);
    write(lines, &[(9, 2, words + 1, 1)], 8 * words as usize + 8, most as usize + 8);
    write(lines, &[(9, 2, words + 1, 1)], 0, most as usize);
}

/// An output exactly full; where a plan is refused, one with room for any small image.
fn full(lines: &mut Vec<String>, runs: &[Run]) {
    let length = payload_length(runs);
    let image = plan::write(&rows(runs), &pattern(length), usize::MAX);
    write(lines, runs, length, image.map_or(400, |image| image.len()));
}

/// An output exactly full, one byte short, some bytes longer, and none at all.
fn every_room(lines: &mut Vec<String>, runs: &[Run]) {
    let length = payload_length(runs);
    let image = plan::write(&rows(runs), &pattern(length), usize::MAX).expect("a good plan");
    for room in [image.len(), image.len() - 1, image.len() + 11, 0] {
        write(lines, runs, length, room);
    }
}

/// The number, the answer, and the output afterwards: its bytes, `=` where each is as it was, or where
/// they are many the checksums of the image and of those behind it.
fn write(lines: &mut Vec<String>, runs: &[Run], payload: usize, room: usize) {
    let (number, answer, left) = match plan::write(&rows(runs), &pattern(payload), room) {
        Err((number, detail)) => (number, detail, "=".into()),
        Ok(image) => {
            let behind = &pattern(room)[image.len()..];
            let left = match room {
                0..=1024 => hex(&[&image, behind].concat()),
                _ => format!("{} {}", crc32(&image), crc32(behind)),
            };
            (0, image.len() as u64, left)
        }
    };
    let (rows, payload, room) = (rows_text(runs), made_text(payload), made_text(room));
    lines.push(format!("kw_write {rows} {payload} {room} -> {number} {answer} {left}"));
}

fn rows(runs: &[Run]) -> Vec<Row> {
    let row = |&(kind, flags, words, count): &Run| {
        (kind..=kind + (count - 1)).map(move |kind| Row { kind, flags, words })
    };
    runs.iter().flat_map(row).collect()
}

fn payload_length(runs: &[Run]) -> usize {
    runs.iter().map(|&(_, _, words, count)| 8 * words as usize * count as usize).sum()
}

/// Bytes that look like any and are never 0, so that a byte that should become 0 shows.
fn pattern(length: usize) -> Vec<u8> {
    let byte = |i| 1 + ((i as u32).wrapping_mul(2_654_435_761) >> 24) % 255;
    (0..length).map(|i| byte(i) as u8).collect()
}

fn made_text(length: usize) -> String {
    if length == 0 {
        "-".into()
    } else {
        format!("~{length}")
    }
}

fn rows_text(runs: &[Run]) -> String {
    let text = |&(kind, flags, words, count): &Run| match count {
        1 => format!("{kind}.{flags}.{words}"),
        _ => format!("{kind}.{flags}.{words}*{count}"),
    };
    if runs.is_empty() {
        "-".into()
    } else {
        runs.iter().map(text).collect::<Vec<_>>().join("+")
    }
}
