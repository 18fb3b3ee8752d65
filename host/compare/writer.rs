//! Crate `writer`: kw_write beside plan.rs's reading of the page. Every byte of the lent output is
//! compared, with a pattern in it before the call.

use crate::inputs::{hex, Random};
use crate::plan::{self, Refusal, Row};
use crate::tally::Group;
use crate::{region, Run};

extern "C" {
    fn kw_write(
        rows: *const Row,
        rows_len: usize,
        payload: *const u8,
        payload_len: usize,
        out: *mut u8,
        out_len: usize,
        answer: *mut u64,
    ) -> u32;
}

pub fn compare(run: &mut Run) {
    run.tally.group("write_random", |group| {
        for _ in 0..20_000 * run.rounds {
            let rows = random_rows(&mut run.random);
            let payload = random_payload(&mut run.random, &rows);
            every_room(group, &mut run.random, &rows, &payload);
        }
    });
    run.tally.group("write_figures", |group| {
        for words in 0..=65 {
            accepted(group, &mut run.random, &[Row { kind: 1, flags: 2, words }]);
        }
    });
    run.tally.group("write_counts", |group| compare_counts(group, &mut run.random));
    run.tally.group("write_order", |group| compare_order(group, &mut run.random));
    run.tally.group("write_sizes", |group| compare_sizes(group, &mut run.random));
    run.tally.group("write_many_rows", |group| compare_many(group, &mut run.random));
}

/// Up to 8 rows, most of them fine, some with a bad flag or kind, some with an earlier row's kind.
fn random_rows(random: &mut Random) -> Vec<Row> {
    (0..random.next() % 9)
        .map(|_| Row {
            kind: match random.next() % 16 {
                0 => random.next() as u16,
                1 => 0x7FFF + (random.next() % 3) as u16,
                2 | 3 => (random.next() % 16) as u16,
                _ => (random.next() % 0x8000) as u16,
            },
            flags: match random.next() % 16 {
                0 => random.next() as u16,
                1 => 1 << (random.next() % 16),
                _ => (random.next() % 8) as u16,
            },
            words: (random.next() % 20) as u32,
        })
        .collect()
}

/// Of the right length, and now and then a little off.
fn random_payload(random: &mut Random, rows: &[Row]) -> Vec<u8> {
    let right = payload_length(rows);
    let off = [1, 7, 8, 64][random.next() as usize % 4];
    match random.next() % 16 {
        0 => random.bytes(right + off),
        1 => random.bytes(right.saturating_sub(off)),
        _ => random.bytes(right),
    }
}

fn payload_length(rows: &[Row]) -> usize {
    rows.iter().map(|row| 8 * row.words as usize).sum()
}

/// 511 to 513 and 1023 to 1026 regions, of plain rows, of rows with planes, of both.
fn compare_counts(group: &mut Group, random: &mut Random) {
    for regions in (511..=513).chain(1023..=1026) {
        for planes in [0, 1, regions / 4, regions / 2] {
            let rows = some_rows(random, regions - planes, planes);
            accepted(group, random, &rows);
        }
    }
}

/// So many rows, of distinct kinds in no order; the first `planes` of them are flagged 2.
fn some_rows(random: &mut Random, count: usize, planes: usize) -> Vec<Row> {
    let (step, start) = (random.next() as u16 | 1, random.next() as u16);
    let kind = |i: usize| (i as u16).wrapping_mul(step).wrapping_add(start) & 0x7FFF;
    (0..count)
        .map(|i| Row {
            kind: kind(i),
            flags: if i < planes { 2 } else { 4 },
            words: (random.next() % 3) as u32,
        })
        .collect()
}

/// A plan for each refusal and for each two of them, so that their order is seen: a bad row, a
/// repeated kind (each at the front and behind 1024 rows), too many regions, a payload of another
/// length, a large image, an output that is too short.
fn compare_order(group: &mut Group, random: &mut Random) {
    let bad_kind = Row { kind: 0x8000, flags: 2, words: 1 };
    let bad_flag = Row { kind: 0x7FFF, flags: 8, words: 1 };
    let row = |kind| Row { kind, flags: 2, words: 1 };
    let large = Row { kind: 0x7FFE, flags: 0, words: 0x10_0000 };
    let mut plans: Vec<Vec<Row>> = vec![
        vec![],
        vec![row(3)],
        vec![row(3), row(3)],
        vec![row(3), bad_kind],
        vec![row(3), bad_flag],
        vec![bad_kind, bad_kind],
        vec![row(3), row(3), bad_kind],
        vec![row(3), bad_flag, row(3)],
        vec![row(3), row(4), row(3), row(4)],
        // One row that is both bad and a repetition.
        vec![row(3), Row { flags: 16, ..row(3) }],
        vec![large],
        vec![large, row(3), row(3)],
        vec![large, bad_kind],
        // Sums that 32 bits do not hold, and then 64.
        vec![Row { words: u32::MAX, ..row(3) }, Row { words: 1, ..row(4) }],
        vec![Row { words: u32::MAX, ..row(3) }, Row { words: u32::MAX, ..row(4) }],
    ];
    let many: Vec<Row> = some_rows(random, 1100, 7)
        .into_iter()
        .filter(|row| row.kind < 0x7FFE && ![3, 4].contains(&row.kind))
        .collect();
    for extra in [bad_kind, bad_flag, many[0], many[1050], large] {
        plans.push(many.clone());
        plans.push([&many[..], &[extra]].concat());
        plans.push([&[extra], &many[..]].concat());
        plans.push([&many[..], &[extra, bad_flag]].concat());
        plans.push([&many[..], &[many[9], extra]].concat());
    }
    for rows in plans {
        let sum: u64 = rows.iter().map(|row| 8 * u64::from(row.words)).sum();
        for payload_len in [0, 8, sum.min(0x80_0000) as usize, sum.min(0x80_0000) as usize + 1] {
            let payload = random.bytes(payload_len);
            every_room(group, random, &rows, &payload);
        }
    }
}

/// Images of 8,388,608 bytes and a little more or less, in one region and in several.
fn compare_sizes(group: &mut Group, random: &mut Random) {
    let most = 8_388_608 / 8;
    for words in most - 14..=most - 10 {
        accepted(group, random, &[Row { kind: 9, flags: 1, words }]);
    }
    // A region and its plane: 144 bytes of header, nine bytes for each word.
    for words in (most - 18) * 8 / 9 - 9..=(most - 18) * 8 / 9 + 9 {
        accepted(group, random, &[Row { kind: 9, flags: 2, words }]);
    }
}

/// As many rows as there are kinds, and more: the answer is another for a bad row at the very end.
fn compare_many(group: &mut Group, random: &mut Random) {
    let all = some_rows(random, 0x8000, 0x4000);
    accepted(group, random, &all);
    for last in [all[0], all[0x7FFF], Row { kind: 0x8000, flags: 0, words: 0 }] {
        accepted(group, random, &[&all[..], &[last]].concat());
        accepted(group, random, &[&all[..], &[last, last, all[5]]].concat());
    }
}

/// A plan with the payload that it asks for.
fn accepted(group: &mut Group, random: &mut Random, rows: &[Row]) {
    let payload = random.bytes(payload_length(rows));
    every_room(group, random, rows, &payload);
}

/// An output exactly full, one byte short, some bytes longer, and none at all; the C API's lookups on the
/// image.
fn every_room(group: &mut Group, random: &mut Random, rows: &[Row], payload: &[u8]) {
    let image = plan::write(rows, payload, usize::MAX);
    image.iter().for_each(|image| region::same(group, image));
    let full = image.map_or(48, |image| image.len());
    for room in [full, full - 1, full + 1, full + 77, 0] {
        let before = random.bytes(room);
        let page = plan::write(rows, payload, room);
        group.same(ours(rows, payload, &before), expected(page, &before), || {
            format!("{rows:?}, payload {}, room {room}, answer and bytes", hex(payload))
        });
    }
}

type Answer = (u32, u64, Vec<u8>);

fn expected(page: Result<Vec<u8>, Refusal>, before: &[u8]) -> Answer {
    let mut after = before.to_vec();
    match page {
        Err((number, detail)) => (number, detail, after),
        Ok(image) => {
            after[..image.len()].copy_from_slice(&image);
            (0, image.len() as u64, after)
        }
    }
}

fn ours(rows: &[Row], payload: &[u8], before: &[u8]) -> Answer {
    let mut out = before.to_vec();
    let mut answer = u64::MAX;
    // Safety: each pointer and length describe memory of the kind that the callee may read or write.
    let number = unsafe {
        kw_write(
            rows.as_ptr(),
            rows.len(),
            payload.as_ptr(),
            payload.len(),
            out.as_mut_ptr(),
            out.len(),
            &mut answer,
        )
    };
    (number, answer, out)
}
