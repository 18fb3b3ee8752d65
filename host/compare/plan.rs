//! The writer's rules read off docs/FORMAT.md's "Writer and plan", without a look at our writer: the
//! first refusal, or the image made of a list of entries and of what lies at each one's place.

use crate::inputs::{image, Entry};
use keleusma_wire::ecc::check_byte;
use std::collections::BTreeSet;

/// A row of a plan, as C lays it out.
#[repr(C)]
#[derive(Clone, Copy, Debug)]
pub struct Row {
    pub kind: u16,
    pub flags: u16,
    pub words: u32,
}

/// A refusal's number and detail.
pub type Refusal = (u32, u64);

pub fn write(rows: &[Row], payload: &[u8], room: usize) -> Result<Vec<u8>, Refusal> {
    check_rows(rows)?;
    let entries = directory(rows);
    if entries.len() > 1024 {
        return Err((6, entries.len() as u64));
    }
    let words: u128 = rows.iter().map(|row| u128::from(row.words)).sum();
    if payload.len() as u128 != 8 * words {
        return Err((14, rows.len() as u64));
    }
    let length = match entries.last() {
        None => 48,
        Some(last) => 8 * (u128::from(last.word_offset) + u128::from(last.word_length)),
    };
    if length > 8_388_608 {
        return Err((11, 0));
    }
    let length = length as usize;
    if room < length {
        return Err((13, 0));
    }
    let mut bytes = image(&entries, length);
    fill(&mut bytes, &entries, payload);
    Ok(bytes)
}

fn check_rows(rows: &[Row]) -> Result<(), Refusal> {
    let mut kinds = BTreeSet::new();
    for (i, row) in rows.iter().enumerate() {
        if row.kind >= 0x8000 || row.flags & !(1 | 2 | 4) != 0 {
            return Err((14, i as u64));
        }
        if !kinds.insert(row.kind) {
            return Err((8, row.kind.into()));
        }
    }
    Ok(())
}

/// The rows, then a plane for each row flagged 2, packed right behind the header. The offsets of a
/// plan that is refused for its size may be wrong: nothing but the sum of the lengths is asked then.
fn directory(rows: &[Row]) -> Vec<Entry> {
    let plain = rows.iter().map(|row| Entry {
        kind: row.kind,
        flags: row.flags,
        word_length: row.words,
        ..Entry::default()
    });
    let planes = rows.iter().filter(|row| row.flags & 2 == 2).map(|row| Entry {
        kind: 0x8000 + row.kind,
        flags: 8,
        word_length: row.words.div_ceil(8),
        covers: row.kind,
        ..Entry::default()
    });
    let mut entries: Vec<Entry> = plain.chain(planes).collect();
    let mut next = 6 + 6 * entries.len() as u32;
    for entry in &mut entries {
        entry.word_offset = next;
        next = next.saturating_add(entry.word_length);
    }
    entries
}

/// Each row's payload at its entry's place, and the check bytes of its words at its plane's.
fn fill(image: &mut [u8], entries: &[Entry], payload: &[u8]) {
    let mut left = payload;
    for entry in entries.iter().filter(|entry| entry.flags & 8 == 0) {
        let (data, rest) = left.split_at(8 * entry.word_length as usize);
        left = rest;
        let start = 8 * entry.word_offset as usize;
        image[start..start + data.len()].copy_from_slice(data);
        let own = |plane: &&Entry| plane.flags & 8 == 8 && plane.covers == entry.kind;
        if let Some(plane) = entries.iter().find(own) {
            let start = 8 * plane.word_offset as usize;
            for (place, word) in image[start..].iter_mut().zip(data.chunks(8)) {
                *place = check_byte(u64::from_le_bytes(word.try_into().expect("a whole word")));
            }
        }
    }
}
