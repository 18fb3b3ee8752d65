//! Crate `mending`: mend's answer and every byte afterwards, beside mending.rs's reading of the page.

use crate::images::{self, plain, plane, protected, sealed, FAMILIES};
use crate::inputs::{hex, Entry, Random};
use crate::mending;
use crate::plan::{self, Row};
use crate::tally::Group;
use crate::{ffi_api as ours, region, Run};

pub fn compare(run: &mut Run) {
    let mut seen = Seen::default();
    for family in &FAMILIES {
        run.tally.group(format!("mend_{}", family.name).leak(), |group| {
            (family.each)(&mut run.random, run.rounds, &mut |bytes| same(group, &mut seen, bytes));
        });
    }
    let random = &mut run.random;
    let rounds = run.rounds;
    run.tally.group("mend_restores", |group| restores(group, &mut seen, random, 12_000 * rounds));
    run.tally.group("mend_wilder", |group| wilder(group, &mut seen, random, 6000 * rounds));
    run.tally.group("mend_any_order", |group| any_order(group, &mut seen, random, 6000 * rounds));
    run.tally.group("mend_places", |group| places(group, &mut seen, random));
    run.tally.group("mend_many_regions", |group| many_regions(group, &mut seen, random));
    run.tally.group("mend_4_march", |group| {
        let bytes = images::march(random).0;
        same(group, &mut seen, &bytes);
        refuses(group, &bytes, 1);
    });
    seen.print();
}

/// What was seen, so that a case which never comes up is noticed.
#[derive(Default)]
struct Seen {
    refusals: [u64; 15],
    nothing: u64,
    whole: u64,
    not_whole: u64,
    with_a_store: u64,
    corrected_and_uncorrectable: u64,
}

impl Seen {
    fn count(&mut self, number: u32, answer: [u64; 6]) {
        if number != 0 {
            self.refusals[number as usize] += 1;
            return;
        }
        let [report, _, corrected, uncorrectable, stored, whole] = answer;
        self.nothing += 1 - report;
        self.whole += whole;
        self.not_whole += report - whole;
        self.with_a_store += u64::from(stored > 0);
        self.corrected_and_uncorrectable += u64::from(corrected > 0 && uncorrectable > 0);
    }

    fn print(&self) {
        println!(
            "mend: {} whole, {} not whole, {} nothing; {} with a byte that moved, {} with words \
             corrected and uncorrectable; refusals 1 to 8 {:?}, 12 {}",
            self.whole,
            self.not_whole,
            self.nothing,
            self.with_a_store,
            self.corrected_and_uncorrectable,
            &self.refusals[1..9],
            self.refusals[12]
        );
        let outcomes = [self.whole, self.not_whole, self.nothing, self.with_a_store];
        assert!(outcomes.iter().all(|&times| times > 0) && self.corrected_and_uncorrectable > 0);
        let given = [1, 2, 3, 4, 5, 6, 7, 8, 12];
        assert!(given.iter().all(|&number| self.refusals[number] > 0));
    }
}

/// Mend, and mend again: the second time nothing is corrected and no byte moves. The C API's lookups on the
/// image.
fn same(group: &mut Group, seen: &mut Seen, bytes: &[u8]) {
    let read = mending::mend(bytes);
    let mended = ours::mend(bytes);
    seen.count(read.0, read.1);
    let input = || hex(&bytes[..bytes.len().min(2000)]);
    group.same(&mended, &read, || format!("kw_mend {}", input()));
    region::same(group, bytes);
    if mended.0 == 0 {
        let (_, [report, words, _, uncorrectable, _, whole], left) = mended;
        let settled = (0, [report, words, 0, uncorrectable, 0, whole], left);
        group.same(&ours::mend(&settled.2), &settled, || format!("kw_mend twice {}", input()));
    }
}

/// Refused with 12 for this entry, every byte as it was.
fn refuses(group: &mut Group, bytes: &[u8], named: u64) {
    let expected = (12, [named, 0, 0, 0, 0, 0], bytes.to_vec());
    group.same(ours::mend(bytes), expected, || format!("kw_mend {}", hex(bytes)));
}

// ---- the writer's images

/// Images of random plans with damage of the kind that demand 3 allows come back exactly.
fn restores(group: &mut Group, seen: &mut Seen, random: &mut Random, cases: u64) {
    for _ in 0..cases {
        let rows = any_rows(random);
        let written = write(random, &rows);
        let words = protected_words(&rows);
        let mut bytes = written.clone();
        let often = random.next() % 5;
        outvote(random, &mut bytes[..48], often);
        let header = 48 + 48 * regions(&rows);
        outvote(random, &mut bytes[48..header], often);
        let mut hit = 0;
        for &(word, check) in &words {
            if random.next() % 4 < often {
                flip(&mut bytes, word, check, random.next() % 72);
                hit += 1;
            }
        }
        same(group, seen, &bytes);
        let stored = bytes.iter().zip(&written).filter(|(a, b)| a != b).count() as u64;
        let report = u64::from(regions(&rows) > rows.len());
        let answer = [report, words.len() as u64, hit, 0, stored, report];
        group.same(ours::mend(&bytes), (0, answer, written), || {
            format!("{rows:?} kw_mend {}", hex(&bytes))
        });
    }
}

/// Up to four rows of up to 19 words, some of none.
fn any_rows(random: &mut Random) -> Vec<Row> {
    let kinds = [random.next() as u16, random.next() as u16];
    let row = |i: u16, random: &mut Random| Row {
        kind: (kinds[0].wrapping_add(i.wrapping_mul(kinds[1] | 1))) % 0x8000,
        flags: random.next() as u16 % 8,
        words: random.next() as u32 % 20 * u32::from(random.next() % 8 != 0),
    };
    (0..random.next() as u16 % 5).map(|i| row(i, random)).collect()
}

fn write(random: &mut Random, rows: &[Row]) -> Vec<u8> {
    let payload = random.bytes(rows.iter().map(|row| 8 * row.words as usize).sum());
    plan::write(rows, &payload, 1 << 23).expect("a good plan")
}

/// How many entries the directory has.
fn regions(rows: &[Row]) -> usize {
    rows.len() + rows.iter().filter(|row| row.flags & 2 == 2).count()
}

/// Where the writer puts each word of a row flagged 2, and its check byte.
fn protected_words(rows: &[Row]) -> Vec<(usize, usize)> {
    let mut word = 48 + 48 * regions(rows);
    let mut check = word + rows.iter().map(|row| 8 * row.words as usize).sum::<usize>();
    let mut all = Vec::new();
    for row in rows {
        let words = row.words as usize;
        if row.flags & 2 == 2 {
            all.extend((0..words).map(|w| (word + 8 * w, check + w)));
            check += 8 * words.div_ceil(8);
        }
        word += 8 * words;
    }
    all
}

/// Flips bits of the three copies, of each bit at most one copy's; often 4 flips nearly all of them.
fn outvote(random: &mut Random, copies: &mut [u8], often: u64) {
    let one = copies.len() / 3;
    for bit in 0..8 * one {
        if random.next() % 16 < often * often {
            let copy = (random.next() >> 20) as usize % 3;
            copies[copy * one + bit / 8] ^= 1 << (bit % 8);
        }
    }
}

/// One of the 72 bits of a word and its check byte.
fn flip(bytes: &mut [u8], word: usize, check: usize, bit: u64) {
    let place = if bit < 64 { word + bit as usize / 8 } else { check };
    bytes[place] ^= 1 << (bit % 8);
}

/// Bits flipped anywhere, several in some words, bytes replaced, the end cut off or more added.
fn wilder(group: &mut Group, seen: &mut Seen, random: &mut Random, cases: u64) {
    for _ in 0..cases {
        let rows = any_rows(random);
        let mut bytes = write(random, &rows);
        for (word, check) in protected_words(&rows) {
            for _ in 0..(random.next() % 16).saturating_sub(12) {
                flip(&mut bytes, word, check, random.next() % 72);
            }
        }
        let header = 48 + 48 * regions(&rows);
        let from = if random.next() % 2 == 0 { 0 } else { header.min(bytes.len() - 1) };
        for _ in 0..random.next() % 8 {
            let at = from + (random.next() >> 16) as usize % (bytes.len() - from);
            bytes[at] ^= random.next() as u8 & random.next() as u8;
        }
        match random.next() % 16 {
            0 => bytes.truncate((random.next() >> 16) as usize % bytes.len()),
            1..=3 => bytes.extend([0xC3; 5]),
            _ => {}
        }
        same(group, seen, &bytes);
    }
}

// ---- crafted images

/// Regions side by side or with gaps between them in a random order of entries, some empty, planes
/// too short and too long or of nothing; a few overlap. Then bits are flipped.
fn any_order(group: &mut Group, seen: &mut Seen, random: &mut Random, cases: u64) {
    for _ in 0..cases {
        let count = 1 + random.next() as u16 % 7;
        let mut next = 6 + 6 * u32::from(count);
        let mut entries: Vec<Entry> = Vec::new();
        for kind in 0..count {
            next += (random.next() as u32 % 6).saturating_sub(3);
            let back = u32::from(random.next() % 24 == 0);
            let words = random.next() as u32 % 6;
            entries.push(Entry { kind, ..any_kind(random, count, next - back, words) });
            next += words;
        }
        for i in (1..entries.len()).rev() {
            entries.swap(i, (random.next() >> 16) as usize % (i + 1));
        }
        let mut bytes = sealed(random, &entries, 8 * next as usize + 3);
        for _ in 0..random.next() % 6 {
            let at = (random.next() >> 16) as usize % bytes.len();
            bytes[at] ^= 1 << (random.next() % 8);
        }
        same(group, seen, &bytes);
    }
}

fn any_kind(random: &mut Random, count: u16, offset: u32, words: u32) -> Entry {
    match random.next() % 5 {
        0 => plain(0, offset, words),
        1 => Entry { flags: 10, ..plane(0, random.next() as u16 % count, offset, words) },
        2 => plane(0, random.next() as u16 % count, offset, words),
        _ => protected(0, offset, words),
    }
}

/// Regions of three entries, whose header ends at word 24, and the entry that mend must name.
fn places(group: &mut Group, seen: &mut Seen, random: &mut Random) {
    let mut says = |places, named| three_places(group, seen, random, places, named);
    // an empty region lies nowhere, wherever it starts
    for at in 0..=40 {
        says([(at, 0), (24, 8), (32, 8)], None);
        says([(24, 8), (at, 0), (32, 8)], None);
        says([(24, 8), (32, 8), (at, 0)], None);
        says([(at, 0), (at, 0), (24, 16)], None);
    }
    // a region of a word at every word: in the header, in another, beside it
    for at in 0..40 {
        let header = (at < 24).then_some(0);
        let in_third = (28..30).contains(&at).then_some(2);
        says([(at, 1), (40, 0), (28, 2)], header.or(in_third));
        says([(28, 2), (40, 0), (at, 1)], header.or(in_third).map(|_| 2));
        says([(0, 0), (at, 1), (28, 2)], header.map(|_| 1).or(in_third));
    }
    // side by side, rising and falling; the later one is named, and the first of two
    says([(24, 4), (28, 4), (32, 8)], None);
    says([(32, 8), (28, 4), (24, 4)], None);
    says([(32, 8), (28, 5), (24, 4)], Some(1));
    says([(32, 8), (28, 4), (24, 5)], Some(2));
    says([(24, 5), (28, 4), (32, 8)], Some(1));
    says([(24, 16), (30, 1), (23, 1)], Some(1));
    says([(30, 1), (40, 0), (24, 16)], Some(2));
    says([(24, 1), (0, 40), (24, 1)], Some(1));
    says([(23, 17), (24, 1), (24, 1)], Some(0));
}

/// Three plain regions, or a protected one, a plain one and its plane, with a bit flipped.
fn three_places(
    group: &mut Group,
    seen: &mut Seen,
    random: &mut Random,
    places: [(u32, u32); 3],
    named: Option<u64>,
) {
    let [a, b, c] = places;
    for turn in 0..4 {
        let mut entries = [plain(1, a.0, a.1), plain(2, b.0, b.1), plain(3, c.0, c.1)];
        if turn % 2 == 1 {
            (entries[0].flags, entries[2].flags, entries[2].covers) = (2, 8, 1);
        }
        let mut bytes = sealed(random, &entries, 8 * 40 + turn);
        bytes[8 * 24 + turn] ^= 1 << turn;
        same(group, seen, &bytes);
        match named {
            Some(named) => refuses(group, &bytes, named),
            None => group.same(ours::mend(&bytes).0, 0, || format!("{places:?}")),
        }
    }
}

/// The most regions that there can be: clean, with damage, and the last on the first or on the header.
fn many_regions(group: &mut Group, seen: &mut Seen, random: &mut Random) {
    images::many_regions().iter().for_each(|bytes| same(group, seen, bytes));
    let rows: Vec<(u16, u16, u32)> = (0..512).map(|kind| (kind, 2, 1)).collect();
    let clean = images::planned(random, &rows);
    same(group, seen, &clean);
    let mut damaged = clean.clone();
    damaged[7] ^= 0x10;
    damaged[49_199] ^= 0xFF;
    damaged[49_200] ^= 6;
    damaged[49_200 + 8 * 511] ^= 1;
    same(group, seen, &damaged);
    let last = 48 + 16 * 1023 + 4;
    for (offset, named) in [(6150u32, Some(1023)), (6149, Some(1023)), (6150 + 8 * 128, None)] {
        let mut bytes = clean.clone();
        bytes.extend([0; 8]);
        for copy in 0..3 {
            let at = last + 16 * 1024 * copy;
            bytes[at..at + 4].copy_from_slice(&offset.to_le_bytes());
        }
        same(group, seen, &bytes);
        if let Some(named) = named {
            refuses(group, &bytes, named);
        }
    }
}
