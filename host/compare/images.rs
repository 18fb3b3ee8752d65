//! Images, good, damaged and crafted, in families. Every function on images is run on all of them.

use crate::inputs::{contents, image, prologue, Entry, Random};
use keleusma_wire::ecc::check_byte;
use keleusma_wire::layout::{FLAG_ECC_PRESENT, FLAG_IS_ECC};

/// A kind of image. `each` hands every image of it to a function; rounds multiply the random ones.
pub struct Family {
    pub name: &'static str,
    pub each: fn(&mut Random, u64, &mut dyn FnMut(&[u8])),
}

pub const FAMILIES: [Family; 9] = [
    Family { name: "0_to_2_bytes", each: shortest },
    Family { name: "0_to_400_bytes", each: lengths },
    Family { name: "byte_changes", each: byte_changes },
    Family { name: "voted_changes", each: voted_changes },
    Family { name: "truncations", each: truncations },
    Family { name: "directories", each: directories },
    Family { name: "awkward", each: awkward },
    Family { name: "shared", each: shared },
    Family { name: "regions_on_the_header", each: on_the_header },
];

// ---- building blocks

pub fn plain(kind: u16, word_offset: u32, word_length: u32) -> Entry {
    Entry { kind, word_offset, word_length, ..Entry::default() }
}

pub fn protected(kind: u16, word_offset: u32, word_length: u32) -> Entry {
    Entry { flags: FLAG_ECC_PRESENT, ..plain(kind, word_offset, word_length) }
}

pub fn plane(kind: u16, covers: u16, word_offset: u32, word_length: u32) -> Entry {
    Entry { flags: FLAG_IS_ECC, covers, ..plain(kind, word_offset, word_length) }
}

/// An image of these entries, with random bytes after its header and sound planes.
pub fn sealed(random: &mut Random, entries: &[Entry], len: usize) -> Vec<u8> {
    let mut bytes = image(entries, len);
    let header = 48 + 48 * entries.len();
    let payload = random.bytes(bytes.len() - header);
    bytes[header..].copy_from_slice(&payload);
    seal(&mut bytes, entries, &mut |_| 0);
    bytes
}

/// Writes the check byte of every examined word in directory order, with the bits of `off` flipped.
/// Where regions share bytes, a later region's check bytes may spoil an earlier one's.
fn seal(bytes: &mut [u8], entries: &[Entry], off: &mut dyn FnMut(usize) -> u8) {
    for e in
        entries.iter().filter(|e| e.flags & (FLAG_IS_ECC | FLAG_ECC_PRESENT) == FLAG_ECC_PRESENT)
    {
        let covers = |p: &&Entry| p.flags & FLAG_IS_ECC != 0 && p.covers == e.kind;
        let Some(p) = entries.iter().find(covers) else { continue };
        let (word, check) = (e.word_offset as usize, 8 * p.word_offset as usize);
        for w in 0..(e.word_length as usize).min(8 * p.word_length as usize) {
            let at = 8 * (word + w);
            let Some(eight) = bytes.get(at..at + 8) else { break };
            let sound = check_byte(u64::from_le_bytes(eight.try_into().expect("eight bytes")));
            let Some(place) = bytes.get_mut(check + w) else { break };
            *place = sound ^ off(word + w);
        }
    }
}

/// The image that a plan of rows (kind, flags, words) makes, its payload random.
pub fn planned(random: &mut Random, rows: &[(u16, u16, u32)]) -> Vec<u8> {
    let flagged = rows.iter().filter(|row| row.1 & FLAG_ECC_PRESENT != 0);
    let mut at = 6 + 6 * (rows.len() + flagged.clone().count()) as u32;
    let mut next = |words: u32| {
        at += words;
        at - words
    };
    let mut entries: Vec<Entry> = rows
        .iter()
        .map(|&(kind, flags, words)| Entry { flags, ..plain(kind, next(words), words) })
        .collect();
    entries.extend(flagged.map(|&(kind, _, words)| {
        let words = words.div_ceil(8);
        plane(0x8000 | kind, kind, next(words), words)
    }));
    sealed(random, &entries, 8 * at as usize)
}

/// Several good images: of an empty plan, of docs/FORMAT.md's row, of some rows with and without a
/// plane, with header copies that are outvoted, with bytes after all regions.
pub fn good(random: &mut Random) -> Vec<Vec<u8>> {
    let rows = [(1, 2, 3), (2, 0, 1), (7, 2, 9)];
    let mut outvoted = planned(random, &rows[..2]);
    outvoted[3] ^= 0x41;
    outvoted[48 + 16 * 3 + 5] ^= 1;
    outvoted[48 + 2 * 16 * 3 + 9] ^= 0x80;
    let mut longer = planned(random, &[(3, 2, 1)]);
    longer.extend([0x5A; 5]);
    vec![
        planned(random, &[]),
        planned(random, &[(1, 2, 1)]),
        planned(random, &rows),
        outvoted,
        longer,
    ]
}

/// The image of 4 March, and the place of the byte that scrub moves by its bit 0: a protected region
/// lies over the holiday table, which isn't protected and was approved as it stands, and the plane
/// says that a bit of the table is wrong.
pub fn march(random: &mut Random) -> (Vec<u8>, usize) {
    let table = 6 + 6 * 3;
    let entries = [plain(1, table, 2), protected(2, table, 2), plane(0x8002, 2, table + 2, 1)];
    let mut bytes = sealed(random, &entries, 8 * (table as usize + 3));
    // of the table's second word, bit 24: the lowest of its byte 3
    bytes[8 * (table as usize + 2) + 1] ^= check_byte(1 << 24);
    (bytes, 8 * (table as usize + 1) + 3)
}

// ---- families

fn shortest(_: &mut Random, _: u64, each: &mut dyn FnMut(&[u8])) {
    each(&[]);
    (0..=u8::MAX).for_each(|byte| each(&[byte]));
    (0..=u16::MAX).for_each(|two| each(&two.to_le_bytes()));
}

/// Every length 0 to 400: of zeros, of ones, counting, of random bytes; and of a good prologue, three
/// copies of a random directory and random bytes, cut there.
fn lengths(random: &mut Random, rounds: u64, each: &mut dyn FnMut(&[u8])) {
    for len in 0..=400 {
        contents(random, len, 3 * rounds).for_each(|bytes| each(&bytes));
        for _ in 0..3 * rounds {
            let entries: Vec<Entry> = (0..random.next() % 8).map(|_| Entry::any(random)).collect();
            let mut bytes = sealed(random, &entries, len);
            bytes.truncate(len);
            each(&bytes);
        }
    }
}

/// Every byte of several good images set to every other value.
fn byte_changes(random: &mut Random, _: u64, each: &mut dyn FnMut(&[u8])) {
    for mut bytes in good(random) {
        for at in 0..bytes.len() {
            for by in 1..=u8::MAX {
                bytes[at] ^= by;
                each(&bytes);
                bytes[at] ^= by;
            }
        }
    }
}

/// Every byte of the header changed in two and in all three of its copies, so that the vote changes;
/// of the prologue also with its checksum made good again.
fn voted_changes(random: &mut Random, _: u64, each: &mut dyn FnMut(&[u8])) {
    for bytes in good(random) {
        let count = u16::from_le_bytes([bytes[8], bytes[9]]) as usize;
        for by in (0..8).map(|bit| 1 << bit).chain([0x41, 0xFF]) {
            for at in 0..16 {
                each_vote(&bytes, [at, at + 16, at + 32], by, each);
                let mut whole = bytes.clone();
                whole[at] ^= by;
                let sum = keleusma_wire::crc32(&whole[..12]).to_le_bytes();
                whole[12..16].copy_from_slice(&sum);
                whole.copy_within(0..16, 16);
                whole.copy_within(0..16, 32);
                each(&whole);
            }
            for at in 48..48 + 16 * count {
                each_vote(&bytes, [at, at + 16 * count, at + 32 * count], by, each);
            }
        }
    }
}

fn each_vote(bytes: &[u8], copies: [usize; 3], by: u8, each: &mut dyn FnMut(&[u8])) {
    let [a, b, c] = copies;
    for changed in [&[a, b][..], &[a, c], &[b, c], &copies] {
        let mut bytes = bytes.to_vec();
        changed.iter().for_each(|&at| bytes[at] ^= by);
        each(&bytes);
    }
}

/// Several good images cut at every length, and with up to nine bytes more.
fn truncations(random: &mut Random, _: u64, each: &mut dyn FnMut(&[u8])) {
    for mut bytes in good(random) {
        let len = bytes.len();
        bytes.extend([0xC3; 9]);
        (0..=len + 9).for_each(|len| each(&bytes[..len]));
    }
}

/// Directories with good checksums, each shape by hand.
fn directories(random: &mut Random, rounds: u64, each: &mut dyn FnMut(&[u8])) {
    // counts, with nothing in the regions, around the header's length
    for count in [0, 1, 2, 9] {
        let entries: Vec<Entry> = (0..count).map(|kind| plain(kind, 0, 0)).collect();
        let bytes = image(&entries, 48 + 48 * count as usize + 2);
        (0..4).for_each(|less| each(&bytes[..bytes.len() - less]));
    }
    // 48 bytes that claim any count
    for count in [0, 1, 2, 9, 1023, 1024, 1025, 0x7FFF, 0x8000, 0xFFFF] {
        let bytes = prologue(count).repeat(3);
        each(&bytes);
        each(&bytes[..47]);
    }
    for entries in shapes() {
        // the header has 144 or 192 bytes; lengths around the ends of the regions in the shapes
        for len in (144..=216).chain([255, 256, 257]) {
            for _ in 0..rounds.min(4) {
                let mut bytes = sealed(random, &entries, len);
                each(&bytes);
                damage(random, &mut bytes, 48 + 48 * entries.len(), 2);
                each(&bytes);
            }
        }
    }
}

/// Two or three entries each: places, kinds and planes that parse must tell apart.
fn shapes() -> Vec<Vec<Entry>> {
    let most = u32::MAX;
    let mut shapes = Vec::new();
    // places: on the header, at its end, of no bytes, at the end, past it, the largest numbers
    for (offset, words) in [
        (0, 0),
        (0, 1),
        (0, 18),
        (0, 20),
        (5, 1),
        (17, 1),
        (17, 2),
        (18, 0),
        (18, 1),
        (18, 2),
        (19, 1),
        (20, 0),
        (21, 0),
        (22, 0),
        (25, 2),
        (26, 1),
        (27, 0),
        (28, 0),
        (32, 0),
        (33, 0),
        (most, 0),
        (0, most),
        (most, most),
        (most, 1),
        (1, most),
        (1 << 29, 0),
        (0, 1 << 29),
        ((1 << 29) - 1, 1),
        (1 << 31, 1 << 31),
        (most - 1, 2),
    ] {
        shapes.push(vec![plain(1, offset, words), plain(2, 18, 1)]);
        shapes.push(vec![plain(1, 18, 1), plain(2, offset, words)]);
        shapes.push(vec![protected(1, offset, words), plane(0x8001, 1, 19, 1)]);
        shapes.push(vec![protected(1, 18, 1), plane(0x8001, 1, offset, words)]);
        // out of bounds where it repeats a kind, before and after
        shapes.push(vec![plain(1, 18, 1), plain(1, offset, words)]);
        shapes.push(vec![plain(1, offset, words), plain(1, 18, 1)]);
        shapes.push(vec![plain(1, 18, 1), plain(2, offset, words), plain(1, offset, words)]);
        shapes.push(vec![plain(1, 18, 1), plain(2, offset, words), plain(2, 18, 1)]);
    }
    // repeated kinds, kinds at both ends
    for kinds in [[0, 0, 0], [1, 1, 2], [1, 2, 1], [2, 1, 1], [0, 0xFFFF, 0xFFFF], [0xFFFF, 0, 1]] {
        shapes.push(kinds.map(|kind| plain(kind, 24, 1)).to_vec());
    }
    shapes.extend(planes());
    shapes
}

/// Planes: that cover nothing, two for a kind, flagged 2, themselves, one another; too short, too
/// long, of no bytes; protected without a plane, a plane without flag 2.
fn planes() -> Vec<Vec<Entry>> {
    let both = FLAG_ECC_PRESENT | FLAG_IS_ECC;
    let all = 0xFFFF;
    vec![
        vec![protected(1, 24, 1), plane(2, 3, 25, 1)],
        vec![protected(1, 24, 1), plane(2, 1, 25, 1), plane(3, 1, 26, 1)],
        vec![plane(3, 1, 26, 1), protected(1, 24, 1), plane(2, 1, 25, 1)],
        vec![plane(3, 1, 26, 0), protected(1, 24, 1), plane(2, 1, 25, 1)],
        vec![protected(1, 24, 1), Entry { flags: both, ..plane(2, 1, 25, 1) }],
        vec![protected(1, 24, 1), Entry { flags: both, ..plane(2, 1, 25, 1) }, plane(3, 2, 26, 1)],
        vec![Entry { flags: all, ..plane(1, 1, 24, 1) }],
        vec![
            Entry { flags: both, ..plane(1, 2, 24, 1) },
            Entry { flags: both, ..plane(2, 1, 25, 1) },
        ],
        vec![Entry { flags: !FLAG_IS_ECC, ..plain(1, 24, 1) }, plane(2, 1, 25, 1)],
        vec![Entry { flags: !FLAG_ECC_PRESENT, ..plain(1, 24, 1) }, plane(2, 1, 25, 1)],
        vec![Entry { covers: 1, ..protected(2, 25, 1) }, protected(1, 24, 1)],
        vec![plain(1, 24, 1), plane(2, 1, 25, 1)],
        vec![plain(1, 24, 1), protected(3, 25, 1), plane(2, 1, 26, 1)],
        vec![protected(1, 24, 1), protected(3, 25, 1), plane(2, 1, 26, 1)],
        vec![protected(1, 24, 2), plane(2, 1, 24, 0)],
        vec![protected(1, 20, 4), plane(2, 1, 25, 1)],
        vec![protected(1, 18, 9), plane(2, 1, 18, 1)],
        vec![protected(1, 24, 0), plane(2, 1, 25, 1)],
        vec![protected(1, 24, 0), plane(2, 1, 25, 0)],
        vec![protected(0, 24, 1), plain(2, 25, 1)],
        vec![protected(0, 24, 1), plane(2, 0, 25, 1)],
        vec![protected(0xFFFF, 24, 1), plane(0x7FFF, 0xFFFF, 25, 1)],
    ]
}

/// Directories whose every field is drawn from awkward values.
fn awkward(random: &mut Random, rounds: u64, each: &mut dyn FnMut(&[u8])) {
    for _ in 0..10_000 * rounds {
        let count = 1 + random.next() as usize % 5;
        let len = 48 + 48 * count + random.next() as usize % 100;
        let entries: Vec<Entry> = (0..count).map(|_| any_awkward(random, len)).collect();
        let mut bytes = sealed(random, &entries, len);
        let flips = random_below(random, 4);
        damage(random, &mut bytes, 0, flips);
        each(&bytes);
    }
}

fn any_awkward(random: &mut Random, len: usize) -> Entry {
    let end = (len / 8) as u32;
    let kinds = [0u16, 1, 2, 3, 0x8001, 0xFFFF];
    let flags = [0, 2, 2, 2, 8, 8, 8, 10, 1, 4, 0xFFFF];
    let offsets = [0, 1, 6, 12, 18, 24, end - 2, end - 1, end, end + 1, 1 << 29, u32::MAX];
    let lengths = [0, 1, 1, 2, 2, 3, 8, 9, end, 1 << 29, u32::MAX];
    // mostly inside the image, so that parse accepts often
    let mostly = random.next() % 8 != 0;
    let few = |all: usize, inside: usize| if mostly { inside } else { all };
    Entry {
        kind: kinds[random_below(random, 6)].wrapping_add(random.next() as u16 % 7),
        flags: flags[random_below(random, flags.len())],
        word_offset: offsets[random_below(random, few(offsets.len(), 8))],
        word_length: lengths[random_below(random, few(lengths.len(), 6))],
        covers: kinds[random_below(random, 6)].wrapping_add(random.next() as u16 % 7),
    }
}

/// Protected regions that lie on one another, on their own and on other planes, on the header; two
/// that share a plane; with words that are sound, corrected and uncorrectable.
fn shared(random: &mut Random, rounds: u64, each: &mut dyn FnMut(&[u8])) {
    let shapes: [&[Entry]; 10] = [
        // on its own plane, whole and in part; where its last word is the plane
        &[protected(1, 24, 1), plane(2, 1, 24, 1)],
        &[protected(1, 20, 6), plane(2, 1, 22, 1)],
        &[protected(1, 20, 6), plane(2, 1, 25, 1)],
        // on another plane, before and after the region that this one protects
        &[protected(1, 30, 3), protected(3, 34, 2), plane(2, 1, 35, 1), plane(4, 3, 37, 1)],
        &[protected(3, 34, 2), protected(1, 30, 3), plane(2, 1, 35, 1), plane(4, 3, 37, 1)],
        // on another protected region, whole and in part
        &[protected(1, 30, 3), protected(3, 30, 3), plane(2, 1, 35, 1), plane(4, 3, 36, 1)],
        &[protected(1, 30, 3), protected(3, 32, 3), plane(2, 1, 35, 1), plane(4, 3, 36, 1)],
        // two regions share one plane: by two entries of one place, by places that overlap
        &[protected(1, 30, 3), protected(3, 33, 2), plane(2, 1, 35, 1), plane(4, 3, 35, 1)],
        &[protected(1, 30, 9), protected(3, 39, 9), plane(2, 1, 48, 2), plane(4, 3, 49, 2)],
        // on a region without a plane, which must not move on its own
        &[plain(1, 30, 3), protected(3, 31, 3), plane(4, 3, 35, 1)],
    ];
    for _ in 0..40 * rounds {
        for entries in shapes {
            each(&off_by_some(random, entries, 51 * 8));
        }
    }
    for _ in 0..5000 * rounds {
        let count = 2 + random.next() as u32 % 5;
        let first = if random.next() % 4 == 0 { 0 } else { 6 + 6 * count };
        let entries: Vec<Entry> =
            (0..count).map(|i| any_shared(random, i as u16, count as u16, first)).collect();
        let len = 8 * (6 + 6 * count as usize + 24) + random_below(random, 3);
        each(&off_by_some(random, &entries, len));
    }
}

/// Entry i of n, somewhere in the first 20 words from `first` on.
fn any_shared(random: &mut Random, i: u16, n: u16, first: u32) -> Entry {
    let word_offset = first + random.next() as u32 % 16;
    let word_length = random.next() as u32 % 5;
    if random.next() % 2 == 0 {
        protected(i, word_offset, word_length)
    } else {
        plane(i, random.next() as u16 % n, word_offset, 1 + word_length / 4)
    }
}

/// A sealed image in which many words are off by one bit and some by two.
fn off_by_some(random: &mut Random, entries: &[Entry], len: usize) -> Vec<u8> {
    let mut bytes = sealed(random, entries, len);
    let mut often = Random::new(random.next());
    seal(&mut bytes, entries, &mut |_| some_column(&mut often));
    bytes
}

/// Nothing, a data bit's column, a check bit's, or two bits.
fn some_column(random: &mut Random) -> u8 {
    match random.next() % 8 {
        0..=2 => 0,
        3..=5 => check_byte(1 << (random.next() % 64)),
        6 => 1 << (random.next() % 8),
        _ => 3 << (random.next() % 7),
    }
}

/// A protected region over the header, with check bytes that have a bit of it flipped: of one copy,
/// which is outvoted, or the same bit of two or three, which changes the header that later regions
/// are read by, or spoils it.
fn on_the_header(random: &mut Random, rounds: u64, each: &mut dyn FnMut(&[u8])) {
    // on all of the prologue and the directory of four: entries 0 and 1 are protected, then planes
    let end = 6 + 6 * 4;
    let entries = [
        protected(1, 0, end),
        protected(2, end, 3),
        plane(0x8001, 1, end + 3, 4),
        plane(0x8002, 2, end + 7, 1),
    ];
    let clean = sealed(random, &entries, 8 * (end as usize + 8));
    each(&clean);
    // every bit of the prologue and of the directory, in each set of copies
    for (base, words) in [(0, 2), (6, 8)] {
        for (bit, copies) in (0..64 * words).flat_map(|bit| (1..8).map(move |set| (bit, set))) {
            let is_off = |word: usize| {
                let within = (base..base + 3 * words).contains(&word);
                let copy = if within { (word - base) / words } else { 3 };
                copies >> copy & 1 == 1 && (word - base) % words == bit / 64
            };
            let mut bytes = clean.clone();
            seal(&mut bytes, &entries, &mut |word| {
                if is_off(word) {
                    check_byte(1 << (bit % 64))
                } else {
                    0
                }
            });
            each(&bytes);
        }
    }
    // in front of, between and behind others
    for _ in 0..100 * rounds {
        let mut entries = entries.to_vec();
        for i in (1..4).rev() {
            entries.swap(i, random_below(random, i + 1));
        }
        entries[0].word_length = random.next() as u32 % (end + 8);
        let mut bytes = sealed(random, &entries, 8 * (end as usize + 8));
        let (bit, copies) = (random.next() % 64, random.next() % 8);
        seal(&mut bytes, &entries, &mut |word| {
            if copies >> (word / 2 % 3) & 1 == 1 {
                check_byte(1 << bit)
            } else {
                0
            }
        });
        each(&bytes);
    }
}

/// Directories of 1023 to 1025 entries, with nothing wrong, and the last entry out of bounds or a
/// repeat of the first or of the one before it; cut by a byte at the header's end. They are no family,
/// since the Rust takes seconds to scrub one that it accepts.
pub fn many_regions() -> Vec<Vec<u8>> {
    let mut all = Vec::new();
    for count in [1023u16, 1024, 1025] {
        let mut entries: Vec<Entry> = (0..count).map(|kind| plain(kind, 6, 1)).collect();
        let header = 48 + 48 * count as usize;
        all.push(image(&entries, header + 8));
        all.push(image(&entries, header)[..header - 1].to_vec());
        let last = entries.len() - 1;
        for kind in [0, count - 2] {
            entries[last].kind = kind;
            all.push(image(&entries, header));
        }
        entries[last] = plain(count, header as u32 / 8, 1);
        all.push(image(&entries, header + 8));
        all.push(image(&entries, header + 7));
    }
    all
}

/// Some bits flipped, from a byte on.
fn damage(random: &mut Random, bytes: &mut [u8], from: usize, flips: usize) {
    for _ in 0..flips {
        if from < bytes.len() {
            let at = from + random_below(random, bytes.len() - from);
            bytes[at] ^= 1 << (random.next() % 8);
        }
    }
}

fn random_below(random: &mut Random, n: usize) -> usize {
    (random.next() >> 16) as usize % n
}
