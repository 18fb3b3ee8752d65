//! The inputs both sides are run on: a random generator, edge numbers, contents, crafted images.

use keleusma_wire::{crc32, Region, WireView};

/// Marsaglia's xorshift on 64 bits: the same seed gives the same run.
pub struct Random(u64);

impl Random {
    pub fn new(seed: u64) -> Self {
        // From the state 0 it would never get away.
        Random(seed | 1 << 63)
    }

    pub fn next(&mut self) -> u64 {
        self.0 ^= self.0 << 13;
        self.0 ^= self.0 >> 7;
        self.0 ^= self.0 << 17;
        self.0
    }

    /// A number of a random width, so that small ones come up as often as large ones.
    pub fn any_size(&mut self) -> u64 {
        let shift = self.next() % 64;
        self.next() >> shift
    }

    pub fn bytes(&mut self, len: usize) -> Vec<u8> {
        (0..len).map(|_| (self.next() >> 32) as u8).collect()
    }
}

/// Numbers at which arithmetic on lengths and offsets can go wrong: up to `reach` to either side of
/// 0 (and so of the largest), of each power of two, and of the largest divided by 8, 16 and 48.
pub fn edges(reach: u64) -> Vec<u64> {
    let powers = (0..64).map(|bit| 1u64 << bit);
    let quotients = [8, 16, 48].map(|by| u64::MAX / by);
    let middles = powers.chain(quotients).chain([0]);
    let mut all: Vec<u64> = middles.flat_map(|middle| around(middle, reach)).collect();
    all.sort_unstable();
    all.dedup();
    all
}

fn around(middle: u64, reach: u64) -> impl Iterator<Item = u64> {
    (0..=2 * reach).map(move |step| middle.wrapping_sub(reach).wrapping_add(step))
}

/// The edges that fit in 32 bits; 2^32 is an edge, so the largest of 32 bits are among them.
pub fn edges32(reach: u64) -> Vec<u32> {
    edges(reach).into_iter().filter_map(|n| u32::try_from(n).ok()).collect()
}

/// The edges, then random numbers of every width.
pub fn numbers(random: &mut Random, reach: u64, randoms: u64) -> impl Iterator<Item = u64> + '_ {
    edges(reach).into_iter().chain((0..randoms).map(|_| random.any_size()))
}

/// Contents of a given length: zeros, ones, counting up, then random ones.
pub fn contents(
    random: &mut Random,
    len: usize,
    randoms: u64,
) -> impl Iterator<Item = Vec<u8>> + '_ {
    let counting = (1..=len).map(|i| i as u8).collect();
    let plain = [vec![0; len], vec![0xFF; len], counting];
    plain.into_iter().chain((0..randoms).map(move |_| random.bytes(len)))
}

pub fn hex(bytes: &[u8]) -> String {
    bytes.iter().map(|byte| format!("{byte:02x}")).collect()
}

/// The fields of a directory entry, in their order.
#[derive(Clone, Copy, Debug, Default)]
pub struct Entry {
    pub kind: u16,
    pub flags: u16,
    pub word_offset: u32,
    pub word_length: u32,
    pub covers: u16,
}

impl Entry {
    pub fn any(random: &mut Random) -> Self {
        Entry {
            kind: random.next() as u16,
            flags: random.next() as u16,
            word_offset: random.any_size() as u32,
            word_length: random.any_size() as u32,
            covers: random.next() as u16,
        }
    }
}

/// An image of `len` bytes, or of its header alone: a good prologue and the directory as given,
/// whether or not parse would take it, three times each, then zeros.
pub fn image(entries: &[Entry], len: usize) -> Vec<u8> {
    let mut image = prologue(entries.len() as u16).repeat(3);
    image.extend(entries.iter().flat_map(entry_bytes).collect::<Vec<u8>>().repeat(3));
    image.resize(image.len().max(len), 0);
    image
}

pub fn prologue(count: u16) -> Vec<u8> {
    let (magic, marker, version, flags) = (0x4B41_5558u32, 0xFEFFu16, 2u16, 0u16);
    let mut bytes = magic.to_le_bytes().to_vec();
    for field in [marker, version, count, flags] {
        bytes.extend(field.to_le_bytes());
    }
    bytes.extend(crc32(&bytes).to_le_bytes());
    bytes
}

fn entry_bytes(entry: &Entry) -> Vec<u8> {
    let mut bytes = Vec::with_capacity(16);
    bytes.extend(entry.kind.to_le_bytes());
    bytes.extend(entry.flags.to_le_bytes());
    bytes.extend(entry.word_offset.to_le_bytes());
    bytes.extend(entry.word_length.to_le_bytes());
    bytes.extend(entry.covers.to_le_bytes());
    bytes.extend([0, 0]);
    bytes
}

/// Makes the Rust's `Region` with any fields, also those that no image in memory could have.
///
/// A `Region` can't be built outside its crate, but its fields are public: one is read from an
/// image with a single empty region, and `with` sets the fields of a copy.
pub struct RegionMaker(Region);

impl RegionMaker {
    pub fn new() -> Self {
        let image = image(&[Entry::default()], 0);
        let view = WireView::parse(&image).expect("the crafted image parses");
        RegionMaker(view.region_at(0).expect("the crafted image has a region"))
    }

    pub fn with(&self, entry: Entry) -> Region {
        let mut region = self.0;
        region.kind = entry.kind;
        region.flags = entry.flags;
        region.word_offset = entry.word_offset;
        region.word_length = entry.word_length;
        region.covers = entry.covers;
        region
    }
}
