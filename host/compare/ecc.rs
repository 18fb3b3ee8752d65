//! Crate `ecc`: check bytes, decoded words, a plane's words and scan, what a report says.

use crate::inputs::{edges, hex, Random};
use crate::tally::Group;
use crate::{ffi, Run};
use keleusma_wire::ecc::{self as rust, EccPlane, EccReport, WordStatus};

pub fn compare(run: &mut Run) {
    run.tally.group("plane_kind_for", |group| {
        for kind in 0..=u16::MAX {
            let (ours, rusts) = (ffi::plane_kind_for(kind), rust::plane_kind_for(kind));
            group.same(ours, rusts, || format!("{kind}"));
        }
    });
    compare_check_bytes(run);
    compare_decoding(run);
    compare_planes(run);
    compare_reports(run);
    count_published(run);
}

/// Every power of two, every pair of them, random words.
fn compare_check_bytes(run: &mut Run) {
    fn same(group: &mut Group, word: u64) {
        group.same(ffi::check_byte(word), rust::check_byte(word), || format!("{word:#x}"));
    }
    run.tally.group("check_byte_powers_and_pairs", |group| {
        same(group, 0);
        for a in 0..64 {
            (0..=a).for_each(|b| same(group, 1 << a | 1 << b));
        }
    });
    run.tally.group("check_byte_random", |group| {
        (0..100_000 * run.rounds).for_each(|_| same(group, run.random.next()));
    });
}

/// Several words: none, every one and every two of their 72 bits flipped, and every check byte.
fn compare_decoding(run: &mut Run) {
    fn same(group: &mut Group, Codeword(word, check): Codeword) {
        let rusts = decoded(rust::decode_word(word, check));
        group.same(ffi::decode_word(word, check), rusts, || format!("{word:#x}, {check:#x}"));
    }
    let mut words = vec![0, 1, u64::MAX, 1 << 63, 0x0123_4567_89AB_CDEF];
    words.extend((0..2 * run.rounds).map(|_| run.random.next()));
    run.tally.group("decode_word_flips", |group| {
        for codeword in words.iter().map(|&word| Codeword::sound(word)) {
            same(group, codeword);
            for a in 0..72 {
                same(group, codeword.flip(a));
                (0..a).for_each(|b| same(group, codeword.flip(a).flip(b)));
            }
        }
    });
    run.tally.group("decode_word_every_check", |group| {
        for &word in &words {
            (0..=u8::MAX).for_each(|check| same(group, Codeword(word, check)));
        }
    });
}

/// Every length of the data up to five words, every length of the plane up to seven bytes.
fn compare_planes(run: &mut Run) {
    let mut indices: Vec<usize> =
        (0..=9).chain(edges(2).into_iter().map(|at| at as usize)).collect();
    indices.sort_unstable();
    indices.dedup();
    let lengths = || (0..=41).flat_map(|data| (0..=7).map(move |plane| (data, plane)));
    run.tally.group("plane_word", |group| {
        for (data_len, plane_len) in lengths() {
            let (data, plane) = damaged(&mut run.random, data_len, plane_len);
            for &index in &indices {
                let rusts = EccPlane::new(&plane).word(&data, index);
                let rusts = rusts.map(decoded).map_or([0, 0, 0], |[how, word]| [1, how, word]);
                group.same(ffi::plane_word(&plane, &data, index), rusts, || {
                    format!("{}, {}, {index}", hex(&plane), hex(&data))
                });
            }
        }
    });
    run.tally.group("plane_scan", |group| {
        for (data_len, plane_len) in lengths() {
            for _ in 0..20 * run.rounds {
                let (data, plane) = damaged(&mut run.random, data_len, plane_len);
                same_scan(group, &plane, &data);
            }
        }
    });
    run.tally.group("plane_scan_long", |group| {
        for words in [255, 256, 257, 4095, 4096, 4097] {
            for (less, more) in [(0, 0), (1, 0), (0, 1)] {
                let (data, plane) = damaged(&mut run.random, 8 * words - less, words + more);
                same_scan(group, &plane, &data);
                same_scan(group, &plane[1..], &data);
            }
        }
    });
}

fn same_scan(group: &mut Group, plane: &[u8], data: &[u8]) {
    let EccReport { words, corrected, uncorrectable, .. } = EccPlane::new(plane).scan(data);
    let rusts = [words, corrected, uncorrectable].map(|n| n as u64);
    group.same(ffi::plane_scan(plane, data), rusts, || {
        let (plane, data) = (&plane[..plane.len().min(75)], &data[..data.len().min(600)]);
        format!("{}, {}", hex(plane), hex(data))
    });
}

fn compare_reports(run: &mut Run) {
    let counts: Vec<usize> = edges(1).into_iter().map(|n| n as usize).collect();
    run.tally.group("report", |group| {
        for &corrected in &counts {
            for &uncorrectable in &counts {
                let words = run.random.any_size() as usize;
                let mut report = EccReport::default();
                (report.words, report.corrected, report.uncorrectable) =
                    (words, corrected, uncorrectable);
                let rusts = [report.is_clean(), report.needs_scrub()].map(u64::from);
                group.same(ffi::report(words, corrected, uncorrectable), rusts, || {
                    format!("{report:?}")
                });
            }
        }
    });
}

/// The counts that the Rust's documentation gives, over one word, by running ours.
fn count_published(run: &mut Run) {
    let word = run.random.next();
    let check = ffi::check_byte(word);
    run.tally.group("published_4_flips", |group| {
        let all = patterns(4);
        let clean = all.iter().filter(|&flips| ffi::decode_word(word ^ flips, check)[0] == 0);
        group.same((all.len(), clean.count()), (635_376, 5_133), || {
            format!("patterns, of {word:#x} clean")
        });
    });
    run.tally.group("published_3_flips", |group| {
        let all = patterns(3);
        let wrong = all.iter().filter(|&flips| {
            let [how, found] = ffi::decode_word(word ^ flips, check);
            how == 1 && found != word
        });
        group.same((all.len(), wrong.count()), (41_664, 23_364), || {
            format!("patterns, of {word:#x} corrected to a wrong word")
        });
    });
}

/// Every word with `ones` bits set.
fn patterns(ones: usize) -> Vec<u64> {
    if ones == 0 {
        return vec![0];
    }
    let fewer = patterns(ones - 1);
    // one more bit, above the highest that is set
    let above = |less: u64| (64 - less.leading_zeros()..64).map(move |bit| less | 1 << bit);
    fewer.into_iter().flat_map(above).collect()
}

/// A word and its check byte: 72 bits, those of the check byte last.
#[derive(Clone, Copy)]
struct Codeword(u64, u8);

impl Codeword {
    fn sound(word: u64) -> Self {
        Codeword(word, rust::check_byte(word))
    }

    fn flip(self, bit: u32) -> Self {
        if bit < 64 {
            Codeword(self.0 ^ 1 << bit, self.1)
        } else {
            Codeword(self.0, self.1 ^ 1 << (bit - 64))
        }
    }
}

/// Data and a plane of these lengths, of which each codeword has no to three flipped bits, most have none
/// or one; what has no counterpart is random.
pub fn damaged(random: &mut Random, data_len: usize, plane_len: usize) -> (Vec<u8>, Vec<u8>) {
    let (mut data, mut plane) = (random.bytes(data_len), random.bytes(plane_len));
    for (word, check) in data.chunks_exact_mut(8).zip(&mut plane) {
        let mut codeword = Codeword::sound(random.next());
        let flips = [0, 0, 0, 1, 1, 1, 2, 3][random.next() as usize % 8];
        for _ in 0..flips {
            codeword = codeword.flip(random.next() as u32 % 72);
        }
        word.copy_from_slice(&codeword.0.to_le_bytes());
        *check = codeword.1;
    }
    (data, plane)
}

/// The two numbers that stand for a decoded word in C.
pub fn decoded(status: WordStatus) -> [u64; 2] {
    match status {
        WordStatus::Clean(word) => [0, word],
        WordStatus::Corrected(word) => [1, word],
        WordStatus::Uncorrectable => [2, 0],
    }
}
