use crate::inputs::Random;
use crate::text;
use keleusma_wire::ecc::*;

pub fn lines() -> Vec<String> {
    let random = &mut Random::new(6);
    let mut lines = Vec::new();
    lines.push("# the plane's kind".into());
    for kind in [0, 1, 2, 0x7FFF, 0x8000, 0x8001, 0xFFFF] {
        lines.push(format!("plane_kind_for {kind} -> {}", plane_kind_for(kind)));
    }
    check_bytes(&mut lines, random);
    decoded_words(&mut lines, random);
    planes(&mut lines, random);
    reports(&mut lines);
    lines
}

/// Every power of two, neighbouring pairs of them (the figure of 3 among them), random words.
fn check_bytes(lines: &mut Vec<String>, random: &mut Random) {
    let mut words = vec![0, u64::MAX];
    words.extend((0..64).map(|bit| 1 << bit));
    words.extend((0..63).map(|bit| 3 << bit));
    words.extend((0..32).map(|_| random.next()));
    for word in words {
        lines.push(format!("check_byte {word} -> {}", check_byte(word)));
    }
}

/// Of a random word: no flip, every one flip, some two and three, every check byte; the figures.
fn decoded_words(lines: &mut Vec<String>, random: &mut Random) {
    let mut codewords = vec![(1, 7), (0, 7), (0, 1), (0, 3), (0, 91), (0, 127)];
    let word = random.next();
    let check = check_byte(word);
    let mut bit = || random.next() as u32 % 72;
    codewords.push((word, check));
    codewords.extend((0..72).map(|a| flipped(word, check, &[a])));
    codewords.extend((0..64).map(|_| flipped(word, check, &[bit(), bit()])));
    codewords.extend((0..64).map(|_| flipped(word, check, &[bit(), bit(), bit()])));
    codewords.extend((0..=u8::MAX).map(|check| (word, check)));
    for (word, check) in codewords {
        lines.push(format!("decode_word {word} {check} -> {}", status(decode_word(word, check))));
    }
}

fn planes(lines: &mut Vec<String>, random: &mut Random) {
    for (plane, data) in damaged_planes(random) {
        let (ecc, p, d) = (EccPlane::new(&plane), text(&plane), text(&data));
        for index in [0, 1, 2, 3, usize::MAX / 8, usize::MAX / 8 + 1, usize::MAX] {
            let answer = ecc.word(&data, index);
            let answer = answer.map_or("0 0 0".into(), |found| format!("1 {}", status(found)));
            lines.push(format!("plane_word {p} {d} {index} -> {answer}"));
        }
        let found = ecc.scan(&data);
        let report = format!("{} {} {}", found.words, found.corrected, found.uncorrectable);
        lines.push(format!("plane_scan {p} {d} -> {report}"));
    }
}

/// A plane and its data, each word with no bit off, one or two: lengths around one and two words,
/// planes shorter, equal and longer.
pub fn damaged_planes(random: &mut Random) -> Vec<(Vec<u8>, Vec<u8>)> {
    let mut made = |data_len, plane_len| {
        let (mut data, mut plane) = (random.bytes(data_len), random.bytes(plane_len));
        for (word, check) in data.chunks_exact_mut(8).zip(&mut plane) {
            *check = check_byte(u64::from_le_bytes(word.try_into().expect("eight bytes")));
            word[random.next() as usize % 8] ^= [0, 1, 3][random.next() as usize % 3];
        }
        (plane, data)
    };
    let lengths = [0, 7, 8, 9, 15, 16, 17].into_iter();
    lengths.flat_map(|data| (0..=3).map(move |p| (data, p))).map(|(d, p)| made(d, p)).collect()
}

fn reports(lines: &mut Vec<String>) {
    for (words, corrected, uncorrectable) in [
        (0, 0, 0),
        (3, 0, 0),
        (3, 1, 0),
        (3, 0, 1),
        (3, 1, 2),
        (usize::MAX, usize::MAX, 0),
        (usize::MAX, 0, usize::MAX),
    ] {
        let mut report = EccReport::default();
        (report.words, report.corrected, report.uncorrectable) = (words, corrected, uncorrectable);
        let (clean, scrub) = (u8::from(report.is_clean()), u8::from(report.needs_scrub()));
        lines.push(format!("report {words} {corrected} {uncorrectable} -> {clean} {scrub}"));
    }
}

/// A word and its check byte with some of their 72 bits flipped, those of the check byte last.
fn flipped(word: u64, check: u8, bits: &[u32]) -> (u64, u8) {
    bits.iter().fold((word, check), |(word, check), &bit| {
        if bit < 64 {
            (word ^ 1 << bit, check)
        } else {
            (word, check ^ 1 << (bit - 64))
        }
    })
}

/// The two numbers that stand for a decoded word.
pub fn status(status: WordStatus) -> String {
    match status {
        WordStatus::Clean(word) => format!("0 {word}"),
        WordStatus::Corrected(word) => format!("1 {word}"),
        WordStatus::Uncorrectable => "2 0".into(),
    }
}
