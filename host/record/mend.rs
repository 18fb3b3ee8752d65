use crate::image::{image_text, spaced};
use crate::images;
use crate::inputs::Random;
use crate::mending;
use crate::scrub;

/// Some good images, with and without damage; of the families some of every outcome.
pub fn lines() -> Vec<String> {
    let random = &mut Random::new(15);
    let mut lines = Vec::new();
    for bytes in images::good(random) {
        mend(&mut lines, &bytes);
    }
    lines.push("# the image of 4 March: refused, no byte moves".into());
    mend(&mut lines, &images::march(random).0);
    lines.push("# a protected region that has no words but a plane: whole".into());
    scrub::no_words().iter().for_each(|bytes| mend(&mut lines, bytes));
    lines.push(
        "# a bit off at each place of the header, in one copy of three, and in each word".into(),
    );
    mend(&mut lines, &every_hit(random));
    lines.push("# some of each outcome".into());
    let mut left = [6; 18];
    for family in images::FAMILIES.iter().filter(|f| SAMPLED.contains(&f.name)) {
        let mut turn = 0;
        let mut of_family = [3; 18];
        (family.each)(random, 1, &mut |bytes| {
            turn += 1;
            let outcome = outcome(bytes);
            // not the first ones, which are much alike
            if turn % 7 == 0 && bytes.len() < 420 && left[outcome] > 0 && of_family[outcome] > 0 {
                left[outcome] -= 1;
                of_family[outcome] -= 1;
                mend(&mut lines, bytes);
            }
        });
    }
    lines
}

const SAMPLED: [&str; 4] = ["voted_changes", "directories", "awkward", "shared"];

/// Two rows of protected words; at each place of the header a bit is off, in the copies by turns.
fn every_hit(random: &mut Random) -> Vec<u8> {
    let mut bytes = images::planned(random, &[(1, 2, 3), (7, 2, 9)]);
    for (base, one) in [(0, 16), (48, 64)] {
        (0..one).for_each(|at| bytes[base + at % 3 * one + at] ^= 1 << (at % 8));
    }
    let payload = 48 + 48 * 4;
    (0..12).for_each(|word| bytes[payload + 8 * word + word % 8] ^= 0x10);
    bytes
}

/// A refusal's number; above them: nothing, whole, not whole, each without and with a byte moved.
fn outcome(bytes: &[u8]) -> usize {
    let (number, [report, _, _, _, stored, whole], _) = mending::mend(bytes);
    if number > 0 {
        number as usize - 1
    } else {
        12 + 2 * (report + whole) as usize + usize::from(stored > 0)
    }
}

/// The numbers, and each byte that moved as `PLACE=VALUE`, `-` where none did.
fn mend(lines: &mut Vec<String>, bytes: &[u8]) {
    let (number, answer, left) = mending::mend(bytes);
    let moved = left.iter().zip(bytes).enumerate().filter(|(_, (new, old))| new != old);
    let moved: Vec<String> = moved.map(|(at, (new, _))| format!("{at}={new:02x}")).collect();
    let moved = if moved.is_empty() { "-".into() } else { moved.join(",") };
    lines.push(format!("kw_mend {} -> {number} {} {moved}", image_text(bytes), spaced(answer)));
}
