//! Crate `crc`: the CRC-32 of a run of bytes.

use crate::inputs::{contents, hex};
use crate::tally::Group;
use crate::{ffi, Run};
use keleusma_wire::crc32;

const MIB: usize = 1 << 20;

pub fn compare(run: &mut Run) {
    run.tally.group("crc32_check_value", |group| {
        // The published check value of this CRC: an answer that doesn't come from the Rust.
        group.same(ffi::crc32(b"123456789"), 0xCBF4_3926, || "the digits 1 to 9".into());
    });
    run.tally.group("crc32_1_and_2_bytes", |group| {
        (0..=u8::MAX).for_each(|byte| same(group, &[byte]));
        (0..=u16::MAX).for_each(|two| same(group, &two.to_le_bytes()));
    });
    run.tally.group("crc32_0_to_600_bytes", |group| {
        for len in 0..=600 {
            for bytes in contents(&mut run.random, len, 8 * run.rounds) {
                same(group, &bytes);
            }
        }
    });
    run.tally.group("crc32_1_mib", |group| {
        for bytes in contents(&mut run.random, MIB + 3, run.rounds) {
            same(group, &bytes[..MIB]);
            same(group, &bytes[3..]); // at an odd address
        }
    });
}

fn same(group: &mut Group, bytes: &[u8]) {
    group.same(ffi::crc32(bytes), crc32(bytes), || {
        let beginning = &bytes[..bytes.len().min(600)];
        format!("{} bytes: {}", bytes.len(), hex(beginning))
    });
}
