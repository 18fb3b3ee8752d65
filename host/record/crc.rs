use crate::inputs::Random;
use crate::text;
use keleusma_wire::crc32;

pub fn lines() -> Vec<String> {
    let random = &mut Random::new(2);
    let mut inputs = vec![b"123456789".to_vec()];
    inputs.extend((0..=40).map(|len| random.bytes(len)));
    inputs.extend([63, 64, 65, 255, 256, 600].map(|len| random.bytes(len)));
    let mut lines: Vec<String> =
        inputs.iter().map(|bytes| format!("crc32 {} -> {}", text(bytes), crc32(bytes))).collect();
    for byte in [0x00, 0x01, 0x80, 0xFF] {
        for count in [1, 4, 12, 600, 4096, 1 << 20] {
            lines.push(format!("crc32 {byte:02x}*{count} -> {}", crc32(&vec![byte; count])));
        }
    }
    lines
}
