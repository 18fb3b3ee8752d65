//! An image as the sample writes it: a header whose copies agree as `PROLOGUE*3+DIRECTORY*3+REST`.

use crate::inputs::hex;
use crate::text;

pub fn image_text(bytes: &[u8]) -> String {
    let count = bytes.get(8..10).map_or(0, |two| u16::from_le_bytes([two[0], two[1]]) as usize);
    let header = 48 + 48 * count;
    let agree = |part: &[u8]| {
        let third = part.len() / 3;
        part[..third] == part[third..2 * third] && part[..third] == part[2 * third..]
    };
    if bytes.len() < header || !agree(&bytes[..48]) || !agree(&bytes[48..header]) {
        return text(bytes);
    }
    let mut parts = vec![format!("{}*3", hex(&bytes[..16]))];
    if count > 0 {
        parts.push(format!("{}*3", hex(&bytes[48..48 + 16 * count])));
    }
    if bytes.len() > header {
        parts.push(hex(&bytes[header..]));
    }
    parts.join("+")
}

/// Numbers with a space between them.
pub fn spaced(numbers: impl IntoIterator<Item = u64>) -> String {
    numbers.into_iter().map(|n| n.to_string()).collect::<Vec<_>>().join(" ")
}
