//! Bytes in hexadecimal and as letters, sixteen to a line.

/// The lines of these bytes. Each begins with the place of its first byte, in so many digits.
pub fn lines(bytes: &[u8], digits: usize) -> String {
    let lines = (0..).step_by(16).zip(bytes.chunks(16));
    lines.map(|(place, bytes)| line(place, digits, bytes)).collect()
}

/// Up to sixteen bytes: their place, in hexadecimal, and as letters where they are any.
fn line(place: usize, digits: usize, bytes: &[u8]) -> String {
    let hex = |bytes: &[u8]| bytes.iter().map(|byte| format!(" {byte:02x}")).collect::<String>();
    let letter = |byte: &u8| if (32..=126).contains(byte) { char::from(*byte) } else { '.' };
    let letters: String = bytes.iter().map(letter).collect();
    let (left, right) = bytes.split_at(bytes.len().min(8));
    format!("{place:0digits$x} {:<24} {:<24}  |{letters}|\n", hex(left), hex(right))
}
