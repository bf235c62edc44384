//! Sectors, words and names: the smallest parts of an image.

/// "A sector is 360 bytes, that is 180 words of 16 bits, high byte first."
pub const SECTOR: usize = 360;

/// "An image is 360·N bytes, N from 1 to 4,096."
pub const MOST_SECTORS: usize = 4_096;

/// "blanks (hex 40)"
pub const BLANK: u8 = 0x40;

/// N, if the image has a lawful length:
/// "An image is 360·N bytes, N from 1 to 4,096."
pub fn number_of_sectors(image: &[u8]) -> Option<usize> {
    let n = image.len() / SECTOR;
    let lawful = image.len().is_multiple_of(SECTOR) && (1..=MOST_SECTORS).contains(&n);
    lawful.then_some(n)
}

/// The word at byte `at`: "16 bits, high byte first".
pub fn word(bytes: &[u8], at: usize) -> u16 {
    u16::from_be_bytes([bytes[at], bytes[at + 1]])
}

/// Puts a word at byte `at`: "16 bits, high byte first".
pub fn put_word(bytes: &mut [u8], at: usize, value: u16) {
    bytes[at..at + 2].copy_from_slice(&value.to_be_bytes());
}

/// The words of bytes that are summed, one behind another: "An odd last byte counts as the high byte of
/// a word."
pub fn words(bytes: &[u8]) -> impl Iterator<Item = u32> + '_ {
    bytes
        .chunks(2)
        .map(|pair| u32::from(pair[0]) << 8 | pair.get(1).map_or(0, |&low| u32::from(low)))
}

/// The bytes of sector `number` of the image.
pub fn sector(image: &[u8], number: usize) -> &[u8] {
    &image[number * SECTOR..(number + 1) * SECTOR]
}

/// The bytes of sector `number` of the image, to be changed.
pub fn sector_mut(image: &mut [u8], number: usize) -> &mut [u8] {
    &mut image[number * SECTOR..(number + 1) * SECTOR]
}

/// "a capital letter (C1–C9, D1–D9, E2–E9)"
pub fn is_capital(byte: u8) -> bool {
    matches!(byte, 0xC1..=0xC9 | 0xD1..=0xD9 | 0xE2..=0xE9)
}

/// "digits (F0–F9)"
pub fn is_digit(byte: u8) -> bool {
    matches!(byte, 0xF0..=0xF9)
}
