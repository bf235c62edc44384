//! "a full table of 256 bytes from EBCDIC to ASCII, and one of 256 back" (document 02, item 4), for names too.
//!
//! The listed characters are the blank, 26 capitals, 10 digits and 22 marks "at their standard codes". The
//! tables are told by rows of 16: a byte's high half is the row, its low half the place in it.

/// The ASCII character of each EBCDIC byte, "every other byte shown as a full stop".
const ASCII: [[u8; 16]; 16] = [
    *b"................",  // 0
    *b"................",  // 1
    *b"................",  // 2
    *b"................",  // 3
    *b" ...........<(+.",  // 4
    *b"&..........$*);.",  // 5
    *b"-/.........,%_>?",  // 6
    *b"..........:#@'=\"", // 7
    *b"................",  // 8
    *b"................",  // 9
    *b"................",  // A
    *b"................",  // B
    *b".ABCDEFGHI......",  // C
    *b".JKLMNOPQR......",  // D
    *b"..STUVWXYZ......",  // E
    *b"0123456789......",  // F
];

/// The EBCDIC byte of each ASCII character: "Unlisted ASCII goes back to blank."
#[rustfmt::skip]
const EBCDIC: [[u8; 16]; 16] = [
    [0x40; 16], // 0
    [0x40; 16], // 1
    // blank ! " # $ % & ' ( ) * + , - . /
    [0x40, 0x40, 0x7F, 0x7B, 0x5B, 0x6C, 0x50, 0x7D, 0x4D, 0x5D, 0x5C, 0x4E, 0x6B, 0x60, 0x4B, 0x61],
    // 0 1 2 3 4 5 6 7 8 9 : ; < = > ?
    [0xF0, 0xF1, 0xF2, 0xF3, 0xF4, 0xF5, 0xF6, 0xF7, 0xF8, 0xF9, 0x7A, 0x5E, 0x4C, 0x7E, 0x6E, 0x6F],
    // @ A B C D E F G H I J K L M N O
    [0x7C, 0xC1, 0xC2, 0xC3, 0xC4, 0xC5, 0xC6, 0xC7, 0xC8, 0xC9, 0xD1, 0xD2, 0xD3, 0xD4, 0xD5, 0xD6],
    // P Q R S T U V W X Y Z [ \ ] ^ _
    [0xD7, 0xD8, 0xD9, 0xE2, 0xE3, 0xE4, 0xE5, 0xE6, 0xE7, 0xE8, 0xE9, 0x40, 0x40, 0x40, 0x40, 0x6D],
    [0x40; 16], // 6
    [0x40; 16], // 7
    [0x40; 16], // 8
    [0x40; 16], // 9
    [0x40; 16], // A
    [0x40; 16], // B
    [0x40; 16], // C
    [0x40; 16], // D
    [0x40; 16], // E
    [0x40; 16], // F
];

/// What an EBCDIC byte is shown as.
pub fn ascii(byte: u8) -> u8 {
    entry(&ASCII, byte)
}

/// The EBCDIC byte that an ASCII character goes back to.
pub fn ebcdic(character: u8) -> u8 {
    entry(&EBCDIC, character)
}

/// A text in EBCDIC.
pub fn letters(text: &str) -> Vec<u8> {
    text.bytes().map(ebcdic).collect()
}

fn entry(table: &[[u8; 16]; 16], of: u8) -> u8 {
    table[usize::from(of >> 4)][usize::from(of & 15)]
}
