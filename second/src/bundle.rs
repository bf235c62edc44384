//! Files of many cases, as the program `play_cases` takes them, and the text it prints for one.
//! This form is the brief's, not document 01's.
//!
//! A case is a header of eight words, then an image, patches of the sessions, rows and the bytes
//! that the rows use up:
//!
//! | Word | Content |
//! |---|---|
//! | 0 | 1 a whole image follows; 2 patches of the last whole image of the file |
//! | 1, 2 | high and low word of the image's length in bytes, or of the number of patches |
//! | 3 | the number of rows |
//! | 4, 5 | high and low word of the number of bytes |
//! | 6 | the number of patches of the plain engine's session |
//! | 7 | the number of patches of the buffered engine's session, behind those of the plain one's |
//!
//! A patch is three words: high and low word of an offset, and the new byte; one whose offset is
//! past the end changes nothing. A session is patched behind the mounting, in the bytes of
//! `stored.rs`.

use std::fmt::Write;

use crate::cases::Case;
use crate::image::{word, words};
use crate::patch::{difference, put_patches, Patch};
use crate::play::Played;
use crate::script::{Script, ROW_BYTES};
use crate::session::Engine;

const WHOLE: u16 = 1;
const PATCHED: u16 = 2;
const HEADER_BYTES: usize = 16;
const PATCH_BYTES: usize = 6;

/// The longest image of a case: 182 sectors.
pub const MOST_BUNDLED: usize = 65_520;

// ---------------------------------------------------------------------------------------------
// Writing.

/// The file of these cases: an image much like the last whole one is told by patches.
pub fn bundle(cases: &[Case]) -> Vec<u8> {
    let mut file = Vec::new();
    let mut last_whole: Option<&[u8]> = None;
    for case in cases {
        match last_whole.and_then(|whole| patches(whole, &case.image)) {
            Some(patches) => {
                put_header(&mut file, PATCHED, patches.len(), case);
                put_all(&mut file, &patches);
            }
            None => {
                put_header(&mut file, WHOLE, case.image.len(), case);
                file.extend(&case.image);
                last_whole = Some(&case.image);
            }
        }
        for patches in &case.sessions {
            put_all(&mut file, patches);
        }
        file.extend(case.script.row_bytes());
        file.extend(&case.script.bytes);
    }
    file
}

/// The header: the form of the image and the number of its bytes or patches, then the other numbers.
fn put_header(file: &mut Vec<u8>, form: u16, number: usize, case: &Case) {
    file.extend(form.to_be_bytes());
    put_long(file, number);
    file.extend((case.script.rows.len() as u16).to_be_bytes());
    put_long(file, case.script.bytes.len());
    for patches in &case.sessions {
        file.extend((patches.len() as u16).to_be_bytes());
    }
}

fn put_all(file: &mut Vec<u8>, patches: &[Patch]) {
    for patch in patches {
        put_long(file, patch.at);
        file.extend([0, patch.byte]);
    }
}

/// A number as its high and its low word.
fn put_long(file: &mut Vec<u8>, number: usize) {
    file.extend((number as u32).to_be_bytes());
}

/// The patches that make an image of a whole one, if there are some few.
fn patches(whole: &[u8], image: &[u8]) -> Option<Vec<Patch>> {
    if whole.len() != image.len() {
        return None;
    }
    let patches = difference(whole, image);
    (patches.len() * PATCH_BYTES < image.len()).then_some(patches)
}

// ---------------------------------------------------------------------------------------------
// Reading.

/// The cases of a file, or one line that tells what is wrong with it.
pub fn unbundle(file: &[u8]) -> Result<Vec<Case>, String> {
    let mut cases = Vec::new();
    let mut last_whole = None;
    let mut rest = file;
    while !rest.is_empty() {
        let name = format!("case {}", cases.len() + 1);
        let case = take_case(&mut rest, &mut last_whole, &name);
        cases.push(case.map_err(|why| format!("{name}: {why}"))?);
    }
    Ok(cases)
}

fn take_case(
    rest: &mut &[u8],
    last_whole: &mut Option<Vec<u8>>,
    name: &str,
) -> Result<Case, String> {
    let header = take(rest, HEADER_BYTES)?;
    let number = long(header, 2);
    let image = match word(header, 0) {
        WHOLE => {
            let whole = take(rest, number)?.to_vec();
            *last_whole = Some(whole.clone());
            whole
        }
        PATCHED => {
            let patches = take_patches(rest, number)?;
            let mut image = last_whole.clone().ok_or("patches, and no image before")?;
            put_patches(&mut image, &patches);
            image
        }
        form => return Err(format!("unknown form {form}")),
    };
    let plain = take_patches(rest, usize::from(word(header, 12)))?;
    let buffered = take_patches(rest, usize::from(word(header, 14)))?;
    let rows = take(rest, usize::from(word(header, 6)) * ROW_BYTES)?;
    let bytes = take(rest, long(header, 8))?;
    let script = Script::parse(rows, bytes.to_vec())?;
    Ok(Case::new(name, "", image, script).with_sessions([plain, buffered]))
}

/// The next bytes of a file.
fn take<'a>(rest: &mut &'a [u8], length: usize) -> Result<&'a [u8], String> {
    let (taken, left) = rest
        .split_at_checked(length)
        .ok_or("the file is cut short")?;
    *rest = left;
    Ok(taken)
}

fn long(bytes: &[u8], at: usize) -> usize {
    usize::from(word(bytes, at)) << 16 | usize::from(word(bytes, at + 2))
}

/// The next patches of a file.
fn take_patches(rest: &mut &[u8], number: usize) -> Result<Vec<Patch>, String> {
    let patches = take(rest, number * PATCH_BYTES)?.chunks(PATCH_BYTES);
    let patch = |bytes: &[u8]| Patch {
        at: long(bytes, 0),
        byte: bytes[5],
    };
    Ok(patches.map(patch).collect())
}

// ---------------------------------------------------------------------------------------------
// What is expected.

/// What `play_cases` prints for these cases.
pub fn expected(cases: &[Case]) -> String {
    let mut text = String::new();
    for (number, case) in (1..).zip(cases) {
        let _ = writeln!(text, "CASE {number}");
        for (engine, name) in [(Engine::Plain, "PLAIN"), (Engine::Buffered, "BUFFERED")] {
            let Played { text: rows, image } = case.expected(engine);
            let (a, b) = fletcher(&image);
            let _ = writeln!(text, "{name}\n{rows}IMAGE {a} {b}");
        }
    }
    text
}

/// The sum modulo 65,535 of an image's words, and the sum modulo 65,535 of these sums behind
/// each word.
fn fletcher(image: &[u8]) -> (u32, u32) {
    words(image).fold((0, 0), |(a, b), value| {
        let a = (a + value) % 65_535;
        (a, (a + b) % 65_535)
    })
}
