//! The pass listing told anew, by the tiny model's records and a list of characters of its own. It takes
//! nothing from `showing.rs`, `engine.rs` and `characters.rs` but what it holds to account.

use crate::cases::Case;
use crate::listing::listing;
use crate::model::{Model, Tape};
use crate::selfcheck::{must, Check};
use crate::session::Engine;
use crate::showing::pass_listing;

/// The listed characters, from a code on, one code for each.
const RUNS: [(u8, &str); 11] = [
    (0x40, " "),
    (0x4B, ".<(+"),
    (0x50, "&"),
    (0x5B, "$*);"),
    (0x60, "-/"),
    (0x6B, ",%_>?"),
    (0x7A, ":#@'=\""),
    (0xC1, "ABCDEFGHI"),
    (0xD1, "JKLMNOPQR"),
    (0xE2, "STUVWXYZ"),
    (0xF0, "0123456789"),
];

/// The listed character of a byte, if there is one.
pub fn listed(byte: u8) -> Option<char> {
    RUNS.iter().find_map(|&(first, run)| {
        let at = byte.checked_sub(first)?;
        run.chars().nth(usize::from(at))
    })
}

/// Both engines show what the model tells.
pub fn check_shown(case: &Case) -> Check {
    let told = told(&case.image, case.typed());
    for engine in [Engine::Plain, Engine::Buffered] {
        let shown = pass_listing(engine, &case.image, case.typed());
        must(shown == told, "the model's pass listing")?;
    }
    Ok(())
}

fn told(image: &[u8], typed: &[u8]) -> String {
    if listing(image) == "BAD IMAGE\n" {
        return "ANSWER 11\n".to_string();
    }
    let model = Model::of_good_image(image);
    let mut tapes = model.tapes.iter().flatten();
    match tapes.find(|tape| is_typed(&tape.name, typed)) {
        None => "ANSWER 8\n".to_string(),
        Some(tape) if tape.kind == 4 => "ANSWER 7\n".to_string(),
        Some(tape) => lines(tape),
    }
}

/// A name has only listed characters: it is typed as it is listed, with any number of its blanks.
fn is_typed(name: &[u8], typed: &[u8]) -> bool {
    let whole: Vec<u8> = name.iter().map(|&byte| shown(byte) as u8).collect();
    let least = name.iter().filter(|&&byte| byte != 0x40).count();
    (least..=8).any(|length| whole[..length] == *typed)
}

fn shown(byte: u8) -> char {
    listed(byte).unwrap_or('.')
}

fn lines(tape: &Tape) -> String {
    let mut text = String::new();
    for record in &tape.records {
        let last = record.iter().rposition(|&byte| byte != 0x40);
        let end = last.map_or(0, |last| last + 1);
        text.extend(record[..end].iter().map(|&byte| shown(byte)));
        text.push('\n');
    }
    text
}
