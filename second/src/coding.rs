//! "Compressed records": the writer's coding and the reader's decoding.

use crate::image::{BLANK, SECTOR};
use crate::layout::Place;

/// "128 is lawful only where a record could start, and not at byte 0 of a sector:
/// it means go on in the next sector."
pub const GO_ON: u8 = 128;

/// "Runs over 127 are split, 127 first."
const LONGEST_RUN: usize = 127;

/// "0 ends the record"
const END: u8 = 0;

/// The writer's code of a record of R characters (a short one already padded with blanks).
/// "A coded record has at most R + 3 bytes."
pub fn encode(record: &[u8]) -> Vec<u8> {
    let mut code = Vec::new();
    let mut rest = without_trailing_blanks(record);
    while !rest.is_empty() {
        let blanks = leading_blanks(rest);
        if blanks >= 2 {
            put_blank_run(&mut code, blanks);
            rest = &rest[blanks..];
        } else {
            let characters = leading_characters(rest);
            put_character_run(&mut code, &rest[..characters]);
            rest = &rest[characters..];
        }
    }
    code.push(END);
    code
}

/// "The writer drops trailing blanks"
fn without_trailing_blanks(record: &[u8]) -> &[u8] {
    let kept = record.iter().rposition(|&byte| byte != BLANK);
    &record[..kept.map_or(0, |last| last + 1)]
}

fn leading_blanks(rest: &[u8]) -> usize {
    rest.iter().take_while(|&&byte| byte == BLANK).count()
}

/// The characters before the next group of two or more blanks:
/// "lets a single blank stand among characters".
fn leading_characters(rest: &[u8]) -> usize {
    (0..rest.len())
        .find(|&at| leading_blanks(&rest[at..]) >= 2)
        .unwrap_or(rest.len())
}

/// "makes each other unbroken group of two or more blanks a blank run";
/// "129–255 stands for 1–127 blanks"; "Runs over 127 are split, 127 first."
fn put_blank_run(code: &mut Vec<u8>, blanks: usize) {
    let mut left = blanks;
    while left > 0 {
        let run = left.min(LONGEST_RUN);
        code.push(GO_ON + run as u8);
        left -= run;
    }
}

/// "A control byte 1–127 is followed by that many characters.";
/// "Runs over 127 are split, 127 first."
fn put_character_run(code: &mut Vec<u8>, characters: &[u8]) {
    for run in characters.chunks(LONGEST_RUN) {
        code.push(run.len() as u8);
        code.extend_from_slice(run);
    }
}

/// Decodes the record that starts at the first byte lent; what is lent is the rest of its
/// sector. Gives the R characters and the number of coded bytes, or none if the code is bad.
pub fn decode(rest_of_sector: &[u8], r: usize) -> Option<(Vec<u8>, usize)> {
    let mut record = Vec::new();
    let mut at = 0;
    loop {
        // "A code is bad if it runs past its sector"
        let control = *rest_of_sector.get(at)?;
        at += 1;
        match control {
            // "0 ends the record, and the missing characters up to R are blanks."
            END => {
                record.resize(r, BLANK);
                return Some((record, at));
            }
            // "has 128 elsewhere"
            GO_ON => return None,
            // "A control byte 1–127 is followed by that many characters."
            1..=127 => {
                let run = usize::from(control);
                record.extend_from_slice(rest_of_sector.get(at..at + run)?);
                at += run;
            }
            // "129–255 stands for 1–127 blanks."
            129..=255 => {
                let run = usize::from(control - GO_ON);
                record.resize(record.len() + run, BLANK);
            }
        }
        // "gives more than R characters"
        if record.len() > r {
            return None;
        }
    }
}

/// A record found in an extent: its characters, where its code starts and the place behind it.
pub struct Decoded {
    pub record: Vec<u8>,
    pub start: Place,
    pub behind: Place,
}

/// The next record from a place on. `view` shows a sector of the extent.
pub fn next_record<'a>(
    place: Place,
    r: usize,
    sectors: usize,
    view: impl Fn(usize) -> &'a [u8],
) -> Option<Decoded> {
    let start = record_start(place, sectors, &view)?;
    let (record, length) = decode(&view(start.sector)[start.byte..], r)?;
    let behind = Place {
        sector: start.sector,
        byte: start.byte + length,
    };
    Some(Decoded {
        record,
        start,
        behind,
    })
}

/// Where the record due at a place starts: there, or at byte 0 of the next sector if the place
/// goes on. None: the code "leaves the extent".
fn record_start<'a>(
    place: Place,
    sectors: usize,
    view: &impl Fn(usize) -> &'a [u8],
) -> Option<Place> {
    let next = Place {
        sector: place.sector + 1,
        byte: 0,
    };
    let start = match place.byte {
        // "A place at byte 360 also goes on there."
        SECTOR => next,
        // "not at byte 0 of a sector": a 128 there is met by the decoder, as bad.
        0 => place,
        // "it means go on in the next sector"
        byte if view(place.sector)[byte] == GO_ON => next,
        _ => place,
    };
    (start.sector < sectors).then_some(start)
}

/// The place just behind the first `count` records of an extent, or none if one is bad:
/// "first "count" records decode one after another inside the extent".
pub fn place_behind<'a>(
    count: usize,
    r: usize,
    sectors: usize,
    view: impl Fn(usize) -> &'a [u8],
) -> Option<Place> {
    let mut place = Place::default();
    for _ in 0..count {
        place = next_record(place, r, sectors, &view)?.behind;
    }
    Some(place)
}

/// Where a code of `e` bytes goes from a place on:
/// "A coded record of e bytes goes at the current place o if o + e ≤ 360, else to the next
/// sector". None if that sector is past the extent (answer 3).
pub fn place_for(e: usize, place: Place, sectors: usize) -> Option<Place> {
    if place.byte + e <= SECTOR {
        return Some(place);
    }
    let next = Place {
        sector: place.sector + 1,
        byte: 0,
    };
    (next.sector < sectors).then_some(next)
}
