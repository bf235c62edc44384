//! Document 02, item 1: the RAD Editor's ADD and DELETE, the same in both engines.
//!
//! Both go by the session's table and never read sector 0. "Both change that one directory entry and no
//! other byte": nothing is opened or closed, no buffer is put back, and four open files stop neither.

use crate::answer::{settle, Answer, Outcome};
use crate::directory::{length_is_good, name_is_good, Entry, Table};
use crate::directory::{ENTRY_BYTES, RANDOM, UNBLOCKED};
use crate::engine::session_must_be_legal;
use crate::image::SECTOR;
use crate::session::Session;

/// "ADD takes name, kind, length and sector count": the name as bytes of any number.
#[derive(Clone, Copy, Debug)]
pub struct Asked<'a> {
    pub name: &'a [u8],
    pub kind: u16,
    pub length: u16,
    pub sectors: u16,
}

/// ADD: the new entry's number, or the answer that refuses it. "Refusals: after 12, ... ADD gives 11 on
/// a session from a refused mounting, 13 bad name, 17 bad kind, length or sector count 0, 14 name in
/// use, 15 no free entry, 16 no gap, in that order."
pub fn add(image: &mut [u8], session: &mut Session, asked: &Asked) -> Result<usize, Answer> {
    session_must_be_legal(image, session)?; // 12
    mounting_must_be_good(session)?; // 11
    let name = name_asked(asked)?; // 13
    shape_must_be_good(asked)?; // 17
    name_must_be_new(session, &name)?; // 14
    let number = lowest_free(session)?; // 15
    let first = lowest_gap(&session.table, image.len() / SECTOR, asked)?; // 16
    let entry = Entry {
        name,
        kind: asked.kind,
        length: asked.length,
        first,
        sectors: asked.sectors,
        count: 0, // "starts with count and flags 0"
        flags: 0,
    };
    put_entry(image, session, number, entry);
    Ok(number)
}

/// DELETE: "DELETE zeroes the entry of a file not open, protected or not".
pub fn delete(image: &mut [u8], session: &mut Session, number: usize) -> Answer {
    settle(try_delete(image, session, number))
}

/// "Refusals: after 12, DELETE gives 8 then 9 if open".
fn try_delete(image: &mut [u8], session: &mut Session, number: usize) -> Outcome {
    session_must_be_legal(image, session)?; // 12
    if !session.table.get(number).is_some_and(Entry::is_used) {
        return Err(Answer::NotThere); // 8
    }
    if session.slot_of(number).is_some() {
        return Err(Answer::OpenAlready); // 9
    }
    put_entry(image, session, number, Entry::default());
    Ok(Answer::Done)
}

/// The one entry that changes, in the image's directory (all 20 bytes) and in the table.
fn put_entry(image: &mut [u8], session: &mut Session, number: usize, entry: Entry) {
    let at = number * ENTRY_BYTES;
    image[at..at + ENTRY_BYTES].copy_from_slice(&entry.to_bytes());
    session.table[number] = entry;
}

// ---------------------------------------------------------------------------------------------
// The tests of ADD.

/// 11 "on a session from a refused mounting"
fn mounting_must_be_good(session: &Session) -> Result<(), Answer> {
    if session.refused {
        return Err(Answer::BadImage);
    }
    Ok(())
}

/// 13 "bad name": one not of 8 bytes, or that the directory's rule refuses.
fn name_asked(asked: &Asked) -> Result<[u8; 8], Answer> {
    let name = <[u8; 8]>::try_from(asked.name).ok();
    name.filter(name_is_good).ok_or(Answer::BadName)
}

/// 17 "bad kind, length or sector count 0"; a sector count over what the image has is 16.
fn shape_must_be_good(asked: &Asked) -> Result<(), Answer> {
    let kind_is_good = (UNBLOCKED..=RANDOM).contains(&asked.kind);
    if !kind_is_good || !length_is_good(asked.kind, asked.length) || asked.sectors == 0 {
        return Err(Answer::BadShape);
    }
    Ok(())
}

/// 14 "name in use": all eight bytes, by a used entry of the table.
fn name_must_be_new(session: &Session, name: &[u8; 8]) -> Result<(), Answer> {
    let mut used = session.table.iter().filter(|entry| entry.is_used());
    if used.any(|entry| entry.name == *name) {
        return Err(Answer::NameInUse);
    }
    Ok(())
}

/// "picks the lowest entry"; 15 "no free entry"
fn lowest_free(session: &Session) -> Result<usize, Answer> {
    let free = session.table.iter().position(|entry| !entry.is_used());
    free.ok_or(Answer::NoFreeEntry)
}

/// "picks ... the lowest gap that holds the extent"; 16 "exactly when no run of that many free sectors
/// exists in 1 to N − 1". Where an extent is in the way, the next place to try is behind it.
fn lowest_gap(table: &Table, n: usize, asked: &Asked) -> Result<u16, Answer> {
    let sectors = usize::from(asked.sectors);
    let mut first = 1;
    while first + sectors <= n {
        let in_the_way = table.iter().find(|entry| {
            entry.is_used() && entry.image_sector(0) < first + sectors && first < entry.extent_end()
        });
        match in_the_way {
            Some(entry) => first = entry.extent_end(),
            None => return Ok(first as u16),
        }
    }
    Err(Answer::NoGap)
}
