//! Strange sessions: legal ones that no mounting hands out, over extents of any bytes, and ones that
//! are not legal, or no session at all.

use crate::directory::{Entry, COMPRESSED, ENTRIES, MARKED, RANDOM};
use crate::generate::{extent_mut, random_r, random_text, Sort};
use crate::handmade::Handmade;
use crate::image::{sector, SECTOR};
use crate::layout::{capacity, Place, MOST_RECORDS};
use crate::random::Random;
use crate::session::{mount, Buffer, Engine, OpenFile, Session, MOST_OPEN};
use crate::stored::{
    refused_at, Field, BEYOND, CHANGED, ENTRY, HOLDS, IN_USE, POSITION, STORED_ENTRY,
};
use crate::stored::{END_BYTE, END_SECTOR, HELD_SECTOR, PLACE_BYTE, PLACE_SECTOR};

// ---------------------------------------------------------------------------------------------
// Legal ones.

/// A legal session for a good image, whose extents are disturbed: files are open at any position and
/// place, with sectors held (nothing comes of those of unblocked and random files).
pub fn strange_session(random: &mut Random, image: &mut [u8]) -> Session {
    let (_, mut session) = mount(Engine::Buffered, image);
    disturb_extents(random, image, &session);
    disturb_table(random, &mut session);
    disturb_open_files(random, image, &mut session);
    session
}

/// The same, and of some random files the table has another R than the directory: their granules lie
/// elsewhere.
pub fn strange_wide_session(random: &mut Random, image: &mut [u8]) -> Session {
    let mut session = strange_session(random, image);
    let files = session.table.iter_mut();
    for entry in files.filter(|entry| entry.kind == RANDOM) {
        if random.chance(30) {
            entry.length = random_r(random, RANDOM, Sort::Wide) as u16;
        }
    }
    session
}

/// Changes some bytes of the extents.
fn disturb_extents(random: &mut Random, image: &mut [u8], session: &Session) {
    for entry in session.table.iter().filter(|entry| entry.is_used()) {
        for _ in 0..random.pick(&[0, 1, 3, 20]) {
            let extent = extent_mut(image, entry);
            let at = random.between(0, extent.len() - 1);
            extent[at] = random.pick(&[0, 1, 5, 127, 128, 129, 200, 255]);
        }
    }
}

/// Other counts and marks, within the rules.
fn disturb_table(random: &mut Random, session: &mut Session) {
    for entry in session
        .table
        .iter_mut()
        .filter(|entry| entry.is_sequential())
    {
        if random.chance(30) {
            let most = capacity(entry).unwrap_or(MOST_RECORDS);
            entry.count = random.pick(&[0, 1, 2, most / 2, most]).min(most) as u32;
        }
        if random.chance(30) {
            entry.flags ^= MARKED;
        }
    }
}

/// Opens some files with any lawful position, places and buffer.
fn disturb_open_files(random: &mut Random, image: &[u8], session: &mut Session) {
    let mut slot = 0;
    for number in 0..ENTRIES {
        let entry = session.table[number];
        if slot < MOST_OPEN && entry.is_used() && random.chance(60) {
            session.open[slot] = strange_file(random, image, number, &entry);
            slot += 1;
        }
    }
}

fn strange_file(random: &mut Random, image: &[u8], number: usize, entry: &Entry) -> OpenFile {
    let count = entry.count as usize;
    let position = random.between(0, count);
    let position = random.pick(&[0, position, count.saturating_sub(1), count]);
    let mut file = OpenFile {
        in_use: true,
        entry: number,
        position: position as u32,
        beyond: entry.is_marked() && position == count && random.chance(50),
        ..OpenFile::UNUSED
    };
    if entry.kind == COMPRESSED {
        file.place = strange_place(random, entry);
        file.end_place = strange_place(random, entry);
    }
    if random.chance(70) {
        file.buffer = strange_buffer(random, image, entry, file.place.sector);
    }
    file
}

fn strange_place(random: &mut Random, entry: &Entry) -> Place {
    let byte = random.between(0, SECTOR);
    Place {
        sector: random.between(0, usize::from(entry.sectors) - 1),
        byte: random.pick(&[0, byte, SECTOR - 1, SECTOR]),
    }
}

/// A held sector: as in the image, or changed.
fn strange_buffer(random: &mut Random, image: &[u8], entry: &Entry, near: usize) -> Buffer {
    let last = usize::from(entry.sectors) - 1;
    let any = random.between(0, last);
    let of_extent = random.pick(&[any, near, near + 1]).min(last);
    let mut buffer = Buffer {
        holds: true,
        sector: of_extent,
        changed: random.chance(50),
        bytes: [0; SECTOR],
    };
    buffer
        .bytes
        .copy_from_slice(sector(image, entry.image_sector(of_extent)));
    if buffer.changed {
        let text = random_text(random, 100);
        let at = random.between(0, SECTOR - 100);
        buffer.bytes[at..at + 100].copy_from_slice(&text);
    }
    buffer
}

// ---------------------------------------------------------------------------------------------
// Others.

/// The bytes of a strange session for an image; of most some fields are changed, or all bytes are any.
pub fn strange_bytes(random: &mut Random, image: &[u8], session: &Session) -> Handmade {
    let mut made = Handmade::of(image, session);
    let changes = match random.between(0, 99) {
        0..=29 => 0,
        30..=74 => 1,
        75..=87 => 2,
        88..=94 => random.between(3, 30),
        _ => return wild_bytes(random, made),
    };
    for _ in 0..changes {
        made = change_something(random, made, session);
    }
    made
}

/// The same, and in some of them the session says that its mounting was refused, rightly or not, or has
/// nothing in it.
pub fn strange_bytes_and_refused(random: &mut Random, image: &[u8], session: &Session) -> Handmade {
    let mut made = strange_bytes(random, image, session);
    if random.chance(20) {
        made = other_entry(random, made, session);
    }
    match random.between(0, 99) {
        0..=5 => made.without_files().with_nothing_open().refused(1),
        6..=8 => made.without_files().with_nothing_open().refused(0),
        9..=11 => made.refused(random.pick(&[1, 1, 2, 3, 128, 255])),
        12 => made.without_files().refused(1),
        13 => made.with_nothing_open().refused(1),
        _ => made,
    }
}

/// The table has a closed file's entry elsewhere, by another name, or not at all; the directory has it.
fn other_entry(random: &mut Random, made: Handmade, session: &Session) -> Handmade {
    let is_used = |&number: &usize| session.table[number].is_used();
    let is_closed = |number: &usize| session.slot_of(*number).is_none();
    let closed: Vec<usize> = (0..ENTRIES).filter(is_used).filter(is_closed).collect();
    let free: Vec<usize> = (0..ENTRIES).filter(|number| !is_used(number)).collect();
    if closed.is_empty() || free.is_empty() {
        return made;
    }
    let number = random.pick(&closed);
    let start = number * STORED_ENTRY;
    let entry = made.buffered()[start..start + STORED_ENTRY].to_vec();
    let freed = made.clone().table(number, 0, &[0; STORED_ENTRY]);
    match random.between(0, 2) {
        0 => freed,
        1 => freed.table(random.pick(&free), 0, &entry),
        _ => made.table(number, 0, &[0xE7]),
    }
}

/// Any bytes everywhere, but for the truth values; what the session says of its mounting is left.
fn wild_bytes(random: &mut Random, mut made: Handmade) -> Handmade {
    for at in 0..refused_at(Engine::Buffered) {
        made = made.byte(at, random.byte());
    }
    for slot in 0..MOST_OPEN {
        for field in [IN_USE, BEYOND, HOLDS, CHANGED] {
            made = made.set(slot, field, random.pick(&[0, 1]));
        }
    }
    made
}

fn change_something(random: &mut Random, made: Handmade, session: &Session) -> Handmade {
    match random.between(0, 9) {
        0..=6 => change_state(random, made, session),
        7..=8 => change_table(random, made, session),
        _ => {
            let at = random.between(0, refused_at(Engine::Buffered) - 1);
            made.byte(at, random.byte())
        }
    }
}

/// Another number in an open-file state, mostly one in use.
fn change_state(random: &mut Random, made: Handmade, session: &Session) -> Handmade {
    let most = if random.chance(80) {
        session.open_files().count().max(1)
    } else {
        MOST_OPEN
    };
    let slot = random.between(0, most - 1);
    let field = random.pick(&[
        IN_USE,
        ENTRY,
        POSITION,
        POSITION,
        BEYOND,
        PLACE_SECTOR,
        PLACE_BYTE,
        PLACE_BYTE,
        END_SECTOR,
        END_BYTE,
        HOLDS,
        HELD_SECTOR,
        CHANGED,
    ]);
    let value = other_number(random, session, slot, field);
    made.set(slot, field, value)
}

/// A number for a field of a state, at the edges of the rules.
fn other_number(random: &mut Random, session: &Session, slot: usize, field: Field) -> u64 {
    let file = &session.open[slot];
    let entry = session.table.get(file.entry).copied().unwrap_or_default();
    let small = random.between(0, SECTOR) as u64;
    let number = file.entry as u64;
    match field {
        IN_USE | BEYOND | HOLDS | CHANGED => random.pick(&[0, 1, 1, 1, 1, 1, 1, 2]),
        ENTRY => {
            let any = random.between(0, ENTRIES) as u64;
            let twin = session.open[0].entry as u64;
            let far = random.pick(&[number + (1 << 32), number + 256, u64::MAX]);
            random.pick(&[any, twin, twin, 18, far])
        }
        POSITION => {
            let count = u64::from(entry.count);
            let before = count.saturating_sub(1);
            random.pick(&[before, count, count + 1, count + 1, small, 65_535, 1 << 24])
        }
        PLACE_BYTE | END_BYTE => random.pick(&[1, small, small, 359, 360, 361, 361, 65_536]),
        _ => {
            let sectors = u64::from(entry.sectors);
            let last = sectors.saturating_sub(1);
            random.pick(&[last, sectors, sectors, sectors, 65_536, u64::from(u32::MAX)])
        }
    }
}

/// Another byte or word in an entry of the table, mostly a used one.
fn change_table(random: &mut Random, made: Handmade, session: &Session) -> Handmade {
    let used: Vec<usize> = (0..ENTRIES)
        .filter(|&number| session.table[number].is_used())
        .collect();
    let number = if used.is_empty() || random.chance(10) {
        random.between(0, ENTRIES - 1)
    } else {
        random.pick(&used)
    };
    if random.chance(10) {
        let at = random.between(0, STORED_ENTRY - 1);
        return made.table(number, at, &[random.byte()]);
    }
    let entry = session.table[number];
    let (at, old) = random.pick(&[
        (8, entry.kind),
        (10, entry.length),
        (10, entry.length),
        (12, entry.first),
        (14, entry.sectors),
        (16, 0),
        (18, entry.count as u16),
        (18, entry.count as u16),
        (20, entry.flags),
        (20, entry.flags),
    ]);
    let (more, less) = (old.wrapping_add(1), old.wrapping_sub(1));
    let (two_more, two_less) = (old.wrapping_add(2), old.wrapping_sub(2));
    let small = random.between(0, 4) as u16;
    let value = random.pick(&[more, less, old ^ 1, two_more, two_less, small, 0]);
    made.word(number, at, value)
}
