//! A session in bytes. This form is not document 01's: it is that of SESSIONS.md.
//!
//! 517 bytes for the plain engine, 1,981 for the buffered one: "the table: 18 entries of 22 bytes",
//! then "four open-file states, of 30 bytes each, or of 396 with buffers", then one byte: whether it is
//! from a refused mounting.

use crate::directory::{Entry, ENTRIES};
use crate::image::{put_word, word, SECTOR};
use crate::layout::Place;
use crate::session::{Buffer, Engine, OpenFile, Session, MOST_OPEN};

/// An entry of the table: "as in the directory of an image, high byte first, but its count has two
/// words, high word first".
pub const STORED_ENTRY: usize = 22;

/// Where the first open-file state begins.
const STATES: usize = ENTRIES * STORED_ENTRY;

/// A number of an open-file state: its first byte and its bytes, "low byte first".
#[derive(Clone, Copy, Debug, PartialEq, Eq)]
pub struct Field {
    pub at: usize,
    pub size: usize,
}

const fn field(at: usize, size: usize) -> Field {
    Field { at, size }
}

pub const IN_USE: Field = field(0, 1);
pub const ENTRY: Field = field(1, 8);
pub const POSITION: Field = field(9, 4);
pub const BEYOND: Field = field(13, 1);
pub const PLACE_SECTOR: Field = field(14, 4);
pub const PLACE_BYTE: Field = field(18, 4);
pub const END_SECTOR: Field = field(22, 4);
pub const END_BYTE: Field = field(26, 4);
/// "With buffers there is more".
pub const HOLDS: Field = field(30, 1);
pub const HELD_SECTOR: Field = field(31, 4);
pub const CHANGED: Field = field(35, 1);
/// What a session says of itself: the one byte behind its states.
const REFUSED: Field = field(0, 1);
/// Where the 360 bytes of the buffer begin in a state.
pub const BUFFER: usize = 36;

/// The bytes of an open-file state.
pub fn state_bytes(engine: Engine) -> usize {
    match engine {
        Engine::Plain => 30,
        Engine::Buffered => BUFFER + SECTOR,
    }
}

/// Where an open-file state begins.
pub fn state_start(engine: Engine, slot: usize) -> usize {
    STATES + slot * state_bytes(engine)
}

/// Where a session says whether it is from a refused mounting: its last byte.
pub fn refused_at(engine: Engine) -> usize {
    state_start(engine, MOST_OPEN)
}

/// The bytes of a session: 517 or 1,981.
fn session_bytes(engine: Engine) -> usize {
    refused_at(engine) + 1
}

// ---------------------------------------------------------------------------------------------
// Storing.

pub fn store(session: &Session) -> Vec<u8> {
    let mut bytes = vec![0; session_bytes(session.engine)];
    for (to, entry) in bytes.chunks_mut(STORED_ENTRY).zip(&session.table) {
        store_entry(to, entry);
    }
    let states = bytes[STATES..].chunks_exact_mut(state_bytes(session.engine));
    for (to, file) in states.zip(&session.open) {
        store_file(session.engine, to, file);
    }
    bytes[refused_at(session.engine)] = u8::from(session.refused);
    bytes
}

/// "name 8, kind 2, length 2, first 2, sectors 2, count 4, flags 2"
fn store_entry(to: &mut [u8], entry: &Entry) {
    to[..8].copy_from_slice(&entry.name);
    put_word(to, 8, entry.kind);
    put_word(to, 10, entry.length);
    put_word(to, 12, entry.first);
    put_word(to, 14, entry.sectors);
    to[16..20].copy_from_slice(&entry.count.to_be_bytes());
    put_word(to, 20, entry.flags);
}

fn store_file(engine: Engine, to: &mut [u8], file: &OpenFile) {
    put_number(to, IN_USE, u64::from(file.in_use));
    put_number(to, ENTRY, file.entry as u64);
    put_number(to, POSITION, u64::from(file.position));
    put_number(to, BEYOND, u64::from(file.beyond));
    put_number(to, PLACE_SECTOR, file.place.sector as u64);
    put_number(to, PLACE_BYTE, file.place.byte as u64);
    put_number(to, END_SECTOR, file.end_place.sector as u64);
    put_number(to, END_BYTE, file.end_place.byte as u64);
    if engine == Engine::Buffered {
        put_number(to, HOLDS, u64::from(file.buffer.holds));
        put_number(to, HELD_SECTOR, file.buffer.sector as u64);
        put_number(to, CHANGED, u64::from(file.buffer.changed));
        to[BUFFER..].copy_from_slice(&file.buffer.bytes);
    }
}

/// Puts a number into a state, low byte first.
pub fn put_number(state: &mut [u8], field: Field, value: u64) {
    let bytes = value.to_le_bytes();
    state[field.at..field.at + field.size].copy_from_slice(&bytes[..field.size]);
}

// ---------------------------------------------------------------------------------------------
// Reading.

/// The session that bytes are; none if they are no session.
pub fn read_session(bytes: &[u8]) -> Option<Session> {
    let engine = engine_of(bytes)?;
    let mut open = [OpenFile::UNUSED; MOST_OPEN];
    for (slot, file) in open.iter_mut().enumerate() {
        let start = state_start(engine, slot);
        *file = read_file(engine, &bytes[start..start + state_bytes(engine)])?;
    }
    let entry = |i: usize| read_entry(&bytes[i * STORED_ENTRY..(i + 1) * STORED_ENTRY]);
    Some(Session {
        engine,
        table: std::array::from_fn(entry),
        open,
        refused: truth(&bytes[refused_at(engine)..], REFUSED)?,
    })
}

/// "The number of the bytes says which engine serves"
fn engine_of(bytes: &[u8]) -> Option<Engine> {
    [Engine::Plain, Engine::Buffered]
        .into_iter()
        .find(|&engine| bytes.len() == session_bytes(engine))
}

fn read_entry(from: &[u8]) -> Entry {
    let mut name = [0; 8];
    name.copy_from_slice(&from[..8]);
    Entry {
        name,
        kind: word(from, 8),
        length: word(from, 10),
        first: word(from, 12),
        sectors: word(from, 14),
        count: u32::from(word(from, 16)) << 16 | u32::from(word(from, 18)),
        flags: word(from, 20),
    }
}

fn read_file(engine: Engine, from: &[u8]) -> Option<OpenFile> {
    Some(OpenFile {
        in_use: truth(from, IN_USE)?,
        entry: index(from, ENTRY),
        position: number(from, POSITION) as u32,
        beyond: truth(from, BEYOND)?,
        place: Place {
            sector: index(from, PLACE_SECTOR),
            byte: index(from, PLACE_BYTE),
        },
        end_place: Place {
            sector: index(from, END_SECTOR),
            byte: index(from, END_BYTE),
        },
        buffer: match engine {
            Engine::Plain => Buffer::EMPTY,
            Engine::Buffered => read_buffer(from)?,
        },
    })
}

fn read_buffer(from: &[u8]) -> Option<Buffer> {
    let mut bytes = [0; SECTOR];
    bytes.copy_from_slice(&from[BUFFER..]);
    Some(Buffer {
        holds: truth(from, HOLDS)?,
        sector: index(from, HELD_SECTOR),
        changed: truth(from, CHANGED)?,
        bytes,
    })
}

/// "A byte that is 0 or 1 by these tables and has another value, in any of the four states, in use or
/// not, or at the end, makes the bytes no session."
fn truth(state: &[u8], field: Field) -> Option<bool> {
    match number(state, field) {
        0 => Some(false),
        1 => Some(true),
        _ => None,
    }
}

/// A number that counts entries, sectors or bytes; one too large for this machine is its largest,
/// which no rule lets pass.
fn index(state: &[u8], field: Field) -> usize {
    usize::try_from(number(state, field)).unwrap_or(usize::MAX)
}

fn number(state: &[u8], field: Field) -> u64 {
    let bytes = &state[field.at..field.at + field.size];
    bytes
        .iter()
        .rev()
        .fold(0, |high, &low| high << 8 | u64::from(low))
}
