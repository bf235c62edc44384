//! Sessions made by hand, legal or not: what a mounting hands out, with some of its bytes changed, for
//! both engines at once.

use crate::directory::ENTRIES;
use crate::image::SECTOR;
use crate::patch::{difference, Patch};
use crate::session::{mount, Engine, Session, MOST_OPEN};
use crate::stored::{put_number, refused_at, state_bytes, state_start, store, Field};
use crate::stored::{BUFFER, CHANGED, ENTRY, HELD_SECTOR, HOLDS, IN_USE, STORED_ENTRY};

const ENGINES: [Engine; 2] = [Engine::Plain, Engine::Buffered];

/// The bytes of a session for the plain and for the buffered engine, and what the mounting gave.
#[derive(Clone)]
pub struct Handmade {
    mounted: [Vec<u8>; 2],
    bytes: [Vec<u8>; 2],
}

impl Handmade {
    /// The session that mounting the image hands out.
    pub fn mounted(image: &[u8]) -> Handmade {
        let mounted = ENGINES.map(|engine| store(&mount(engine, image).1));
        Handmade {
            bytes: mounted.clone(),
            mounted,
        }
    }

    /// This session, in place of the one that mounting the image hands out.
    pub fn of(image: &[u8], session: &Session) -> Handmade {
        let bytes_for = |engine| {
            store(&Session {
                engine,
                ..session.clone()
            })
        };
        Handmade {
            bytes: ENGINES.map(bytes_for),
            ..Handmade::mounted(image)
        }
    }

    /// This session, in place of the one that mounting another image hands out.
    pub fn over(self, image: &[u8]) -> Handmade {
        Handmade {
            bytes: self.bytes,
            ..Handmade::mounted(image)
        }
    }

    /// A number of an open-file state is another, in the engines that have it.
    pub fn set(mut self, slot: usize, field: Field, value: u64) -> Handmade {
        for (engine, bytes) in ENGINES.into_iter().zip(&mut self.bytes) {
            let start = state_start(engine, slot);
            if field.at + field.size <= state_bytes(engine) {
                put_number(&mut bytes[start..], field, value);
            }
        }
        self
    }

    /// A state in use: the entry's file is open.
    pub fn open(self, slot: usize, entry: usize) -> Handmade {
        self.set(slot, IN_USE, 1).set(slot, ENTRY, entry as u64)
    }

    /// The buffer holds a sector, changed or not.
    pub fn holding(self, slot: usize, sector: usize, changed: bool) -> Handmade {
        self.set(slot, HOLDS, 1)
            .set(slot, HELD_SECTOR, sector as u64)
            .set(slot, CHANGED, u64::from(changed))
    }

    /// The buffer has these bytes, from a byte on.
    pub fn buffer(mut self, slot: usize, from: usize, bytes: &[u8]) -> Handmade {
        let [_, buffered] = &mut self.bytes;
        let start = state_start(Engine::Buffered, slot) + BUFFER;
        let room = buffered[start..start + SECTOR].iter_mut().skip(from);
        for (to, &byte) in room.zip(bytes) {
            *to = byte;
        }
        self
    }

    /// Bytes of an entry of the table, from one of its 22 bytes on.
    pub fn table(mut self, entry: usize, at: usize, new: &[u8]) -> Handmade {
        let start = entry * STORED_ENTRY + at;
        for bytes in &mut self.bytes {
            bytes[start..start + new.len()].copy_from_slice(new);
        }
        self
    }

    /// A word of an entry of the table.
    pub fn word(self, entry: usize, at: usize, value: u16) -> Handmade {
        self.table(entry, at, &value.to_be_bytes())
    }

    /// An entry's count: two words.
    pub fn count(self, entry: usize, count: u32) -> Handmade {
        self.table(entry, 16, &count.to_be_bytes())
    }

    /// A byte of both engines' sessions; one past the end of a session changes nothing there.
    pub fn byte(mut self, at: usize, value: u8) -> Handmade {
        for bytes in &mut self.bytes {
            if let Some(byte) = bytes.get_mut(at) {
                *byte = value;
            }
        }
        self
    }

    /// What the session says of its mounting: 1 that it was refused.
    pub fn refused(mut self, value: u8) -> Handmade {
        for (engine, bytes) in ENGINES.into_iter().zip(&mut self.bytes) {
            bytes[refused_at(engine)] = value;
        }
        self
    }

    /// No used entry.
    pub fn without_files(self) -> Handmade {
        let free = [0; STORED_ENTRY];
        (0..ENTRIES).fold(self, |made, number| made.table(number, 0, &free))
    }

    /// Nothing open.
    pub fn with_nothing_open(self) -> Handmade {
        (0..MOST_OPEN).fold(self, |made, slot| made.set(slot, IN_USE, 0))
    }

    /// The bytes for the buffered engine.
    pub fn buffered(&self) -> &[u8] {
        let [_, buffered] = &self.bytes;
        buffered
    }

    /// What is patched of the plain and of the buffered engine's session.
    pub fn patches(&self) -> [Vec<Patch>; 2] {
        std::array::from_fn(|engine| difference(&self.mounted[engine], &self.bytes[engine]))
    }
}
