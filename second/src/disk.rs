//! Images made by hand: files laid one behind another, each told by its kind, R and sectors.

use crate::coding::{encode, GO_ON};
use crate::directory::{Entry, BLOCKED, COMPRESSED, ENTRY_BYTES};
use crate::generate::{extent_mut, new_entry, put_entry};
use crate::image::{put_word, BLANK, SECTOR};
use crate::layout::{blocked_place, unblocked_start, Place};

/// An image to which files are added; the calls that tell more are about the file added last.
#[derive(Clone)]
pub struct Disk {
    image: Vec<u8>,
    next: usize,
    number: usize,
    entry: Entry,
}

impl Disk {
    /// N sectors, all zero.
    pub fn empty(n: usize) -> Disk {
        Disk {
            image: vec![0; n * SECTOR],
            next: 1,
            number: 0,
            entry: Entry::default(),
        }
    }

    /// N sectors with an empty directory; the other bytes are of all sorts.
    pub fn used(n: usize) -> Disk {
        let mut disk = Disk::empty(n);
        for (at, byte) in disk.image[SECTOR..].iter_mut().enumerate() {
            *byte = (at % 251) as u8;
        }
        disk
    }

    /// An empty file in this entry, behind the last file.
    pub fn file(mut self, number: usize, kind: u16, r: usize, sectors: usize) -> Disk {
        self.entry = new_entry(&format!("FILE{number}"), kind, r, self.next, sectors);
        self.next += sectors;
        self.number = number;
        self.put()
    }

    /// Free sectors behind the last file.
    pub fn gap(mut self, sectors: usize) -> Disk {
        self.next += sectors;
        self
    }

    fn put(mut self) -> Disk {
        put_entry(&mut self.image, self.number, &self.entry);
        self
    }

    pub fn named(mut self, name: &str) -> Disk {
        self.entry.name = new_entry(name, 0, 0, 0, 0).name;
        self.put()
    }

    pub fn flags(mut self, flags: u16) -> Disk {
        self.entry.flags = flags;
        self.put()
    }

    /// The file has this many records: those that the bytes are, or coded ones.
    pub fn holding(mut self, count: usize) -> Disk {
        if self.entry.kind == COMPRESSED {
            let records: Vec<Vec<u8>> =
                (0..count).map(|k| some_record(k, self.entry.r())).collect();
            return self.records(&records);
        }
        self.entry.count = count as u32;
        self.put()
    }

    /// The file has these records; those of a compressed one are coded as the writer does it.
    pub fn records(mut self, records: &[Vec<u8>]) -> Disk {
        match self.entry.kind {
            COMPRESSED => self.put_codes(records),
            _ => self.put_records(records),
        }
        self.entry.count = records.len() as u32;
        self.put()
    }

    fn put_records(&mut self, records: &[Vec<u8>]) {
        for (k, record) in records.iter().enumerate() {
            let at = record_start(&self.entry, k);
            let extent = extent_mut(&mut self.image, &self.entry);
            extent[at..at + record.len()].copy_from_slice(record);
        }
    }

    /// The codes lie one behind another.
    fn put_codes(&mut self, records: &[Vec<u8>]) {
        let extent = extent_mut(&mut self.image, &self.entry);
        let mut at = 0;
        for record in records {
            let code = encode(record);
            let end = (at / SECTOR + 1) * SECTOR;
            let to = if at + code.len() > end { end } else { at };
            let filled = (to / SECTOR + 1) * SECTOR;
            extent[at..filled].fill(GO_ON);
            extent[to..to + code.len()].copy_from_slice(&code);
            at = to + code.len();
        }
    }

    /// A file of this many records has these bytes in its extent.
    pub fn codes(mut self, count: usize, codes: &[(usize, &[u8])]) -> Disk {
        let extent = extent_mut(&mut self.image, &self.entry);
        for &(at, code) in codes {
            extent[at..at + code.len()].copy_from_slice(code);
        }
        self.entry.count = count as u32;
        self.put()
    }

    /// The whole extent is filled with a byte.
    pub fn filled(mut self, byte: u8) -> Disk {
        extent_mut(&mut self.image, &self.entry).fill(byte);
        self
    }

    /// A word of the directory is another: at a byte of an entry.
    pub fn word(mut self, number: usize, at: usize, value: u16) -> Disk {
        put_word(&mut self.image, number * ENTRY_BYTES + at, value);
        self
    }

    /// These bytes stand from a byte of the image on.
    pub fn bytes(mut self, at: usize, bytes: &[u8]) -> Disk {
        self.image[at..at + bytes.len()].copy_from_slice(bytes);
        self
    }

    pub fn image(self) -> Vec<u8> {
        self.image
    }
}

/// The byte of its extent at which record k of an unblocked or blocked file begins.
pub fn record_start(entry: &Entry, k: usize) -> usize {
    let place = match entry.kind {
        BLOCKED => blocked_place(entry.r(), k),
        _ => Place {
            sector: unblocked_start(entry.r(), k),
            byte: 0,
        },
    };
    place.sector * SECTOR + place.byte
}

/// Record k of R characters: blanks alone, in groups and behind, other ones for each k.
fn some_record(k: usize, r: usize) -> Vec<u8> {
    let byte = |i: usize| match (i + k) % 7 {
        0 | 1 if !k.is_multiple_of(3) => BLANK,
        _ if i > r - r * (k % 4) / 5 => BLANK,
        place => 0xC1 + ((place + k) % 9) as u8,
    };
    (0..r).map(byte).collect()
}
