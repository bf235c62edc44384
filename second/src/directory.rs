//! The directory: entries, the rules of a good directory, search by name.

use crate::answer::Answer;
use crate::coding;
use crate::image::{is_capital, is_digit, number_of_sectors, put_word, word, BLANK};
use crate::layout::{capacity, Place, MOST_RECORDS};

/// "18 entries of 20 bytes, numbered 0 to 17"
pub const ENTRIES: usize = 18;
pub const ENTRY_BYTES: usize = 20;

/// "kind: 1 unblocked, 2 blocked, 3 compressed, 4 random; 0 free"
pub const FREE: u16 = 0;
pub const UNBLOCKED: u16 = 1;
pub const BLOCKED: u16 = 2;
pub const COMPRESSED: u16 = 3;
pub const RANDOM: u16 = 4;

/// "flags: 1 marked, 2 write protected, 3 both"
pub const MARKED: u16 = 1;
pub const PROTECTED: u16 = 2;

/// An entry as its bytes say it, good or not. A directory has a word for the count, a session's
/// bytes have two (`stored.rs`).
#[derive(Clone, Copy, Debug, Default, PartialEq, Eq)]
pub struct Entry {
    pub name: [u8; 8],
    pub kind: u16,
    pub length: u16,
    pub first: u16,
    pub sectors: u16,
    pub count: u32,
    pub flags: u16,
}

pub type Table = [Entry; ENTRIES];

impl Entry {
    /// Reads an entry's 20 bytes: name 0–7, kind 8–9, R 10–11, first sector 12–13,
    /// number of sectors 14–15, count of records 16–17, flags 18–19.
    pub fn from_bytes(bytes: &[u8]) -> Entry {
        let mut name = [0; 8];
        name.copy_from_slice(&bytes[..8]);
        Entry {
            name,
            kind: word(bytes, 8),
            length: word(bytes, 10),
            first: word(bytes, 12),
            sectors: word(bytes, 14),
            count: u32::from(word(bytes, 16)),
            flags: word(bytes, 18),
        }
    }

    /// The 20 bytes of an entry whose count is a word.
    pub fn to_bytes(self) -> [u8; ENTRY_BYTES] {
        let mut bytes = [0; ENTRY_BYTES];
        bytes[..8].copy_from_slice(&self.name);
        let words = [
            self.kind,
            self.length,
            self.first,
            self.sectors,
            self.count as u16,
            self.flags,
        ];
        for (i, value) in words.into_iter().enumerate() {
            put_word(&mut bytes, 8 + 2 * i, value);
        }
        bytes
    }

    /// "record or granule length R in bytes"
    pub fn r(&self) -> usize {
        usize::from(self.length)
    }

    pub fn is_used(&self) -> bool {
        self.kind != FREE
    }

    pub fn is_marked(&self) -> bool {
        self.flags & MARKED != 0
    }

    pub fn is_protected(&self) -> bool {
        self.flags & PROTECTED != 0
    }

    /// "A sequential file (kinds 1 to 3)"
    pub fn is_sequential(&self) -> bool {
        matches!(self.kind, UNBLOCKED | BLOCKED | COMPRESSED)
    }

    /// The sector of the image that is sector `of_extent` of this extent.
    pub fn image_sector(&self, of_extent: usize) -> usize {
        usize::from(self.first) + of_extent
    }

    /// One past the extent's last sector in the image.
    pub fn extent_end(&self) -> usize {
        self.image_sector(usize::from(self.sectors))
    }
}

/// The 18 entries of sector 0.
pub fn table_of(image: &[u8]) -> Table {
    std::array::from_fn(|i| Entry::from_bytes(&image[i * ENTRY_BYTES..(i + 1) * ENTRY_BYTES]))
}

/// "A directory is good exactly if" – every rule but the decoding one, which needs the image.
/// `n` is the image's number of sectors.
pub fn table_is_good(table: &Table, n: usize) -> bool {
    table.iter().all(|entry| entry_is_good(entry, n)) && pairs_are_good(table)
}

/// The rules for one entry alone.
fn entry_is_good(entry: &Entry, n: usize) -> bool {
    match entry.kind {
        // "free entries are 20 zero bytes" (22 in a session's bytes)
        FREE => *entry == Entry::default(),
        // "kinds are 0 to 4"
        UNBLOCKED..=RANDOM => {
            name_is_good(&entry.name)
                && extent_is_good(entry, n)
                && flags_are_good(entry)
                && length_is_good(entry.kind, entry.length)
                && count_is_good(entry)
        }
        _ => false,
    }
}

/// "a name is a capital letter (C1–C9, D1–D9, E2–E9) followed by capitals or digits (F0–F9),
/// then only blanks"
pub fn name_is_good(name: &[u8; 8]) -> bool {
    let shown = name.iter().take_while(|&&byte| byte != BLANK).count();
    is_capital(name[0])
        && name[..shown].iter().all(|&b| is_capital(b) || is_digit(b))
        && name[shown..].iter().all(|&b| b == BLANK)
}

/// "first sector and sector count are at least 1 and their sum is at most N"
fn extent_is_good(entry: &Entry, n: usize) -> bool {
    entry.first >= 1 && entry.sectors >= 1 && entry.extent_end() <= n
}

/// "flags are 0 to 3"; "kind 4 ... is not marked"
fn flags_are_good(entry: &Entry) -> bool {
    entry.flags <= 3 && !(entry.kind == RANDOM && entry.is_marked())
}

/// "R is even and 2 to 3,600 for kinds 1 and 4, 2 to 360 for kind 2, 2 to 132 for kind 3"
pub fn length_is_good(kind: u16, length: u16) -> bool {
    let most = match kind {
        BLOCKED => 360,
        COMPRESSED => 132,
        _ => 3_600,
    };
    length.is_multiple_of(2) && (2..=most).contains(&length)
}

/// "the count is at most the capacity for kinds 1 and 2; kind 4 has count 0". Kind 3's count has no
/// capacity, but it is a word of the directory: a session's table with one over 65,535 does not keep
/// the directory's rules. Asked only of an entry whose R is good.
fn count_is_good(entry: &Entry) -> bool {
    match (entry.kind, capacity(entry)) {
        (RANDOM, _) => entry.count == 0,
        (_, Some(most)) => entry.count as usize <= most,
        (_, None) => entry.count as usize <= MOST_RECORDS,
    }
}

/// "names differ"; "extents share no sector"
fn pairs_are_good(table: &Table) -> bool {
    (0..ENTRIES).all(|i| (0..i).all(|j| pair_is_good(&table[i], &table[j])))
}

fn pair_is_good(one: &Entry, other: &Entry) -> bool {
    let both_used = one.is_used() && other.is_used();
    let apart =
        one.extent_end() <= other.image_sector(0) || other.extent_end() <= one.image_sector(0);
    !both_used || (one.name != other.name && apart)
}

/// The whole question: the directory of this image is good (and the length lawful).
pub fn directory_is_good(image: &[u8]) -> bool {
    let Some(n) = number_of_sectors(image) else {
        return false;
    };
    let table = table_of(image);
    table_is_good(&table, n) && table.iter().all(|entry| records_decode(image, entry))
}

/// "kind 3's first "count" records decode one after another inside the extent,
/// whatever stands behind them"
fn records_decode(image: &[u8], entry: &Entry) -> bool {
    entry.kind != COMPRESSED || end_place(image, entry).is_some()
}

/// The place just behind the last of a compressed file's count records, read from the image;
/// none if one is bad. The extent lies in the image.
pub fn end_place(image: &[u8], entry: &Entry) -> Option<Place> {
    let view = |sector| crate::image::sector(image, entry.image_sector(sector));
    coding::place_behind(
        entry.count as usize,
        entry.r(),
        usize::from(entry.sectors),
        view,
    )
}

/// "An entry is also found by name in a lent list of entries: the lowest match, or 8. A free
/// entry matches no name; a name not of 8 bytes matches none."
pub fn find_by_name(entries: &[Entry], name: &[u8]) -> Result<usize, Answer> {
    entries
        .iter()
        .position(|entry| entry.is_used() && entry.name == name)
        .ok_or(Answer::NotThere)
}
