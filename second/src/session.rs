//! Sessions: what is handed from request to request, and when it is legal.

use crate::answer::Answer;
use crate::directory::{directory_is_good, table_is_good, table_of, Entry, Table};
use crate::directory::{BLOCKED, COMPRESSED, ENTRIES};
use crate::image::{number_of_sectors, SECTOR};
use crate::layout::Place;

/// "At most four files are open, in either engine."
pub const MOST_OPEN: usize = 4;

/// The two engines: with and without blocking buffers.
#[derive(Clone, Copy, Debug, PartialEq, Eq)]
pub enum Engine {
    Plain,
    Buffered,
}

/// "a blocking buffer of 360 bytes": whether it holds a sector, which one of the extent,
/// whether its bytes were changed since it was taken or put back, and the bytes.
#[derive(Clone, Copy, Debug, PartialEq, Eq)]
pub struct Buffer {
    pub holds: bool,
    pub sector: usize,
    pub changed: bool,
    pub bytes: [u8; SECTOR],
}

/// The state of one open file. An unused state is all zero.
#[derive(Clone, Copy, Debug, PartialEq, Eq)]
pub struct OpenFile {
    pub in_use: bool,
    pub entry: usize,
    /// "a position p from 0 to its length"
    pub position: u32,
    /// "a state "beyond", possible only if marked with p at the end"
    pub beyond: bool,
    /// Compressed files: the place just behind the last record read or written. Nothing comes of the
    /// places of other files.
    pub place: Place,
    /// Compressed files: the place just behind the last record.
    pub end_place: Place,
    /// All zero in the plain engine, and from a mounting on for unblocked and random files. Nothing
    /// comes of other bytes there, but that a held sector must lie in the extent.
    pub buffer: Buffer,
}

/// A session: the table of entries, with the count and flags as they are by now,
/// and the open files.
#[derive(Clone, Debug, PartialEq, Eq)]
pub struct Session {
    pub engine: Engine,
    pub table: Table,
    pub open: [OpenFile; MOST_OPEN],
    /// "The session from a refused mounting says that it is one".
    pub refused: bool,
}

impl Buffer {
    pub const EMPTY: Buffer = Buffer {
        holds: false,
        sector: 0,
        changed: false,
        bytes: [0; SECTOR],
    };

    /// This sector of the extent is held.
    pub fn holds_sector(&self, sector: usize) -> bool {
        self.holds && self.sector == sector
    }
}

impl OpenFile {
    pub const UNUSED: OpenFile = OpenFile {
        in_use: false,
        entry: 0,
        position: 0,
        beyond: false,
        place: Place { sector: 0, byte: 0 },
        end_place: Place { sector: 0, byte: 0 },
        buffer: Buffer::EMPTY,
    };
}

/// Mounts an image: "Mounting refuses (11) exactly when the length is wrong or the directory is
/// not good." "A refused mounting hands out a table with no used entry and nothing open."
pub fn mount(engine: Engine, image: &[u8]) -> (Answer, Session) {
    let good = directory_is_good(image);
    let table = if good {
        table_of(image)
    } else {
        [Entry::default(); ENTRIES]
    };
    let session = Session {
        engine,
        table,
        open: [OpenFile::UNUSED; MOST_OPEN],
        refused: !good,
    };
    let answer = if good { Answer::Done } else { Answer::BadImage };
    (answer, session)
}

impl Session {
    /// The open-file state of an entry, if it is open.
    pub fn slot_of(&self, entry: usize) -> Option<usize> {
        self.open
            .iter()
            .position(|file| file.in_use && file.entry == entry)
    }

    /// The lowest unused open-file state.
    pub fn unused_slot(&self) -> Option<usize> {
        self.open.iter().position(|file| !file.in_use)
    }

    /// The open files.
    pub fn open_files(&self) -> impl Iterator<Item = &OpenFile> {
        self.open.iter().filter(|file| file.in_use)
    }

    /// "The buffered engine gives each open blocked or compressed file a blocking buffer"
    pub fn gives_buffer(&self, entry: &Entry) -> bool {
        self.engine == Engine::Buffered && matches!(entry.kind, BLOCKED | COMPRESSED)
    }

    /// "A session is legal exactly if the image has a lawful length, its table keeps every
    /// directory rule but the decoding one, at most four files are open, each a different used
    /// entry, ..."  (There are only four open-file states.) And by document 02: "The session from a
    /// refused mounting says that it is one, and if it says so with a used entry or an open file it
    /// falls under 12."
    pub fn is_legal(&self, image: &[u8]) -> bool {
        number_of_sectors(image).is_some_and(|n| table_is_good(&self.table, n))
            && self.open_entries_differ()
            && self.open_files().all(|file| self.open_file_is_legal(file))
            && (!self.refused || self.is_empty())
    }

    /// "with no used entry and nothing open"
    fn is_empty(&self) -> bool {
        !self.table.iter().any(Entry::is_used) && self.open_files().next().is_none()
    }

    /// "each a different ... entry"
    fn open_entries_differ(&self) -> bool {
        let numbers: Vec<usize> = self.open_files().map(|file| file.entry).collect();
        (0..numbers.len()).all(|i| !numbers[..i].contains(&numbers[i]))
    }

    fn open_file_is_legal(&self, file: &OpenFile) -> bool {
        // "each a ... used entry"
        match self.table.get(file.entry) {
            Some(entry) if entry.is_used() => {
                position_is_legal(file, entry)
                    && places_are_legal(file, entry)
                    && held_sector_is_legal(file, entry)
            }
            _ => false,
        }
    }
}

/// "each open p is at most the count, beyond occurs only as above":
/// "possible only if marked with p at the end". Asked of a random file too: its count is 0, and it is
/// never marked.
fn position_is_legal(file: &OpenFile, entry: &Entry) -> bool {
    let may_be_beyond = entry.is_marked() && file.position == entry.count;
    file.position <= entry.count && (!file.beyond || may_be_beyond)
}

/// "compressed places (current and end) lie in the extent at byte 0 to 360"
fn places_are_legal(file: &OpenFile, entry: &Entry) -> bool {
    let lies_in_extent =
        |place: Place| place.sector < usize::from(entry.sectors) && place.byte <= SECTOR;
    entry.kind != COMPRESSED || (lies_in_extent(file.place) && lies_in_extent(file.end_place))
}

/// "a held sector lies in its file's extent": of whatever kind the file is, also one without a blocking
/// buffer.
fn held_sector_is_legal(file: &OpenFile, entry: &Entry) -> bool {
    !file.buffer.holds || file.buffer.sector < usize::from(entry.sectors)
}
