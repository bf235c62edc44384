//! The requests of document 01, for both engines, with the granules of document 02's item 3. (`editing.rs`
//! has ADD and DELETE.)
//!
//! Every request tests in the order of document 01: "12, 8, 9, 10, 7 for kind, 4, 7 for beyond,
//! 5, 6, then 11, 3, 1, 2 or 7 for the end." A refusal (`Err`) comes before any change.

use crate::answer::{settle, Answer, Outcome};
use crate::coding::{self, GO_ON};
use crate::directory::{end_place, Entry, BLOCKED, COMPRESSED, ENTRY_BYTES, MARKED, RANDOM};
use crate::image::{put_word, sector, sector_mut, BLANK, SECTOR};
use crate::layout::{blocked_place, capacity, granule_place, granules_share, sectors_per_record};
use crate::layout::{unblocked_start, Place, MOST_RECORDS};
use crate::session::{Buffer, OpenFile, Session};

/// "a position order, which is one of seven"
#[derive(Clone, Copy, Debug, PartialEq, Eq)]
pub enum Order {
    WriteFileMark,
    RewindOnLine,
    RewindOffLine,
    RecordForward,
    RecordBack,
    FileForward,
    FileBack,
}

// ---------------------------------------------------------------------------------------------
// The requests.

/// Opening: "Opening gives p = 0; for a compressed file it first decodes the count records to
/// find the end place, and gives 11 if one is bad."
pub fn open(image: &[u8], session: &mut Session, number: usize) -> Answer {
    settle(try_open(image, session, number))
}

/// Read: "Read at p below the length of D gives the record, p + 1."
/// "A read answered 0 changes the first R bytes of the buffer only; any other read changes none."
pub fn read(image: &mut [u8], session: &mut Session, number: usize, buffer: &mut [u8]) -> Answer {
    settle(try_read(image, session, number, buffer))
}

/// Write: "Write makes D its first p records and the new one, p + 1, unmarked."
pub fn write(image: &mut [u8], session: &mut Session, number: usize, data: &[u8]) -> Answer {
    settle(try_write(image, session, number, data))
}

/// Granule read: the granule's R bytes into the buffer.
pub fn granule_read(
    image: &[u8],
    session: &Session,
    number: usize,
    granule: usize,
    buffer: &mut [u8],
) -> Answer {
    settle(try_granule_read(image, session, number, granule, buffer))
}

/// Granule write, for R up to 180: "A write then changes only its own R bytes, padding included." Above,
/// "Bytes behind R are written as zero."
pub fn granule_write(
    image: &mut [u8],
    session: &Session,
    number: usize,
    granule: usize,
    data: &[u8],
) -> Answer {
    settle(try_granule_write(image, session, number, granule, data))
}

/// Granule look: "A granule may also be shown in place in the image, not copied; that look ...
/// shows an empty part when refused".
pub fn look<'a>(image: &'a [u8], session: &Session, number: usize, granule: usize) -> &'a [u8] {
    try_look(image, session, number, granule).unwrap_or_default()
}

/// A look's answer: "its number is asked for separately".
pub fn look_answer(image: &[u8], session: &Session, number: usize, granule: usize) -> Answer {
    settle(try_look(image, session, number, granule).map(|_| Answer::Done))
}

/// A position order.
pub fn order(image: &mut [u8], session: &mut Session, number: usize, order: Order) -> Answer {
    settle(try_order(image, session, number, order))
}

// ---------------------------------------------------------------------------------------------
// The tests of each request, in their order, then what it does.

fn try_open(image: &[u8], session: &mut Session, number: usize) -> Outcome {
    session_must_be_legal(image, session)?; // 12
    let entry = match session.table.get(number) {
        Some(entry) if entry.is_used() => *entry,
        _ => return Err(Answer::NotThere), // 8 "no such entry"
    };
    if session.slot_of(number).is_some() {
        return Err(Answer::OpenAlready); // 9 "opening an open file"
    }
    let slot = session.unused_slot().ok_or(Answer::FifthFile)?; // 10 "a fifth open file"
    let end = if entry.kind == COMPRESSED {
        end_place(image, &entry).ok_or(Answer::BadImage)? // 11 "bad code met"
    } else {
        Place::default()
    };
    session.open[slot] = OpenFile {
        in_use: true,
        entry: number,
        end_place: end,
        ..OpenFile::UNUSED // "Opening gives p = 0"; "Fresh buffer as [0; 360]"
    };
    Ok(Answer::Done)
}

fn try_read(image: &mut [u8], session: &mut Session, number: usize, buffer: &mut [u8]) -> Outcome {
    let mut work = Work::on(image, session, number)?; // 12, 8
    work.must_be_sequential()?; // 7 for kind
    work.must_not_be_beyond()?; // 7 for beyond
    let r = work.entry.r();
    buffer_must_hold(buffer, r)?; // 6
    if work.is_at_end() {
        return work.meet_end(); // 1, or 7 for the end
    }
    let found = work.record_at_position()?; // 11
    for &sector in &found.takes {
        work.take(sector);
    }
    work.step_over(&found);
    buffer[..r].copy_from_slice(&found.record);
    Ok(Answer::Done)
}

fn try_write(image: &mut [u8], session: &mut Session, number: usize, data: &[u8]) -> Outcome {
    let mut work = Work::on(image, session, number)?; // 12, 8
    work.must_be_sequential()?; // 7 for kind
    work.must_not_be_protected()?; // 4
    work.must_not_be_beyond()?; // 7 for beyond
    written_length_must_fit(data, work.entry.r())?; // 5, 6
    let plan = work.plan_write(data)?; // 6 for the code, 3
    for change in &plan.changes {
        work.change(change);
    }
    work.append(plan.behind);
    Ok(Answer::Done)
}

fn try_granule_read(
    image: &[u8],
    session: &Session,
    number: usize,
    granule: usize,
    buffer: &mut [u8],
) -> Outcome {
    let entry = random_file(image, session, number)?; // 12, 8, 7 for kind
    buffer_must_hold(buffer, entry.r())?; // 6
    let start = granule_start(&entry, granule)?; // 3
    buffer[..entry.r()].copy_from_slice(&image[start..start + entry.r()]);
    Ok(Answer::Done)
}

fn try_granule_write(
    image: &mut [u8],
    session: &Session,
    number: usize,
    granule: usize,
    data: &[u8],
) -> Outcome {
    let entry = random_file(image, session, number)?; // 12, 8, 7 for kind
    if entry.is_protected() {
        return Err(Answer::Protected); // 4
    }
    written_length_must_fit(data, entry.r())?; // 5, 6
    let start = granule_start(&entry, granule)?; // 3
    let written = granule_bytes(data, entry.r());
    image[start..start + written.len()].copy_from_slice(&written);
    Ok(Answer::Done)
}

/// "that look has a read's checks without the buffer's"
fn try_look<'a>(
    image: &'a [u8],
    session: &Session,
    number: usize,
    granule: usize,
) -> Result<&'a [u8], Answer> {
    let entry = random_file(image, session, number)?; // 12, 8, 7 for kind
    let start = granule_start(&entry, granule)?; // 3
    Ok(&image[start..start + entry.r()])
}

fn try_order(image: &mut [u8], session: &mut Session, number: usize, order: Order) -> Outcome {
    let mut work = Work::on(image, session, number)?; // 12, 8
    match order {
        Order::WriteFileMark => work.write_file_mark(),
        Order::RewindOnLine => work.rewind_on_line(),
        Order::RewindOffLine => work.rewind_off_line(),
        Order::RecordForward => work.record_forward(),
        Order::RecordBack => work.record_back(),
        Order::FileForward => work.file_forward(),
        Order::FileBack => work.file_back(),
    }
}

// ---------------------------------------------------------------------------------------------
// Tests that several requests share.

/// 12 "session not legal for this image"
pub fn session_must_be_legal(image: &[u8], session: &Session) -> Result<(), Answer> {
    if session.is_legal(image) {
        Ok(())
    } else {
        Err(Answer::IllegalSession)
    }
}

/// 5 "odd byte count in a write", then 6 "write of 0 or over R bytes"
fn written_length_must_fit(data: &[u8], r: usize) -> Result<(), Answer> {
    if !data.len().is_multiple_of(2) {
        return Err(Answer::OddCount);
    }
    if data.is_empty() || data.len() > r {
        return Err(Answer::WrongLength);
    }
    Ok(())
}

/// 6 "read buffer under R"
fn buffer_must_hold(buffer: &[u8], r: usize) -> Result<(), Answer> {
    if buffer.len() < r {
        return Err(Answer::WrongLength);
    }
    Ok(())
}

/// The entry of an open random file: 12, 8, then 7 "wrong kind for the request".
fn random_file(image: &[u8], session: &Session, number: usize) -> Result<Entry, Answer> {
    session_must_be_legal(image, session)?;
    let slot = session.slot_of(number).ok_or(Answer::NotThere)?;
    let entry = session.table[session.open[slot].entry];
    if entry.kind != RANDOM {
        return Err(Answer::WrongKindOrSequence);
    }
    Ok(entry)
}

/// The image's byte where granule g begins, maybe in the middle of its sector.
/// 3 "granule number at or over capacity"
fn granule_start(entry: &Entry, granule: usize) -> Result<usize, Answer> {
    if capacity(entry).is_none_or(|most| granule >= most) {
        return Err(Answer::NoRoom);
    }
    let place = granule_place(entry.r(), granule);
    Ok(entry.image_sector(place.sector) * SECTOR + place.byte)
}

/// The bytes that a granule write puts: "Short records and granules are padded with zero", up to R where
/// granules share a sector, else up to the last sector's end.
fn granule_bytes(data: &[u8], r: usize) -> Vec<u8> {
    if granules_share(r) {
        let mut own = data.to_vec();
        own.resize(r, 0);
        own
    } else {
        whole_sectors(data, r)
    }
}

/// A record or granule as its whole sectors: "Short records and granules are padded with zero";
/// "Bytes behind R in its last sector are written as zero."
fn whole_sectors(data: &[u8], r: usize) -> Vec<u8> {
    let mut whole = data.to_vec();
    whole.resize(sectors_per_record(r) * SECTOR, 0);
    whole
}

// ---------------------------------------------------------------------------------------------
// One open file at work.

/// The image, the open file's entry in the session's table and its state.
struct Work<'a> {
    image: &'a mut [u8],
    entry: &'a mut Entry,
    file: &'a mut OpenFile,
    has_buffer: bool,
}

/// The record at the position: its bytes, the sectors that a read must take for it, in order,
/// and (compressed) the place behind it.
struct Found {
    record: Vec<u8>,
    takes: Vec<usize>,
    behind: Place,
}

/// Bytes to be changed, from a byte of a sector of the extent on.
struct Change {
    sector: usize,
    from: usize,
    bytes: Vec<u8>,
}

/// What a write changes, in order, and (compressed) the place behind the new record.
struct Plan {
    changes: Vec<Change>,
    behind: Place,
}

impl<'a> Work<'a> {
    /// 12, then 8 "no such entry, or not open".
    fn on(image: &'a mut [u8], session: &'a mut Session, number: usize) -> Result<Self, Answer> {
        session_must_be_legal(image, session)?;
        let slot = session.slot_of(number).ok_or(Answer::NotThere)?;
        let has_buffer = session.gives_buffer(&session.table[number]);
        Ok(Work {
            image,
            entry: &mut session.table[number],
            file: &mut session.open[slot],
            has_buffer,
        })
    }

    /// 7 "wrong kind for the request": reads, writes and position orders (but rewind off-line)
    /// are for sequential files.
    fn must_be_sequential(&self) -> Result<(), Answer> {
        if self.entry.is_sequential() {
            Ok(())
        } else {
            Err(Answer::WrongKindOrSequence)
        }
    }

    /// 4 "write or mark on a protected file"
    fn must_not_be_protected(&self) -> Result<(), Answer> {
        if self.entry.is_protected() {
            Err(Answer::Protected)
        } else {
            Ok(())
        }
    }

    /// "Beyond, a read, write, record forward or write file mark gives 7: one file per extent."
    fn must_not_be_beyond(&self) -> Result<(), Answer> {
        if self.file.beyond {
            Err(Answer::WrongKindOrSequence)
        } else {
            Ok(())
        }
    }

    fn position(&self) -> usize {
        self.file.position as usize
    }

    fn sectors(&self) -> usize {
        usize::from(self.entry.sectors)
    }

    // --- sectors and the blocking buffer ---

    /// A sector of the extent as this file has it: held in the buffer, or else in the image.
    fn view(&self, of_extent: usize) -> &[u8] {
        if self.has_buffer && self.file.buffer.holds_sector(of_extent) {
            &self.file.buffer.bytes
        } else {
            sector(self.image, self.entry.image_sector(of_extent))
        }
    }

    /// Puts the buffer back, if it was changed; it goes on holding its sector.
    fn put_back(&mut self) {
        let buffer = &mut self.file.buffer;
        if self.has_buffer && buffer.holds && buffer.changed {
            let number = self.entry.image_sector(buffer.sector);
            sector_mut(self.image, number).copy_from_slice(&buffer.bytes);
            buffer.changed = false;
        }
    }

    /// "it takes each sector that it must read or change, unless held already";
    /// "put back before another sector takes it".
    fn take(&mut self, of_extent: usize) {
        if !self.has_buffer || self.file.buffer.holds_sector(of_extent) {
            return;
        }
        self.put_back();
        let mut bytes = [0; SECTOR];
        bytes.copy_from_slice(sector(self.image, self.entry.image_sector(of_extent)));
        self.file.buffer = Buffer {
            holds: true,
            sector: of_extent,
            changed: false,
            bytes,
        };
    }

    /// Changes bytes of the extent: in the buffer ("works in the buffer"), or in the image where
    /// the file has no buffer.
    fn change(&mut self, change: &Change) {
        if self.has_buffer {
            self.take(change.sector);
            let end = change.from + change.bytes.len();
            self.file.buffer.bytes[change.from..end].copy_from_slice(&change.bytes);
            self.file.buffer.changed = true;
        } else {
            let start = self.entry.image_sector(change.sector) * SECTOR + change.from;
            self.image[start..start + change.bytes.len()].copy_from_slice(&change.bytes);
        }
    }

    // --- reading ---

    /// p is at the length of D.
    fn is_at_end(&self) -> bool {
        self.file.position >= self.entry.count
    }

    /// "At the end: marked gives 1 and beyond; unmarked gives 7."
    fn meet_end(&mut self) -> Outcome {
        if !self.entry.is_marked() {
            return Err(Answer::WrongKindOrSequence);
        }
        self.file.beyond = true;
        Ok(Answer::EndOfFile)
    }

    fn record_at_position(&self) -> Result<Found, Answer> {
        match self.entry.kind {
            BLOCKED => Ok(self.blocked_record()),
            COMPRESSED => self.compressed_record(),
            _ => Ok(self.unblocked_record()),
        }
    }

    /// "Record k begins s·k sectors into the extent."
    fn unblocked_record(&self) -> Found {
        let r = self.entry.r();
        let start = self.entry.image_sector(unblocked_start(r, self.position())) * SECTOR;
        Found {
            record: self.image[start..start + r].to_vec(),
            takes: Vec::new(),
            behind: self.file.place,
        }
    }

    /// "Record k is in extent sector k/q (rounded down) at byte (k mod q)·R"
    fn blocked_record(&self) -> Found {
        let r = self.entry.r();
        let at = blocked_place(r, self.position());
        Found {
            record: self.view(at.sector)[at.byte..at.byte + r].to_vec(),
            takes: vec![at.sector],
            behind: self.file.place,
        }
    }

    /// The next coded record from the current place on; 11 "bad code met".
    fn compressed_record(&self) -> Result<Found, Answer> {
        let place = self.file.place;
        let next = coding::next_record(place, self.entry.r(), self.sectors(), |at| self.view(at))
            .ok_or(Answer::BadImage)?;
        let mut takes = Vec::new();
        // A read that goes on "must read" the 128 in the old sector, but nothing at byte 360.
        if next.start.sector != place.sector && place.byte < SECTOR {
            takes.push(place.sector);
        }
        takes.push(next.start.sector);
        Ok(Found {
            record: next.record,
            takes,
            behind: next.behind,
        })
    }

    /// "p + 1"
    fn step_over(&mut self, found: &Found) {
        self.file.position += 1;
        self.file.place = found.behind;
    }

    // --- writing ---

    /// What a write will change. "All room is tested before any byte changes."
    fn plan_write(&self, data: &[u8]) -> Result<Plan, Answer> {
        match self.entry.kind {
            COMPRESSED => self.plan_compressed_write(data),
            _ => self.plan_uncoded_write(data),
        }
    }

    fn plan_uncoded_write(&self, data: &[u8]) -> Result<Plan, Answer> {
        // 3 "write at p = capacity"; a capacity is never over 65,535.
        if capacity(self.entry).is_none_or(|most| self.position() >= most) {
            return Err(Answer::NoRoom);
        }
        let change = if self.entry.kind == BLOCKED {
            self.blocked_change(data)
        } else {
            self.unblocked_change(data)
        };
        Ok(Plan {
            changes: vec![change],
            behind: self.file.place,
        })
    }

    /// "Record k begins s·k sectors into the extent."
    fn unblocked_change(&self, data: &[u8]) -> Change {
        let r = self.entry.r();
        Change {
            sector: unblocked_start(r, self.position()),
            from: 0,
            bytes: whole_sectors(data, r),
        }
    }

    /// "A write puts zero in every byte of the sector behind the record."
    fn blocked_change(&self, data: &[u8]) -> Change {
        let at = blocked_place(self.entry.r(), self.position());
        let mut bytes = data.to_vec(); // "Short records ... are padded with zero"
        bytes.resize(SECTOR - at.byte, 0);
        Change {
            sector: at.sector,
            from: at.byte,
            bytes,
        }
    }

    fn plan_compressed_write(&self, data: &[u8]) -> Result<Plan, Answer> {
        let mut record = data.to_vec();
        record.resize(self.entry.r(), BLANK); // "in compressed files with blanks"
        let code = coding::encode(&record);
        let e = code.len();
        if e > SECTOR {
            return Err(Answer::WrongLength); // 6 "coded record over 360"
        }
        if self.position() >= MOST_RECORDS {
            return Err(Answer::NoRoom); // 3 "position already 65,535"
        }
        // 3 "a coded record due in a sector past the extent"
        let old = self.file.place;
        let new = coding::place_for(e, old, self.sectors()).ok_or(Answer::NoRoom)?;
        let mut changes = Vec::new();
        if new.sector != old.sector && old.byte < SECTOR {
            changes.push(go_on_change(old));
        }
        changes.push(code_change(new, code));
        let behind = Place {
            sector: new.sector,
            byte: new.byte + e,
        };
        Ok(Plan { changes, behind })
    }

    /// "Write makes D its first p records and the new one, p + 1, unmarked."
    fn append(&mut self, behind: Place) {
        self.file.position += 1;
        self.file.place = behind;
        self.file.end_place = behind;
        self.entry.count = self.file.position;
        self.entry.flags &= !MARKED;
    }

    // --- position orders ---
    // "put back ... before any order but the record skips, and at close"; "a request not
    // answered 0 puts nothing back".

    /// "Write file mark: D becomes its first p records, marked, beyond. It needs no room."
    fn write_file_mark(&mut self) -> Outcome {
        self.must_be_sequential()?; // 7 for kind
        self.must_not_be_protected()?; // 4
        self.must_not_be_beyond()?; // 7 for beyond
        self.put_back();
        self.entry.count = self.file.position;
        self.entry.flags |= MARKED;
        self.file.end_place = self.file.place;
        self.file.beyond = true;
        Ok(Answer::Done)
    }

    /// "Rewind on-line: p = 0, not beyond."
    fn rewind_on_line(&mut self) -> Outcome {
        self.must_be_sequential()?; // 7 for kind
        self.put_back();
        self.go_to_beginning();
        Ok(Answer::Done)
    }

    fn go_to_beginning(&mut self) {
        self.file.position = 0;
        self.file.beyond = false;
        self.file.place = Place::default();
    }

    /// "Rewind off-line: close, writing count and flags to bytes 16–19 of the entry. Also lawful
    /// for random." (A legal session's count is a word.)
    fn rewind_off_line(&mut self) -> Outcome {
        self.put_back();
        let at = self.file.entry * ENTRY_BYTES;
        put_word(self.image, at + 16, self.entry.count as u16);
        put_word(self.image, at + 18, self.entry.flags);
        *self.file = OpenFile::UNUSED;
        Ok(Answer::Done)
    }

    /// "Record forward: as a read that moves no bytes and has no buffer to check." It takes no
    /// sector either ("before any order but the record skips").
    fn record_forward(&mut self) -> Outcome {
        self.must_be_sequential()?; // 7 for kind
        self.must_not_be_beyond()?; // 7 for beyond
        if self.is_at_end() {
            return self.meet_end(); // 1, or 7 for the end
        }
        let found = self.record_at_position()?; // 11
        self.step_over(&found);
        Ok(Answer::Done)
    }

    /// "Record back: beyond gives 1 and steps before the mark; p = 0 gives 2; otherwise p − 1.
    /// Compressed files: 7, as Table 22 of document 000 says."
    fn record_back(&mut self) -> Outcome {
        self.must_be_sequential()?; // 7 for kind
        if self.entry.kind == COMPRESSED {
            return Err(Answer::WrongKindOrSequence); // 7 for kind
        }
        if self.file.beyond {
            self.file.beyond = false;
            return Ok(Answer::EndOfFile);
        }
        if self.file.position == 0 {
            return Ok(Answer::BeginningOfTape);
        }
        self.file.position -= 1;
        Ok(Answer::Done)
    }

    /// "File forward: beyond or unmarked gives 7 (document 000 too); otherwise p goes to the end,
    /// beyond, 0."
    fn file_forward(&mut self) -> Outcome {
        self.must_be_sequential()?; // 7 for kind
        self.must_not_be_beyond()?;
        if !self.entry.is_marked() {
            return Err(Answer::WrongKindOrSequence);
        }
        self.put_back();
        self.file.position = self.entry.count;
        self.file.place = self.file.end_place;
        self.file.beyond = true;
        Ok(Answer::Done)
    }

    /// "File back: beyond goes before the mark, 0; otherwise p = 0 with answer 2."
    fn file_back(&mut self) -> Outcome {
        self.must_be_sequential()?; // 7 for kind
        if self.file.beyond {
            self.put_back();
            self.file.beyond = false;
            return Ok(Answer::Done);
        }
        self.go_to_beginning();
        Ok(Answer::BeginningOfTape)
    }
}

/// "and then bytes o to 359 of the old sector become 128"
fn go_on_change(old: Place) -> Change {
    Change {
        sector: old.sector,
        from: old.byte,
        bytes: vec![GO_ON; SECTOR - old.byte],
    }
}

/// "Behind the new record the sector is filled with 128."
fn code_change(new: Place, code: Vec<u8>) -> Change {
    let mut bytes = code;
    bytes.resize(SECTOR - new.byte, GO_ON);
    Change {
        sector: new.sector,
        from: new.byte,
        bytes,
    }
}
