//! Runs both engines and the tiny model side by side and holds them to document 01's promises, as document
//! 02's items 1 and 3 have them. What ADD and DELETE must do is in `editcheck.rs`, where granules lie in
//! `granulecheck.rs`, what the pass listing shows in `showcheck.rs`.

use crate::answer::{Answer, ANSWERS};
use crate::cases::{all_cases, Case};
use crate::coding;
use crate::directory::{
    directory_is_good, Entry, BLOCKED, COMPRESSED, ENTRIES, ENTRY_BYTES, RANDOM,
};
use crate::editcheck::{check_edit, check_fresh_mounting};
use crate::edits::edit_cases;
use crate::engine::Order;
use crate::generate::{
    blank_groups, extent_mut, foreign_code, random_script, random_text, roomy_image, script_on,
    Sort,
};
use crate::granulecheck::{check_granule, check_places};
use crate::granules::granule_cases;
use crate::image::{sector, sector_mut, BLANK, SECTOR};
use crate::layout::{blocked_place, capacity, sectors_per_record, Place, MOST_RECORDS};
use crate::model::{hand_code, hand_decode, Model};
use crate::play::{patched_session, perform, Performed};
use crate::random::Random;
use crate::script::{Code, Row, Script};
use crate::session::{mount, Buffer, Engine, OpenFile, Session};
use crate::sessions::session_cases;
use crate::showcheck::check_shown;
use crate::shown::shown_cases;
use crate::stored::{read_session, store};
use crate::strange::{strange_bytes_and_refused, strange_wide_session};
use crate::wideshow::wide_show_case;

/// Random pass listings that are checked for each script.
const LISTINGS_TO_A_SCRIPT: usize = 8;

/// A promise that does not hold, or nothing.
pub type Check = Result<(), String>;

pub fn must(holds: bool, promise: &str) -> Check {
    if holds {
        Ok(())
    } else {
        Err(promise.to_string())
    }
}

/// What was run.
#[derive(Default)]
pub struct Tally {
    pub scripts: usize,
    pub requests: usize,
    pub answers: [usize; ANSWERS],
    pub strange_answers: [usize; ANSWERS],
    pub illegal_sessions: usize,
    pub no_sessions: usize,
    pub pass_listings: usize,
    pub cases: usize,
}

/// Checks the fixed cases and those of sessions, the committed pass listings, then `count` random images with scripts of `requests`
/// requests, as many strange sessions (legal, but made by hand) and illegal ones, and random pass listings.
pub fn selfcheck(seed: u64, count: usize, requests: usize) -> Result<Tally, String> {
    let mut tally = Tally::default();
    check_places()?;
    check_cases(seed, &mut tally)?;
    check_session_cases(&mut tally)?;
    check_pass_listings(shown_cases(), &mut tally)?;
    for script in 0..count {
        let mut random = Random::new(seed.wrapping_mul(1_000_003).wrapping_add(script as u64));
        let name = |why: String| format!("seed {seed} script {script}: {why}");
        check_script(&mut random, requests, &mut tally).map_err(name)?;
        check_strange(&mut random, requests, &mut tally).map_err(name)?;
        check_codes(&mut random).map_err(name)?;
        tally.scripts += 1;
    }
    let shown = (0..count * LISTINGS_TO_A_SCRIPT).map(|number| wide_show_case(seed, number));
    check_pass_listings(shown, &mut tally)?;
    Ok(tally)
}

/// The pass listings of these cases against those of the tiny model.
fn check_pass_listings(cases: impl IntoIterator<Item = Case>, tally: &mut Tally) -> Check {
    for case in cases {
        check_shown(&case).map_err(|why| format!("case {}: {why}", case.name))?;
        tally.pass_listings += 1;
    }
    Ok(())
}

// ---------------------------------------------------------------------------------------------
// Sessions from a good mounting on.

/// One engine at work.
#[derive(Clone)]
pub struct Side {
    pub image: Vec<u8>,
    pub session: Session,
}

impl Side {
    /// The file has a blocking buffer: nothing comes of what another says that it holds.
    fn has_buffer(&self, file: &OpenFile) -> bool {
        self.session.gives_buffer(&self.session.table[file.entry])
    }
}

/// What a file and its engine were before a request.
struct Before {
    side: Side,
    entry: Entry,
    file: OpenFile,
}

fn check_script(random: &mut Random, requests: usize, tally: &mut Tally) -> Check {
    let image = roomy_image(random, Sort::Wide);
    let script = random_script(random, &image, requests, Sort::Wide);
    check_run(&image, &script, tally)
}

/// The fixed cases that have a good image.
fn check_cases(seed: u64, tally: &mut Tally) -> Check {
    for case in all_cases(seed, 0) {
        if directory_is_good(&case.image) {
            check_run(&case.image, &case.script, tally)
                .map_err(|why| format!("case {}: {why}", case.name))?;
            tally.cases += 1;
        }
    }
    Ok(())
}

/// Plays a script on a good image, then closes every file.
fn check_run(image: &[u8], script: &Script, tally: &mut Tally) -> Check {
    let mut run = Run::of_good_image(image)?;
    for (number, (row, data)) in script.steps().into_iter().enumerate() {
        let answer = run
            .step(&row, data)
            .map_err(|why| format!("row {number} ({row:?}): {why}"))?;
        tally.answers[usize::from(answer)] += 1;
        tally.requests += 1;
    }
    for number in 0..ENTRIES as u16 {
        let mut closing = Script::default();
        closing.close(number);
        run.step(&closing.rows[0], &[])
            .map_err(|why| format!("closing {number}: {why}"))?;
    }
    must(
        run.plain.image == run.buffered.image,
        "images are equal at the end",
    )
}

/// The coder and decoder against those of the tiny model, on good and on damaged codes.
fn check_codes(random: &mut Random) -> Check {
    let r = 2 * random.between(1, 66);
    let record = if random.chance(50) {
        random_text(random, r)
    } else {
        blank_groups(random, r)
    };
    let code = coding::encode(&record);
    must(code == hand_code(&record), "the model's code")?;
    must(code.len() <= r + 3, "at most R + 3 bytes")?;
    let mut bytes = foreign_code(random, &record);
    for _ in 0..8 {
        let same = coding::decode(&bytes, r) == hand_decode(&bytes, r);
        must(same, "the model's decoding")?;
        let at = random.between(0, bytes.len() - 1);
        bytes[at] = random.pick(&[0, 1, 5, 127, 128, 129, 200, 255]);
    }
    bytes.pop();
    let same = coding::decode(&bytes, r) == hand_decode(&bytes, r);
    must(same, "the model's decoding of a cut code")
}

/// Both engines, and the model where there is one (a strange session has no tapes to model).
struct Run {
    mounted: Vec<u8>,
    /// For each byte of the image: it is of an entry or extent of a file opened, added or deleted.
    touched: Vec<bool>,
    plain: Side,
    buffered: Side,
    model: Option<Model>,
}

impl Run {
    fn of_good_image(image: &[u8]) -> Result<Run, String> {
        let side = |engine| {
            let (answer, session) = mount(engine, image);
            must(answer == Answer::Done, "a good image is mounted")?;
            Ok::<Side, String>(Side {
                image: image.to_vec(),
                session,
            })
        };
        Ok(Run {
            mounted: image.to_vec(),
            touched: vec![false; image.len()],
            plain: side(Engine::Plain)?,
            buffered: side(Engine::Buffered)?,
            model: Some(Model::of_good_image(image)),
        })
    }

    /// One request on all sides, with every promise; its answer number.
    fn step(&mut self, row: &Row, data: &[u8]) -> Result<u8, String> {
        let plain_before = self.plain.clone();
        let buffered_before = self.buffered.clone();
        let plain = perform_checked(&mut self.plain, row, data)?;
        let buffered = perform_checked(&mut self.buffered, row, data)?;
        must(plain.answer == buffered.answer, "same answers")?;
        must(plain.moved == buffered.moved, "same bytes")?;
        self.check_sessions_agree()?;
        self.check_model(row, data, &plain)?;
        check_plain(&plain_before, &self.plain, row, data, plain.answer)?;
        self.check_buffered(buffered_before, row, plain.answer)?;
        self.check_overlay()?;
        self.check_untouched(row, &plain)?;
        self.check_when_none_open()?;
        Ok(plain.answer.number())
    }

    /// The same tables, positions and places in both engines.
    fn check_sessions_agree(&self) -> Check {
        let (plain, buffered) = (&self.plain.session, &self.buffered.session);
        must(plain.table == buffered.table, "same tables")?;
        for (one, other) in plain.open.iter().zip(&buffered.open) {
            let without_buffer = OpenFile {
                buffer: Buffer::EMPTY,
                ..*other
            };
            must(*one == without_buffer, "same positions")?;
        }
        Ok(())
    }

    /// The tiny model answers and moves the same, and stands at the same place.
    fn check_model(&mut self, row: &Row, data: &[u8], performed: &Performed) -> Check {
        let Some(model) = &mut self.model else {
            return Ok(());
        };
        let (answer, moved, added) = model.request(row, data);
        must(answer == performed.answer.number(), "the model's answer")?;
        must(moved == performed.moved, "the model's bytes")?;
        must(added == performed.added, "the model's new entry")?;
        must(
            model.ground == self.plain.image[SECTOR..],
            "the model's ground",
        )?;
        for (number, tape) in model.tapes.iter().enumerate() {
            let slot = self.plain.session.slot_of(number);
            let file = slot.map(|slot| &self.plain.session.open[slot]);
            let stands = file.map(|file| (file.position as usize, file.beyond));
            let tape_stands = tape.as_ref().and_then(|tape| tape.stands);
            must(tape_stands == stands, "the model's position")?;
            if let Some(tape) = tape {
                let entry = &self.plain.session.table[number];
                let length = entry.count as usize;
                let extent = (entry.image_sector(0), entry.extent_end());
                must(
                    extent == (tape.first, tape.first + tape.sectors),
                    "the tape's extent",
                )?;
                must(
                    entry.kind == RANDOM || tape.records.len() == length,
                    "the tape's length",
                )?;
                must(tape.marked == entry.is_marked(), "the tape's mark")?;
                if let (Some(file), COMPRESSED) = (file, entry.kind) {
                    let place = tape.places[file.position as usize];
                    let end = tape.places[length];
                    must(
                        (file.place.sector, file.place.byte) == place,
                        "the model's place",
                    )?;
                    must(
                        (file.end_place.sector, file.end_place.byte) == end,
                        "its end place",
                    )?;
                }
            }
        }
        Ok(())
    }

    /// The blocking buffer's promises.
    fn check_buffered(&self, side: Side, row: &Row, answer: Answer) -> Check {
        if row.code.edits() {
            return Ok(()); // no byte but an entry's, and no state: `editcheck.rs`
        }
        let number = usize::from(row.entry);
        if answer != Answer::Done {
            // "a request not answered 0 puts nothing back"
            return must(
                side.image == self.buffered.image,
                "nothing put back unless answered 0",
            );
        }
        let Some(slot) = side.session.slot_of(number) else {
            return must(
                side.image == self.buffered.image,
                "an opening leaves the image",
            );
        };
        let before = Before {
            entry: side.session.table[number],
            file: side.session.open[slot],
            side,
        };
        let after = &self.buffered.session.open[slot];
        if !before.side.has_buffer(&before.file) {
            return must(
                after.buffer == before.file.buffer || *after == OpenFile::UNUSED,
                "what a file without a buffer says that it holds is left",
            );
        }
        match row.code {
            Code::Read | Code::Write => self.check_moving(&before, after, row),
            Code::Order(Order::RecordForward | Order::RecordBack) => {
                must(
                    after.buffer == before.file.buffer,
                    "a record skip leaves the buffer",
                )?;
                must(
                    before.side.image == self.buffered.image,
                    "a record skip puts nothing back",
                )
            }
            Code::Order(Order::RewindOffLine) => must(
                *after == OpenFile::UNUSED,
                "a closed file's state is unused",
            ),
            Code::Order(_) => must(
                !after.buffer.changed && after.buffer.holds_same(&before.file.buffer),
                "an order puts the buffer back and goes on holding it",
            ),
            _ => Ok(()),
        }
    }

    /// A read or write answered 0 on a file with a buffer.
    fn check_moving(&self, before: &Before, after: &OpenFile, row: &Row) -> Check {
        let writes = row.code == Code::Write;
        let worked = sectors_worked(before, after, writes);
        let last = worked[worked.len() - 1];
        // "ends holding the one its record lies in"
        must(
            after.buffer.holds_sector(last),
            "the record's sector is held",
        )?;
        let held = before.file.buffer;
        if worked.iter().all(|&sector| held.holds_sector(sector)) {
            // "a write wholly in the held sector leaves the image as it was"
            must(before.side.image == self.buffered.image, "image as it was")?;
            must(
                after.buffer.changed == (held.changed || writes),
                "changed flag",
            )?;
        } else {
            must(
                after.buffer.changed == writes,
                "changed flag of a sector just taken",
            )?;
        }
        // "No byte of such a file's extent changes in the image but by a putting back"
        for of_extent in 0..usize::from(before.entry.sectors) {
            let number = before.entry.image_sector(of_extent);
            let same = sector(&before.side.image, number) == sector(&self.buffered.image, number);
            let was_held = held.holds_sector(of_extent) && held.changed;
            let was_worked = writes && worked.contains(&of_extent) && of_extent != last;
            must(
                same || was_held || was_worked,
                "only a putting back changes the image",
            )?;
        }
        Ok(())
    }

    /// At all times the buffered engine's image, with the held buffers laid over it, is the plain
    /// engine's; an unchanged buffer is as the image.
    fn check_overlay(&self) -> Check {
        let side = &self.buffered;
        for file in side
            .session
            .open_files()
            .filter(|file| side.has_buffer(file))
        {
            let number = self.buffered.session.table[file.entry].image_sector(file.buffer.sector);
            let as_image = sector(&self.buffered.image, number) == file.buffer.bytes;
            let as_said = !file.buffer.holds || file.buffer.changed || as_image;
            must(as_said, "an unchanged buffer is as the image")?;
        }
        must(
            overlaid(&self.buffered) == self.plain.image,
            "image and buffers are as plain",
        )
    }

    /// "every byte outside entries and extents of files opened, added or deleted is as mounted": the
    /// entry and the extent as they were then. It is asked more narrowly: of an opened file's entry four
    /// bytes are touched, and an adding or a deleting touches no extent.
    fn check_untouched(&mut self, row: &Row, performed: &Performed) -> Check {
        if performed.answer == Answer::Done {
            let number = performed.added.unwrap_or(usize::from(row.entry));
            match row.code {
                Code::Open => touch_opened(&mut self.touched, number, &self.plain.session),
                Code::Add | Code::Delete => {
                    let at = number * ENTRY_BYTES;
                    self.touched[at..at + ENTRY_BYTES].fill(true);
                }
                _ => {}
            }
        }
        for side in [&self.plain, &self.buffered] {
            let bytes = side.image.iter().zip(&self.mounted);
            let same = bytes
                .zip(&self.touched)
                .all(|((now, then), &touched)| touched || now == then);
            must(same, "bytes of other files are as mounted")?;
        }
        Ok(())
    }

    /// "whenever no file is open, mounting the image afresh gives the same tapes, marks and
    /// granules"
    fn check_when_none_open(&self) -> Check {
        if self.plain.session.open_files().count() > 0 {
            return Ok(());
        }
        must(
            self.plain.image == self.buffered.image,
            "images equal when none is open",
        )?;
        let Some(model) = &self.model else {
            return Ok(());
        };
        check_fresh_mounting(&self.plain)?;
        check_fresh_mounting(&self.buffered)?;
        let fresh = Model::of_good_image(&self.plain.image);
        must(fresh == model.all_closed(), "a fresh mounting's tapes")
    }
}

impl Buffer {
    /// The same sector held with the same bytes.
    fn holds_same(&self, other: &Buffer) -> bool {
        self.holds == other.holds && self.sector == other.sector && self.bytes == other.bytes
    }
}

/// The sectors that a read or write answered 0 must read or change, in order; the last one is
/// the one that its record lies in.
fn sectors_worked(before: &Before, after: &OpenFile, writes: bool) -> Vec<usize> {
    if before.entry.kind == BLOCKED {
        let k = before.file.position as usize;
        return vec![blocked_place(before.entry.r(), k).sector];
    }
    let (old, new) = (before.file.place, after.place);
    let went_on = new.sector != old.sector;
    if went_on && old.byte < SECTOR {
        debug_assert!(writes || old.byte > 0);
        vec![old.sector, new.sector]
    } else {
        vec![new.sector]
    }
}

/// The image with the held buffers laid over it.
fn overlaid(side: &Side) -> Vec<u8> {
    let mut image = side.image.clone();
    for file in side.session.open_files() {
        if file.buffer.holds && side.has_buffer(file) {
            let number = side.session.table[file.entry].image_sector(file.buffer.sector);
            sector_mut(&mut image, number).copy_from_slice(&file.buffer.bytes);
        }
    }
    image
}

/// Performs a row on one side; what holds for either engine by itself.
fn perform_checked(side: &mut Side, row: &Row, data: &[u8]) -> Result<Performed, String> {
    const FILLER: u8 = 0xA5;
    let before = side.clone();
    let mut buffer = vec![FILLER; usize::from(row.length)];
    let performed = perform(&mut side.image, &mut side.session, row, data, &mut buffer);
    let answer = performed.answer;
    check_edit(&before, side, row, data, (answer.number(), performed.added))?;
    check_granule(&before, side, row, data, answer)?;
    if answer.is_refusal() {
        // ""Nothing changed" covers image, session and caller's buffer."
        must(before.image == side.image, "a refusal leaves the image")?;
        must(
            before.session == side.session,
            "a refusal leaves the session",
        )?;
    }
    // "A read answered 0 changes the first R bytes of the buffer only; any other read changes
    // none."
    let entry = before.session.table.get(usize::from(row.entry));
    let changed = match (row.code, answer, entry) {
        (Code::Read | Code::GranuleRead, Answer::Done, Some(entry)) => entry.r(),
        _ => 0,
    };
    let rest = buffer.get(changed..).unwrap_or_default();
    must(
        rest.iter().all(|&byte| byte == FILLER),
        "the caller's buffer behind R",
    )?;
    // "Every other session handed out passes, save one handed back with 12."
    let legal = side.session.is_legal(&side.image);
    must(
        legal || answer == Answer::IllegalSession,
        "a session handed out is legal",
    )?;
    Ok(performed)
}

/// The plain engine's image after a request, byte for byte.
fn check_plain(before: &Side, after: &Side, row: &Row, data: &[u8], answer: Answer) -> Check {
    if row.code.edits() {
        return Ok(()); // `editcheck.rs`
    }
    let mut expected = before.image.clone();
    if answer == Answer::Done {
        let number = usize::from(row.entry);
        let entry = before.session.table[number];
        let file = before
            .session
            .slot_of(number)
            .map(|slot| before.session.open[slot]);
        match (row.code, file) {
            (Code::Write, Some(file)) => write_by_hand(&mut expected, &entry, &file, data),
            (Code::GranuleWrite, _) => return Ok(()), // `granulecheck.rs`
            (Code::Order(Order::RewindOffLine), Some(_)) => {
                let at = number * ENTRY_BYTES + 16;
                expected[at..at + 2].copy_from_slice(&(entry.count as u16).to_be_bytes());
                expected[at + 2..at + 4].copy_from_slice(&entry.flags.to_be_bytes());
            }
            _ => {}
        }
    }
    must(expected == after.image, "the plain image, byte for byte")
}

/// What a write leaves in the image, by the sentences on where a record lies.
fn write_by_hand(image: &mut [u8], entry: &Entry, file: &OpenFile, data: &[u8]) {
    let (r, k) = (entry.r(), file.position as usize);
    match entry.kind {
        BLOCKED => {
            let q = 360 / r;
            let extent = extent_mut(image, entry);
            let at = k / q * 360 + k % q * r;
            extent[at..(k / q + 1) * 360].fill(0);
            extent[at..at + data.len()].copy_from_slice(data);
        }
        COMPRESSED => write_code_by_hand(extent_mut(image, entry), r, file.place, data),
        _ => write_whole(image, entry, k, data),
    }
}

fn write_code_by_hand(extent: &mut [u8], r: usize, place: Place, data: &[u8]) {
    let mut record = [BLANK; 132];
    record[..data.len()].copy_from_slice(data);
    let code = hand_code(&record[..r]);
    let mut at = place.sector * 360 + place.byte;
    let mut end = (place.sector + 1) * 360;
    extent[at..end].fill(128);
    if at + code.len() > end {
        at = end;
        end += 360;
        extent[at..end].fill(128);
    }
    extent[at..at + code.len()].copy_from_slice(&code);
}

fn write_whole(image: &mut [u8], entry: &Entry, k: usize, data: &[u8]) {
    let length = sectors_per_record(entry.r()) * SECTOR;
    let part = &mut extent_mut(image, entry)[k * length..(k + 1) * length];
    part.fill(0);
    part[..data.len()].copy_from_slice(data);
}

// ---------------------------------------------------------------------------------------------
// Strange sessions (`strange.rs`). Both engines must agree on the legal ones too (their buffers laid
// over the one image give the other), and meet bad codes.

fn check_strange(random: &mut Random, requests: usize, tally: &mut Tally) -> Check {
    let mut image = roomy_image(random, Sort::Wide);
    let session = strange_wide_session(random, &mut image);
    must(session.is_legal(&image), "a strange session is legal")?;
    check_illegal(random, &image, &session, tally)?;
    check_bytes(random, &image, &session, tally)?;
    let script = random_script(random, &image, requests, Sort::Wide);
    let mut run = strange_run(image, session);
    for (number, (row, data)) in script.steps().into_iter().enumerate() {
        let answer = run
            .step(&row, data)
            .map_err(|why| format!("strange row {number} ({row:?}): {why}"))?;
        tally.strange_answers[usize::from(answer)] += 1;
    }
    Ok(())
}

fn strange_run(image: Vec<u8>, session: Session) -> Run {
    let buffered = Side { image, session };
    let mut plain = Side {
        image: overlaid(&buffered),
        session: buffered.session.clone(),
    };
    plain.session.engine = Engine::Plain;
    forget_buffers(&mut plain.session);
    let mut touched = vec![false; buffered.image.len()];
    for file in buffered.session.open_files() {
        touch_opened(&mut touched, file.entry, &buffered.session);
    }
    Run {
        mounted: buffered.image.clone(),
        touched,
        plain,
        buffered,
        model: None,
    }
}

/// Bytes 16 to 19 of an opened file's entry, and its extent.
fn touch_opened(touched: &mut [bool], number: usize, session: &Session) {
    let at = number * ENTRY_BYTES + 16;
    touched[at..at + 4].fill(true);
    let entry = session.table[number];
    touched[entry.image_sector(0) * SECTOR..entry.extent_end() * SECTOR].fill(true);
}

/// The plain engine's states have no buffers.
fn forget_buffers(session: &mut Session) {
    for file in &mut session.open {
        file.buffer = Buffer::EMPTY;
    }
}

/// The cases of sessions, those of ADD and DELETE and those of small granules: what holds for either engine
/// by itself.
fn check_session_cases(tally: &mut Tally) -> Check {
    for case in [session_cases(), edit_cases(), granule_cases()].concat() {
        for engine in [Engine::Plain, Engine::Buffered] {
            let patches = case.session_patches(engine);
            let (_, session) = patched_session(engine, &case.image, patches);
            let Some(session) = session else {
                tally.no_sessions += 1;
                continue;
            };
            let mut side = Side {
                image: case.image.clone(),
                session,
            };
            for (row, data) in case.script.steps() {
                perform_checked(&mut side, &row, data)
                    .map_err(|why| format!("case {}: {why}", case.name))?;
            }
        }
        tally.cases += 1;
    }
    Ok(())
}

/// A session's bytes are read as the session; other bytes are no session, or one that they are stored
/// as, and a request on it hands out a legal session or is answered 12.
fn check_bytes(random: &mut Random, image: &[u8], session: &Session, tally: &mut Tally) -> Check {
    let back = read_session(&store(session));
    must(back.as_ref() == Some(session), "a session comes back")?;
    let made = strange_bytes_and_refused(random, image, session);
    let Some(session) = read_session(made.buffered()) else {
        tally.no_sessions += 1;
        return Ok(());
    };
    must(store(&session) == made.buffered(), "bytes come back")?;
    let script = script_on(random, &session, image.len() / SECTOR, 20, Sort::Wide);
    let mut side = Side {
        image: image.to_vec(),
        session,
    };
    for (row, data) in script.steps() {
        perform_checked(&mut side, &row, data)?;
    }
    Ok(())
}

// ---------------------------------------------------------------------------------------------
// Illegal sessions: 12 to every request, and nothing changed.

fn check_illegal(random: &mut Random, image: &[u8], session: &Session, tally: &mut Tally) -> Check {
    for engine in [Engine::Plain, Engine::Buffered] {
        for way in 0..WAYS {
            let mut image = image.to_vec();
            let mut broken = session.clone();
            broken.engine = engine;
            if engine == Engine::Plain {
                forget_buffers(&mut broken);
            }
            if !break_session(random, &mut image, &mut broken, way) {
                continue;
            }
            tally.illegal_sessions += 1;
            let script = random_script(random, &image, 3, Sort::Wide);
            let mut side = Side {
                image,
                session: broken,
            };
            for (row, data) in script.steps() {
                let performed = perform_checked(&mut side, &row, data)?;
                let refused = performed.answer == Answer::IllegalSession;
                must(refused, &format!("illegal session {way} gives 12"))?;
            }
        }
    }
    Ok(())
}

/// The ways of `break_session`.
const WAYS: usize = 25;

/// Breaks one rule of a legal session; false if this session has nothing to break that way.
fn break_session(
    random: &mut Random,
    image: &mut Vec<u8>,
    session: &mut Session,
    way: usize,
) -> bool {
    let used: Vec<usize> = (0..ENTRIES)
        .filter(|&i| session.table[i].is_used())
        .collect();
    if used.is_empty() {
        return false;
    }
    let number = random.pick(&used);
    let n = image.len() / SECTOR;
    let entry = &mut session.table[number];
    match way {
        0 => image.truncate(image.len() - 1),
        1 => image.clear(),
        2 => entry.kind = 5,
        3 => entry.flags = 4,
        4 => entry.length += 1,
        5 => entry.length = 0,
        6 => entry.name[0] = 0xF1,
        7 => entry.first = 0,
        8 => entry.sectors = 0,
        9 => entry.sectors = (n + 1 - usize::from(entry.first)) as u16,
        10 => entry.name[7] = 0,
        11 => {
            let Some(free) = (0..ENTRIES).find(|&i| !session.table[i].is_used()) else {
                return false;
            };
            session.table[free].count = 1;
        }
        12 => {
            let Some(free) = (0..ENTRIES).find(|&i| !session.table[i].is_used()) else {
                return false;
            };
            session.table[free] = session.table[number];
            session.table[free].name[1] = 0xE9;
        }
        13 if entry.kind == RANDOM => entry.count = 1,
        13 => entry.count = capacity(entry).unwrap_or(MOST_RECORDS) as u32 + 1,
        14 => entry.count += 1 << 16, // a word's worth more
        24 => session.refused = true,
        _ => return break_open_file(session, way),
    }
    true
}

fn break_open_file(session: &mut Session, way: usize) -> bool {
    let Some(slot) = session.open.iter().position(|file| file.in_use) else {
        return false;
    };
    let entry = session.table[session.open[slot].entry];
    let says_what_it_holds = session.engine == Engine::Buffered;
    let twin = session.open[slot];
    let file = &mut session.open[slot];
    match way {
        15 => file.entry = ENTRIES,
        16 => match session.table.iter().position(|entry| !entry.is_used()) {
            Some(free) => file.entry = free,
            None => return false,
        },
        17 => file.position = entry.count + 1,
        18 if !entry.is_marked() => file.beyond = true,
        19 if entry.count > 0 => {
            file.position = entry.count - 1;
            file.beyond = true;
        }
        20 if entry.kind == COMPRESSED => file.place.byte = SECTOR + 1,
        21 if entry.kind == COMPRESSED => file.end_place.sector = usize::from(entry.sectors),
        22 if says_what_it_holds => {
            file.buffer.holds = true;
            file.buffer.sector = usize::from(entry.sectors);
        }
        23 => match session.unused_slot() {
            Some(other) => session.open[other] = twin,
            None => return false,
        },
        _ => return false,
    }
    true
}
