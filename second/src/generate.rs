//! Random images and scripts, for the cases and the selfcheck.

use crate::characters::letters;
use crate::coding::{encode, GO_ON};
use crate::directory::{directory_is_good, table_of, Entry, ENTRIES, ENTRY_BYTES};
use crate::directory::{BLOCKED, COMPRESSED, MARKED, PROTECTED, RANDOM, UNBLOCKED};
use crate::editing::{self, Asked};
use crate::engine::Order;
use crate::image::{BLANK, SECTOR};
use crate::layout::{capacity, unblocked_capacity, Place, MOST_SHARING};
use crate::model::Model;
use crate::random::Random;
use crate::script::{Code, Row, Script};
use crate::session::{Engine, OpenFile, Session, MOST_OPEN};

// ---------------------------------------------------------------------------------------------
// Images.

/// An image of `n` sectors with an empty directory and zero bytes.
pub fn empty_image(n: usize) -> Vec<u8> {
    vec![0; n * SECTOR]
}

/// An entry with an ASCII name, count 0 and no flags.
pub fn new_entry(name: &str, kind: u16, r: usize, first: usize, sectors: usize) -> Entry {
    let mut bytes = [BLANK; 8];
    for (to, from) in bytes.iter_mut().zip(letters(name)) {
        *to = from;
    }
    Entry {
        name: bytes,
        kind,
        length: r as u16,
        first: first as u16,
        sectors: sectors as u16,
        count: 0,
        flags: 0,
    }
}

/// Puts an entry into an image's directory.
pub fn put_entry(image: &mut [u8], number: usize, entry: &Entry) {
    let at = number * ENTRY_BYTES;
    image[at..at + ENTRY_BYTES].copy_from_slice(&entry.to_bytes());
}

/// The bytes of an entry's extent.
pub fn extent_mut<'a>(image: &'a mut [u8], entry: &Entry) -> &'a mut [u8] {
    &mut image[entry.image_sector(0) * SECTOR..entry.extent_end() * SECTOR]
}

/// A good image for a sort of script, with some files of all kinds, empty, full or between, written by
/// others too.
pub fn random_image(random: &mut Random, sort: Sort) -> Vec<u8> {
    let n = random.pick(&[1, 3, 5, 8, 8, 12, 12, 16, 16, 20, 20, 26, 26, 26]);
    let mut image = random.bytes(n * SECTOR);
    image[..SECTOR].fill(0);
    let mut numbers = shuffled_numbers(random);
    let mut next = 1;
    for file in 0..random.pick(&[1, 3, 5, 5, 7, 7, 9, ENTRIES]) {
        let first = next + usize::from(random.chance(20));
        let sectors = random.pick(&[1, 1, 1, 2, 2, 3, 3, 4, 6, 12]);
        if first + sectors > n {
            continue;
        }
        next = first + sectors;
        let mut entry = random_entry(random, file, sort);
        entry.first = first as u16;
        entry.sectors = sectors as u16;
        fill_file(random, &mut image, &mut entry);
        let number = numbers.pop().unwrap_or(0);
        put_entry(&mut image, number, &entry);
    }
    image
}

/// The same, and most have free sectors behind the last file.
pub fn roomy_image(random: &mut Random, sort: Sort) -> Vec<u8> {
    let mut image = random_image(random, sort);
    let more = random.pick(&[0, 0, 1, 3, 8, 20, 30]);
    image.extend(random.bytes(more * SECTOR));
    image
}

/// The numbers 0 to 17 in any order.
fn shuffled_numbers(random: &mut Random) -> Vec<usize> {
    let mut numbers: Vec<usize> = (0..ENTRIES).collect();
    for i in 1..ENTRIES {
        numbers.swap(i, random.between(0, i));
    }
    numbers
}

fn random_entry(random: &mut Random, file: usize, sort: Sort) -> Entry {
    let kind = random.pick(sort.kinds());
    let r = random_r(random, kind, sort);
    let name = format!("F{file}{}", "ABCDEFG"[..random.between(0, 5)].to_owned());
    let mut entry = new_entry(&name, kind, r, 0, 0);
    if random.chance(15) {
        entry.flags |= PROTECTED;
    }
    if kind != RANDOM && random.chance(40) {
        entry.flags |= MARKED;
    }
    entry
}

/// Granule lengths at the edges: most of them share a sector.
const GRANULE_EDGES: [usize; 11] = [2, 4, 60, 62, 120, 178, 180, 182, 358, 360, 362];

/// A record or granule length, often one at an edge.
pub fn random_r(random: &mut Random, kind: u16, sort: Sort) -> usize {
    let (edges, most): (&[usize], usize) = match kind {
        RANDOM if sort == Sort::Wide => {
            let most = random.pick(&[MOST_SHARING, SECTOR, 3_600]);
            (&GRANULE_EDGES, most)
        }
        BLOCKED => (&[2, 36, 80, 100, 120, 122, 180, 182, 358, 360], 360),
        COMPRESSED => (&[2, 4, 80, 120, 128, 130, 132, 132], 132),
        _ => (&[2, 80, 120, 358, 360, 362, 720, 722, 3_600], 3_600),
    };
    if random.chance(70) {
        random.pick(edges)
    } else {
        2 * random.between(1, most / 2)
    }
}

/// Gives a file a count, and a compressed one its codes; the extent's other bytes are any bytes.
fn fill_file(random: &mut Random, image: &mut [u8], entry: &mut Entry) {
    if entry.kind == COMPRESSED {
        let filler = random.pick(&[0x00, GO_ON, BLANK, 0xC1, 0xFF]);
        if random.chance(70) {
            extent_mut(image, entry).fill(filler);
        }
        let wanted = match random.between(0, 3) {
            0 => 0,
            1 => usize::from(u16::MAX),
            _ => random.between(1, 20),
        };
        fill_compressed(random, image, entry, wanted);
    } else if entry.kind != RANDOM {
        let most = capacity(entry).unwrap_or(0);
        let count = match random.between(0, 3) {
            0 => 0,
            1 => most,
            _ => random.between(0, most),
        };
        entry.count = count as u32;
    }
}

/// Writes up to `wanted` records into a compressed extent, as this and other writers may: any
/// lawful runs, early go-ons, sectors filled exactly. Sets the count.
pub fn fill_compressed(random: &mut Random, image: &mut [u8], entry: &mut Entry, wanted: usize) {
    let (r, sectors) = (entry.r(), usize::from(entry.sectors));
    let extent = extent_mut(image, entry);
    let mut place = Place::default();
    let mut count = 0;
    while count < wanted {
        let code = any_code(random, r, place.byte);
        let early = place.byte > 0 && random.chance(8);
        if early || place.byte + code.len() > SECTOR {
            if place.sector + 1 >= sectors {
                break;
            }
            if place.byte < SECTOR {
                extent[place.sector * SECTOR + place.byte] = GO_ON;
            }
            place = Place {
                sector: place.sector + 1,
                byte: 0,
            };
        }
        let at = place.sector * SECTOR + place.byte;
        extent[at..at + code.len()].copy_from_slice(&code);
        place.byte += code.len();
        count += 1;
    }
    entry.count = count as u32;
}

/// Some lawful code of some record, from byte `o` of a sector on.
fn any_code(random: &mut Random, r: usize, o: usize) -> Vec<u8> {
    if random.chance(25) {
        if let Some(code) = exact_code(random, r, o) {
            return code;
        }
    }
    let record = random_text(random, r);
    if random.chance(40) {
        encode(&record)
    } else {
        foreign_code(random, &record)
    }
}

/// A code that fills its sector exactly from byte `o` on: one run of characters and the 0.
fn exact_code(random: &mut Random, r: usize, o: usize) -> Option<Vec<u8>> {
    let left = SECTOR - o;
    if left == 1 {
        return Some(vec![0]);
    }
    let characters = left.checked_sub(2)?;
    if characters == 0 || characters > r.min(127) {
        return None;
    }
    let mut code = vec![characters as u8];
    code.extend(random.bytes(characters));
    code.push(0);
    Some(code)
}

/// A code of a record by another writer: runs split oddly, runs that follow one of their own
/// sort, runs of a single blank, blanks among characters, explicit trailing blanks.
pub fn foreign_code(random: &mut Random, record: &[u8]) -> Vec<u8> {
    let blank_end = record.iter().rev().take_while(|&&b| b == BLANK).count();
    let told = record.len() - random.between(0, blank_end);
    let mut code = Vec::new();
    let mut at = 0;
    while at < told {
        let blanks = record[at..told].iter().take_while(|&&b| b == BLANK).count();
        if blanks > 0 && random.chance(60) {
            let run = random.between(1, blanks.min(127));
            code.push(GO_ON + run as u8);
            at += run;
        } else {
            let run = random.between(1, (told - at).min(127));
            code.push(run as u8);
            code.extend_from_slice(&record[at..at + run]);
            at += run;
        }
    }
    code.push(0);
    code
}

/// Text for a record: blanks alone and in groups, characters of all bytes.
pub fn random_text(random: &mut Random, length: usize) -> Vec<u8> {
    match random.between(0, 6) {
        0 => vec![BLANK; length],
        1 => vec![0xC1; length],
        2 => random.bytes(length),
        3 => blanks_first(random, length),
        _ => grouped_text(random, length),
    }
}

/// Blanks up to one of the last bytes.
fn blanks_first(random: &mut Random, length: usize) -> Vec<u8> {
    let mut text = vec![BLANK; length];
    let characters = random.between(1, 3).min(length);
    text[length - characters..].fill(0xC2);
    text
}

/// Groups of characters and of blanks, short and long.
fn grouped_text(random: &mut Random, length: usize) -> Vec<u8> {
    let mut text = Vec::new();
    let longest = random.pick(&[2, 3, 10, 60, 131]);
    while text.len() < length {
        let group = random.between(1, longest);
        let byte = random.pick(&[BLANK, BLANK, 0xC1, 0xF0, 0x00, GO_ON]);
        text.resize(text.len() + group, byte);
    }
    text.truncate(length);
    text
}

/// Groups of 1 to 130 blanks between characters, half of the time one at the front. Mostly the last byte
/// is a character, so that the last group is no trailing one.
pub fn blank_groups(random: &mut Random, length: usize) -> Vec<u8> {
    let mut text = Vec::new();
    if random.chance(50) {
        put_characters(random, &mut text);
    }
    while text.len() < length {
        let group = match random.between(0, 5) {
            _ if text.len() > 100 => random.between(1, 3),
            0 => random.between(1, 3),
            1 => random.between(1, 130),
            2 => random.between(62, 66),
            _ => random.between(126, 130),
        };
        text.resize(text.len() + group, BLANK);
        put_characters(random, &mut text);
    }
    text.truncate(length);
    if random.chance(85) {
        text.pop();
        text.push(random.byte());
    }
    text.truncate(length);
    text
}

/// Mostly some few characters of all bytes, seldom many, or about as many as a run takes.
fn put_characters(random: &mut Random, text: &mut Vec<u8>) {
    let number = match random.between(0, 9) {
        0..=2 => 1,
        3..=6 => random.between(1, 5),
        7..=8 => random.between(124, 128),
        _ => random.between(1, 130),
    };
    text.extend(random.bytes(number));
}

// ---------------------------------------------------------------------------------------------
// Scripts.

/// The requests that a random script has, and what it writes.
#[derive(Clone, Copy, Debug, PartialEq, Eq)]
pub enum Sort {
    /// Those of document 01.
    First,
    /// Those, ADD and DELETE.
    All,
    /// The same as all. A part of the records written to compressed files is groups of blanks, and there
    /// are more random files, most of them with granules that share a sector.
    Wide,
}

impl Sort {
    /// The kinds of files in an image, as often as they are to be met.
    fn kinds(self) -> &'static [u16] {
        match self {
            Sort::First | Sort::All => {
                &[UNBLOCKED, BLOCKED, BLOCKED, COMPRESSED, COMPRESSED, RANDOM]
            }
            Sort::Wide => &[
                UNBLOCKED, BLOCKED, BLOCKED, COMPRESSED, COMPRESSED, RANDOM, RANDOM,
            ],
        }
    }
}

/// A script of this many requests for an image: mostly phrases that make sense, refused requests
/// among them.
pub fn random_script(random: &mut Random, image: &[u8], requests: usize, sort: Sort) -> Script {
    let good = directory_is_good(image);
    let table = if image.len() < SECTOR {
        [Entry::default(); ENTRIES]
    } else {
        table_of(image)
    };
    let mut maker = Maker::of_table(random, table, sort, image.len() / SECTOR);
    maker.model = good.then(|| Model::of_good_image(image));
    maker.refused = !good;
    for _ in 0..maker.random.between(1, MOST_OPEN) {
        maker.open_some();
    }
    maker.finish(requests)
}

/// A script of this many requests for a session of any origin on an image of n sectors, mostly on the
/// files that it has open.
pub fn script_on(
    random: &mut Random,
    session: &Session,
    n: usize,
    requests: usize,
    sort: Sort,
) -> Script {
    let mut maker = Maker::of_table(random, session.table, sort, n);
    maker.refused = session.refused;
    let open = session.open_files().map(|file| file.entry);
    maker.open = open.filter(|&number| number < ENTRIES).collect();
    maker.finish(requests)
}

/// Makes a script. The tiny model follows it, so that most requests it would refuse are left out.
struct Maker<'a> {
    random: &'a mut Random,
    table: [Entry; ENTRIES],
    used: Vec<usize>,
    open: Vec<usize>,
    model: Option<Model>,
    script: Script,
    sort: Sort,
    /// The sectors of the image.
    n: usize,
    /// The session says that its mounting was refused.
    refused: bool,
}

/// A bad directory, or a session's table, may have a larger R: scripts are kept short.
const MOST_R: usize = 3_700;

/// How many in a hundred refused requests are left out.
const REFUSED_LEFT_OUT: usize = 75;

/// How many in a hundred records for compressed files are groups of blanks, in a wide run.
const GROUPED: usize = 50;

/// The largest number of a granule: it takes 32 bits.
const LAST_GRANULE: usize = 0xFFFF_FFFF;

impl Maker<'_> {
    fn of_table(random: &mut Random, table: [Entry; ENTRIES], sort: Sort, n: usize) -> Maker<'_> {
        Maker {
            random,
            table,
            used: (0..ENTRIES).filter(|&i| table[i].is_used()).collect(),
            open: Vec::new(),
            model: None,
            script: Script::default(),
            sort,
            n,
            refused: false,
        }
    }

    fn finish(mut self, requests: usize) -> Script {
        while self.script.rows.len() < requests {
            self.phrase();
        }
        self.script.shorten(requests);
        self.script
    }

    /// Puts a request into the script, or leaves it out.
    fn offer(&mut self, request: &Script) {
        self.offer_often(request, 100 - REFUSED_LEFT_OUT);
    }

    /// The same, and a refused one is put into it this many times in a hundred.
    fn offer_often(&mut self, request: &Script, percent: usize) {
        for (row, data) in request.steps() {
            let answer = self.model.as_mut().map(|model| model.request(&row, data).0);
            let refused = answer.is_some_and(|answer| answer >= 3) || self.was_over_capacity(&row);
            if !refused || !self.random.chance(100 - percent) {
                self.script.rows.push(row);
                self.script.bytes.extend_from_slice(data);
                self.follow(&row, data, refused);
            }
        }
    }

    /// Scripts of the first two sorts are from before granules shared a sector. They stay as they were if a
    /// granule over the capacity of then counts as a refused one.
    fn was_over_capacity(&self, row: &Row) -> bool {
        let entry = self.table.get(usize::from(row.entry));
        self.sort != Sort::Wide
            && self.model.is_some()
            && row.code.takes_granule()
            && entry.is_some_and(|entry| row.granule_number() >= self.granules(entry))
    }

    /// How many granules a random file has, as the sort of script sees it; the directory may be bad.
    fn granules(&self, entry: &Entry) -> usize {
        if entry.length == 0 {
            0
        } else if self.sort == Sort::Wide {
            capacity(entry).unwrap_or(0)
        } else {
            unblocked_capacity(entry.r(), usize::from(entry.sectors))
        }
    }

    /// The next few requests that belong together.
    fn phrase(&mut self) {
        if self.sort != Sort::First && self.random.chance(EDITS) {
            return self.edit();
        }
        match self.random.between(0, 99) {
            0..=9 => self.open_some(),
            10..=12 => self.noise(),
            13..=15 => self.round_trip(),
            16..=19 => self.back_and_skip(),
            20..=22 => self.mark_in_the_middle(),
            23..=25 => self.write_at_the_end(),
            _ => {
                let number = self.some_open();
                if self.table.get(number).is_some_and(|e| e.kind == RANDOM) {
                    self.granule_phrase(number);
                } else {
                    self.tape_phrase(number);
                }
            }
        }
    }

    fn open_some(&mut self) {
        let number = self.some_used();
        self.open_it(number);
    }

    fn open_it(&mut self, number: usize) {
        self.offer(Script::default().open(number as u16));
        let known = self.used.contains(&number) && !self.open.contains(&number);
        if known && self.open.len() < MOST_OPEN {
            self.open.push(number);
        }
    }

    fn close_it(&mut self, number: usize) {
        self.offer(Script::default().close(number as u16));
        self.open.retain(|&other| other != number);
    }

    /// Writes, a rewind, reads, a mark, a closing and reading again.
    fn round_trip(&mut self) {
        let number = self.some_open();
        self.some_writes(number);
        self.some_orders(number, Order::RewindOnLine, 1);
        self.some_reads(number);
        self.some_orders(number, Order::WriteFileMark, 1);
        self.close_it(number);
        self.open_it(number);
        self.some_reads(number);
    }

    /// Writes, file back (that puts nothing back), skips and reads or writes: the held sector is
    /// then ahead of the place.
    fn back_and_skip(&mut self) {
        let number = self.some_open();
        self.some_writes(number);
        self.some_orders(number, Order::FileBack, 1);
        self.some_orders(number, Order::RecordForward, 8);
        if self.random.chance(70) {
            self.some_reads(number);
        } else {
            self.some_writes(number);
        }
    }

    /// Skips and a mark, file forward and back, and writes: they go where the mark stands.
    fn mark_in_the_middle(&mut self) {
        let number = self.some_open();
        for (order, most) in [
            (Order::RewindOnLine, 1),
            (Order::RecordForward, 4),
            (Order::WriteFileMark, 1),
            (Order::RewindOnLine, 1),
            (Order::FileForward, 1),
            (Order::FileBack, 1),
        ] {
            self.some_orders(number, order, most);
        }
        self.some_writes(number);
        self.some_orders(number, Order::RewindOnLine, 1);
        self.some_reads(number);
    }

    /// Goes to the end of a marked file and writes there, where often there is no room.
    fn write_at_the_end(&mut self) {
        let number = self.some_open();
        self.some_orders(number, Order::RewindOnLine, 1);
        self.some_orders(number, Order::FileForward, 1);
        self.some_orders(number, Order::FileBack, 1);
        self.some_writes(number);
        self.some_orders(number, Order::WriteFileMark, 1);
    }

    /// A used entry, seldom some other number.
    fn some_used(&mut self) -> usize {
        if self.used.is_empty() || self.random.chance(3) {
            self.random.pick(&[0, 3, 17, 18, 19, 20, 65_535])
        } else {
            self.random.pick(&self.used)
        }
    }

    /// An open file, seldom another.
    fn some_open(&mut self) -> usize {
        if self.open.is_empty() || self.random.chance(5) {
            self.some_used()
        } else {
            self.random.pick(&self.open)
        }
    }

    fn r_of(&self, number: usize) -> usize {
        let r = self.table.get(number).map_or(80, Entry::r);
        r.min(MOST_R)
    }

    fn tape_phrase(&mut self, number: usize) {
        match self.random.between(0, 99) {
            0..=29 => self.some_writes(number),
            30..=54 => self.some_reads(number),
            55..=62 => self.some_orders(number, Order::RecordForward, 5),
            63..=70 => self.some_orders(number, Order::RecordBack, 4),
            71..=76 => self.some_orders(number, Order::RewindOnLine, 1),
            77..=82 => self.some_orders(number, Order::WriteFileMark, 1),
            83..=87 => self.some_orders(number, Order::FileForward, 2),
            88..=92 => self.some_orders(number, Order::FileBack, 2),
            93..=95 => self.close_it(number),
            96..=98 => {
                self.close_it(number);
                self.open_it(number);
            }
            _ => self.offer(Script::default().granule_look(number as u16, 0)),
        }
    }

    fn some_writes(&mut self, number: usize) {
        for _ in 0..self.random.between(1, 8) {
            let exact = self.exact_data(number).filter(|_| self.random.chance(40));
            let data = exact.unwrap_or_else(|| self.some_data(number));
            self.offer(Script::default().write(number as u16, &data));
        }
    }

    fn some_reads(&mut self, number: usize) {
        for _ in 0..self.random.between(1, 8) {
            let size = self.some_size(number);
            self.offer(Script::default().read(number as u16, size));
        }
    }

    fn some_orders(&mut self, number: usize, order: Order, most: usize) {
        for _ in 0..self.random.between(1, most) {
            self.offer(Script::default().order(number as u16, order));
        }
    }

    fn granule_phrase(&mut self, number: usize) {
        if self.sort == Sort::Wide {
            return self.neighbours_phrase(number);
        }
        let most = self.granules(&self.table[number]);
        for _ in 0..self.random.between(1, 4) {
            let granule = self.random.between(0, most + 1);
            self.granule_request(number, granule);
        }
        if self.random.chance(10) {
            self.close_it(number);
        }
    }

    /// Requests on a granule, on those beside it and on others.
    fn neighbours_phrase(&mut self, number: usize) {
        let centre = self.some_granule(number);
        for _ in 0..self.random.between(2, 7) {
            let granule = match self.random.between(0, 9) {
                0..=2 => centre,
                3..=4 => centre.saturating_sub(1),
                5..=6 => (centre + 1).min(LAST_GRANULE),
                _ => self.some_granule(number),
            };
            self.granule_request(number, granule);
        }
        if self.random.chance(10) {
            self.close_it(number);
        }
    }

    /// A granule's number: any of the file, one at a sector's end or beginning, one about the capacity, or a
    /// good one and some 65,536 more.
    fn some_granule(&mut self, number: usize) -> usize {
        let entry = self.table[number];
        let most = self.granules(&entry);
        let last = most.saturating_sub(1);
        let q = SECTOR.checked_div(entry.r()).unwrap_or(0).max(1);
        let of_sector = q * self.random.between(0, last / q);
        let any = self.random.between(0, last);
        match self.random.between(0, 99) {
            0..=29 => any,
            30..=44 => (of_sector + q - 1).min(last),
            45..=59 => of_sector,
            60..=79 => last,
            80..=87 => most,
            88..=90 => most + 1,
            91..=92 => most + self.random.between(0, 65_535),
            93..=97 => 65_536 + any,
            98 => 65_536 * self.random.between(1, 65_535) + any,
            _ => LAST_GRANULE,
        }
    }

    fn granule_request(&mut self, number: usize, granule: usize) {
        let entry = number as u16;
        let (size, data) = (self.some_size(number), self.some_data(number));
        let mut request = Script::default();
        match self.random.between(0, 2) {
            0 => request.granule_read(entry, granule, size),
            1 => request.granule_write(entry, granule, &data),
            _ => request.granule_look(entry, granule),
        };
        self.offer(&request);
    }

    /// Any request on any file.
    fn noise(&mut self) {
        let number = self.some_used();
        let entry = number as u16;
        let data = self.some_data(number);
        let size = self.some_size(number);
        let order = self.random.pick(&[
            Order::WriteFileMark,
            Order::RewindOnLine,
            Order::RecordForward,
            Order::RecordBack,
            Order::FileForward,
            Order::FileBack,
        ]);
        let mut request = Script::default();
        match self.random.between(0, 6) {
            0 => request.read(entry, size),
            1 => request.write(entry, &data),
            2 => request.granule_read(entry, 0, size),
            3 => request.granule_write(entry, 0, &data),
            4 => request.granule_look(entry, 1),
            _ => request.order(entry, order),
        };
        self.offer(&request);
    }

    /// Bytes for a write: mostly R of them (few where R is large), sometimes fewer, seldom 0, odd
    /// or over R.
    fn some_data(&mut self, number: usize) -> Vec<u8> {
        let r = self.r_of(number);
        let length = match self.random.between(0, 99) {
            0..=2 => 0,
            3..=5 => 2 * self.random.between(0, r / 2) + 1,
            6..=7 => r + 2,
            8..=27 => 2 * self.random.between(1, (r / 2).max(1)),
            28..=84 if r > 132 => 2 * self.random.between(1, 30),
            _ => r,
        };
        if self.writes_groups(number) && self.random.chance(GROUPED) {
            return blank_groups(self.random, length);
        }
        random_text(self.random, length)
    }

    fn writes_groups(&self, number: usize) -> bool {
        let entry = self.table.get(number);
        self.sort == Sort::Wide && entry.is_some_and(|entry| entry.kind == COMPRESSED)
    }

    /// Characters whose code fills its sector exactly, where there are such.
    fn exact_data(&self, number: usize) -> Option<Vec<u8>> {
        let tape = self.model.as_ref()?.tapes.get(number)?.as_ref()?;
        let (position, _) = tape.stands?;
        let (_, byte) = *tape.places.get(position)?;
        let characters = (SECTOR - byte).checked_sub(2)?;
        let most = self.r_of(number).min(127);
        let lawful = (1..=most).contains(&characters) && characters.is_multiple_of(2);
        lawful.then(|| vec![0xC1; characters])
    }

    /// A read's buffer size: mostly R, sometimes more, seldom too few.
    fn some_size(&mut self, number: usize) -> usize {
        let r = self.r_of(number);
        match self.random.between(0, 99) {
            0 => 0,
            1..=3 => r.saturating_sub(self.random.between(1, 2)),
            4..=15 => r + self.random.between(1, 9),
            _ => r,
        }
    }
}

// ---------------------------------------------------------------------------------------------
// Adding and deleting.

/// How many in a hundred phrases add or delete.
const EDITS: usize = 17;

/// The numbers of names that are asked for: few, so that they are met again.
const NAMES: usize = 60;

impl Maker<'_> {
    /// Keeps the table as it is by now, as well as it can be told.
    fn follow(&mut self, row: &Row, data: &[u8], refused: bool) {
        if !row.code.edits() || refused {
            return;
        }
        let number = usize::from(row.entry);
        let mut session = Session {
            engine: Engine::Plain,
            table: self.table,
            open: [OpenFile::UNUSED; MOST_OPEN],
            refused: self.refused,
        };
        let mut image = empty_image(self.n);
        if row.code == Code::Add {
            let _ = editing::add(&mut image, &mut session, &row.asked(data));
        } else if !self.open.contains(&number) {
            editing::delete(&mut image, &mut session, number);
        }
        self.table = session.table;
        self.used = (0..ENTRIES).filter(|&i| self.table[i].is_used()).collect();
    }

    fn edit(&mut self) {
        match self.random.between(0, 99) {
            0..=29 => {
                let kind = self.some_kind();
                let sectors = self.some_sectors();
                self.add_and_use(kind, sectors);
            }
            30..=49 => self.delete_some(),
            50..=64 => self.replace_some(),
            65..=74 => self.fill_up(),
            _ => self.odd_add(),
        }
    }

    fn some_kind(&mut self) -> u16 {
        self.random
            .pick(&[UNBLOCKED, BLOCKED, COMPRESSED, RANDOM, RANDOM])
    }

    /// A name of one to eight letters, one of some few.
    fn some_name(&mut self) -> [u8; 8] {
        let number = self.random.between(0, NAMES - 1);
        let name = format!("{}{number}ZIGZAG", ["G", "K", "ST"][number % 3]);
        let shown = number % 6 + 3;
        new_entry(&name[..shown.min(name.len())], 0, 0, 0, 0).name
    }

    /// The lengths of the runs of free sectors, none where the table has an extent past the image.
    fn gaps(&self) -> Vec<usize> {
        let mut free = vec![true; self.n];
        for entry in self.table.iter().filter(|entry| entry.is_used()) {
            let end = entry.extent_end().min(self.n);
            free[entry.image_sector(0).min(end)..end].fill(false);
        }
        let runs = free.get(1..).unwrap_or_default().split(|&is_free| !is_free);
        runs.map(<[bool]>::len)
            .filter(|&length| length > 0)
            .collect()
    }

    /// A sector count: small, or about one of the gaps.
    fn some_sectors(&mut self) -> usize {
        let gaps = self.gaps();
        let gap = if gaps.is_empty() {
            1
        } else {
            self.random.pick(&gaps)
        };
        match self.random.between(0, 99) {
            0..=44 => self.random.pick(&[1, 1, 1, 2, 2, 3, 4, 6]),
            45..=79 => gap,
            80..=89 => gap + 1,
            90..=94 => gap.saturating_sub(1).max(1),
            _ => self.random.pick(&[self.n, self.n + 1, 4_095, 65_535]),
        }
    }

    /// Asks for a file; its number, if there is one of that name by now that was not there before.
    fn add(&mut self, kind: u16, sectors: usize, name: [u8; 8]) -> Option<usize> {
        let before = self.table;
        let mut request = Script::default();
        request.add(&Asked {
            name: &name,
            kind,
            length: random_r(self.random, kind, self.sort) as u16,
            sectors: sectors.min(65_535) as u16,
        });
        self.offer_often(&request, 40);
        (0..ENTRIES).find(|&number| !before[number].is_used() && self.table[number].is_used())
    }

    fn add_and_use(&mut self, kind: u16, sectors: usize) {
        let name = self.some_name();
        let Some(number) = self.add(kind, sectors, name) else {
            return;
        };
        if self.open.len() == MOST_OPEN && self.random.chance(60) {
            let other = self.random.pick(&self.open);
            self.close_it(other);
        }
        if self.random.chance(85) {
            self.open_it(number);
            if kind == RANDOM {
                self.granule_phrase(number);
            } else {
                self.some_reads(number);
                self.some_writes(number);
                self.some_orders(number, Order::RewindOnLine, 1);
                self.some_reads(number);
            }
        }
    }

    /// Mostly a file that is not open.
    fn delete_some(&mut self) {
        let is_closed = |number: &usize| !self.open.contains(number);
        let closed: Vec<usize> = self.used.iter().copied().filter(is_closed).collect();
        let number = match self.random.between(0, 99) {
            0..=69 if !closed.is_empty() => self.random.pick(&closed),
            70..=84 => self.some_open(),
            85..=90 => self.random.between(0, ENTRIES + 1),
            91..=94 => 256 + self.random.between(0, ENTRIES + 1),
            _ => self.some_used(),
        };
        self.delete_it(number);
    }

    fn delete_it(&mut self, number: usize) {
        self.offer_often(Script::default().delete(number as u16), 40);
    }

    /// A file is closed and deleted, and another asked for of as many sectors.
    fn replace_some(&mut self) {
        let number = self.some_used();
        let sectors = self.table.get(number).map_or(1, |e| usize::from(e.sectors));
        if self.open.contains(&number) {
            self.close_it(number);
        }
        self.delete_it(number);
        let kind = self.some_kind();
        let more = self.random.pick(&[0, 0, 0, 0, 1]);
        self.add_and_use(kind, sectors.max(1) + more);
    }

    /// Small files until there is no entry, or no sector.
    fn fill_up(&mut self) {
        for _ in 0..self.random.between(5, 20) {
            let kind = self.some_kind();
            let name = self.some_name();
            self.add(kind, 1, name);
        }
        let odd = self.random.chance(50);
        if odd {
            self.odd_add();
        }
    }

    /// Asks for a file of which something, or some things, may be wrong.
    fn odd_add(&mut self) {
        let kind = self.some_kind();
        let mut name = self.some_name().to_vec();
        let mut asked_kind = kind;
        let mut length = random_r(self.random, kind, self.sort) as u16;
        let mut sectors = self.some_sectors().min(65_535) as u16;
        for _ in 0..self.random.pick(&[1, 1, 1, 2, 2, 3]) {
            match self.random.between(0, 9) {
                0..=1 => name = self.odd_name(name),
                2..=3 => name = self.used_name().to_vec(),
                4 => asked_kind = self.random.pick(&[0, 5, 6, 255, 256, 258, 65_535]),
                5..=6 => length = self.odd_length(kind),
                7 => sectors = 0,
                _ => sectors = self.random.pick(&[self.n as u16, 300, 4_096, 65_535]),
            }
        }
        let mut request = Script::default();
        request.add(&Asked {
            name: &name,
            kind: asked_kind,
            length,
            sectors,
        });
        if self.random.chance(20) {
            let word = self.random.byte();
            request.with_words(5, [u16::from(word)]);
        }
        self.offer_often(&request, 80);
    }

    /// The name of a used entry, seldom one much like it.
    fn used_name(&mut self) -> [u8; 8] {
        let number = self.some_used();
        let mut name = self.table.get(number).map_or([0; 8], |entry| entry.name);
        match self.random.between(0, 9) {
            0..=1 => name[7] = self.random.pick(&[BLANK, 0xC1, 0xF0]),
            2 => name[self.random.between(1, 3)..].fill(BLANK),
            _ => {}
        }
        name
    }

    fn odd_name(&mut self, mut name: Vec<u8>) -> Vec<u8> {
        match self.random.between(0, 5) {
            0 => name.truncate(self.random.between(0, 7)),
            1 => name.resize(self.random.pick(&[9, 10, 16, 264]), BLANK),
            2 => {
                let letter = self
                    .random
                    .pick(&[0, BLANK, 0xC0, 0xE1, 0xEA, 0xF0, 0xF9, 0x81]);
                name.splice(..name.len().min(1), [letter]);
            }
            _ => {
                name.resize(8, BLANK);
                let at = self.random.between(1, 7);
                name[at] = self
                    .random
                    .pick(&[0, BLANK, 0xC1, 0xCA, 0xD0, 0xE1, 0xFA, 0xF0]);
            }
        }
        name
    }

    fn odd_length(&mut self, kind: u16) -> u16 {
        let other = random_r(self.random, kind % 4 + 1, self.sort) as u16;
        let odd = 2 * self.random.between(0, 66) as u16 + 1;
        self.random
            .pick(&[0, 1, odd, 134, 132, 360, 362, 3_600, 3_602, 65_534, other])
    }
}
