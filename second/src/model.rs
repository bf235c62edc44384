//! A third, tiny model: every file is a list of records. It shares no function with the engines, and has a
//! coder and decoder of its own. Its ground is what the writes leave in the sectors: nothing is read from
//! it but what lies there when a random file is added.

use crate::engine::Order;
use crate::script::{Code, Row};

const BLANK: u8 = 0x40;

/// One file: the tape (or the granules), and where it stands if it is open.
#[derive(Clone, Debug, PartialEq, Eq)]
pub struct Tape {
    pub kind: u16,
    r: usize,
    protected: bool,
    /// The extent, in sectors of the image.
    pub first: usize,
    pub sectors: usize,
    pub name: Vec<u8>,
    /// Records or granules that there is room for; sectors, for a compressed file.
    room: usize,
    pub records: Vec<Vec<u8>>,
    pub marked: bool,
    /// Compressed: the sector and byte behind each number of records.
    pub places: Vec<(usize, usize)>,
    pub stands: Option<(usize, bool)>,
}

/// All files of an image, and its sectors but the directory.
#[derive(Clone, Debug, PartialEq, Eq)]
pub struct Model {
    pub tapes: Vec<Option<Tape>>,
    pub ground: Vec<u8>,
}

/// An answer, the bytes moved and the number of an entry that was added.
pub type Said = (u8, Vec<u8>, Option<usize>);

impl Model {
    /// Takes up a good image.
    pub fn of_good_image(image: &[u8]) -> Model {
        let tapes = image[..360].chunks(20).map(|entry| tape_of(image, entry));
        Model {
            tapes: tapes.collect(),
            ground: image[360..].to_vec(),
        }
    }

    /// The tapes with nothing open.
    pub fn all_closed(&self) -> Model {
        let mut model = self.clone();
        for tape in model.tapes.iter_mut().flatten() {
            tape.stands = None;
        }
        model
    }

    /// The answer to a request, the bytes moved and the entry added.
    pub fn request(&mut self, row: &Row, data: &[u8]) -> Said {
        match row.code {
            Code::Add => match self.add(row, data) {
                Ok(number) => (0, Vec::new(), Some(number)),
                Err(answer) => (answer, Vec::new(), None),
            },
            Code::Delete => (self.delete(usize::from(row.entry)), Vec::new(), None),
            Code::Write | Code::GranuleWrite => {
                let stood = self.tapes.get(usize::from(row.entry)).cloned().flatten();
                let (answer, moved) = self.tape_request(row, data);
                if let (0, Some(tape)) = (answer, stood) {
                    self.leave(&tape, row.granule_number(), data);
                }
                (answer, moved, None)
            }
            _ => {
                let (answer, moved) = self.tape_request(row, data);
                (answer, moved, None)
            }
        }
    }

    /// Which sectors of the image are free; sector 0 never is.
    pub fn free_sectors(&self) -> Vec<bool> {
        let mut free = vec![true; 1 + self.ground.len() / 360];
        free[0] = false;
        for tape in self.tapes.iter().flatten() {
            free[tape.first..tape.first + tape.sectors].fill(false);
        }
        free
    }

    /// A new file: every run of sectors is tried, from the lowest on.
    fn add(&mut self, row: &Row, name: &[u8]) -> Result<usize, u8> {
        let (kind, r) = (usize::from(row.entry), usize::from(row.granule));
        let sectors = usize::from(row.more[0]);
        if !good_name(name) {
            return Err(13);
        }
        let longest = [0, 3_600, 360, 132, 3_600].get(kind).copied().unwrap_or(0);
        if r < 2 || r % 2 == 1 || r > longest || sectors < 1 {
            return Err(17);
        }
        if self.tapes.iter().flatten().any(|tape| tape.name == name) {
            return Err(14);
        }
        let number = self.tapes.iter().position(Option::is_none).ok_or(15)?;
        let free = self.free_sectors();
        let all_free = |run: &[bool]| run.iter().all(|&is_free| is_free);
        let first = free.windows(sectors).position(all_free).ok_or(16)?;
        let words = [kind, r, first, sectors, 0, 0].map(|word| (word as u16).to_be_bytes());
        let entry = [name, &words.concat()].concat();
        let image = [&[0; 360], &self.ground[..]].concat();
        self.tapes[number] = tape_of(&image, &entry);
        Ok(number)
    }

    fn delete(&mut self, number: usize) -> u8 {
        match self.tapes.get_mut(number) {
            Some(Some(tape)) if tape.stands.is_some() => 9,
            Some(tape) if tape.is_some() => {
                *tape = None;
                0
            }
            _ => 8,
        }
    }

    /// What a write answered 0 leaves in the sectors of a tape that stood so.
    fn leave(&mut self, stood: &Tape, granule: usize, data: &[u8]) {
        let start = (stood.first - 1) * 360;
        let extent = &mut self.ground[start..start + stood.sectors * 360];
        let p = stood.stands.map_or(0, |(p, _)| p);
        let record = stood.padded(data);
        match stood.kind {
            2 => {
                let in_sector = 360 / stood.r;
                let (sector, byte) = (p / in_sector, p % in_sector * stood.r);
                let rest = &mut extent[sector * 360 + byte..(sector + 1) * 360];
                rest.fill(0);
                rest[..stood.r].copy_from_slice(&record);
            }
            3 => {
                let code = hand_code(&record);
                let (mut sector, mut byte) = stood.places[p];
                extent[sector * 360 + byte..(sector + 1) * 360].fill(128);
                if byte + code.len() > 360 {
                    (sector, byte) = (sector + 1, 0);
                    extent[sector * 360..(sector + 1) * 360].fill(128);
                }
                extent[sector * 360 + byte..][..code.len()].copy_from_slice(&code);
            }
            4 if several_in_a_sector(stood.r) => {
                let mut parts = extent
                    .chunks_mut(360)
                    .flat_map(|sector| sector.chunks_exact_mut(stood.r));
                if let Some(part) = parts.nth(granule) {
                    part.copy_from_slice(&record);
                }
            }
            kind => {
                let whole = stood.r.div_ceil(360) * 360;
                let part = &mut extent[whole * if kind == 4 { granule } else { p }..][..whole];
                part.fill(0);
                part[..stood.r].copy_from_slice(&record);
            }
        }
    }

    /// A request on a file.
    fn tape_request(&mut self, row: &Row, data: &[u8]) -> (u8, Vec<u8>) {
        let open = self.tapes.iter().flatten();
        let four_open = open.filter(|tape| tape.stands.is_some()).count() == 4;
        let Some(Some(tape)) = self.tapes.get_mut(usize::from(row.entry)) else {
            return (8, Vec::new());
        };
        if row.code == Code::Open {
            return (tape.open(four_open), Vec::new());
        }
        let Some((p, beyond)) = tape.stands else {
            return (8, Vec::new());
        };
        let random = tape.kind == 4;
        let granule = row.granule_number();
        let size = usize::from(row.length);
        match row.code {
            Code::GranuleRead | Code::GranuleWrite | Code::GranuleLook if !random => {
                (7, Vec::new())
            }
            Code::GranuleRead if size < tape.r => (6, Vec::new()),
            Code::GranuleRead | Code::GranuleLook => match tape.records.get(granule) {
                Some(bytes) => (0, bytes.clone()),
                None => (3, Vec::new()),
            },
            Code::GranuleWrite => moved_if_done(tape.granule_write(granule, data), data),
            Code::Order(Order::RewindOffLine) => {
                tape.stands = None;
                (0, Vec::new())
            }
            _ if random => (7, Vec::new()),
            Code::Read if !beyond && size < tape.r => (6, Vec::new()),
            Code::Read => tape.read(p, beyond),
            Code::Write => moved_if_done(tape.write(p, beyond, data), data),
            Code::Order(order) => (tape.order(order, p, beyond), Vec::new()),
            Code::Open | Code::Add | Code::Delete => (8, Vec::new()),
        }
    }
}

/// Eight bytes: a capital, capitals and digits, and blanks up to the end. Told by a table of letters.
fn good_name(name: &[u8]) -> bool {
    let letter = |byte: u8| match byte {
        0xC0..=0xEF => (1..=9).contains(&(byte % 16)) && byte != 0xE1,
        0xF0..=0xF9 => true,
        _ => false,
    };
    let blanks = name.iter().rev().take_while(|&&byte| byte == BLANK).count();
    let told = &name[..name.len() - blanks];
    name.len() == 8
        && told.first().is_some_and(|&byte| byte < 0xF0)
        && told.iter().all(|&byte| letter(byte))
}

fn moved_if_done(answer: u8, data: &[u8]) -> (u8, Vec<u8>) {
    if answer == 0 {
        (answer, data.to_vec())
    } else {
        (answer, Vec::new())
    }
}

impl Tape {
    fn open(&mut self, four_open: bool) -> u8 {
        if self.stands.is_some() {
            9
        } else if four_open {
            10
        } else {
            self.stands = Some((0, false));
            0
        }
    }

    fn padded(&self, data: &[u8]) -> Vec<u8> {
        let mut record = data.to_vec();
        record.resize(self.r, if self.kind == 3 { BLANK } else { 0 });
        record
    }

    /// 5 or 6 for a written length, else 0.
    fn length_answer(&self, data: &[u8]) -> u8 {
        match data.len() {
            length if length % 2 == 1 => 5,
            length if length == 0 || length > self.r => 6,
            _ => 0,
        }
    }

    fn granule_write(&mut self, granule: usize, data: &[u8]) -> u8 {
        if self.protected {
            return 4;
        }
        let answer = self.length_answer(data);
        if answer != 0 {
            return answer;
        }
        if granule >= self.room {
            return 3;
        }
        self.records[granule] = self.padded(data);
        0
    }

    fn read(&mut self, p: usize, beyond: bool) -> (u8, Vec<u8>) {
        if beyond {
            return (7, Vec::new());
        }
        if let Some(record) = self.records.get(p) {
            self.stands = Some((p + 1, false));
            return (0, record.clone());
        }
        if !self.marked {
            return (7, Vec::new());
        }
        self.stands = Some((p, true));
        (1, Vec::new())
    }

    fn write(&mut self, p: usize, beyond: bool, data: &[u8]) -> u8 {
        if self.protected {
            return 4;
        }
        if beyond {
            return 7;
        }
        let answer = self.length_answer(data);
        if answer != 0 {
            return answer;
        }
        let record = self.padded(data);
        if self.kind == 3 {
            let Some(place) = self.next_place(p, hand_code(&record).len()) else {
                return 3;
            };
            self.places.truncate(p + 1);
            self.places.push(place);
        } else if p >= self.room {
            return 3;
        }
        self.records.truncate(p);
        self.records.push(record);
        self.marked = false;
        self.stands = Some((p + 1, false));
        0
    }

    /// The place behind a code of e bytes written at position p.
    fn next_place(&self, p: usize, e: usize) -> Option<(usize, usize)> {
        let (sector, byte) = self.places[p];
        if p == 65_535 {
            None
        } else if byte + e <= 360 {
            Some((sector, byte + e))
        } else if sector + 1 < self.room {
            Some((sector + 1, e))
        } else {
            None
        }
    }

    fn order(&mut self, order: Order, p: usize, beyond: bool) -> u8 {
        let end = self.records.len();
        let (answer, stands) = match order {
            Order::WriteFileMark if self.protected => (4, (p, beyond)),
            Order::WriteFileMark if beyond => (7, (p, beyond)),
            Order::WriteFileMark => {
                self.records.truncate(p);
                self.places.truncate(p + 1);
                self.marked = true;
                (0, (p, true))
            }
            Order::RewindOnLine => (0, (0, false)),
            Order::RecordForward => return self.read(p, beyond).0,
            Order::RecordBack if self.kind == 3 => (7, (p, beyond)),
            Order::RecordBack if beyond => (1, (p, false)),
            Order::RecordBack if p == 0 => (2, (0, false)),
            Order::RecordBack => (0, (p - 1, false)),
            Order::FileForward if beyond || !self.marked => (7, (p, beyond)),
            Order::FileForward => (0, (end, true)),
            Order::FileBack if beyond => (0, (p, false)),
            Order::FileBack => (2, (0, false)),
            Order::RewindOffLine => return 8,
        };
        self.stands = Some(stands);
        answer
    }
}

/// The writer's code of a record, found byte by byte: a byte begins a new run when it and the
/// byte before it are not both in, or both out of, a group of blanks, or when the run is full.
pub fn hand_code(record: &[u8]) -> Vec<u8> {
    let length = record
        .iter()
        .rposition(|&b| b != BLANK)
        .map_or(0, |i| i + 1);
    let blank = |i: usize| i < length && record[i] == BLANK;
    let in_group = |i: usize| blank(i) && (blank(i + 1) || (i > 0 && blank(i - 1)));
    let mut code: Vec<u8> = Vec::new();
    let mut control = 0;
    let mut run = 0;
    for (i, &byte) in record[..length].iter().enumerate() {
        if i == 0 || in_group(i) != in_group(i - 1) || run == 127 {
            control = code.len();
            run = 0;
            code.push(if in_group(i) { 128 } else { 0 });
        }
        run += 1;
        code[control] += 1;
        if !in_group(i) {
            code.push(byte);
        }
    }
    code.push(0);
    code
}

/// The record at the front of the rest of a sector and its number of coded bytes, none if bad:
/// the runs' lengths are walked over first, the characters gathered after.
pub fn hand_decode(rest: &[u8], r: usize) -> Option<(Vec<u8>, usize)> {
    let mut walk = vec![];
    let mut at = 0;
    while rest.get(at).is_some_and(|&control| control != 0) {
        walk.push(at);
        at += if rest[at] < 128 {
            1 + usize::from(rest[at])
        } else {
            1
        };
    }
    let lengths = walk.iter().map(|&at| usize::from(rest[at] % 128));
    let lawful = at < rest.len() && walk.iter().all(|&at| rest[at] != 128);
    if !lawful || lengths.sum::<usize>() > r {
        return None;
    }
    let mut record = vec![BLANK; r];
    let mut to = 0;
    for run in walk {
        let length = usize::from(rest[run] % 128);
        if rest[run] < 128 {
            record[to..to + length].copy_from_slice(&rest[run + 1..run + 1 + length]);
        }
        to += length;
    }
    Some((record, at + 1))
}

/// Two granules and more find room in a sector.
fn several_in_a_sector(r: usize) -> bool {
    r + r <= 360
}

fn number(entry: &[u8], at: usize) -> usize {
    usize::from(entry[at]) * 256 + usize::from(entry[at + 1])
}

/// Takes up one entry of a good image.
fn tape_of(image: &[u8], entry: &[u8]) -> Option<Tape> {
    let (kind, r, flags) = (number(entry, 8), number(entry, 10), number(entry, 18));
    let (first, sectors, count) = (number(entry, 12), number(entry, 14), number(entry, 16));
    let extent = &image[first * 360..(first + sectors) * 360];
    let stride = r.div_ceil(360).max(1) * 360;
    let mut places = Vec::new();
    let (room, records) = match kind {
        0 => return None,
        2 => {
            let in_sector = |s: &[u8]| s[..360 / r * r].chunks(r).map(<[u8]>::to_vec).collect();
            let all: Vec<Vec<Vec<u8>>> = extent.chunks(360).map(in_sector).collect();
            let room = (360 / r * sectors).min(65_535);
            (room, all.concat()[..count].to_vec())
        }
        3 => {
            let records;
            (records, places) = expand(extent, r, count);
            (sectors, records)
        }
        4 if several_in_a_sector(r) => {
            let in_sector = |sector| <[u8]>::chunks_exact(sector, r).map(<[u8]>::to_vec);
            let all: Vec<Vec<u8>> = extent.chunks(360).flat_map(in_sector).collect();
            (all.len(), all)
        }
        _ => {
            let all = extent.chunks_exact(stride).map(|s| s[..r].to_vec());
            let room = extent.len() / stride;
            (
                room,
                all.take(if kind == 4 { room } else { count }).collect(),
            )
        }
    };
    Some(Tape {
        kind: kind as u16,
        r,
        protected: flags >= 2,
        first,
        sectors,
        name: entry[..8].to_vec(),
        room,
        records,
        marked: flags % 2 == 1,
        places,
        stands: None,
    })
}

/// The first records of a good compressed extent, and the place behind each number of them.
fn expand(extent: &[u8], r: usize, count: usize) -> (Vec<Vec<u8>>, Vec<(usize, usize)>) {
    let mut records = Vec::new();
    let mut places = vec![(0, 0)];
    let mut at = 0;
    let mut record = Vec::new();
    while records.len() < count {
        let control = usize::from(extent[at]);
        match control {
            128 => at = at / 360 * 360 + 360,
            0 => {
                at += 1;
                record.resize(r, BLANK);
                records.push(std::mem::take(&mut record));
                places.push(((at - 1) / 360, (at - 1) % 360 + 1));
            }
            1..=127 => {
                record.extend_from_slice(&extent[at + 1..at + 1 + control]);
                at += 1 + control;
            }
            _ => {
                record.resize(record.len() + control - 128, BLANK);
                at += 1;
            }
        }
    }
    (records, places)
}
