//! Scripts told in words, so that a fixed case can be read.
//!
//! - `@5`: no request; the words behind it are about entry 5 (entry 0 before the first such word)
//! - `open`, `close` (rewind off-line), `mark`, `rewind`, `forward`, `back`, `file-forward`,
//!   `file-back`: opening, and the position orders
//! - `read:L`: a read with a buffer of L bytes
//! - `write:L`, `mixed:L`, `chars:L`, `blanks:L`: a write of L bytes that are of all sorts, groups
//!   of blanks and characters, one character, blanks
//! - `text:A..B`: a write of these characters, a point for a blank
//! - `get:G:L`, `put:G:L`, `look:G`: granule G read, written, shown; G may be over 65,535
//! - `add:NAME:KIND:L:S`: an adding of a file of L bytes a record and S sectors; blanks are put behind a
//!   name of fewer than eight letters
//! - `hex:BYTES:KIND:L:S`: the same, the bytes of the name in hex and no others
//! - `delete`: a deleting
//! - `WORD*N`: the same N times
//!
//! L is a number, `R`, `R+1` or the like; it is R where it is left out. Each write has other bytes.

use crate::cases::Case;
use crate::characters::letters;
use crate::editing::Asked;
use crate::engine::Order;
use crate::image::BLANK;
use crate::script::Script;

/// A case whose script these words tell.
pub fn case(
    name: impl Into<String>,
    rule: &'static str,
    image: Vec<u8>,
    r: usize,
    words: &str,
) -> Case {
    Case::new(name, rule, image, script(r, words))
}

/// The script that these words tell, for files of record length R.
pub fn script(r: usize, words: &str) -> Script {
    let mut scribe = Scribe {
        script: Script::default(),
        r,
        entry: 0,
        writes: 0,
    };
    for word in words.split_whitespace() {
        let (word, times) = word.split_once('*').unwrap_or((word, "1"));
        for _ in 0..number(times) {
            scribe.put(word);
        }
    }
    scribe.script
}

struct Scribe {
    script: Script,
    r: usize,
    entry: u16,
    writes: usize,
}

impl Scribe {
    fn put(&mut self, word: &str) {
        if let Some(entry) = word.strip_prefix('@') {
            self.entry = number(entry) as u16;
            return;
        }
        let mut parts = word.split(':');
        let (name, first, second) = (parts.next().unwrap_or(""), parts.next(), parts.next());
        match name {
            "add" | "hex" => self.put_add(word),
            "delete" => drop(self.script.delete(self.entry)),
            "open" => drop(self.script.open(self.entry)),
            "read" => drop(self.script.read(self.entry, self.length(first))),
            "get" | "put" | "look" => self.put_granule(name, first, second),
            "write" | "mixed" | "chars" | "blanks" => self.put_write(name, first),
            "text" => drop(self.script.write(self.entry, &text(first.unwrap_or("")))),
            order => drop(self.script.order(self.entry, order_named(order))),
        }
    }

    fn put_add(&mut self, word: &str) {
        let parts: Vec<&str> = word.split(':').collect();
        let [sort, told, kind, length, sectors] = parts[..] else {
            panic!("no adding: {word}");
        };
        let mut name = if sort == "hex" { hex(told) } else { text(told) };
        if sort == "add" {
            name.resize(name.len().max(8), BLANK);
        }
        self.script.add(&Asked {
            name: &name,
            kind: number(kind) as u16,
            length: self.length(Some(length)) as u16,
            sectors: number(sectors) as u16,
        });
    }

    fn put_granule(&mut self, name: &str, granule: Option<&str>, length: Option<&str>) {
        let granule = number(granule.unwrap_or("0"));
        let length = self.length(length);
        match name {
            "get" => self.script.granule_read(self.entry, granule, length),
            "look" => self.script.granule_look(self.entry, granule),
            _ => {
                let data = self.data("write", length);
                self.script.granule_write(self.entry, granule, &data)
            }
        };
    }

    fn put_write(&mut self, sort: &str, length: Option<&str>) {
        let data = self.data(sort, self.length(length));
        self.script.write(self.entry, &data);
    }

    /// Bytes for a write: of its sort, and other ones each time.
    fn data(&mut self, sort: &str, length: usize) -> Vec<u8> {
        self.writes += 1;
        let turn = self.writes;
        let letter = 0xC1 + (turn % 9) as u8;
        let byte = |i: usize| match sort {
            "blanks" => BLANK,
            "chars" => letter,
            "mixed" if (i / (1 + turn % 5)) % 3 == turn % 2 => BLANK,
            "mixed" => letter,
            _ => (turn * 37 + i * 11 + 5) as u8,
        };
        (0..length).map(byte).collect()
    }

    fn length(&self, told: Option<&str>) -> usize {
        match told.unwrap_or("R").strip_prefix('R') {
            None => number(told.unwrap_or("")),
            Some("") => self.r,
            Some(more) if more.starts_with('-') => self.r - number(&more[1..]),
            Some(more) => self.r + number(&more[1..]),
        }
    }
}

fn order_named(name: &str) -> Order {
    match name {
        "mark" => Order::WriteFileMark,
        "rewind" => Order::RewindOnLine,
        "close" => Order::RewindOffLine,
        "forward" => Order::RecordForward,
        "back" => Order::RecordBack,
        "file-forward" => Order::FileForward,
        "file-back" => Order::FileBack,
        _ => panic!("no such word: {name}"),
    }
}

fn number(digits: &str) -> usize {
    digits
        .parse()
        .unwrap_or_else(|_| panic!("no number: {digits}"))
}

/// Bytes of two hex digits each.
fn hex(told: &str) -> Vec<u8> {
    let byte = |at: usize| u8::from_str_radix(&told[at..at + 2], 16);
    let bytes: Result<Vec<u8>, _> = (0..told.len()).step_by(2).map(byte).collect();
    bytes.unwrap_or_else(|_| panic!("no bytes: {told}"))
}

/// Capitals and digits in EBCDIC; a point is a blank.
fn text(told: &str) -> Vec<u8> {
    letters(&told.replace('.', " "))
}
