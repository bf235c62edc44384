//! Scripts: rows of 16 bytes, eight words, high byte first. This form is PLAY.md's, not
//! document 01's.

use crate::editing::Asked;
use crate::engine::Order;
use crate::image::{put_word, word};

/// Bytes of a row.
pub const ROW_BYTES: usize = 16;

/// What a row asks for.
#[derive(Clone, Copy, Debug, PartialEq, Eq)]
pub enum Code {
    Open,
    Read,
    Write,
    GranuleRead,
    GranuleWrite,
    GranuleLook,
    Order(Order),
    Add,
    Delete,
}

/// The codes 1 to 15, in order.
const CODES: [Code; 15] = [
    Code::Open,
    Code::Read,
    Code::Write,
    Code::GranuleRead,
    Code::GranuleWrite,
    Code::GranuleLook,
    Code::Order(Order::WriteFileMark),
    Code::Order(Order::RewindOnLine),
    Code::Order(Order::RewindOffLine),
    Code::Order(Order::RecordForward),
    Code::Order(Order::RecordBack),
    Code::Order(Order::FileForward),
    Code::Order(Order::FileBack),
    Code::Add,
    Code::Delete,
];

impl Code {
    fn from_number(number: u16) -> Option<Code> {
        let index = usize::from(number).checked_sub(1)?;
        CODES.get(index).copied()
    }

    fn number(self) -> u16 {
        let index = CODES.iter().position(|&code| code == self);
        index.map_or(0, |index| index as u16 + 1)
    }

    /// What the bytes are that a row uses up: those of a write (codes 3 and 5) or of a name (14).
    fn given(self) -> Option<&'static str> {
        match self {
            Code::Write | Code::GranuleWrite => Some("write"),
            Code::Add => Some("name"),
            _ => None,
        }
    }

    /// The rows that have a granule's number: codes 4, 5 and 6.
    pub fn takes_granule(self) -> bool {
        matches!(
            self,
            Code::GranuleRead | Code::GranuleWrite | Code::GranuleLook
        )
    }

    /// The rows that change the directory: codes 14 and 15.
    pub fn edits(self) -> bool {
        matches!(self, Code::Add | Code::Delete)
    }
}

/// One row: the request, its entry, the length (bytes of a write, buffer size of a read) and the low word
/// of the granule's number, words 4 and 5, and the high word of the granule's number. An adding has the
/// kind for an entry, the number of name bytes for a length, R for a granule's low word and the sector
/// count in word 4; nothing else looks at words 4 and 5.
#[derive(Clone, Copy, Debug, PartialEq, Eq)]
pub struct Row {
    pub code: Code,
    pub entry: u16,
    pub length: u16,
    pub granule: u16,
    pub more: [u16; 2],
    pub high: u16,
}

impl Row {
    /// Reads a row of 16 bytes. Word 7 must be zero, and word 6 where the request takes no granule.
    fn from_bytes(bytes: &[u8]) -> Result<Row, String> {
        let number = word(bytes, 0);
        let code = Code::from_number(number);
        let takes_granule = code.is_some_and(Code::takes_granule);
        if word(bytes, 14) != 0 || (word(bytes, 12) != 0 && !takes_granule) {
            return Err(
                "unknown shape (word 7 is not zero, or word 6 without a granule)".to_string(),
            );
        }
        let code = code.ok_or(format!("unknown code {number}"))?;
        Ok(Row {
            code,
            entry: word(bytes, 2),
            length: word(bytes, 4),
            granule: word(bytes, 6),
            more: [word(bytes, 8), word(bytes, 10)],
            high: word(bytes, 12),
        })
    }

    fn to_bytes(self) -> [u8; ROW_BYTES] {
        let mut bytes = [0; ROW_BYTES];
        put_word(&mut bytes, 0, self.code.number());
        put_word(&mut bytes, 2, self.entry);
        put_word(&mut bytes, 4, self.length);
        put_word(&mut bytes, 6, self.granule);
        put_word(&mut bytes, 8, self.more[0]);
        put_word(&mut bytes, 10, self.more[1]);
        put_word(&mut bytes, 12, self.high);
        bytes
    }

    /// The granule's number: "g mod 65,536 in word 3 and g / 65,536, rounded down, in word 6".
    pub fn granule_number(&self) -> usize {
        usize::from(self.high) << 16 | usize::from(self.granule)
    }

    /// The bytes that this row uses up.
    pub fn uses(&self) -> usize {
        self.code.given().map_or(0, |_| usize::from(self.length))
    }

    /// What an adding asks for, with this name.
    pub fn asked<'a>(&self, name: &'a [u8]) -> Asked<'a> {
        Asked {
            name,
            kind: self.entry,
            length: self.granule,
            sectors: self.more[0],
        }
    }
}

/// Rows with the bytes that their writes use up, in order.
#[derive(Clone, Debug, Default)]
pub struct Script {
    pub rows: Vec<Row>,
    pub bytes: Vec<u8>,
}

impl Script {
    /// Reads a script: the first row that is not in order is told, in one line.
    pub fn parse(script: &[u8], bytes: Vec<u8>) -> Result<Script, String> {
        let mut rows = Vec::new();
        let mut left = bytes.len();
        for (number, part) in script.chunks(ROW_BYTES).enumerate() {
            let row = parse_row(part, &mut left).map_err(|why| format!("row {number}: {why}"))?;
            rows.push(row);
        }
        Ok(Script { rows, bytes })
    }

    /// The rows as bytes.
    pub fn row_bytes(&self) -> Vec<u8> {
        self.rows.iter().flat_map(|row| row.to_bytes()).collect()
    }

    /// Each row with the bytes it uses up.
    pub fn steps(&self) -> Vec<(Row, &[u8])> {
        let mut at = 0;
        let mut steps = Vec::new();
        for row in &self.rows {
            steps.push((*row, &self.bytes[at..at + row.uses()]));
            at += row.uses();
        }
        steps
    }

    /// Keeps the first `most` rows and the bytes they use up.
    pub fn shorten(&mut self, most: usize) {
        self.rows.truncate(most);
        self.bytes.truncate(self.rows.iter().map(Row::uses).sum());
    }

    // --- building ---

    fn push(&mut self, code: Code, entry: u16, length: usize, granule: usize) -> &mut Script {
        self.rows.push(Row {
            code,
            entry,
            length: length as u16,
            granule: granule as u16,
            more: [0; 2],
            high: (granule >> 16) as u16,
        });
        self
    }

    pub fn open(&mut self, entry: u16) -> &mut Script {
        self.push(Code::Open, entry, 0, 0)
    }

    pub fn read(&mut self, entry: u16, size: usize) -> &mut Script {
        self.push(Code::Read, entry, size, 0)
    }

    pub fn write(&mut self, entry: u16, data: &[u8]) -> &mut Script {
        self.bytes.extend_from_slice(data);
        self.push(Code::Write, entry, data.len(), 0)
    }

    pub fn granule_read(&mut self, entry: u16, granule: usize, size: usize) -> &mut Script {
        self.push(Code::GranuleRead, entry, size, granule)
    }

    pub fn granule_write(&mut self, entry: u16, granule: usize, data: &[u8]) -> &mut Script {
        self.bytes.extend_from_slice(data);
        self.push(Code::GranuleWrite, entry, data.len(), granule)
    }

    pub fn granule_look(&mut self, entry: u16, granule: usize) -> &mut Script {
        self.push(Code::GranuleLook, entry, 0, granule)
    }

    pub fn order(&mut self, entry: u16, order: Order) -> &mut Script {
        self.push(Code::Order(order), entry, 0, 0)
    }

    pub fn close(&mut self, entry: u16) -> &mut Script {
        self.order(entry, Order::RewindOffLine)
    }

    pub fn add(&mut self, asked: &Asked) -> &mut Script {
        self.bytes.extend_from_slice(asked.name);
        self.rows.push(Row {
            code: Code::Add,
            entry: asked.kind,
            length: asked.name.len() as u16,
            granule: asked.length,
            more: [asked.sectors, 0],
            high: 0,
        });
        self
    }

    pub fn delete(&mut self, entry: u16) -> &mut Script {
        self.push(Code::Delete, entry, 0, 0)
    }

    /// The last row's words from `first` on, to the fifth, have these numbers.
    pub fn with_words<const N: usize>(&mut self, first: usize, words: [u16; N]) -> &mut Script {
        if let Some(row) = self.rows.last_mut() {
            for (at, word) in (first..).zip(words) {
                match at {
                    2 => row.length = word,
                    3 => row.granule = word,
                    _ => row.more[at - 4] = word,
                }
            }
        }
        self
    }
}

/// One row, whole and known, with its bytes at hand; `left` is what is left of them.
fn parse_row(part: &[u8], left: &mut usize) -> Result<Row, String> {
    if part.len() < ROW_BYTES {
        return Err(format!("cut short at {} of 16 bytes", part.len()));
    }
    let row = Row::from_bytes(part)?;
    let given = row.code.given().unwrap_or("write");
    *left = left.checked_sub(row.uses()).ok_or(format!(
        "bytes are missing for its {given} of {}",
        row.uses()
    ))?;
    Ok(row)
}
