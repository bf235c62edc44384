//! "Answer numbers", and those of document 02, item 1.

/// The answers of the table in document 01 and the refusals of ADD, with their numbers.
#[derive(Clone, Copy, Debug, PartialEq, Eq)]
pub enum Answer {
    /// 0 "done"
    Done = 0,
    /// 1 "end of file met"
    EndOfFile = 1,
    /// 2 "beginning of tape met"
    BeginningOfTape = 2,
    /// 3 "no room: write at p = capacity, or a coded record due in a sector past the extent;
    /// position already 65,535; granule number at or over capacity"
    NoRoom = 3,
    /// 4 "write or mark on a protected file"
    Protected = 4,
    /// 5 "odd byte count in a write"
    OddCount = 5,
    /// 6 "write of 0 or over R bytes, or coded record over 360; read buffer under R"
    WrongLength = 6,
    /// 7 "wrong kind for the request, or sequence rules above"
    WrongKindOrSequence = 7,
    /// 8 "no such entry, or not open"
    NotThere = 8,
    /// 9 "opening an open file"; DELETE: "9 if open"
    OpenAlready = 9,
    /// 10 "a fifth open file"
    FifthFile = 10,
    /// 11 "bad image, or bad code met"
    BadImage = 11,
    /// 12 "session not legal for this image"
    IllegalSession = 12,
    /// 13 "bad name"
    BadName = 13,
    /// 14 "name in use"
    NameInUse = 14,
    /// 15 "no free entry"
    NoFreeEntry = 15,
    /// 16 "no gap"
    NoGap = 16,
    /// 17 "bad kind, length or sector count 0"
    BadShape = 17,
}

/// How many answer numbers there are.
pub const ANSWERS: usize = 18;

impl Answer {
    pub fn number(self) -> u8 {
        self as u8
    }

    /// 3 and more leave "nothing changed".
    pub fn is_refusal(self) -> bool {
        self.number() >= 3
    }
}

/// What the rules of a request come to: `Ok` is answer 0, 1 or 2; `Err` is a refusal (3 and more),
/// met before anything was changed.
pub type Outcome = Result<Answer, Answer>;

/// The one answer of an outcome.
pub fn settle(outcome: Outcome) -> Answer {
    match outcome {
        Ok(answer) | Err(answer) => answer,
    }
}
