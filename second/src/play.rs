//! Playing a script on an image, and the text that tells of it.

use std::fmt::Write;

use crate::answer::Answer;
use crate::directory::table_of;
use crate::editing;
use crate::engine;
use crate::image::{words, MOST_SECTORS, SECTOR};
use crate::patch::{put_patches, Patch};
use crate::script::{Code, Row, Script};
use crate::session::{mount, Engine, Session};
use crate::stored::{read_session, store};

/// The longest image that is played: 4,096 sectors' bytes.
pub const MOST_PLAYED: usize = MOST_SECTORS * SECTOR;

/// The bytes of the one buffer whose front the reads are lent.
const LENT: usize = 65_536;

/// What a row came to: its answer, the bytes moved (none unless done), and the number of an entry that
/// was added.
pub struct Performed {
    pub answer: Answer,
    pub moved: Vec<u8>,
    pub added: Option<usize>,
}

impl Performed {
    /// The third number of its line: the sum, and of an adding answered 0 the new entry's number.
    fn third(&self) -> usize {
        self.added.unwrap_or(word_sum(&self.moved) as usize)
    }
}

/// A played script: the text and the image at the end.
pub struct Played {
    pub text: String,
    pub image: Vec<u8>,
}

/// Mounts the image, patches the session's bytes and plays every row on the session that they are.
/// A refused mounting is no error: the rows are answered on the session that it hands out. A read is
/// lent the first bytes, as many as its length, of one buffer, which begins as zeros and is never
/// cleared; "what a write is given stands elsewhere".
pub fn play(engine: Engine, mut image: Vec<u8>, patches: &[Patch], script: &Script) -> Played {
    let (answer, mut session) = patched_session(engine, &image, patches);
    let mut lent = vec![0; LENT];
    let mut text = format!("MOUNT {}\n", answer.number());
    for (number, (row, data)) in script.steps().into_iter().enumerate() {
        let buffer = &mut lent[..usize::from(row.length)];
        let performed = perform_on(&mut image, session.as_mut(), &row, data, buffer);
        let _ = writeln!(
            text,
            "{number} {} {} {}",
            performed.answer.number(),
            performed.third(),
            state(session.as_ref().filter(|_| !row.code.edits()), row.entry)
        );
    }
    Played { text, image }
}

/// The answer of a mounting, and the session that its bytes are when they are patched; none if they are
/// no session.
pub fn patched_session(
    engine: Engine,
    image: &[u8],
    patches: &[Patch],
) -> (Answer, Option<Session>) {
    let (answer, mounted) = mount(engine, image);
    let mut bytes = store(&mounted);
    put_patches(&mut bytes, patches);
    (answer, read_session(&bytes))
}

/// POSITION and BEYOND of an entry's file, `- -` if it is not open, or if there is no session to ask. The
/// lowest state in use with this entry tells them, also in a session that is not legal.
fn state(session: Option<&Session>, entry: u16) -> String {
    let open = session.and_then(|session| {
        let slot = session.slot_of(usize::from(entry))?;
        session.open.get(slot)
    });
    match open {
        Some(file) => format!("{} {}", file.position, u8::from(file.beyond)),
        None => "- -".to_string(),
    }
}

/// The sum modulo 65,535 of the 16-bit words moved.
fn word_sum(moved: &[u8]) -> u32 {
    words(moved).fold(0, |sum, value| (sum + value) % 65_535)
}

/// Performs one row; 12 where there is no session: "Bytes that are no session are answered as a
/// session that is not legal: 12, on any image."
fn perform_on(
    image: &mut [u8],
    session: Option<&mut Session>,
    row: &Row,
    data: &[u8],
    buffer: &mut [u8],
) -> Performed {
    match session {
        Some(session) => perform(image, session, row, data, buffer),
        None => Performed {
            answer: Answer::IllegalSession,
            moved: Vec::new(),
            added: None,
        },
    }
}

/// Performs one row: a write or an adding is given the data, a read is lent the buffer, each of the
/// row's length.
pub fn perform(
    image: &mut [u8],
    session: &mut Session,
    row: &Row,
    data: &[u8],
    buffer: &mut [u8],
) -> Performed {
    let entry = usize::from(row.entry);
    let granule = row.granule_number();
    let mut shown = Vec::new();
    let mut added = None;
    let answer = match row.code {
        Code::Open => engine::open(image, session, entry),
        Code::Read => engine::read(image, session, entry, buffer),
        Code::Write => engine::write(image, session, entry, data),
        Code::GranuleRead => engine::granule_read(image, session, entry, granule, buffer),
        Code::GranuleWrite => engine::granule_write(image, session, entry, granule, data),
        Code::GranuleLook => {
            shown.extend_from_slice(engine::look(image, session, entry, granule));
            engine::look_answer(image, session, entry, granule)
        }
        Code::Order(order) => engine::order(image, session, entry, order),
        Code::Add => match editing::add(image, session, &row.asked(data)) {
            Ok(number) => {
                added = Some(number);
                Answer::Done
            }
            Err(answer) => answer,
        },
        Code::Delete => editing::delete(image, session, entry),
    };
    let moved = match row.code {
        _ if answer != Answer::Done => Vec::new(),
        Code::Read | Code::GranuleRead => record_read(image, entry, buffer).to_vec(),
        Code::Write | Code::GranuleWrite => data.to_vec(),
        _ => shown,
    };
    Performed {
        answer,
        moved,
        added,
    }
}

/// What is summed of a read: "the first R bytes of its buffer, R as the directory in the image has it,
/// and no more than the buffer has". A session's table may have another R.
fn record_read<'a>(image: &[u8], entry: usize, buffer: &'a [u8]) -> &'a [u8] {
    let r = table_of(image)[entry].r();
    &buffer[..r.min(buffer.len())]
}
