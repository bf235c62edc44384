//! The pass listing of document 02, item 4: "it opens a file by name, reads kinds 1 to 3 from the start and
//! writes one ASCII line per record, trailing blanks dropped." All that is printed of a file comes by the
//! requests of document 01.

use crate::answer::Answer;
use crate::characters::{ascii, ebcdic};
use crate::directory::{find_by_name, Entry};
use crate::engine::{open, read};
use crate::image::BLANK;
use crate::listing::lists_as_bad;
use crate::session::{mount, Engine, Session};

/// The bytes of a name in the directory.
const NAME_BYTES: usize = 8;

/// The whole text of the pass listing of a file whose name is typed so.
pub fn pass_listing(engine: Engine, image: &[u8], typed: &[u8]) -> String {
    let mut text = String::new();
    if let Err(answer) = put_file(engine, image, typed, &mut text) {
        // "any other number is printed as `ANSWER` and the number, last"
        text.push_str(&told(answer));
    }
    text
}

/// The line that tells an answer.
pub fn told(answer: Answer) -> String {
    format!("ANSWER {}\n", answer.number())
}

fn put_file(engine: Engine, image: &[u8], typed: &[u8], text: &mut String) -> Result<(), Answer> {
    // "an image that lists as bad prints only `ANSWER 11`"
    if lists_as_bad(image) {
        return Err(Answer::BadImage);
    }
    let (mounted, mut session) = mount(engine, image);
    must_be_done(mounted)?;
    // "an unknown name only `ANSWER 8`"
    let number = find_typed(&session.table, typed)?;
    // "a random file only `ANSWER 7`"
    if !session.table[number].is_sequential() {
        return Err(Answer::WrongKindOrSequence);
    }
    must_be_done(open(image, &mut session, number))?;
    put_lines(&mut image.to_vec(), &mut session, number, text)
}

fn must_be_done(answer: Answer) -> Result<(), Answer> {
    if answer == Answer::Done {
        Ok(())
    } else {
        Err(answer)
    }
}

/// The lines of an open sequential file, from its position on: "Printing ends at end of file or at an
/// unmarked end".
pub fn put_lines(
    image: &mut [u8],
    session: &mut Session,
    number: usize,
    text: &mut String,
) -> Result<(), Answer> {
    let mut record = vec![0; session.table[number].r()];
    loop {
        match read(image, session, number, &mut record) {
            Answer::Done => text.push_str(&line(&record)),
            Answer::EndOfFile | Answer::WrongKindOrSequence => return Ok(()),
            other => return Err(other),
        }
    }
}

/// "one ASCII line per record, trailing blanks dropped"
fn line(record: &[u8]) -> String {
    let shown: String = record.iter().map(|&byte| char::from(ascii(byte))).collect();
    format!("{}\n", shown.trim_end_matches(' '))
}

/// The entry whose name is typed so, or 8.
pub fn find_typed(entries: &[Entry], typed: &[u8]) -> Result<usize, Answer> {
    let name = typed_name(typed).ok_or(Answer::NotThere)?;
    find_by_name(entries, &name)
}

/// The name's bytes in a directory: "a character that does not come back as itself through both tables, no
/// character or more than eight make it unknown".
fn typed_name(typed: &[u8]) -> Option<[u8; NAME_BYTES]> {
    let lawful = (1..=NAME_BYTES).contains(&typed.len()) && typed.iter().all(comes_back);
    let mut name = [BLANK; NAME_BYTES];
    for (to, &character) in name.iter_mut().zip(typed) {
        *to = ebcdic(character);
    }
    lawful.then_some(name)
}

fn comes_back(character: &u8) -> bool {
    ascii(ebcdic(*character)) == *character
}
