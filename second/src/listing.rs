//! The listing: "A program reads an image of at most 180 sectors and prints a header and one
//! line per used entry".

use crate::characters::ascii;
use crate::directory::{directory_is_good, table_of, Entry};
use crate::image::{BLANK, SECTOR};

/// "an image of at most 180 sectors"
pub const MOST_LISTED: usize = 180 * SECTOR;

const HEADER: &str = "FILE NAME KIND RECORD FIRST SECTORS COUNT FLAGS\n";

/// "A bad or longer image prints only `BAD IMAGE`."
const BAD_IMAGE: &str = "BAD IMAGE\n";

/// "A bad or longer image"
pub fn lists_as_bad(image: &[u8]) -> bool {
    image.len() > MOST_LISTED || !directory_is_good(image)
}

/// The whole text of the listing.
pub fn listing(image: &[u8]) -> String {
    if lists_as_bad(image) {
        return BAD_IMAGE.to_string();
    }
    let mut text = HEADER.to_string();
    // "one line per used entry, in entry order"
    for (number, entry) in table_of(image).iter().enumerate() {
        if entry.is_used() {
            text.push_str(&line(number, entry));
        }
    }
    text
}

/// "single blanks, decimal"
fn line(number: usize, entry: &Entry) -> String {
    format!(
        "{} {} {} {} {} {} {} {}\n",
        number,
        shown_name(&entry.name),
        entry.kind,
        entry.length,
        entry.first,
        entry.sectors,
        entry.count,
        entry.flags
    )
}

/// "names in ASCII without trailing blanks"
fn shown_name(name: &[u8; 8]) -> String {
    name.iter()
        .filter(|&&byte| byte != BLANK)
        .map(|&byte| char::from(ascii(byte)))
        .collect()
}
