//! Cases of the pass listing that try names: "it opens a file by name"; "an unknown name only `ANSWER 8`".

use std::collections::HashSet;

use crate::cases::Case;
use crate::characters::{ascii, letters};
use crate::directory::{Entry, ENTRIES};
use crate::disk::Disk;
use crate::shown::{padded, show, show_each, text_records, SEQUENTIAL};

const FOUND: &str = "it opens a file by name";
const UNKNOWN: &str = "an unknown name only `ANSWER 8`";
const TYPED: &str =
    "a character that does not come back as itself through both tables, no character \
                     or more than eight make it unknown";

/// The images that names are sought in: one for each letter, and one of names much alike.
struct Named {
    name: &'static str,
    files: [&'static str; ENTRIES],
    /// Free sectors: no two of the images have one length, so that a file of cases has each of them whole.
    free: usize,
    /// Names with every byte in the place of the question mark.
    forms: &'static [&'static str],
}

const FIRST: Named = Named {
    name: "first",
    files: [
        "A", "B", "C", "D", "E", "F", "G", "H", "I", "J", "K", "L", "M", "N", "O", "P", "Q", "R",
    ],
    free: 0,
    forms: &["?"],
};

const LAST: Named = Named {
    name: "last",
    files: [
        "S", "T", "U", "V", "W", "X", "Y", "Z", "A0", "A1", "A2", "A3", "A4", "A5", "A6", "A7",
        "A8", "A9",
    ],
    free: 1,
    forms: &["?", "A?"],
};

const ALIKE: Named = Named {
    name: "alike",
    files: [
        "LOG", "LO", "L", "LOGS", "LOG7", "LOGGERS", "LOGGERS8", "LOGGERS9", "LOGGERSA", "LPG",
        "MOG", "LOGGES8", "AAAAAAAA", "AAAAAAAB", "BAAAAAAA", "AAAABAAA", "Z9", "Z99",
    ],
    free: 2,
    forms: &["?OG", "L?G", "LO?", "LOG?", "?LOG", "LOGGERS?", "LOGGERS8?"],
};

pub fn name_cases() -> Vec<Case> {
    [
        FIRST.cases(&[]),
        LAST.cases(&[]),
        ALIKE.cases(&unlike_names()),
        long_name_cases(),
        entry_cases(),
    ]
    .concat()
}

impl Named {
    /// 18 files of all kinds but random, each with a record that tells its name. Entries are not in the order
    /// of extents.
    fn image(&self) -> Vec<u8> {
        let mut disk = Disk::used(1 + ENTRIES + self.free);
        for (k, name) in self.files.into_iter().enumerate() {
            let record = padded(&letters(&format!("THIS IS {name}")), 20);
            let file = disk.file((7 * k + 4) % ENTRIES, SEQUENTIAL[k % 3], 20, 1);
            disk = file.named(name).records(&[record]).flags(k as u16 % 4);
        }
        disk.image()
    }

    /// All its names, others, and every byte in its forms.
    fn cases(&self, others: &[String]) -> Vec<Case> {
        let image = self.image();
        let mut cases = show_each(self.name, FOUND, &image, &self.files);
        cases.extend(show_each(self.name, TYPED, &image, others));
        for form in self.forms {
            for byte in 0..=255 {
                let name = format!("show-{}-{form}-{byte:02x}", self.name);
                let typed = with_byte(form, byte);
                cases.push(Case::of_name(name, TYPED, image.clone(), &typed));
            }
        }
        cases
    }
}

/// A form with a byte in the place of the question mark.
fn with_byte(form: &str, byte: u8) -> Vec<u8> {
    let put = |c| if c == b'?' { byte } else { c };
    form.bytes().map(put).collect()
}

/// Names that are not those of the files, each once.
fn unlike_names() -> Vec<String> {
    let mut known: HashSet<String> = ALIKE.files.map(String::from).into();
    let mut names: Vec<String> = ALIKE.files.into_iter().flat_map(much_like).collect();
    names.extend(odd_names());
    names.retain(|name| known.insert(name.clone()));
    names
}

/// A name and so many blanks that its length is 3 or 8 and some 256 more.
fn long_name_cases() -> Vec<Case> {
    let case = |length: usize| {
        let typed = format!("{:length$}", "LOG");
        show(format!("long-{length}"), TYPED, &ALIKE.image(), &typed)
    };
    [256 + 3, 256 + 8, 512 + 3, 4_096].map(case).to_vec()
}

/// Names that a name may be taken for: shorter, with blanks, with a character more, another or a small one.
fn much_like(name: &str) -> Vec<String> {
    let (front, last) = name.split_at(name.len() - 1);
    let more = ["A", "0", "Z", "8", ".", "a", "~", "\0", "\n", "@", "*"];
    let other = ["A", ".", " ", "*", "?", "l"];
    let mut names: Vec<String> = (0..name.len()).map(|n| name[..n].to_string()).collect();
    names.extend((name.len()..=9).map(|n| format!("{name:n$}")));
    names.extend(more.map(|c| format!("{name}{c}")));
    names.extend(other.map(|c| format!("{front}{c}")));
    names.extend([
        format!(" {name}"),
        format!("{front} {last}"),
        format!("{name} A"),
        format!("{name} ."),
        format!("{name}{name}"),
        format!("{front}{}", last.to_lowercase()),
        name.to_lowercase(),
        format!("{}{}", name[..1].to_lowercase(), &name[1..]),
    ]);
    names
}

/// Blanks, full stops, and names that are like no file's.
fn odd_names() -> Vec<String> {
    let odd = [
        "7LOG", "NONE", "(LOG)", "LO-G", "L.G", "LOG;1", "\u{c4}", "\t", "FILE", "*",
    ];
    let mut names: Vec<String> = (0..=9).map(|n| " ".repeat(n)).collect();
    names.extend([8, 9, 64].map(|n| ".".repeat(n)));
    names.extend(odd.map(String::from));
    names
}

/// Every entry as the only one, and none.
fn entry_cases() -> Vec<Case> {
    let mut cases = Vec::new();
    for number in 0..ENTRIES {
        let disk = Disk::empty(2).file(number, SEQUENTIAL[number % 3], 40, 1);
        let image = disk.named("LOG").records(&text_records(1, 40)).image();
        cases.push(show(format!("entry-{number}"), FOUND, &image, "LOG"));
        cases.push(show(format!("entry-{number}-none"), UNKNOWN, &image, "LOH"));
    }
    cases.push(show("no-entry", UNKNOWN, &Disk::empty(1).image(), "LOG"));
    cases.push(show("no-entry-used", UNKNOWN, &Disk::used(3).image(), " "));
    cases
}

/// The names of used entries, as they are shown.
pub fn names_in(entries: &[Entry]) -> Vec<Vec<u8>> {
    let used = entries.iter().filter(|entry| entry.is_used());
    used.map(|entry| entry.name.map(ascii).trim_ascii_end().to_vec())
        .collect()
}
