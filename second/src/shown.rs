//! The cases of the program `show_cases`, document 02's item 4, and what it prints. Their form is that of
//! `bundle.rs` with no rows: the name as typed stands in the place of the bytes given.

use std::fmt::Write;

use crate::cases::{foreign_cases, Case};
use crate::characters::{ascii, ebcdic, letters};
use crate::coding::{encode, GO_ON};
use crate::damage::{damaged_cases, small_image};
use crate::directory::{directory_is_good, ENTRIES, ENTRY_BYTES};
use crate::directory::{BLOCKED, COMPRESSED, MARKED, PROTECTED, RANDOM, UNBLOCKED};
use crate::disk::Disk;
use crate::image::{BLANK, SECTOR};
use crate::notation::script;
use crate::play::play;
use crate::random::Random;
use crate::session::Engine;
use crate::showing::pass_listing;
use crate::sought::name_cases;
use crate::station::{pass_line, station};
use crate::wideshow::wide_show_case;

/// The seed of what is random among the committed cases, and how many cases are random.
const SEED: u64 = 1971;
const RANDOM_CASES: usize = 240;
const FOREIGN: usize = 12;

pub const SEQUENTIAL: [u16; 3] = [UNBLOCKED, BLOCKED, COMPRESSED];

const TABLE: &str = "a full table of 256 bytes from EBCDIC to ASCII";
const TRAILING: &str = "one ASCII line per record, trailing blanks dropped";
const STOPS: &str = "Zero bytes print as full stops; every other byte shown as a full stop";
const RECORDS: &str = "reads kinds 1 to 3 from the start and writes one ASCII line per record";
const ENDS: &str = "Printing ends at end of file or at an unmarked end";
const FOUND: &str = "it opens a file by name";
const NOT_SEQUENTIAL: &str = "a random file only `ANSWER 7`";
const BAD: &str = "an image that lists as bad prints only `ANSWER 11`";
const LONGER: &str = "an image over 180 sectors prints `ANSWER 11` too";

/// What `show_cases` prints for these cases.
pub fn expected_showings(cases: &[Case]) -> String {
    let mut text = String::new();
    for (number, case) in (1..).zip(cases) {
        let shown = pass_listing(Engine::Plain, &case.image, case.typed());
        let _ = write!(text, "CASE {number}\n{shown}");
    }
    text
}

/// The committed cases, by what they try.
pub fn shown_cases() -> Vec<Case> {
    [
        station_cases(),
        byte_cases(),
        trailing_cases(),
        inner_cases(),
        stop_cases(),
        length_cases(),
        code_cases(),
        end_cases(),
        random_file_cases(),
        name_cases(),
        mixed_cases(),
        bad_cases(),
        damaged(),
        size_cases(),
        script_cases(),
        (0..RANDOM_CASES)
            .map(|number| wide_show_case(SEED, number))
            .collect(),
    ]
    .concat()
}

pub fn show(name: impl Into<String>, rule: &'static str, image: &[u8], typed: &str) -> Case {
    Case::of_name(
        format!("show-{}", name.into()),
        rule,
        image.to_vec(),
        typed.as_bytes(),
    )
}

/// A case for each of these names, on one image.
pub fn show_each<S: AsRef<str>>(
    name: &str,
    rule: &'static str,
    image: &[u8],
    typed: &[S],
) -> Vec<Case> {
    let case = |typed: &str| {
        let name = format!("{name}-{}", typed.escape_debug());
        show(name, rule, image, typed)
    };
    typed.iter().map(|typed| case(typed.as_ref())).collect()
}

// ---------------------------------------------------------------------------------------------
// Records.

/// A case of a file LOG of these records, in as many sectors as it takes, among other bytes.
fn show_log(name: &str, rule: &'static str, kind: u16, r: usize, records: &[Vec<u8>]) -> Case {
    let sectors = sectors_for(kind, r, records);
    let disk = Disk::used(sectors + 2).file(3, kind, r, sectors);
    let image = disk.named("LOG").records(records).image();
    show(format!("{name}-kind{kind}-r{r}"), rule, &image, "LOG")
}

/// Enough sectors for these records: of a compressed file's sector no more is left over than a code that
/// has no room there.
fn sectors_for(kind: u16, r: usize, records: &[Vec<u8>]) -> usize {
    let sectors = match kind {
        UNBLOCKED => r.div_ceil(SECTOR) * records.len(),
        BLOCKED => records.len().div_ceil(SECTOR / r),
        _ => {
            let codes = records.iter().map(|record| encode(record).len());
            codes.sum::<usize>().div_ceil(SECTOR - r - 2)
        }
    };
    sectors.max(1)
}

/// A record that begins so; blanks stand behind.
pub fn padded(front: &[u8], r: usize) -> Vec<u8> {
    let mut record = front.to_vec();
    record.resize(r, BLANK);
    record
}

/// The codes of the listed characters.
pub fn listed_codes() -> Vec<u8> {
    (0..=255)
        .filter(|&byte| ebcdic(ascii(byte)) == byte)
        .collect()
}

/// Record k of listed characters, other ones for each k and R; no blank at the end.
fn text_record(k: usize, r: usize) -> Vec<u8> {
    let listed = listed_codes();
    let mut record: Vec<u8> = (0..r)
        .map(|i| listed[(7 * i + 13 * k + r / 2) % listed.len()])
        .collect();
    record[r - 1] = 0xC1 + (k % 9) as u8;
    record
}

pub fn text_records(count: usize, r: usize) -> Vec<Vec<u8>> {
    (0..count).map(|k| text_record(k, r)).collect()
}

/// Every byte at the front, in the middle and at the end of a record, alone, and before a blank.
fn byte_cases() -> Vec<Case> {
    let mut cases = Vec::new();
    for kind in SEQUENTIAL {
        for row in 0..16 {
            let bytes = 16 * row..=16 * row + 15;
            let records: Vec<Vec<u8>> = bytes.map(|b| vec![b, 0xC1, b, 0xC2, 0xC3, b]).collect();
            let name = format!("bytes-{row:x}x");
            cases.push(show_log(&name, TABLE, kind, 6, &records));
        }
    }
    for kind in [BLOCKED, COMPRESSED] {
        let pairs = |b: u8| [vec![b, b], vec![b, BLANK], vec![BLANK, b]];
        let records: Vec<Vec<u8>> = (0..=255).flat_map(pairs).collect();
        cases.push(show_log("bytes-alone", TABLE, kind, 2, &records));
    }
    cases
}

/// Records of k characters and blanks up to R, for these k.
fn ending_at(ks: &[usize], r: usize) -> Vec<Vec<u8>> {
    ks.iter()
        .map(|&k| padded(&vec![0xC1 + (k % 9) as u8; k], r))
        .collect()
}

/// Blanks of every length at the end of a record, none and nothing else among them.
fn trailing_cases() -> Vec<Case> {
    let all = [
        (UNBLOCKED, 24),
        (BLOCKED, 80),
        (COMPRESSED, 80),
        (COMPRESSED, 132),
    ];
    let some = [
        (UNBLOCKED, 360),
        (UNBLOCKED, 400),
        (UNBLOCKED, 3_600),
        (BLOCKED, 182),
        (BLOCKED, 360),
    ];
    let mut cases = Vec::new();
    for (kind, r) in all {
        let ks: Vec<usize> = (0..=r).rev().collect();
        let records = ending_at(&ks, r);
        cases.push(show_log("trailing-all", TRAILING, kind, r, &records));
    }
    for (kind, r) in some {
        let mut ks = vec![0, 1, 359, 360, 361, r - 2, r - 1, r, 0];
        ks.retain(|&k| k <= r);
        let records = ending_at(&ks, r);
        cases.push(show_log("trailing-some", TRAILING, kind, r, &records));
    }
    for kind in SEQUENTIAL {
        let blank = vec![vec![BLANK; 10]; 7];
        cases.push(show_log("blank-records", TRAILING, kind, 10, &blank));
    }
    cases.push(show("trailing-among", TRAILING, &spelled(among), "LOG"));
    cases.push(show("trailing-runs", TRAILING, &spelled(with_run), "LOG"));
    cases
}

/// A code of k characters and blanks up to 80, the blanks among the characters.
fn among(k: usize) -> Vec<u8> {
    [&[80][..], &padded(&vec![0xC1; k], 80), &[0]].concat()
}

/// The same, the blanks as a run of their own.
fn with_run(k: usize) -> Vec<u8> {
    match k {
        0 => vec![GO_ON + 80, 0],
        80 => among(80),
        _ => [&[k as u8][..], &vec![0xC1; k], &[GO_ON + 80 - k as u8, 0]].concat(),
    }
}

/// A file LOG of R 80 with these codes for k from 0 to 80, four in a sector; the bytes between them are empty
/// records.
fn spelled(code: fn(usize) -> Vec<u8>) -> Vec<u8> {
    let codes: Vec<Vec<u8>> = (0..=80).map(code).collect();
    let starts = (0..).step_by(SECTOR / 4);
    let parts: Vec<(usize, &[u8])> = starts.zip(codes.iter().map(Vec::as_slice)).collect();
    let sectors = codes.len().div_ceil(4);
    let count = sectors * SECTOR - codes.iter().map(|code| code.len() - 1).sum::<usize>();
    let disk = Disk::empty(sectors + 1).file(0, COMPRESSED, 80, sectors);
    disk.named("LOG").codes(count, &parts).image()
}

/// Blanks at the front and between characters: they stay.
fn inner_cases() -> Vec<Case> {
    let record = |blanks: usize, r: usize| {
        let front = [&vec![BLANK; blanks][..], &[0xC1]].concat();
        let inner = [&[0xC2], &vec![BLANK; blanks][..], &[0xC3]].concat();
        [padded(&front, r), padded(&inner, r)]
    };
    let mut cases = Vec::new();
    for (kind, r) in [(UNBLOCKED, 8), (BLOCKED, 36), (COMPRESSED, 132)] {
        let records: Vec<Vec<u8>> = (0..=r - 2).flat_map(|blanks| record(blanks, r)).collect();
        cases.push(show_log("inner", TRAILING, kind, r, &records));
    }
    cases
}

/// Bytes that are no blanks at the end of a record: zeros, as short records are padded, full stops, and the
/// blanks and line ends of other codes.
fn stop_cases() -> Vec<Case> {
    let ends: [&[u8]; 16] = [
        &[0],
        &[0, 0],
        &[0, BLANK],
        &[0, BLANK, 0],
        &[BLANK, 0],
        &[BLANK, 0, BLANK, BLANK],
        &[0x4B],
        &[0x4B, BLANK, 0x4B, BLANK],
        &[0x20],
        &[0x20, BLANK],
        &[0x0A],
        &[0x0D, 0x0A],
        &[0x15],
        &[0x25, BLANK],
        &[0x41, 0xFF],
        &[0x09, 0x05, 0x3F, 0xA0],
    ];
    let mut records = vec![vec![0; 10], padded(&[0; 9], 10), vec![0x4B; 10]];
    for front in ["", "A", "AB C", "ABCDEF"] {
        records.extend(ends.map(|end| padded(&[&letters(front), end].concat(), 10)));
        records.push([letters(front), vec![0; 10 - front.len()]].concat());
    }
    SEQUENTIAL
        .map(|kind| show_log("stops", STOPS, kind, 10, &records))
        .to_vec()
}

// ---------------------------------------------------------------------------------------------
// Record lengths.

/// Files of one kind, one for each R and named by it, with as many records as they are told to have.
fn files_of_lengths(
    name: &str,
    kind: u16,
    lengths: &[usize],
    count: fn(usize) -> usize,
) -> Vec<Case> {
    let records = |r: usize| text_records(count(r), r);
    let sectors = |r: usize| sectors_for(kind, r, &records(r));
    let n = 1 + lengths.iter().map(|&r| sectors(r)).sum::<usize>();
    let mut disk = Disk::used(n);
    for (k, &r) in lengths.iter().enumerate() {
        // entries are not in the order of extents
        let number = (k * 5 + 3) % ENTRIES;
        let file = disk.file(number, kind, r, sectors(r));
        let file = file.named(&format!("R{r}")).records(&records(r));
        disk = file.flags(k as u16 % 4);
    }
    let names: Vec<String> = lengths.iter().map(|r| format!("R{r}")).collect();
    let name = format!("{name}-kind{kind}");
    show_each(&name, RECORDS, &disk.image(), &names)
}

fn length_cases() -> Vec<Case> {
    let unblocked = [
        2, 80, 132, 178, 180, 182, 358, 360, 362, 718, 720, 722, 1_082, 3_598, 3_600,
    ];
    let blocked = [
        2, 4, 6, 80, 100, 120, 122, 132, 178, 180, 182, 240, 358, 360,
    ];
    let mut cases = files_of_lengths("some", UNBLOCKED, &unblocked, |_| 2);
    let over_two_sectors = |r| 2 * (SECTOR / r) + 1;
    cases.extend(files_of_lengths(
        "some",
        BLOCKED,
        &blocked,
        over_two_sectors,
    ));
    let even = |to: usize| -> Vec<usize> { (1..=to / 2).map(|half| 2 * half).collect() };
    for lengths in even(132).chunks(ENTRIES) {
        cases.extend(files_of_lengths("even", COMPRESSED, lengths, |_| 2));
    }
    for lengths in even(360).chunks(ENTRIES) {
        cases.extend(files_of_lengths("even", BLOCKED, lengths, |r| SECTOR / r));
    }
    cases
}

// ---------------------------------------------------------------------------------------------
// Codes.

/// A case of a file LOG of R 10 in two sectors, with these codes at these bytes.
fn coded(name: &str, count: usize, codes: &[(usize, &[u8])]) -> Case {
    let disk = Disk::used(4).file(1, COMPRESSED, 10, 2).named("LOG");
    let image = disk.codes(count, codes).image();
    show(format!("code-{name}"), RECORDS, &image, "LOG")
}

/// Codes as other writers may leave them.
fn code_cases() -> Vec<Case> {
    let short = CODES.map(|(name, count, code)| coded(name, count, &[(0, code)]));
    let foreign = foreign_cases(&mut Random::new(SEED), FOREIGN);
    let alien = |case: &Case| show(&case.name, RECORDS, &case.image, "ALIEN");
    [
        short.to_vec(),
        sector_end_cases(),
        bad_code_cases(),
        long_runs(),
        foreign.iter().map(alien).collect(),
    ]
    .concat()
}

/// Some characters, so that codes can be read.
const A: u8 = 0xC1;
const B: u8 = 0xC2;
const C: u8 = 0xC3;

/// Codes at the front of a file, and how many records it has.
const CODES: [(&str, usize, &[u8]); 17] = [
    ("characters-beside", 1, &[1, A, 1, B, 2, C, A, 0]),
    ("blanks-beside", 1, &[129, 129, 130, 1, A, 0]),
    ("one-blank-run", 1, &[1, A, 129, 1, B, 0]),
    ("blanks-spelled", 1, &[5, A, BLANK, BLANK, BLANK, B, 0]),
    ("end-spelled", 1, &[5, A, BLANK, BLANK, BLANK, BLANK, 0]),
    ("end-run", 1, &[1, A, 132, 0]),
    ("end-run-to-r", 1, &[1, A, 137, 0]),
    ("end-beside", 1, &[1, A, 130, 2, BLANK, BLANK, 131, 0]),
    ("front-spelled", 1, &[2, BLANK, BLANK, 129, 1, A, 0]),
    ("blank-by-run", 2, &[138, 0, 1, A, 0]),
    ("blank-spelled", 2, &[3, BLANK, BLANK, BLANK, 0, 1, A, 0]),
    ("blank-by-nothing", 3, &[0, 0, 1, A, 0]),
    ("controls", 1, &[6, 0, GO_ON, 255, 1, 0, 129, 0]),
    ("full", 1, &[10, A, A, A, A, A, A, A, A, A, B, 0]),
    ("count-0", 0, &[1, A, 0]),
    ("count-1-of-2", 1, &[1, A, 0, 1, B, 0]),
    ("go-on-behind", 0, &[GO_ON]),
];

/// Codes that go on in the next sector, or could.
fn sector_end_cases() -> Vec<Case> {
    let empty = [0; SECTOR];
    let filled = [&[10][..], &[A; 10], &[0]].concat().repeat(30);
    let a: (usize, &[u8]) = (SECTOR, &[1, A, 0]);
    vec![
        coded("go-on-at-1", 2, &[(0, &[0, GO_ON, 1, C, 0]), a]),
        coded("go-on-later", 2, &[(0, &[1, B, 0, GO_ON, 2]), a]),
        coded("go-on-at-359", 360, &[(0, &empty), (359, &[GO_ON]), a]),
        coded("place-360", 361, &[(0, &empty), a]),
        coded("place-360-full", 31, &[(0, &filled), a]),
        coded("place-360-end", 360, &[(0, &empty)]),
        coded("both-sectors", 720, &[(0, &empty), (SECTOR, &empty)]),
        coded("go-on-at-0", 360, &[(0, &empty), (SECTOR, &[GO_ON])]),
    ]
}

/// Bad codes: behind the count they are not met, in another file they are.
fn bad_code_cases() -> Vec<Case> {
    let bad: [(&str, &[u8]); 5] = [
        ("over", &[11, A, A, A, A, A, A, A, A, A, A, A, 0]),
        ("blanks-over", &[GO_ON + 11, 0]),
        ("go-on-inside", &[1, A, GO_ON, 0]),
        ("largest", &[127, 0]),
        ("blanks-largest", &[255, 0]),
    ];
    let log = Disk::used(5).file(0, COMPRESSED, 10, 2).named("LOG");
    let log = log.codes(1, &[(0, &[1, A, 0])]);
    let mut cases = Vec::new();
    for (name, code) in bad {
        let behind = [&[1, A, 0][..], code].concat();
        cases.push(coded(&format!("behind-{name}"), 1, &[(0, &behind)]));
        let other = log.clone().file(1, COMPRESSED, 10, 2).named("OTHER");
        let image = other.codes(1, &[(0, code)]).image();
        let name = format!("other-{name}");
        let files = ["LOG", "OTHER", "NONE"];
        cases.extend(show_each(&name, BAD, &image, &files));
    }
    cases
}

/// Runs of 127, of both sorts, at R 132.
fn long_runs() -> Vec<Case> {
    let characters = [&[127][..], &[0xC1; 127], &[5], &[0xC2; 5], &[0]].concat();
    let blanks = [255, 131, 2, 0xC1, 0xC2, 0];
    let spelled = [&[126][..], &[BLANK; 126], &[133, 1, 0xC3, 0]].concat();
    let code = [&characters[..], &blanks, &spelled].concat();
    let disk = Disk::empty(2).file(0, COMPRESSED, 132, 1).named("LOG");
    let image = disk.codes(3, &[(0, &code)]).image();
    vec![show("code-long-runs", RECORDS, &image, "LOG")]
}

// ---------------------------------------------------------------------------------------------
// Ends, flags and counts.

/// No, one and as many records as there is room for, with every flag: the lines are the same.
fn end_cases() -> Vec<Case> {
    let mut cases = Vec::new();
    for kind in SEQUENTIAL {
        let sectors = sectors_for(kind, 90, &text_records(4, 90));
        for count in [0, 1, 4] {
            let disk = Disk::used(sectors + 1).file(5, kind, 90, sectors);
            let disk = disk.named("LOG").records(&text_records(count, 90));
            cases.extend(with_flags(&format!("end-kind{kind}-count{count}"), &disk));
        }
    }
    for (name, r, sectors) in [("no", 3_600, 1), ("nearly-one", 3_600, 9), ("one", 362, 3)] {
        let disk = Disk::used(sectors + 1).file(0, UNBLOCKED, r, sectors);
        let disk = disk.named("LOG").holding(sectors / r.div_ceil(SECTOR));
        cases.extend(with_flags(&format!("end-room-for-{name}"), &disk));
    }
    cases
}

/// The file added last with every flag.
fn with_flags(name: &str, disk: &Disk) -> Vec<Case> {
    let case = |flags| {
        let image = disk.clone().flags(flags).image();
        show(format!("{name}-flags{flags}"), ENDS, &image, "LOG")
    };
    (0..=3).map(case).collect()
}

/// Random files of all sorts of R, with and without room.
fn random_file_cases() -> Vec<Case> {
    let lengths = [2, 60, 80, 132, 180, 182, 360, 362, 3_600];
    let mut disk = Disk::used(1 + 2 * lengths.len());
    let mut names = Vec::new();
    for (k, r) in lengths.into_iter().enumerate() {
        names.push(format!("R{r}"));
        let file = disk.file(17 - k, RANDOM, r, 2).named(&names[k]);
        disk = file.flags(PROTECTED * (k as u16 % 2));
    }
    show_each("random", NOT_SEQUENTIAL, &disk.image(), &names)
}

/// Entries, kinds and R of files that lie in this order.
const MIXED: [(usize, u16, usize); 12] = [
    (16, UNBLOCKED, 2),
    (3, BLOCKED, 360),
    (9, COMPRESSED, 100),
    (0, RANDOM, 80),
    (12, UNBLOCKED, 362),
    (5, BLOCKED, 24),
    (17, COMPRESSED, 132),
    (8, RANDOM, 120),
    (1, UNBLOCKED, 182),
    (14, BLOCKED, 60),
    (2, COMPRESSED, 80),
    (11, RANDOM, 362),
];

/// Files of all kinds and flags in mixed order, with gaps between them.
fn mixed_cases() -> Vec<Case> {
    let mut disk = Disk::used(70);
    let mut names = Vec::new();
    for (k, (number, kind, r)) in MIXED.into_iter().enumerate() {
        names.push(format!("N{number}K{kind}"));
        let file = disk.gap(k % 3).file(number, kind, r, 4).named(&names[k]);
        disk = match kind {
            RANDOM => file,
            _ => file.records(&text_records(2, r)).flags(k as u16 % 4),
        };
    }
    show_each("mixed", RECORDS, &disk.image(), &names)
}

/// The shipped image's files.
fn station_cases() -> Vec<Case> {
    let names = [
        "PASSLOG", "NOTES", "FRAMES", "ELEMENTS", "CURVES", "TRACE", "CALIB", "PASS",
    ];
    show_each("station", RECORDS, &station(), &names)
}

// ---------------------------------------------------------------------------------------------
// Bad images.

/// Names for the small image of `damage.rs`: its four files, the last one random, and none of them.
const SMALL: [&str; 5] = ["ALPHA", "BETA1", "GAMMA", "DELTA22X", "NOSUCH"];

/// Names that are unknown in every image.
const UNTYPED: [&str; 4] = ["", "ALPHABETA", "alpha", "ALPHA\n"];

/// "11 before 8 before 7": bad images with every name, unlawful lengths among them.
fn bad_cases() -> Vec<Case> {
    let mut cases = show_each("small", FOUND, &small_image(), &SMALL);
    cases.extend(show_each("small", FOUND, &small_image(), &UNTYPED));
    let mut bad = small_image();
    bad[17 * ENTRY_BYTES + 19] = 1;
    cases.extend(show_each("small-bad", BAD, &bad, &SMALL));
    cases.extend(show_each("small-bad", BAD, &bad, &UNTYPED));
    for length in [0, 1, 20, 80, 359, 361, 719, 721, 3_599, 3_601, 3_959, 3_961] {
        let mut image = small_image();
        image.resize(length, 0);
        let name = format!("length-{length}");
        let files = ["ALPHA", "DELTA22X", "NOSUCH", ""];
        cases.extend(show_each(&name, BAD, &image, &files));
    }
    let one = small_image()[..SECTOR].to_vec();
    cases.extend(show_each("length-360", BAD, &one, &["ALPHA", "NOSUCH"]));
    cases
}

/// The images of `damage.rs`: all names with a good one, with a bad one the next in turn.
fn damaged() -> Vec<Case> {
    let mut cases = Vec::new();
    for (turn, case) in damaged_cases(&mut Random::new(SEED)).iter().enumerate() {
        let of_codes = case.image.len() == 3 * SECTOR;
        let files = if of_codes {
            &["FILE0", "NOSUCH"][..]
        } else {
            &SMALL
        };
        let name = format!("bad-{}", case.name);
        let next = turn % files.len();
        let tried = if directory_is_good(&case.image) {
            files
        } else {
            &files[next..=next]
        };
        cases.extend(show_each(&name, BAD, &case.image, tried));
    }
    cases
}

/// The largest images that are shown, and larger ones.
fn size_cases() -> Vec<Case> {
    let mut cases = Vec::new();
    for n in [180, 181, 182] {
        let mut image = full_log();
        image.resize(n * SECTOR, 0);
        let name = format!("sectors-{n}");
        let files = ["LOG", "GRAINS", "LO", ""];
        cases.extend(show_each(&name, LONGER, &image, &files));
    }
    let disk = Disk::empty(180).file(0, COMPRESSED, 2, 179).named("LOG");
    let empty = disk.codes(179 * SECTOR, &[]).flags(MARKED).image();
    cases.push(show("sectors-180-empty", RECORDS, &empty, "LOG"));
    let disk = Disk::empty(180).file(9, BLOCKED, 2, 179).named("LOG");
    let pairs = disk.records(&pairs(179 * SECTOR / 2)).image();
    cases.push(show("sectors-180-pairs", RECORDS, &pairs, "LOG"));
    cases
}

/// Records of two characters, other ones for each k.
fn pairs(count: usize) -> Vec<Vec<u8>> {
    let pair = |k: usize| letters(&format!("{}{}", k / 10 % 10, k % 10));
    (0..count).map(pair).collect()
}

/// A log that fills 180 sectors but one, which a random file has.
fn full_log() -> Vec<u8> {
    let line = |k: usize| letters(&format!("{k}  {}", pass_line(k % 90)));
    let records: Vec<Vec<u8>> = (0..178 * 4).map(line).collect();
    let disk = Disk::empty(180).file(17, COMPRESSED, 132, 178).named("LOG");
    let disk = disk.records(&records).file(0, RANDOM, 60, 1);
    disk.named("GRAINS").image()
}

// ---------------------------------------------------------------------------------------------
// What scripts leave.

/// Short writes, marks, records written again, files added and deleted: what is shown of the image then.
fn script_cases() -> Vec<Case> {
    let scripts = [
        ("short", "@0 open text:AB text:A..B write:2 close @1 open text:AB text:....AB.. close @2 open text:AB text:..C. blanks:2 close"),
        ("marked", "@0 open text:AB mark close @1 open text:AB mark close @2 open text:AB mark close"),
        ("not-closed", "@0 open text:AB @1 open text:ABCD @2 open text:ABCDEF"),
        ("cut", "@0 open read mark close @1 open read*2 mark close @2 open read mark close"),
        ("emptied", "@0 open mark close @1 open mark close @2 open mark close"),
        ("deleted", "@0 delete @1 delete @2 delete @3 delete"),
        ("added", "add:NEW:2:80:1 add:SMALL:3:2:1 @4 open text:AB text:CD mark close"),
        ("replaced", "@0 delete add:A:2:36:4 @0 open text:AB close @3 delete add:D:1:2:2 @3 open text:XY close"),
        ("full", "@0 open write:400*9 close @1 open mixed:100*9 close @2 open mixed:80*30 close"),
    ];
    let mut cases = Vec::new();
    for (turn, (name, words)) in scripts.into_iter().enumerate() {
        let name = format!("script-{name}");
        let files = ["A", "B", "C", "D", "NEW", "SMALL"];
        cases.extend(show_each(&name, RECORDS, &scripted(words, turn), &files));
    }
    cases
}

/// The image that a script leaves of one with four files and some free sectors.
fn scripted(words: &str, free: usize) -> Vec<u8> {
    let image = Disk::used(13 + free)
        .file(0, UNBLOCKED, 400, 4)
        .named("A")
        .holding(2)
        .file(1, BLOCKED, 100, 2)
        .named("B")
        .holding(5)
        .file(2, COMPRESSED, 80, 2)
        .named("C")
        .holding(6)
        .file(3, RANDOM, 60, 2)
        .named("D")
        .image();
    play(Engine::Buffered, image, &[], &script(400, words)).image
}
