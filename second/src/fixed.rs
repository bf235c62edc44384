//! The fixed cases: each has a name, the rule of document 01 that it tries, an image and a script
//! in the words of `notation.rs`. Images are at most 182 sectors long, so that `play_cases` takes
//! them. Damaged images are in `damage.rs`, larger images in `cases.rs`.
//!
//! A position of 65,535 cannot be had in 182 sectors: 181 sectors for a file hold at most
//! 181 · 180 = 32,580 blocked records of 2 bytes and 181 · 360 = 65,160 codes of one byte. The
//! rules about that position are tried by `cases.rs` and `tests.rs` on longer images.

use crate::cases::Case;
use crate::coding::GO_ON;
use crate::directory::{BLOCKED, COMPRESSED, MARKED, PROTECTED, RANDOM, UNBLOCKED};
use crate::disk::Disk;
use crate::image::{BLANK, SECTOR};
use crate::notation::case;

const BOTH: u16 = MARKED | PROTECTED;

pub fn fixed_cases() -> Vec<Case> {
    [
        kinds(),
        granules(),
        room(),
        states(),
        order_of_tests(),
        tapes(),
        padding(),
        codes_of_others(),
        places_of_go_on(),
        exact_fits(),
        table(),
        buffers(),
        buffers_ahead(),
        several_files(),
        limits(),
    ]
    .concat()
}

// ---------------------------------------------------------------------------------------------
// Every request on every kind.

/// A walk through every request, refused ones among them, then closing and reading all again.
const TOUR: &str = "@5 read @4 open @5 open open @18 open @5
    read read:R+3 read:R-1 read:0 forward back read back*2 get:0 look:0 put:0:2
    write:0 write:1 write:R+1 write:R+2 mixed write:2 mark
    read write:2 forward read write:2 mark read write:2 file-forward back read*2
    file-back mixed file-forward file-back*2 back read*6
    rewind read chars rewind forward*4 mark file-back
    close read close open read:R+1*8 get:0 get:1 get:2 get:3 close";

/// For each kind: R and the flags.
const KINDS: [(u16, usize, u16); 24] = [
    (UNBLOCKED, 80, 0),
    (UNBLOCKED, 80, MARKED),
    (UNBLOCKED, 80, PROTECTED),
    (UNBLOCKED, 80, BOTH),
    (UNBLOCKED, 2, 0),
    (UNBLOCKED, 360, MARKED),
    (UNBLOCKED, 362, 0),
    (UNBLOCKED, 1_080, MARKED),
    (BLOCKED, 100, 0),
    (BLOCKED, 100, MARKED),
    (BLOCKED, 100, PROTECTED),
    (BLOCKED, 100, BOTH),
    (BLOCKED, 2, MARKED),
    (BLOCKED, 180, 0),
    (BLOCKED, 182, MARKED),
    (BLOCKED, 360, 0),
    (COMPRESSED, 80, 0),
    (COMPRESSED, 80, MARKED),
    (COMPRESSED, 80, PROTECTED),
    (COMPRESSED, 80, BOTH),
    (COMPRESSED, 2, 0),
    (COMPRESSED, 128, MARKED),
    (COMPRESSED, 132, 0),
    (RANDOM, 360, 0),
];

fn kinds() -> Vec<Case> {
    let rule = "kind: 1 unblocked, 2 blocked, 3 compressed, 4 random; flags: 1 marked, \
                2 write protected, 3 both";
    let mut cases = Vec::new();
    for (kind, r, flags) in KINDS {
        for (part, count) in [
            ("empty", 0),
            ("some", some_count(kind, r)),
            ("full", full_count(kind, r)),
        ] {
            let disk = Disk::used(6)
                .file(4, BLOCKED, 90, 1)
                .file(5, kind, r, 3)
                .holding(count);
            let name = format!("kind{kind}-r{r}-flags{flags}-{part}");
            cases.push(case(name, rule, disk.flags(flags).image(), r, TOUR));
        }
    }
    cases
}

/// Records of three sectors that are filled.
fn full_count(kind: u16, r: usize) -> usize {
    match kind {
        UNBLOCKED => 3 / r.div_ceil(SECTOR),
        BLOCKED => SECTOR / r * 3,
        COMPRESSED => 6,
        _ => 0,
    }
}

fn some_count(kind: u16, r: usize) -> usize {
    full_count(kind, r).min(2)
}

/// Random files: R, sectors, flags and capacity.
const RANDOM_FILES: [(usize, usize, u16, usize); 8] = [
    (2, 3, 0, 540),
    (80, 3, PROTECTED, 12),
    (360, 3, 0, 3),
    (362, 5, 0, 2),
    (720, 4, 0, 2),
    (722, 2, 0, 0),
    (3_600, 20, 0, 2),
    (3_600, 9, 0, 0),
];

fn granules() -> Vec<Case> {
    let rule = "for R up to 180, ... granule g in extent sector g/q rounded down at byte (g mod q)·R; \
                above, granule g begins s·g sectors into the extent; granule number at or over capacity: 3";
    let mut cases = Vec::new();
    for (r, sectors, flags, capacity) in RANDOM_FILES {
        let image = Disk::used(2 + sectors)
            .file(3, RANDOM, r, sectors)
            .flags(flags)
            .image();
        let mut words = "@3 open ".to_string();
        for g in [0, capacity.saturating_sub(1), capacity] {
            words += &format!(
                "look:{g} get:{g} get:{g}:R-1 put:{g}:R look:{g} put:{g}:2 put:{g}:1 put:{g}:0
                 put:{g}:R+2 get:{g}:R+2 look:{g} "
            );
        }
        words += "look:65535 get:65535 put:65535:2 put:0:2 get:0 read write:2 mark \
                  rewind forward back file-forward file-back close look:0 open get:0 \
                  close";
        let name = format!("granules-r{r}-sectors{sectors}-flags{flags}");
        cases.push(case(name, rule, image, r, &words));
    }
    cases
}

// ---------------------------------------------------------------------------------------------
// Room.

/// Written until well past the end, read, marked, written behind the mark, closed, read again.
const FILLING: &str = "open write*4 mixed*4 chars*3 rewind read*12 back mark write:2
    file-back blanks:2 close open read*12 forward write close";

/// Kind, R and sectors.
const ROOMS: [(u16, usize, usize); 10] = [
    (UNBLOCKED, 362, 1),
    (UNBLOCKED, 362, 5),
    (UNBLOCKED, 360, 2),
    (UNBLOCKED, 720, 4),
    (BLOCKED, 182, 2),
    (BLOCKED, 120, 2),
    (BLOCKED, 360, 3),
    (COMPRESSED, 132, 1),
    (COMPRESSED, 132, 3),
    (COMPRESSED, 80, 2),
];

fn room() -> Vec<Case> {
    let mut cases = Vec::new();
    for (kind, r, sectors) in ROOMS {
        let image = Disk::used(1 + sectors).file(0, kind, r, sectors).image();
        let name = format!("room-kind{kind}-r{r}-sectors{sectors}");
        let rule = "no room: write at p = capacity, or a coded record due in a sector past \
                    the extent; capacity may be 0";
        cases.push(case(name, rule, image, r, FILLING));
    }
    cases.push(case(
        "room-unblocked-3600",
        "s = R/360 rounded up; record k begins s·k sectors into the extent; \
         capacity is sectors divided by s, rounded down",
        Disk::used(41).file(0, UNBLOCKED, 3_600, 39).image(),
        3_600,
        "open write:R write:2 write:3598 write:3602 write:R mark file-back \
         write:2 rewind read*4 back*2 write:722 read close open read*3 close",
    ));
    cases.push(case(
        "room-unblocked-3600-none",
        "Capacity may be 0",
        Disk::used(10).file(0, UNBLOCKED, 3_600, 9).image(),
        3_600,
        "open write:2 write:R read mark write:2 back write:2 back close open \
         read close",
    ));
    cases.push(case(
        "room-blocked-r2",
        "capacity is q·sectors: 180 records of 2 bytes in a sector",
        Disk::used(2)
            .file(0, BLOCKED, 2, 1)
            .holding(178)
            .flags(MARKED)
            .image(),
        2,
        "open file-forward file-back write*3 back*3 read*4 mark rewind read close",
    ));
    cases.push(case(
        "room-needs-none-for-a-mark",
        "Write file mark: ... It needs no room",
        Disk::used(4)
            .file(0, BLOCKED, 360, 1)
            .holding(1)
            .file(1, UNBLOCKED, 362, 1)
            .file(2, COMPRESSED, 132, 1)
            .image(),
        132,
        "open forward write:2 mark file-back write:2 close
         @1 open write:2 mark back back write:2 close
         @2 open chars*2 chars mark file-back chars chars:86 chars:2 close open read*3 close",
    ));
    cases
}

// ---------------------------------------------------------------------------------------------
// Every request in every state of a tape.

/// How to come to a state, from the opening of a marked file of three records, two of them in
/// its first sector, with room for a fourth.
const STATES: [&str; 20] = [
    "",
    "read",
    "forward",
    "forward*2",
    "forward*3",
    "read*3",
    "file-forward",
    "file-forward file-back",
    "forward*3 write:2",
    "forward*3 write:2 file-back",
    "forward*3 write:2 file-back forward*2",
    "forward*3 write:2 file-back forward*3",
    "forward*3 write:2 file-back read",
    "forward write:2",
    "forward write:2 mark",
    "forward write:2 mark file-back",
    "forward mark rewind file-forward file-back",
    "mark",
    "mark file-back",
    "write:2 rewind",
];

/// The requests, the refused ones together.
const REQUESTS: [&str; 11] = [
    "open",
    "read",
    "write:2",
    "mark",
    "rewind",
    "close",
    "forward",
    "back",
    "file-forward",
    "file-back",
    "read:R-1 write:1 write:0 write:R+2 get:0 put:0:2 look:0",
];

/// What shows the state that a request left.
const SHOWN: &str = "read forward file-forward file-back read close open read*4 close";

fn states() -> Vec<Case> {
    let mut cases = Vec::new();
    for (kind, r) in [(UNBLOCKED, 362), (BLOCKED, 180), (COMPRESSED, 132)] {
        let disk = Disk::used(10).file(2, kind, r, 8);
        let records: Vec<Vec<u8>> = (0xC1..0xC4).map(|letter| vec![letter; r]).collect();
        let disk = if kind == COMPRESSED {
            disk.records(&records)
        } else {
            disk.holding(3)
        };
        let image = disk.flags(MARKED).image();
        for (s, state) in STATES.iter().enumerate() {
            for (q, request) in REQUESTS.iter().enumerate() {
                cases.extend(state_cases(
                    &image,
                    kind,
                    r,
                    [state, request],
                    &format!("{kind}-{s:02}-{q:02}"),
                ));
            }
        }
    }
    cases
}

/// A request in a state: once with all that shows what it left, and, of a file with a blocking
/// buffer, once with nothing behind it, so that the image shows what was put back.
fn state_cases(image: &[u8], kind: u16, r: usize, words: [&str; 2], name: &str) -> Vec<Case> {
    let [state, request] = words;
    let shown = case(
        format!("state-{name}"),
        "a position p from 0 to its length, a marked flag, and a state \"beyond\"",
        image.to_vec(),
        r,
        &format!("@2 open {state} {request} {SHOWN}"),
    );
    let held = case(
        format!("held-{name}"),
        "put back before another sector takes it, before any order but the \
         record skips, and at close, and at no other time",
        image.to_vec(),
        r,
        &format!("@2 open {state} {request}"),
    );
    if kind == UNBLOCKED {
        vec![shown]
    } else {
        vec![shown, held]
    }
}

// ---------------------------------------------------------------------------------------------
// "Order: 12, 8, 9, 10, 7 for kind, 4, 7 for beyond, 5, 6, then 11, 3, 1, 2 or 7 for the end."

/// Ten files: of every kind a free one, and a protected one that is marked where it may be;
/// 2 and 4 are full, 8 and 9 have capacity 0.
fn ten_files() -> Vec<u8> {
    Disk::used(24)
        .file(0, UNBLOCKED, 80, 2)
        .holding(1)
        .flags(MARKED)
        .file(1, UNBLOCKED, 80, 2)
        .holding(1)
        .flags(BOTH)
        .file(2, BLOCKED, 100, 1)
        .holding(3)
        .file(3, BLOCKED, 80, 2)
        .holding(2)
        .flags(BOTH)
        .file(4, COMPRESSED, 80, 1)
        .records(&vec![vec![0xC1; 80]; 4])
        .file(5, COMPRESSED, 80, 2)
        .holding(2)
        .flags(BOTH)
        .file(6, RANDOM, 80, 2)
        .file(7, RANDOM, 80, 3)
        .flags(PROTECTED)
        .file(8, UNBLOCKED, 362, 1)
        .file(9, RANDOM, 722, 2)
        .image()
}

/// Every request, in ways that break all rules that it can break.
const ALL_WRONG: &str =
    "read:1 write:1 write:0 write:802 get:99:1 put:99:1 put:99:0 put:99:802 look:99
    mark rewind forward back file-forward file-back close";

/// A name, the tests that apply at once, entries, and what is tried on each of them.
const ORDERS: [(&str, &str, &[usize], &str); 14] = [
    (
        "8-not-open",
        "8 before all but 12: not open",
        &[0, 1, 4, 5, 7],
        ALL_WRONG,
    ),
    (
        "8-no-entry",
        "8 before all but 12: no such entry",
        &[10, 17, 18, 65_535],
        ALL_WRONG,
    ),
    (
        "8-9-10",
        "8 before 10, 9 before 10",
        &[0],
        "open @1 open @2 open @3 open @4 open @3 open @10 open @18 open @65535 open
         @0 open @4 read close @2 close @4 open @2 open",
    ),
    (
        "7-kind-random",
        "7 for kind before 4, 5 and 6: a random file, protected",
        &[7],
        "open read:1 write:1 write:0 write:82 mark rewind forward back file-forward file-back",
    ),
    (
        "7-kind-tape",
        "7 for kind before 4, 5, 6 and 3: protected tapes",
        &[1, 3, 5],
        "open get:9:1 put:9:1 put:9:0 put:9:82 look:9 get:0 put:0:2 look:0",
    ),
    (
        "4-beyond",
        "4 before 7 for beyond, 5 and 6; 7 for beyond before 6",
        &[1, 3, 5],
        "open file-forward write:1 write:0 write:82 write:2 mark read:1 read forward",
    ),
    (
        "4-not-beyond",
        "4 before 5, 6 and 3",
        &[1, 3, 5],
        "open write:1 write:0 write:82 write:2 mark forward*2 write:1 write:80 mark",
    ),
    (
        "4-granule",
        "4 before 5, 6 and 3: a protected random file",
        &[7],
        "open put:12:1 put:12:0 put:12:82 put:12:2 put:0:2 put:0:1 get:12:79 get:12 get:11 look:12 look:11",
    ),
    (
        "7-beyond",
        "7 for beyond before 5 and 6",
        &[0],
        "open file-forward write:1 write:0 write:82 write:2 mark read:1 read forward
         file-forward back write:1 file-back",
    ),
    (
        "5-6-3-full",
        "5 before 6, both before 3",
        &[0],
        "@2 open forward*3 write:1 write:101 write:0 write:102 write:100
         @4 open forward*4 write:1 write:81 write:0 write:82 chars:80 chars:4",
    ),
    (
        "6-end",
        "6 before 1 and before 7 for the end",
        &[0],
        "open forward read:79 read:80 read:79 @2 open forward*3 read:99 read:100 forward
         @4 open forward*4 read:79 read:80 forward",
    ),
    (
        "5-6-3-granule",
        "5 before 6, both before 3: granules",
        &[6],
        "open put:8:1 put:8:81 put:8:0 put:8:82 put:8:80 get:8:79 get:8 get:7:79 look:8 look:7
         @9 open put:0:1 put:0:0 put:0:2 get:0:721 get:0:722 look:0",
    ),
    (
        "7-back-compressed",
        "Record back ... Compressed files: 7, before 1 and 2",
        &[5, 4],
        "open back forward back file-forward back file-back back read*4 back",
    ),
    (
        "capacity-0",
        "Capacity may be 0: 5, 6, then 3",
        &[8],
        "open write:1 write:0 write:364 write:2 read:1 read:362 mark write:1 write:2
         file-back write:2 back close open read:362 close",
    ),
];

fn order_of_tests() -> Vec<Case> {
    let mut cases = Vec::new();
    for (name, rule, entries, words) in ORDERS {
        let parts: Vec<String> = entries.iter().map(|e| format!("@{e} {words}")).collect();
        let name = format!("order-{name}");
        cases.push(case(name, rule, ten_files(), 80, &parts.join(" ")));
    }
    cases
}

// ---------------------------------------------------------------------------------------------
// "The tape a file is".

/// The rules of a tape: a name, the rule, and what is tried on an empty file.
const TAPES: [(&str, &str, &str); 15] = [
    (
        "read-to-the-mark",
        "At the end: marked gives 1 and beyond",
        "mixed*3 mark rewind read*5 forward file-back read file-back forward*4",
    ),
    (
        "read-to-the-end",
        "At the end: ... unmarked gives 7",
        "mixed*3 rewind read*5 forward",
    ),
    (
        "write-shortens",
        "Write makes D its first p records and the new one, p + 1, unmarked",
        "mixed*6 mark rewind forward*2 write:2 read forward rewind read*4 \
         file-forward close open read*4",
    ),
    (
        "write-shortens-at-0",
        "Write makes D its first p records and the new one",
        "mixed*6 rewind blanks:2 read close open read*2",
    ),
    (
        "mark-shortens",
        "Write file mark: D becomes its first p records, marked, beyond",
        "mixed*6 rewind forward*2 mark read file-back read rewind read*4 close \
         open read*4",
    ),
    (
        "mark-sets-the-end",
        "Write file mark: D becomes its first p records: file forward then goes \
         to their end",
        "mixed*6 rewind forward*3 mark rewind file-forward file-back mixed \
         rewind read*6 close open read*6",
    ),
    (
        "mark-twice",
        "Beyond, a ... write file mark gives 7",
        "mixed mark*2 file-back mark*2 back mark file-back*2 mark",
    ),
    (
        "write-at-the-mark",
        "File back: beyond goes before the mark, 0; a write is then unmarked",
        "mixed*2 mark file-back mixed file-forward read mark rewind read*4",
    ),
    (
        "rewind-from-beyond",
        "Rewind on-line: p = 0, not beyond",
        "mixed*2 mark rewind read*3 rewind forward*3 rewind read",
    ),
    (
        "file-forward",
        "File forward: beyond or unmarked gives 7; otherwise p goes to the end, \
         beyond, 0",
        "file-forward mixed*3 file-forward mark file-forward rewind \
         file-forward*2 file-back file-forward read",
    ),
    (
        "file-back",
        "File back: beyond goes before the mark, 0; otherwise p = 0 with answer 2",
        "file-back mixed*3 file-back read mark file-back*2 file-back",
    ),
    (
        "back",
        "Record back: beyond gives 1 and steps before the mark; p = 0 gives 2; \
         otherwise p − 1",
        "back mixed*3 back*2 read back*4 read*2 back write:2 read back*2 read \
         mark back*2 read*2",
    ),
    (
        "close-keeps",
        "Rewind off-line: close, writing count and flags to bytes 16–19 of the entry",
        "mixed*3 mark close open forward close open read*4 file-back mixed \
         close open read*5",
    ),
    (
        "close-in-the-middle",
        "Opening gives p = 0",
        "mixed*4 rewind forward*2 close read close open read*5 close open mark \
         close open read",
    ),
    (
        "sizes",
        "read buffer under R: 6; write of 0 or over R bytes: 6; odd byte count: 5",
        "write:R write:R-2 write:2 write:1 write:R-1 write:R+1 write:R+2 \
         write:0 rewind read:R-1 read:R read:R+1 read:R+7 read:0",
    ),
];

/// A file of six records in the kinds 1 to 3, and what is tried on each.
fn tapes() -> Vec<Case> {
    let mut cases = Vec::new();
    for (kind, r) in [(UNBLOCKED, 362), (BLOCKED, 120), (COMPRESSED, 132)] {
        for (name, rule, words) in TAPES {
            let image = Disk::used(15).file(0, kind, r, 12).image();
            cases.push(case(
                format!("tape-{name}-kind{kind}"),
                rule,
                image,
                r,
                &format!("open {words}"),
            ));
        }
    }
    cases
}

// ---------------------------------------------------------------------------------------------
// Bytes behind a record.

/// A name, the rule, kind and R of a file of six sectors, and what is tried on it.
const PADDINGS: [(&str, &str, u16, usize, &str); 6] = [
    (
        "padding-unblocked",
        "Bytes behind R in its last sector are written as zero; short records \
         are padded with zero",
        UNBLOCKED,
        400,
        "open write:R write:2 write:362 rewind read*3 rewind write:398 close \
         open read close",
    ),
    (
        "padding-unblocked-sector",
        "s = R/360 rounded up: 360 bytes are one sector",
        UNBLOCKED,
        360,
        "open write:R write:2 write:358 rewind read*3 back write:2 read close",
    ),
    (
        "padding-blocked",
        "A write puts zero in every byte of the sector behind the record",
        BLOCKED,
        100,
        "open write:R write:R write:R write:R rewind forward write:2 rewind \
         read*3 write:4 close open read*4 close",
    ),
    (
        "padding-blocked-tail",
        "q = 360/R rounded down; zero in every byte of the sector behind the record",
        BLOCKED,
        180,
        "open write:178 write:R write:2 rewind read*3 back*2 write:4 close open \
         read*2 close",
    ),
    (
        "padding-random",
        "Bytes behind R are written as zero; short ... granules are padded with zero",
        RANDOM,
        722,
        "open put:0 put:0:2 look:0 put:1:720 look:1 get:1 close",
    ),
    (
        "padding-compressed",
        "Short records ... are padded ..., in compressed files with blanks",
        COMPRESSED,
        80,
        "open chars:2 write:2 text:AB.. text:.... blanks:2 rewind read*5 close \
         open read*5 close",
    ),
];

fn padding() -> Vec<Case> {
    let mut cases = Vec::new();
    for (name, rule, kind, r, words) in PADDINGS {
        let image = Disk::used(8).file(0, kind, r, 6).image();
        cases.push(case(name, rule, image, r, words));
    }
    cases
}

// ---------------------------------------------------------------------------------------------
// "Compressed records".

/// Single codes for R 10 that are lawful though this writer never writes them.
const FOREIGN: [(&str, &[u8]); 12] = [
    ("end-only", &[0]),
    ("single-blank-run", &[0x81, 1, 0xC1, 0]),
    ("run-after-run", &[1, 0xC1, 1, 0xC2, 0]),
    ("blanks-after-blanks", &[0x81, 0x82, 0x83, 1, 0xC1, 0]),
    ("trailing-blank-run", &[1, 0xC1, 0x83, 0]),
    ("trailing-blank-characters", &[3, 0xC1, 0x40, 0x40, 0]),
    (
        "blanks-as-characters",
        &[5, 0x40, 0x40, 0x40, 0x40, 0xC1, 0],
    ),
    ("whole-record-of-blanks", &[0x8A, 0]),
    (
        "exactly-r-characters",
        &[10, 1, 2, 3, 4, 5, 6, 7, 8, 9, 10, 0],
    ),
    ("exactly-r-by-runs", &[0x88, 1, 0xC1, 0x81, 0]),
    ("controls-as-characters", &[4, 0x80, 0x00, 0xFF, 0x01, 0]),
    (
        "split-oddly",
        &[0x82, 2, 0x40, 0xC1, 0x81, 1, 0x40, 1, 0xC2, 0],
    ),
];

const FOREIGN_SCRIPT: &str = "open read*3 rewind forward*2 text:BEHINDBOTH file-back read text:AB
    rewind read*2 close open read*3 close";

fn codes_of_others() -> Vec<Case> {
    let rule = "a run may also follow one of its own sort; 0 ends the record, and the \
                missing characters up to R are blanks; 128 ... means go on in the next \
                sector";
    let mut cases = Vec::new();
    for (name, code) in FOREIGN {
        let disk = Disk::empty(4).file(0, COMPRESSED, 10, 3).filled(0xFF);
        let behind = disk.clone().codes(2, &[(0, code), (code.len(), code)]);
        let early = disk.codes(2, &[(0, code), (code.len(), &[GO_ON]), (SECTOR, code)]);
        cases.push(case(
            format!("foreign-{name}"),
            rule,
            behind.image(),
            10,
            FOREIGN_SCRIPT,
        ));
        cases.push(case(
            format!("foreign-{name}-early-go-on"),
            rule,
            early.image(),
            10,
            FOREIGN_SCRIPT,
        ));
    }
    cases.push(long_runs());
    cases.extend(old_sectors_of_others());
    cases
}

/// Two codes of 135 bytes, and no 128 behind them as this writer would put it; with and without
/// a next sector.
fn old_sectors_of_others() -> Vec<Case> {
    let rule =
        "All room is tested before any byte changes; bytes o to 359 of the old sector become 128";
    let mut cases = Vec::new();
    for sectors in [1, 3] {
        let disk = Disk::used(5).file(0, COMPRESSED, 132, sectors);
        let full = disk.records(&[vec![0xC1; 132], vec![0xC2; 132]]);
        let image = full.codes(2, &[(270, &[1; 90])]).image();
        let words = "open forward*2 chars:132 mixed:132 rewind read*4 close open read*4 close";
        cases.push(case(
            format!("foreign-old-sector-{sectors}"),
            rule,
            image,
            132,
            words,
        ));
    }
    cases
}

/// Runs of 127 and more, split elsewhere than this writer does.
fn long_runs() -> Case {
    let mut split = vec![1, 0xC1, 127];
    split.extend([0xC2; 127]);
    split.extend([2, 0xC3, 0xC3, 0x82, 0]);
    let blanks = [0x81, 0xFF, 0x84, 0];
    let image = Disk::used(4)
        .file(0, COMPRESSED, 132, 2)
        .codes(
            3,
            &[
                (0, &split),
                (split.len(), &blanks),
                (split.len() + 4, &[0xFF, 0x85, 0]),
            ],
        )
        .image();
    case(
        "foreign-long-runs",
        "Runs over 127 are split, 127 first (the writer); the reader takes any split",
        image,
        132,
        "open read*3 write:132 blanks:130 text:..A chars:128 chars:127 \
         chars:126 chars:4 rewind read*9 close",
    )
}

/// Bytes of an extent and what stands there.
type Codes = &'static [(usize, &'static [u8])];

const ZEROS: &[u8] = &[0; SECTOR];
const GOOD: &[u8] = &[1, 0xC1, 0];

/// 128 where it means go on, and where it does not: a name, the rule, the count and the codes of
/// a file of R 10 in three sectors.
const GO_ONS: [(&str, &str, usize, Codes); 13] = [
    (
        "at-0",
        "128 is lawful ... not at byte 0 of a sector",
        1,
        &[(0, &[GO_ON]), (360, GOOD)],
    ),
    (
        "filled-from-0",
        "128 is lawful ... not at byte 0 of a sector",
        1,
        &[(0, &[GO_ON; SECTOR]), (360, GOOD)],
    ),
    (
        "at-0-none-counted",
        "kind 3's first \"count\" records decode ..., whatever stands behind them",
        0,
        &[(0, &[GO_ON]), (360, GOOD)],
    ),
    (
        "at-0-of-second",
        "128 is lawful ... not at byte 0 of a sector",
        2,
        &[(0, &[0, GO_ON]), (360, &[GO_ON]), (720, GOOD)],
    ),
    (
        "at-0-of-second-from-360",
        "128 is lawful ... not at byte 0 of a sector",
        361,
        &[(0, ZEROS), (360, &[GO_ON]), (720, GOOD)],
    ),
    (
        "at-1",
        "128 is lawful only where a record could start",
        2,
        &[(0, &[0, GO_ON]), (360, GOOD)],
    ),
    (
        "at-359",
        "128 ... means go on in the next sector",
        360,
        &[(0, ZEROS), (359, &[GO_ON]), (360, GOOD)],
    ),
    (
        "twice",
        "128 ... means go on in the next sector",
        3,
        &[(0, &[0, GO_ON]), (360, &[1, 0xC1, 0, GO_ON]), (720, GOOD)],
    ),
    (
        "from-360",
        "A place at byte 360 also goes on there",
        361,
        &[(0, ZEROS), (360, GOOD)],
    ),
    (
        "ends-at-360",
        "A place at byte 360 also goes on there",
        360,
        &[(0, ZEROS)],
    ),
    (
        "out-of-the-extent",
        "A code is bad if it ... leaves the extent: by 128",
        722,
        &[(0, ZEROS), (360, ZEROS), (720, &[0, GO_ON])],
    ),
    (
        "out-of-the-extent-from-360",
        "A code is bad if it ... leaves the extent: from byte 360",
        1_081,
        &[(0, ZEROS), (360, ZEROS), (720, ZEROS)],
    ),
    (
        "fills-the-extent",
        "a coded record due in a sector past the extent: 3",
        1_080,
        &[(0, ZEROS), (360, ZEROS), (720, ZEROS)],
    ),
];

/// Reading, and writing at the end and at the beginning.
const GO_ON_SCRIPT: &str = "open file-forward file-back text:AB text:CD rewind read*3
    rewind forward*2 file-back text:ABC. file-back read*2 close open mark close";

fn places_of_go_on() -> Vec<Case> {
    let mut cases = Vec::new();
    for (name, rule, count, codes) in GO_ONS {
        let disk = Disk::empty(5).file(0, COMPRESSED, 10, 3).filled(0x11);
        let image = disk.codes(count, codes).flags(MARKED).image();
        cases.push(case(format!("go-on-{name}"), rule, image, 10, GO_ON_SCRIPT));
    }
    cases
}

/// A name, the sectors of the file (R 132), the rule, and what is tried.
const FITS: [(&str, usize, &str, &str); 11] = [
    (
        "no-next-in-the-middle",
        1,
        "filling with 128 before finding there is no next sector",
        "chars:118*2 chars:98 rewind forward*2 chars:132 read file-back read*4 close open read*4",
    ),
    (
        "three-of-120",
        3,
        "putting a look-ahead 128 after a sector filled exactly by three \
         120-byte codes",
        "chars:118*3 close open read*4 chars:118 chars:132 rewind read*6 close \
         open read*6",
    ),
    (
        "three-of-120-one-sector",
        1,
        "a coded record due in a sector past the extent: 3",
        "chars:118*3 chars:118 blanks:2 mark rewind read*4 close open \
         file-forward file-back blanks:2 rewind forward*2 blanks:2 rewind \
         read*4",
    ),
    (
        "one-byte-left",
        2,
        "goes at the current place o if o + e ≤ 360",
        "chars:118*2 chars:116 blanks:2 rewind read*5 close",
    ),
    (
        "one-byte-over",
        2,
        "else to the next sector, and then bytes o to 359 of the old sector \
         become 128",
        "chars:118*2 chars:120 rewind read*4 close",
    ),
    (
        "last-byte-128",
        2,
        "bytes o to 359 of the old sector become 128",
        "chars:118*2 chars:116 chars:2 rewind read*5 close open read*5",
    ),
    (
        "no-next-sector",
        1,
        "filling with 128 before finding there is no next sector",
        "chars:132*2 chars:132 chars:88 chars:86 rewind read*4 close",
    ),
    (
        "no-next-of-two",
        2,
        "All room is tested before any byte changes",
        "chars:132*4 chars:132 rewind forward*3 chars:132*2 file-back read*5",
    ),
    (
        "shorter-rewrite",
        1,
        "letting old codes stand behind a shorter rewrite",
        "chars:132*2 rewind chars:2 close open read*2 close",
    ),
    (
        "shorter-in-the-middle",
        2,
        "Behind the new record the sector is filled with 128",
        "chars:80*6 rewind read*2 chars:2 rewind read*4 close open read*4 \
         chars:132 rewind read*5",
    ),
    (
        "rewrite-from-360",
        3,
        "A place at byte 360 also goes on there",
        "chars:118*5 rewind read*3 chars:4 read rewind read*5 close open read*5",
    ),
];

/// Codes that fill a sector exactly, or by a byte more or less.
fn exact_fits() -> Vec<Case> {
    let image = |sectors: usize| {
        Disk::used(2 + sectors)
            .file(0, COMPRESSED, 132, sectors)
            .image()
    };
    FITS.map(|(name, sectors, rule, words)| {
        case(
            format!("fit-{name}"),
            rule,
            image(sectors),
            132,
            &format!("open {words}"),
        )
    })
    .to_vec()
}

/// Rows of the table: kind, R, sectors, the row, and the writes that it tells of.
const TABLE: [(&str, u16, usize, usize, &str, &str); 12] = [
    ("01", COMPRESSED, 80, 1, "R 80, all blanks: 00", "blanks:80"),
    (
        "02",
        COMPRESSED,
        80,
        1,
        "R 80, AB then blanks: 02 C1 C2 00",
        "text:AB",
    ),
    (
        "03",
        COMPRESSED,
        80,
        1,
        "R 80, A, one blank, B: 03 C1 40 C2 00",
        "text:A.B.",
    ),
    (
        "04",
        COMPRESSED,
        80,
        1,
        "R 80, A, two blanks, B: 01 C1 82 01 C2 00",
        "text:A..B",
    ),
    (
        "05",
        COMPRESSED,
        80,
        1,
        "R 80, five blanks, X: 85 01 E7 00",
        "text:.....X",
    ),
    (
        "06",
        COMPRESSED,
        80,
        1,
        "R 80, one blank, A: 02 40 C1 00",
        "text:.A",
    ),
    (
        "08",
        COMPRESSED,
        132,
        1,
        "R 132, all A: 135 bytes, starting 7F",
        "chars:132",
    ),
    (
        "09",
        BLOCKED,
        100,
        2,
        "blocked R 100: record 2 at sector 0 byte 200, record 3 at sector 1 byte 0",
        "write*4",
    ),
    (
        "10a",
        BLOCKED,
        182,
        2,
        "blocked R 182: one record a sector",
        "write*3",
    ),
    ("10b", BLOCKED, 180, 2, "R 180: two", "write*5"),
    (
        "11",
        UNBLOCKED,
        362,
        5,
        "unblocked R 362, five sectors: capacity 2",
        "write*3",
    ),
    (
        "12",
        COMPRESSED,
        132,
        2,
        "two 135-byte codes in a sector, a third of 135: bytes 270–359 become 80",
        "chars:132*3",
    ),
];

/// The table's rows, as far as an image shows them.
fn table() -> Vec<Case> {
    let image = |kind: u16, r: usize, sectors: usize| {
        Disk::used(1 + sectors).file(0, kind, r, sectors).image()
    };
    let mut cases = TABLE
        .map(|(row, kind, r, sectors, rule, words)| {
            case(
                format!("table-{row}"),
                rule,
                image(kind, r, sectors),
                r,
                &format!("open {words} rewind read*2 close"),
            )
        })
        .to_vec();
    cases.push(row_seven());
    cases
}

fn row_seven() -> Case {
    let mut record = vec![BLANK; 130];
    record.extend([0xC1, 0xC2]);
    let image = Disk::used(2).file(0, COMPRESSED, 132, 1).image();
    let mut case = case(
        "table-07",
        "R 132, 130 blanks, AB: FF 83 02 C1 C2 00",
        image,
        132,
        "open",
    );
    case.script.write(0, &record).close(0).open(0).read(0, 132);
    case
}

// ---------------------------------------------------------------------------------------------
// The blocking buffer.

/// A name, the rule, and what is tried on two blocked files, the second one full.
const BUFFERS: [(&str, &str, &str); 11] = [
    (
        "write-stays",
        "a write wholly in the held sector leaves the image as it was",
        "open write*3",
    ),
    (
        "write-next-sector",
        "put back before another sector takes it",
        "open write*4",
    ),
    (
        "read-other-sector",
        "put back before another sector takes it",
        "@1 open forward*4 write file-back read",
    ),
    (
        "read-same-sector",
        "takes each sector that it must read or change, unless held already",
        "@1 open forward*4 write back read",
    ),
    (
        "skips-keep",
        "before any order but the record skips",
        "@1 open forward*4 write back*5 forward*2 back",
    ),
    (
        "refused-keeps",
        "a request not answered 0 puts nothing back",
        "@1 open write back back file-back file-forward read:1 write:1 write:0 \
         write:122 get:0 look:0 open read read",
    ),
    (
        "rewind-keeps-bytes",
        "losing the buffer at a rewind",
        "open write*2 rewind read write rewind read*3",
    ),
    (
        "other-file-keeps",
        "gives each open blocked or compressed file a blocking buffer",
        "open write @1 open read*4 write @0 write @1 rewind @0 read",
    ),
    (
        "read-puts-nothing",
        "No byte of such a file's extent changes in the image but by a putting back",
        "@1 open read*9 read rewind read file-back read close",
    ),
    (
        "closed-without",
        "put back ... at close",
        "open write close @1 open write:2 close open read*2",
    ),
    (
        "left-open",
        "put back ... at no other time",
        "open write*5 @1 open forward*3 write*2",
    ),
];

fn buffers() -> Vec<Case> {
    let image = Disk::used(8)
        .file(0, BLOCKED, 120, 3)
        .file(1, BLOCKED, 120, 3)
        .holding(9)
        .flags(MARKED)
        .image();
    BUFFERS
        .map(|(name, rule, words)| case(format!("buffer-{name}"), rule, image.clone(), 120, words))
        .to_vec()
}

/// The held sector is ahead of the place, and changed: file back (2) put nothing back. The last
/// image shows whether the next request put it back.
fn buffers_ahead() -> Vec<Case> {
    let rule = "put back before another sector takes it; a request not answered 0 puts nothing \
                back; it takes each sector that it must read or change, unless held already";
    let states = [
        ("go-on", "chars:132*3 file-back forward*2"),
        ("360", "chars:118*4 file-back forward*3"),
    ];
    let mut cases = Vec::new();
    for (name, words) in states {
        for (q, request) in REQUESTS.iter().enumerate() {
            let image = Disk::used(5).file(0, COMPRESSED, 132, 3).image();
            let name = format!("buffer-ahead-of-{name}-{q:02}");
            cases.push(case(
                name,
                rule,
                image,
                132,
                &format!("open {words} {request}"),
            ));
        }
    }
    cases
}

// ---------------------------------------------------------------------------------------------
// Several files at once, and the limits.

/// A name, the rule, and what is tried on six files of two sectors.
const SEVERAL: [(&str, &str, &str); 4] = [
    (
        "fifth",
        "At most four files are open; 10: a fifth open file",
        "open @3 open @6 open @9 open @12 open read write:2 close @3 close @12 \
         open @3 open @12 write:2 @15 open @12 close @9 close @6 close @0 close \
         @15 open @3 read close",
    ),
    (
        "in-turns",
        "gives each open blocked or compressed file a blocking buffer of 360 bytes",
        "@3 open @6 open @12 open @15 open @3 mixed*2 @6 mixed:36*3 @12 mixed*2 \
         @15 mixed:36 @3 mixed*2 @15 chars:132*2 @6 chars*2 @12 write:36*3 @3 \
         rewind read @6 rewind read*2 @15 rewind read*4 @12 rewind read*6 @3 \
         read*4 @6 read*5 @12 close @15 mark",
    ),
    (
        "left-open",
        "with nothing closed the image of an engine with buffers lags behind",
        "open write*2 @3 open write*4 @9 open put:1 @6 open chars*5 look:0 @9 \
         look:1 @3 read back back read",
    ),
    (
        "slots",
        "each a different used entry",
        "open @3 open @6 open @9 open @3 close @12 open @12 write:36 @6 close \
         @3 open @3 write:2 @15 open @6 open @12 rewind read @0 close @6 open \
         chars:4 @3 close open read @12 close",
    ),
];

fn several_files() -> Vec<Case> {
    let image = Disk::used(14)
        .file(0, UNBLOCKED, 80, 2)
        .file(3, BLOCKED, 100, 2)
        .file(6, COMPRESSED, 80, 2)
        .file(9, RANDOM, 360, 2)
        .file(12, BLOCKED, 36, 2)
        .file(15, COMPRESSED, 132, 2)
        .image();
    SEVERAL
        .map(|(name, rule, words)| case(format!("files-{name}"), rule, image.clone(), 80, words))
        .to_vec()
}

/// Opens and reads some entries of any image.
const KNOCKING: &str = "open read @1 open @17 open look:0 mark @18 open @65535 open close";

/// Reading and writing about the end of a file.
const FAR: &str = "@17 open file-forward read file-back write write back*2 read mark
    rewind read*2 forward file-forward file-back read close open read write close";

/// A name, the rule, kind, R and count of a marked file of 181 sectors of zero bytes, and what is
/// tried on it.
const LIMITS: [(&str, &str, u16, usize, usize, &str); 6] = [
    (
        "blocked-full",
        "181 sectors of 180 records of 2 bytes",
        BLOCKED,
        2,
        32_580,
        FAR,
    ),
    (
        "blocked-one-left",
        "write at p = capacity",
        BLOCKED,
        2,
        32_579,
        FAR,
    ),
    (
        "compressed-full",
        "181 sectors of 360 codes of one byte",
        COMPRESSED,
        2,
        65_160,
        FAR,
    ),
    (
        "compressed-one-left",
        "a coded record due in a sector past the extent",
        COMPRESSED,
        2,
        65_159,
        "@17 open file-forward file-back write blanks blanks read mark file-back blanks mark close",
    ),
    (
        "compressed-over",
        "kind 3's first \"count\" records decode one after another inside the extent",
        COMPRESSED,
        2,
        65_161,
        KNOCKING,
    ),
    (
        "unblocked-far",
        "Record k begins s·k sectors into the extent",
        UNBLOCKED,
        3_600,
        17,
        "@17 open file-forward file-back write:4 write:4 back*2 read*2 read close",
    ),
];

fn limits() -> Vec<Case> {
    let mut cases = Vec::new();
    for (name, rule, kind, r, count, words) in LIMITS {
        let disk = Disk::empty(182).file(17, kind, r, 181);
        let image = disk.codes(count, &[]).flags(MARKED).image();
        cases.push(case(format!("limit-{name}"), rule, image, r, words));
    }
    for n in [1, 2, 3] {
        let rule = "An image is 360·N bytes, N from 1 to 4,096";
        let name = format!("limit-sectors-{n}");
        cases.push(case(name, rule, Disk::empty(n).image(), 80, KNOCKING));
    }
    cases
}
