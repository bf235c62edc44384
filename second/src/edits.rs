//! The cases of document 02's item 1, ADD and DELETE: each has a name, the rule that it tries, an image,
//! maybe a session told otherwise, and a script in the words of `notation.rs`.

use crate::cases::Case;
use crate::damage::{same_names, small_image};
use crate::directory::{BLOCKED, COMPRESSED, ENTRIES, ENTRY_BYTES, MARKED, PROTECTED};
use crate::directory::{RANDOM, UNBLOCKED};
use crate::disk::Disk;
use crate::editing::Asked;
use crate::handmade::Handmade;
use crate::image::{put_word, BLANK};
use crate::layout::granule_capacity;
use crate::notation::script;
use crate::play::play;
use crate::script::Script;
use crate::session::{Engine, MOST_OPEN};
use crate::stored::{BEYOND, ENTRY, POSITION};

/// The cases, those on images of the same length one behind another: most of these images are then told
/// by some few patches.
pub fn edit_cases() -> Vec<Case> {
    let mut cases = [
        orders_of_refusal(),
        refusals_together(),
        names(),
        lengths(),
        kinds(),
        sector_counts(),
        lowest_entries(),
        gaps(),
        deletes(),
        replaced(),
        fresh_files(),
        while_open(),
        words_of_rows(),
        refused_mountings(),
        bytes_of_mountings(),
        other_tables(),
    ]
    .concat();
    cases.sort_by_key(|case| case.image.len());
    cases
}

fn case(name: impl Into<String>, rule: &'static str, image: Vec<u8>, words: &str) -> Case {
    Case::new(name, rule, image, script(LONGEST, words))
}

/// The case on a session that is told otherwise.
fn on(case: Case, made: &Handmade) -> Case {
    case.with_sessions(made.patches())
}

/// The longest R of most images here, so that a read's buffer is never too short by chance.
const LONGEST: usize = 400;

/// Every kind and a length of it.
const KINDS: [(u16, usize); 4] = [
    (UNBLOCKED, 380),
    (BLOCKED, 100),
    (COMPRESSED, 80),
    (RANDOM, 200),
];

// ---------------------------------------------------------------------------------------------
// Images.

/// Four files of twelve sectors, entries 0, 1, 3 and 17; sectors 4, 8, 9 and 11 are free.
fn four_files() -> Vec<u8> {
    Disk::used(12)
        .file(0, BLOCKED, 100, 3)
        .holding(4)
        .flags(MARKED)
        .gap(1)
        .file(1, COMPRESSED, 80, 2)
        .holding(3)
        .file(3, RANDOM, 200, 1)
        .flags(PROTECTED)
        .gap(2)
        .file(17, UNBLOCKED, 80, 1)
        .holding(1)
        .flags(MARKED | PROTECTED)
        .image()
}

/// Files of one sector from sector 1 on in all entries but these, and four sectors behind them.
fn full_but(free: &[usize]) -> Vec<u8> {
    let disk = (0..ENTRIES).filter(|number| !free.contains(number));
    disk.fold(Disk::used(ENTRIES + 5), |disk, number| {
        disk.file(number, BLOCKED, 100, 1)
    })
    .image()
}

/// A picture of the sectors from 1 on: a point is a free one, and letters are files, A that of entry 0.
pub fn pictured(picture: &str) -> Vec<u8> {
    let mut disk = Disk::used(1 + picture.len());
    let mut rest = picture;
    while let Some(letter) = rest.chars().next() {
        let left = rest.trim_start_matches(letter);
        let sectors = rest.len() - left.len();
        disk = match letter {
            '.' => disk.gap(sectors),
            _ => disk.file(letter as usize - 'A' as usize, BLOCKED, 120, sectors),
        };
        rest = left;
    }
    disk.image()
}

// ---------------------------------------------------------------------------------------------
// The order of refusals.

const ORDER: &str = "after 12, ... ADD gives 11 on a session from a refused mounting, 13 bad name, 17 bad \
                     kind, length or sector count 0, 14 name in use, 15 no free entry, 16 no gap, in that \
                     order";

/// What makes ADD give an answer, with names for the ways there are.
const CAUSES: [(u8, &str); 13] = [
    (12, "state"),
    (12, "table"),
    (11, "refused"),
    (13, "digit"),
    (13, "nine"),
    (13, "seven"),
    (17, "kind"),
    (17, "no-kind"),
    (17, "length"),
    (17, "no-sector"),
    (14, "used"),
    (15, "full"),
    (16, "many"),
];

/// One of them alone, and two at once.
fn orders_of_refusal() -> Vec<Case> {
    let mut cases = Vec::new();
    for (i, &(answer, way)) in CAUSES.iter().enumerate() {
        cases.extend(caused(format!("add-{answer}-{way}"), &[way]));
        for &(later, other) in &CAUSES[i + 1..] {
            if later != answer {
                let name = format!("add-{answer}-{way}-before-{later}-{other}");
                cases.extend(caused(name, &[way, other]));
            }
        }
    }
    cases
}

/// The case in which these causes hold, if they can hold together. What is asked for is refused; then the
/// file is asked for as it should be, and what there is deleted.
fn caused(name: String, ways: &[&str]) -> Option<Case> {
    let has = |way: &str| ways.contains(&way);
    let impossible = has("refused") && (has("used") || has("full") || has("nine"))
        || has("no-sector") && has("many")
        || has("used") && (has("digit") || has("seven") || has("nine"));
    if impossible {
        return None;
    }
    let image = if has("full") {
        full_but(&[])
    } else {
        four_files()
    };
    let mut made = Handmade::mounted(&image);
    if has("refused") {
        made = made.without_files().refused(1);
    }
    if has("state") {
        made = made.open(2, ENTRIES);
    }
    if has("table") {
        made = made.word(16, 8, 5);
    }
    let name_asked = match ways {
        _ if has("digit") => "add:1NEW",
        _ if has("seven") => "hex:D5C5E640404040",
        _ if has("nine") => "hex:C6C9D3C5F040404040", // FILE0 and a blank too many
        _ if has("used") => "add:FILE0",
        _ => "add:NEW",
    };
    let kind = match ways {
        _ if has("kind") => 5,
        _ if has("no-kind") => 0,
        _ => BLOCKED,
    };
    let length = if has("length") { 362 } else { 100 };
    let sectors = match ways {
        _ if has("no-sector") => 0,
        _ if has("many") => 65_535,
        _ => 1,
    };
    let words = format!(
        "{name_asked}:{kind}:{length}:{sectors} @2 open add:NEW:2:100:1 open write:2 close
         @0 delete @1 delete"
    );
    Some(on(case(name, ORDER, image, &words), &made))
}

/// Every name with every shape and number of sectors, on every sort of session.
fn refusals_together() -> Vec<Case> {
    let names = [
        "add:NEW",
        "add:1NEW",
        "hex:",
        "hex:C6C9D3C5F040404040",
        "add:FILE0",
        "add:FILE17",
    ];
    let shapes = [
        "2:100", "0:100", "5:100", "2:0", "2:99", "2:362", "3:134", "1:3602",
    ];
    let mut words = String::new();
    for name in names {
        for shape in shapes {
            for sectors in [0, 5, 65_535] {
                words += &format!("{name}:{shape}:{sectors} ");
            }
        }
    }
    words += "add:NEW:2:100:1 @2 open";
    let mut cases = Vec::new();
    for (name, image) in [("four", four_files()), ("full", full_but(&[]))] {
        let mounted = Handmade::mounted(&image);
        for (state, made) in [
            ("mounted", mounted.clone()),
            ("open", mounted.clone().open(0, 0).open(3, 1)),
            ("not-legal", mounted.clone().open(0, 18)),
            ("refused", mounted.clone().without_files().refused(1)),
            ("said-refused", mounted.refused(1)),
        ] {
            let name = format!("add-refusals-{name}-{state}");
            cases.push(on(case(name, ORDER, image.clone(), &words), &made));
        }
    }
    cases
}

// ---------------------------------------------------------------------------------------------
// Names.

const NAMES: &str =
    "13 bad name: a name is a capital letter (C1–C9, D1–D9, E2–E9) followed by capitals or \
                     digits (F0–F9), then only blanks";
const IN_USE: &str = "14 name in use: all eight bytes, by a used entry";

fn names() -> Vec<Case> {
    let mut cases = lengths_of_names();
    cases.extend(letters_of_names());
    let empty = Disk::used(12).image();
    for (name, told) in [
        ("one-letter", "add:A"),
        ("eight-letters", "add:ABCDEFGH"),
        ("eight-with-digits", "add:Z9876543"),
        ("blank-inside", "add:A.B"),
        ("blank-seventh", "add:ABCDEF.H"),
        ("blank-first", "add:.ABC"),
        ("blanks", "add:........"),
        ("zeros", "hex:0000000000000000"),
        ("zero-behind", "hex:C1C2C34040404000"),
        ("zero-for-blanks", "hex:C1C2C30000000000"),
        ("zero-inside", "hex:C100C24040404040"),
        ("digit-first", "add:7ABC"),
        ("digits", "add:12345678"),
        ("ascii", "hex:4142432020202020"),
        ("small-letters", "hex:8182838440404040"),
        ("point", "hex:C14BC24040404040"),
    ] {
        let words = format!("{told}:2:100:2 @0 open write:2 close {told}:2:100:2 add:OTHER:1:80:1");
        cases.push(case(
            format!("add-name-{name}"),
            NAMES,
            empty.clone(),
            &words,
        ));
    }
    cases.extend(names_in_use());
    cases
}

/// Names that are not of eight bytes; the bytes are used up all the same.
fn lengths_of_names() -> Vec<Case> {
    let mut cases = Vec::new();
    for length in [0, 1, 7, 9, 16, 255, 264, 65_535] {
        let mut name = vec![BLANK; length];
        for (to, letter) in name.iter_mut().zip([0xD5, 0xC5, 0xE6]) {
            *to = letter;
        }
        let mut told = script(100, "@2 open");
        told.add(&Asked {
            name: &name,
            kind: BLOCKED,
            length: 100,
            sectors: 1,
        });
        let mut next = script(100, "@2 open add:NEXT:2:R:1 open write:2 read:R close");
        told.rows.append(&mut next.rows);
        told.bytes.append(&mut next.bytes);
        let name = format!("add-name-of-{length}");
        cases.push(Case::new(name, NAMES, four_files(), told));
    }
    cases
}

/// The limits of the letters and digits, at every place of a name.
fn letters_of_names() -> Vec<Case> {
    const EDGES: [u8; 20] = [
        0x00, 0x3F, 0x40, 0x41, 0x81, 0xC0, 0xC1, 0xC9, 0xCA, 0xD0, 0xD1, 0xD9, 0xDA, 0xE1, 0xE2,
        0xE9, 0xEA, 0xF0, 0xF9, 0xFA,
    ];
    let mut cases = Vec::new();
    for (place, behind) in [
        (0, 0xC1),
        (1, 0xC1),
        (1, BLANK),
        (4, 0xF0),
        (7, 0),
        (0, BLANK),
    ] {
        let mut words = String::new();
        for edge in EDGES {
            let letters = (0..8).map(|at| match at {
                at if at == place => edge,
                at if at < place => 0xC1,
                _ => behind,
            });
            let name: String = letters.map(|byte| format!("{byte:02X}")).collect();
            words += &format!("hex:{name}:4:80:1 @0 delete ");
        }
        words += "hex:E9F9F0C1D1E2C9D9:4:80:1";
        let name = format!("add-letters-{place}-{behind:02x}");
        let image = Disk::used(12).image();
        cases.push(case(name, NAMES, image, &words));
    }
    cases
}

fn names_in_use() -> Vec<Case> {
    let twelve = |name: &str| {
        Disk::used(12)
            .file(4, BLOCKED, 100, 1)
            .named(name)
            .file(9, UNBLOCKED, 80, 1)
            .named("ABCDEFG1")
            .image()
    };
    let mut cases = Vec::new();
    for (name, used, words) in [
        ("closed", "LOG", "add:LOG:2:100:1 add:LOH:2:100:1 add:LOH:1:80:1"),
        ("open", "LOG", "@4 open add:LOG:2:100:1 close add:LOG:2:100:1"),
        ("longer", "LOG", "add:LOGS:2:100:1 add:LOGSLOGS:2:100:1"),
        ("shorter", "LOG", "add:LO:2:100:1 add:L:2:100:1"),
        ("last-letter", "LOG", "add:ABCDEFG2:2:100:1 add:ABCDEFG1:2:100:1 add:ABCDEFG:2:100:1"),
        ("first-letter", "LOG", "add:MOG:2:100:1 add:LOG:2:100:1"),
        ("just-added", "LOG", "add:TWO:2:100:1 add:TWO:2:100:1 add:TWO:1:80:1 @0 open read"),
        ("deleted", "LOG", "@4 delete add:LOG:3:80:2 open @0 open write:2 close add:LOG:3:80:2"),
        ("deleted-other", "LOG", "@9 delete add:LOG:3:80:2 add:ABCDEFG1:3:80:2 add:ABCDEFG1:3:80:2"),
        ("moved", "LOG", "add:A:2:100:1 @4 delete add:LOG:2:100:1 add:A:2:100:1 @0 delete add:A:2:100:1 add:LOG:4:2:1"),
    ] {
        let name = format!("add-in-use-{name}");
        cases.push(case(name, IN_USE, twelve(used), words));
    }
    cases
}

// ---------------------------------------------------------------------------------------------
// Kinds, lengths and sector counts.

const SHAPE: &str =
    "17 bad kind, length or sector count 0: R is even and 2 to 3,600 for kinds 1 and 4, 2 to \
                     360 for kind 2, 2 to 132 for kind 3";

/// The limits of each kind, those of the others, and lengths that no kind has.
const LENGTHS: [(u16, &[usize]); 4] = [
    (
        UNBLOCKED,
        &[
            0, 1, 2, 3, 4, 361, 362, 3_599, 3_600, 3_601, 3_602, 65_534, 65_535,
        ],
    ),
    (
        BLOCKED,
        &[0, 1, 2, 3, 134, 359, 360, 361, 362, 3_600, 65_534],
    ),
    (
        COMPRESSED,
        &[0, 1, 2, 3, 131, 132, 133, 134, 136, 360, 3_600, 65_534],
    ),
    (
        RANDOM,
        &[
            0, 1, 2, 3, 361, 362, 3_599, 3_600, 3_601, 3_602, 65_534, 65_535,
        ],
    ),
];

fn lengths() -> Vec<Case> {
    let mut cases = Vec::new();
    for (kind, lengths) in LENGTHS {
        cases.extend(lengths.iter().map(|&r| length_case(kind, r)));
    }
    cases
}

/// A file of this length, in eleven sectors, written, read and closed.
fn length_case(kind: u16, r: usize) -> Case {
    let used = if r > 4_000 { 2 } else { r };
    let words = format!(
        "add:FULL:{kind}:{r}:11 @0 open read:4000 write:2 write:{used} back look:0 put:0:2 put:0:{used} get:0:4000
         look:1 rewind read:{used} read:4000 mark close open read:{used} get:0:4000 close add:MORE:2:2:1"
    );
    let name = format!("add-kind{kind}-r{r}");
    let image = Disk::used(12).image();
    case(name, SHAPE, image, &words)
}

fn kinds() -> Vec<Case> {
    let mut cases = Vec::new();
    for kind in [
        0, 1, 2, 3, 4, 5, 6, 255, 256, 257, 260, 32_768, 32_770, 65_535,
    ] {
        let words = format!(
            "add:NEW:{kind}:80:1 add:NEWER:{kind}:2:1 @0 open write:2 put:0:2 close add:LAST:2:80:1"
        );
        let image = Disk::used(12).image();
        cases.push(case(format!("add-kind-{kind}"), SHAPE, image, &words));
    }
    cases
}

const ROOM: &str =
    "refused for room exactly when no run of that many free sectors exists in 1 to N − 1";

/// Images of N sectors, with nothing in them.
fn sector_counts() -> Vec<Case> {
    let mut cases = Vec::new();
    for n in [1, 2, 3, 12, 182] {
        let mut counts = vec![0, 1, 2, n.max(3) - 2, n - 1, n, n + 1, 4_095, 65_535];
        if n == 12 {
            counts.extend([256, 257, 4_096, 32_768, 65_525, 65_534]);
        }
        for sectors in counts {
            let name = format!("add-sectors-{sectors}-of-{n}");
            if cases.iter().any(|case: &Case| case.name == name) {
                continue;
            }
            let words = format!(
                "add:ALL:4:360:{sectors} @0 open look:0 look:{} put:0:360 close add:ONE:2:100:1 @1 open
                 write:2 close @0 delete add:ALL:2:360:{sectors}",
                sectors.max(1) - 1
            );
            cases.push(case(name, ROOM, Disk::used(n).image(), &words));
        }
    }
    cases
}

// ---------------------------------------------------------------------------------------------
// The lowest entry and the lowest gap.

fn lowest_entries() -> Vec<Case> {
    let rule = "picks the lowest entry; 15 no free entry";
    let mut cases = Vec::new();
    for free in 0..ENTRIES {
        let words = format!(
            "add:NEW:2:100:1 @{free} open write:2 close add:NEXT:2:100:1 @{free} delete add:NEXT:1:80:2"
        );
        let name = format!("add-entry-{free}-alone");
        cases.push(case(name, rule, full_but(&[free]), &words));
    }
    for (name, free) in [
        ("first-and-last", &[0, 17][..]),
        ("two", &[5, 6]),
        ("even", &[0, 2, 4, 6, 8, 10, 12, 14, 16]),
        ("last-three", &[15, 16, 17]),
    ] {
        let asked: String = (0..=free.len())
            .map(|k| format!("add:N{k}:{}:80:1 ", k % 4 + 1))
            .collect();
        let words = format!(
            "{asked} @{} delete add:AGAIN:2:80:1 add:MORE:2:80:1",
            free[1]
        );
        let name = format!("add-entry-{name}");
        cases.push(case(name, rule, full_but(free), &words));
    }
    for (name, deleted) in [("17", 17), ("0", 0), ("9", 9)] {
        let words = format!(
            "add:NEW:2:100:1 add:NEW:2:100:65535 @{deleted} delete add:NEW:2:100:65535 add:NEW:2:100:1 add:LAST:2:100:1
             add:NEW:2:100:1 @{deleted} open read"
        );
        let name = format!("add-entry-full-{name}");
        cases.push(case(name, rule, full_but(&[]), &words));
    }
    let all: String = (0..20)
        .map(|k| format!("add:F{k}:{}:{}:1 ", k % 4 + 1, 2 * k + 2))
        .collect();
    let image = Disk::used(22).image();
    let words = format!(
        "{all} @7 delete @3 delete add:X:2:2:1 add:Y:2:2:1 add:Z:2:2:1 @3 open write:2 close"
    );
    cases.push(case("add-entry-all", rule, image, &words));
    cases
}

/// Pictures of the sectors from 1 on, and the sector counts that are asked for one behind another.
const PICTURES: [(&str, &[usize]); 30] = [
    ("...........", &[11, 1]),
    ("...........", &[10, 1, 1]),
    ("...........", &[3, 4, 5, 4, 1]),
    ("A..........", &[10, 1]),
    ("A..........", &[11]),
    ("..........A", &[10, 1]),
    ("..........A", &[11]),
    (".A.........", &[1, 9, 1]),
    (".A.........", &[2, 1, 7]),
    (".........A.", &[9, 1, 1]),
    (".........A.", &[1, 9, 8, 1]),
    ("...A.B.....", &[1, 1, 1, 1]),
    ("...A.B.....", &[4, 3, 1]),
    (".....A...B.", &[1, 3, 4, 3]),
    (".....A...B.", &[3, 3, 2, 1, 1]),
    ("A..B...C...", &[3, 3, 2, 1]),
    ("A..B...C...", &[4]),
    ("A..B..C...D", &[3, 2, 2, 1]),
    ("A.B.C.D.E.F", &[2, 1, 1, 1, 1, 1, 1]),
    (".F.E.D.C.B.", &[2, 1, 1, 1, 1, 1, 1, 1]),
    ("CCC..BB..AA", &[2, 2, 1]),
    ("..CC..AA..B", &[3, 2, 2, 2]),
    ("B.....A....", &[4, 1, 4, 1]),
    ("AAAAAAAAAAA", &[1]),
    ("AAAAABBBBBB", &[1, 65_535]),
    ("R.........Q", &[9, 1]),
    ("R.........Q", &[10]),
    (".AAA.BBB..C", &[2, 1, 1]),
    ("..AAA.BB...", &[3, 2, 1, 1]),
    ("A...B..C.DE", &[1, 2, 3, 1]),
];

const GAP: &str =
    "picks ... the lowest gap that holds the extent; no run of that many free sectors exists in \
                   1 to N − 1";

fn gaps() -> Vec<Case> {
    let mut cases = Vec::new();
    for (number, (picture, counts)) in PICTURES.into_iter().enumerate() {
        let mut words = String::new();
        for (k, sectors) in counts.iter().enumerate() {
            words += &format!("add:NEW{k}:{}:{}:{sectors} ", BLOCKED, 100 + 20 * (k % 3));
        }
        let name = format!("add-gap-{number:02}");
        cases.push(case(name.clone(), GAP, pictured(picture), &words));
        // The first of them is used, and what was there is deleted and asked for again.
        let entry = (0..ENTRIES).find(|&e| !picture.contains((b'A' + e as u8) as char));
        let lowest = picture.bytes().filter(|&b| b != b'.').min();
        let old = lowest.map_or(1, |b| b - b'A');
        let again = counts[counts.len() - 1];
        let words = format!(
            "add:USED:4:360:{} @{} open look:0 put:0:2 look:1 close @{old} delete add:LATE:4:360:{again}
             @{old} open look:0 close add:LATER:2:100:1",
            counts[0],
            entry.unwrap_or(0),
        );
        cases.push(case(format!("{name}-used"), GAP, pictured(picture), &words));
    }
    cases
}

// ---------------------------------------------------------------------------------------------
// DELETE.

const DELETE: &str =
    "DELETE zeroes the entry of a file not open, protected or not; its sectors are free again";

fn deletes() -> Vec<Case> {
    let mut cases = Vec::new();
    for (kind, r) in KINDS {
        for flags in [0, MARKED, PROTECTED, MARKED | PROTECTED] {
            if kind == RANDOM && flags & MARKED != 0 {
                continue;
            }
            let image = Disk::used(12)
                .file(2, BLOCKED, 90, 2)
                .file(5, kind, r, 4)
                .holding(if kind == RANDOM { 0 } else { 2 })
                .flags(flags)
                .file(6, UNBLOCKED, 80, 1)
                .image();
            let words = "@5 delete delete open read @2 open write:2 close @6 open write:2 close
                add:NEW:2:100:4 add:NEWER:2:100:5 @0 open write:2 close";
            let name = format!("delete-kind{kind}-flags{flags}");
            cases.push(case(name, DELETE, image, words));
        }
    }
    let rule = "DELETE gives 8 then 9 if open";
    for (name, words) in [
        ("free", "@2 delete @16 delete @4 delete"),
        ("twice", "@0 delete delete @1 delete delete"),
        (
            "past",
            "@18 delete @19 delete @20 delete @255 delete @256 delete @257 delete @65535 delete",
        ),
        (
            "open",
            "@0 open delete read delete close delete open delete",
        ),
        (
            "open-compressed",
            "@1 open read delete text:AB delete close delete",
        ),
        ("open-random", "@3 open look:0 delete close delete look:0"),
        (
            "open-protected",
            "@17 open delete file-forward delete close delete",
        ),
        (
            "open-beyond",
            "@0 open file-forward delete file-back delete close delete open",
        ),
        (
            "others-open",
            "@0 open write:2 @1 open text:AB @3 delete @17 delete @1 delete @0 delete close delete",
        ),
        (
            "all",
            "@0 delete @1 delete @3 delete @17 delete delete @0 open add:NEW:2:100:11 open read",
        ),
        (
            "opened-again",
            "@0 open write:2 close open close delete add:FILE0:2:100:3 @0 open read write:2",
        ),
        (
            "last",
            "@17 delete add:FILE17:1:80:1 @17 open @2 open write:2 close",
        ),
    ] {
        cases.push(case(format!("delete-{name}"), rule, four_files(), words));
    }
    cases
}

/// A file of every kind is written, closed and deleted, and one of every kind added in its sectors.
fn replaced() -> Vec<Case> {
    let rule = "its sectors are free again for the next ADD; a random file that is added shows what lies in \
                its sectors, a deleted file's bytes too";
    let mut cases = Vec::new();
    for (old, r) in KINDS {
        for (new, new_r) in [
            (UNBLOCKED, 362),
            (BLOCKED, 182),
            (COMPRESSED, 132),
            (RANDOM, 360),
        ] {
            let image = Disk::used(12)
                .file(0, BLOCKED, 90, 2)
                .file(1, old, r, 5)
                .holding(if old == RANDOM { 0 } else { 1 })
                .image();
            let written = if old == RANDOM {
                format!("put:0:{r} put:3:{r} put:1:20")
            } else {
                format!("read write:{r} mixed:{r} chars:{r} write:20 mark")
            };
            let words = format!(
                "@1 open {written} close delete add:NEW:{new}:{new_r}:5 open look:0 look:1 look:2 look:3
                 look:4 look:5 get:3 read write:{new_r} mixed:{new_r} put:4:2 look:4 rewind read*3 mark
                 close open read*3 get:0 close"
            );
            let name = format!("delete-{old}-add-{new}");
            cases.push(case(name, rule, image.clone(), &words));
            let words = format!(
                "@1 open {written} @0 open write:90 @1 close delete add:SMALL:{new}:{new_r}:2 add:LARGE:{RANDOM}:720:3
                 @2 open look:0 look:1 @1 open look:0 read write:2 rewind read @0 close @1 close @2 look:0 get:1:720
                 close"
            );
            let name = format!("delete-{old}-add-{new}-split");
            cases.push(case(name, rule, image, &words));
        }
    }
    cases
}

/// An added file of every kind, from its first record to its last, between others.
fn fresh_files() -> Vec<Case> {
    let rule = "starts with count and flags 0; Capacity may be 0";
    let mut cases = Vec::new();
    for (kind, r) in KINDS.into_iter().chain([
        (UNBLOCKED, 2),
        (UNBLOCKED, 3_600),
        (BLOCKED, 360),
        (COMPRESSED, 2),
        (RANDOM, 2),
        (RANDOM, 3_600),
    ]) {
        let past = match kind {
            RANDOM => granule_capacity(r, 2).max(2),
            _ => 2,
        };
        let words = format!(
            "add:NEW:{kind}:{r}:2 @2 open read:4000 forward back file-forward file-back rewind look:0 look:1 look:{past}
             get:0:4000 put:1:{r} get:1:4000 write:{r} mixed:{r} chars:{r} write:1 write:{} read:4000 rewind
             read:{r}*4 mark read:4000 file-back write:2 close open read:4000*3 close
             @0 open read*2 @17 open read @1 open read @2 open @3 open @2 delete close delete open",
            r + 2
        );
        let image = Disk::used(12)
            .file(0, BLOCKED, 100, 3)
            .holding(4)
            .gap(2)
            .file(1, COMPRESSED, 80, 2)
            .holding(3)
            .gap(1)
            .file(17, UNBLOCKED, 80, 1)
            .holding(1)
            .image();
        let name = format!("add-fresh-kind{kind}-r{r}");
        cases.push(case(name, rule, image, &words));
    }
    cases
}

// ---------------------------------------------------------------------------------------------
// While files are open.

/// What is written before, with some files open; the image behind it shows that nothing was put back.
fn while_open() -> Vec<Case> {
    let rule = "Both change that one directory entry and no other byte";
    let before = "@0 open read write:100 @1 open read text:SOME";
    let mut cases = Vec::new();
    for (name, words) in [
        ("add", "add:NEW:2:100:1"),
        (
            "add-and-open",
            "add:NEW:2:100:1 @2 open write:2 @0 read back read",
        ),
        ("delete", "@3 delete"),
        (
            "delete-and-add",
            "@17 delete add:NEW:3:80:1 add:NEWER:4:360:1",
        ),
        (
            "refused",
            "add:NEW:2:101:1 add:FILE0:2:100:1 @0 delete @1 delete add:NEW:2:100:9",
        ),
        (
            "then-closed",
            "add:NEW:2:100:1 @3 delete @0 close @1 close @2 open read close",
        ),
        (
            "then-rewound",
            "@3 delete add:NEW:4:360:2 @0 rewind read*3 @1 rewind read*2",
        ),
        (
            "marked",
            "@0 mark add:NEW:4:360:2 @3 delete @0 read file-back write:2 close",
        ),
    ] {
        let words = format!("{before} {words}");
        cases.push(case(
            format!("edit-open-{name}"),
            rule,
            four_files(),
            &words,
        ));
    }
    let four = "@0 open write:100 @1 open text:SOME @3 open look:0 @17 open read";
    for (name, words) in [
        ("add", "add:NEW:2:100:1 @2 open"),
        ("add-all-kinds", "add:A:1:80:1 add:B:2:80:1 add:C:3:80:1 add:D:4:80:1 add:E:4:80:1 @2 open @4 open"),
        ("delete", "@5 delete @2 delete"),
        ("add-and-delete", "add:NEW:2:100:1 @2 delete @2 delete add:NEW:3:80:2 @2 open @0 close @2 open text:AB close open read"),
        ("delete-open", "@0 delete @1 delete @3 delete @17 delete"),
        ("closed", "add:NEW:2:100:1 @0 close @1 close @3 close @17 close @0 delete @2 open write:2 close"),
    ] {
        let words = format!("{four} {words}");
        let name = format!("edit-four-open-{name}");
        cases.push(case(name, "neither is stopped by four open files", four_files(), &words));
    }
    let words = "@3 open write:100 @0 open write:2 @9 open read @17 open write:100 @8 delete @10 delete @3 delete
        add:NEW:2:100:1 add:NEWER:4:360:3 @8 open @10 delete @3 close @10 open";
    let image = full_but(&[]);
    let rule = "neither is stopped by four open files";
    cases.push(case("edit-four-open-of-eighteen", rule, image, words));
    cases.extend(buffers());
    cases
}

/// A session whose open files hold sectors unlike the image.
fn buffers() -> Vec<Case> {
    let rule = "Both change that one directory entry and no other byte";
    let mut cases = Vec::new();
    for changed in [false, true] {
        let image = four_files();
        let made = Handmade::mounted(&image)
            .open(1, 0)
            .holding(1, 2, changed)
            .buffer(1, 0, &[0xE7; 360])
            .open(3, 1)
            .holding(3, 0, changed)
            .buffer(3, 0, &[0; 360])
            .count(0, 6)
            .set(1, POSITION, 6)
            .set(1, BEYOND, 1);
        let state = if changed { "changed" } else { "unchanged" };
        for (name, words) in [
            ("add", "add:NEW:2:100:1"),
            ("delete", "@17 delete @3 delete"),
            (
                "both",
                "@17 delete add:NEW:4:360:1 @2 open look:0 @1 read @0 file-back close",
            ),
        ] {
            let name = format!("edit-buffer-{state}-{name}");
            cases.push(on(case(name, rule, image.clone(), words), &made));
        }
    }
    cases
}

// ---------------------------------------------------------------------------------------------
// Rows.

/// Words that are not looked at.
fn words_of_rows() -> Vec<Case> {
    let rule = "word 5 is not looked at; words 2 to 5 are not looked at";
    let asked = |name| Asked {
        name,
        kind: BLOCKED,
        length: 100,
        sectors: 1,
    };
    let new = [0xD5, 0xC5, 0xE6, BLANK, BLANK, BLANK, BLANK, BLANK];
    let old = [0xC6, 0xC9, 0xD3, 0xC5, 0xF0, BLANK, BLANK, BLANK];
    let mut told = Script::default();
    told.add(&asked(&new)).with_words(5, [65_535]);
    told.add(&asked(&old)).with_words(5, [1]);
    told.open(2).with_words(2, [9, 9, 9, 9]);
    told.delete(2).with_words(2, [1, 2, 3, 4]);
    told.write(2, &[1, 2]).with_words(4, [7, 8]);
    told.close(2).with_words(2, [65_535; 4]);
    told.delete(2).with_words(2, [65_535; 4]);
    told.delete(2).with_words(2, [8, 100, 1, 0]);
    told.delete(18).with_words(2, [0, 0, 0, 1]);
    told.open(0).delete(0).with_words(2, [2, 2]).close(0);
    vec![Case::new("edit-words", rule, four_files(), told)]
}

// ---------------------------------------------------------------------------------------------
// Refused mountings, and what a session says of its own.

const REFUSED: &str =
    "ADD gives 11 on a session from a refused mounting; all else 8, or 12 where the length \
                       is wrong";

const ALL_REQUESTS: &str = "add:NEW:2:100:1 @0 delete @1 delete @17 delete @18 delete add:1BAD:2:100:1
    add:NEW:5:100:1 add:NEW:2:0:0 add:NEW:2:100:65535 hex::2:100:1 @0 open read write:2 get:0 put:0:2 look:0
    mark rewind close forward back file-forward file-back add:ALPHA:2:100:1";

fn refused_mountings() -> Vec<Case> {
    let mut cases = Vec::new();
    for (name, entry, at, word) in [
        ("kind-5", 0, 8, 5),
        ("length-0", 1, 10, 0),
        ("free-count", 9, 16, 1),
        ("bad-code", 2, 16, 9),
        ("shared", 3, 12, 1),
    ] {
        let mut image = small_image();
        put_word(&mut image, entry * ENTRY_BYTES + at, word);
        cases.push(case(
            format!("edit-refused-{name}"),
            REFUSED,
            image.clone(),
            ALL_REQUESTS,
        ));
        // The same, and the session does not say so: an empty table, in which a file may be added.
        let made = Handmade::mounted(&image).refused(0);
        let name = format!("edit-refused-{name}-not-said");
        cases.push(on(case(name, REFUSED, image, ALL_REQUESTS), &made));
    }
    let image = same_names(small_image());
    cases.push(case("edit-refused-names", REFUSED, image, ALL_REQUESTS));
    let mut one = Disk::empty(1).image();
    cases.push(case("edit-one-sector", ROOM, one.clone(), ALL_REQUESTS));
    one[0] = 1;
    cases.push(case("edit-refused-one-sector", REFUSED, one, ALL_REQUESTS));
    for length in [0, 1, 359, 361, 719, 3_961] {
        let mut image = small_image();
        image.resize(length, 0);
        let told = case(
            format!("edit-length-{length}"),
            REFUSED,
            image.clone(),
            ALL_REQUESTS,
        );
        let made = Handmade::mounted(&image).refused(0);
        let name = format!("edit-length-{length}-not-said");
        cases.push(told);
        cases.push(on(case(name, REFUSED, image, ALL_REQUESTS), &made));
    }
    cases
}

const SAYS: &str =
    "The session from a refused mounting says that it is one, and if it says so with a used \
                    entry or an open file it falls under 12";

/// The byte in every value, on sessions with and without files.
fn bytes_of_mountings() -> Vec<Case> {
    let words =
        "add:NEW:2:100:1 @2 open write:2 close @0 open read close delete @1 delete @5 delete
        add:NEXT:4:360:1 @0 open look:0";
    let image = four_files();
    let mounted = Handmade::mounted(&image);
    let empty = mounted.clone().without_files();
    let lone = |number: usize| {
        let bytes = Handmade::mounted(&image).buffered()[number * 22..number * 22 + 22].to_vec();
        empty.clone().table(number, 0, &bytes)
    };
    let rubbish = (0..MOST_OPEN).fold(empty.clone(), |made, slot| {
        made.set(slot, ENTRY, 18)
            .set(slot, POSITION, 70_000)
            .set(slot, BEYOND, 1)
            .holding(slot, 999, true)
    });
    let mut cases = Vec::new();
    let mut push = |name: String, made: Handmade| {
        cases.push(on(case(name, SAYS, image.clone(), words), &made));
    };
    for (name, made) in [
        ("mounted", mounted.clone()),
        ("open", mounted.clone().open(0, 1)),
        ("last-open", mounted.clone().open(3, 17)),
        ("empty", empty.clone()),
        ("first-file", lone(0)),
        ("last-file", lone(17)),
        ("last-file-open", lone(17).open(3, 17)),
        ("free-open", empty.clone().open(0, 2)),
        ("free-last-open", empty.clone().open(3, 16)),
        ("entry-18-open", empty.clone().open(1, 18)),
        ("rubbish", rubbish),
        ("free-not-zero", empty.clone().word(4, 12, 1)),
    ] {
        push(format!("session-says-0-{name}"), made.clone().refused(0));
        push(format!("session-says-1-{name}"), made.clone().refused(1));
        push(format!("session-says-2-{name}"), made.refused(2));
    }
    for value in [3, 4, 16, 64, 127, 128, 129, 254, 255] {
        push(
            format!("session-says-{value}"),
            mounted.clone().refused(value),
        );
        push(
            format!("session-says-{value}-empty"),
            empty.clone().refused(value),
        );
    }
    cases.extend(of_one_engine(&image));
    cases.extend(said_on_damage(words));
    cases
}

/// One engine's session alone says so.
fn of_one_engine(image: &[u8]) -> Vec<Case> {
    let words = "add:NEW:2:100:1 @0 open read";
    let [plain, buffered] = Handmade::mounted(image).refused(1).patches();
    let told = |name: &str| case(name, SAYS, image.to_vec(), words);
    vec![
        told("session-says-plain-alone").with_sessions([plain, Vec::new()]),
        told("session-says-buffered-alone").with_sessions([Vec::new(), buffered]),
    ]
}

/// The mounting is refused, and its session gets files or an open state.
fn said_on_damage(words: &str) -> Vec<Case> {
    let good = four_files();
    let mut image = good.clone();
    put_word(&mut image, 3 * ENTRY_BYTES + 18, 1);
    let entry = |number: usize| {
        let mounted = Handmade::mounted(&good);
        mounted.buffered()[number * 22..number * 22 + 22].to_vec()
    };
    let refused = Handmade::mounted(&image);
    let mut cases = Vec::new();
    for (name, made) in [
        ("nothing", refused.clone()),
        ("file", refused.clone().table(0, 0, &entry(0))),
        (
            "file-open",
            refused.clone().table(0, 0, &entry(0)).open(0, 0),
        ),
        ("open", refused.clone().open(2, 0)),
        (
            "all-files",
            [0, 1, 3, 17].into_iter().fold(refused, |made, number| {
                made.table(number, 0, &entry(number))
            }),
        ),
    ] {
        let told = case(
            format!("session-damaged-{name}"),
            SAYS,
            image.clone(),
            words,
        );
        cases.push(on(told, &made));
        let told = case(
            format!("session-damaged-{name}-0"),
            SAYS,
            image.clone(),
            words,
        );
        cases.push(on(told, &made.refused(0)));
    }
    cases
}

// ---------------------------------------------------------------------------------------------
// Tables unlike the directory.

/// Requests go by the table, and never read sector 0.
fn other_tables() -> Vec<Case> {
    let rule = "Requests go by the session's table, ... and never read sector 0; ADD stores all 20 bytes of its \
                entry and DELETE zeroes all 20, in image and table";
    let image = four_files();
    let mounted = Handmade::mounted(&image);
    let free = [0; 22];
    let entry = |number: usize| mounted.buffered()[number * 22..number * 22 + 22].to_vec();
    let mut cases = Vec::new();
    for (name, made, words) in [
        (
            "entry-freed",
            mounted.clone().table(0, 0, &free),
            "add:NEW:4:80:3 @0 open look:0 close add:FILE0:2:100:1",
        ),
        (
            "entry-freed-open",
            mounted.clone().table(0, 0, &free).open(1, 1),
            "add:FILE0:3:80:4 @1 read @0 open text:AB close",
        ),
        (
            "entry-moved",
            mounted.clone().table(0, 0, &free).table(9, 0, &entry(0)),
            "@0 delete @9 delete add:NEW:1:80:3 @9 open",
        ),
        (
            "entry-moved-added",
            mounted.clone().table(0, 0, &free).table(9, 0, &entry(0)),
            "add:NEW:1:80:1 add:MORE:1:80:1 @9 open read write:2 close",
        ),
        (
            "entry-new",
            mounted
                .clone()
                .table(9, 0, &entry(0))
                .table(9, 0, &[0xC1; 8])
                .word(9, 12, 11)
                .word(9, 14, 1)
                .count(9, 0),
            "add:NEW:1:80:1 add:TWO:2:100:2 @9 delete add:SIX:2:100:1 add:SEVEN:2:100:1",
        ),
        (
            "extent-smaller",
            mounted.clone().word(0, 14, 2),
            "add:NEW:4:80:2 @2 open look:0 look:4 close @0 delete",
        ),
        (
            "extent-larger",
            mounted.clone().word(0, 14, 4),
            "add:NEW:4:80:1 @2 open look:0 close @0 delete add:ALL:4:80:4",
        ),
        (
            "extent-moved",
            mounted.clone().word(3, 12, 4),
            "add:NEW:4:80:3 @2 open look:0 close @3 delete add:ALL:4:80:1",
        ),
        (
            "renamed",
            mounted.clone().table(0, 0, &[0xC1; 8]),
            "add:FILE0:4:80:1 add:AAAAAAAA:4:80:1 @0 delete add:AAAAAAAA:4:80:1",
        ),
        (
            "protected-now",
            mounted.clone().word(1, 20, 2),
            "@1 delete @1 open",
        ),
        (
            "kind-other",
            mounted.clone().word(0, 8, 3),
            "@0 delete add:NEW:2:100:3 @0 open read write:2 close",
        ),
        (
            "count-more",
            mounted.clone().count(0, 9),
            "add:NEW:4:80:1 @0 delete @2 delete",
        ),
        (
            "count-no-code",
            mounted.clone().count(1, 65_535),
            "add:NEW:4:80:1 @1 open delete @1 open",
        ),
        (
            "not-good",
            mounted.clone().word(17, 12, 12),
            "add:NEW:4:80:1 @0 delete @17 delete",
        ),
        (
            "shared",
            mounted.clone().word(0, 14, 5),
            "add:NEW:4:80:1 @0 delete @17 delete",
        ),
    ] {
        let name = format!("edit-table-{name}");
        cases.push(on(case(name, rule, image.clone(), words), &made));
    }
    cases.extend(damaged_directories(rule));
    cases.push(sums_behind_names());
    cases
}

/// The reads' buffer is as the last read left it: "what a write or an adding is given stands elsewhere". The
/// table's R of entry 0 is 2, the directory's is 100.
fn sums_behind_names() -> Case {
    let rule = "word 2 the number of name bytes, which come from BYTES";
    let image = four_files();
    let made = Handmade::mounted(&image).word(0, 10, 2).open(0, 0);
    let words =
        "@0 read:100 add:NEW:4:80:1 @0 read:100 add:NEW:4:80:1 hex:C1C2C3C4C5C6C7C8C9D1D2D3:2:100:1
        @0 rewind read:100 hex:C1C2C3:2:100:1 @0 read:100 @2 delete @0 read:100";
    on(case("edit-sum-behind-names", rule, image, words), &made)
}

/// The directory is damaged and the session is that of the image before.
fn damaged_directories(rule: &'static str) -> Vec<Case> {
    let good = four_files();
    let session = Handmade::mounted(&good);
    let mut cases = Vec::new();
    for (name, at, byte) in [
        ("free-entry", 2 * ENTRY_BYTES + 17, 7),
        ("free-name", 2 * ENTRY_BYTES, 0xC1),
        ("used-entry", 3 * ENTRY_BYTES + 9, 9),
        ("same-extent", 3 * ENTRY_BYTES + 13, 1),
    ] {
        let mut image = good.clone();
        image[at] = byte;
        let made = session.clone().over(&image);
        let words =
            "add:NEW:2:100:1 @2 open write:2 close @3 delete add:NEXT:4:360:1 @3 open look:0";
        let told = case(format!("edit-directory-{name}"), rule, image, words);
        cases.push(on(told, &made));
    }
    cases
}

// ---------------------------------------------------------------------------------------------
// Images to be listed.

/// What some of the cases leave, all closed: a fresh listing shows the files.
pub fn listed_after() -> Vec<Vec<u8>> {
    let scripts = [
        "add:NEW:2:100:1",
        "add:ONE:1:3600:1 add:TWO:2:360:2 add:THREE:3:132:1 add:FOUR:4:2:9",
        "@0 delete @3 delete add:FIRST:3:80:4 @0 open text:AB text:CD mark close",
        "@0 delete @1 delete @3 delete @17 delete",
        "@17 delete add:LAST:4:360:1 add:ABCDEFGH:2:180:1 @2 open write:2 write:2 close",
        "@0 open write:2 @3 delete add:MID:1:80:2 @0 close @3 open @2 open write:2 close",
        "add:NEW:2:101:1 add:FILE0:2:100:1 add:1:2:100:1 add:NEW:2:100:9 @2 delete",
    ];
    let played = scripts.map(|words| {
        let told = script(LONGEST, words);
        play(Engine::Buffered, four_files(), &[], &told).image
    });
    let asked = script(LONGEST, "add:NEW:4:100:4");
    let mut images = played.to_vec();
    images.push(play(Engine::Plain, full_but(&[9]), &[], &asked).image);
    images
}
