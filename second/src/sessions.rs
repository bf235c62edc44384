//! Sessions of any origin: "A session is legal exactly if ...". Every clause is broken by itself and
//! kept at its limits, and legal sessions that no mounting hands out show what comes of them.

use crate::cases::Case;
use crate::damage::{same_names, small_image, Break, BREAKS, EDGES, EMPTIED};
use crate::directory::{BLOCKED, COMPRESSED, RANDOM, UNBLOCKED};
use crate::directory::{ENTRIES, ENTRY_BYTES, MARKED, PROTECTED};
use crate::disk::Disk;
use crate::handmade::Handmade;
use crate::image::{put_word, SECTOR};
use crate::notation::script;
use crate::patch::Patch;
use crate::session::{mount, Engine, MOST_OPEN};
use crate::stored::{Field, BEYOND, CHANGED, ENTRY, HOLDS, IN_USE, POSITION, STORED_ENTRY};
use crate::stored::{END_BYTE, END_SECTOR, HELD_SECTOR, PLACE_BYTE, PLACE_SECTOR};

pub fn session_cases() -> Vec<Case> {
    [
        fields(),
        several_states(),
        unused_states(),
        buffers(),
        buffers_ahead(),
        buffers_at_bad_codes(),
        codes(),
        ends(),
        counts(),
        tables(),
        other_tables(),
        sums(),
        no_sessions(),
        broken_tables(),
        refused_mountings(),
        lengths(),
    ]
    .concat()
}

/// The longest R of these images, so that a read's buffer is never too short by chance.
const LONGEST: usize = 400;

fn case(
    name: impl Into<String>,
    rule: &'static str,
    image: Vec<u8>,
    made: &Handmade,
    words: &str,
) -> Case {
    let script = script(LONGEST, words);
    let name = format!("session-{}", name.into());
    Case::new(name, rule, image, script).with_sessions(made.patches())
}

// ---------------------------------------------------------------------------------------------
// The image.

/// The codes of entry 2: 20 records of 20 characters, 22 bytes each, 16 in the first sector, whose last
/// 8 bytes are 128, and 4 in the second. In the fourth record's characters a whole code stands.
const CODE: usize = 22;
const HIDDEN: usize = 3 * CODE + 3;

/// Files of every kind, marked and not, one of them protected, entry 17 and two sectors left.
fn eight_files() -> Vec<u8> {
    let mut records: Vec<Vec<u8>> = (0..20).map(|k| vec![0xC1 + k % 9; 20]).collect();
    records[3][2..6].copy_from_slice(&[2, 0xD1, 0xD2, 0]);
    Disk::used(21)
        .file(0, UNBLOCKED, 80, 3)
        .holding(2)
        .flags(MARKED)
        .file(1, BLOCKED, 100, 3)
        .holding(5)
        .flags(MARKED)
        .file(2, COMPRESSED, 20, 3)
        .records(&records)
        .flags(MARKED)
        .file(3, RANDOM, 200, 2)
        .file(4, BLOCKED, 180, 2)
        .holding(3)
        .file(5, COMPRESSED, 40, 2)
        .holding(4)
        .file(6, UNBLOCKED, 362, 2)
        .holding(1)
        .flags(MARKED | PROTECTED)
        .file(17, UNBLOCKED, 2, 1)
        .holding(1)
        .image()
}

fn eight_mounted() -> Handmade {
    Handmade::mounted(&eight_files())
}

/// A case on the eight files.
fn on_eight(name: impl Into<String>, rule: &'static str, made: &Handmade, words: &str) -> Case {
    case(name, rule, eight_files(), made, words)
}

/// What shows where a tape stands and what it is.
const TAPE: &str =
    "read forward read back write:2 file-forward file-back read mark rewind read*2 close
    open read*2 close @17 open read close";

const GRANULES: &str =
    "look:0 get:1 put:1:2 look:1 read back close open look:1 close @17 open read";

fn shows(entry: usize) -> String {
    let words = if entry == 3 { GRANULES } else { TAPE };
    format!("@{entry} {words}")
}

// ---------------------------------------------------------------------------------------------
// One open file, told otherwise.

const AT_MOST: &str = "each open p is at most the count";
const BEYONDS: &str = "beyond occurs only as above: possible only if marked with p at the end";
const PLACES: &str = "compressed places (current and end) lie in the extent at byte 0 to 360";
const HELD: &str = "a held sector lies in its file's extent";
const USED: &str = "each a different used entry";
const LARGEST: u64 = u32::MAX as u64;

/// A rule, the entry that is open, and for each case its name and what is set.
type Told = (
    &'static str,
    usize,
    &'static [(&'static str, &'static [(Field, u64)])],
);

const FIELDS: [Told; 19] = [
    (
        AT_MOST,
        0,
        &[
            ("0", &[]),
            ("1", &[(POSITION, 1)]),
            ("count", &[(POSITION, 2)]),
            ("over", &[(POSITION, 3)]),
            ("65536", &[(POSITION, 65_536)]),
            ("65537", &[(POSITION, 65_537)]),
            ("high-byte", &[(POSITION, 1 << 24)]),
            ("largest", &[(POSITION, LARGEST)]),
        ],
    ),
    (
        AT_MOST,
        1,
        &[
            ("4", &[(POSITION, 4)]),
            ("count", &[(POSITION, 5)]),
            ("over", &[(POSITION, 6)]),
            ("capacity", &[(POSITION, 9)]),
            ("65540", &[(POSITION, 65_540)]),
        ],
    ),
    (
        AT_MOST,
        2,
        &[
            ("1-at-0", &[(POSITION, 1)]),
            ("19", &[(POSITION, 19), (PLACE_SECTOR, 1), (PLACE_BYTE, 66)]),
            (
                "count",
                &[(POSITION, 20), (PLACE_SECTOR, 1), (PLACE_BYTE, 88)],
            ),
            ("over", &[(POSITION, 21)]),
            ("largest", &[(POSITION, LARGEST)]),
        ],
    ),
    (AT_MOST, 3, &[("0", &[]), ("1", &[(POSITION, 1)])]),
    (
        AT_MOST,
        4,
        &[("count", &[(POSITION, 3)]), ("over", &[(POSITION, 4)])],
    ),
    (
        AT_MOST,
        5,
        &[("count", &[(POSITION, 4)]), ("over", &[(POSITION, 5)])],
    ),
    (
        BEYONDS,
        0,
        &[
            ("beyond", &[(POSITION, 2), (BEYOND, 1)]),
            ("beyond-before-the-end", &[(POSITION, 1), (BEYOND, 1)]),
            ("beyond-at-0", &[(BEYOND, 1)]),
            ("beyond-over", &[(POSITION, 3), (BEYOND, 1)]),
        ],
    ),
    (
        BEYONDS,
        1,
        &[
            ("beyond", &[(POSITION, 5), (BEYOND, 1)]),
            ("beyond-before-the-end", &[(POSITION, 4), (BEYOND, 1)]),
        ],
    ),
    (
        BEYONDS,
        2,
        &[
            (
                "beyond",
                &[
                    (POSITION, 20),
                    (BEYOND, 1),
                    (PLACE_SECTOR, 1),
                    (PLACE_BYTE, 88),
                ],
            ),
            ("beyond-at-place-0", &[(POSITION, 20), (BEYOND, 1)]),
            ("beyond-before-the-end", &[(POSITION, 19), (BEYOND, 1)]),
        ],
    ),
    (BEYONDS, 3, &[("beyond", &[(BEYOND, 1)])]),
    (
        BEYONDS,
        4,
        &[("beyond-unmarked", &[(POSITION, 3), (BEYOND, 1)])],
    ),
    (
        BEYONDS,
        5,
        &[("beyond-unmarked", &[(POSITION, 4), (BEYOND, 1)])],
    ),
    (
        BEYONDS,
        6,
        &[
            ("beyond", &[(POSITION, 1), (BEYOND, 1)]),
            ("not-beyond", &[(POSITION, 1)]),
        ],
    ),
    (
        PLACES,
        2,
        &[
            ("place-0-360", &[(PLACE_BYTE, 360)]),
            ("place-0-361", &[(PLACE_BYTE, 361)]),
            ("place-0-616", &[(PLACE_BYTE, 616)]),
            ("place-0-65536", &[(PLACE_BYTE, 65_536)]),
            ("place-0-largest", &[(PLACE_BYTE, LARGEST)]),
            ("place-1-0", &[(PLACE_SECTOR, 1)]),
            ("place-1-360", &[(PLACE_SECTOR, 1), (PLACE_BYTE, 360)]),
            ("place-2-0", &[(PLACE_SECTOR, 2)]),
            ("place-2-360", &[(PLACE_SECTOR, 2), (PLACE_BYTE, 360)]),
            ("place-2-361", &[(PLACE_SECTOR, 2), (PLACE_BYTE, 361)]),
            ("place-3-0", &[(PLACE_SECTOR, 3)]),
            ("place-256-0", &[(PLACE_SECTOR, 256)]),
            ("place-65536-0", &[(PLACE_SECTOR, 65_536)]),
            ("place-largest-0", &[(PLACE_SECTOR, LARGEST)]),
            ("end-0-360", &[(END_BYTE, 360)]),
            ("end-0-361", &[(END_BYTE, 361)]),
            ("end-0-65536", &[(END_BYTE, 65_536)]),
            ("end-2-0", &[(END_SECTOR, 2)]),
            ("end-2-360", &[(END_SECTOR, 2), (END_BYTE, 360)]),
            ("end-2-361", &[(END_SECTOR, 2), (END_BYTE, 361)]),
            ("end-3-0", &[(END_SECTOR, 3)]),
            ("end-65536-0", &[(END_SECTOR, 65_536)]),
            ("end-largest", &[(END_SECTOR, LARGEST), (END_BYTE, LARGEST)]),
        ],
    ),
    (
        PLACES,
        5,
        &[
            ("place-1-360", &[(PLACE_SECTOR, 1), (PLACE_BYTE, 360)]),
            ("place-2-0", &[(PLACE_SECTOR, 2)]),
            ("end-1-360", &[(END_SECTOR, 1), (END_BYTE, 360)]),
            ("end-1-361", &[(END_SECTOR, 1), (END_BYTE, 361)]),
            ("end-2-0", &[(END_SECTOR, 2)]),
        ],
    ),
    (
        HELD,
        1,
        &[
            ("held-last", &[(HOLDS, 1), (HELD_SECTOR, 2)]),
            ("held-past", &[(HOLDS, 1), (HELD_SECTOR, 3)]),
            ("held-256", &[(HOLDS, 1), (HELD_SECTOR, 256)]),
            ("held-65536", &[(HOLDS, 1), (HELD_SECTOR, 65_536)]),
            ("held-largest", &[(HOLDS, 1), (HELD_SECTOR, LARGEST)]),
            ("held-none-past", &[(HELD_SECTOR, 3)]),
            ("held-none-largest", &[(HELD_SECTOR, LARGEST)]),
            ("held-none-changed", &[(CHANGED, 1)]),
            ("held-none-past-changed", &[(HELD_SECTOR, 3), (CHANGED, 1)]),
        ],
    ),
    (
        HELD,
        2,
        &[
            ("held-last", &[(HOLDS, 1), (HELD_SECTOR, 2)]),
            ("held-past", &[(HOLDS, 1), (HELD_SECTOR, 3)]),
            (
                "held-past-changed",
                &[(HOLDS, 1), (HELD_SECTOR, 3), (CHANGED, 1)],
            ),
            ("held-none-changed", &[(CHANGED, 1)]),
        ],
    ),
    (
        HELD,
        4,
        &[
            ("held-last", &[(HOLDS, 1), (HELD_SECTOR, 1)]),
            ("held-past", &[(HOLDS, 1), (HELD_SECTOR, 2)]),
        ],
    ),
    (
        USED,
        1,
        &[
            ("entry-16", &[(ENTRY, 16)]),
            ("entry-17", &[(ENTRY, 17)]),
            ("entry-18", &[(ENTRY, 18)]),
            ("entry-65535", &[(ENTRY, 65_535)]),
            ("entry-257", &[(ENTRY, 257)]),
            ("entry-65537", &[(ENTRY, 65_537)]),
            ("entry-high-word", &[(ENTRY, (1 << 32) + 1)]),
            ("entry-high-byte", &[(ENTRY, (1 << 56) + 1)]),
            ("entry-largest", &[(ENTRY, u64::MAX)]),
        ],
    ),
];

/// Each in another state than the one before.
fn fields() -> Vec<Case> {
    let mut cases = Vec::new();
    for (rule, entry, told) in FIELDS {
        for (name, edits) in told {
            let slot = cases.len() % MOST_OPEN;
            let made = edits
                .iter()
                .fold(eight_mounted().open(slot, entry), |made, edit| {
                    made.set(slot, edit.0, edit.1)
                });
            let name = format!("entry{entry}-{name}");
            let words = if rule == USED {
                "@1 read @18 read open @65535 read @16 read open @17 read open close @1 open read"
                    .to_string()
            } else {
                shows(entry)
            };
            cases.push(on_eight(name, rule, &made, &words));
        }
    }
    cases.extend(unlooked_at());
    cases.extend(said_to_be_held());
    cases
}

/// What a file that is not compressed says of places.
fn unlooked_at() -> Vec<Case> {
    let mut cases = Vec::new();
    for entry in [0, 1, 3, 4] {
        let numbers = [PLACE_SECTOR, PLACE_BYTE, END_SECTOR, END_BYTE];
        let made = numbers
            .into_iter()
            .fold(eight_mounted().open(1, entry), |made, field| {
                made.set(1, field, 70_000 + field.at as u64)
            });
        let name = format!("entry{entry}-places-of-no-code");
        cases.push(on_eight(name, PLACES, &made, &shows(entry)));
    }
    cases
}

/// What a file without a blocking buffer says of a held sector: one in its extent is legal, and nothing
/// comes of it; one outside is not legal.
fn said_to_be_held() -> Vec<Case> {
    let mut cases = Vec::new();
    for (entry, sectors) in [(0, 3), (3, 2), (6, 2), (17, 1)] {
        let opened = eight_mounted().open(2, entry).buffer(2, 0, &[0xD7; 80]);
        for (name, sector, changed) in [
            ("in", 0, true),
            ("in-unchanged", 0, false),
            ("last", sectors - 1, true),
            ("last-unchanged", sectors - 1, false),
            ("past", sectors, true),
            ("past-unchanged", sectors, false),
            ("256", 256, true),
            ("65536", 65_536, true),
            ("largest", LARGEST as usize, true),
        ] {
            let made = opened.clone().holding(2, sector, changed);
            let name = format!("entry{entry}-says-it-holds-{name}");
            cases.push(on_eight(name, HELD, &made, &shows(entry)));
        }
        let none = opened.set(2, HELD_SECTOR, LARGEST).set(2, CHANGED, 1);
        let name = format!("entry{entry}-says-it-holds-none");
        cases.push(on_eight(name, HELD, &none, &shows(entry)));
    }
    cases
}

// ---------------------------------------------------------------------------------------------
// Several states.

/// A name and the entries of the four states, none for one that is not in use.
const SEVERAL: [(&str, [Option<usize>; 4]); 13] = [
    ("twins-side-by-side", [Some(1), Some(1), None, None]),
    ("twins-apart", [Some(1), None, None, Some(1)]),
    ("twins-with-one-between", [Some(1), Some(2), Some(1), None]),
    ("twins-first-and-last", [Some(1), Some(0), Some(2), Some(1)]),
    ("twins-last", [Some(0), None, Some(17), Some(17)]),
    ("twins-random", [None, Some(3), Some(3), None]),
    ("all-the-same", [Some(2), Some(2), Some(2), Some(2)]),
    ("four", [Some(0), Some(1), Some(2), Some(3)]),
    ("four-others", [Some(17), Some(5), Some(4), Some(3)]),
    ("second-and-last", [None, Some(2), None, Some(1)]),
    ("last-alone", [None, None, None, Some(5)]),
    ("a-free-one-among", [Some(1), Some(2), Some(16), None]),
    ("entry-18-among", [Some(1), None, None, Some(18)]),
];

fn several_states() -> Vec<Case> {
    let rule = "at most four files are open, each a different used entry";
    let words = "@1 read @2 read @17 open read @5 read open read @3 look:0 @1 open read @16 read
        @1 close open read close @2 close @17 close @5 close @3 close";
    let mut cases = Vec::new();
    for (name, entries) in SEVERAL {
        let mut made = eight_mounted();
        for (slot, entry) in entries.into_iter().enumerate() {
            if let Some(entry) = entry {
                let position = if entry == 3 { 0 } else { 1 };
                made = made.open(slot, entry).set(slot, POSITION, position);
            }
        }
        cases.push(on_eight(name, rule, &made, words));
    }
    let twins = eight_mounted().open(0, 1).open(2, 1);
    let differing = twins.set(2, POSITION, 3).set(2, BEYOND, 0);
    cases.push(on_eight("twins-differ", rule, &differing, words));
    let one_unused = differing.set(0, IN_USE, 0);
    cases.push(on_eight("twin-not-in-use", rule, &one_unused, words));
    cases
}

/// "Nothing else in a state that is not in use is looked at"; an opening writes all of it.
fn unused_states() -> Vec<Case> {
    let rule = "Opening gives p = 0; fresh buffer as [0; 360] in each open-file state";
    let mut cases = Vec::new();
    for (entry, number) in [(1, 1), (2, 2), (5, 18), (4, u64::MAX)] {
        let mut made = eight_mounted();
        for slot in 0..MOST_OPEN {
            made = made
                .set(slot, ENTRY, number)
                .set(slot, POSITION, 7)
                .set(slot, BEYOND, 1)
                .set(slot, PLACE_SECTOR, 9)
                .set(slot, PLACE_BYTE, 400)
                .set(slot, END_BYTE, 300)
                .holding(slot, 0, true)
                .buffer(slot, 0, &[0xE7; 8]);
        }
        let name = format!("unused-states-entry{entry}");
        let words = format!("@{entry} read open read rewind {TAPE}");
        cases.push(on_eight(name, rule, &made, &words));
    }
    cases
}

// ---------------------------------------------------------------------------------------------
// Buffers that are not as the image.

/// What puts a buffer back, and what does not.
const HANDLED: [&str; 9] = [
    "read*2",
    "forward back rewind read",
    "close open read",
    "write:2 close open read",
    "file-forward",
    "file-forward file-back write:2 read",
    "mark file-back",
    "file-back read:1 get:0 open write:1 look:0",
    "forward*4 read rewind read",
];

/// The first bytes of a buffer: a code and an empty one, or what they are as bytes; zeros behind.
const OTHER_BYTES: [u8; 8] = [3, 0xD1, 0xD2, 0xD3, 0x82, 0, 0, 0];

fn buffers() -> Vec<Case> {
    let rule =
        "put back before another sector takes it, before any order but the record skips, and \
                at close, and at no other time";
    let mut cases = Vec::new();
    for entry in [1, 2] {
        for changed in [false, true] {
            for (number, words) in HANDLED.iter().enumerate() {
                let made = eight_mounted().open(0, entry).holding(0, 0, changed);
                let made = made.set(0, END_SECTOR, u64::from(entry == 2));
                let made = made.buffer(0, 0, &OTHER_BYTES);
                let state = changed_or_not(changed);
                let name = format!("buffer-entry{entry}-{state}-{number:02}");
                cases.push(on_eight(name, rule, &made, &format!("@{entry} {words}")));
            }
        }
    }
    cases
}

fn changed_or_not(changed: bool) -> &'static str {
    if changed {
        "changed"
    } else {
        "unchanged"
    }
}

/// The held sector is another than that of the place.
fn buffers_ahead() -> Vec<Case> {
    let rule = "it takes each sector that it must read or change, unless held already";
    let tries = [
        "read*2 close",
        "forward*2 read rewind read",
        "write:2 close",
    ];
    let mut cases = Vec::new();
    for (name, changed, byte) in [
        ("ahead-of-go-on", true, 352),
        ("ahead-of-go-on-unchanged", false, 352),
        ("ahead-of-360", true, 360),
        ("ahead-of-360-unchanged", false, 360),
        ("ahead", true, 0),
        ("ahead-unchanged", false, 0),
    ] {
        for (number, words) in tries.iter().enumerate() {
            let made = eight_mounted().open(3, 2).holding(3, 1, changed);
            let made = made.set(3, POSITION, 16).set(3, PLACE_BYTE, byte);
            let made = made.buffer(3, 0, &OTHER_BYTES);
            let name = format!("buffer-{name}-{number}");
            cases.push(on_eight(name, rule, &made, &format!("@2 {words}")));
        }
    }
    for (name, byte, value) in [("bad-in-buffer", 0, 0x80), ("128-in-buffer", 30, 0x80)] {
        for changed in [false, true] {
            let made = eight_mounted().open(3, 2).holding(3, 0, changed);
            let made = made.set(3, POSITION, 1).set(3, PLACE_BYTE, byte);
            let made = made.buffer(3, byte as usize, &[value]);
            let name = format!("buffer-{name}-{}", changed_or_not(changed));
            let words = "@2 read:19 read forward read back file-forward file-back*2 read close";
            cases.push(on_eight(name, rule, &made, words));
        }
    }
    cases
}

/// A bad code is met while a sector is held, in it or in another.
fn buffers_at_bad_codes() -> Vec<Case> {
    let rule = "a request not answered 0 puts nothing back; 11: nothing changed";
    let mut cases = Vec::new();
    for (name, sector) in [("in-it", 0), ("elsewhere", 2)] {
        for changed in [false, true] {
            for (end, words) in [("left", "read forward"), ("read", "read file-back read")] {
                let made = eight_mounted().open(3, 2).holding(3, 0, changed);
                let made = made.set(3, PLACE_SECTOR, sector).set(3, PLACE_BYTE, 1);
                let made = made.buffer(3, 0, &OTHER_BYTES);
                let state = changed_or_not(changed);
                let name = format!("bad-code-{name}-{state}-{end}");
                cases.push(on_eight(name, rule, &made, &format!("@2 {words}")));
            }
        }
    }
    cases
}

// ---------------------------------------------------------------------------------------------
// Places in the middle of codes, end places that lie, counts.

fn codes() -> Vec<Case> {
    let rule = "A code is bad if it runs past its sector, gives more than R characters, has 128 \
                elsewhere, or leaves the extent; 11: nothing changed";
    let places = [
        ("inside", 0, 0, 1),
        ("at-its-end", 0, 0, CODE - 1),
        ("hidden", 3, 0, HIDDEN),
        ("go-on", 16, 0, 16 * CODE),
        ("go-on-late", 5, 0, 359),
        ("next-sector", 2, 1, 0),
        ("behind-the-last", 20, 1, 4 * CODE),
        ("behind-the-last-short", 19, 1, 4 * CODE),
        ("in-the-filling", 7, 1, 200),
        ("in-the-last-byte", 7, 2, 359),
        ("past-the-rest", 7, 2, 360),
        ("behind-by-far", 19, 0, 0),
        ("ahead-by-far", 0, 1, 2 * CODE),
    ];
    let mut cases = Vec::new();
    for (name, position, sector, byte) in places {
        let made = eight_mounted().open(1, 2).set(1, POSITION, position);
        let made = made
            .set(1, PLACE_SECTOR, sector)
            .set(1, PLACE_BYTE, byte as u64)
            .set(1, END_SECTOR, 1)
            .set(1, END_BYTE, 4 * CODE as u64);
        let read = "@2 read:19 read forward read*3 back write:1 file-back read forward close";
        cases.push(on_eight(format!("code-{name}-read"), rule, &made, read));
        let written = "@2 text:NEWS read rewind read*3 file-forward close open read*2 close";
        let name = format!("code-{name}-written");
        cases.push(on_eight(name, rule, &made, written));
    }
    cases
}

fn ends() -> Vec<Case> {
    let rule =
        "File forward: ... p goes to the end; opening decodes the count records to find the \
                end place";
    let places = [
        ("0", 0, 0),
        ("inside", 0, 1),
        ("early", 0, 5 * CODE),
        ("in-the-filling", 1, 300),
        ("late", 2, 100),
        ("byte-360", 0, 360),
        ("past", 2, 360),
    ];
    let mut cases = Vec::new();
    for (name, sector, byte) in places {
        let made = eight_mounted().open(2, 2).set(2, POSITION, 2);
        let made = made
            .set(2, PLACE_BYTE, 2 * CODE as u64)
            .set(2, END_SECTOR, sector)
            .set(2, END_BYTE, byte as u64);
        let words = "@2 read file-forward read file-back read back file-back text:ENDS mark rewind
            read*2 file-forward close open read forward close";
        cases.push(on_eight(format!("end-{name}"), rule, &made, words));
        let words = "@2 file-forward file-back text:LAST file-back read*3 close open read*2 close";
        let name = format!("end-{name}-written");
        cases.push(on_eight(name, rule, &made, words));
    }
    cases
}

/// A name, entry, count and position, and what is tried.
const COUNTS: [(&str, usize, u32, u64, &str); 14] = [
    ("more", 2, 21, 20, "read forward text:AB read rewind"),
    (
        "more-by-far",
        2,
        900,
        900,
        "text:AB read mark back file-back",
    ),
    ("fewer", 2, 10, 9, "read*2 file-back text:AB"),
    ("none", 2, 0, 0, "read file-back text:AB"),
    ("65534", 2, 65_534, 65_534, "text:AB text:BC mark"),
    (
        "65535",
        2,
        65_535,
        65_535,
        "read file-back file-forward back",
    ),
    (
        "65535-written",
        2,
        65_535,
        65_535,
        "text:AB write:1 write:22 mark text:AB file-back",
    ),
    ("65535-short", 2, 65_535, 65_534, "read text:AB read mark"),
    (
        "65535-short-written",
        2,
        65_535,
        65_534,
        "text:AB text:BC read mark",
    ),
    (
        "65535-unmarked",
        5,
        65_535,
        65_535,
        "read forward text:AB mark",
    ),
    (
        "65535-unmarked-short",
        5,
        65_535,
        65_534,
        "read text:AB read",
    ),
    ("blocked-capacity", 1, 9, 8, "read*2 file-back write:2"),
    ("blocked-over-capacity", 1, 10, 1, "read"),
    ("random", 3, 1, 0, "look:0 read"),
];

/// Entries, and counts about the largest that a word can say. Of many of them the low word is the count
/// that the directory has.
const ABOUT_A_WORD: [(usize, &[u32]); 8] = [
    (
        2,
        &[
            65_534,
            65_535,
            65_536,
            65_537,
            65_556,
            (1 << 24) + 20,
            u32::MAX,
        ],
    ),
    (5, &[65_535, 65_536, 65_540, u32::MAX]),
    (0, &[65_535, 65_538]),
    (1, &[65_535, 65_541]),
    (3, &[65_535, 65_536]),
    (4, &[65_539]),
    (6, &[65_537]),
    (17, &[65_537]),
];

/// Every request, on the entry and on another.
const EVERY_REQUEST: &str =
    "read text:AB forward back file-forward file-back mark rewind look:0 get:0
    put:0:2 open close open @17 open read close";

/// Entries that are not open, and their counts.
const CLOSED_COUNTS: [(usize, u32); 20] = [
    (2, 0),
    (2, 10),
    (2, 21),
    (2, 65_535),
    (2, 65_536),
    (2, 65_556),
    (2, u32::MAX),
    (5, 65_535),
    (5, 65_536),
    (5, 65_540),
    (0, 3),
    (0, 4),
    (0, 65_538),
    (1, 9),
    (1, 10),
    (1, 65_541),
    (3, 65_536),
    (4, 65_539),
    (6, 65_537),
    (17, 65_537),
];

/// A file is open, and its count and position are told otherwise.
fn counted(entry: usize, count: u32, position: u64) -> Handmade {
    let made = eight_mounted().count(entry, count).open(0, entry);
    let made = made.set(0, POSITION, position);
    made.set(0, END_BYTE, 3 * CODE as u64)
}

fn counts() -> Vec<Case> {
    let rule = "its table keeps every directory rule but the decoding one; position already 65,535";
    let mut cases = Vec::new();
    for (name, entry, count, position, words) in COUNTS {
        let made = counted(entry, count, position);
        let words = format!("@{entry} {words} read close open read close");
        cases.push(on_eight(format!("count-{name}"), rule, &made, &words));
    }
    cases.extend(counts_about_a_word());
    cases.extend(closed_counts());
    let free = eight_mounted().count(16, 65_536);
    cases.push(on_eight("count-free-high-word", rule, &free, "open read"));
    let free = eight_mounted().count(16, 1);
    cases.push(on_eight("count-free", rule, &free, "open read"));
    cases
}

const A_WORD: &str = "16–17: count of records; its table keeps every directory rule";

/// At the count, below and over it, at its low word and at 0.
fn counts_about_a_word() -> Vec<Case> {
    let mut cases = Vec::new();
    for (entry, counts) in ABOUT_A_WORD {
        for &count in counts {
            let low_word = count & 0xFFFF;
            let positions = [
                ("at", Some(count)),
                ("below", Some(count - 1)),
                ("over", count.checked_add(1)),
                ("at-its-low-word", Some(low_word).filter(|&low| low < count)),
                ("at-0", Some(0)),
            ];
            for (name, position) in positions {
                if let Some(position) = position {
                    let made = counted(entry, count, u64::from(position));
                    let name = format!("count-{count}-entry{entry}-{name}");
                    let words = format!("@{entry} {EVERY_REQUEST}");
                    cases.push(on_eight(name, A_WORD, &made, &words));
                }
            }
        }
    }
    cases
}

/// The file is not open, but another is.
fn closed_counts() -> Vec<Case> {
    let mut cases = Vec::new();
    for (entry, count) in CLOSED_COUNTS {
        let other = if entry == 1 { 4 } else { 1 };
        let made = eight_mounted().count(entry, count).open(0, other);
        let words = format!(
            "@{other} read @{entry} open look:0 read file-forward file-back write:2 close
             @{other} write:2 close",
        );
        let name = format!("count-closed-entry{entry}-{count}");
        cases.push(on_eight(name, A_WORD, &made, &words));
    }
    cases
}

// ---------------------------------------------------------------------------------------------
// Tables unlike the directory.

/// A name, the words that are set (entry, byte, word), the entry that is open, and what is tried.
type Table = (
    &'static str,
    &'static [(usize, usize, u16)],
    usize,
    &'static str,
);

const TABLES: [Table; 18] = [
    ("moved-blocked", &[(1, 12, 19), (1, 14, 2)], 1, TAPE),
    ("moved-random", &[(3, 12, 19)], 3, GRANULES),
    ("moved-compressed", &[(2, 12, 19), (2, 14, 2)], 2, TAPE),
    ("touching-the-end", &[(17, 12, 20)], 17, TAPE),
    ("past-the-end", &[(17, 12, 21)], 17, TAPE),
    ("smaller", &[(1, 14, 2)], 1, TAPE),
    ("larger", &[(17, 14, 3)], 17, TAPE),
    ("larger-by-far", &[(17, 14, 4)], 17, TAPE),
    ("shared", &[(0, 14, 4)], 0, TAPE),
    ("mark-gone", &[(1, 20, 0)], 1, TAPE),
    ("mark-new", &[(4, 20, 1)], 4, TAPE),
    ("protected-now", &[(1, 20, 3)], 1, TAPE),
    ("protected-no-more", &[(6, 20, 1)], 6, TAPE),
    ("kind-2-for-4", &[(3, 8, 2)], 3, TAPE),
    ("kind-1-for-2", &[(1, 8, 1), (1, 18, 3)], 1, TAPE),
    ("kind-3-for-2", &[(1, 8, 3)], 1, TAPE),
    (
        "kind-4-for-2",
        &[(1, 8, 4), (1, 18, 0), (1, 20, 0)],
        1,
        GRANULES,
    ),
    ("kind-2-for-3", &[(2, 8, 2)], 2, TAPE),
];

fn tables() -> Vec<Case> {
    let rule = "its table keeps every directory rule but the decoding one";
    let mut cases = Vec::new();
    for (name, words, entry, tried) in TABLES {
        let made = words
            .iter()
            .fold(eight_mounted(), |made, &(entry, at, word)| {
                made.word(entry, at, word)
            });
        let opened = made.open(3, entry);
        let words = format!("@{entry} {tried}");
        cases.push(on_eight(format!("table-{name}"), rule, &opened, &words));
    }
    cases
}

/// Whole entries that are others.
fn other_tables() -> Vec<Case> {
    let rule = "its table keeps every directory rule but the decoding one; 8: no such entry";
    let mounted = eight_mounted();
    let entry_bytes = |number: usize| {
        let start = number * STORED_ENTRY;
        mounted.buffered()[start..start + STORED_ENTRY].to_vec()
    };
    let free = vec![0; STORED_ENTRY];
    let swapped = mounted.clone().table(0, 0, &entry_bytes(1));
    let swapped = swapped.table(1, 0, &entry_bytes(0));
    let moved = mounted.clone().table(1, 0, &free);
    let moved = moved.table(9, 0, &entry_bytes(1));
    let copied = mounted.clone().table(9, 0, &entry_bytes(1));
    let freed = mounted.clone().table(1, 0, &free);
    let none = (0..ENTRIES).fold(mounted.clone(), |made, number| made.table(number, 0, &free));
    let renamed = mounted.clone().table(1, 0, &[0xC1, 0xF0]);
    let letter = mounted.clone().table(1, 7, &[0x00]);
    let words = "@1 open read write:2 close @0 open read write:2 close @9 open read write:2 close
        @1 open read";
    let mut cases = Vec::new();
    for (name, made) in [
        ("swapped", swapped),
        ("moved-to-9", moved),
        ("copied-to-9", copied),
        ("freed", freed),
        ("all-free", none),
        ("renamed", renamed),
        ("misnamed", letter),
    ] {
        cases.push(on_eight(format!("table-{name}"), rule, &made, words));
        let opened = made.open(0, 1).set(0, POSITION, 1);
        let name = format!("table-{name}-opened");
        cases.push(on_eight(name, rule, &opened, &format!("@1 read {words}")));
    }
    cases
}

const OTHER_R: &str = "R is even and 2 to ...: a table's R other than the directory's";

/// A read's sum where the table has another R than the directory in the image: of a buffer of zeros, and
/// of one that a longer record was read into.
fn sums() -> Vec<Case> {
    let mut cases = Vec::new();
    for (name, entry, r) in [
        ("less", 0, 2),
        ("more", 0, 120),
        ("two-sectors", 0, 362),
        ("less", 1, 60),
        ("more", 1, 110),
        ("less", 2, 18),
        ("more", 2, 132),
        ("odd", 1, 99),
        ("less", 3, 20),
        ("more", 3, 362),
    ] {
        let opened = eight_mounted().word(entry, 10, r).open(1, entry).open(2, 4);
        let (odd, odder) = (r + 1, r + 3);
        let words = format!(
            "@{entry} read read:400 get:0 get:0:{r} look:0 put:0:2 rewind read:{r} rewind
             read:{odd} rewind read:{odder} @4 read @{entry} rewind read:{odd} get:0:{odd} rewind
             read:{odder} get:0:{odder} rewind read:{r} rewind read get:0 close open read close
             @17 open read",
        );
        let name = format!("sum-entry{entry}-{name}-{r}");
        cases.push(on_eight(name, OTHER_R, &opened, &words));
    }
    cases.extend(sums_behind_writes());
    cases
}

/// "what a write is given stands elsewhere": the reads' buffer is as the last reads left it. The table's
/// R of entry 0 is 2, the directory's is 80.
fn sums_behind_writes() -> Vec<Case> {
    let lesser = eight_mounted().word(0, 10, 2).open(0, 0);
    let opened = lesser.open(1, 1).open(2, 4).open(3, 3);
    let mut cases = Vec::new();
    for (name, words) in [
        ("writes", "@1 write:100 @0 rewind read:80 @1 write:40"),
        ("refused-writes", "@1 write:101 @0 read:80 @1 write:102"),
        ("writes-not-open", "@2 write:20 @0 read:80 @18 write:80"),
        ("granule-writes", "@3 put:0:200 @0 read:80 @3 put:1:20"),
        ("refused-granules", "@3 put:0:202 @0 read:80 @3 put:2:200"),
        ("a-read", "@4 read @0 read:80 @1 read"),
        ("refused-reads", "@4 read:179 @0 read:80 @2 read"),
        ("granules", "@3 get:0 @0 read:80 @3 get:1 get:2"),
        ("looks", "@3 look:0 @0 read:80 @3 look:1"),
    ] {
        let again = format!("{words} @0 rewind read:80 rewind read:7 rewind read:3");
        let name = format!("sum-behind-{name}");
        let words = format!("{again} @4 read {again}");
        cases.push(on_eight(name, OTHER_R, &opened, &words));
    }
    cases
}

// ---------------------------------------------------------------------------------------------
// Bytes that are no session.

const NONE: &str = "Bytes that are no session are answered as a session that is not legal: 12";

fn no_sessions() -> Vec<Case> {
    let words = "@1 read open look:0 write:2 close @17 open @3 look:0 close";
    let truths = [
        ("in-use", IN_USE),
        ("beyond", BEYOND),
        ("holds", HOLDS),
        ("changed", CHANGED),
    ];
    let mut cases = Vec::new();
    for (name, field) in truths {
        for slot in [0, MOST_OPEN - 1] {
            let made = eight_mounted().set(slot, field, 2);
            let name = format!("none-{name}-state{slot}");
            cases.push(on_eight(name, NONE, &made, words));
        }
        for value in [2, 255] {
            let made = eight_mounted().open(1, 1).set(1, field, value);
            let name = format!("none-{name}-in-use-{value}");
            cases.push(on_eight(name, NONE, &made, words));
        }
    }
    cases.extend(past_the_end(words));
    cases
}

/// Patches past the end of a session, and patches of one engine's session alone.
fn past_the_end(words: &str) -> Vec<Case> {
    let rule = "one whose offset is past the end changes nothing";
    let opened = eight_mounted().open(0, 1);
    let plain = on_eight("past-plain", rule, &opened, words);
    let [mut one, mut other] = plain.sessions.clone();
    one.push(Patch { at: 517, byte: 2 });
    other.push(Patch { at: 1_981, byte: 2 });
    for at in [65_536, 0x7FFF_FFFF, 0xFFFF_FFFF] {
        one.push(Patch { at, byte: 255 });
        other.push(Patch { at, byte: 255 });
    }
    let broken = Patch { at: 396, byte: 2 };
    let mended = Patch { at: 396, byte: 0 };
    let named = |name: &str| on_eight(name, rule, &opened, words);
    vec![
        named("past-the-end").with_sessions([one.clone(), other.clone()]),
        named("plain-alone").with_sessions([one.clone(), Vec::new()]),
        named("buffered-alone").with_sessions([Vec::new(), other]),
        named("plain-none").with_sessions([vec![broken], one.clone()]),
        named("mended").with_sessions([vec![broken, mended], vec![broken, mended]]),
    ]
}

// ---------------------------------------------------------------------------------------------
// Every directory rule, in a session's table.

/// A word of a directory's entry, in an entry of the table.
fn broken(made: Handmade, way: &Break) -> Handmade {
    let at = if way.at < 16 { way.at } else { way.at + 2 };
    made.word(way.entry, at, way.word)
}

fn broken_tables() -> Vec<Case> {
    let mut cases = Vec::new();
    for way in BREAKS.iter().chain(&EDGES) {
        let made = broken(Handmade::mounted(&small_image()), way);
        cases.push(broken_case(way.name, way, made));
    }
    for way in &EMPTIED {
        let made = Handmade::mounted(&small_image()).count(way.entry, 0);
        cases.push(broken_case(
            &format!("emptied-{}", way.name),
            way,
            broken(made, way),
        ));
    }
    let image = small_image();
    let named = same_names(image.clone());
    let name = &named[3 * ENTRY_BYTES..3 * ENTRY_BYTES + 8];
    let made = Handmade::mounted(&image).open(0, 1).table(3, 0, name);
    let words = "@1 read close @3 open look:0";
    cases.push(case("rule-same-names", "names differ", image, &made, words));
    cases
}

/// A case of a table with one word that is another, and another file open.
fn broken_case(name: &str, way: &Break, made: Handmade) -> Case {
    let other = (way.entry + 1) % 4;
    let made = made.open(0, other);
    let tried = "open read get:0 file-forward file-back write:2 look:0 close";
    let words = format!("@{other} read look:0 @{} {tried} @{other} close", way.entry);
    case(
        format!("rule-{name}"),
        way.rule,
        small_image(),
        &made,
        &words,
    )
}

/// The mounting is refused, and the session behind it is that of the image before its damage.
fn refused_mountings() -> Vec<Case> {
    let rule = "A session is legal exactly if the image has a lawful length, its table keeps ...";
    let (_, session) = mount(Engine::Plain, &small_image());
    let mut cases = Vec::new();
    for (name, entry, at, word) in [
        ("kind-5", 0, 8, 5),
        ("length-0", 1, 10, 0),
        ("length-odd", 0, 10, 401),
        ("length-odd-less", 1, 10, 99),
        ("length-odd-more", 1, 10, 101),
        ("length-largest", 2, 10, 65_535),
        ("free-count", 9, 16, 1),
    ] {
        let mut image = small_image();
        put_word(&mut image, entry * ENTRY_BYTES + at, word);
        let made = Handmade::of(&image, &session).open(0, 1);
        let words = "@1 read:400 read:101 read:100 close @0 open read:400 rewind read:402 write:2
            close @2 open read:81 read:400 read:65535 close @3 open get:0:400 look:1 put:1:2 close
            @1 open read:400 read:101 read:100 close @9 open";
        cases.push(case(format!("refused-{name}"), rule, image, &made, words));
    }
    let mut image = small_image();
    image[8] = 9;
    let free = Handmade::mounted(&image);
    let words = "@1 open read close";
    cases.push(case("refused-all-free", rule, image.clone(), &free, words));
    let opened = free.open(0, 1);
    cases.push(case(
        "refused-open",
        rule,
        image,
        &opened,
        "@1 read open close",
    ));
    cases
}

/// The image has no lawful length: a good table and open files help nothing.
fn lengths() -> Vec<Case> {
    let rule = "A session is legal exactly if the image has a lawful length";
    let whole = Disk::used(3).file(1, BLOCKED, 100, 1).holding(2).image();
    let (_, session) = mount(Engine::Plain, &whole);
    let mut cases = Vec::new();
    for length in [0, 359, 361, 1_079, 1_081, 720, 1_440, 1_080] {
        let mut image = whole.clone();
        image.resize(length, 0);
        let made = Handmade::of(&image, &session).open(2, 1);
        let made = made.set(2, POSITION, 1);
        let words = "@1 read open read write:2 close @0 open @18 look:0";
        cases.push(case(format!("length-{length}"), rule, image, &made, words));
    }
    let short = whole[..SECTOR].to_vec();
    let made = Handmade::of(&short, &session);
    cases.push(case("length-360", rule, short, &made, "@1 open read"));
    cases
}
