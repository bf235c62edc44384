//! The cases of document 02's item 3, small granules share a sector. Each has a name, the rule that it tries,
//! an image, maybe a session told otherwise, and a script in the words of `notation.rs`.
//!
//! What a granule shows does not tell what stands beside it. So most cases delete the file then, add a random
//! file in its sectors with a sector for a granule, and look at every one; those that are spelled add one with
//! granules of 2 bytes, and look at every word.

use crate::cases::Case;
use crate::directory::{BLOCKED, COMPRESSED, PROTECTED, RANDOM, UNBLOCKED};
use crate::disk::Disk;
use crate::handmade::Handmade;
use crate::image::SECTOR;
use crate::layout::granule_capacity;
use crate::notation::case;

/// The cases, those on images of the same length one behind another: most of these images are then told
/// by some few patches.
pub fn granule_cases() -> Vec<Case> {
    let mut cases = [
        mixed(),
        padding(),
        left_over(),
        spelled(),
        capacities(),
        high_words(),
        every_length(),
        unblocked(),
        blocked(),
        beside_open_files(),
        orders_of_tests(),
        side_by_side(),
        replaced(),
        old_images(),
        other_tables(),
        held_sectors(),
    ]
    .concat();
    cases.sort_by_key(|case| case.image.len());
    cases
}

// ---------------------------------------------------------------------------------------------
// Images, and words that belong together.

/// The sectors of most images here.
const SECTORS: usize = 14;

/// Bytes of all sorts, and a random file in entry 3, behind a blocked one of two sectors and an unblocked one.
fn behind_files(r: usize, sectors: usize) -> Disk {
    Disk::used(SECTORS)
        .file(0, BLOCKED, 100, 2)
        .holding(4)
        .file(5, UNBLOCKED, 80, 1)
        .holding(1)
        .file(3, RANDOM, r, sectors)
}

/// How many granules begin in a sector, at least one.
fn in_a_sector(r: usize) -> usize {
    (SECTOR / r).max(1)
}

/// The file in entry 3 is closed and deleted, and the whole sectors looked at, with the file deleted that
/// shows them.
fn shown_whole(sectors: usize) -> String {
    let looks: String = (0..sectors).map(|g| format!("look:{g} ")).collect();
    format!("@3 close delete add:WHOLE:4:360:{sectors} @1 open {looks} close delete ")
}

/// The same, with every word of the sectors looked at.
fn shown_by_words(sectors: usize) -> String {
    let looks: String = (0..180 * sectors).map(|g| format!("look:{g} ")).collect();
    format!("@3 close delete add:WORDS:4:2:{sectors} @1 open {looks} close delete ")
}

/// The numbers below n in mixed order: the odd ones from the last on, then the even ones.
fn mixed_order(n: usize) -> Vec<usize> {
    let odd = (0..n).rev().filter(|g| g % 2 == 1);
    odd.chain((0..n).filter(|g| g % 2 == 0)).collect()
}

/// A word for each of these granules, in their order.
fn each(granules: impl IntoIterator<Item = usize>, word: impl Fn(usize) -> String) -> String {
    let words: Vec<String> = granules.into_iter().map(word).collect();
    words.join(" ")
}

// ---------------------------------------------------------------------------------------------
// Places.

const PLACES: &str =
    "for R up to 180, q = 360/R rounded down granules lie in each sector: granule g in extent sector g/q \
     rounded down at byte (g mod q)·R. Above 180 the old rule holds";

/// The lengths that most cases have.
const LENGTHS: [usize; 16] = [
    2, 4, 36, 60, 62, 90, 100, 120, 122, 178, 180, 182, 358, 360, 362, 720,
];

/// Every granule of a sector and the first ones of the next are written, read and looked at in mixed order,
/// then whole sectors looked at.
fn mixed() -> Vec<Case> {
    let case_of = |&r: &usize| {
        let sectors = 5;
        let most = granule_capacity(r, sectors).min(in_a_sector(r) + 3);
        let order = mixed_order(most);
        let short = |g: usize| if g % 3 == 1 { 2 } else { r };
        let words = format!(
            "@3 open {} {} {} {} {} {}",
            each(order.clone(), |g| format!("look:{g}")),
            each(order.clone(), |g| format!("put:{g}:{}", short(g))),
            each((0..most).rev(), |g| format!("get:{g}")),
            each(0..most, |g| format!("look:{g}")),
            each(order.into_iter().rev().step_by(4), |g| format!(
                "put:{g} get:{g} look:{}",
                g.saturating_sub(1)
            )),
            shown_whole(sectors)
        );
        let image = behind_files(r, sectors).image();
        case(format!("granule-places-r{r}"), PLACES, image, r, &words)
    };
    LENGTHS.iter().map(case_of).collect()
}

const PADDING: &str =
    "A write then changes only its own R bytes, padding included; Short ... granules are padded with zero";

/// Short writes over whole ones at the first, a middle and the last granule of a sector, and in the next one.
fn padding() -> Vec<Case> {
    let case_of = |&r: &usize| {
        let (sectors, q) = (4, in_a_sector(r));
        let most = granule_capacity(r, sectors);
        let some = (0..most.min(2 * q)).filter(|g| q < 20 || g % 20 < 3);
        let mut words = format!("@3 open {} ", each(some, |g| format!("put:{g}")));
        for g in [0, q / 2, q - 1, q, 2 * q - 1] {
            for length in [2, r / 4 * 2, r - 2] {
                words += &format!(
                    "put:{g} put:{g}:{length} look:{g} get:{g} look:{} look:{} ",
                    g.saturating_sub(1),
                    g + 1
                );
            }
        }
        words += &shown_whole(sectors);
        let image = behind_files(r, sectors).image();
        case(format!("granule-padding-r{r}"), PADDING, image, r, &words)
    };
    let lengths = LENGTHS.iter().filter(|&&r| r > 2);
    lengths.map(case_of).collect()
}

const LEFT_OVER: &str =
    "The 360 − q·R bytes at a sector's end belong to no granule and are never written; above 180 ... zero behind \
     R to the last sector's end";

/// Lengths that leave bytes over at a sector's end, and some that do not.
const LEAVING: [usize; 22] = [
    2, 14, 22, 48, 50, 60, 62, 74, 92, 100, 112, 122, 140, 178, 180, 182, 184, 200, 358, 360, 362,
    542,
];

/// The sectors are filled by another file first, which is deleted; a random file is added in them, one
/// granule, the last of each sector, or all (at most 120) are written; then whole sectors are looked at.
fn left_over() -> Vec<Case> {
    let mut cases = Vec::new();
    for (turn, &r) in LEAVING.iter().enumerate() {
        let (sectors, q) = (4, in_a_sector(r));
        let most = granule_capacity(r, sectors);
        let (kind, filled) = match turn % 2 {
            0 => (UNBLOCKED, "write:360*4".to_string()),
            _ => (RANDOM, each(0..sectors, |g| format!("put:{g}:360"))),
        };
        for (name, written) in [
            ("first", vec![0]),
            ("last", vec![most - 1]),
            ("ends", (q - 1..most).step_by(q).collect()),
            ("all", mixed_order(most.min(120))),
        ] {
            let words = format!(
                "add:OLD:{kind}:360:{sectors} @1 open {filled} close delete
                 add:NEW:4:{r}:{sectors} open {} {} close delete
                 add:WHOLE:4:360:{sectors} open {} close",
                each(written.clone(), |g| format!(
                    "put:{g}:{}",
                    if g % 2 == 0 { r } else { 2 }
                )),
                each(written, |g| format!("look:{g}")),
                each(0..sectors, |g| format!("look:{g}")),
            );
            let image = Disk::used(SECTORS).file(0, BLOCKED, 100, 2).image();
            let name = format!("granule-left-over-r{r}-{name}");
            cases.push(case(name, LEFT_OVER, image, r, &words));
        }
    }
    cases
}

/// Every word of the sectors, behind whole and short writes at a sector's beginning and end.
fn spelled() -> Vec<Case> {
    let case_of = |&r: &usize| {
        let (sectors, q) = (2, in_a_sector(r));
        let last = granule_capacity(r, sectors) - 1;
        let mut words = "@3 open ".to_string();
        for g in [0, (q - 1).min(last), q.min(last), last] {
            words += &format!("put:{g} ");
        }
        words += &format!(
            "put:{last}:{} put:0:2 {}",
            (r - 2).max(2),
            shown_by_words(sectors)
        );
        let image = behind_files(r, sectors).image();
        case(format!("granule-spelled-r{r}"), PADDING, image, r, &words)
    };
    let lengths = [2, 4, 60, 62, 100, 178, 180, 182, 358, 360, 362];
    lengths.iter().map(case_of).collect()
}

// ---------------------------------------------------------------------------------------------
// Capacity.

const CAPACITY: &str =
    "3 uses the new capacity, q·sectors; it has no limit of 65,535; a granule's number takes 32 bits";

/// The last granule, one past it, and numbers far over, with a high word too.
fn capacities() -> Vec<Case> {
    let mut cases = Vec::new();
    for r in [2, 4, 60, 62, 120, 122, 178, 180, 182, 360, 362, 720, 722] {
        for sectors in [1, 2, 3, 5, 7] {
            let most = granule_capacity(r, sectors);
            let last = most.saturating_sub(1);
            let words = format!(
                "@3 open {} put:{last}:2 look:{last} get:{last} {}",
                each([last, most, most + 1, sectors, sectors + 1], tried),
                each(over(most), tried)
            );
            let image = behind_files(r, sectors).image();
            let name = format!("granule-capacity-r{r}-sectors{sectors}");
            cases.push(case(name, CAPACITY, image, r, &words));
        }
    }
    for r in [2, 4, 60, 62, 180, 182, 3_600] {
        let most = granule_capacity(r, 181);
        let (first, last) = (in_a_sector(r), most - 1);
        let words = format!(
            "@3 open {} look:{} look:{last} {}",
            each([0, first, last, most], tried),
            last - 1,
            each(over(most), tried)
        );
        let image = Disk::used(182).file(3, RANDOM, r, 181).image();
        let name = format!("granule-capacity-r{r}-sectors181");
        cases.push(case(name, CAPACITY, image, r, &words));
    }
    cases
}

/// A granule is looked at, written, read and looked at again.
fn tried(g: usize) -> String {
    format!("look:{g} put:{g} get:{g} look:{g}")
}

/// Numbers over a capacity: in a word, and with a high word of which the low word is good.
fn over(most: usize) -> [usize; 10] {
    [
        most + 256,
        32_768,
        65_535,
        65_536,
        65_536 + most.saturating_sub(1),
        65_536 + most,
        131_072,
        65_536 * 32_768,
        65_536 * 65_535 + most.saturating_sub(1),
        0xFFFF_FFFF,
    ]
}

/// Numbers whose low word is good and whose high word is not zero: nothing is read or written there.
fn high_words() -> Vec<Case> {
    let rule =
        "word 3 is its low word and word 6 its high word; granule number at or over capacity: 3";
    let case_of = |&r: &usize| {
        let sectors = 6;
        let last = granule_capacity(r, sectors) - 1;
        let mut words = format!("@3 open {} ", each([0, 1, last], |g| format!("put:{g}")));
        for high in [1, 2, 3, 255, 256, 257, 32_768, 65_535] {
            for g in [0, 1, last] {
                let number = 65_536 * high + g;
                words += &format!("put:{number} look:{number} get:{number} look:{g} ");
            }
        }
        // these would be others if the high word were added, or counted 65,535 each
        for number in [65_536 - 1, 65_536 + 65_535, 65_535 + last] {
            words += &format!("put:{number}:2 look:{number} ");
        }
        words += &shown_whole(sectors);
        let image = behind_files(r, sectors).image();
        case(format!("granule-high-word-r{r}"), rule, image, r, &words)
    };
    let lengths = [2, 60, 62, 178, 180, 182, 360, 362];
    lengths.iter().map(case_of).collect()
}

// ---------------------------------------------------------------------------------------------
// Every R.

/// A random file of every R, one behind another in the same two sectors (four where a granule may take two):
/// about the first sector's end and the last granule it is written, and looked at beside.
fn every_length() -> Vec<Case> {
    let parts = [
        ("granule-each-r-to-90", 2, 90),
        ("granule-each-r-to-180", 92, 180),
        ("granule-each-r-to-270", 182, 270),
        ("granule-each-r-to-360", 272, 360),
        ("granule-each-r-to-450", 362, 450),
    ];
    parts
        .map(|(name, first, last)| {
            let lengths = (first..=last).step_by(2);
            let words: String = lengths.map(one_length).collect();
            let image = Disk::used(SECTORS).file(1, BLOCKED, 100, 2).image();
            case(name, PLACES, image, last, &words)
        })
        .to_vec()
}

fn one_length(r: usize) -> String {
    let sectors = if r > SECTOR { 4 } else { 2 };
    let (q, most) = (in_a_sector(r), granule_capacity(r, sectors));
    format!(
        "add:R{r}:4:{r}:{sectors} @0 open put:{}:{r} put:{q}:{} put:{}:2 {} {} close delete ",
        q - 1,
        (r / 2).next_multiple_of(2),
        most - 1,
        each([0, q.saturating_sub(2), q - 1, q, q + 1], |g| format!(
            "look:{g}"
        )),
        each([most.saturating_sub(2), most - 1, most], |g| format!(
            "look:{g} get:{g}:{r}"
        )),
    )
}

// ---------------------------------------------------------------------------------------------
// The other kinds.

/// Unblocked records of R up to 180 have a sector each, written as zero behind R.
fn unblocked() -> Vec<Case> {
    let rule = "Unblocked files keep their rule: Record k begins s·k sectors into the extent; Bytes behind R in its \
                last sector are written as zero";
    kept(UNBLOCKED, rule)
}

/// A blocked write puts zero in all of the sector behind the record.
fn blocked() -> Vec<Case> {
    let rule = "A write puts zero in every byte of the sector behind the record";
    kept(BLOCKED, rule)
}

fn kept(kind: u16, rule: &'static str) -> Vec<Case> {
    let case_of = |&r: &usize| {
        let sectors = 3;
        let words = format!(
            "@3 open write write:2 write*5 rewind read*4 rewind forward write:2 mark rewind read*3 back*2 read look:0
             put:0:2 get:0 {}",
            shown_whole(sectors)
        );
        let image = Disk::used(SECTORS)
            .file(0, BLOCKED, 100, 2)
            .file(3, kind, r, sectors)
            .image();
        case(format!("granule-kind{kind}-r{r}"), rule, image, r, &words)
    };
    [2, 60, 62, 120, 178, 180, 182]
        .iter()
        .map(case_of)
        .collect()
}

/// What is done on a random file while a blocked file of two sectors (entry 0), a compressed one (4) and another
/// random one (7) are open.
const BESIDE: [(&str, &str); 7] = [
    (
        "blocked",
        "@0 open write:100 @3 open put:0 put:1:2 look:0 @0 write:40 @3 put:5 put:6 look:5 @0 back read:100 @3 look:6 get:1",
    ),
    (
        "blocked-closed",
        "@0 open write:100*4 @3 open put:6 @0 write:100 @3 put:7:2 @0 close @3 look:6 look:7 look:8 close",
    ),
    (
        "compressed",
        "@4 open text:SOME..TEXT @3 open put:0 put:1 @4 text:MORE @3 look:0 look:1 @4 rewind read:80 read:80 @3 look:2",
    ),
    (
        "both-random",
        "@3 open @7 open put:0:2 put:1:180 @3 put:17 put:0 @7 look:0 look:1 put:3:180 @3 look:17 look:0 @7 look:3 look:4
         get:2:180 @3 close @7 close",
    ),
    (
        "closed-first",
        "@3 open put:0 put:5 @0 open write:100 @3 close @0 write:20 @3 put:0 open look:0 look:5 close @0 rewind",
    ),
    (
        "four-open",
        "@0 open write:100 @4 open text:AB @7 open put:2:20 @3 open put:5 @5 open @3 put:6:2 look:5 look:6 @0 mark
         @4 mark @7 close @3 close @5 open read:80",
    ),
    (
        "added",
        "@0 open write:100 add:NEW:4:40:1 @1 open put:8:40 put:0:2 look:8 look:7 look:9 @0 write:100 @1 put:7:40 look:8
         close delete @0 file-back",
    ),
];

fn beside_open_files() -> Vec<Case> {
    let rule = "No byte of such a file's extent changes in the image but by a putting back while it is open; a granule \
                write changes only its own R bytes";
    let image = Disk::used(SECTORS)
        .file(0, BLOCKED, 100, 2)
        .file(3, RANDOM, 60, 3)
        .file(4, COMPRESSED, 80, 2)
        .file(7, RANDOM, 180, 2)
        .file(5, UNBLOCKED, 80, 1)
        .holding(1)
        .image();
    BESIDE
        .map(|(name, words)| {
            case(
                format!("granule-beside-{name}"),
                rule,
                image.clone(),
                60,
                words,
            )
        })
        .to_vec()
}

// ---------------------------------------------------------------------------------------------
// The order of tests.

/// Every way to be wrong at the last granule, one past it and far over, of a file that is closed, open, or
/// protected.
fn orders_of_tests() -> Vec<Case> {
    let rule = "Order: 12, 8, 9, 10, 7 for kind, 4, ... 5, 6, then ... 3; 3 uses the new capacity";
    let mut cases = Vec::new();
    for r in [2, 60, 62, 178, 180, 182, 360, 362] {
        let most = granule_capacity(r, 3);
        let wrong = each([most - 1, most, most + 70_000], |g| {
            format!(
                "put:{g}:1 put:{g}:R+1 put:{g}:0 put:{g}:R+2 put:{g}:R put:{g}:2 get:{g}:0 get:{g}:R-1 get:{g}:R
                 get:{g}:R+1 look:{g}"
            )
        });
        let words = format!(
            "@3 {wrong} open open {wrong} read:R-1 write:1 write:R mark rewind forward back file-forward file-back
             @0 {wrong} open {wrong} @17 {wrong} @18 look:{most} @3 close {wrong}"
        );
        for (name, flags) in [("", 0), ("-protected", PROTECTED)] {
            let image = behind_files(r, 3).flags(flags).image();
            let name = format!("granule-order-r{r}{name}");
            cases.push(case(name, rule, image, r, &words));
        }
    }
    cases
}

// ---------------------------------------------------------------------------------------------
// Files side by side, and one behind another in the same sectors.

/// Two random files, the second just behind the first: about the border each is written and the other looked at.
/// Sector 1 is free, and shown with the others at the end.
fn side_by_side() -> Vec<Case> {
    let rule = "granule g in extent sector g/q rounded down: sectors count from the extent's start";
    let pairs = [
        (60, 2),
        (62, 180),
        (178, 60),
        (180, 362),
        (182, 62),
        (360, 120),
        (2, 178),
    ];
    let case_of = |(one, other): (usize, usize)| {
        let sectors = 4;
        let (last, behind) = (
            granule_capacity(one, sectors) - 1,
            granule_capacity(other, sectors) - 1,
        );
        let words = format!(
            "@2 open @9 open look:0 @2 put:{last}:{one} @9 look:0 put:0:{other} put:1:2 @2 look:{last} put:{}:2 put:{last}:2
             look:{last} @9 look:0 look:1 put:{behind}:{other} look:{behind} look:{} @2 put:0:{one} look:0 look:1 @9 close
             @2 close @9 delete @2 delete add:WHOLE:4:360:9 @0 open {} close",
            last.saturating_sub(1),
            behind + 1,
            each(0..9, |g| format!("look:{g}"))
        );
        let image = Disk::used(SECTORS)
            .gap(1)
            .file(2, RANDOM, one, sectors)
            .file(9, RANDOM, other, sectors)
            .image();
        let name = format!("granule-border-r{one}-r{other}");
        case(name, rule, image, one, &words)
    };
    pairs.map(case_of).to_vec()
}

/// A file of every kind is written and deleted, a random file of small granules added in its sectors and looked
/// at, written, deleted, and a file of that kind added again.
fn replaced() -> Vec<Case> {
    let rule = "A random file that is added shows as granules what lies in its sectors, a deleted file's bytes too";
    let mut cases = Vec::new();
    for (kind, r) in [
        (UNBLOCKED, 60),
        (BLOCKED, 60),
        (COMPRESSED, 80),
        (RANDOM, 60),
        (RANDOM, 182),
    ] {
        for new in [2, 60, 62, 180, 182] {
            let written = if kind == RANDOM {
                format!("put:0:{r} put:1:{r} put:2:2")
            } else {
                format!("write:{r} mixed:{r} chars:{r} write:20 mark")
            };
            let (q, last) = (in_a_sector(new), granule_capacity(new, 2) - 1);
            let words = format!(
                "add:OLD:{kind}:{r}:2 @1 open {written} close delete add:NEW:4:{new}:2 open {} put:{}:{new} put:{last}:2
                 look:{last} close delete add:OLD:{kind}:{r}:2 open read:{r} look:0 look:1 write:2 close delete
                 add:WHOLE:4:360:2 open look:0 look:1",
                each([0, 1, q - 1, q, last], |g| format!("look:{g}")),
                q - 1
            );
            let image = Disk::used(SECTORS).file(0, BLOCKED, 100, 2).image();
            let name = format!("granule-kind{kind}-r{r}-then-r{new}");
            cases.push(case(name, rule, image, 80, &words));
        }
    }
    cases
}

// ---------------------------------------------------------------------------------------------
// Old images, and tables unlike the directory.

/// An image that was written under the old rule: at the start of each sector a granule, and zero behind it.
fn old_images() -> Vec<Case> {
    let rule = "Old images are read under the new rule";
    let case_of = |&r: &usize| {
        let (sectors, q) = (4, in_a_sector(r));
        let old: Vec<Vec<u8>> = (1..=sectors).map(|k| vec![0x11 * k as u8; r]).collect();
        let placed: Vec<(usize, &[u8])> = (0..)
            .step_by(SECTOR)
            .zip(old.iter().map(Vec::as_slice))
            .collect();
        let image = behind_files(r, sectors).filled(0).codes(0, &placed).image();
        let most = (q * sectors).min(2 * q + 2).max(sectors + 1);
        let words = format!(
            "@3 open {} {} put:1 put:{q}:2 look:0 look:1 look:2 look:{} look:{q} look:{} {}",
            each(0..most, |g| format!("look:{g}")),
            each((0..sectors).map(|k| k * q), |g| format!("get:{g}")),
            q - 1,
            q + 1,
            shown_whole(sectors)
        );
        case(format!("granule-old-image-r{r}"), rule, image, r, &words)
    };
    [2, 4, 60, 62, 100, 120, 178, 180, 182, 360]
        .iter()
        .map(case_of)
        .collect()
}

/// Sessions whose table has another R, kind or number of sectors for the random file than the directory.
fn other_tables() -> Vec<Case> {
    let rule = "Requests go by the session's table; R as the directory in the image has it is what a read's sum is of";
    let mut cases = Vec::new();
    for (directory, table) in [
        (360, 60),
        (60, 360),
        (180, 182),
        (182, 180),
        (62, 60),
        (2, 178),
        (362, 2),
    ] {
        let image = behind_files(directory, 4).image();
        let made = Handmade::mounted(&image).word(3, 10, table as u16);
        let most = granule_capacity(table, 4);
        let words = format!(
            "@3 open {} {} get:0:362 get:{}:{table} close",
            each([0, 1, most - 1, most], tried),
            each([3, 5, 6], |g| format!("put:{g}:2 look:{g}")),
            most - 1,
        );
        let name = format!("granule-table-r{table}-directory-r{directory}");
        let told = case(name, rule, image, table, &words);
        cases.push(told.with_sessions(made.patches()));
    }
    for (name, at, value, words) in [
        (
            "one-sector",
            14,
            1,
            "@3 open look:5 put:5:2 look:6 put:6:2 get:23",
        ),
        (
            "more-sectors",
            14,
            7,
            "@3 open look:23 put:23:2 look:24 put:41:60 look:41 look:42",
        ),
        (
            "elsewhere",
            12,
            6,
            "@3 open look:0 put:0:60 put:5:2 look:6 put:23:60 look:24",
        ),
        (
            "unblocked",
            8,
            UNBLOCKED,
            "@3 open look:0 put:0:2 write:60*5 rewind read*5 close",
        ),
        (
            "blocked",
            8,
            BLOCKED,
            "@3 open look:0 put:0:2 write:60*7 rewind read*7 close",
        ),
    ] {
        let image = behind_files(60, 4).image();
        let made = Handmade::mounted(&image).word(3, at, value);
        let told = case(format!("granule-table-{name}"), rule, image, 60, words);
        cases.push(told.with_sessions(made.patches()));
    }
    cases
}

/// A random file of a session that says that it holds a sector, changed: nothing comes of it.
fn held_sectors() -> Vec<Case> {
    let rule = "Only a blocked or compressed file has a buffer, so nothing comes of what another says it holds";
    let case_of = |&r: &usize| {
        let image = behind_files(r, 3).image();
        let opened = Handmade::mounted(&image).open(2, 3).holding(2, 1, true);
        let made = opened.buffer(2, 0, &[0xEE; SECTOR]);
        let q = in_a_sector(r);
        let words = format!(
            "@3 {} put:{q}:2 look:{q} @0 open write:100 @3 put:{} look:{q} @0 close @3 {}",
            each([q - 1, q, 2 * q - 1], |g| format!("look:{g} get:{g}")),
            2 * q - 1,
            shown_whole(3)
        );
        let told = case(format!("granule-held-r{r}"), rule, image, r, &words);
        told.with_sessions(made.patches())
    };
    [2, 60, 62, 180, 182].iter().map(case_of).collect()
}
