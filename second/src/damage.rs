//! Damaged images: each rule of a good directory broken, singly and in pairs, every byte of a
//! small directory changed, bad codes.

use crate::cases::Case;
use crate::coding::GO_ON;
use crate::directory::{directory_is_good, table_of, ENTRIES, ENTRY_BYTES};
use crate::directory::{BLOCKED, COMPRESSED, MARKED, PROTECTED, RANDOM, UNBLOCKED};
use crate::disk::Disk;
use crate::generate::{extent_mut, foreign_code, put_entry, random_text};
use crate::image::{put_word, BLANK, SECTOR};
use crate::notation::script;
use crate::random::Random;

pub fn damaged_cases(random: &mut Random) -> Vec<Case> {
    let none = damaged(
        "damage-none",
        "A directory is good exactly if ...",
        small_image(),
    );
    let mut cases = vec![none];
    cases.extend(single_cases());
    cases.extend(emptied_cases());
    cases.extend(pair_cases());
    cases.extend(edge_cases());
    cases.extend(byte_cases(random));
    cases.extend(length_cases());
    cases.extend(bad_code_cases());
    cases
}

/// Four files of the four kinds in entries 0 to 3 of eleven sectors.
pub fn small_image() -> Vec<u8> {
    Disk::used(11)
        .file(0, UNBLOCKED, 400, 4)
        .named("ALPHA")
        .holding(2)
        .flags(MARKED)
        .file(1, BLOCKED, 100, 2)
        .named("BETA1")
        .holding(6)
        .flags(PROTECTED)
        .file(2, COMPRESSED, 80, 2)
        .named("GAMMA")
        .records(&[vec![BLANK; 80], vec![0xC1; 80], vec![0xF1; 80]])
        .flags(MARKED | PROTECTED)
        .file(3, RANDOM, 360, 2)
        .named("DELTA22X")
        .image()
}

/// A case on the small image or one made of it: opens everything, reads, writes a little and
/// closes.
fn damaged(name: impl Into<String>, rule: &'static str, image: Vec<u8>) -> Case {
    let words = "open read @1 open read @2 open read @3 open read @4 open read @17 open @18 open
        @3 get:1 put:0:2 @0 write:4 close @1 close @2 close @3 close";
    Case::new(name, rule, image, script(400, words))
}

/// A case of one changed part of an entry: some few requests on that entry.
fn changed(name: String, rule: &'static str, image: Vec<u8>, entry: usize) -> Case {
    let words = match (directory_is_good(&image), entry) {
        (false, _) => "open read close",
        (true, 3) => "open look:0 put:1:2 get:1 close",
        _ => "open read file-forward file-back write:2 close",
    };
    Case::new(
        name,
        rule,
        image,
        script(4_000, &format!("@{entry} {words}")),
    )
}

/// One way to break a rule: a word at a byte of an entry. A name's rules are broken by a word of
/// two letters.
pub struct Break {
    pub name: &'static str,
    pub rule: &'static str,
    pub entry: usize,
    pub at: usize,
    pub word: u16,
}

const KINDS: &str = "kinds are 0 to 4";
const FREE: &str = "free entries are 20 zero bytes";
const NAMES: &str = "a name is a capital letter followed by capitals or digits, then only blanks";
const LEAST: &str = "first sector and sector count are at least 1";
const SUM: &str = "their sum is at most N";
const SHARE: &str = "extents share no sector";
const FLAGS: &str = "flags are 0 to 3";
const EVEN: &str = "R is even";
const LENGTHS: &str = "2 to 3,600 for kinds 1 and 4, 2 to 360 for kind 2, 2 to 132 for kind 3";
const COUNT: &str = "the count is at most the capacity for kinds 1 and 2";
const RANDOMS: &str = "kind 4 has count 0 and is not marked";
const DECODE: &str = "kind 3's first \"count\" records decode one after another inside the extent";

/// Every rule, with words that break it.
pub const BREAKS: [Break; 40] = [
    broken("kind-5", KINDS, 0, 8, 5),
    broken("kind-large", KINDS, 1, 8, 0x0100),
    broken("free-name", FREE, 4, 0, 0xC1C1),
    broken("free-blank-name", FREE, 17, 6, 0x4040),
    broken("free-length", FREE, 5, 10, 80),
    broken("free-first", FREE, 6, 12, 1),
    broken("free-sectors", FREE, 7, 14, 1),
    broken("free-count", FREE, 8, 16, 1),
    broken("free-flags", FREE, 17, 18, 1),
    broken("used-made-free", FREE, 1, 8, 0),
    broken("name-digit-first", NAMES, 0, 0, 0xF1C1),
    broken("name-blank-first", NAMES, 0, 0, 0x40C1),
    broken("name-small-letter", NAMES, 1, 2, 0xA381),
    broken("name-between-letters", NAMES, 2, 2, 0xCAC1),
    broken("name-e1", NAMES, 0, 2, 0xE1C1),
    broken("name-zero-behind", NAMES, 0, 6, 0x0000),
    broken("name-letter-behind-blank", NAMES, 0, 6, 0x40C1),
    broken("name-fa", NAMES, 3, 6, 0xFAE7),
    broken("first-0", LEAST, 0, 12, 0),
    broken("sectors-0", LEAST, 1, 14, 0),
    broken("sum-over-n", SUM, 3, 14, 3),
    broken("sum-over-a-word", SUM, 3, 12, 0xFFFF),
    broken("sectors-largest", SUM, 3, 14, 0xFFFF),
    broken("shares-with-next", SHARE, 0, 14, 5),
    broken("shares-with-last", SHARE, 2, 12, 6),
    broken("shares-all", SHARE, 3, 12, 1),
    broken("flags-4", FLAGS, 0, 18, 4),
    broken("flags-large", FLAGS, 1, 18, 0x0100),
    broken("length-odd", EVEN, 0, 10, 399),
    broken("length-0", LENGTHS, 1, 10, 0),
    broken("length-over-3600", LENGTHS, 0, 10, 3_602),
    broken("length-over-360", LENGTHS, 1, 10, 362),
    broken("length-over-132", LENGTHS, 2, 10, 134),
    broken("length-over-3600-random", LENGTHS, 3, 10, 3_602),
    broken("count-over-unblocked", COUNT, 0, 16, 3),
    broken("count-over-blocked", COUNT, 1, 16, 7),
    broken("count-of-random", RANDOMS, 3, 16, 1),
    broken("random-marked", RANDOMS, 3, 18, 1),
    broken("random-both", RANDOMS, 3, 18, 3),
    broken("count-behind-codes", DECODE, 2, 16, 9),
];

const fn broken(
    name: &'static str,
    rule: &'static str,
    entry: usize,
    at: usize,
    word: u16,
) -> Break {
    Break {
        name,
        rule,
        entry,
        at,
        word,
    }
}

impl Break {
    pub fn apply(&self, image: &mut [u8]) {
        put_word(image, self.entry * ENTRY_BYTES + self.at, self.word);
    }
}

fn single_cases() -> Vec<Case> {
    let mut cases = Vec::new();
    for way in &BREAKS {
        let mut image = small_image();
        way.apply(&mut image);
        cases.push(damaged(format!("damage-{}", way.name), way.rule, image));
    }
    cases.push(damaged(
        "damage-same-names",
        "names differ",
        same_names(small_image()),
    ));
    cases
}

/// Rules that a file with records breaks only together with the rule for its count: the count is
/// 0 here.
pub const EMPTIED: [Break; 10] = [
    broken("sectors-0", LEAST, 0, 14, 0),
    broken("sectors-0-blocked", LEAST, 1, 14, 0),
    broken("sectors-0-compressed", LEAST, 2, 14, 0),
    broken("sectors-0-random", LEAST, 3, 14, 0),
    broken("length-0", LENGTHS, 0, 10, 0),
    broken("length-odd-blocked", EVEN, 1, 10, 99),
    broken("length-odd-compressed", EVEN, 2, 10, 79),
    broken("length-over-3600", LENGTHS, 0, 10, 3_602),
    broken("length-over-360", LENGTHS, 1, 10, 362),
    broken("length-over-132", LENGTHS, 2, 10, 134),
];

fn emptied_cases() -> Vec<Case> {
    let mut cases = Vec::new();
    for way in &EMPTIED {
        let mut image = small_image();
        put_word(&mut image, way.entry * ENTRY_BYTES + 16, 0);
        way.apply(&mut image);
        let name = format!("damage-emptied-{}", way.name);
        cases.push(damaged(name, way.rule, image));
    }
    cases
}

/// The last of four files has the first one's name.
pub fn same_names(mut image: Vec<u8>) -> Vec<u8> {
    image.copy_within(..8, 3 * ENTRY_BYTES);
    image
}

fn pair_cases() -> Vec<Case> {
    let mut cases = Vec::new();
    for (i, one) in BREAKS.iter().enumerate() {
        for other in &BREAKS[..i] {
            let mut image = small_image();
            one.apply(&mut image);
            other.apply(&mut image);
            let name = format!("damage-pair-{}-{}", other.name, one.name);
            cases.push(changed(name, one.rule, image, one.entry));
        }
    }
    cases
}

/// Words at the very edge of the rules, on the good side.
pub const EDGES: [Break; 19] = [
    broken("length-least", LENGTHS, 0, 10, 2),
    broken("length-3600", LENGTHS, 3, 10, 3_600),
    broken("length-other", LENGTHS, 1, 10, 60),
    broken("length-132", LENGTHS, 2, 10, 132),
    broken("length-just-codes", LENGTHS, 2, 10, 80),
    broken("length-under-codes", LENGTHS, 2, 10, 78),
    broken("sectors-fewer", LEAST, 3, 14, 1),
    broken("count-0", COUNT, 0, 16, 0),
    broken("count-0-blocked", COUNT, 1, 16, 0),
    broken("count-0-compressed", COUNT, 2, 16, 0),
    broken("count-1-compressed", COUNT, 2, 16, 1),
    broken("flags-3", FLAGS, 0, 18, 3),
    broken("random-protected", RANDOMS, 3, 18, 2),
    broken("name-one-letter-more", NAMES, 0, 4, 0xC1E9),
    broken("name-all-digits-behind", NAMES, 0, 2, 0xF0F9),
    broken("kind-2-for-1", KINDS, 0, 8, 2),
    broken("kind-4-for-1", KINDS, 0, 8, 4),
    broken("kind-1-for-4", KINDS, 3, 8, 1),
    broken("kind-3-for-2", KINDS, 1, 8, 3),
];

fn edge_cases() -> Vec<Case> {
    let mut cases = Vec::new();
    for edge in &EDGES {
        let mut image = small_image();
        edge.apply(&mut image);
        cases.push(damaged(format!("edge-{}", edge.name), edge.rule, image));
    }
    cases
}

/// Every byte of the directory changed to some other values.
fn byte_cases(random: &mut Random) -> Vec<Case> {
    let mut cases = Vec::new();
    for at in 0..SECTOR {
        for value in other_values(random, at) {
            let mut image = small_image();
            image[at] = value;
            let rule = "A directory is good exactly if ...";
            let name = format!("byte-{at:03}-{value:02x}");
            cases.push(changed(name, rule, image, at / ENTRY_BYTES));
        }
    }
    cases
}

/// Values for a byte of the small directory, other than its own: more for one that is in use.
fn other_values(random: &mut Random, at: usize) -> Vec<u8> {
    let old = small_image()[at];
    let mut values = vec![old ^ 1, random.byte()];
    if at < 4 * ENTRY_BYTES {
        values.extend([old ^ 0x80, old.wrapping_add(3)]);
    }
    if at < 4 * ENTRY_BYTES && at % ENTRY_BYTES < 8 {
        values.extend([0xC9, BLANK]);
    }
    values.retain(|&value| value != old);
    values.sort_unstable();
    values.dedup();
    values
}

/// Lengths that are not lawful: every request is then answered 12.
fn length_cases() -> Vec<Case> {
    let mut cases = Vec::new();
    for length in [0, 1, 20, 359, 361, 719, 3_599, 3_958, 3_961] {
        let mut image = small_image();
        image.resize(length, 0);
        let words = "open read write:1 get:0 put:0:1 look:0 mark rewind forward back file-forward
            file-back close @18 open";
        let rule = "An image is 360·N bytes; 12: session not legal for this image";
        let name = format!("length-{length}");
        cases.push(Case::new(name, rule, image, script(400, words)));
    }
    cases
}

// ---------------------------------------------------------------------------------------------
// Bad codes, among the counted records and behind them.

/// A file of R 10 in two sectors, with these codes at these bytes of the extent.
fn coded_image(codes: &[(usize, &[u8])], count: u16) -> Vec<u8> {
    Disk::empty(3)
        .file(0, COMPRESSED, 10, 2)
        .filled(0x11)
        .codes(usize::from(count), codes)
        .image()
}

/// A sector of empty records up to byte `end`.
fn empties(end: usize) -> Vec<u8> {
    vec![0; end]
}

fn bad_code_cases() -> Vec<Case> {
    let mut cases = Vec::new();
    let bad: [(&str, &[u8]); 9] = [
        (
            "eleven-characters",
            &[11, 1, 2, 3, 4, 5, 6, 7, 8, 9, 10, 11, 0],
        ),
        ("eleven-blanks", &[0x8B, 0]),
        ("eleven-by-runs", &[5, 1, 2, 3, 4, 5, 0x86, 0]),
        (
            "one-blank-too-many",
            &[10, 1, 2, 3, 4, 5, 6, 7, 8, 9, 10, 0x81, 0],
        ),
        ("go-on-inside", &[1, 0xC1, GO_ON, 0]),
        ("go-on-behind-blanks", &[0x82, GO_ON, 0]),
        ("blanks-largest", &[0xFF, 0]),
        ("characters-largest", &[0x7F, 0]),
        ("good", &[1, 0xC1, 0]),
    ];
    for (name, code) in bad {
        for count in [1, 2] {
            let image = coded_image(&[(0, &[0]), (1, code)], count);
            cases.push(code_case(name, count, image));
        }
    }
    cases.extend(sector_end_cases());
    cases
}

fn code_case(name: &str, count: u16, image: Vec<u8>) -> Case {
    let rule = "A code is bad if it runs past its sector, gives more than R \
                characters, has 128 elsewhere, or leaves the extent";
    let words = "open read*4 text:AB close open read close";
    Case::new(
        format!("code-{name}-count{count}"),
        rule,
        image,
        script(10, words),
    )
}

/// Codes at the ends of sectors and of the extent.
fn sector_end_cases() -> Vec<Case> {
    let full = empties(SECTOR);
    let one_left = empties(359);
    let two_left = empties(358);
    vec![
        // 128 at byte 0 of a sector.
        code_case("go-on-at-0", 1, coded_image(&[(0, &[GO_ON, 0])], 1)),
        code_case("go-on-at-0-behind", 0, coded_image(&[(0, &[GO_ON, 0])], 0)),
        code_case(
            "go-on-at-0-of-next",
            361,
            coded_image(&[(0, &full), (360, &[GO_ON])], 361),
        ),
        code_case(
            "go-on-twice",
            2,
            coded_image(&[(0, &[0, GO_ON]), (360, &[GO_ON])], 2),
        ),
        // Go-ons that are lawful, at byte 1 and at byte 359, and a place at byte 360.
        code_case(
            "go-on-at-1",
            2,
            coded_image(&[(0, &[0, GO_ON]), (360, &[0])], 2),
        ),
        code_case(
            "go-on-at-359",
            360,
            coded_image(&[(0, &one_left), (359, &[GO_ON, 1, 0xC1, 0])], 360),
        ),
        code_case(
            "place-360",
            361,
            coded_image(&[(0, &full), (360, &[0x82, 0])], 361),
        ),
        code_case("place-360-end", 360, coded_image(&[(0, &full)], 360)),
        // Codes that run past their sector.
        code_case(
            "characters-past-sector",
            359,
            coded_image(&[(0, &two_left), (358, &[2, 0xC1, 0xC2, 0])], 359),
        ),
        code_case(
            "last-character-is-zero",
            358,
            coded_image(&[(0, &empties(357)), (357, &[2, 0xC1, 0])], 358),
        ),
        code_case(
            "end-past-sector",
            359,
            coded_image(&[(0, &two_left), (358, &[1, 0xC1, 0])], 359),
        ),
        code_case(
            "blanks-past-sector",
            360,
            coded_image(&[(0, &one_left), (359, &[0x81, 0])], 360),
        ),
        code_case(
            "two-left-end-in-sector",
            359,
            coded_image(&[(0, &two_left), (358, &[0x81, 0])], 359),
        ),
        // Codes that leave the extent.
        code_case(
            "leaves-by-go-on",
            362,
            coded_image(&[(0, &full), (360, &[0, GO_ON])], 362),
        ),
        code_case(
            "leaves-by-360",
            721,
            coded_image(&[(0, &full), (360, &full)], 721),
        ),
        code_case(
            "fills-extent",
            720,
            coded_image(&[(0, &full), (360, &full)], 720),
        ),
    ]
}

// ---------------------------------------------------------------------------------------------
// Random damage.

/// Damages a random image in one way.
pub fn disturb(random: &mut Random, image: &mut Vec<u8>) {
    match random.between(0, 7) {
        0 => image.truncate(image.len() - random.between(1, SECTOR)),
        1 => BREAKS[random.between(0, BREAKS.len() - 1)].apply(image),
        2 => {
            let at = random.between(0, SECTOR - 1);
            image[at] = random.byte();
        }
        _ => disturb_codes(random, image),
    }
}

/// Gives a compressed file, if there is one, empty records and then a bad code.
fn disturb_codes(random: &mut Random, image: &mut [u8]) {
    let table = table_of(image);
    let files: Vec<usize> = (0..ENTRIES)
        .filter(|&number| table[number].kind == COMPRESSED)
        .collect();
    if files.is_empty() {
        return;
    }
    let number = random.pick(&files);
    let mut entry = table[number];
    let extent = extent_mut(image, &entry);
    let (before, code) = bad_code(random, entry.r(), extent.len());
    extent[..before].fill(0);
    let end = extent.len().min(before + code.len());
    extent[before..end].copy_from_slice(&code[..end - before]);
    entry.count = before as u32 + 1;
    put_entry(image, number, &entry);
}

/// A bad code, and how many empty records stand before it in its extent.
fn bad_code(random: &mut Random, r: usize, extent: usize) -> (usize, Vec<u8>) {
    let mut text = random_text(random, r);
    if random.chance(30) {
        text.fill(0);
    }
    text[r - 1] = 0xC1;
    let good = foreign_code(random, &text);
    text.push(0xC1);
    match random.between(0, 4) {
        // "runs past its sector"
        0 => (SECTOR - random.between(1, good.len() - 1), good),
        // "gives more than R characters"
        1 => (random.between(0, 80), foreign_code(random, &text)),
        // "has 128 elsewhere": behind a run, and at byte 0 of a sector
        2 => (
            random.between(0, 80),
            [&[1, 0xC1, GO_ON][..], &foreign_code(random, &text[2..])].concat(),
        ),
        3 => (0, [&[GO_ON; SECTOR][..], &good].concat()),
        // "leaves the extent"
        _ => (extent, vec![]),
    }
}
