//! The images that the program `list_cases` lists, and what it prints. A case of its file is a
//! length of four bytes, high byte first, and that many bytes.

use std::fmt::Write;

use crate::characters::letters;
use crate::coding::GO_ON;
use crate::damage::{same_names, small_image, Break, BREAKS};
use crate::directory::{BLOCKED, COMPRESSED, MARKED, PROTECTED, RANDOM, UNBLOCKED};
use crate::disk::Disk;
use crate::edits::listed_after;
use crate::image::{BLANK, SECTOR};
use crate::listing::listing;

/// Where the words of an entry stand.
const KIND: usize = 8;
const LENGTH: usize = 10;
const FIRST: usize = 12;
const SECTORS: usize = 14;
const COUNT: usize = 16;
const FLAGS: usize = 18;

/// The images, by the rules that they try.
pub fn listed_images() -> Vec<Vec<u8>> {
    [
        files(),
        lengths(),
        kinds_and_free_entries(),
        names(),
        extents(),
        flags(),
        record_lengths(),
        counts(),
        good_codes(),
        bad_codes(),
        broken_rules(),
        listed_after(),
    ]
    .concat()
}

/// The file of these images.
pub fn listed_file(images: &[Vec<u8>]) -> Vec<u8> {
    let case = |image: &Vec<u8>| [&(image.len() as u32).to_be_bytes(), &image[..]].concat();
    images.iter().flat_map(case).collect()
}

/// The images of a file, or one line that tells what is wrong with it.
pub fn images_of(file: &[u8]) -> Result<Vec<Vec<u8>>, String> {
    let mut images = Vec::new();
    let mut rest = file;
    while let Some((length, behind)) = rest.split_first_chunk() {
        let length = u32::from_be_bytes(*length) as usize;
        let image = behind.get(..length).ok_or("the file is cut short")?;
        images.push(image.to_vec());
        rest = &behind[length..];
    }
    Ok(images)
}

/// What `list_cases` prints for these images.
pub fn expected_listings(images: &[Vec<u8>]) -> String {
    let mut text = String::new();
    for (number, image) in (1..).zip(images) {
        let _ = write!(text, "CASE {number}\n{}", listing(image));
    }
    text
}

// ---------------------------------------------------------------------------------------------
// Images.

/// Four sectors and two files: one of that kind, and a blocked one behind it.
fn two(kind: u16, r: usize, sectors: usize) -> Disk {
    let first = Disk::empty(4).file(0, kind, r, sectors).named("LOG7");
    first.file(1, BLOCKED, 180, 1).named("BUS")
}

/// The same with a blocked first file of one record.
fn logged() -> Disk {
    let disk = two(BLOCKED, 90, 1).word(0, COUNT, 1);
    disk.bytes(SECTOR, &[0xC1, 0xC2])
}

/// A word of the first entry is another.
fn with_word(at: usize, value: u16) -> Vec<u8> {
    logged().word(0, at, value).image()
}

fn word_of(kind: u16, r: usize, sectors: usize, at: usize, value: u16) -> Vec<u8> {
    two(kind, r, sectors).word(0, at, value).image()
}

/// The first file has those eight bytes as its name.
fn named(name: &[u8]) -> Vec<u8> {
    logged().bytes(0, name).image()
}

/// A compressed first file of R 80 in two sectors.
fn coded(count: u16, code: &[u8]) -> Vec<u8> {
    coded_in(80, 2, count, code)
}

fn coded_in(r: usize, sectors: usize, count: u16, code: &[u8]) -> Vec<u8> {
    let disk = two(COMPRESSED, r, sectors).word(0, COUNT, count);
    disk.bytes(SECTOR, code).image()
}

/// Images with no or many files.
fn files() -> Vec<Vec<u8>> {
    let text = [("AB", 80), ("C  D", 80)].map(|(text, r)| record(text, r));
    let compressed = Disk::empty(4).file(0, COMPRESSED, 80, 1).named("LOG7");
    let compressed = compressed.records(&text).file(1, BLOCKED, 180, 1);
    let far = Disk::empty(4).file(0, BLOCKED, 90, 1).named("A");
    let lone = Disk::empty(3).file(9, UNBLOCKED, 10, 2).named("S3");
    vec![
        vec![],
        vec![0],
        Disk::empty(1).image(),
        Disk::empty(2).image(),
        passa(),
        full(),
        logged().image(),
        two(UNBLOCKED, 362, 2)
            .word(0, COUNT, 1)
            .bytes(SECTOR, &[0xC1, 0xC2])
            .image(),
        compressed.named("BUS").image(),
        two(RANDOM, 360, 2).bytes(SECTOR, &[0xC1, 0xC2]).image(),
        far.file(17, RANDOM, 2, 2)
            .named("ZZZZZZZZ")
            .flags(PROTECTED)
            .image(),
        lone.holding(2).flags(MARKED | PROTECTED).image(),
    ]
}

fn record(text: &str, r: usize) -> Vec<u8> {
    let mut record = letters(text);
    record.resize(r, BLANK);
    record
}

/// Document 01's whole case: "ten sectors, one file".
fn passa() -> Vec<u8> {
    let texts = ["PASS 0412  AOS 071402  LOS 072511", "FRAMES 660  LOST 3"];
    let records = texts.map(|text| record(text, 80));
    let disk = Disk::empty(10).file(0, COMPRESSED, 80, 4).named("PASSA");
    disk.records(&records).flags(MARKED).image()
}

/// 18 files, of every kind in turn, with names of one to eight characters.
fn full() -> Vec<u8> {
    let mut disk = Disk::empty(40);
    for (k, letter) in "AIJKLMRSTUVWXYZBCD".chars().enumerate() {
        let kind = 1 + k as u16 % 4;
        let may = if kind == RANDOM { PROTECTED } else { 3 };
        let name = format!("{letter}{}", &"9876543"[..k % 8]);
        let file = disk.file(k, kind, 2 + 2 * k, 1 + k % 3).named(&name);
        disk = file.flags((k as u16 % 4) & may);
    }
    disk.image()
}

/// n sectors, filled by one file of as many records as it can hold.
fn large(n: usize) -> Vec<u8> {
    let disk = Disk::empty(n).file(0, BLOCKED, 2, n - 1).named("LARGE");
    disk.holding(180 * (n - 1)).image()
}

/// "An image is 360·N bytes"; "A bad or longer image prints only `BAD IMAGE`."
fn lengths() -> Vec<Vec<u8>> {
    let shorter = logged().image()[..4 * SECTOR - 1].to_vec();
    let longer = [logged().image(), vec![0]].concat();
    vec![shorter, longer, large(180), large(181)]
}

/// "kinds are 0 to 4; free entries are 20 zero bytes"
fn kinds_and_free_entries() -> Vec<Vec<u8>> {
    vec![
        with_word(KIND, 5),
        with_word(KIND, 256),
        with_word(KIND, 0),
        logged().bytes(100, &[BLANK]).image(),
        logged().word(5, COUNT, 1).image(),
        logged().word(17, FLAGS, 1).image(),
    ]
}

/// "a name is a capital letter (C1–C9, D1–D9, E2–E9) followed by capitals or digits (F0–F9), then
/// only blanks; names differ"
fn names() -> Vec<Vec<u8>> {
    let told = [
        "LOG7    ", "LOGGER88", "Z       ", "A0123456", "7LOG    ", " LOG    ", "        ",
        "LO G    ", "LOG    X",
    ];
    let small = [&letters("LO"), &[0x87][..], &letters("     ")].concat();
    let dash = [&letters("LO"), &[0x60][..], &letters("G    ")].concat();
    let short = [&letters("LOG"), &[0; 5][..]].concat();
    let mut images: Vec<Vec<u8>> = told.iter().map(|name| named(&letters(name))).collect();
    images.extend([small, dash, vec![0; 8], short].map(|name| named(&name)));
    let edges = [
        0xC0, 0xC1, 0xC9, 0xCA, 0xD0, 0xD1, 0xD9, 0xDA, 0xE1, 0xE2, 0xE9, 0xEA, 0xEF, 0xF0, 0xF9,
        0xFA,
    ];
    images.extend(edges.map(|c| named(&[&[0xC1, c][..], &[BLANK; 6]].concat())));
    images.push(named(&letters("BUS     ")));
    images
}

/// "first sector and sector count are at least 1 and their sum is at most N; extents share no
/// sector"
fn extents() -> Vec<Vec<u8>> {
    let words = [
        (FIRST, 0),
        (SECTORS, 0),
        (FIRST, 3),
        (FIRST, 4),
        (FIRST, 65_535),
        (SECTORS, 65_535),
        (FIRST, 2),
        (SECTORS, 2),
    ];
    words.map(|(at, value)| with_word(at, value)).to_vec()
}

/// "flags are 0 to 3"
fn flags() -> Vec<Vec<u8>> {
    [2, 3, 4, 256].map(|flags| with_word(FLAGS, flags)).to_vec()
}

/// "R is even and 2 to 3,600 for kinds 1 and 4, 2 to 360 for kind 2, 2 to 132 for kind 3"
fn record_lengths() -> Vec<Vec<u8>> {
    let mut images = Vec::new();
    for (kind, most) in [
        (UNBLOCKED, 3_600),
        (BLOCKED, 360),
        (COMPRESSED, 132),
        (RANDOM, 3_600),
    ] {
        for r in [0, 2, 3, most, most + 2] {
            images.push(word_of(kind, 90, 1, LENGTH, r));
        }
    }
    images
}

/// "the count is at most the capacity for kinds 1 and 2; kind 4 has count 0 and is not marked"
fn counts() -> Vec<Vec<u8>> {
    vec![
        with_word(COUNT, 4),
        with_word(COUNT, 5),
        word_of(UNBLOCKED, 362, 2, COUNT, 1),
        word_of(UNBLOCKED, 362, 2, COUNT, 2),
        word_of(UNBLOCKED, 362, 1, COUNT, 1),
        word_of(RANDOM, 90, 1, COUNT, 1),
        word_of(RANDOM, 90, 1, FLAGS, MARKED),
        word_of(RANDOM, 90, 1, FLAGS, PROTECTED),
        word_of(RANDOM, 90, 1, FLAGS, MARKED | PROTECTED),
    ]
}

/// 120 bytes of two records.
fn filler() -> Vec<u8> {
    [&[117][..], &[0xC1; 117], &[0, 0]].concat()
}

/// "kind 3's first "count" records decode one after another inside the extent"
fn good_codes() -> Vec<Vec<u8>> {
    let later = [
        &[1, 0xC1, 0x82, 1, 0xC2, 0][..],
        &[GO_ON; 354],
        &[0x85, 1, 0xE7, 0],
    ]
    .concat();
    let mixed = [&[40][..], &[0xC1; 40], &[0xA8, 0]].concat();
    vec![
        coded(1, &[2, 0xC1, 0xC2, 0, 1]),
        coded(1, &[&[0][..], &[200; 300]].concat()),
        coded(2, &later),
        coded(2, &[1, 0xC1, 1, 0xC2, 0x81, 0x81, 0, 0]),
        coded_in(132, 2, 7, &[filler().repeat(3), vec![0]].concat()),
        coded(360, &[0; 360]),
        coded(720, &[0; 720]),
        coded(1, &[0xD0, 0]),
        coded(1, &mixed),
    ]
}

/// Past R, 128 elsewhere, past the sector, past the extent.
fn bad_codes() -> Vec<Vec<u8>> {
    let forty = [&[40][..], &[0xC1; 40]].concat();
    let blanks_over = [&forty[..], &[0xA9, 0]].concat();
    let characters_over = [&forty[..], &[41], &[0xC1; 41], &[0]].concat();
    let late = [&[0, GO_ON][..], &[0; 358], &[GO_ON]].concat();
    let past = [
        &filler().repeat(2)[..],
        &[79],
        &[0xC1; 79],
        &[0, 39],
        &[0xC1; 38],
    ]
    .concat();
    let cut = [&filler().repeat(2)[..], &[117], &[0xC1; 117], &[1, 0xC1]].concat();
    vec![
        coded(1, &[0xD1, 0]),
        coded(1, &blanks_over),
        coded(1, &characters_over),
        coded(1, &[GO_ON]),
        coded(1, &[1, 0xC1, GO_ON]),
        coded(2, &late),
        coded_in(132, 2, 6, &past),
        coded_in(132, 2, 5, &cut),
        coded(721, &[0; 720]),
        coded_in(80, 1, 2, &[&[0][..], &[GO_ON; 359]].concat()),
        coded(65_535, &[0; 720]),
        // A 128 at byte 0, and good codes in the next sector.
        coded(1, &[&[GO_ON; 360][..], &[0]].concat()),
    ]
}

// ---------------------------------------------------------------------------------------------
// Every rule broken, singly and in pairs.

fn broken_rules() -> Vec<Vec<u8>> {
    let mut images = vec![small_image(), same_names(small_image())];
    images.push(word_of(RANDOM, 90, 1, SECTORS, 0));
    images.extend(BREAKS.iter().map(|way| broken(&[way])));
    let firsts = first_of_each_rule();
    for (i, one) in firsts.iter().enumerate() {
        images.push(same_names(broken(&[one])));
        images.extend(firsts[..i].iter().map(|other| broken(&[one, other])));
    }
    images
}

fn broken(ways: &[&Break]) -> Vec<u8> {
    let mut image = small_image();
    for way in ways {
        way.apply(&mut image);
    }
    image
}

/// For each rule the first of the words that break it.
fn first_of_each_rule() -> Vec<&'static Break> {
    let mut firsts: Vec<&Break> = Vec::new();
    for way in &BREAKS {
        if firsts.iter().all(|first| first.rule != way.rule) {
            firsts.push(way);
        }
    }
    firsts
}
