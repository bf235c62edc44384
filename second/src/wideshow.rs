//! Random cases of the pass listing: images as those of a wide run, with more text in them, damaged ones and
//! ones that a script left among them; names of their files, names much like these, and others.

use crate::cases::{numbered, Case};
use crate::damage::disturb;
use crate::directory::{table_of, Entry, BLOCKED, ENTRIES, UNBLOCKED};
use crate::disk::record_start;
use crate::generate::{extent_mut, random_script, roomy_image, Sort};
use crate::image::{BLANK, SECTOR};
use crate::play::play;
use crate::random::Random;
use crate::session::Engine;
use crate::shown::listed_codes;
use crate::sought::names_in;

/// Cases that share an image, one behind another; the last of them may have it damaged.
const SHARED: usize = 8;

/// The requests of a script that leaves an image.
const REQUESTS: usize = 60;

/// Random case `number` of a seed.
pub fn wide_show_case(seed: u64, number: usize) -> Case {
    let mut image = shared_image(seed, number / SHARED);
    let mut random = numbered(seed, 2 * number + 1);
    if number % SHARED == SHARED - 1 && random.chance(50) {
        disturb(&mut random, &mut image);
    }
    let typed = random_typed(&mut random, &image);
    let name = format!("show-wide-{number:05}");
    Case::of_name(name, "the pass listing of any file", image, &typed)
}

fn shared_image(seed: u64, group: usize) -> Vec<u8> {
    let mut random = numbered(seed, 2 * group);
    let mut image = image_with_files(&mut random);
    if random.chance(70) {
        put_texts(&mut random, &mut image);
    }
    if random.chance(50) {
        image = left_by_script(&mut random, image);
    }
    if random.chance(2) {
        let n = random.pick(&[180, 181, 182]);
        image.resize(n * SECTOR, 0);
    }
    image
}

/// Mostly an image that has a file.
fn image_with_files(random: &mut Random) -> Vec<u8> {
    loop {
        let image = roomy_image(random, Sort::Wide);
        if !names_in(&table_of(&image)).is_empty() || random.chance(20) {
            return image;
        }
    }
}

/// The image that a random script leaves, all files closed.
fn left_by_script(random: &mut Random, image: Vec<u8>) -> Vec<u8> {
    let mut script = random_script(random, &image, REQUESTS, Sort::Wide);
    for number in 0..ENTRIES as u16 {
        script.close(number);
    }
    play(Engine::Plain, image, &[], &script).image
}

/// Gives the records of unblocked and blocked files text.
fn put_texts(random: &mut Random, image: &mut [u8]) {
    let sequential = |entry: &Entry| matches!(entry.kind, UNBLOCKED | BLOCKED);
    for entry in table_of(image).iter().filter(|entry| sequential(entry)) {
        let extent = extent_mut(image, entry);
        for k in 0..entry.count as usize {
            let at = record_start(entry, k);
            extent[at..at + entry.r()].copy_from_slice(&line(random, entry.r()));
        }
    }
}

/// Groups of blanks, of listed characters and of any bytes; blanks or zeros up to R.
fn line(random: &mut Random, r: usize) -> Vec<u8> {
    let listed = listed_codes();
    let told = random.between(0, r);
    let mut text = Vec::new();
    while text.len() < told {
        for _ in 0..random.between(1, 12) {
            text.push(random.pick(&listed));
        }
        let group = random.between(1, 8);
        if random.chance(60) {
            text.resize(text.len() + group, BLANK);
        } else {
            text.extend(random.bytes(group));
        }
    }
    text.truncate(told);
    text.resize(r, random.pick(&[BLANK, BLANK, BLANK, 0]));
    text
}

/// Mostly the name of a file of the image, with or without blanks behind it.
fn random_typed(random: &mut Random, image: &[u8]) -> Vec<u8> {
    let names = if image.len() < SECTOR {
        Vec::new()
    } else {
        names_in(&table_of(image))
    };
    let sort = random.between(0, 19);
    if names.is_empty() || sort == 0 {
        return any_typed(random);
    }
    let name = names[random.between(0, names.len() - 1)].clone();
    match sort {
        1..=3 => near_miss(random, name),
        4..=5 => [name, vec![b' '; random.between(0, 8)]].concat(),
        _ => name,
    }
}

/// Printed characters, or any bytes.
fn any_typed(random: &mut Random) -> Vec<u8> {
    let length = random.between(0, 10);
    if random.chance(50) {
        return random.bytes(length);
    }
    (0..length)
        .map(|_| random.between(0x20, 0x7E) as u8)
        .collect()
}

/// A name of which one character is another, missing, more, small or elsewhere.
fn near_miss(random: &mut Random, mut name: Vec<u8>) -> Vec<u8> {
    let at = random.between(0, name.len().saturating_sub(1));
    match random.between(0, 6) {
        0 => drop(name.pop()),
        1 => name.push(random.pick(b"A0Z.a~*")),
        2 => name.push(random.byte()),
        3 => name.insert(at, b' '),
        4 => name.truncate(at),
        5 => name.make_ascii_lowercase(),
        _ => {
            if let Some(character) = name.get_mut(at) {
                *character = random.byte();
            }
        }
    }
    name
}
