//! Test cases: images, scripts and what both engines make of them.

use std::fs;
use std::path::Path;

use crate::blanks::blank_cases;
use crate::coding::GO_ON;
use crate::damage::{damaged_cases, disturb};
use crate::directory::{BLOCKED, COMPRESSED, MARKED, RANDOM, UNBLOCKED};
use crate::disk::Disk;
use crate::edits::edit_cases;
use crate::engine::Order;
use crate::fixed::fixed_cases;
use crate::generate::{empty_image, fill_compressed, new_entry, put_entry};
use crate::generate::{random_image, random_script, random_text, roomy_image, script_on, Sort};
use crate::granules::granule_cases;
use crate::image::{BLANK, SECTOR};
use crate::listing::listing;
use crate::notation::script;
use crate::patch::Patch;
use crate::play::{play, Played};
use crate::random::Random;
use crate::script::Script;
use crate::session::Engine;
use crate::stored::read_session;
use crate::strange::{strange_bytes, strange_bytes_and_refused};
use crate::strange::{strange_session, strange_wide_session};

/// A case: the rule of document 01 that it tries, an image, a script for it, and the patches of the
/// plain and of the buffered engine's session behind the mounting.
#[derive(Clone)]
pub struct Case {
    pub name: String,
    pub rule: &'static str,
    pub image: Vec<u8>,
    pub script: Script,
    pub sessions: [Vec<Patch>; 2],
}

impl Case {
    pub fn new(
        name: impl Into<String>,
        rule: &'static str,
        image: Vec<u8>,
        script: Script,
    ) -> Case {
        Case {
            name: name.into(),
            rule,
            image,
            script,
            sessions: [Vec::new(), Vec::new()],
        }
    }

    /// A case of the pass listing: no rows, and the name as typed "in the place of the bytes given".
    pub fn of_name(
        name: impl Into<String>,
        rule: &'static str,
        image: Vec<u8>,
        typed: &[u8],
    ) -> Case {
        let script = Script {
            bytes: typed.to_vec(),
            ..Script::default()
        };
        Case::new(name, rule, image, script)
    }

    /// The name as typed, of a case of the pass listing.
    pub fn typed(&self) -> &[u8] {
        &self.script.bytes
    }

    /// The case with patches of its sessions.
    pub fn with_sessions(mut self, sessions: [Vec<Patch>; 2]) -> Case {
        self.sessions = sessions;
        self
    }

    /// Its sessions are as the mounting hands them out.
    pub fn is_mounted(&self) -> bool {
        self.sessions.iter().all(Vec::is_empty)
    }

    /// The patches of an engine's session.
    pub fn session_patches(&self, engine: Engine) -> &[Patch] {
        let [plain, buffered] = &self.sessions;
        match engine {
            Engine::Plain => plain,
            Engine::Buffered => buffered,
        }
    }

    /// The text of play and the image at the end, expected of an engine.
    pub fn expected(&self, engine: Engine) -> Played {
        let patches = self.session_patches(engine);
        play(engine, self.image.clone(), patches, &self.script)
    }
}

/// All cases: the fixed ones, those too long to be committed, those of ADD and DELETE on sessions that are
/// mounted, those of blanks and of small granules, the damaged ones and `count` random scripts.
pub fn all_cases(seed: u64, count: usize) -> Vec<Case> {
    let mut random = Random::new(seed);
    let mut cases = fixed_cases();
    cases.extend(long_cases());
    cases.extend(edit_cases().into_iter().filter(Case::is_mounted));
    cases.extend(blank_cases());
    cases.extend(granule_cases().into_iter().filter(Case::is_mounted));
    cases.extend(foreign_cases(&mut random, 40));
    cases.extend(damaged_cases(&mut random));
    for number in 0..count {
        let requests = random.pick(&[20, 60, 120, 200]);
        cases.push(random_case(seed, number, requests, Sort::All));
    }
    cases
}

/// Writes every case to a directory: NAME.image, NAME.script and NAME.bytes; what `list` prints,
/// NAME.list; and for each engine the text and the last image, NAME.plain.text,
/// NAME.plain.image, NAME.buffered.text, NAME.buffered.image. The file NAMES lists the names.
pub fn write_cases(dir: &Path, seed: u64, count: usize) -> Result<usize, String> {
    let cases = all_cases(seed, count);
    fs::create_dir_all(dir).map_err(|why| why.to_string())?;
    let mut names = String::new();
    for case in &cases {
        write_case(dir, case).map_err(|why| format!("{}: {why}", case.name))?;
        names.push_str(&case.name);
        names.push('\n');
    }
    fs::write(dir.join("NAMES"), names).map_err(|why| why.to_string())?;
    Ok(cases.len())
}

fn write_case(dir: &Path, case: &Case) -> std::io::Result<()> {
    let put =
        |part: &str, bytes: &[u8]| fs::write(dir.join(format!("{}.{part}", case.name)), bytes);
    put("image", &case.image)?;
    put("script", &case.script.row_bytes())?;
    put("bytes", &case.script.bytes)?;
    put("list", listing(&case.image).as_bytes())?;
    for (engine, name) in [(Engine::Plain, "plain"), (Engine::Buffered, "buffered")] {
        let expected = case.expected(engine);
        put(&format!("{name}.text"), expected.text.as_bytes())?;
        put(&format!("{name}.image"), &expected.image)?;
    }
    Ok(())
}

// ---------------------------------------------------------------------------------------------
// Compressed files with the codes of other writers.

/// Compressed files that other writers filled, at random.
pub fn foreign_cases(random: &mut Random, count: usize) -> Vec<Case> {
    let mut cases = Vec::new();
    for number in 0..count {
        let r = random.pick(&[2, 20, 80, 100, 130, 132]);
        let mut image = empty_image(8);
        let filler = random.pick(&[0, GO_ON, 0xFF, BLANK]);
        image[SECTOR..].fill(filler);
        let mut entry = new_entry("ALIEN", COMPRESSED, r, 3, 4);
        let wanted = random.between(1, 25);
        fill_compressed(random, &mut image, &mut entry, wanted);
        entry.flags = random.pick(&[0, MARKED]);
        put_entry(&mut image, 2, &entry);
        let script = foreign_script(random, entry.count as usize, r);
        cases.push(Case::new(
            format!("foreign-random-{number:02}"),
            "a run may also follow one of its own sort; 128 ... means go on in the next sector",
            image,
            script,
        ));
    }
    cases
}

/// Reads all; then reads or skips to somewhere and writes there; reads all again.
fn foreign_script(random: &mut Random, count: usize, r: usize) -> Script {
    let mut script = Script::default();
    script.open(2);
    for _ in 0..count + 1 {
        script.read(2, r);
    }
    for round in 0..4 {
        script.order(2, Order::RewindOnLine);
        for _ in 0..random.between(0, count) {
            if round % 2 == 0 {
                script.order(2, Order::RecordForward);
            } else {
                script.read(2, r);
            }
        }
        for _ in 0..random.between(0, 2) {
            let text = random_text(random, r);
            script.write(2, &text);
        }
        script.order(2, Order::FileBack);
        for _ in 0..random.between(0, count) {
            script.read(2, r);
        }
    }
    script.close(2).open(2);
    for _ in 0..count + 3 {
        script.read(2, r);
    }
    script.close(2);
    script
}

// ---------------------------------------------------------------------------------------------
// Images too long to be committed.

fn long_cases() -> Vec<Case> {
    vec![
        last_position_case(65_534),
        last_position_case(65_535),
        largest_blocked_case(),
        largest_image_case(),
        knocking_case(180),
        knocking_case(181),
        knocking_case(183),
        largest_added_case(),
        granule_numbers_case(),
    ]
}

/// More granules than a word can number: 180 in each of 399 sectors.
fn granule_numbers_case() -> Case {
    let image = Disk::used(400).file(0, RANDOM, 2, 399).image();
    let words = "open put:65541 look:65541 look:5 get:65541 put:5 look:65541 look:5 look:65535 look:65536 look:0
        put:65536 look:65535 look:65536 look:0 put:71819 get:71819 look:71820 put:71820 get:71820 look:131077
        look:6284 look:4294967295 close";
    Case::new(
        "long-granule-numbers",
        "Capacity q·sectors has no limit of 65,535, so a granule's number takes 32 bits",
        image,
        script(2, words),
    )
}

/// Files of the largest image that ADD makes.
fn largest_added_case() -> Case {
    let words = "add:A:4:360:4096 add:A:4:360:65535 add:A:4:360:4095 @0 open put:4094:360 look:4095 look:4094
        close delete add:B:2:2:4094 add:C:2:2:2 add:C:2:2:1 @1 open write:2 close @0 delete
        add:D:1:3600:4094 add:E:1:3600:1";
    Case::new(
        "long-largest-added",
        "no run of that many free sectors exists in 1 to N − 1; N from 1 to 4,096",
        empty_image(4_096),
        script(2, words),
    )
}

/// Lengths about those that are listed and committed.
fn knocking_case(n: usize) -> Case {
    let words = "open read @17 open @18 open";
    Case::new(
        format!("long-sectors-{n}"),
        "An image is 360·N bytes, N from 1 to 4,096",
        empty_image(n),
        script(80, words),
    )
}

/// A compressed file of as many empty records as positions go.
fn last_position_case(count: usize) -> Case {
    let image = Disk::empty(185)
        .file(17, COMPRESSED, 2, 184)
        .codes(count, &[])
        .flags(MARKED)
        .image();
    let words = "@17 open read file-forward file-back read file-back blanks*3 read forward mark
        close open file-forward close";
    Case::new(
        format!("long-position-{count}"),
        "position already 65,535: 3",
        image,
        script(2, words),
    )
}

fn largest_blocked_case() -> Case {
    let image = Disk::empty(366)
        .file(1, BLOCKED, 2, 365)
        .codes(65_534, &[])
        .flags(MARKED)
        .image();
    let words = "@1 open file-forward back write*2 read back read mark close";
    Case::new(
        "long-blocked-capacity",
        "Capacity is q·sectors, at most 65,535",
        image,
        script(2, words),
    )
}

fn largest_image_case() -> Case {
    let image = Disk::empty(4_096).file(0, UNBLOCKED, 3_600, 4_095).image();
    Case::new(
        "long-largest-image",
        "N from 1 to 4,096",
        image,
        script(3_600, "open write write:2 close"),
    )
}

// ---------------------------------------------------------------------------------------------
// Random scripts.

/// Cases that share an image, one behind another.
const SHARED: usize = 4;

/// Random case `number` of a seed: the last with an image may have it damaged.
pub fn random_case(seed: u64, number: usize, requests: usize, sort: Sort) -> Case {
    let mut image = shared_image(seed, number, sort);
    let mut random = numbered(seed, 2 * number + 1);
    if number % SHARED == SHARED - 1 && random.chance(30) {
        disturb(&mut random, &mut image);
    }
    let script = random_script(&mut random, &image, requests, sort);
    Case::new(
        format!("{}script-{number:05}", prefix(sort)),
        "requests in any order",
        image,
        script,
    )
}

/// What the names of scripts with ADD and DELETE begin with, and of those of a wide run.
fn prefix(sort: Sort) -> &'static str {
    match sort {
        Sort::First => "",
        Sort::All => "edit-",
        Sort::Wide => "wide-",
    }
}

fn shared_image(seed: u64, number: usize, sort: Sort) -> Vec<u8> {
    let mut random = numbered(seed, 2 * (number / SHARED));
    match sort {
        Sort::First => random_image(&mut random, sort),
        Sort::All | Sort::Wide => roomy_image(&mut random, sort),
    }
}

/// Case `number` of a wide run: of four, one begins with a session that no mounting hands out.
pub fn wide_case(seed: u64, number: usize, requests: usize) -> Case {
    if numbered(!seed, 2 * number).chance(25) {
        session_case(seed, number, requests, Sort::Wide)
    } else {
        random_case(seed, number, requests, Sort::Wide)
    }
}

/// Random case `number` of a seed that begins with a strange session, its image disturbed by half.
pub fn session_case(seed: u64, number: usize, requests: usize, sort: Sort) -> Case {
    let mut image = shared_image(seed, number, sort);
    let mut random = numbered(!seed, 2 * number + 1);
    let mut disturbed = image.clone();
    let session = match sort {
        Sort::First | Sort::All => strange_session(&mut random, &mut disturbed),
        Sort::Wide => strange_wide_session(&mut random, &mut disturbed),
    };
    if random.chance(50) {
        image = disturbed;
    }
    let made = match sort {
        Sort::First => strange_bytes(&mut random, &image, &session),
        Sort::All | Sort::Wide => strange_bytes_and_refused(&mut random, &image, &session),
    };
    let session = read_session(made.buffered()).unwrap_or(session);
    let script = script_on(&mut random, &session, image.len() / SECTOR, requests, sort);
    Case::new(
        format!("{}session-script-{number:05}", prefix(sort)),
        "A session is legal exactly if ...; requests in any order",
        image,
        script,
    )
    .with_sessions(made.patches())
}

/// The random numbers of a seed's part.
pub fn numbered(seed: u64, part: usize) -> Random {
    let mut random = Random::new(seed);
    let start = random.next();
    let apart = (part as u64).wrapping_mul(0xD1B5_4A32_D192_ED03);
    Random::new(start.wrapping_add(apart))
}
