//! The committed cases: what the programs `play_cases`, `list_cases` and `show_cases` are given, and what
//! they must print. The same bytes are written every time.

use std::fs;
use std::path::Path;

use crate::blanks::blank_cases;
use crate::bundle::{bundle, expected, MOST_BUNDLED};
use crate::cases::{foreign_cases, random_case, session_case, Case};
use crate::damage::damaged_cases;
use crate::edits::edit_cases;
use crate::fixed::fixed_cases;
use crate::generate::Sort;
use crate::granules::granule_cases;
use crate::listed::{expected_listings, listed_file, listed_images};
use crate::random::Random;
use crate::sessions::session_cases;
use crate::shown::{expected_showings, shown_cases};

/// The seed of everything committed that is random.
const SEED: u64 = 1971;

/// How many random scripts are committed, and codes of other writers.
const SCRIPTS: usize = 180;
const FOREIGN: usize = 20;

/// How many random scripts with ADD and DELETE are committed.
const EDITS: usize = 40;

/// How many random scripts as those of a wide run are committed: they have small granules.
const WIDE: usize = 40;

/// How many random scripts on sessions of any origin are committed, and the most patches of one.
const SESSIONS: usize = 20;
const MOST_PATCHES: usize = 300;

/// The committed cases, in order: the fixed ones, other writers' codes, damage, random scripts, then
/// sessions of any origin; then those of ADD and DELETE, fixed and random; then those of blanks; then those
/// of small granules, fixed and random.
pub fn committed_cases() -> Vec<Case> {
    let mut random = Random::new(SEED);
    let mut cases = fixed_cases();
    cases.extend(foreign_cases(&mut random, FOREIGN));
    cases.extend(damaged_cases(&mut random));
    cases.extend(
        (0..SCRIPTS).map(|number| random_case(SEED, number, 40 + number % 21, Sort::First)),
    );
    cases.extend(session_cases());
    cases.extend(small_session_scripts(Sort::First));
    cases.extend(edit_cases());
    cases.extend((0..EDITS).map(|number| random_case(SEED, number, 60, Sort::All)));
    cases.extend(small_session_scripts(Sort::All));
    cases.extend(blank_cases());
    cases.extend(granule_cases());
    cases.extend((0..WIDE).map(|number| random_case(SEED, number, 60, Sort::Wide)));
    cases.extend(small_session_scripts(Sort::Wide));
    cases.retain(|case| case.image.len() <= MOST_BUNDLED);
    cases
}

/// Random scripts on sessions of any origin that some few patches make.
fn small_session_scripts(sort: Sort) -> Vec<Case> {
    let few = |case: &Case| case.sessions.iter().map(Vec::len).sum::<usize>() <= MOST_PATCHES;
    (0..)
        .map(|number| session_case(SEED, number, 40, sort))
        .filter(few)
        .take(SESSIONS)
        .collect()
}

/// Writes the six files below a directory, where they stand below the repository's.
pub fn write_committed(top: &Path) -> Result<(), String> {
    let cases = committed_cases();
    put(top, "crates/play_cases/data/cases", &bundle(&cases))?;
    put(top, "crates/play_cases/stdout", expected(&cases).as_bytes())?;
    let images = listed_images();
    let listings = expected_listings(&images);
    put(top, "crates/list_cases/data/cases", &listed_file(&images))?;
    put(top, "crates/list_cases/stdout", listings.as_bytes())?;
    let shown = shown_cases();
    let showings = expected_showings(&shown);
    put(top, "crates/show_cases/data/cases", &bundle(&shown))?;
    put(top, "crates/show_cases/stdout", showings.as_bytes())
}

fn put(top: &Path, name: &str, bytes: &[u8]) -> Result<(), String> {
    let path = top.join(name);
    let dir = path.parent().unwrap_or(top);
    fs::create_dir_all(dir)
        .and_then(|()| fs::write(&path, bytes))
        .map_err(|why| format!("{}: {why}", path.display()))
}

/// A line for each of these cases: its number, its name and the rule that it tries.
pub fn names(cases: &[Case]) -> String {
    (1..)
        .zip(cases)
        .map(|(number, case)| format!("{number} {}: {}\n", case.name, case.rule))
        .collect()
}
