//! A second, independent implementation of the file layer that document 01 specifies, with items 1 to 4 of
//! document 02.
//!
//! Written from these documents alone, to be held against them: every rule stands beside the sentence
//! that it keeps.

#![forbid(unsafe_code)]

mod answer;
mod blanks;
mod bundle;
mod cases;
mod characters;
mod coding;
mod committed;
mod damage;
mod directory;
mod disk;
mod editcheck;
mod editing;
mod edits;
mod engine;
mod fixed;
mod generate;
mod granulecheck;
mod granules;
mod handmade;
mod image;
mod layout;
mod listed;
mod listing;
mod model;
mod notation;
mod patch;
mod play;
mod random;
mod script;
mod selfcheck;
mod session;
mod sessions;
mod showcheck;
mod showing;
mod shown;
mod sought;
mod station;
mod stored;
mod strange;
#[cfg(test)]
mod tests;
mod wideshow;

use std::fs::File;
use std::io::{Read, Write};
use std::path::Path;
use std::process::ExitCode;

use cases::Case;
use script::Script;
use session::Engine;

const USAGE: &str = "usage:
  second list IMAGE
  second find IMAGE NAME
  second show IMAGE NAME
  second play plain|buffered IMAGE SCRIPT BYTES OUT
  second play_cases FILE
  second list_cases FILE
  second show_cases FILE
  second committed TOP
  second names
  second show_names
  second wide FILE EXPECTED [--seed S] [--first F] [--count K] [--requests N]
  second wide_show FILE EXPECTED [--seed S] [--first F] [--count K]
  second extract FILE NUMBER DIR
  second extract_show FILE NUMBER DIR
  second cases DIR [--seed S] [--count K]
  second selfcheck [--seed S] [--count K] [--requests N]
";

fn main() -> ExitCode {
    // What is no UTF-8 in a typed name has no listed character: as a mark of replacement it is unknown too.
    let arguments: Vec<String> = std::env::args_os()
        .skip(1)
        .map(|word| word.to_string_lossy().into_owned())
        .collect();
    let words: Vec<&str> = arguments.iter().map(String::as_str).collect();
    match words[..] {
        ["list", image] => list(image),
        ["find", image, name] => find(image, name),
        ["show", image, name] => show(image, name),
        ["play", engine, image, script, bytes, out] => {
            answer(play(engine, [image, script, bytes], out))
        }
        ["play_cases", file] => answer(play_cases(file)),
        ["list_cases", file] => answer(list_cases(file)),
        ["show_cases", file] => answer(show_cases(file)),
        ["committed", top] => answer(committed(top)),
        ["names"] => answer(Ok(committed::names(&committed::committed_cases()))),
        ["show_names"] => answer(Ok(committed::names(&shown::shown_cases()))),
        ["wide", file, expected, ref options @ ..] => wide([file, expected], options),
        ["wide_show", file, expected, ref options @ ..] => wide_show([file, expected], options),
        ["extract", file, number, dir] => answer(extract(file, number, dir)),
        ["extract_show", file, number, dir] => answer(extract_show(file, number, dir)),
        ["cases", dir, ref options @ ..] => cases(dir, options),
        ["selfcheck", ref options @ ..] => selfcheck(options),
        _ => usage(),
    }
}

fn usage() -> ExitCode {
    eprint!("{USAGE}");
    ExitCode::from(2)
}

/// Prints a text; a reader that went away is no error.
fn print(text: &str) {
    let _ = std::io::stdout().write_all(text.as_bytes());
}

/// Reads a file, but no more than a byte over `most`.
fn read_up_to(path: &str, most: usize) -> std::io::Result<Vec<u8>> {
    let mut bytes = Vec::new();
    let file = File::open(path)?;
    file.take(most as u64 + 1).read_to_end(&mut bytes)?;
    Ok(bytes)
}

/// `second list`: an unreadable image is a bad one.
fn list(path: &str) -> ExitCode {
    let image = read_up_to(path, listing::MOST_LISTED).unwrap_or_default();
    print(&listing::listing(&image));
    ExitCode::SUCCESS
}

/// `second find`: the number of the entry with this name, as typed, or the answer.
fn find(path: &str, name: &str) -> ExitCode {
    let image = read_up_to(path, play::MOST_PLAYED).unwrap_or_default();
    let (_, session) = session::mount(Engine::Plain, &image);
    match showing::find_typed(&session.table, name.as_bytes()) {
        Ok(number) => print(&format!("ENTRY {number}\n")),
        Err(answer) => print(&showing::told(answer)),
    }
    ExitCode::SUCCESS
}

/// `second show`: the pass listing of a file; an unreadable image is a bad one.
fn show(path: &str, name: &str) -> ExitCode {
    let image = read_up_to(path, listing::MOST_LISTED).unwrap_or_default();
    print(&showing::pass_listing(
        Engine::Plain,
        &image,
        name.as_bytes(),
    ));
    ExitCode::SUCCESS
}

/// Prints a text, or one line that tells why there is none.
fn answer(text: Result<String, String>) -> ExitCode {
    match text {
        Ok(text) => {
            print(&text);
            ExitCode::SUCCESS
        }
        Err(why) => {
            print(&format!("ERROR {why}\n"));
            ExitCode::FAILURE
        }
    }
}

/// `second play`.
fn play(engine: &str, inputs: [&str; 3], out: &str) -> Result<String, String> {
    let engine = match engine {
        "plain" => Engine::Plain,
        "buffered" => Engine::Buffered,
        _ => return Err(format!("no such engine: {engine}")),
    };
    let [image_path, script_path, bytes_path] = inputs;
    let image = read_up_to(image_path, play::MOST_PLAYED).map_err(|_| unreadable(image_path))?;
    if image.len() > play::MOST_PLAYED {
        return Err(format!("image longer than {} bytes", play::MOST_PLAYED));
    }
    let script = Script::parse(&read(script_path)?, read(bytes_path)?)?;
    let played = play::play(engine, image, &[], &script);
    write(Path::new(out), &played.image)?;
    Ok(played.text)
}

fn unreadable(path: &str) -> String {
    format!("cannot read {path}")
}

fn read(path: &str) -> Result<Vec<u8>, String> {
    std::fs::read(path).map_err(|_| unreadable(path))
}

fn write(path: &Path, bytes: &[u8]) -> Result<(), String> {
    std::fs::write(path, bytes).map_err(|_| format!("cannot write {}", path.display()))
}

/// `second play_cases`: what the program of that name prints for a file of cases.
fn play_cases(file: &str) -> Result<String, String> {
    Ok(bundle::expected(&bundle::unbundle(&read(file)?)?))
}

/// `second list_cases`: what the program of that name prints for a file of images.
fn list_cases(file: &str) -> Result<String, String> {
    Ok(listed::expected_listings(&listed::images_of(&read(file)?)?))
}

/// `second show_cases`: what the program of that name prints for a file of cases.
fn show_cases(file: &str) -> Result<String, String> {
    Ok(shown::expected_showings(&bundle::unbundle(&read(file)?)?))
}

/// `second committed`.
fn committed(top: &str) -> Result<String, String> {
    committed::write_committed(Path::new(top))?;
    Ok(format!("the committed cases are written below {top}\n"))
}

/// `second wide`: random cases, from a number of the seed's on, and what is expected of them.
fn wide(paths: [&str; 2], options: &[&str]) -> ExitCode {
    let names = ["--seed", "--first", "--count", "--requests"];
    let Some([seed, first, count, requests]) = numbers(options, names, [1, 0, 500, 100]) else {
        return usage();
    };
    let cases: Vec<Case> = (first..first + count)
        .map(|number| cases::wide_case(seed, number as usize, requests as usize))
        .collect();
    answer(write_both(paths, &cases, &bundle::expected(&cases)))
}

/// `second wide_show`: the same of the pass listing.
fn wide_show(paths: [&str; 2], options: &[&str]) -> ExitCode {
    let names = ["--seed", "--first", "--count"];
    let Some([seed, first, count]) = numbers(options, names, [1, 0, 500]) else {
        return usage();
    };
    let cases: Vec<Case> = (first..first + count)
        .map(|number| wideshow::wide_show_case(seed, number as usize))
        .collect();
    answer(write_both(paths, &cases, &shown::expected_showings(&cases)))
}

/// Writes a file of cases and the text that is expected of them.
fn write_both(paths: [&str; 2], cases: &[Case], expected: &str) -> Result<String, String> {
    write(Path::new(paths[0]), &bundle::bundle(cases))?;
    write(Path::new(paths[1]), expected.as_bytes())?;
    Ok(String::new())
}

/// `second extract`: one case of a file, as the files that `play` takes, and by itself as a file for
/// `play_cases`. `play` takes no patches of sessions; if there are some, standard error tells that they
/// are left out.
fn extract(file: &str, number: &str, dir: &str) -> Result<String, String> {
    let case = numbered_case(file, number)?;
    let rows = case.script.row_bytes();
    let alone = bundle::bundle(std::slice::from_ref(&case));
    put_in(dir, "image", &case.image)?;
    put_in(dir, "script", &rows)?;
    put_in(dir, "bytes", &case.script.bytes)?;
    put_in(dir, "case", &alone)?;
    if case.sessions.iter().any(|patches| !patches.is_empty()) {
        eprintln!("case {number}: the patches of its sessions are left out of what 'play' takes; the file 'case' has them, for 'play_cases'");
    }
    Ok(String::new())
}

/// `second extract_show`: one case of a file of the pass listing, as the image and the bytes of the name.
fn extract_show(file: &str, number: &str, dir: &str) -> Result<String, String> {
    let case = numbered_case(file, number)?;
    put_in(dir, "image", &case.image)?;
    put_in(dir, "name", case.typed())?;
    Ok(String::new())
}

/// A case of a file, counted from 1.
fn numbered_case(file: &str, number: &str) -> Result<Case, String> {
    let mut cases = bundle::unbundle(&read(file)?)?;
    let index = number.parse::<usize>().ok().and_then(|n| n.checked_sub(1));
    let index = index.filter(|&index| index < cases.len());
    let index = index.ok_or(format!("no case {number} in {file}"))?;
    Ok(cases.swap_remove(index))
}

/// Writes a file of a directory, which is made if it is not there.
fn put_in(dir: &str, name: &str, bytes: &[u8]) -> Result<(), String> {
    std::fs::create_dir_all(dir).map_err(|_| format!("cannot make {dir}"))?;
    write(&Path::new(dir).join(name), bytes)
}

/// `second cases`.
fn cases(dir: &str, options: &[&str]) -> ExitCode {
    let Some([seed, count]) = numbers(options, ["--seed", "--count"], [1971, 300]) else {
        return usage();
    };
    match cases::write_cases(Path::new(dir), seed, count as usize) {
        Ok(written) => {
            print(&format!("{written} cases written to {dir}\n"));
            ExitCode::SUCCESS
        }
        Err(why) => {
            print(&format!("ERROR {why}\n"));
            ExitCode::FAILURE
        }
    }
}

/// `second selfcheck`.
fn selfcheck(options: &[&str]) -> ExitCode {
    let names = ["--seed", "--count", "--requests"];
    let Some([seed, count, requests]) = numbers(options, names, [1971, 2000, 100]) else {
        return usage();
    };
    match selfcheck::selfcheck(seed, count as usize, requests as usize) {
        Ok(tally) => {
            print(&format!("{} fixed cases passed\n", tally.cases));
            print(&format!(
                "{} scripts passed, {} requests\n",
                tally.scripts, tally.requests
            ));
            print(&format!("answers 0 to 17: {:?}\n", tally.answers));
            print(&format!(
                "on strange sessions: {:?}\n",
                tally.strange_answers
            ));
            print(&format!(
                "{} illegal sessions gave 12\n",
                tally.illegal_sessions
            ));
            print(&format!("{} bytes were no session\n", tally.no_sessions));
            print(&format!("{} pass listings agreed\n", tally.pass_listings));
            ExitCode::SUCCESS
        }
        Err(why) => {
            print(&format!("BROKEN {why}\n"));
            ExitCode::FAILURE
        }
    }
}

/// The numbers of options `--name number`, each with what it is when not given.
fn numbers<const N: usize>(
    options: &[&str],
    names: [&str; N],
    otherwise: [u64; N],
) -> Option<[u64; N]> {
    let mut values = otherwise;
    for option in options.chunks(2) {
        let [name, value] = option else {
            return None;
        };
        let index = names.iter().position(|known| known == name)?;
        values[index] = value.parse().ok()?;
    }
    Some(values)
}
