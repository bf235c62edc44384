//! The promises of ADD and DELETE, stated anew and by brute force over sectors: what each must answer, the
//! one entry that changes, and what comes of it afterwards. Nothing of `editing.rs` is used but the
//! requests themselves.

use crate::editing::{add, delete, Asked};
use crate::engine;
use crate::image::{number_of_sectors, word};
use crate::script::{Code, Row};
use crate::selfcheck::{must, Check, Side};
use crate::session::mount;

/// Holds a request that was performed on one side to the rules; nothing, if it is none of the two.
pub fn check_edit(before: &Side, after: &Side, row: &Row, data: &[u8], said: Said) -> Check {
    match row.code {
        Code::Add => {
            must(said == expected_add(before, row, data), "the answer of ADD")?;
            match said {
                (0, Some(number)) => check_added(before, after, number, &row.asked(data)),
                _ => Ok(()), // a refusal changes nothing: `perform_checked`
            }
        }
        Code::Delete => {
            let number = usize::from(row.entry);
            let wanted = expected_delete(before, number);
            must(said == (wanted, None), "the answer of DELETE")?;
            if wanted == 0 {
                check_deleted(before, after, number)?;
            }
            Ok(())
        }
        _ => must(said.1.is_none(), "only ADD adds"),
    }
}

/// An answer's number and the entry added.
pub type Said = (u8, Option<usize>);

// ---------------------------------------------------------------------------------------------
// What they must answer.

fn expected_add(before: &Side, row: &Row, name: &[u8]) -> Said {
    let asked = row.asked(name);
    let refused = |number| (number, None);
    if !before.session.is_legal(&before.image) {
        return refused(12);
    }
    if before.session.refused {
        return refused(11);
    }
    if !is_name(name) {
        return refused(13);
    }
    let lengths: Vec<u16> = match asked.kind {
        1 | 4 => (1..=1_800).map(|half| 2 * half).collect(),
        2 => (1..=180).map(|half| 2 * half).collect(),
        3 => (1..=66).map(|half| 2 * half).collect(),
        _ => Vec::new(),
    };
    if !lengths.contains(&asked.length) || asked.sectors == 0 {
        return refused(17);
    }
    let used = |number: &usize| before.session.table[*number].kind != 0;
    if (0..18)
        .filter(used)
        .any(|number| before.session.table[number].name == name)
    {
        return refused(14);
    }
    let Some(number) = (0..18).find(|number| !used(number)) else {
        return refused(15);
    };
    if runs(before, usize::from(asked.sectors)).is_empty() {
        return refused(16);
    }
    (0, Some(number))
}

fn expected_delete(before: &Side, number: usize) -> u8 {
    if !before.session.is_legal(&before.image) {
        12
    } else if number > 17 || before.session.table[number].kind == 0 {
        8
    } else if is_open(before, number) {
        9
    } else {
        0
    }
}

fn is_open(side: &Side, number: usize) -> bool {
    let files = side.session.open.iter();
    files
        .filter(|file| file.in_use)
        .any(|file| file.entry == number)
}

/// Eight letters of the alphabet, one behind another: a state for "nothing yet", "letters" and "blanks".
fn is_name(name: &[u8]) -> bool {
    const CAPITALS: &[u8] =
        b"\xC1\xC2\xC3\xC4\xC5\xC6\xC7\xC8\xC9\xD1\xD2\xD3\xD4\xD5\xD6\xD7\xD8\xD9\
        \xE2\xE3\xE4\xE5\xE6\xE7\xE8\xE9";
    const DIGITS: &[u8] = b"\xF0\xF1\xF2\xF3\xF4\xF5\xF6\xF7\xF8\xF9";
    let mut state = 0;
    for byte in name {
        state = match (state, *byte) {
            (0 | 1, byte) if CAPITALS.contains(&byte) => 1,
            (1, byte) if DIGITS.contains(&byte) => 1,
            (1 | 2, 0x40) => 2,
            _ => return false,
        };
    }
    name.len() == 8
}

/// Every sector of the image from which on that many are free: in 1 to N − 1, and in the extent of no used
/// entry of the table.
fn runs(side: &Side, sectors: usize) -> Vec<usize> {
    let n = number_of_sectors(&side.image).unwrap_or(0);
    let is_free = |sector: usize| {
        let mut entries = side.session.table.iter().filter(|entry| entry.kind != 0);
        !entries.any(|entry| {
            let first = usize::from(entry.first);
            (first..first + usize::from(entry.sectors)).any(|taken| taken == sector)
        })
    };
    let free: Vec<bool> = (0..n).map(|sector| sector > 0 && is_free(sector)).collect();
    (1..n)
        .filter(|&first| first + sectors <= n && free[first..first + sectors].iter().all(|&f| f))
        .collect()
}

// ---------------------------------------------------------------------------------------------
// What they do.

/// "Both change that one directory entry and no other byte": the entry's 20 bytes in the image are these,
/// and the table has them.
fn check_entry(before: &Side, after: &Side, number: usize, bytes: [u8; 20]) -> Check {
    let mut image = before.image.clone();
    image[number * 20..number * 20 + 20].copy_from_slice(&bytes);
    must(image == after.image, "the entry changes and no other byte")?;
    let mut session = before.session.clone();
    let entry = &mut session.table[number];
    entry.name.copy_from_slice(&bytes[..8]);
    entry.kind = word(&bytes, 8);
    entry.length = word(&bytes, 10);
    entry.first = word(&bytes, 12);
    entry.sectors = word(&bytes, 14);
    entry.count = u32::from(word(&bytes, 16));
    entry.flags = word(&bytes, 18);
    must(session == after.session, "the table's entry, and no state")
}

fn check_added(before: &Side, after: &Side, number: usize, asked: &Asked) -> Check {
    let first = runs(before, usize::from(asked.sectors))[0];
    let mut bytes = [0; 20];
    bytes[..8].copy_from_slice(asked.name);
    let words = [asked.kind, asked.length, first as u16, asked.sectors];
    bytes[8..16].copy_from_slice(&words.map(u16::to_be_bytes).concat());
    check_entry(before, after, number, bytes)?;
    check_fresh(after, number)?;
    // Deleted and asked for again: it is at the same place.
    let mut again = after.clone();
    let deleted = delete(&mut again.image, &mut again.session, number);
    must(deleted.number() == 0, "what was added can be deleted")?;
    must(
        again.session == before.session,
        "the table is as before it was added",
    )?;
    let added = add(&mut again.image, &mut again.session, asked);
    must(added == Ok(number), "it can be added again")?;
    let same = again.image == after.image && again.session == after.session;
    must(same, "and is where it was")
}

/// An added file is an empty tape without a mark, or granules that are what lies in its sectors.
fn check_fresh(side: &Side, number: usize) -> Check {
    let mut side = side.clone();
    let open = side.session.open.iter().filter(|file| file.in_use).count();
    let answer = engine::open(&side.image, &mut side.session, number).number();
    must(answer == if open == 4 { 10 } else { 0 }, "it can be opened")?;
    if open == 4 {
        return Ok(());
    }
    let entry = side.session.table[number];
    let (r, sectors) = (usize::from(entry.length), usize::from(entry.sectors));
    let mut buffer = vec![0; r];
    if entry.kind < 4 {
        let answer = engine::read(&mut side.image, &mut side.session, number, &mut buffer);
        return must(answer.number() == 7, "it has no record and no mark");
    }
    let start = usize::from(entry.first) * 360;
    let extent = side.image[start..start + sectors * 360].to_vec();
    let granules = granules_in(&extent, r);
    for (granule, lies_there) in granules.iter().chain(&[&[][..]]).enumerate() {
        let shown = engine::look(&side.image, &side.session, number, granule);
        must(shown == *lies_there, "its granules are what lies there")?;
    }
    Ok(())
}

/// The parts of an extent that are granules, one behind another.
fn granules_in(extent: &[u8], r: usize) -> Vec<&[u8]> {
    if r > 180 {
        let whole = extent.chunks_exact(r.div_ceil(360) * 360);
        whole.map(|sectors| &sectors[..r]).collect()
    } else {
        let sectors = extent.chunks(360);
        sectors.flat_map(|sector| sector.chunks_exact(r)).collect()
    }
}

fn check_deleted(before: &Side, after: &Side, number: usize) -> Check {
    check_entry(before, after, number, [0; 20])?;
    // "its sectors are free again for the next ADD": the same file finds them, or lower ones.
    let old = before.session.table[number];
    let asked = Asked {
        name: &old.name,
        kind: old.kind,
        length: old.length,
        sectors: old.sectors,
    };
    let free = runs(after, usize::from(old.sectors));
    must(
        free.contains(&usize::from(old.first)),
        "its sectors are free",
    )?;
    let mut again = after.clone();
    let added = add(&mut again.image, &mut again.session, &asked).ok();
    let lowest = (0..18).find(|&entry| after.session.table[entry].kind == 0);
    must(added == lowest, "the same file can be added")?;
    let first = lowest.map(|number| again.session.table[number].first);
    must(
        first.is_some_and(|first| first <= old.first),
        "in its sectors or in lower ones",
    )
}

/// "whenever no file is open, mounting the image afresh gives the same": the table too, and no word of a
/// refused mounting.
pub fn check_fresh_mounting(side: &Side) -> Check {
    let (answer, session) = mount(side.session.engine, &side.image);
    must(answer.number() == 0, "a fresh mounting is good")?;
    must(
        session.table == side.session.table,
        "a fresh mounting's table",
    )?;
    must(!session.refused, "it says that it was not refused")
}
