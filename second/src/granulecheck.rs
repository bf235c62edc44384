//! What document 02's item 3 promises of granules, told anew and held against both engines and `layout.rs`:
//! granules are counted one by one, and every byte of an extent is asked whose it is.

use crate::answer::Answer;
use crate::directory::{Entry, RANDOM};
use crate::layout::{granule_capacity, granule_place};
use crate::script::{Code, Row};
use crate::selfcheck::{must, Check, Side};

/// "for R up to 180"
const MOST_SHARING: usize = 180;

/// The byte of an extent where a granule begins, by going over all granules before it.
fn start_of(r: usize, granule: usize) -> usize {
    (0..granule).fold(0, |at, _| next_start(r, at))
}

/// Where the next granule begins: just behind this one if it has room in that sector, else in the next
/// sector that is free.
fn next_start(r: usize, at: usize) -> usize {
    let behind = at + r;
    if r <= MOST_SHARING && behind % 360 + r <= 360 {
        behind
    } else {
        behind.next_multiple_of(360)
    }
}

/// One past the last byte that a write of the granule at a byte changes.
fn changed_end(r: usize, at: usize) -> usize {
    if r <= MOST_SHARING {
        at + r
    } else {
        (at + r).next_multiple_of(360)
    }
}

/// The extent of an entry in bytes of the image.
fn extent(entry: &Entry) -> std::ops::Range<usize> {
    let first = usize::from(entry.first) * 360;
    first..first + usize::from(entry.sectors) * 360
}

/// A granule request that is done is one of a random file and of a granule that lies in its extent. A
/// write changes the granule's own bytes, and above 180 those behind it up to a sector's end, and no other
/// byte of the image; the other requests change none.
pub fn check_granule(before: &Side, after: &Side, row: &Row, data: &[u8], answer: Answer) -> Check {
    if !row.code.takes_granule() {
        return Ok(());
    }
    let mut expected = before.image.clone();
    if answer == Answer::Done {
        let entry = before.session.table[usize::from(row.entry)];
        must(entry.kind == RANDOM, "only a random file has granules")?;
        let (r, extent) = (usize::from(entry.length), extent(&entry));
        let start = extent.start + start_of(r, row.granule_number());
        let end = changed_end(r, start);
        must(end <= extent.end, "a granule lies in its extent")?;
        if row.code == Code::GranuleWrite {
            expected[start..end].fill(0);
            expected[start..start + data.len()].copy_from_slice(data);
        }
    }
    must(
        expected == after.image,
        "a granule write changes its own bytes and no other",
    )
}

/// For every R, in some numbers of sectors: as many granules as the capacity says lie where the places say,
/// no byte is of two, none goes over its sector's end where granules share it, and there is no room for one
/// more. What is left over at a sector's end, where they share it, is too short for a granule.
pub fn check_places() -> Check {
    for r in (2..=3_600).step_by(2) {
        for sectors in [1, 2, 3, 10, 11, 23] {
            check_places_of(r, sectors)
                .map_err(|why| format!("granules of {r} in {sectors} sectors: {why}"))?;
        }
    }
    Ok(())
}

fn check_places_of(r: usize, sectors: usize) -> Check {
    let capacity = granule_capacity(r, sectors);
    let mut owned = vec![false; sectors * 360];
    for granule in 0..capacity {
        let place = granule_place(r, granule);
        let start = place.sector * 360 + place.byte;
        let in_sector = place.byte + r <= 360 || (r > MOST_SHARING && place.byte == 0);
        must(in_sector, "a granule stays in its sector")?;
        must(start + r <= owned.len(), "a granule lies in its extent")?;
        let own = &mut owned[start..start + r];
        must(!own.contains(&true), "granules do not overlap")?;
        own.fill(true);
    }
    must(
        changed_end(r, start_of(r, capacity)) > owned.len(),
        "there is no room for one more",
    )?;
    for sector in owned.chunks(360).filter(|_| r <= MOST_SHARING) {
        let left = sector.iter().filter(|&&is_owned| !is_owned).count();
        must(left < r, "what is left over is too short for a granule")?;
        must(
            !sector[360 - left..].contains(&true),
            "and stands at the sector's end",
        )?;
    }
    Ok(())
}
