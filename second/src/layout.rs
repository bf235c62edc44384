//! "Where a record lies": places, records in sectors, capacities; granules as document 02's item 3 has them.

use crate::directory::{Entry, BLOCKED, RANDOM, UNBLOCKED};
use crate::image::SECTOR;

/// "Capacity is q·sectors, at most 65,535."; the largest count that a directory's word can say.
pub const MOST_RECORDS: usize = 65_535;

/// Granules share a sector "for R up to 180".
pub const MOST_SHARING: usize = 180;

/// A place in an extent: its sector, counted from 0 at the extent's first,
/// and a byte from 0 to 360 in that sector.
#[derive(Clone, Copy, Debug, Default, PartialEq, Eq)]
pub struct Place {
    pub sector: usize,
    pub byte: usize,
}

/// "s = R/360 rounded up"
pub fn sectors_per_record(r: usize) -> usize {
    r.div_ceil(SECTOR)
}

/// "q = 360/R rounded down"
pub fn records_per_sector(r: usize) -> usize {
    SECTOR / r
}

/// "Record k begins s·k sectors into the extent."
pub fn unblocked_start(r: usize, k: usize) -> usize {
    sectors_per_record(r) * k
}

/// "Record k is in extent sector k/q (rounded down) at byte (k mod q)·R"
pub fn blocked_place(r: usize, k: usize) -> Place {
    let q = records_per_sector(r);
    Place {
        sector: k / q,
        byte: (k % q) * r,
    }
}

/// Granules of this R share a sector.
pub fn granules_share(r: usize) -> bool {
    r <= MOST_SHARING
}

/// "for R up to 180, q = 360/R rounded down granules lie in each sector"
fn granules_per_sector(r: usize) -> usize {
    records_per_sector(r)
}

/// "granule g in extent sector g/q rounded down at byte (g mod q)·R. ... Above 180 the old rule holds":
/// "granule g begins s·g sectors into the extent".
pub fn granule_place(r: usize, g: usize) -> Place {
    if granules_share(r) {
        let q = granules_per_sector(r);
        Place {
            sector: g / q,
            byte: (g % q) * r,
        }
    } else {
        Place {
            sector: sectors_per_record(r) * g,
            byte: 0,
        }
    }
}

/// "Capacity is sectors divided by s, rounded down."
pub fn unblocked_capacity(r: usize, sectors: usize) -> usize {
    sectors / sectors_per_record(r)
}

/// "Capacity is q·sectors, at most 65,535."
pub fn blocked_capacity(r: usize, sectors: usize) -> usize {
    (records_per_sector(r) * sectors).min(MOST_RECORDS)
}

/// "the new capacity, q·sectors", with no limit of 65,535; above 180 "capacity as for unblocked".
pub fn granule_capacity(r: usize, sectors: usize) -> usize {
    if granules_share(r) {
        granules_per_sector(r) * sectors
    } else {
        unblocked_capacity(r, sectors)
    }
}

/// The capacity of an entry's file in records or granules; a compressed file has none,
/// its room is found record by record.
pub fn capacity(entry: &Entry) -> Option<usize> {
    let (r, sectors) = (entry.r(), usize::from(entry.sectors));
    match entry.kind {
        UNBLOCKED => Some(unblocked_capacity(r, sectors)),
        BLOCKED => Some(blocked_capacity(r, sectors)),
        RANDOM => Some(granule_capacity(r, sectors)),
        _ => None,
    }
}
