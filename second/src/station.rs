//! The image that the repository ships, `images/station.img`, made anew: what a station's store might hold
//! after a few passes, files of all four kinds.

use crate::characters::letters;
use crate::directory::{BLOCKED, COMPRESSED, MARKED, PROTECTED, RANDOM, UNBLOCKED};
use crate::disk::Disk;
use crate::image::BLANK;

const NOTES: [&str; 5] = [
    "AOS IS WHEN WE BEGIN TO HEAR THE SATELLITE. LOS IS WHEN WE LOSE IT.",
    "BATTERY 2        27 VOLTS        HEATER OFF",
    "TRANSMITTER B IS ON FROM PASS 415. THE BUS VOLTAGE WAS LOW AT AOS.",
    "",
    "ANTENNA          POINT IT STRAIGHT UP BEFORE A STORM.",
];

/// The whole image.
pub fn station() -> Vec<u8> {
    let log: Vec<Vec<u8>> = (0..12).map(|k| letters(&pass_line(k))).collect();
    let frames: Vec<Vec<u8>> = (0..100).map(frame).collect();
    let elements: Vec<Vec<u8>> = (0..3).map(element_set).collect();
    Disk::empty(44)
        .file(0, COMPRESSED, 80, 6)
        .named("PASSLOG")
        .records(&log)
        .file(1, COMPRESSED, 132, 2)
        .named("NOTES")
        .records(&NOTES.map(letters))
        .flags(MARKED)
        .file(2, BLOCKED, 24, 8)
        .named("FRAMES")
        .records(&frames)
        .flags(MARKED)
        .gap(1)
        .file(3, UNBLOCKED, 400, 8)
        .named("ELEMENTS")
        .records(&elements)
        .file(4, RANDOM, 360, 8)
        .named("CURVES")
        .codes(0, &[(0, &words(8, 180, curve_point))])
        .flags(PROTECTED)
        .file(5, BLOCKED, 180, 4)
        .named("TRACE")
        .file(6, RANDOM, 60, 2)
        .named("CALIB")
        .codes(0, &[(0, &words(12, 30, calibration_point))])
        .image()
}

/// What is logged of pass k: one round of the satellite behind another, each heard for eleven minutes.
pub fn pass_line(k: usize) -> String {
    let rises = 26_042 + 5_681 * k;
    format!(
        "PASS {} ON DAY {}   AOS {}   LOS {}   {} DEGREES HIGH   {} FRAMES",
        412 + k,
        105 + rises / 86_400,
        clock(rises),
        clock(rises + 669),
        8 + (55 + 63 * k) % 80,
        660 - 7 * k
    )
}

/// A time of the day.
fn clock(seconds: usize) -> String {
    let (hours, minutes) = (seconds / 3_600 % 24, seconds / 60 % 60);
    format!("{hours:02}:{minutes:02}:{:02}", seconds % 60)
}

/// A frame: its number, then eleven channels of the bus.
fn frame(k: usize) -> Vec<u8> {
    let channel = |c: usize| (2_048 + 37 * k + 511 * c + k * c * c) % 4_096;
    let numbers = std::iter::once(k).chain((0..11).map(channel));
    numbers.flat_map(word).collect()
}

/// An element set in two sectors.
fn element_set(k: usize) -> Vec<u8> {
    let day = 103 + k;
    let text = format!("ORBIT ON DAY {day} OF 1971   TILT 97.4 DEGREES   15.21 ROUNDS A DAY");
    let mut record = letters(&text);
    record.resize(400, BLANK);
    record
}

/// Curves of some points each.
fn words(curves: usize, points: usize, point: fn(usize, usize) -> usize) -> Vec<u8> {
    let curve = |c| (0..points).flat_map(move |p| word(point(c, p)));
    (0..curves).flat_map(curve).collect()
}

fn curve_point(c: usize, p: usize) -> usize {
    4_096 - (p * p * (c + 1)) / 32 % 4_096
}

fn calibration_point(c: usize, p: usize) -> usize {
    (97 * c + (128 + c) * p) % 4_096
}

fn word(number: usize) -> [u8; 2] {
    (number as u16).to_be_bytes()
}
