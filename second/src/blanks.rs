//! The cases of document 02's item 2, how the writer codes blanks: "The writer's routine that measures a
//! blank run ... its answers stay". Each writes many records to compressed files, reads them back and closes
//! the files.
//!
//! What is read back does not tell how it was coded. So the files are deleted then, one random file is added
//! in their sectors, a sector for a granule, and every granule is looked at: a line has the sum of the
//! codes in each sector, and `IMAGE` the two sums of all bytes at their places. `blanks-spelled` has granules
//! of 2, 4 and so on to 360 bytes and looks at the first of each sector: from one to the next its sums grow by a
//! word, and so they tell each byte.

use crate::cases::Case;
use crate::coding::{encode, place_for};
use crate::directory::{COMPRESSED, RANDOM};
use crate::disk::Disk;
use crate::editing::Asked;
use crate::engine::Order;
use crate::generate::new_entry;
use crate::image::{BLANK, SECTOR};
use crate::layout::{records_per_sector, Place};
use crate::script::Script;

/// The sectors of every image here. Images of one length are told by some few patches of the first.
const SECTORS: usize = 68;

/// The longest R of a compressed file.
const R: usize = 132;

pub fn blank_cases() -> Vec<Case> {
    [
        fronts(),
        betweens(),
        ends(),
        repeated(),
        in_runs_of_characters(),
        splits(),
        starts(),
        neighbours(),
        pairs(),
        record_lengths(),
        fits(),
        spelled(),
    ]
    .concat()
}

// ---------------------------------------------------------------------------------------------
// Records and scripts.

/// A record of these numbers of characters and blanks in turn, characters first. An odd number of bytes
/// cannot be written: one blank more is put behind them.
fn record(numbers: &[usize]) -> Vec<u8> {
    let mut bytes = Vec::new();
    for (turn, &number) in numbers.iter().enumerate() {
        for _ in 0..number {
            bytes.push(if turn % 2 == 0 {
                letter(bytes.len())
            } else {
                BLANK
            });
        }
    }
    bytes.resize(bytes.len().next_multiple_of(2), BLANK);
    bytes
}

/// The character at a place: A to I in turn.
fn letter(place: usize) -> u8 {
    0xC1 + (place % 9) as u8
}

/// The files of a case, in entries 0 and so on: R and what is written.
type Files = [(usize, Vec<Vec<u8>>)];

/// The sectors that the codes of these records need.
fn sectors_of(r: usize, records: &[Vec<u8>]) -> usize {
    let mut place = Place::default();
    for bytes in records {
        let mut record = bytes.clone();
        record.resize(r, BLANK);
        let length = encode(&record).len();
        let start = place_for(length, place, SECTORS).unwrap_or(place);
        place = Place {
            byte: start.byte + length,
            ..start
        };
    }
    place.sector + 1
}

/// A case with a file of as many sectors as its records need.
fn case(name: &str, rule: &'static str, records: Vec<Vec<u8>>) -> Case {
    case_of_files(name, rule, &[(R, records)])
}

fn case_of_files(name: &str, rule: &'static str, files: &Files) -> Case {
    let sectors: Vec<usize> = files.iter().map(|(r, all)| sectors_of(*r, all)).collect();
    case_in(name, rule, files, &sectors)
}

/// A case with files of these numbers of sectors.
fn case_in(name: &str, rule: &'static str, files: &Files, sectors: &[usize]) -> Case {
    let mut disk = Disk::used(SECTORS);
    for (number, ((r, _), sectors)) in files.iter().zip(sectors).enumerate() {
        disk = disk.file(number, COMPRESSED, *r, *sectors);
    }
    let mut script = written(files);
    let all = sectors.iter().sum();
    add_granules(&mut script, SECTOR, all);
    look(&mut script, SECTOR, all);
    Case::new(name, rule, disk.image(), script)
}

/// Every file is opened, written, read from its beginning and closed; then all are deleted.
fn written(files: &Files) -> Script {
    let mut script = Script::default();
    for (number, (r, records)) in (0..).zip(files) {
        script.open(number);
        for bytes in records {
            script.write(number, bytes);
        }
        script.order(number, Order::RewindOnLine);
        for _ in records {
            script.read(number, *r);
        }
        script.close(number);
    }
    for (number, _) in (0..).zip(files) {
        script.delete(number);
    }
    script
}

/// Adds a random file of this many sectors, in entry 0 and from sector 1 on as nothing else is there.
fn add_granules(script: &mut Script, length: usize, sectors: usize) {
    script.add(&Asked {
        name: &new_entry("SHOWN", RANDOM, 0, 0, 0).name,
        kind: RANDOM,
        length: length as u16,
        sectors: sectors as u16,
    });
}

/// Looks at the front of every sector of the file in entry 0: the first granule that lies there.
fn look(script: &mut Script, length: usize, sectors: usize) {
    script.open(0);
    for sector in 0..sectors {
        script.granule_look(0, sector * records_per_sector(length));
    }
    script.close(0);
}

// ---------------------------------------------------------------------------------------------
// One group of every length.

const GROUPS: &str =
    "makes each other unbroken group of two or more blanks a blank run, and lets a single blank \
     stand among characters";

/// At the front, behind it a character or as many as the record takes.
fn fronts() -> Vec<Case> {
    let short = (0..R).map(|blanks| record(&[0, blanks, 1]));
    let whole = (0..R).map(|blanks| record(&[0, blanks, R - blanks]));
    vec![
        case("blanks-front", GROUPS, short.collect()),
        case("blanks-front-whole", GROUPS, whole.collect()),
    ]
}

/// Between two characters, and before the record's last character.
fn betweens() -> Vec<Case> {
    let short = (0..R - 1).map(|blanks| record(&[1, blanks, 1]));
    let whole = (0..R - 1).map(|blanks| record(&[R - 1 - blanks, blanks, 1]));
    vec![
        case("blanks-between", GROUPS, short.collect()),
        case("blanks-between-whole", GROUPS, whole.collect()),
    ]
}

/// At the end: behind one or two characters, up to R behind many, and behind a group and a character in
/// records that are shorter than R.
fn ends() -> Vec<Case> {
    let rule = "The writer drops trailing blanks; Short records ... are padded ..., in compressed files with blanks";
    let short = (0..R).map(|blanks| record(&[2 - blanks % 2, blanks]));
    let edges = (0..=R).filter(|blanks| !(20..110).contains(blanks));
    let whole = edges.map(|blanks| record(&[R - blanks, blanks]));
    let own = (4..R / 2).flat_map(|half| {
        let own = half % 4;
        let before = 2 * half - 3 - own;
        [
            record(&[before, 2, 1, own]),
            record(&[0, before + 2, 1, own]),
        ]
    });
    vec![
        case("blanks-end", rule, short.collect()),
        case("blanks-end-whole", rule, whole.collect()),
        case("blanks-end-of-short-records", rule, own.collect()),
    ]
}

// ---------------------------------------------------------------------------------------------
// Several groups.

/// Groups of one length between one, two or three characters as far as the record goes, its last byte a
/// character; a character or a group is first.
fn repeated() -> Vec<Case> {
    let groups = [1, 2, 3, 10, 64, 126, 127, 128, 129, 130];
    let files = [(R, &groups[..]), (80, &groups[..5]), (30, &groups[..4])].map(|(r, groups)| {
        let mut records = Vec::new();
        for &blanks in groups {
            for characters in 1..=3 {
                records.push(repeated_record(r, blanks, characters, 0));
                records.push(repeated_record(r, blanks, characters, characters));
            }
        }
        (r, records)
    });
    vec![case_of_files("blanks-repeated", GROUPS, &files)]
}

/// The bytes of a round of characters and blanks, from one of them on.
fn repeated_record(r: usize, blanks: usize, characters: usize, first: usize) -> Vec<u8> {
    let round = characters + blanks;
    let byte = |place: usize| match (place + first) % round {
        _ if place == r - 1 => letter(place),
        at if at < characters => letter(place),
        _ => BLANK,
    };
    (0..r).map(byte).collect()
}

/// Two groups: between three characters, and the first of them at the front.
fn pairs() -> Vec<Case> {
    let lengths = [1, 2, 3, 9, 62, 63, 64, 65, 125, 126, 127];
    let mut records = Vec::new();
    for first in lengths {
        for second in lengths.into_iter().filter(|second| first + second <= R - 3) {
            records.push(record(&[1, first, 1, second, 1]));
            records.push(record(&[0, first, 1, second, 1]));
        }
    }
    vec![case("blanks-two-groups", GROUPS, records)]
}

/// Groups of 1 to 17 from bytes 0 to 16 of a record on, a character behind them.
fn starts() -> Vec<Case> {
    let starts = (0..=16).flat_map(|start| (1..=17).map(move |blanks| record(&[start, blanks, 1])));
    vec![case("blanks-starts", GROUPS, starts.collect())]
}

/// Every character but the blank before and behind groups of one, two and three.
fn neighbours() -> Vec<Case> {
    let characters: Vec<u8> = (0..=255).filter(|&byte| byte != BLANK).collect();
    let records = characters.chunks(14).map(|characters| {
        let parts = characters
            .iter()
            .flat_map(|&c| [c, BLANK, BLANK, c, BLANK, c, BLANK, BLANK, BLANK]);
        let mut bytes: Vec<u8> = parts.collect();
        bytes.push(0xC1);
        bytes.resize(R, BLANK);
        bytes
    });
    vec![case("blanks-neighbours", GROUPS, records.collect())]
}

// ---------------------------------------------------------------------------------------------
// Runs over 127.

const SPLIT: &str = "Runs over 127 are split, 127 first";

/// One, two and three blanks in a record of 125 to 132 bytes, from one of its first bytes or one near the
/// end of a full run on; and one and two of them at every place of a whole record.
fn in_runs_of_characters() -> Vec<Case> {
    let near = |blanks: usize| {
        let mut records = Vec::new();
        for length in 125..=R {
            for place in [0, 1].into_iter().chain(124..=129) {
                if place + blanks <= length {
                    records.push(record(&[place, blanks, length - place - blanks]));
                }
            }
        }
        records
    };
    let each = |blanks: usize| {
        let places = 0..=R - blanks;
        places
            .map(|place| record(&[place, blanks, R - blanks - place]))
            .collect()
    };
    vec![
        case("blanks-single-near-127", SPLIT, near(1)),
        case("blanks-two-near-127", SPLIT, near(2)),
        case("blanks-three-near-127", SPLIT, near(3)),
        case("blanks-single-at-each-place", SPLIT, each(1)),
        case("blanks-two-at-each-place", SPLIT, each(2)),
    ]
}

/// Groups of 125 to 131 behind every number of characters, and before every number, that a record takes.
fn splits() -> Vec<Case> {
    let mut records = Vec::new();
    for blanks in 125..R {
        for before in 0..R - blanks {
            for behind in 1..=R - blanks - before {
                records.push(record(&[before, blanks, behind]));
            }
        }
    }
    vec![case("blanks-split", SPLIT, records)]
}

// ---------------------------------------------------------------------------------------------
// Other R, and room.

/// The record's end, for every R: a character, or one blank, is the last byte.
fn record_lengths() -> Vec<Case> {
    let rule = "R is even and ... 2 to 132 for kind 3; Compressed records";
    let all: Vec<usize> = (1..=R / 2).map(|half| 2 * half).collect();
    let files = |&r: &usize| {
        let mut records = vec![
            record(&[0, r - 1, 1]),
            record(&[r - 2, 1, 1]),
            record(&[r - 1, 1]),
        ];
        if r > 2 {
            records.push(record(&[1, r - 2, 1]));
            records.push(record(&[r - 3, 2, 1]));
        }
        (r, records)
    };
    all.chunks(17)
        .map(|rs| {
            let files: Vec<(usize, Vec<Vec<u8>>)> = rs.iter().map(files).collect();
            case_of_files(&format!("blanks-r{}-and-more", rs[0]), rule, &files)
        })
        .collect()
}

/// Codes of blanks with exactly the room that they need at the extent's end, and with a byte less; then a
/// code of one byte.
fn fits() -> Vec<Case> {
    let rule = "A coded record of e bytes goes at the current place o if o + e ≤ 360; 3 no room: ... a coded record \
                due in a sector past the extent";
    let coded = [
        (1, record(&[0, 2])),
        (4, record(&[0, 2, 1])),
        (4, record(&[0, 127, 1])),
        (5, record(&[0, 128, 1])),
        (5, record(&[0, 130, 1])),
        (5, record(&[1, 1, 1])),
        (6, record(&[1, 2, 1])),
        (6, record(&[1, 127, 1])),
        (7, record(&[1, 128, 1])),
    ];
    let mut files = Vec::new();
    for (length, bytes) in coded {
        for left in [length, length - 1] {
            let filled = [120, 120, SECTOR - 2 * 122 - 2 - left];
            let mut records: Vec<Vec<u8>> = filled.map(|number| record(&[number])).to_vec();
            records.extend([bytes.clone(), record(&[0, 2])]);
            files.push((R, records));
        }
    }
    vec![case_in("blanks-room", rule, &files, &[1; 18])]
}

// ---------------------------------------------------------------------------------------------
// Codes byte for byte.

/// Groups at the front, between characters and at the end, and every word of their two sectors.
fn spelled() -> Vec<Case> {
    let mut records = Vec::new();
    for blanks in [
        0, 1, 2, 3, 4, 9, 10, 11, 63, 64, 65, 126, 127, 128, 129, 130,
    ] {
        records.push(record(&[0, blanks, 1]));
        records.push(record(&[1, blanks, 1]));
        records.push(record(&[2 - blanks % 2, blanks]));
    }
    records.push(record(&[0, 131, 1]));
    records.push(record(&[1, 1, 1, 2, 1, 1, 1, 3, 2, 1]));
    records.push(record(&[126, 1, 5]));
    records.push(record(&[127, 1, 4]));
    let files = [(R, records)];
    let sectors = sectors_of(R, &files[0].1);
    let mut script = written(&files);
    for words in 1..=SECTOR / 2 {
        add_granules(&mut script, 2 * words, sectors);
        look(&mut script, 2 * words, sectors);
        script.delete(0);
    }
    let image = Disk::used(SECTORS).file(0, COMPRESSED, R, sectors).image();
    vec![Case::new("blanks-spelled", GROUPS, image, script)]
}
