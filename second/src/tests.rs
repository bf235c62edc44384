//! Document 01's table of twelve rows, the listing's whole case, the easy errors, and some more; ADD and DELETE,
//! small granules, the pass listing.

use std::collections::HashSet;

use crate::answer::Answer::{self, *};
use crate::blanks::blank_cases;
use crate::bundle::{bundle, expected, unbundle, MOST_BUNDLED};
use crate::cases::{all_cases, random_case, wide_case, Case};
use crate::characters::{self, ascii, ebcdic};
use crate::coding::{decode, encode};
use crate::committed::committed_cases;
use crate::damage::{damaged_cases, small_image};
use crate::directory::{directory_is_good, ENTRIES, MARKED};
use crate::directory::{find_by_name, table_of, Entry, BLOCKED, COMPRESSED, RANDOM, UNBLOCKED};
use crate::disk::Disk;
use crate::editing::{self, Asked};
use crate::edits::{edit_cases, pictured};
use crate::engine::{self, Order};
use crate::generate::{empty_image, new_entry, put_entry, random_image, Sort};
use crate::granules::granule_cases;
use crate::image::{sector, words, BLANK, SECTOR};
use crate::layout::{blocked_place, capacity, granule_capacity, granule_place};
use crate::layout::{records_per_sector, unblocked_capacity, Place};
use crate::listed::{images_of, listed_file, listed_images};
use crate::listing::listing;
use crate::model::hand_code;
use crate::notation::script;
use crate::patch::Patch;
use crate::play::{patched_session, perform, play};
use crate::random::Random;
use crate::script::{Code, Row, Script};
use crate::selfcheck::selfcheck;
use crate::session::{mount, Buffer, Engine, OpenFile, Session};
use crate::sessions::session_cases;
use crate::showcheck::{check_shown, listed};
use crate::showing::{pass_listing, put_lines, told as told_answer};
use crate::shown::{expected_showings, padded, shown_cases};
use crate::station::station;
use crate::stored::{read_session, store};
use crate::strange::{strange_bytes, strange_session};
use crate::wideshow::wide_show_case;

const BOTH: [Engine; 2] = [Engine::Plain, Engine::Buffered];

/// A record of R 132 whose code has 120 bytes: a run of 118 characters and the 0.
fn chars_118() -> Vec<u8> {
    let mut record = vec![0xC1; 118];
    record.resize(132, BLANK);
    record
}

/// An image at work in an engine, for short tests.
struct Bench {
    image: Vec<u8>,
    session: Session,
}

impl Bench {
    fn new(engine: Engine, image: Vec<u8>) -> Bench {
        let (answer, session) = mount(engine, &image);
        assert_eq!(answer, Done);
        Bench { image, session }
    }

    /// One file of this kind in entry 0, open.
    fn with_file(engine: Engine, kind: u16, r: usize, sectors: usize) -> Bench {
        let mut image = empty_image(1 + sectors);
        image[SECTOR..].fill(0x55);
        put_entry(&mut image, 0, &new_entry("FILE", kind, r, 1, sectors));
        let mut bench = Bench::new(engine, image);
        assert_eq!(bench.open(0), Done);
        bench
    }

    fn open(&mut self, number: usize) -> Answer {
        engine::open(&self.image, &mut self.session, number)
    }

    fn read(&mut self) -> (Answer, Vec<u8>) {
        let mut buffer = vec![0; self.session.table[0].r()];
        let answer = engine::read(&mut self.image, &mut self.session, 0, &mut buffer);
        (answer, buffer)
    }

    fn write(&mut self, data: &[u8]) -> Answer {
        engine::write(&mut self.image, &mut self.session, 0, data)
    }

    fn order(&mut self, order: Order) -> Answer {
        engine::order(&mut self.image, &mut self.session, 0, order)
    }

    fn close(&mut self) -> Answer {
        self.order(Order::RewindOffLine)
    }

    fn entry(&self) -> Entry {
        self.session.table[0]
    }

    fn file(&self) -> &OpenFile {
        &self.session.open[0]
    }
}

/// Every request once on an entry.
fn all_answers(image: &mut [u8], session: &mut Session, number: usize) -> Vec<Answer> {
    let mut buffer = [0; 3_600];
    let mut answers = vec![
        engine::open(image, session, number),
        engine::read(image, session, number, &mut buffer),
        engine::write(image, session, number, &[1, 2]),
        engine::granule_read(image, session, number, 0, &mut buffer),
        engine::granule_write(image, session, number, 0, &[1, 2]),
        engine::look_answer(image, session, number, 0),
    ];
    for order in [
        Order::WriteFileMark,
        Order::RewindOnLine,
        Order::RecordForward,
        Order::RecordBack,
        Order::FileForward,
        Order::FileBack,
        Order::RewindOffLine,
    ] {
        answers.push(engine::order(image, session, number, order));
    }
    answers
}

// ---------------------------------------------------------------------------------------------
// "Table to be proved".

/// Rows 1 to 8 of the table: the row, R and the record.
fn coded_rows() -> Vec<(usize, usize, Vec<u8>)> {
    let (a, b, x) = (0xC1, 0xC2, 0xE7);
    let row = |r: usize, front: Vec<u8>| {
        let mut record = front;
        record.resize(r, BLANK);
        (r, record)
    };
    let mut blanks_then_ab = vec![BLANK; 130];
    blanks_then_ab.extend([a, b]);
    let rows = [
        row(80, vec![]),
        row(80, vec![a, b]),
        row(80, vec![a, BLANK, b]),
        row(80, vec![a, BLANK, BLANK, b]),
        row(80, vec![BLANK, BLANK, BLANK, BLANK, BLANK, x]),
        row(80, vec![BLANK, a]),
        row(132, blanks_then_ab),
        row(132, vec![a; 132]),
    ];
    (1..)
        .zip(rows)
        .map(|(row, (r, record))| (row, r, record))
        .collect()
}

#[test]
fn table_rows_1_to_8() {
    let all_a = {
        let mut code = vec![0x7F];
        code.extend([0xC1; 127]);
        code.push(5);
        code.extend([0xC1; 5]);
        code.push(0);
        code
    };
    assert_eq!(all_a.len(), 135);
    let codes: [&[u8]; 8] = [
        &[0x00],
        &[0x02, 0xC1, 0xC2, 0x00],
        &[0x03, 0xC1, 0x40, 0xC2, 0x00],
        &[0x01, 0xC1, 0x82, 0x01, 0xC2, 0x00],
        &[0x85, 0x01, 0xE7, 0x00],
        &[0x02, 0x40, 0xC1, 0x00],
        &[0xFF, 0x83, 0x02, 0xC1, 0xC2, 0x00],
        &all_a,
    ];
    for ((row, r, record), code) in coded_rows().into_iter().zip(codes) {
        assert_eq!(encode(&record), code, "row {row}");
        assert_eq!(decode(code, r), Some((record, code.len())), "row {row}");
    }
}

#[test]
fn table_row_9() {
    assert_eq!(
        blocked_place(100, 2),
        Place {
            sector: 0,
            byte: 200
        }
    );
    assert_eq!(blocked_place(100, 3), Place { sector: 1, byte: 0 });
}

#[test]
fn table_row_10() {
    assert_eq!(records_per_sector(182), 1);
    assert_eq!(records_per_sector(180), 2);
}

#[test]
fn table_row_11() {
    assert_eq!(unblocked_capacity(362, 5), 2);
}

#[test]
fn table_row_12() {
    for engine in BOTH {
        let mut bench = Bench::with_file(engine, COMPRESSED, 132, 2);
        for _ in 0..3 {
            assert_eq!(bench.write(&[0xC1; 132]), Done);
        }
        assert_eq!(bench.close(), Done);
        let first = sector(&bench.image, 1);
        assert_eq!(first[134], 0);
        assert_eq!(first[135], 0x7F);
        assert_eq!(first[269], 0);
        assert!(first[270..].iter().all(|&byte| byte == 0x80));
        let second = sector(&bench.image, 2);
        assert_eq!(second[..135], encode(&[0xC1; 132]));
        assert!(second[135..].iter().all(|&byte| byte == 0x80));
    }
}

// ---------------------------------------------------------------------------------------------
// "Listing".

#[test]
fn listing_whole_case() {
    let mut image = empty_image(10);
    let mut entry = new_entry("PASSA", COMPRESSED, 80, 1, 4);
    entry.count = 2;
    entry.flags = MARKED;
    put_entry(&mut image, 0, &entry);
    let text = "FILE NAME KIND RECORD FIRST SECTORS COUNT FLAGS\n0 PASSA 3 80 1 4 2 1\n";
    assert_eq!(listing(&image), text);
}

#[test]
fn listing_of_bad_and_longer_images() {
    assert_eq!(listing(&[]), "BAD IMAGE\n");
    assert_eq!(listing(&[0; 359]), "BAD IMAGE\n");
    assert_eq!(listing(&empty_image(181)), "BAD IMAGE\n");
    let header = "FILE NAME KIND RECORD FIRST SECTORS COUNT FLAGS\n";
    assert_eq!(listing(&empty_image(180)), header);
}

#[test]
fn listing_of_all_kinds() {
    let lines = "FILE NAME KIND RECORD FIRST SECTORS COUNT FLAGS
0 ALPHA 1 400 1 4 2 1
1 BETA1 2 100 5 2 6 2
2 GAMMA 3 80 7 2 3 3
3 DELTA22X 4 360 9 2 0 0
";
    assert_eq!(listing(&small_image()), lines);
}

// ---------------------------------------------------------------------------------------------
// "Easy errors".

/// "filling with 128 before finding there is no next sector"
#[test]
fn no_next_sector_leaves_all_as_it_was() {
    for engine in BOTH {
        let mut bench = Bench::with_file(engine, COMPRESSED, 132, 1);
        assert_eq!(bench.write(&[0xC1; 132]), Done);
        assert_eq!(bench.write(&[0xC1; 132]), Done);
        let before = (bench.image.clone(), bench.session.clone());
        assert_eq!(bench.write(&[0xC1; 132]), NoRoom);
        assert_eq!((bench.image.clone(), bench.session.clone()), before);
        // A shorter code still goes at that very place.
        assert_eq!(bench.write(&[0xC1; 2]), Done);
        assert_eq!(
            bench.file().place,
            Place {
                sector: 0,
                byte: 274
            }
        );
    }
}

/// "letting old codes stand behind a shorter rewrite"
#[test]
fn shorter_rewrite_clears_the_sector() {
    for engine in BOTH {
        let mut bench = Bench::with_file(engine, COMPRESSED, 132, 1);
        bench.write(&[0xC1; 132]);
        bench.write(&[0xC1; 132]);
        assert_eq!(bench.order(Order::RewindOnLine), Done);
        assert_eq!(bench.write(&[0xC1, 0xC2]), Done);
        assert_eq!(bench.close(), Done);
        let bytes = sector(&bench.image, 1);
        assert_eq!(bytes[..4], [2, 0xC1, 0xC2, 0]);
        assert!(bytes[4..].iter().all(|&byte| byte == 128));
    }
}

/// "putting a look-ahead 128 after a sector filled exactly by three 120-byte codes"
#[test]
fn sector_filled_exactly() {
    for engine in BOTH {
        let mut bench = Bench::with_file(engine, COMPRESSED, 132, 2);
        let record = chars_118();
        assert_eq!(encode(&record).len(), 120);
        for _ in 0..3 {
            assert_eq!(bench.write(&record), Done);
        }
        assert_eq!(
            bench.file().place,
            Place {
                sector: 0,
                byte: SECTOR
            }
        );
        assert_eq!(bench.close(), Done);
        assert_eq!(sector(&bench.image, 1)[359], 0);
        assert!(sector(&bench.image, 2).iter().all(|&byte| byte == 0x55));
        assert_eq!(bench.open(0), Done);
        for _ in 0..3 {
            assert_eq!(bench.read(), (Done, record.clone()));
        }
        assert_eq!(bench.write(&record[..2]), Done);
        assert_eq!(bench.close(), Done);
        assert_eq!(sector(&bench.image, 1)[359], 0);
        assert_eq!(sector(&bench.image, 2)[..5], [2, 0xC1, 0xC1, 0, 128]);
    }
}

/// "counting the mark as a record"
#[test]
fn mark_is_no_record() {
    for engine in BOTH {
        for kind in [UNBLOCKED, BLOCKED, COMPRESSED] {
            let mut bench = Bench::with_file(engine, kind, 80, 2);
            assert_eq!(bench.write(&[1; 80]), Done);
            assert_eq!(bench.order(Order::WriteFileMark), Done);
            assert_eq!((bench.entry().count, bench.entry().flags), (1, MARKED));
            assert_eq!((bench.file().position, bench.file().beyond), (1, true));
            assert_eq!(bench.order(Order::RewindOnLine), Done);
            assert_eq!(bench.read().0, Done);
            assert_eq!(bench.read().0, EndOfFile);
            assert_eq!((bench.file().position, bench.file().beyond), (1, true));
            assert_eq!(bench.read().0, WrongKindOrSequence);
        }
    }
}

/// "losing the buffer at a rewind"
#[test]
fn rewind_keeps_what_was_written() {
    for order in [Order::RewindOnLine, Order::FileBack] {
        for kind in [BLOCKED, COMPRESSED] {
            let mut bench = Bench::with_file(Engine::Buffered, kind, 80, 2);
            let before = bench.image.clone();
            assert_eq!(bench.write(&[7; 80]), Done);
            assert_eq!(bench.image, before, "a write leaves the image as it was");
            bench.order(order);
            assert_eq!(bench.image != before, order == Order::RewindOnLine);
            assert_eq!(bench.file().buffer.changed, order == Order::FileBack);
            assert_eq!(bench.read(), (Done, vec![7; 80]));
        }
    }
}

// ---------------------------------------------------------------------------------------------
// The blocking buffer.

#[test]
fn reading_on_takes_the_old_sector_first() {
    let mut bench = Bench::with_file(Engine::Buffered, COMPRESSED, 132, 2);
    for _ in 0..3 {
        assert_eq!(bench.write(&[0xC1; 132]), Done);
    }
    // Sector 1 is held and changed; file back (2) puts nothing back.
    assert_eq!(bench.order(Order::FileBack), BeginningOfTape);
    assert!(bench.file().buffer.holds_sector(1) && bench.file().buffer.changed);
    assert_eq!(bench.order(Order::RecordForward), Done);
    assert_eq!(bench.order(Order::RecordForward), Done);
    assert_eq!(sector(&bench.image, 2), [0x55; SECTOR]);
    // The place is at byte 270, a 128: sector 0 is taken first, so sector 1 is put back.
    assert_eq!(bench.read(), (Done, vec![0xC1; 132]));
    assert_eq!(sector(&bench.image, 2)[..135], encode(&[0xC1; 132]));
    assert!(bench.file().buffer.holds_sector(1) && !bench.file().buffer.changed);
}

#[test]
fn reading_from_byte_360_keeps_a_held_next_sector() {
    let mut bench = Bench::with_file(Engine::Buffered, COMPRESSED, 132, 2);
    for _ in 0..4 {
        assert_eq!(bench.write(&chars_118()), Done);
    }
    assert_eq!(bench.order(Order::FileBack), BeginningOfTape);
    for _ in 0..3 {
        assert_eq!(bench.order(Order::RecordForward), Done);
    }
    assert_eq!(bench.read(), (Done, chars_118()));
    assert_eq!(sector(&bench.image, 2), [0x55; SECTOR]);
    assert!(bench.file().buffer.holds_sector(1) && bench.file().buffer.changed);
}

#[test]
fn unchanged_buffer_is_not_put_back() {
    let mut bench = Bench::with_file(Engine::Buffered, BLOCKED, 180, 2);
    bench.write(&[1; 180]);
    bench.order(Order::RewindOnLine);
    bench.read();
    bench.image[SECTOR..2 * SECTOR].fill(0xEE);
    assert_eq!(bench.order(Order::RewindOnLine), Done);
    assert_eq!(bench.close(), Done);
    assert_eq!(sector(&bench.image, 1), [0xEE; SECTOR]);
}

#[test]
fn blocked_write_zeroes_behind_the_record() {
    for engine in BOTH {
        let mut bench = Bench::with_file(engine, BLOCKED, 100, 1);
        bench.write(&[1; 100]);
        bench.write(&[2; 2]);
        bench.close();
        let bytes = sector(&bench.image, 1);
        assert_eq!(bytes[98..104], [1, 1, 2, 2, 0, 0]);
        assert!(bytes[102..].iter().all(|&byte| byte == 0));
    }
}

// ---------------------------------------------------------------------------------------------
// Answers.

#[test]
fn tests_come_in_order() {
    for engine in BOTH {
        let mut bench = Bench::with_file(engine, UNBLOCKED, 80, 1);
        assert_eq!(bench.write(&[]), WrongLength);
        assert_eq!(bench.write(&[1; 81]), OddCount);
        assert_eq!(bench.write(&[1; 82]), WrongLength);
        assert_eq!(bench.write(&[1; 80]), Done);
        assert_eq!(bench.write(&[1; 81]), OddCount);
        assert_eq!(bench.write(&[1; 82]), WrongLength);
        assert_eq!(bench.write(&[1; 80]), NoRoom);
        let mut short = [9; 79];
        assert_eq!(
            engine::read(&mut bench.image, &mut bench.session, 0, &mut short),
            WrongLength
        );
        assert_eq!(bench.order(Order::WriteFileMark), Done);
        assert_eq!(
            engine::read(&mut bench.image, &mut bench.session, 0, &mut short),
            WrongKindOrSequence
        );
        assert_eq!(short, [9; 79]);
        assert_eq!(bench.open(0), OpenAlready);
        assert_eq!(bench.open(1), NotThere);
        assert_eq!(bench.open(18), NotThere);
    }
}

#[test]
fn granules() {
    for engine in BOTH {
        let mut bench = Bench::with_file(engine, RANDOM, 362, 5);
        let (image, session) = (&mut bench.image, &mut bench.session);
        assert_eq!(capacity(&session.table[0]), Some(2));
        assert_eq!(engine::granule_write(image, session, 0, 1, &[1, 2]), Done);
        let mut granule = vec![0; 362];
        granule[..2].copy_from_slice(&[1, 2]);
        assert_eq!(engine::look(image, session, 0, 1), granule);
        assert_eq!(image[5 * SECTOR - 358..5 * SECTOR], [0; 358]);
        assert_eq!(sector(image, 5), [0x55; SECTOR]);
        assert_eq!(engine::look_answer(image, session, 0, 2), NoRoom);
        assert_eq!(engine::look(image, session, 0, 2), []);
        assert_eq!(engine::granule_write(image, session, 0, 2, &[1]), OddCount);
        assert_eq!(
            engine::granule_read(image, session, 0, 2, &mut [0; 361]),
            WrongLength
        );
        assert_eq!(
            engine::granule_read(image, session, 0, 2, &mut [0; 362]),
            NoRoom
        );
        let mut answers = all_answers(image, session, 0);
        assert_eq!(answers.remove(0), OpenAlready);
        let seven = WrongKindOrSequence;
        assert_eq!(answers[..5], [seven, seven, Done, Done, Done]);
        assert_eq!(answers[5..11], [seven; 6]);
        assert_eq!(answers[11], Done);
    }
}

#[test]
fn refused_mounting() {
    for engine in BOTH {
        let mut image = small_image();
        image[8] = 9;
        let (answer, mut session) = mount(engine, &image);
        assert_eq!(answer, BadImage);
        assert_eq!(session.table, [Entry::default(); ENTRIES]);
        assert_eq!(all_answers(&mut image, &mut session, 0), [NotThere; 13]);
        let mut short = small_image()[..3_000].to_vec();
        let (answer, mut session) = mount(engine, &short);
        assert_eq!(answer, BadImage);
        assert_eq!(
            all_answers(&mut short, &mut session, 0),
            [IllegalSession; 13]
        );
    }
}

#[test]
fn illegal_session() {
    for engine in BOTH {
        let mut bench = Bench::with_file(engine, COMPRESSED, 80, 2);
        bench.session.open[0].place.byte = 361;
        let before = (bench.image.clone(), bench.session.clone());
        let answers = all_answers(&mut bench.image, &mut bench.session, 0);
        assert_eq!(answers, [IllegalSession; 13]);
        assert_eq!((bench.image, bench.session), before);
    }
}

#[test]
fn bad_code_met_changes_nothing() {
    for engine in BOTH {
        let mut bench = Bench::with_file(engine, COMPRESSED, 80, 2);
        bench.write(&[1; 80]);
        bench.close();
        bench.image[SECTOR] = 128;
        let before = (bench.image.clone(), bench.session.clone());
        assert_eq!(bench.open(0), BadImage);
        assert_eq!((bench.image.clone(), bench.session.clone()), before);
        bench.image[SECTOR] = 80;
        assert_eq!(bench.open(0), Done);
        bench.image[SECTOR + 81] = 128;
        let before = (bench.image.clone(), bench.session.clone());
        assert_eq!(bench.read(), (BadImage, vec![0; 80]));
        assert_eq!(bench.order(Order::RecordForward), BadImage);
        assert_eq!((bench.image.clone(), bench.session.clone()), before);
        // A write never decodes.
        assert_eq!(bench.write(&[1; 80]), Done);
    }
}

#[test]
fn found_by_name() {
    let mut table = table_of(&small_image());
    let name = table[3].name;
    assert_eq!(find_by_name(&table, &name), Ok(3));
    table[2] = table[3];
    assert_eq!(find_by_name(&table, &name), Ok(2));
    assert_eq!(find_by_name(&table, &name[..7]), Err(NotThere));
    assert_eq!(find_by_name(&table, &[0; 8]), Err(NotThere));
    assert_eq!(find_by_name(&[], &name), Err(NotThere));
}

// ---------------------------------------------------------------------------------------------
// Coding.

/// "A coded record has at most R + 3 bytes."
#[test]
fn codes_are_short_and_give_the_record_back() {
    let mut random = Random::new(1);
    for _ in 0..20_000 {
        let r = 2 * random.between(1, 66);
        let record = crate::generate::random_text(&mut random, r);
        let code = encode(&record);
        assert!(code.len() <= r + 3);
        assert_eq!(decode(&code, r), Some((record.clone(), code.len())));
        let foreign = crate::generate::foreign_code(&mut random, &record);
        assert_eq!(decode(&foreign, r), Some((record, foreign.len())));
    }
}

#[test]
fn bad_codes() {
    let long = [BLANK; 11];
    let mut eleven = vec![11];
    eleven.extend(long);
    eleven.push(0);
    let bad: [&[u8]; 7] = [
        &[],
        &[1],
        &[1, 0xC1],
        &[0x82, 0x80, 0],
        &[0x80, 0],
        &[0x8B, 0],
        &eleven,
    ];
    for code in bad {
        assert_eq!(decode(code, 10), None, "{code:x?}");
    }
    assert_eq!(decode(&[0x8A, 0], 10), Some((vec![BLANK; 10], 2)));
}

// ---------------------------------------------------------------------------------------------
// Good and bad directories and codes.

/// The names of the cases that begin like this and whose image is good.
fn good_cases(front: &str) -> Vec<String> {
    let cases = damaged_cases(&mut Random::new(1));
    let wanted = cases.iter().filter(|case| case.name.starts_with(front));
    let good = wanted.filter(|case| directory_is_good(&case.image));
    good.map(|case| case.name[front.len()..].to_string())
        .collect()
}

#[test]
fn each_broken_rule_is_refused() {
    assert_eq!(good_cases("damage-"), ["none"]);
    assert_eq!(good_cases("length-"), [""; 0]);
}

#[test]
fn edges_of_the_rules() {
    let good = [
        "length-least",
        "length-3600",
        "length-other",
        "length-132",
        "length-just-codes",
        "sectors-fewer",
        "count-0",
        "count-0-blocked",
        "count-0-compressed",
        "count-1-compressed",
        "flags-3",
        "random-protected",
        "name-one-letter-more",
        "name-all-digits-behind",
        "kind-1-for-4",
    ];
    assert_eq!(good_cases("edge-"), good);
}

#[test]
fn edges_of_the_codes() {
    let good = [
        "eleven-characters-count1",
        "eleven-blanks-count1",
        "eleven-by-runs-count1",
        "one-blank-too-many-count1",
        "go-on-inside-count1",
        "go-on-behind-blanks-count1",
        "blanks-largest-count1",
        "characters-largest-count1",
        "good-count1",
        "good-count2",
        "go-on-at-0-behind-count0",
        "go-on-at-1-count2",
        "go-on-at-359-count360",
        "place-360-count361",
        "place-360-end-count360",
        "two-left-end-in-sector-count359",
        "fills-extent-count720",
    ];
    assert_eq!(good_cases("code-"), good);
}

/// "Capacity is q·sectors, at most 65,535."; "position already 65,535"
#[test]
fn largest_counts() {
    let blocked = new_entry("LARGE", BLOCKED, 2, 1, 365);
    assert_eq!(capacity(&blocked), Some(65_535));
    for engine in BOTH {
        let mut image = empty_image(185);
        let mut entry = new_entry("LAST", COMPRESSED, 2, 1, 184);
        entry.count = 65_534;
        entry.flags = MARKED;
        put_entry(&mut image, 0, &entry);
        let mut bench = Bench::new(engine, image);
        assert_eq!(bench.open(0), Done);
        assert_eq!(bench.order(Order::FileForward), Done);
        assert_eq!(bench.order(Order::FileBack), Done);
        assert_eq!(bench.write(&[BLANK; 2]), Done);
        assert_eq!(bench.file().position, 65_535);
        assert_eq!(bench.write(&[BLANK; 2]), NoRoom);
        assert_eq!(bench.write(&[BLANK; 4]), WrongLength);
        assert_eq!(bench.order(Order::WriteFileMark), Done);
    }
}

// ---------------------------------------------------------------------------------------------
// Sessions of any origin, in bytes.

/// A session for the small image with file 2 open in state 1.
fn small_session(engine: Engine) -> Session {
    let (_, mut session) = mount(engine, &small_image());
    session.table[2].count = 0x0102_0304;
    let file = &mut session.open[1];
    file.in_use = true;
    file.entry = 2;
    file.position = 0x0506_0708;
    file.beyond = true;
    file.place = Place {
        sector: 0x090A,
        byte: 360,
    };
    file.end_place = Place {
        sector: 0x0B0C_0D0E,
        byte: 9,
    };
    session
}

/// The bytes that SESSIONS.md tells, one by one.
#[test]
fn form_of_a_session() {
    let plain = store(&small_session(Engine::Plain));
    assert_eq!(plain.len(), 517);
    assert_eq!(plain[..16], small_image()[..16]);
    assert_eq!(plain[16..22], [0, 0, 0, 2, 0, 1]);
    assert_eq!(
        plain[44 + 8..44 + 22],
        [0, 3, 0, 80, 0, 7, 0, 2, 1, 2, 3, 4, 0, 3]
    );
    assert_eq!(plain[396..426], [0; 30]);
    let state = [
        &[1][..],
        &[2, 0, 0, 0, 0, 0, 0, 0],
        &[8, 7, 6, 5],
        &[1],
        &[0x0A, 0x09, 0, 0],
        &[0x68, 0x01, 0, 0],
        &[0x0E, 0x0D, 0x0C, 0x0B],
        &[9, 0, 0, 0],
    ]
    .concat();
    assert_eq!(plain[426..456], state);
    assert_eq!(plain[456..], [0; 61]);
    let mut session = small_session(Engine::Buffered);
    session.open[1].buffer.holds = true;
    session.open[1].buffer.sector = 0x0102;
    session.open[1].buffer.bytes[359] = 7;
    let buffered = store(&session);
    assert_eq!(buffered.len(), 1_981);
    assert_eq!(buffered[792..822], state);
    assert_eq!(buffered[822..828], [1, 2, 1, 0, 0, 0]);
    assert_eq!(buffered[828..1_187], [0; 359]);
    assert_eq!(buffered[1_187], 7);
    assert_eq!(buffered[1_188..], [0; 793]);
    for engine in BOTH {
        let (_, refused) = mount(engine, &[1; 360]);
        let bytes = store(&refused);
        let (last, others) = bytes.split_last().unwrap_or((&0, &[]));
        assert_eq!(*last, 1);
        assert!(others.iter().all(|&byte| byte == 0));
    }
}

#[test]
fn sessions_come_back() {
    let mut random = Random::new(5);
    for engine in BOTH {
        let session = small_session(engine);
        assert_eq!(read_session(&store(&session)), Some(session));
    }
    for _ in 0..200 {
        let mut image = random_image(&mut random, Sort::Wide);
        let session = strange_session(&mut random, &mut image);
        assert_eq!(read_session(&store(&session)).as_ref(), Some(&session));
        let made = strange_bytes(&mut random, &image, &session);
        if let Some(session) = read_session(made.buffered()) {
            assert_eq!(store(&session), made.buffered());
        }
    }
}

/// Other numbers of bytes, and truth values other than 0 and 1.
#[test]
fn bytes_that_are_no_session() {
    for length in [0, 1, 515, 516, 518, 1_979, 1_980, 1_982] {
        assert_eq!(read_session(&vec![0; length]), None);
    }
    for (length, truths) in [(517, &[0, 13][..]), (1_981, &[0, 13, 30, 35])] {
        let size = (length - 397) / 4;
        for at in 396..length {
            let is_truth = truths.contains(&((at - 396) % size)) || at == length - 1;
            for value in [2, 3, 128, 255] {
                let mut bytes = vec![0; length];
                bytes[at] = value;
                assert_eq!(read_session(&bytes).is_none(), is_truth, "byte {at}");
            }
        }
    }
}

/// 12 to every row, and nothing changed; no position is told.
#[test]
fn play_on_no_session() {
    let script = script(100, "@1 open read write:2 @3 look:0 close");
    for engine in BOTH {
        let broken = [Patch { at: 396, byte: 2 }];
        let played = play(engine, small_image(), &broken, &script);
        let text = "MOUNT 0\n0 12 0 - -\n1 12 0 - -\n2 12 0 - -\n3 12 0 - -\n4 12 0 - -\n";
        assert_eq!(played.text, text);
        assert_eq!(played.image, small_image());
    }
}

/// The sum is of the directory's R bytes of the one buffer, also where the table has another R; an odd
/// last byte is the high byte of a word, and a write's bytes stand elsewhere.
#[test]
fn sums_are_of_the_buffer() {
    let mut image = empty_image(3);
    put_entry(&mut image, 0, &new_entry("ONE", UNBLOCKED, 8, 1, 1));
    put_entry(&mut image, 1, &new_entry("TWO", RANDOM, 4, 2, 1));
    image[2 * SECTOR..2 * SECTOR + 4].copy_from_slice(&[0, 1, 0, 2]);
    image[SECTOR + 1] = 5;
    // The table of entry 0: R is 2, the count 1. File 0 is open in state 0.
    let patches = [(11, 2), (19, 1), (396, 1)].map(|(at, byte)| Patch { at, byte });
    let mut script = Script::default();
    script.read(0, 8).open(1).granule_read(1, 0, 4);
    script.order(0, Order::RewindOnLine).read(0, 8).read(0, 8);
    script.write(0, &[0, 1, 0, 1]).order(0, Order::RewindOnLine);
    script.read(0, 8).order(0, Order::RewindOnLine).read(0, 3);
    script.granule_read(1, 0, 4);
    script.order(0, Order::RewindOnLine).read(0, 4);
    script.granule_write(1, 0, &[9, 9, 9, 9]);
    script.granule_read(1, 0, 4);
    script.order(0, Order::RewindOnLine).read(0, 3);
    for engine in BOTH {
        let text = play(engine, image.clone(), &patches, &script).text;
        let sums: Vec<&str> = text
            .lines()
            .filter_map(|row| row.split(' ').nth(2))
            .collect();
        let wanted = [
            "5", "0", "3", "0", "7", "0", "0", "0", "7", "0", "5", "3", "0", "7", "4626", "4626",
            "0", "2309",
        ];
        assert_eq!(sums, wanted, "{text}");
    }
}

/// The names of the session cases that begin like this and whose session is legal for the buffered
/// engine.
fn legal_cases(front: &str) -> Vec<String> {
    let mut names = Vec::new();
    for case in session_cases() {
        let Some(name) = case.name.strip_prefix(front) else {
            continue;
        };
        let (_, session) = patched_session(Engine::Buffered, &case.image, &case.sessions[1]);
        if session.is_some_and(|session| session.is_legal(&case.image)) {
            names.push(name.to_string());
        }
    }
    names
}

#[test]
fn legal_positions_and_places() {
    let unblocked = ["0", "1", "count", "beyond", "places-of-no-code"];
    let holding = ["in", "in-unchanged", "last", "last-unchanged", "none"];
    let holding = holding.map(|name| format!("says-it-holds-{name}"));
    assert_eq!(
        legal_cases("session-entry0-"),
        [&unblocked.map(String::from)[..], &holding].concat()
    );
    let blocked = [
        "4",
        "count",
        "beyond",
        "held-last",
        "held-none-past",
        "held-none-largest",
        "held-none-changed",
        "held-none-past-changed",
        "entry-17",
        "places-of-no-code",
    ];
    assert_eq!(legal_cases("session-entry1-"), blocked);
    let compressed = [
        "1-at-0",
        "19",
        "count",
        "beyond",
        "beyond-at-place-0",
        "place-0-360",
        "place-1-0",
        "place-1-360",
        "place-2-0",
        "place-2-360",
        "end-0-360",
        "end-2-0",
        "end-2-360",
        "held-last",
        "held-none-changed",
    ];
    assert_eq!(legal_cases("session-entry2-"), compressed);
    let random = ["0", "places-of-no-code"];
    assert_eq!(
        legal_cases("session-entry3-"),
        [&random.map(String::from)[..], &holding].concat()
    );
    let protected = ["beyond", "not-beyond"];
    assert_eq!(
        legal_cases("session-entry6-"),
        [&protected.map(String::from)[..], &holding].concat()
    );
    assert_eq!(legal_cases("session-entry17-"), holding);
}

/// 65,535 is a count, and 65,536 is none, of whatever kind the file is.
#[test]
fn legal_counts() {
    let legal = [
        "more",
        "more-by-far",
        "fewer",
        "none",
        "65534",
        "65535",
        "65535-written",
        "65535-short",
        "65535-short-written",
        "65535-unmarked",
        "65535-unmarked-short",
        "blocked-capacity",
        "65534-entry2-at",
        "65534-entry2-below",
        "65534-entry2-at-0",
        "65535-entry2-at",
        "65535-entry2-below",
        "65535-entry2-at-0",
        "65535-entry5-at",
        "65535-entry5-below",
        "65535-entry5-at-0",
        "closed-entry2-0",
        "closed-entry2-10",
        "closed-entry2-21",
        "closed-entry2-65535",
        "closed-entry5-65535",
        "closed-entry0-3",
        "closed-entry1-9",
    ];
    assert_eq!(legal_cases("session-count-"), legal);
}

#[test]
fn legal_tables_and_lengths() {
    let rules = [
        "count-behind-codes",
        "length-least",
        "length-3600",
        "length-other",
        "length-132",
        "length-just-codes",
        "length-under-codes",
        "sectors-fewer",
        "count-0",
        "count-0-blocked",
        "count-0-compressed",
        "count-1-compressed",
        "flags-3",
        "random-protected",
        "name-one-letter-more",
        "name-all-digits-behind",
        "kind-1-for-4",
        "kind-3-for-2",
    ];
    assert_eq!(legal_cases("session-rule-"), rules);
    assert_eq!(legal_cases("session-none-"), [""; 0]);
    assert_eq!(legal_cases("session-twins-"), [""; 0]);
    assert_eq!(legal_cases("session-length-"), ["720", "1440", "1080"]);
}

/// A code in a held sector is met, and what it refuses leaves the buffer as it was.
#[test]
fn bad_code_in_a_buffer() {
    let mut bench = Bench::with_file(Engine::Buffered, COMPRESSED, 80, 2);
    assert_eq!(bench.write(&[1; 80]), Done);
    let file = &mut bench.session.open[0];
    file.position = 0;
    file.place = Place { sector: 1, byte: 0 };
    file.buffer.sector = 1;
    file.buffer.bytes[0] = 128;
    let before = (bench.image.clone(), bench.session.clone());
    assert_eq!(bench.read(), (BadImage, vec![0; 80]));
    assert_eq!(bench.order(Order::RecordForward), BadImage);
    assert_eq!((bench.image, bench.session), before);
}

/// A count is a word of the directory: one over 65,535 is legal for no kind.
#[test]
fn counts_over_a_word() {
    for engine in BOTH {
        let mut bench = Bench::with_file(engine, COMPRESSED, 80, 2);
        bench.image[SECTOR..].fill(0);
        bench.session.table[0].count = 65_535;
        bench.session.open[0].position = 65_534;
        assert_eq!(bench.read().0, Done);
        assert_eq!(bench.write(&[1; 80]), NoRoom);
        assert_eq!(bench.read().0, WrongKindOrSequence);
        for count in [65_536, 65_538, 1 << 24, u32::MAX] {
            for position in [0, 2, 65_535, 65_536, count] {
                bench.session.table[0].count = count;
                bench.session.open[0].position = position;
                let answers = all_answers(&mut bench.image, &mut bench.session, 0);
                assert_eq!(answers, [IllegalSession; 13], "{position} of {count}");
            }
        }
        bench.session.table[0].count = 65_535;
        assert_eq!(bench.order(Order::RewindOnLine), IllegalSession);
        bench.session.open[0].position = 65_535;
        assert_eq!(bench.close(), Done);
        assert_eq!(bench.image[16..20], [255, 255, 0, 0]);
        assert_eq!(bench.open(0), BadImage);
        for (kind, most) in [(UNBLOCKED, 365), (BLOCKED, 65_535), (RANDOM, 0)] {
            let mut bench = Bench::with_file(engine, kind, 2, 365);
            bench.session.table[0].count = most;
            bench.session.open[0].position = most;
            assert_eq!(bench.close(), Done);
            for count in [most + 1, most + 65_536] {
                bench.session.table[0].count = count;
                assert_eq!(bench.open(0), IllegalSession, "{count}");
            }
        }
    }
}

/// "a held sector lies in its file's extent", of whatever kind that is.
#[test]
fn held_sectors_of_every_kind() {
    for kind in [UNBLOCKED, BLOCKED, COMPRESSED, RANDOM] {
        let mut bench = Bench::with_file(Engine::Buffered, kind, 80, 2);
        for (holds, sector, legal) in [(true, 1, true), (true, 2, false), (false, 2, true)] {
            let buffer = &mut bench.session.open[0].buffer;
            (buffer.holds, buffer.sector) = (holds, sector);
            assert_eq!(bench.session.is_legal(&bench.image), legal);
        }
    }
}

/// Nothing comes of what a file without a buffer says that it holds.
#[test]
fn held_sectors_of_files_without_a_buffer() {
    for kind in [UNBLOCKED, RANDOM] {
        let mut bench = Bench::with_file(Engine::Buffered, kind, 80, 2);
        let held = Buffer {
            holds: true,
            sector: 0,
            changed: true,
            bytes: [7; SECTOR],
        };
        bench.session.open[0].buffer = held;
        if kind == RANDOM {
            let (image, session) = (&bench.image, &bench.session);
            let mut granule = [0; 80];
            assert_eq!(engine::look(image, session, 0, 0), [0x55; 80]);
            let answer = engine::granule_read(image, session, 0, 0, &mut granule);
            assert_eq!((answer, granule), (Done, [0x55; 80]));
        } else {
            bench.session.table[0].count = 1;
            assert_eq!(bench.read(), (Done, vec![0x55; 80]));
            assert_eq!(bench.order(Order::RewindOnLine), Done);
        }
        assert_eq!(bench.file().buffer, held);
        assert_eq!(bench.close(), Done);
        assert_eq!(bench.file(), &OpenFile::UNUSED);
        assert_eq!(sector(&bench.image, 1), [0x55; SECTOR]);
    }
}

// ---------------------------------------------------------------------------------------------
// Document 02, item 1.

fn asked(name: &[u8], kind: u16, length: u16, sectors: u16) -> Asked<'_> {
    Asked {
        name,
        kind,
        length,
        sectors,
    }
}

/// Eight bytes of a name in ASCII.
fn letters(name: &str) -> [u8; 8] {
    new_entry(name, 0, 0, 0, 0).name
}

impl Bench {
    fn add(&mut self, name: &str, kind: u16, r: u16, sectors: u16) -> Result<usize, Answer> {
        let name = letters(name);
        let asked = asked(&name, kind, r, sectors);
        editing::add(&mut self.image, &mut self.session, &asked)
    }

    fn delete(&mut self, number: usize) -> Answer {
        editing::delete(&mut self.image, &mut self.session, number)
    }
}

/// An entry of 20 bytes, byte by byte, in the image and in the table; and zeroed again.
#[test]
fn add_and_delete_one_entry() {
    for engine in BOTH {
        let mut bench = Bench::new(engine, small_image()[..].to_vec());
        let before = bench.image.clone();
        assert_eq!(bench.add("NEW9", COMPRESSED, 132, 1), Err(NoGap));
        assert_eq!(bench.delete(1), Done);
        assert_eq!(bench.add("NEW9", COMPRESSED, 132, 2), Ok(1));
        let mut image = before.clone();
        image[20..40].copy_from_slice(&[
            0xD5, 0xC5, 0xE6, 0xF9, 0x40, 0x40, 0x40, 0x40, 0, 3, 0, 132, 0, 5, 0, 2, 0, 0, 0, 0,
        ]);
        assert_eq!(bench.image, image);
        assert_eq!(bench.session.table, table_of(&bench.image));
        assert_eq!(bench.delete(1), Done);
        assert_eq!(bench.delete(1), NotThere);
        image[20..40].fill(0);
        assert_eq!(bench.image, image);
        assert_eq!(bench.session.table, table_of(&bench.image));
    }
}

/// Every refusal of ADD, the earlier ones before the later ones, on a full table without a free sector.
#[test]
fn refusals_of_add() {
    let mut image = empty_image(19);
    for number in 0..ENTRIES {
        let entry = new_entry(&format!("F{number}"), BLOCKED, 100, number + 1, 1);
        put_entry(&mut image, number, &entry);
    }
    for engine in BOTH {
        let mut bench = Bench::new(engine, image.clone());
        assert_eq!(bench.add("NEW", BLOCKED, 100, 1), Err(NoFreeEntry));
        assert_eq!(bench.add("F17", BLOCKED, 100, 1), Err(NameInUse));
        assert_eq!(bench.add("F17", BLOCKED, 362, 1), Err(BadShape));
        assert_eq!(bench.add("F17", BLOCKED, 100, 0), Err(BadShape));
        assert_eq!(bench.add("F17", 5, 100, 1), Err(BadShape));
        assert_eq!(bench.add("17F", 5, 100, 0), Err(BadName));
        assert_eq!(bench.image, image);
        assert_eq!(bench.delete(4), Done);
        assert_eq!(bench.add("NEW", BLOCKED, 100, 2), Err(NoGap));
        assert_eq!(bench.add("NEW", BLOCKED, 100, 65_535), Err(NoGap));
        assert_eq!(bench.add("NEW", RANDOM, 100, 1), Ok(4));
        assert_eq!(bench.session.table[4].first, 5);
        bench.session.open[0].in_use = true;
        bench.session.open[0].entry = 18;
        assert_eq!(bench.add("17F", 5, 100, 0), Err(IllegalSession));
        assert_eq!(bench.delete(4), IllegalSession);
    }
}

/// Refused mountings: 11 to ADD and 8 to DELETE; 12 to a session that says so with a used entry.
#[test]
fn sessions_of_refused_mountings() {
    for engine in BOTH {
        let mut image = small_image();
        image[8] = 9;
        let (answer, session) = mount(engine, &image);
        assert_eq!((answer, session.refused), (BadImage, true));
        let mut bench = Bench { image, session };
        let before = bench.image.clone();
        assert_eq!(bench.add("NEW", 9, 100, 1), Err(BadImage));
        assert_eq!(bench.delete(0), NotThere);
        assert_eq!(bench.image, before);
        bench.session.table[0] = new_entry("FILE", BLOCKED, 100, 1, 1);
        assert_eq!(bench.add("NEW", 9, 100, 1), Err(IllegalSession));
        assert_eq!(bench.delete(0), IllegalSession);
        bench.session.refused = false;
        assert_eq!(bench.add("NEW", BLOCKED, 100, 1), Ok(1));
        // Any image of a lawful length will do, also a good one.
        let (_, mut session) = mount(engine, &small_image());
        session.table = [Entry::default(); ENTRIES];
        session.refused = true;
        assert!(session.is_legal(&small_image()));
        assert!(!session.is_legal(&small_image()[1..]));
    }
}

/// An open file is not deleted, and its buffer is not put back; its count in the image stays old.
#[test]
fn editing_while_open() {
    let mut bench = Bench::with_file(Engine::Buffered, BLOCKED, 100, 2);
    bench.image.resize(6 * SECTOR, 0x77);
    assert_eq!(bench.write(&[1; 100]), Done);
    let before = (bench.image.clone(), bench.session.open);
    assert_eq!(bench.delete(0), OpenAlready);
    assert_eq!(bench.add("RANDOM", RANDOM, 360, 2), Ok(1));
    assert_eq!(bench.image[..20], before.0[..20]);
    assert_eq!(bench.image[40..], before.0[40..]);
    assert_eq!(bench.session.open, before.1);
    assert_eq!(bench.entry().count, 1);
    assert_eq!(bench.open(1), Done);
    let shown = engine::look(&bench.image, &bench.session, 1, 1);
    assert_eq!(shown, [0x77; 360]);
}

/// The text of rows 14 and 15, and that a name's bytes are used up.
#[test]
fn play_text_of_edits() {
    let words = "add:FILE:2:80:1 hex:C1:2:80:1 add:NEW:2:80:1 @1 open write:2 delete close delete @18 delete";
    let mut image = empty_image(3);
    put_entry(&mut image, 0, &new_entry("FILE", BLOCKED, 80, 1, 1));
    for engine in BOTH {
        let text = play(engine, image.clone(), &[], &script(80, words)).text;
        let expected = "MOUNT 0
0 14 0 - -
1 13 0 - -
2 0 1 - -
3 0 0 0 0
4 0 10805 1 0
5 9 0 - -
6 0 0 - -
7 0 0 - -
8 8 0 - -
";
        assert_eq!(text, expected);
    }
}

/// Every way to be refused, alone and before a later one, gives the answer that the case's name tells.
#[test]
fn cases_of_refusals_say_so() {
    let mut met = HashSet::new();
    for case in edit_cases() {
        let answer = case
            .name
            .strip_prefix("add-")
            .and_then(|name| name.get(..2));
        let Some(answer) = answer.filter(|told| told.parse::<u8>().is_ok()) else {
            continue;
        };
        for engine in BOTH {
            let text = case.expected(engine).text;
            let first = text.lines().nth(1).and_then(|row| row.split(' ').nth(1));
            assert_eq!(first, Some(answer), "{}", case.name);
        }
        met.insert(answer.to_string());
    }
    assert_eq!(met.len(), 7);
}

/// The lowest gap, told by hand: the pictures' first sectors.
#[test]
fn lowest_gaps() {
    for (picture, sectors, first) in [
        ("...A.B..", 1, Some(1)),
        ("...A.B..", 3, Some(1)),
        ("...A.B..", 4, None),
        ("A.B..C...", 1, Some(2)),
        ("A.B..C...", 2, Some(4)),
        ("A.B..C...", 3, Some(7)),
        ("A.B..C...", 4, None),
        ("..CC.BA", 3, None),
        ("BBBA...", 3, Some(5)),
        (".......", 7, Some(1)),
        (".......", 8, None),
    ] {
        let mut bench = Bench::new(Engine::Plain, pictured(picture));
        let added = bench.add("NEW", RANDOM, 2, sectors).ok();
        let found = added.map(|number| bench.session.table[number].first);
        assert_eq!(found, first, "{picture} {sectors}");
    }
}

// ---------------------------------------------------------------------------------------------
// Scripts, cases, selfcheck.

#[test]
fn rows_that_are_not_in_order() {
    let row = |words: [u16; 8]| words.map(u16::to_be_bytes).concat();
    let parse = |rows: &[u8], bytes: usize| Script::parse(rows, vec![0; bytes]);
    let good = row([3, 0, 4, 0, 77, 78, 0, 0]);
    assert_eq!(parse(&good, 4).map(|script| script.rows.len()), Ok(1));
    assert!(parse(&good, 3).is_err_and(|why| why.contains("row 0")));
    assert!(
        parse(&[good.clone(), good.clone()].concat(), 7).is_err_and(|why| why.contains("row 1"))
    );
    assert!(parse(&good[..15], 4).is_err());
    for bad in [
        row([0; 8]),
        row([16, 0, 0, 0, 0, 0, 0, 0]),
        row([14, 2, 5, 100, 1, 0, 0, 0]),
        row([14, 2, 4, 100, 1, 0, 1, 0]),
        row([15, 2, 4, 100, 1, 0, 0, 1]),
        row([1, 0, 0, 0, 0, 0, 1, 0]),
        row([1, 0, 0, 0, 0, 0, 0, 1]),
    ] {
        assert!(parse(&bad, 4).is_err());
    }
    assert!(parse(&[], 0).is_ok());
    let adding = row([14, 2, 8, 100, 1, 77, 0, 0]);
    assert!(parse(&adding, 8).is_ok());
    assert_eq!(
        parse(&adding, 7).err().as_deref(),
        Some("row 0: bytes are missing for its name of 8")
    );
    assert_eq!(
        parse(&good, 3).err().as_deref(),
        Some("row 0: bytes are missing for its write of 4")
    );
    assert!(parse(&row([15, 2, 65_535, 1, 1, 1, 0, 0]), 0).is_ok());
    let unknown = row([16, 0, 0, 0, 0, 0, 0, 0]);
    assert_eq!(
        parse(&unknown, 0).err().as_deref(),
        Some("row 0: unknown code 16")
    );
}

/// Word 6 is "the high word of the granule's number, where the request takes one (codes 4, 5 and 6); else
/// zero", word 7 is zero. The tests of a row in their order: cut short, shape, code, bytes.
#[test]
fn shapes_of_rows() {
    const SHAPE: &str = "row 0: unknown shape (word 7 is not zero, or word 6 without a granule)";
    let row = |words: [u16; 8]| words.map(u16::to_be_bytes).concat();
    let why = |bytes: &[u8]| Script::parse(bytes, Vec::new()).err();
    for code in 0..=17 {
        for high in [1, 256, 65_535] {
            let with_word_6 = row([code, 1, 0, 2, 0, 0, high, 0]);
            if (4..=6).contains(&code) {
                let script = Script::parse(&with_word_6, Vec::new()).unwrap_or_default();
                let granule = script.rows[0].granule_number();
                assert_eq!(granule, usize::from(high) * 65_536 + 2);
                assert_eq!(script.row_bytes(), with_word_6);
            } else {
                assert_eq!(why(&with_word_6).as_deref(), Some(SHAPE), "code {code}");
            }
            let with_word_7 = row([code, 1, 0, 2, 0, 0, 0, high]);
            assert_eq!(why(&with_word_7).as_deref(), Some(SHAPE), "code {code}");
        }
    }
    let all_wrong = row([99, 0, 7, 0, 0, 0, 1, 1]);
    let cut = "row 0: cut short at 15 of 16 bytes";
    assert_eq!(why(&all_wrong[..15]).as_deref(), Some(cut));
    assert_eq!(why(&all_wrong).as_deref(), Some(SHAPE));
    assert_eq!(why(&row([3, 0, 7, 0, 0, 0, 1, 0])).as_deref(), Some(SHAPE));
    let missing = "row 0: bytes are missing for its write of 7";
    assert_eq!(
        why(&row([5, 0, 7, 0, 0, 0, 1, 0])).as_deref(),
        Some(missing)
    );
}

#[test]
fn play_text() {
    let mut script = Script::default();
    script
        .open(0)
        .write(0, &[0xFF, 0xFF, 0, 3])
        .order(0, Order::RecordBack)
        .read(0, 80);
    script.order(0, Order::WriteFileMark).read(9, 80).close(0);
    let mut image = empty_image(2);
    put_entry(&mut image, 0, &new_entry("FILE", BLOCKED, 80, 1, 1));
    for engine in BOTH {
        let text = play(engine, image.clone(), &[], &script).text;
        let expected = "MOUNT 0
0 0 0 0 0
1 0 3 1 0
2 0 0 0 0
3 0 3 1 0
4 0 0 1 1
5 8 0 - -
6 0 0 - -
";
        assert_eq!(text, expected);
    }
}

#[test]
fn cases_have_names_of_their_own_and_parse() {
    let cases = all_cases(1, 5);
    let names: HashSet<&str> = cases.iter().map(|case| case.name.as_str()).collect();
    assert_eq!(names.len(), cases.len());
    for case in &cases {
        let rows = case.script.row_bytes();
        let parsed = Script::parse(&rows, case.script.bytes.clone());
        assert_eq!(
            parsed.map(|script| script.rows),
            Ok(case.script.rows.clone())
        );
    }
}

/// The words of a script, its rows and its bytes.
#[test]
fn scripts_in_words() {
    let told = script(
        4,
        "open @2 read:R+1 text:A..B put:7:2 forward*2 look:9 look:65545 close add:AB:3:R+2:7 hex:00C1:4:2:1 delete",
    );
    let mut wanted = Script::default();
    wanted.open(0).read(2, 5);
    wanted.write(2, &[0xC1, BLANK, BLANK, 0xC2]);
    wanted.granule_write(2, 7, &told.bytes[4..6]);
    wanted.order(2, Order::RecordForward);
    wanted.order(2, Order::RecordForward);
    wanted.granule_look(2, 9).granule_look(2, 65_545).close(2);
    let name = [0xC1, 0xC2, BLANK, BLANK, BLANK, BLANK, BLANK, BLANK];
    wanted.add(&asked(&name, COMPRESSED, 6, 7));
    wanted.add(&asked(&[0, 0xC1], RANDOM, 2, 1)).delete(2);
    assert_eq!(told.rows, wanted.rows);
    assert_eq!((told.rows[7].granule, told.rows[7].high), (9, 1));
    assert_eq!(told.bytes, wanted.bytes);
}

/// The form of a file of cases, byte by byte, and the text for it.
#[test]
fn form_of_a_bundle() {
    let two =
        [vec![], vec![0xFF, 0xFF, 1]].map(|image| Case::new("", "", image, script(2, "open")));
    let open = [&[0, 1][..], &[0; 14]].concat();
    let first = [&[0, 1, 0, 0, 0, 0, 0, 1][..], &[0; 8], &open].concat();
    let second = [
        &[0, 1, 0, 0, 0, 3, 0, 1][..],
        &[0; 8],
        &[0xFF, 0xFF, 1],
        &open,
    ]
    .concat();
    assert_eq!(bundle(&two), [first, second].concat());
    let part = |name: &str, sums: &str| format!("{name}\nMOUNT 11\n0 12 0 - -\nIMAGE {sums}\n");
    let case = |sums: &str| part("PLAIN", sums) + &part("BUFFERED", sums);
    let text = format!("CASE 1\n{}CASE 2\n{}", case("0 0"), case("256 256"));
    assert_eq!(expected(&two), text);
}

/// A case much like the one before is told by patches.
#[test]
fn patches_of_a_bundle() {
    let mut image = small_image();
    let whole = Case::new("", "", image.clone(), script(80, "write:2"));
    image[3_000] ^= 0x55;
    let changed = Case::new("", "", image.clone(), Script::default());
    let file = bundle(&[whole, changed]);
    let patched = [
        0,
        2,
        0,
        0,
        0,
        1,
        0,
        0,
        0,
        0,
        0,
        0,
        0,
        0,
        0,
        0,
        0,
        0,
        0x0B,
        0xB8,
        0,
        image[3_000],
    ];
    assert_eq!(file[16 + image.len() + 16 + 2..], patched);
}

/// The patches of the sessions stand behind the image, the plain one's first.
#[test]
fn session_patches_of_a_bundle() {
    let plain = vec![Patch { at: 396, byte: 2 }];
    let buffered = vec![
        Patch {
            at: 0x12_3456,
            byte: 7,
        },
        Patch { at: 1, byte: 0 },
    ];
    let case = Case::new("", "", vec![9], Script::default()).with_sessions([plain, buffered]);
    let wanted = [
        &[0, 1, 0, 0, 0, 1, 0, 0, 0, 0, 0, 0, 0, 1, 0, 2, 9][..],
        &[0, 0, 1, 140, 0, 2],
        &[0, 0x12, 0x34, 0x56, 0, 7, 0, 0, 0, 1, 0, 0],
    ]
    .concat();
    assert_eq!(bundle(&[case]), wanted);
}

/// About a quarter of a wide run's cases begin with a session that no mounting hands out.
#[test]
fn wide_cases_have_sessions() {
    let cases: Vec<Case> = (0..200).map(|number| wide_case(3, number, 4)).collect();
    let patched = cases.iter().filter(|case| !case.sessions[1].is_empty());
    assert!((30..=70).contains(&patched.count()));
    let again: Vec<Case> = (0..200).map(|number| wide_case(3, number, 4)).collect();
    assert_eq!(bundle(&cases), bundle(&again));
}

#[test]
fn committed_cases_come_back() {
    let cases = committed_cases();
    let back = unbundle(&bundle(&cases)).unwrap_or_default();
    assert_eq!(back.len(), cases.len());
    for (one, other) in cases.iter().zip(&back) {
        assert_eq!(one.image, other.image, "{}", one.name);
        assert_eq!(one.script.rows, other.script.rows, "{}", one.name);
        assert_eq!(one.script.bytes, other.script.bytes, "{}", one.name);
        assert_eq!(one.sessions, other.sessions, "{}", one.name);
        assert!(!one.rule.is_empty(), "{}", one.name);
    }
    let images = listed_images();
    assert_eq!(images_of(&listed_file(&images)), Ok(images));
}

/// Bundles that are cut short or name no known form are refused.
#[test]
fn bad_bundles() {
    let file = bundle(&[random_case(1, 0, 5, Sort::All)]);
    for length in [1, 15, 16, 40, file.len() - 1] {
        assert!(unbundle(&file[..length]).is_err());
    }
    assert!(unbundle(&[&[0, 3][..], &[0; 14]].concat()).is_err());
    assert!(unbundle(&[&[0, 2, 0, 0, 0, 1][..], &[0; 16]].concat()).is_err());
}

/// Every answer is met, 11 by mountings too.
#[test]
fn committed_cases_meet_the_answers() {
    let text = expected(&committed_cases());
    let rows = text
        .lines()
        .filter(|line| line.starts_with(|c: char| c.is_ascii_digit()));
    let met: HashSet<&str> = rows.filter_map(|row| row.split(' ').nth(1)).collect();
    for answer in 0..=17 {
        let is_met = met.contains(answer.to_string().as_str());
        assert!(is_met, "answer {answer}");
    }
    assert!(text.contains("MOUNT 11\n"));
}

#[test]
fn small_selfcheck() {
    assert_eq!(selfcheck(7, 60, 80).map(|tally| tally.scripts), Ok(60));
}

// ---------------------------------------------------------------------------------------------
// Blanks.

/// Each row's code and what is told of it, of the plain engine: its answer and its sum.
fn told(case: &Case) -> Vec<(Code, usize, u32)> {
    let text = case.expected(Engine::Plain).text;
    let lines = text.lines().skip(1);
    let rows = case.script.rows.iter().zip(lines);
    rows.map(|(row, line)| {
        let numbers: Vec<u32> = line.split(' ').map_while(|n| n.parse().ok()).collect();
        (row.code, numbers[1] as usize, numbers[2])
    })
    .collect()
}

/// The longest group of blanks in a record but for those at its end.
fn longest_group(record: &[u8]) -> usize {
    let groups = record.split(|&byte| byte != BLANK).map(<[u8]>::len);
    let mut before: Vec<usize> = groups.collect();
    before.pop();
    before.into_iter().max().unwrap_or(0)
}

/// Every row is done, but where there is just no room.
#[test]
fn blank_cases_are_done() {
    for case in blank_cases() {
        let answers = told(&case).into_iter().map(|(_, answer, _)| answer);
        let refused: Vec<usize> = answers.filter(|&answer| answer != 0).collect();
        if case.name == "blanks-room" {
            let no_room = refused.iter().filter(|&&answer| answer == 3).count();
            assert_eq!(no_room, 19); // one of two in each file, and both in the one with no byte left
        } else {
            assert_eq!(refused, [], "{}", case.name);
        }
    }
}

/// The looks show sectors that the tiny model's codes fill, and no others.
#[test]
fn looks_at_codes() {
    for case in blank_cases().iter().filter(|case| case.image[20] == 0) {
        let r = table_of(&case.image)[0].r();
        let mut sectors: Vec<Vec<u8>> = vec![Vec::new()];
        for (row, data) in case.script.steps() {
            if row.code == Code::Write {
                let mut record = data.to_vec();
                record.resize(r, BLANK);
                let code = hand_code(&record);
                if sectors[sectors.len() - 1].len() + code.len() > SECTOR {
                    sectors.push(Vec::new());
                }
                let last = sectors.len() - 1;
                sectors[last].extend(code);
            }
        }
        for sector in &mut sectors {
            sector.resize(SECTOR, 128);
        }
        let lengths = if case.name == "blanks-spelled" {
            (2..=SECTOR).step_by(2).collect()
        } else {
            vec![SECTOR]
        };
        let sum = |bytes: &[u8]| words(bytes).sum::<u32>() % 65_535;
        let wanted: Vec<u32> = lengths
            .into_iter()
            .flat_map(|length| sectors.iter().map(move |sector| sum(&sector[..length])))
            .collect();
        let looks = told(case).into_iter();
        let looks = looks.filter(|&(code, _, _)| code == Code::GranuleLook);
        let sums: Vec<u32> = looks.map(|(_, _, sum)| sum).collect();
        assert_eq!(sums, wanted, "{}", case.name);
    }
}

/// Plays 2,000 wide scripts of seed 1 with the plain engine; `see` gets each row, the bytes that it is given, the
/// table before it, and its answer.
fn see_wide_rows(mut see: impl FnMut(&Row, &[u8], &[Entry], Answer)) {
    for number in 0..2_000 {
        let case = wide_case(1, number, 100);
        let patches = case.session_patches(Engine::Plain);
        let (_, session) = patched_session(Engine::Plain, &case.image, patches);
        let Some(mut session) = session else {
            continue;
        };
        let mut image = case.image.clone();
        for (row, data) in case.script.steps() {
            let table = session.table;
            let mut buffer = vec![0; usize::from(row.length)];
            let answer = perform(&mut image, &mut session, &row, data, &mut buffer).answer;
            see(&row, data, &table, answer);
        }
    }
}

/// Of the writes to compressed files that are done in wide scripts: all, those with a group of two or more
/// blanks that is no trailing one, of over 64, of over 126. `--nocapture` prints them for README.md.
#[test]
fn wide_cases_write_groups_of_blanks() {
    let mut counts = [0; 4];
    see_wide_rows(|row, data, table, answer| {
        let done = answer == Done;
        if done && row.code == Code::Write && table[usize::from(row.entry)].kind == COMPRESSED {
            let longest = longest_group(data);
            for (count, least) in counts.iter_mut().zip([0, 2, 65, 127]) {
                *count += usize::from(longest >= least);
            }
        }
    });
    println!("{counts:?}");
    let [all, groups, over_64, over_126] = counts;
    assert!(groups * 2 > all && over_64 * 5 > all && over_126 * 25 > all);
}

// ---------------------------------------------------------------------------------------------
// Small granules.

impl Bench {
    fn put(&mut self, granule: usize, data: &[u8]) -> Answer {
        engine::granule_write(&mut self.image, &self.session, 0, granule, data)
    }

    fn look(&self, granule: usize) -> &[u8] {
        engine::look(&self.image, &self.session, 0, granule)
    }

    fn look_answer(&self, granule: usize) -> Answer {
        engine::look_answer(&self.image, &self.session, 0, granule)
    }
}

/// "the station's calibration files have granules of 60 bytes, six to a sector ... granule g in extent sector
/// g/q rounded down at byte (g mod q)·R"
#[test]
fn six_granules_of_60_bytes_lie_in_a_sector() {
    for engine in BOTH {
        let mut bench = Bench::with_file(engine, RANDOM, 60, 3);
        assert_eq!(capacity(&bench.entry()), Some(18));
        for granule in (0..18).rev() {
            assert_eq!(bench.put(granule, &[granule as u8; 60]), Done);
        }
        let wanted: Vec<u8> = (0..18 * 60).map(|at| (at / 60) as u8).collect();
        assert_eq!(bench.image[SECTOR..], wanted);
        let mut buffer = [9; 62];
        let answer = engine::granule_read(&bench.image, &bench.session, 0, 7, &mut buffer);
        assert_eq!(answer, Done);
        assert_eq!(buffer[..60], [7; 60]);
        assert_eq!(buffer[60..], [9; 2]);
        assert_eq!(bench.look_answer(17), Done);
        assert_eq!(bench.look_answer(18), NoRoom);
        assert_eq!(bench.look(18), []);
    }
}

/// "A write then changes only its own R bytes, padding included": not the neighbours, and not "the 360 − q·R
/// bytes at a sector's end".
#[test]
fn a_granule_write_changes_its_own_bytes() {
    for engine in BOTH {
        for (r, q) in [
            (2, 180),
            (4, 90),
            (60, 6),
            (62, 5),
            (100, 3),
            (178, 2),
            (180, 2),
        ] {
            for granule in [0, 1, q - 1, q, 2 * q - 1] {
                let mut bench = Bench::with_file(engine, RANDOM, r, 2);
                let mut wanted = bench.image.clone();
                let start = SECTOR * (1 + granule / q) + granule % q * r;
                wanted[start..start + r].fill(0);
                wanted[start..start + 2].copy_from_slice(&[0xC1, 0xC2]);
                assert_eq!(bench.put(granule, &[0xC1, 0xC2]), Done);
                assert_eq!(bench.image, wanted, "R {r} granule {granule}");
                assert_eq!(bench.put(2 * q, &[0xC1, 0xC2]), NoRoom);
                assert_eq!(bench.image, wanted, "R {r} granule {granule}");
            }
        }
    }
}

/// "Above 180 the old rule holds, zero behind R to the last sector's end included"
#[test]
fn larger_granules_keep_the_old_rule() {
    for engine in BOTH {
        for (r, s) in [(182, 1), (358, 1), (360, 1), (362, 2), (722, 3)] {
            let mut bench = Bench::with_file(engine, RANDOM, r, 7);
            assert_eq!(capacity(&bench.entry()), Some(7 / s));
            let mut wanted = bench.image.clone();
            let part = &mut wanted[SECTOR * (1 + s)..SECTOR * (1 + 2 * s)];
            part.fill(0);
            part[..2].copy_from_slice(&[0xC1, 0xC2]);
            assert_eq!(bench.put(1, &[0xC1, 0xC2]), Done);
            assert_eq!(bench.image, wanted, "R {r}");
            assert_eq!(bench.look(1).len(), r);
        }
    }
}

/// "3 uses the new capacity, q·sectors"; it "has no limit of 65,535".
#[test]
fn capacities_of_granules() {
    for (r, sectors, most) in [
        (2, 1, 180),
        (2, 364, 65_520),
        (2, 365, 65_700),
        (2, 4_095, 737_100),
        (4, 3, 270),
        (60, 1, 6),
        (62, 2, 10),
        (120, 5, 15),
        (122, 5, 10),
        (178, 3, 6),
        (180, 3, 6),
        (182, 3, 3),
        (360, 3, 3),
        (362, 5, 2),
        (3_600, 9, 0),
    ] {
        assert_eq!(granule_capacity(r, sectors), most, "R {r}");
        let entry = new_entry("FILE", RANDOM, r, 1, sectors);
        assert_eq!(capacity(&entry), Some(most), "R {r}");
    }
    assert_eq!(
        granule_place(62, 9),
        Place {
            sector: 1,
            byte: 248
        }
    );
    assert_eq!(
        granule_place(180, 3),
        Place {
            sector: 1,
            byte: 180
        }
    );
    assert_eq!(granule_place(182, 3), Place { sector: 3, byte: 0 });
    assert_eq!(
        granule_place(2, 65_541),
        Place {
            sector: 364,
            byte: 42
        }
    );
}

/// "Unblocked files keep their rule", for R up to 180 too.
#[test]
fn small_unblocked_records_have_a_sector_each() {
    for engine in BOTH {
        for r in [2, 60, 180] {
            let mut bench = Bench::with_file(engine, UNBLOCKED, r, 3);
            assert_eq!(capacity(&bench.entry()), Some(3));
            assert_eq!(bench.write(&vec![1; r]), Done);
            assert_eq!(bench.write(&[2, 2]), Done);
            let second = sector(&bench.image, 2);
            assert_eq!(second[..2], [2, 2]);
            assert_eq!(second[2..], [0; SECTOR - 2]);
            assert_eq!(bench.write(&[3, 3]), Done);
            assert_eq!(bench.write(&[4, 4]), NoRoom);
        }
    }
}

/// "The look shows the part in the middle of its sector", in place.
#[test]
fn a_look_shows_the_part_in_the_middle_of_its_sector() {
    let bench = Bench::with_file(Engine::Plain, RANDOM, 60, 2);
    let part = &bench.image[2 * SECTOR + 120..2 * SECTOR + 180];
    assert_eq!(bench.look(8).as_ptr_range(), part.as_ptr_range());
}

/// "Old images are read under the new rule": what was a granule at each sector's start is granule q·k.
#[test]
fn old_images_are_read_under_the_new_rule() {
    for engine in BOTH {
        let mut image = empty_image(4);
        put_entry(&mut image, 0, &new_entry("OLD", RANDOM, 100, 1, 3));
        for number in 1..4 {
            image[number * SECTOR..number * SECTOR + 100].fill(number as u8);
        }
        let mut bench = Bench::new(engine, image);
        assert_eq!(bench.open(0), Done);
        let shown: Vec<u8> = (0..9).map(|granule| bench.look(granule)[0]).collect();
        assert_eq!(shown, [1, 0, 0, 2, 0, 0, 3, 0, 0]);
    }
}

/// The number of a granule takes 32 bits: 71,820 granules of 2 bytes in 399 sectors, in the rows of a script.
#[test]
fn granule_numbers_over_a_word() {
    let mut image = empty_image(400);
    put_entry(&mut image, 0, &new_entry("MANY", RANDOM, 2, 1, 399));
    image[SECTOR + 10..SECTOR + 12].copy_from_slice(&[0, 5]);
    let rows: [[u16; 8]; 10] = [
        [1, 0, 0, 0, 0, 0, 0, 0],
        [5, 0, 2, 5, 0, 0, 1, 0],     // granule 65,541
        [4, 0, 2, 5, 0, 0, 1, 0],     // is read back,
        [6, 0, 0, 5, 0, 0, 1, 0],     // and shown;
        [6, 0, 0, 5, 0, 0, 0, 0],     // 5 is not touched
        [5, 0, 2, 6_284, 0, 0, 1, 0], // 71,820 is the capacity,
        [5, 0, 2, 6_283, 0, 0, 1, 0], // 71,819 the last
        [6, 0, 0, 6_283, 0, 0, 1, 0],
        [6, 0, 0, 5, 0, 0, 2, 0],
        [6, 0, 0, 65_535, 0, 0, 65_535, 0],
    ];
    let rows: Vec<u8> = rows
        .concat()
        .into_iter()
        .flat_map(u16::to_be_bytes)
        .collect();
    let script = Script::parse(&rows, vec![0, 1, 0, 2, 0, 3]).unwrap_or_default();
    for engine in BOTH {
        let played = play(engine, image.clone(), &[], &script);
        let told: Vec<&str> = played.text.lines().skip(1).collect();
        let wanted = [
            "0 0 0 0 0",
            "1 0 1 0 0",
            "2 0 1 0 0",
            "3 0 1 0 0",
            "4 0 5 0 0",
            "5 3 0 0 0",
            "6 0 3 0 0",
            "7 0 3 0 0",
            "8 3 0 0 0",
            "9 3 0 0 0",
        ];
        assert_eq!(told, wanted);
        let mut left = image.clone();
        left[365 * SECTOR + 43] = 1;
        left[400 * SECTOR - 1] = 3;
        assert_eq!(played.image, left);
    }
}

/// What is refused in the cases of small granules: nothing where places and padding are shown, and else what is
/// over the capacity.
#[test]
fn granule_cases_are_as_told() {
    for case in granule_cases() {
        let has = |front: &str| case.name.starts_with(front);
        let all_done = has("granule-places") || has("granule-left-over") || has("granule-spelled");
        let only_room = has("granule-capacity") || has("granule-high-word") || has("granule-each");
        let r = table_of(&case.image)[3].r();
        for ((code, answer, _), row) in told(&case).into_iter().zip(&case.script.rows) {
            assert!(!all_done || answer == 0, "{}", case.name);
            assert!(!only_room || [0, 3].contains(&answer), "{}", case.name);
            if has("granule-capacity") && code.takes_granule() {
                let sectors = usize::from(table_of(&case.image)[3].sectors);
                let most = if r > 180 {
                    sectors / r.div_ceil(360)
                } else {
                    360 / r * sectors
                };
                assert_eq!(answer == 0, row.granule_number() < most, "{}", case.name);
            }
        }
    }
}

/// Of the granule requests in wide scripts, for random files of R up to 180 and above: those that the plain engine
/// does, and those answered 3; and how many of the latter have a high word. `--nocapture` prints them for
/// README.md.
#[test]
fn wide_cases_use_small_granules() {
    let mut done = [[0; 3]; 2];
    let mut no_room = [0; 2];
    let mut high_words = 0;
    see_wide_rows(|row, _, table, answer| {
        let request = match row.code {
            Code::GranuleRead => 0,
            Code::GranuleWrite => 1,
            Code::GranuleLook => 2,
            _ => return,
        };
        let above = |entry: &Entry| usize::from(entry.r() > 180);
        match answer {
            Done => done[above(&table[usize::from(row.entry)])][request] += 1,
            NoRoom => {
                no_room[above(&table[usize::from(row.entry)])] += 1;
                high_words += usize::from(row.high > 0);
            }
            _ => {}
        }
    });
    println!(
        "reads, writes, looks: {done:?}, answered 3: {no_room:?}, with a high word: {high_words}"
    );
    let [small, large] = done;
    assert!(
        small.iter().all(|&number| number > 3_000) && large.iter().all(|&number| number > 1_000)
    );
    assert!(no_room.iter().all(|&number| number > 500) && high_words > 500);
}

// ---------------------------------------------------------------------------------------------
// Document 02, item 4: the pass listing.

/// "For the listed characters the two tables undo each other, shown once over the whole tables."
#[test]
fn tables_undo_each_other() {
    let bytes: Vec<u8> = (0..=255).collect();
    let comes_back = |&&byte: &&u8| ebcdic(ascii(byte)) == byte;
    let codes: Vec<u8> = bytes.iter().filter(comes_back).copied().collect();
    let typed = |&&c: &&u8| ascii(ebcdic(c)) == c;
    let characters: Vec<u8> = bytes.iter().filter(typed).copied().collect();
    assert_eq!((codes.len(), characters.len()), (59, 59));
    for &byte in &bytes {
        let wanted = listed(byte).map_or(b'.', |c| c as u8);
        assert_eq!(ascii(byte), wanted, "EBCDIC {byte:02x}");
        assert_eq!(codes.contains(&byte), listed(byte).is_some());
        let code = bytes
            .iter()
            .find(|&&code| listed(code) == Some(char::from(byte)));
        assert_eq!(
            ebcdic(byte),
            code.copied().unwrap_or(BLANK),
            "ASCII {byte:02x}"
        );
    }
}

/// The 59 listed characters, in the words of the document.
#[test]
fn listed_characters() {
    let marks = ". < ( + & $ * ) ; - / , % _ > ? : # @ ' = \"";
    let marks: HashSet<char> = marks.chars().filter(|&c| c != ' ').collect();
    assert_eq!(marks.len(), 22);
    let others = ('A'..='Z').chain('0'..='9').chain([' ']);
    let wanted: HashSet<char> = marks.into_iter().chain(others).collect();
    let ours: HashSet<char> = (0..=255).filter_map(listed).collect();
    assert_eq!(ours, wanted);
    assert_eq!(wanted.len(), 59);
}

fn shown(image: &[u8], typed: &str) -> String {
    let [plain, buffered] = BOTH.map(|engine| pass_listing(engine, image, typed.as_bytes()));
    assert_eq!(plain, buffered);
    plain
}

/// A file of two records and an empty one, of this kind and with these flags.
fn two_lines(kind: u16, flags: u16) -> Vec<u8> {
    let texts = ["  A  B", "", "(\"7\") ;"];
    let texts = texts.map(|text| padded(&characters::letters(text), 10));
    let disk = Disk::empty(4).file(2, kind, 10, 3).named("LOG7");
    disk.records(&texts).flags(flags).image()
}

#[test]
fn lines_of_every_kind() {
    for kind in [UNBLOCKED, BLOCKED, COMPRESSED] {
        for flags in 0..=3 {
            let image = two_lines(kind, flags);
            assert_eq!(shown(&image, "LOG7"), "  A  B\n\n(\"7\") ;\n");
            assert_eq!(shown(&image, "LOG7    "), shown(&image, "LOG7"));
        }
    }
}

#[test]
fn unknown_names() {
    let image = two_lines(BLOCKED, 0);
    let unknown = [
        "",
        "LOG",
        "LOG77",
        "log7",
        "LOG7     ",
        " LOG7",
        "LOG 7",
        "LOG7a",
        "LOG7~",
        "LOG7.",
        "LOG7\0",
        "LOG7\n",
        " ",
        "        ",
    ];
    for typed in unknown {
        assert_eq!(shown(&image, typed), "ANSWER 8\n", "{typed:?}");
    }
}

#[test]
fn refusals_of_the_pass_listing() {
    let good = small_image();
    assert_eq!(shown(&good, "DELTA22X"), "ANSWER 7\n");
    let mut bad = good.clone();
    bad[17 * 20 + 19] = 1;
    for typed in ["ALPHA", "DELTA22X", "NONE", ""] {
        assert_eq!(shown(&bad, typed), "ANSWER 11\n");
        assert_eq!(shown(&good[1..], typed), "ANSWER 11\n");
    }
    let mut large = two_lines(COMPRESSED, 0);
    large.resize(180 * SECTOR, 0);
    assert_eq!(
        shown(&large, "LOG7"),
        shown(&two_lines(COMPRESSED, 0), "LOG7")
    );
    large.resize(181 * SECTOR, 0);
    assert_eq!(shown(&large, "LOG7"), "ANSWER 11\n");
}

/// "any other number is printed as `ANSWER` and the number, last": behind a good mounting there is none, so
/// the image is spoilt while the file is open.
#[test]
fn another_answer_ends_the_lines() {
    let mut bench = Bench::new(Engine::Plain, two_lines(COMPRESSED, 0));
    assert_eq!(bench.open(2), Done);
    bench.image[SECTOR + 7] = 255;
    let mut text = String::new();
    let last = put_lines(&mut bench.image, &mut bench.session, 2, &mut text);
    assert_eq!((text.as_str(), last), ("  A  B\n", Err(BadImage)));
    assert_eq!(told_answer(BadImage), "ANSWER 11\n");
}

/// Zero bytes are shown; only blanks are dropped, at the end only.
#[test]
fn zeros_are_full_stops() {
    let record = [0xC1, 0, BLANK, 0, BLANK, BLANK].to_vec();
    for kind in [UNBLOCKED, BLOCKED, COMPRESSED] {
        let disk = Disk::empty(3).file(0, kind, 6, 2).named("Z");
        let image = disk.records(&[record.clone(), vec![0; 6]]).image();
        assert_eq!(shown(&image, "Z"), "A. .\n......\n");
    }
}

#[test]
fn the_station_is_the_shipped_image() {
    let path = concat!(env!("CARGO_MANIFEST_DIR"), "/../images/station.img");
    assert_eq!(std::fs::read(path).ok(), Some(station()));
}

/// The committed cases of the pass listing: names of their own, within the form's limits, and every answer;
/// they come back from their file, and the tiny model tells the same of them.
#[test]
fn shown_cases_are_as_told() {
    let cases = shown_cases();
    let names: HashSet<&str> = cases.iter().map(|case| case.name.as_str()).collect();
    assert_eq!(names.len(), cases.len());
    let back = unbundle(&bundle(&cases)).unwrap_or_default();
    assert_eq!(back.len(), cases.len());
    for (case, back) in cases.iter().zip(&back) {
        assert!(case.image.len() <= MOST_BUNDLED && case.typed().len() <= 4_096);
        assert!(case.script.rows.is_empty() && case.is_mounted());
        assert_eq!((&case.image, case.typed()), (&back.image, back.typed()));
        assert_eq!(check_shown(case), Ok(()), "{}", case.name);
    }
    let text = expected_showings(&cases);
    assert!(text.is_ascii());
    let answers: HashSet<&str> = text
        .lines()
        .filter_map(|line| line.strip_prefix("ANSWER "))
        .collect();
    assert_eq!(answers, HashSet::from(["7", "8", "11"]));
}

/// The form of a case, byte by byte, and the text for it.
#[test]
fn form_of_a_shown_case() {
    let case = Case::of_name("", "", vec![7], b"LOG");
    let file = [
        &[0, 1, 0, 0, 0, 1, 0, 0, 0, 0, 0, 3, 0, 0, 0, 0, 7][..],
        b"LOG",
    ]
    .concat();
    assert_eq!(bundle(std::slice::from_ref(&case)), file);
    let again = [
        &[0, 2, 0, 0, 0, 0, 0, 0, 0, 0, 0, 3, 0, 0, 0, 0][..],
        b"LOG",
    ]
    .concat();
    let two = [case.clone(), case];
    assert_eq!(bundle(&two), [file, again].concat());
    assert_eq!(
        expected_showings(&two),
        "CASE 1\nANSWER 11\nCASE 2\nANSWER 11\n"
    );
}

/// Random cases: the same every time, all answers, and mostly files with lines.
#[test]
fn wide_show_cases_show_lines() {
    let cases: Vec<Case> = (0..800).map(|number| wide_show_case(3, number)).collect();
    let again: Vec<Case> = (0..800).map(|number| wide_show_case(3, number)).collect();
    assert_eq!(bundle(&cases), bundle(&again));
    let text = expected_showings(&cases);
    for answer in ["7", "8", "11"] {
        assert!(text.contains(&format!("\nANSWER {answer}\n")));
    }
    let refused = text
        .lines()
        .filter(|line| line.starts_with("ANSWER "))
        .count();
    assert!((200..600).contains(&refused), "{refused}");
    for case in &cases {
        assert_eq!(check_shown(case), Ok(()), "{}", case.name);
    }
}
