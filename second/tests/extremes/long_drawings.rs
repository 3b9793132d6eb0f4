//! Drawings longer than any that is accepted, through all five questions: each is refused with the code of its first
//! fault, wherever that is, and every buffer stays as it was.
use crate::common::asked::Asked;
use crate::common::Tally;
use second::codes::*;
use second::testing::drawings::*;
use second::testing::random::Random;
use second::testing::writer::{self, constraint_record, end_record, object_record, record};

const LENGTHS: [usize; 10] = [6_001, 6_010, 7_000, 8_192, 65_535, 65_536, 65_540, 65_546, 131_072, 1 << 20];

/// Every question refuses the bytes with this code, whatever else is asked, and writes nothing.
fn refused(bytes: &[u8], code: u32) {
    assert!(bytes.len() > 6_000);
    let (mut tally, asked) = (Tally::default(), Asked::of(bytes));
    for (c, k, room) in [(0, -3, 20), (511, 8191, 2_048), (512, 8192, 0), (65_536, 65_533, 4_096)] {
        tally.look_over(bytes, room);
        asked.one_constraint(&mut tally, c, room);
        asked.any_dense(&mut tally, k, room);
        asked.sheet(&mut tally, c, room);
        asked.check(&mut tally, c, &vec![0; room], -3);
    }
    tally.assert_codes([code]);
}

/// What can stand behind the part that decides.
fn fillers() -> Vec<Vec<u8>> {
    let [point, distance] = [object_record(&object(POINT, 0)), constraint_record(&constraint(0, 1, DISTANCE, 0))];
    vec![vec![0], vec![255], end_record(), point, distance, Random::from_seed(21).bytes(997)]
}

/// The start, and behind it the filler over and over up to that length.
fn filled(start: &[u8], filler: &[u8], length: usize) -> Vec<u8> {
    start.iter().chain(filler.iter().cycle()).take(length).copied().collect()
}

fn filled_every_way(start: &[u8], code: u32) {
    for (i, length) in LENGTHS.into_iter().enumerate() {
        let fillers = fillers();
        refused(&filled(start, &fillers[i % fillers.len()], length), code);
        refused(&filled(start, &fillers[(i + 3) % fillers.len()], length), code);
    }
}

/// Points and distances without the end record.
fn open(points: usize, count: usize) -> Vec<u8> {
    let bytes = writer::bytes(&distances(points, &vec![(0, 1); count]));
    bytes[..bytes.len() - end_record().len()].to_vec()
}

#[test]
fn bytes_behind_the_end_record_are_refused_9() {
    let mut random = Random::from_seed(22);
    let drawings =
        [distances(0, &[]), distances(2, &[(0, 1)]), random_kinds(&mut random, 12, 30, 3), largest(&mut random)];
    for drawing in drawings.iter().map(writer::bytes) {
        for filler in fillers() {
            for length in LENGTHS {
                refused(&filled(&drawing, &filler, length), BYTES_AFTER_END);
            }
            for longer in [24 * 256, 32 * 256, 65_536, 2 * 65_536] {
                refused(&filled(&drawing, &filler, drawing.len() + longer), BYTES_AFTER_END);
            }
        }
    }
}

/// Records with a fault that any record may have, or a constraint, or an object.
fn faulty_heads() -> Vec<(Vec<u8>, u32)> {
    let kinds = [0, 4, 255, 256, 257, 258, 259, 65_535].map(|kind| (record(kind, &[1, 0]), RECORD_KIND));
    let lengths = [(1, 3), (1, 6), (1, 0), (2, 2), (2, 7), (2, 262), (3, 1), (3, 256), (1, 258), (2, 6_100)];
    let lengths = lengths.map(|(kind, length)| (record(kind, &vec![1; length]), RECORD_LENGTH));
    [&kinds[..], &lengths].concat()
}

fn faulty_constraints() -> Vec<(Vec<u8>, u32)> {
    let distance = |a, b, stated| constraint_record(&constraint(a, b, DISTANCE, stated));
    let unknown = [(0, 0), (1, 1), (0, 128), (128, 0), (0, 257), (65_535, 1)];
    let ends = unknown.map(|(a, b)| (distance(a, b, 0), ENDS));
    let kinds = [0, 2, 6, 8, 255].map(|kind| (constraint_record(&constraint(0, 1, kind, 0)), NOT_IN_TABLE));
    let weights = [16, 128, 255].map(|stated| (distance(0, 1, stated), STATED_WEIGHT));
    [&ends[..], &kinds, &weights].concat()
}

fn faulty_objects() -> Vec<(Vec<u8>, u32)> {
    let kinds = [0, 6, 255].map(|kind| (object_record(&object(kind, 0)), NOT_IN_TABLE));
    let weights = [16, 128, 255].map(|stated| (object_record(&object(POINT, stated)), STATED_WEIGHT));
    [&kinds[..], &weights].concat()
}

#[test]
fn a_fault_in_the_first_records_decides() {
    for (faulty, code) in [faulty_heads(), faulty_constraints(), faulty_objects()].concat() {
        filled_every_way(&[open(2, 0), faulty].concat(), code);
    }
    filled_every_way(&[open(2, 1), object_record(&object(POINT, 0))].concat(), OBJECT_AFTER_CONSTRAINT);
}

#[test]
fn a_fault_in_the_last_records_decides() {
    for (faulty, code) in [faulty_heads(), faulty_constraints()].concat() {
        filled_every_way(&[open(128, 511), faulty].concat(), code);
    }
    for (faulty, code) in [faulty_heads(), faulty_objects()].concat() {
        filled_every_way(&[open(127, 0), faulty].concat(), code);
    }
    for (faulty, code) in faulty_heads() {
        filled_every_way(&[open(128, 512), faulty].concat(), code);
    }
    filled_every_way(&[open(128, 512), object_record(&object(POINT, 0))].concat(), OBJECT_AFTER_CONSTRAINT);
}

#[test]
fn the_129th_object_and_the_513th_constraint_are_refused_5() {
    for objects in [129, 130, 256, 257, 1_000, 11_000] {
        filled_every_way(&open(objects, 0), TOO_MANY);
    }
    for constraints in [513, 514, 600, 768, 1_024, 7_000] {
        filled_every_way(&open(2, constraints), TOO_MANY);
        filled_every_way(&open(128, constraints), TOO_MANY);
    }
}
