//! `look over` call by call against the second program: every code, every byte of the buffer and of its guard bytes.
mod common;
use common::Tally;
use second::codes::*;
use second::reader::Drawing;
use second::testing::drawings::{constraint, distances, largest, object, random_kinds, DISTANCE, POINT};
use second::testing::ffi;
use second::testing::mutants::Source;
use second::testing::random::Random;
use second::testing::samples::{a_to_l, figures};
use second::testing::writer::{self, constraint_record, end_record, object_record, record};

const ROOMS: [usize; 6] = [0, 3, 4, 5, 20, 64];

#[test]
fn more_than_200_000_calls_and_every_code() {
    let mut tally = Tally::default();
    let mut random = Random::from_seed(3);
    rows_of_the_table(&mut tally);
    sizes(&mut tally);
    let drawings = valid_drawings(&mut random);
    for drawing in &drawings {
        truncated(&mut tally, drawing);
        with_bytes_behind(&mut tally, &mut random, drawing);
    }
    for drawing in drawings.iter().filter(|drawing| drawing.constraints.len() < 100) {
        fields_changed(&mut tally, drawing);
        in_another_order(&mut tally, &mut random, drawing);
    }
    largest_truncated(&mut tally, &mut random);
    random_bytes(&mut tally, &mut random);
    random_records(&mut tally, &mut random);
    mutants(&mut tally, &mut random, &drawings);
    assert!(tally.calls >= 200_000, "{} calls", tally.calls);
    tally.assert_codes((0..=9).chain([12]));
}

/// Every constraint kind between objects of any two kinds, and every object kind, with weights on both sides of 15.
fn rows_of_the_table(tally: &mut Tally) {
    const WEIGHTS: [u8; 6] = [0, 1, 14, 15, 16, 255];
    for (kind, stated) in (0..=255).flat_map(|kind| WEIGHTS.map(|stated| (kind, stated))) {
        let one = Drawing { objects: vec![object(kind, stated)], constraints: vec![] };
        tally.look_over(&writer::bytes(&one), 4);
        for (first, second) in (1..=5).flat_map(|first| (1..=5).map(move |second| (first, second))) {
            let objects = vec![object(first, 0), object(second, 0)];
            let two = Drawing { objects, constraints: vec![constraint(1, 0, kind, stated)] };
            tally.look_over(&writer::bytes(&two), 4);
        }
    }
}

fn sizes(tally: &mut Tally) {
    for objects in [0, 1, 2, 127, 128, 129] {
        for constraints in [0, 1, 511, 512, 513] {
            for room in ROOMS {
                tally.look_over(&writer::bytes(&distances(objects, &vec![(0, 1); constraints])), room);
            }
        }
    }
}

fn valid_drawings(random: &mut Random) -> Vec<Drawing> {
    let mut drawings: Vec<Drawing> = a_to_l().into_iter().chain(figures()).map(|sample| sample.drawing).collect();
    for size in 1..=12 {
        drawings.push(random_kinds(random, size, 2 * size, 3));
    }
    drawings.push(random_kinds(random, 127, 300, 3));
    drawings
}

fn truncated(tally: &mut Tally, drawing: &Drawing) {
    let bytes = writer::bytes(drawing);
    for end in 0..=bytes.len() {
        for room in [3, 4, 5] {
            tally.look_over(&bytes[..end], room);
        }
    }
}

fn largest_truncated(tally: &mut Tally, random: &mut Random) {
    let bytes = writer::bytes(&largest(random));
    for end in 0..=bytes.len() {
        tally.look_over(&bytes[..end], 4);
    }
}

/// Each field of each record at values on both sides of the limits.
fn fields_changed(tally: &mut Tally, drawing: &Drawing) {
    let records = writer::records(drawing);
    let objects = drawing.objects.len() as u16;
    let near = [objects.wrapping_sub(1), objects, objects + 1];
    let wide = [0, 1, 2, 3, 4, 5, 6, 7, 8, 127, 128, 129, 255, 256, 257, 511, 512, 513, 65535];
    let narrow = [0, 1, 2, 3, 4, 5, 6, 7, 8, 14, 15, 16, 17, 127, 128, 255];
    for at in 0..records.len() {
        let is_constraint = records[at].len() == 10;
        let bodies = if is_constraint { [4, 6].as_slice() } else { &[] };
        for &field in [0, 2].iter().chain(bodies) {
            for value in wide.into_iter().chain(near) {
                let mut changed = records.clone();
                changed[at][field..field + 2].copy_from_slice(&value.to_le_bytes());
                tally.look_over(&changed.concat(), 4);
            }
        }
        for field in if is_constraint { 8..10 } else { 4..records[at].len() } {
            for value in narrow {
                let mut changed = records.clone();
                changed[at][field] = value;
                tally.look_over(&changed.concat(), 4);
            }
        }
    }
}

/// Records exchanged, repeated, left out and shuffled.
fn in_another_order(tally: &mut Tally, random: &mut Random, drawing: &Drawing) {
    let records = writer::records(drawing);
    for a in 0..records.len() {
        let mut repeated = records.clone();
        repeated.insert(a, records[a].clone());
        tally.look_over(&repeated.concat(), 4);
        let mut fewer = records.clone();
        fewer.remove(a);
        tally.look_over(&fewer.concat(), 4);
        for b in 0..a {
            let mut exchanged = records.clone();
            exchanged.swap(a, b);
            tally.look_over(&exchanged.concat(), 4);
        }
        let shuffled: Vec<Vec<u8>> = random.order(records.len()).iter().map(|&i| records[i].clone()).collect();
        tally.look_over(&shuffled.concat(), 4);
    }
}

fn with_bytes_behind(tally: &mut Tally, random: &mut Random, drawing: &Drawing) {
    let bytes = writer::bytes(drawing);
    let whole = [object_record(&object(POINT, 0)), constraint_record(&constraint(0, 1, DISTANCE, 0)), end_record()];
    for room in ROOMS {
        for behind in &whole {
            tally.look_over(&[&bytes[..], behind].concat(), room);
        }
        for count in 1..=8 {
            tally.look_over(&[bytes.clone(), random.bytes(count)].concat(), room);
        }
    }
}

fn random_bytes(tally: &mut Tally, random: &mut Random) {
    for _ in 0..20_000 {
        let count = random.below(40);
        let bytes = random.bytes(count);
        tally.look_over(&bytes, random.one_of(&ROOMS));
    }
}

/// Records with likely values in any order, a few with a wrong head.
fn random_records(tally: &mut Tally, random: &mut Random) {
    for _ in 0..60_000 {
        let objects = random.within(0, 5);
        let mut bytes: Vec<u8> = Vec::new();
        for _ in 0..objects {
            bytes.extend(likely_object(random));
        }
        for _ in 0..random.below(6) {
            let likely = constraint(random.below(objects + 1), random.below(objects + 1), likely_kind(random), 0);
            bytes.extend(match random.below(12) {
                0 => likely_object(random),
                1 => record(random.below(5) as u16, &vec![1; random.below(8)]),
                2 => constraint_record(&constraint(0, 1, likely_kind(random), random.within(0, 20) as u8)),
                _ => constraint_record(&likely),
            });
        }
        bytes.extend(end_record());
        tally.look_over(&bytes, random.one_of(&ROOMS));
    }
}

fn likely_object(random: &mut Random) -> Vec<u8> {
    let kind = if random.once_in(20) { random.byte() } else { random.within(1, 5) as u8 };
    let stated = if random.once_in(20) { random.byte() } else { random.below(16) as u8 };
    object_record(&object(kind, stated))
}

fn likely_kind(random: &mut Random) -> u8 {
    random.below(9) as u8
}

fn mutants(tally: &mut Tally, random: &mut Random, drawings: &[Drawing]) {
    let sources: Vec<Source> = drawings.iter().map(Source::of).collect();
    for _ in 0..3_000 {
        for source in &sources {
            let bytes = source.mutant(random);
            tally.look_over(&bytes, random.one_of(&ROOMS));
        }
    }
}

/// Every choice of faults in one object record: the first in the order wins.
#[test]
fn of_several_faults_in_an_object_the_first_in_the_order_wins() {
    let order = [RECORD_KIND, RECORD_LENGTH, CUT_SHORT, OBJECT_AFTER_CONSTRAINT, TOO_MANY, NOT_IN_TABLE, STATED_WEIGHT];
    for faults in 0..1 << order.len() {
        let has = |code: u32| order.iter().position(|&c| c == code).is_some_and(|i| faults >> i & 1 == 1);
        let before = if has(TOO_MANY) { 128 } else { 2 };
        let constraints = if has(OBJECT_AFTER_CONSTRAINT) { vec![(0, 1)] } else { vec![] };
        let kind = if has(NOT_IN_TABLE) { 9 } else { POINT };
        let stated = if has(STATED_WEIGHT) { 16 } else { 0 };
        let last = object_record(&object(kind, stated));
        first_wins(&distances(before, &constraints), last, faults, &order);
    }
}

/// Every choice of faults in one constraint record: the first in the order wins.
#[test]
fn of_several_faults_in_a_constraint_the_first_in_the_order_wins() {
    let order = [RECORD_KIND, RECORD_LENGTH, CUT_SHORT, TOO_MANY, ENDS, NOT_IN_TABLE, STATED_WEIGHT];
    for faults in 0..1 << order.len() {
        let has = |code: u32| order.iter().position(|&c| c == code).is_some_and(|i| faults >> i & 1 == 1);
        let before = if has(TOO_MANY) { 512 } else { 3 };
        let kind = if has(NOT_IN_TABLE) { 2 } else { DISTANCE };
        let stated = if has(STATED_WEIGHT) { 255 } else { 0 };
        let bad_ends = if has(ENDS) { vec![(2, 0), (0, 2), (1, 1)] } else { vec![(0, 1)] };
        for (first, second) in bad_ends {
            let last = constraint_record(&constraint(first, second, kind, stated));
            first_wins(&distances(2, &vec![(0, 1); before]), last, faults, &order);
        }
    }
}

/// The records of a drawing, then one with these faults. The first three of the order are put into its head and body.
fn first_wins(before: &Drawing, mut last: Vec<u8>, faults: usize, order: &[u32]) {
    if faults & 1 != 0 {
        last[2] = 4;
    }
    if faults & 2 != 0 {
        last[0] += 1;
    }
    let mut bytes = writer::bytes(before);
    bytes.truncate(bytes.len() - end_record().len());
    bytes.extend(&last);
    if faults & 4 != 0 {
        bytes.pop();
    } else {
        bytes.extend(end_record());
    }
    let wanted = (0..order.len()).find(|i| faults >> i & 1 == 1).map_or(ANSWERED, |i| order[i]);
    assert_eq!(ffi::look_over(&bytes, 4, 0).code, wanted, "faults {faults:b}");
    assert_eq!(second::questions::look_over(&bytes, 4).code, wanted, "faults {faults:b} in the second program");
    let short = if wanted == ANSWERED { TOO_SHORT } else { wanted };
    assert_eq!(ffi::look_over(&bytes, 3, 0).code, short, "faults {faults:b} and a short buffer");
}
