//! Drawings with 512 constraints of weight 15 on objects of weight 15, in several shapes: all questions.
use crate::common::asked::Asked;
use crate::common::Tally;
use second::questions::BLOCK;
use second::reader::{Drawing, MOST_CONSTRAINTS, MOST_OBJECTS};
use second::testing::drawings::{constraint, every_pair, object, random_points, DISTANCE, POINT};
use second::testing::random::Random;
use second::testing::{ffi, writer};
use std::collections::BTreeSet;

/// The pairs over and over until there are 512 constraints, everything of stated weight 15.
fn heaviest(objects: usize, pairs: &[(usize, usize)]) -> Drawing {
    let constraints = pairs.iter().cycle().take(MOST_CONSTRAINTS).map(|&(a, b)| constraint(a, b, DISTANCE, 15));
    Drawing { objects: vec![object(POINT, 15); objects], constraints: constraints.collect() }
}

/// Every c and every K next to a top density, and sheets with false ones for a few.
fn every_question(drawing: &Drawing) -> Vec<i64> {
    assert!(drawing.objects.iter().all(|object| object.stated == 15));
    assert!(drawing.constraints.iter().filter(|constraint| constraint.stated == 15).count() == 512);
    let (mut tally, mut random) = (Tally::default(), Random::from_seed(16));
    let bytes = writer::bytes(drawing);
    let asked = Asked::of(&bytes);
    (0..512).for_each(|c| asked.one_constraint(&mut tally, c, BLOCK));
    let tops: BTreeSet<i64> = asked.counter.tops.iter().map(|top| top.density).collect();
    for top in &tops {
        (top - 1..=top + 1).for_each(|k| asked.any_dense(&mut tally, k as i32, BLOCK));
    }
    [0, 1, 255, 256, 510, 511].iter().for_each(|&c| asked.sheets(&mut tally, &mut random, c));
    asked.every_question(&mut tally, &mut random);
    tops.into_iter().collect()
}

#[test]
fn all_on_two_objects() {
    assert_eq!(every_question(&heaviest(2, &[(0, 1)])), [7650]);
}

#[test]
fn complete_figures() {
    assert_eq!(every_question(&heaviest(32, &every_pair(0, 32))), [7200]);
    assert_eq!(every_question(&heaviest(23, &every_pair(0, 23))), [7335]);
    assert_eq!(every_question(&heaviest(128, &every_pair(96, 128))), [7200]);
}

#[test]
fn a_chain_with_repeats() {
    let chain: Vec<(usize, usize)> = (1..MOST_OBJECTS).map(|i| (i - i % 2, i - 1 + i % 2)).collect();
    assert_eq!(every_question(&heaviest(128, &chain)), [5760]);
}

/// Every object that the chain adds to the bundle at its start adds nothing, so each c has a least set of its own size.
#[test]
fn a_chain_with_all_repeats_at_its_start() {
    let mut pairs: Vec<(usize, usize)> = (1..MOST_OBJECTS).map(|i| (i - 1, i)).collect();
    pairs.resize(MOST_CONSTRAINTS, (1, 0));
    let drawing = heaviest(128, &pairs);
    assert_eq!(every_question(&drawing), [5760]);
    for c in 0..127 {
        let (_, _, set) = ffi::one_constraint(&writer::bytes(&drawing), c, BLOCK, 0).block();
        assert_eq!(set, u128::MAX >> (126 - c));
    }
}

#[test]
fn stars() {
    let star: Vec<(usize, usize)> = (1..MOST_OBJECTS).map(|i| (0, i)).collect();
    assert_eq!(every_question(&heaviest(128, &star)), [5760]);
    let last: Vec<(usize, usize)> = (0..MOST_OBJECTS - 1).map(|i| (i, 127)).collect();
    assert_eq!(every_question(&heaviest(128, &last)), [5760]);
    let two: Vec<(usize, usize)> = (2..MOST_OBJECTS).map(|i| (i % 2, i)).collect();
    every_question(&heaviest(128, &two));
}

#[test]
fn pairs_and_triangles_apart() {
    let pairs: Vec<(usize, usize)> = (0..64).map(|i| (2 * i, 2 * i + 1)).collect();
    assert_eq!(every_question(&heaviest(128, &pairs)), [5760]);
    let triangles: Vec<(usize, usize)> =
        (0..42).flat_map(|i| [(3 * i, 3 * i + 1), (3 * i + 1, 3 * i + 2), (3 * i, 3 * i + 2)]).collect();
    every_question(&heaviest(128, &triangles));
}

#[test]
fn pairs_at_random() {
    let mut random = Random::from_seed(17);
    for objects in [16, 40, 128] {
        let drawing = random_points(&mut random, objects, 512);
        let pairs: Vec<(usize, usize)> =
            drawing.constraints.iter().map(|c| (c.ends[0].into(), c.ends[1].into())).collect();
        every_question(&heaviest(objects, &pairs));
    }
}
