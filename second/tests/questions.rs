//! All five questions against the second program, on drawings of every build: every code and byte; of a sheet, that it
//! is sound and claims the top density.
mod common;
use common::asked::{Asked, KS, NUMBERS_OF_NO_CONSTRAINT};
use common::Tally;
use second::reader::Drawing;
use second::testing::drawings::*;
use second::testing::mutants::Source;
use second::testing::random::Random;
use second::testing::samples::{a_to_l, figures, Sample};
use second::testing::{ffi, writer};

#[test]
fn drawings_a_to_l_give_the_results_of_01() {
    a_to_l().iter().for_each(known_results);
}

#[test]
fn figures_from_the_documents_give_their_results() {
    figures().iter().for_each(known_results);
}

fn known_results(sample: &Sample) {
    let bytes = writer::bytes(&sample.drawing);
    for (c, density, members) in &sample.tops {
        let found = ffi::one_constraint(&bytes, *c as u32, 20, 0xaa);
        let block = block(*c, *density, members);
        assert_eq!((found.code, found.buffer()), (0, &block[..]), "{} {c}", sample.name);
    }
    for (k, dense) in &sample.dense {
        let found = ffi::any_dense(&bytes, *k, 20, 0xaa);
        match dense {
            Some(c) => {
                let (_, density, members) = sample.tops.iter().find(|top| top.0 == *c).expect("its top is known");
                assert_eq!((found.code, found.buffer()), (0, &block(*c, *density, members)[..]), "{}", sample.name);
            }
            None => assert_eq!((found.code, found.bytes), (32, ffi::after(20, 0xaa, &[])), "{}", sample.name),
        }
    }
    let (mut tally, mut random) = (Tally::default(), Random::from_seed(4));
    let asked = Asked::of(&bytes);
    (0..sample.drawing.constraints.len()).for_each(|c| asked.sheets(&mut tally, &mut random, c as u32));
    asked.every_question(&mut tally, &mut random);
}

fn block(c: usize, density: i64, members: &[usize]) -> Vec<u8> {
    let set = members.iter().fold(0u128, |set, member| set | 1 << member);
    [&(c as u16).to_le_bytes()[..], &(density as i16).to_le_bytes(), &set.to_le_bytes()].concat()
}

#[test]
fn more_than_20_000_drawings_and_every_code() {
    let mut tally = Tally::default();
    let mut random = Random::from_seed(5);
    let mut drawings = 0;
    let mut ask = |random: &mut Random, bytes: Vec<u8>| {
        Asked::of(&bytes).every_question(&mut tally, random);
        drawings += 1;
    };
    for round in 0..5_000 {
        let small = small_drawings(&mut random, round);
        let mutant = Source::of(&small[round % small.len()]).mutant(&mut random);
        small.iter().for_each(|drawing| ask(&mut random, writer::bytes(drawing)));
        ask(&mut random, mutant);
    }
    for _ in 0..60 {
        let middling = middling_drawings(&mut random);
        middling.iter().for_each(|drawing| ask(&mut random, writer::bytes(drawing)));
    }
    let large = large_drawings(&mut random);
    large.iter().for_each(|drawing| ask(&mut random, writer::bytes(drawing)));
    ask(&mut random, writer::bytes(&distances(129, &[(0, 1)])));
    ask(&mut random, writer::bytes(&distances(128, &[(0, 1); 513])));
    assert!(drawings >= 20_000, "{drawings} drawings");
    tally.assert_codes((0..=12).chain([32, 33]));
}

/// Drawings of few objects, which the second program counts by trying every set.
fn small_drawings(random: &mut Random, round: usize) -> Vec<Drawing> {
    let mut drawings: Vec<Drawing> = (0..5)
        .map(|_| {
            let (objects, count, often) = (random.within(0, 9), random.within(0, 18), random.within(1, 6));
            random_kinds(random, objects, count, often)
        })
        .collect();
    let (points, count) = (random.within(2, 9), random.within(1, 24));
    drawings.push(random_points(random, points, count));
    let base = drawings[round % drawings.len()].clone();
    drawings.push(with_parallels(random, base, 4));
    let (figure, tail) = (random.within(2, 5), random.within(1, 5));
    let built = match round % 5 {
        0 => braced_strip(random.within(1, 4)),
        1 => complete_figure(random.within(2, 9)),
        2 => joined_parts(figure, random.within(2, 4), random.within(1, 3)),
        3 => loose_tail(figure, tail, random.once_in(2)),
        _ => long_chain(random.within(2, 10), random.within(1, 3), random.once_in(2)),
    };
    let often = random.within(2, 8);
    drawings.push(if random.once_in(2) { with_stated(random, built, often) } else { built });
    drawings
}

/// Drawings of some dozen objects.
fn middling_drawings(random: &mut Random) -> Vec<Drawing> {
    let objects = random.within(13, 48);
    let points = random_points(random, objects, 2 * objects - 3);
    let kinds = random_kinds(random, objects, 3 * objects, 4);
    vec![
        with_parallels(random, points.clone(), 8),
        points,
        kinds,
        with_stated(random, braced_strip(objects / 2), 9),
        braced_strip(objects / 2),
        joined_parts(random.within(4, 8), random.within(4, 8), random.within(1, 20)),
        loose_tail(random.within(4, 8), random.within(9, 40), random.once_in(2)),
        long_chain(objects, random.within(1, 4), random.once_in(2)),
    ]
}

/// Drawings at the limits.
fn large_drawings(random: &mut Random) -> Vec<Drawing> {
    let mut drawings = vec![braced_strip(63), long_chain(128, 4, false), long_chain(128, 385, true)];
    drawings.push(repeated_strip());
    drawings.push(complete_figure(32));
    drawings.push(loose_tail(6, 122, true));
    drawings.push(plain(POINT, 128, DISTANCE, &[(127, 126); 512]));
    drawings.push(plain(POINT, 128, DISTANCE, &[]));
    for _ in 0..6 {
        drawings.push(largest(random));
        drawings.push(heavy_points(random));
        drawings.push(random_points(random, 128, 512));
        drawings.push(random_points(random, 128, 253));
        let strip = braced_strip(63);
        drawings.push(with_parallels(random, strip, 259));
        let mut heaviest = random_points(random, 128, 512);
        heaviest.constraints.iter_mut().for_each(|constraint| constraint.stated = 15);
        drawings.push(heaviest);
    }
    drawings
}

#[test]
fn k_of_minus_64_and_8191_pass_and_minus_65_and_8192_are_refused_10() {
    let bytes = writer::bytes(&distances(2, &[(0, 1)]));
    let code = |k| ffi::any_dense(&bytes, k, 20, 0).code;
    assert_eq!([code(-64), code(8191), code(-65), code(8192)], [0, 32, 10, 10]);
    assert_eq!([code(i32::MIN), code(i32::MAX), code(65_532), code(-65_540)], [10; 4]);
}

#[test]
fn the_least_and_the_greatest_top_density_come_out() {
    let stated = |object_weight, constraint_weight, count| {
        let mut drawing = distances(2, &vec![(1, 0); count]);
        drawing.objects.fill(object(POINT, object_weight));
        drawing.constraints.fill(constraint(1, 0, DISTANCE, constraint_weight));
        writer::bytes(&drawing)
    };
    for (bytes, c, density) in [(stated(15, 1, 1), 0, -29), (stated(1, 15, 512), 511, 7678)] {
        let found = ffi::one_constraint(&bytes, c as u32, 20, 0);
        assert_eq!((found.code, found.buffer()), (0, &block(c, density, &[0, 1])[..]));
        let code = |k| ffi::any_dense(&bytes, k, 20, 0).code;
        assert_eq!([code(density as i32 - 1), code(density as i32)], [0, 32]);
    }
}

#[test]
fn a_block_buffer_of_20_bytes_passes_and_19_is_refused_12() {
    let bytes = writer::bytes(&distances(2, &[(0, 1)]));
    assert_eq!([20, 19].map(|room| ffi::one_constraint(&bytes, 0, room, 0).code), [0, 12]);
    assert_eq!([20, 19].map(|room| ffi::any_dense(&bytes, -4, room, 0).code), [0, 12]);
    assert_eq!([20, 19].map(|room| ffi::any_dense(&bytes, 0, room, 0).code), [32, 12]);
}

#[test]
fn a_sheet_buffer_of_4_bytes_a_constraint_passes_and_shorter_ones_are_refused_12() {
    let bytes = writer::bytes(&distances(3, &[(0, 1), (1, 2)]));
    assert_eq!([8, 7, 0].map(|room| ffi::sheet(&bytes, 1, room, 0).code), [0, 12, 12]);
    assert_eq!([0, 1].map(|c| ffi::check(&bytes, c, &[0; 7], -2)), [12, 12]);
    assert_eq!(ffi::check(&bytes, 0, &[0; 8], -2), 0);
}

#[test]
fn the_last_constraint_passes_and_every_number_above_is_refused_11() {
    let bytes = writer::bytes(&distances(2, &[(0, 1), (1, 0)]));
    assert_eq!(
        [0, 1, 2, 65_536, 65_537, u32::MAX].map(|c| ffi::one_constraint(&bytes, c, 20, 0).code),
        [0, 0, 11, 11, 11, 11]
    );
    assert_eq!([0, 1, 2, 65_536, 65_537, u32::MAX].map(|c| ffi::sheet(&bytes, c, 8, 0).code), [0, 0, 11, 11, 11, 11]);
    assert_eq!([0, 1, 2, 65_536, 65_537, u32::MAX].map(|c| ffi::check(&bytes, c, &[0; 8], -2)), [0, 0, 11, 11, 11, 11]);
    let nothing = writer::bytes(&distances(0, &[]));
    assert_eq!(ffi::sheet(&nothing, 0, 0, 0).code, 11);
    assert_eq!(ffi::check(&nothing, 0, &[], 0), 11);
}

#[test]
fn a_fault_of_the_drawing_comes_before_a_bad_number_and_that_before_a_short_buffer() {
    let (mut tally, faulty) = (Tally::default(), [0, 0, 3, 0, 0]);
    let valid = writer::bytes(&distances(2, &[(0, 1)]));
    for (bytes, k_code, c_code) in [(&faulty[..], 9, 9), (&valid[..], 10, 11)] {
        assert_eq!(ffi::any_dense(bytes, 8192, 0, 0).code, k_code);
        assert_eq!(ffi::one_constraint(bytes, 1, 0, 0).code, c_code);
        assert_eq!(ffi::sheet(bytes, 1, 0, 0).code, c_code);
        assert_eq!(ffi::check(bytes, 1, &[], 0), c_code);
        let asked = Asked::of(bytes);
        KS.iter().for_each(|&k| asked.any_dense(&mut tally, k, 0));
        NUMBERS_OF_NO_CONSTRAINT.iter().for_each(|&c| asked.one_constraint(&mut tally, c, 0));
    }
}

#[test]
fn null_pointers_with_length_0_are_no_bytes() {
    let drawing = writer::bytes(&distances(2, &[(0, 1)]));
    let (none, no_room) = (std::ptr::null(), std::ptr::null_mut());
    // SAFETY: a null pointer goes with length 0; the drawing's pointer is good for its length.
    unsafe {
        for (bytes, len, code) in [(none, 0, 1), (drawing.as_ptr(), drawing.len(), 12)] {
            assert_eq!(ffi::c::brentivex_one_constraint(bytes, len, 0, no_room, 0), code);
            assert_eq!(ffi::c::brentivex_any_dense(bytes, len, -3, no_room, 0), code);
            assert_eq!(ffi::c::brentivex_sheet(bytes, len, 0, no_room, 0), code);
            assert_eq!(ffi::c::brentivex_check(bytes, len, 0, none, 0, 0), code);
        }
    }
}
