//! The second program against itself and document 01: both of its methods agree, and the known results come out.
use second::answers::{any_dense, tops};
use second::net::{members, Net};
use second::testing::drawings::{loose_tail, random_kinds, random_points};
use second::testing::random::Random;
use second::testing::samples::{a_to_l, figures};
use second::testing::writer;
use second::{brute, cut, reader, report};

#[test]
fn known_results_come_out_by_both_methods() {
    for sample in a_to_l().into_iter().chain(figures()) {
        let read = reader::read(&writer::bytes(&sample.drawing));
        assert_eq!(read.as_ref(), Ok(&sample.drawing), "{}", sample.name);
        let net = Net::of(&sample.drawing);
        for tops in [brute::tops(&net), cut::tops(&net)] {
            for (c, density, set) in &sample.tops {
                let found: Vec<usize> = members(tops[*c].set).collect();
                assert_eq!((tops[*c].density, &found), (*density, set), "{} {c}", sample.name);
            }
            for (k, dense) in &sample.dense {
                assert_eq!(any_dense(&tops, i64::from(*k)), *dense, "{} at {k}", sample.name);
            }
        }
    }
}

#[test]
fn brute_force_and_cuts_agree() {
    let mut random = Random::from_seed(1);
    let mut compared = 0;
    while compared < 20_000 {
        let (objects, count) = (random.within(2, 9), random.within(1, 24));
        let often = random.within(1, 6);
        let drawing = match random.below(2) {
            0 => random_kinds(&mut random, objects, count, often),
            _ => random_points(&mut random, objects, count),
        };
        let net = Net::of(&drawing);
        assert_eq!(brute::tops(&net), cut::tops(&net), "{drawing:?}");
        compared += net.constraints.len();
    }
}

#[test]
fn the_cut_finds_a_dense_set_among_128_objects() {
    let drawing = loose_tail(4, 124, true);
    let tops = tops(&Net::of(&drawing));
    let last = tops.len() - 1;
    assert_eq!((tops[last].density, tops[last].set), (-2, 0b1111));
    assert_eq!((tops[50].density, tops[50].set.count_ones()), (-3, 2));
}

#[test]
fn the_report_on_c_is_that_of_01() {
    let c = &a_to_l()[2];
    let bytes = writer::bytes(&c.drawing);
    assert_eq!(bytes.len(), 52);
    assert_eq!(report::report(&bytes), "objects 3 constraints 3\n0 -3 0 1\n1 -3 1 2\n2 -3 0 2\nK -3 none\n");
}
