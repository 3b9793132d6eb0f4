//! Buffers and sheets far longer than needed: what is named is written, the rest of the buffer stays, and the rest of a
//! sheet is ignored.
use crate::common::asked::Asked;
use crate::common::Tally;
use second::codes::*;
use second::questions::{BLOCK, COUNTS};
use second::reader::Drawing;
use second::sheet::ROW;
use second::testing::drawings::*;
use second::testing::random::Random;
use second::testing::writer;

/// How much longer; some have no low 8 or 16 bits.
const LONGER: [usize; 12] = [100, 236, 252, 256, 300, 512, 1_000, 2_047, 4_096, 10_000, 65_536, 1 << 20];

fn drawings() -> Vec<Drawing> {
    let mut random = Random::from_seed(18);
    vec![distances(2, &[(0, 1)]), complete_figure(9), random_kinds(&mut random, 30, 60, 3), largest(&mut random)]
}

/// Buffers longer than needed, and by one byte less than that.
fn rooms(needed: usize) -> impl Iterator<Item = usize> {
    LONGER.into_iter().flat_map(move |longer| [needed + longer, needed + longer - 1])
}

#[test]
fn the_rest_of_a_far_longer_buffer_stays() {
    for drawing in drawings() {
        let (mut tally, bytes) = (Tally::default(), writer::bytes(&drawing));
        let asked = Asked::of(&bytes);
        let (count, last) = (drawing.constraints.len(), drawing.constraints.len() as u32 - 1);
        rooms(COUNTS).for_each(|room| assert_eq!(tally.look_over(&bytes, room), ANSWERED));
        for room in rooms(BLOCK) {
            asked.one_constraint(&mut tally, last, room);
            asked.any_dense(&mut tally, -64, room);
        }
        for room in rooms(ROW * count) {
            assert!(asked.sheet(&mut tally, last, room).is_some());
        }
        tally.assert_codes([ANSWERED]);
    }
}

#[test]
fn a_refused_call_leaves_a_far_longer_buffer_as_it_was() {
    for drawing in drawings() {
        let (mut tally, bytes) = (Tally::default(), writer::bytes(&drawing));
        let (asked, count) = (Asked::of(&bytes), drawing.constraints.len() as u32);
        for room in rooms(ROW * drawing.constraints.len()) {
            asked.one_constraint(&mut tally, count, room);
            asked.sheet(&mut tally, count, room);
            asked.any_dense(&mut tally, 8192, room);
            asked.any_dense(&mut tally, 8191, room);
        }
        tally.assert_codes([K_RANGE, NO_SUCH_CONSTRAINT, NONE_DENSE]);
    }
}

#[test]
fn the_rest_of_a_far_longer_sheet_is_ignored() {
    let mut random = Random::from_seed(19);
    for drawing in drawings() {
        let (mut tally, bytes) = (Tally::default(), writer::bytes(&drawing));
        let (asked, c) = (Asked::of(&bytes), drawing.constraints.len() as u32 / 2);
        let top = asked.counter.tops[c as usize].density as i32;
        let sheet = asked.sheet(&mut tally, c, ROW * drawing.constraints.len()).expect("a sheet");
        for longer in LONGER {
            for rest in
                [vec![0; longer], vec![255; longer], random.bytes(longer), sheet.repeat(1 + longer / sheet.len())]
            {
                let longer = [&sheet[..], &rest].concat();
                assert_eq!(asked.check(&mut tally, c, &longer, top), ANSWERED);
                assert_eq!(asked.check(&mut tally, c, &longer, top + 1), NOT_SHOWN);
            }
        }
    }
}
