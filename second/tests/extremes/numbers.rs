//! Constraints numbered 256 and more, and K, claims and c that agree with a right one in their low 8 or 16 bits.
use crate::common::asked::Asked;
use crate::common::Tally;
use second::codes::*;
use second::questions::BLOCK;
use second::reader::{Drawing, MOST_CONSTRAINTS, MOST_OBJECTS};
use second::sheet::ROW;
use second::testing::drawings::{constraint, object, DISTANCE, POINT};
use second::testing::{ffi, writer};

/// Numbers of constraints on both sides of 256 and far above, each in front of one that is denser.
const STEPS: [usize; 12] = [3, 254, 255, 256, 257, 258, 300, 384, 400, 448, 510, 511];
/// In the drawing with a core, the constraints from this number on are the core.
const CORE: usize = 450;
/// The density of the core: 62 constraints of weight 15 on two points of weight 1.
const CORE_DENSITY: i32 = 62 * 15 - 2;
const LEAST_STEP: i32 = -15;

/// 512 constraints on pairs of points. Step i of STEPS has a pair of density -15 + i for itself; the core, if there is
/// one, has the first pair; the others share pairs of density below -15. No set is denser than the core, so the top
/// density of each is that of its own pair and the core.
fn rising(with_core: bool) -> Vec<u8> {
    let mut drawing = Drawing { objects: vec![object(POINT, 15); MOST_OBJECTS], constraints: Vec::new() };
    drawing.objects[..2].fill(object(POINT, 1));
    drawing.objects[2..2 + 2 * STEPS.len()].fill(object(POINT, 8));
    for c in 0..MOST_CONSTRAINTS {
        let shared = 1 + STEPS.len() + c % (MOST_OBJECTS / 2 - 1 - STEPS.len());
        let (pair, weight) = match STEPS.iter().position(|&step| step == c) {
            _ if with_core && c >= CORE => (0, 15),
            Some(step) => (1 + step, 1 + step as u8),
            None => (shared, 1),
        };
        drawing.constraints.push(constraint(2 * pair, 2 * pair + 1, DISTANCE, weight));
    }
    writer::bytes(&drawing)
}

/// What any dense answers at K: the number of a constraint, or the code.
fn dense(bytes: &[u8], k: i32) -> Result<usize, u32> {
    let found = ffi::any_dense(bytes, k, BLOCK, 0x5a);
    (found.code == ANSWERED).then(|| found.block().0).ok_or(found.code)
}

#[test]
fn any_dense_answers_constraints_numbered_256_and_more() {
    let (mut tally, bytes) = (Tally::default(), rising(false));
    let asked = Asked::of(&bytes);
    for (k, step) in (LEAST_STEP - 1..).zip(STEPS) {
        assert_eq!((dense(&bytes, k), asked.counter.tops[step].density), (Ok(step), i64::from(k) + 1));
    }
    (-64..=9).for_each(|k| asked.any_dense(&mut tally, k, BLOCK));
    tally.assert_codes([ANSWERED, NONE_DENSE]);
}

#[test]
fn any_dense_answers_constraints_numbered_256_and_more_at_a_k_above_255() {
    let (mut tally, bytes) = (Tally::default(), rising(true));
    let asked = Asked::of(&bytes);
    let below_the_core = STEPS.into_iter().filter(|step| *step < CORE);
    for (k, step) in (CORE_DENSITY + LEAST_STEP - 1..).zip(below_the_core) {
        assert_eq!((dense(&bytes, k), asked.counter.tops[step].density), (Ok(step), i64::from(k) + 1));
    }
    assert_eq!([CORE_DENSITY - 1, CORE_DENSITY].map(|k| dense(&bytes, k)), [Ok(CORE), Err(NONE_DENSE)]);
    (CORE_DENSITY - 64..=CORE_DENSITY + 9).for_each(|k| asked.any_dense(&mut tally, k, BLOCK));
}

#[test]
fn a_k_with_the_low_bits_of_a_right_one_is_judged_as_itself() {
    let mut tally = Tally::default();
    for (bytes, top) in [(rising(false), -4), (rising(true), CORE_DENSITY)] {
        let asked = Asked::of(&bytes);
        for k in (LEAST_STEP - 1..0).map(|step| top + step) {
            assert!(dense(&bytes, k).is_ok_and(|c| c > 0), "{k}");
            for other in [-4, -2, -1, 1, 2, 3, 8, 29, 33].map(|times| k + 256 * times) {
                asked.any_dense(&mut tally, other, BLOCK);
                assert_ne!(dense(&bytes, other), dense(&bytes, k), "{k} and {other}");
            }
            for other in [-32_767, -256, -2, -1, 1, 2, 255, 256, 32_767].map(|times| k + 65_536 * times) {
                asked.any_dense(&mut tally, other, BLOCK);
                assert_eq!(dense(&bytes, other), Err(K_RANGE), "{k} and {other}");
            }
        }
    }
    tally.assert_codes([ANSWERED, K_RANGE, NONE_DENSE]);
}

#[test]
fn a_claim_with_the_low_bits_of_the_top_density_is_not_shown() {
    for bytes in [rising(false), rising(true)] {
        let (mut tally, asked) = (Tally::default(), Asked::of(&bytes));
        for c in [0, 3, 256, 300, 448, 450, 511] {
            let top = asked.counter.tops[c as usize].density as i32;
            let sheet = asked.sheet(&mut tally, c, ROW * MOST_CONSTRAINTS).expect("a sheet");
            assert_eq!(asked.check(&mut tally, c, &sheet, top), ANSWERED);
            for times in (-260..=260).chain([-32_768, -32_767, 16_384, 32_767]).filter(|times| *times != 0) {
                for claim in [top + 256 * times, top.wrapping_add(65_536 * times)] {
                    assert_eq!(asked.check(&mut tally, c, &sheet, claim), NOT_SHOWN);
                }
            }
        }
    }
}

#[test]
fn a_c_with_the_low_bits_of_a_right_one_is_judged_as_itself() {
    let (mut tally, bytes) = (Tally::default(), rising(true));
    let (asked, room) = (Asked::of(&bytes), ROW * MOST_CONSTRAINTS);
    for c in [0, 1, 3, 44, 128, 192, 194, 254, 255] {
        let sheet = asked.sheet(&mut tally, c, room).expect("a sheet");
        let top = asked.counter.tops[c as usize].density as i32;
        for other in [c + 256, c + 512, c + 65_536, c + 65_792, c + 131_072, c | 1 << 24, c | 1 << 31] {
            asked.one_constraint(&mut tally, other, BLOCK);
            asked.sheet(&mut tally, other, room);
            let code = asked.check(&mut tally, other, &sheet, top);
            assert_eq!(code, if other < 512 { NOT_SHOWN } else { NO_SUCH_CONSTRAINT }, "{c} and {other}");
        }
        let set = |c: u32| asked.counter.tops[c as usize].set;
        assert_ne!(set(c), set(c + 256), "{c} and {} have one answer set", c + 256);
    }
}
