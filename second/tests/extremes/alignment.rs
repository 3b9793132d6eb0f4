//! Drawing, sheet and buffer at each of 16 places in a row: the answers are the same at each, and the bytes round them
//! stay.
use second::codes::*;
use second::questions::{look_over, Counter, BLOCK, COUNTS};
use second::reader::Drawing;
use second::sheet::ROW;
use second::testing::drawings::*;
use second::testing::ffi::in_place;
use second::testing::random::Random;
use second::testing::writer;

const PLACES: usize = 16;
const GUARD: usize = 32;

/// Bytes at a place from an aligned one on, with guard bytes on both sides.
struct Placed {
    block: Vec<u128>,
    start: usize,
    len: usize,
}

impl Placed {
    fn at(place: usize, bytes: &[u8]) -> Placed {
        let (start, len) = (GUARD + place, bytes.len());
        let mut placed = Placed { block: vec![0; (len + PLACES + 2 * GUARD) / 16 + 1], start, len };
        placed.all().iter_mut().enumerate().for_each(|(i, byte)| *byte = (i as u8).wrapping_mul(37));
        placed.bytes().copy_from_slice(bytes);
        assert_eq!(placed.bytes().as_ptr() as usize % PLACES, place);
        placed
    }

    fn all(&mut self) -> &mut [u8] {
        // SAFETY: the words are good for 16 bytes each, and any bytes make a word.
        unsafe { std::slice::from_raw_parts_mut(self.block.as_mut_ptr().cast(), 16 * self.block.len()) }
    }

    fn bytes(&mut self) -> &mut [u8] {
        let (start, len) = (self.start, self.len);
        &mut self.all()[start..start + len]
    }
}

/// A question that writes: how many bytes, and the call.
type Question<'a> = (usize, &'a dyn Fn(&[u8], &mut [u8]) -> u32);

/// The code of a call and the buffer after it, with drawing and buffer at those places.
fn asked(drawing: &[u8], places: (usize, usize), question: &Question) -> (u32, Vec<u8>) {
    let mut drawing = Placed::at(places.0, drawing);
    let mut buffer = Placed::at(places.1, &vec![0xc3; question.0]);
    let before = drawing.block.clone();
    let code = question.1(drawing.bytes(), buffer.bytes());
    assert!(drawing.block == before, "the drawing was written to");
    let written = buffer.bytes().to_vec();
    assert!(Placed::at(places.1, &written).block == buffer.block, "bytes round the buffer were written to");
    (code, written)
}

fn same_at_every_place(drawing: &Drawing) {
    let (bytes, count) = (writer::bytes(drawing), drawing.constraints.len());
    let c = count as u32 - 1;
    let questions: [Question; 6] = [
        (COUNTS, &|drawing, buffer| in_place::look_over(drawing, buffer)),
        (BLOCK, &|drawing, buffer| in_place::one_constraint(drawing, c, buffer)),
        (BLOCK, &|drawing, buffer| in_place::any_dense(drawing, -64, buffer)),
        (BLOCK, &|drawing, buffer| in_place::any_dense(drawing, 8191, buffer)),
        (ROW * count, &|drawing, buffer| in_place::sheet(drawing, c, buffer)),
        (ROW * count - 1, &|drawing, buffer| in_place::sheet(drawing, c, buffer)),
    ];
    let counter = Counter::of(&bytes);
    let wanted = [look_over(&bytes, COUNTS), counter.one_constraint(c, BLOCK), counter.any_dense(-64, BLOCK)];
    for (question, wanted) in questions.iter().zip(wanted) {
        assert_eq!(asked(&bytes, (0, 0), question), (ANSWERED, wanted.written));
    }
    for (question, code) in questions.iter().zip([ANSWERED, ANSWERED, ANSWERED, NONE_DENSE, ANSWERED, TOO_SHORT]) {
        let first = asked(&bytes, (0, 0), question);
        assert_eq!(first.0, code);
        for places in every_two_places() {
            assert!(asked(&bytes, places, question) == first, "{places:?}, {} bytes, {bytes:?}", question.0);
        }
    }
    let sheet = asked(&bytes, (0, 0), &questions[4]).1;
    checked_at_every_place(&bytes, c, &sheet, counter.tops[c as usize].density as i32);
}

fn checked_at_every_place(drawing: &[u8], c: u32, sheet: &[u8], top: i32) {
    for places in every_two_places() {
        let (mut drawing, mut sheet) = (Placed::at(places.0, drawing), Placed::at(places.1, sheet));
        let before = (drawing.block.clone(), sheet.block.clone());
        for (claim, code) in [(top, ANSWERED), (top + 1, NOT_SHOWN)] {
            assert_eq!(in_place::check(drawing.bytes(), c, sheet.bytes(), claim), code, "{places:?}");
        }
        assert!((drawing.block, sheet.block) == before, "the drawing or the sheet was written to");
    }
}

fn every_two_places() -> impl Iterator<Item = (usize, usize)> {
    (0..PLACES).flat_map(|one| (0..PLACES).map(move |other| (one, other)))
}

#[test]
fn the_answers_are_the_same_at_every_alignment() {
    let mut random = Random::from_seed(23);
    same_at_every_place(&distances(2, &[(0, 1)]));
    same_at_every_place(&complete_figure(5));
    same_at_every_place(&random_kinds(&mut random, 20, 60, 3));
    same_at_every_place(&largest(&mut random));
}
