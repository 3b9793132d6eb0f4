//! Many threads at once, each with another question, on drawings and sheets lent to all of them in the same memory:
//! each gets the codes and bytes that one thread alone got, the sheets' too, and what was lent stays as it was.
use second::codes::ANSWERED;
use second::reader::Drawing;
use second::testing::drawings::*;
use second::testing::ffi::in_place;
use second::testing::random::Random;
use second::testing::writer;
use std::sync::Barrier;

const THREADS: usize = 8;
const ROUNDS: usize = 12;

#[derive(Clone, Copy, Debug)]
enum Question {
    LookOver,
    OneConstraint(u32),
    AnyDense(i32),
    Sheet(u32),
    /// Of the lent sheet, which is one for constraint 0.
    Check(u32, i32),
}

use Question::*;

/// The bytes of a drawing and of a sheet.
#[derive(Clone, PartialEq)]
struct Lent {
    drawing: Vec<u8>,
    count: usize,
    sheet: Vec<u8>,
}

impl Lent {
    fn of(drawing: &Drawing) -> Lent {
        let count = drawing.constraints.len();
        let mut lent = Lent { drawing: writer::bytes(drawing), count, sheet: vec![0; 4 * count] };
        assert_eq!(in_place::sheet(&lent.drawing, 0, &mut lent.sheet), ANSWERED);
        lent
    }

    fn questions(&self) -> Vec<Question> {
        let mut block = [0; 20];
        assert_eq!(in_place::one_constraint(&self.drawing, 0, &mut block), ANSWERED);
        let top = i16::from_le_bytes([block[2], block[3]]).into();
        let mut questions = vec![LookOver, Check(0, top), Check(0, top + 1), Check(self.count as u32 - 1, top)];
        questions.extend([-65, -64, -3, top - 1, top, 8191].map(AnyDense));
        for c in [0, self.count / 3, self.count / 2, self.count - 1, self.count] {
            questions.extend([OneConstraint(c as u32), Sheet(c as u32)]);
        }
        questions
    }

    fn every_question(&self) -> Vec<Asked<'_>> {
        let asked = |question| Asked { lent: self, question, alone: self.ask(question) };
        self.questions().into_iter().map(asked).collect()
    }

    /// The code of a question, and its buffer after it.
    fn ask(&self, question: Question) -> (u32, Vec<u8>) {
        let mut buffer = vec![0x5a; 4 * self.count + 24];
        let code = match question {
            LookOver => in_place::look_over(&self.drawing, &mut buffer),
            OneConstraint(c) => in_place::one_constraint(&self.drawing, c, &mut buffer),
            AnyDense(k) => in_place::any_dense(&self.drawing, k, &mut buffer),
            Sheet(c) => in_place::sheet(&self.drawing, c, &mut buffer),
            Check(c, claim) => in_place::check(&self.drawing, c, &self.sheet, claim),
        };
        (code, buffer)
    }
}

/// A question, and the code and buffer that one thread alone got.
#[derive(Clone)]
struct Asked<'a> {
    lent: &'a Lent,
    question: Question,
    alone: (u32, Vec<u8>),
}

#[test]
fn many_threads_on_the_same_memory_get_the_bytes_that_one_gets() {
    let mut random = Random::from_seed(12);
    let mut drawings = vec![complete_figure(4), braced_strip(20), long_chain(128, 4, true), repeated_strip()];
    drawings.extend([largest(&mut random), random_points(&mut random, 128, 253), random_kinds(&mut random, 20, 40, 3)]);
    let lent: Vec<Lent> = drawings.iter().map(Lent::of).collect();
    let before = lent.clone();
    let each: Vec<Vec<Asked>> = lent.iter().map(Lent::every_question).collect();
    each.iter().for_each(|asked| at_once(asked, ROUNDS));
    at_once(&each.concat(), 2);
    assert!(lent == before, "a call wrote to bytes that it was lent to read");
}

/// Every thread asks everything so many times, and starts at a place of its own.
fn at_once(asked: &[Asked], rounds: usize) {
    let start = Barrier::new(THREADS);
    std::thread::scope(|scope| {
        for thread in 0..THREADS {
            let start = &start;
            scope.spawn(move || {
                start.wait();
                let first = thread * asked.len() / THREADS;
                for i in (first..).take(rounds * asked.len()).map(|i| i % asked.len()) {
                    let Asked { lent, question, alone } = &asked[i];
                    assert!(lent.ask(*question) == *alone, "{question:?} on thread {thread}");
                }
            });
        }
    });
}
