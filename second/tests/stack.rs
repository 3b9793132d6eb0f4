//! The stack that the header names is enough: the questions on drawings with the longest routes, on a thread with no
//! more than that and what the thread itself and the test's own calls take.
use second::reader::Drawing;
use second::testing::drawings::*;
use second::testing::ffi;
use second::testing::random::Random;
use second::testing::writer;
use std::path::PathBuf;
use std::thread;

const OWN: usize = 16 * 1024;

#[test]
fn the_stack_that_the_header_names_is_enough() {
    let mut random = Random::from_seed(13);
    let mut drawings = vec![braced_strip(63), repeated_strip(), loose_tail(6, 122, true)];
    drawings.extend([false, true].map(|backwards| long_chain(128, 4, backwards)));
    drawings.extend([largest(&mut random), heavy_points(&mut random), random_points(&mut random, 128, 253)]);
    let lent = |drawing: &Drawing| (writer::bytes(drawing), drawing.constraints.len());
    let drawings: Vec<(Vec<u8>, usize)> = drawings.iter().map(lent).collect();
    let asking = move || drawings.iter().for_each(|(bytes, count)| ask(bytes, *count));
    let started = thread::Builder::new().stack_size(named_by_the_header() + OWN).spawn(asking);
    started.expect("a thread starts").join().expect("the calls end");
}

fn ask(bytes: &[u8], count: usize) {
    assert_eq!(ffi::look_over(bytes, 4, 0).code, 0);
    assert_eq!(ffi::any_dense(bytes, 8191, 20, 0).code, 32);
    for c in 0..count as u32 {
        assert_eq!(ffi::one_constraint(bytes, c, 20, 0).code, 0);
        let sheet = ffi::sheet(bytes, c, 4 * count, 0);
        assert_eq!((sheet.code, ffi::check(bytes, c, sheet.buffer(), i32::MAX)), (0, 33));
    }
}

/// The number of bytes in the header's line `Stack: at most N KB`.
fn named_by_the_header() -> usize {
    let header = PathBuf::from(env!("CARGO_MANIFEST_DIR")).join("../include/brentivex.h");
    let text = std::fs::read_to_string(header).expect("the header is there");
    let line = text.lines().find_map(|line| line.strip_prefix(" * Stack: at most ")).expect("the line is there");
    1024 * line.strip_suffix(" KB").and_then(|number| number.parse::<usize>().ok()).expect("a number of KB")
}
