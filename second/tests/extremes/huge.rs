//! Lengths that 32 bits do not hold: drawing, sheet and buffer of 4 GB or 8 GB and a little, of which the most is never
//! touched.
use second::codes::*;
use second::net::Net;
use second::questions::{self, Counter, BLOCK, COUNTS};
use second::reader::read;
use second::sheet::{claim, ROW};
use second::testing::drawings::{complete_figure, distances};
use second::testing::ffi::in_place;
use second::testing::writer;
use std::ffi::c_void;
use std::ops::{Deref, DerefMut};
use std::ptr::null_mut;

const FOUR_GB: usize = 1 << 32;
/// How far the bytes behind an answer, and the last ones, are looked at.
const NEAR: usize = 1 << 16;

extern "C" {
    fn mmap(at: *mut c_void, len: usize, allowed: i32, flags: i32, file: i32, offset: i64) -> *mut c_void;
    fn munmap(start: *mut c_void, len: usize) -> i32;
}

/// Zeros that take no memory before they are written to.
struct Zeros {
    start: *mut u8,
    len: usize,
}

impl Zeros {
    /// Readable and writable (3), private (0x2), of no file (0x20), and not set aside (0x4000).
    fn new(len: usize) -> Zeros {
        // SAFETY: a new mapping at a place that the system chooses.
        let start = unsafe { mmap(null_mut(), len, 3, 0x4022, -1, 0) };
        assert!(start as isize != -1, "no {len} bytes of address space");
        Zeros { start: start.cast(), len }
    }

    /// The bytes, and zeros behind them up to that length.
    fn behind(bytes: &[u8], len: usize) -> Zeros {
        let mut zeros = Zeros::new(len);
        zeros[..bytes.len()].copy_from_slice(bytes);
        zeros
    }

    /// What is written at the start. Behind it and at the end there are zeros.
    fn written(&self, len: usize) -> &[u8] {
        let (written, rest) = self.split_at(len);
        assert!([&rest[..NEAR], &rest[rest.len() - NEAR..]].concat() == vec![0; 2 * NEAR], "the rest was written to");
        written
    }
}

impl Deref for Zeros {
    type Target = [u8];

    fn deref(&self) -> &[u8] {
        // SAFETY: the mapping is good for its length.
        unsafe { std::slice::from_raw_parts(self.start, self.len) }
    }
}

impl DerefMut for Zeros {
    fn deref_mut(&mut self) -> &mut [u8] {
        // SAFETY: as above, and no one else has it.
        unsafe { std::slice::from_raw_parts_mut(self.start, self.len) }
    }
}

impl Drop for Zeros {
    fn drop(&mut self) {
        // SAFETY: the mapping is this one's own.
        unsafe { munmap(self.start.cast(), self.len) };
    }
}

#[test]
fn a_drawing_that_is_accepted_but_for_4_gb_behind_it_is_refused_9() {
    for bytes in [distances(0, &[]), complete_figure(6)].iter().map(writer::bytes) {
        assert_eq!(questions::look_over(&bytes, COUNTS).code, ANSWERED);
        for len in [FOUR_GB, FOUR_GB + bytes.len(), 2 * FOUR_GB + bytes.len()] {
            let drawing = Zeros::behind(&bytes, len);
            assert_eq!(questions::look_over(&drawing, COUNTS).code, BYTES_AFTER_END);
            let mut buffer = [7; 100];
            assert_eq!(in_place::look_over(&drawing, &mut buffer), BYTES_AFTER_END);
            assert_eq!(in_place::one_constraint(&drawing, 0, &mut buffer), BYTES_AFTER_END);
            assert_eq!(in_place::any_dense(&drawing, -3, &mut buffer), BYTES_AFTER_END);
            assert_eq!(in_place::sheet(&drawing, 0, &mut buffer), BYTES_AFTER_END);
            assert_eq!(in_place::check(&drawing, 0, &[0; 100], 0), BYTES_AFTER_END);
            assert_eq!(buffer, [7; 100]);
        }
    }
}

/// Lengths of which the low 32 bits are too few bytes for any answer.
#[test]
fn a_buffer_or_sheet_of_4_gb_is_long_enough() {
    let bytes = writer::bytes(&complete_figure(6));
    let (counter, net) = (Counter::of(&bytes), Net::of(&read(&bytes).expect("an accepted drawing")));
    let rows = ROW * net.constraints.len();
    for len in [FOUR_GB, FOUR_GB + 3, 2 * FOUR_GB + 1] {
        let zeros = || Zeros::new(len);
        let (mut counts, mut block, mut dense, mut sheet) = (zeros(), zeros(), zeros(), zeros());
        assert_eq!(in_place::look_over(&bytes, &mut counts), ANSWERED);
        assert_eq!(counts.written(COUNTS), questions::look_over(&bytes, len).written);
        assert_eq!(in_place::one_constraint(&bytes, 14, &mut block), ANSWERED);
        assert_eq!(block.written(BLOCK), counter.one_constraint(14, len).written);
        assert_eq!(in_place::any_dense(&bytes, -4, &mut dense), ANSWERED);
        assert_eq!(dense.written(BLOCK), counter.any_dense(-4, len).written);
        assert_eq!(in_place::sheet(&bytes, 14, &mut sheet), ANSWERED);
        let top = counter.tops[14].density;
        assert_eq!(claim(&net, 14, sheet.written(rows)), Some(top));
        assert_eq!(in_place::check(&bytes, 14, &sheet, top as i32), ANSWERED);
        assert_eq!(in_place::check(&bytes, 14, &sheet, top as i32 + 1), NOT_SHOWN);
    }
}
