//! What the tests of the library share: calls compared with the second program, and a tally of the codes met.
#![allow(dead_code)]
pub mod asked;
use second::questions::{self, Answer};
use second::testing::ffi::{self, Outcome};

/// How many calls were compared, and which codes they gave.
#[derive(Default)]
pub struct Tally {
    pub calls: usize,
    codes: std::collections::BTreeSet<u32>,
}

impl Tally {
    pub fn count(&mut self, code: u32) {
        self.calls += 1;
        self.codes.insert(code);
    }

    pub fn assert_codes(&self, wanted: impl IntoIterator<Item = u32>) {
        let wanted: Vec<u32> = wanted.into_iter().collect();
        let met: Vec<u32> = self.codes.iter().copied().collect();
        assert_eq!(met, wanted, "the codes that occurred");
    }

    /// Compares a call's code and every byte of its buffer and guard bytes with what is wanted.
    pub fn compare(&mut self, found: &Outcome, wanted: &Answer, room: usize, fill: u8, asked: impl Fn() -> String) {
        let same = found.code == wanted.code && found.bytes == ffi::after(room, fill, &wanted.written);
        assert!(same, "{}\nfound {} {:?}\nwanted {wanted:?}", asked(), found.code, found.buffer());
        self.count(found.code);
    }

    /// Asks the library and the second program to look a drawing over.
    pub fn look_over(&mut self, drawing: &[u8], room: usize) -> u32 {
        let fill = self.calls as u8;
        let wanted = questions::look_over(drawing, room);
        let found = ffi::look_over(drawing, room, fill);
        self.compare(&found, &wanted, room, fill, || format!("look over, room {room}, {drawing:?}"));
        found.code
    }
}
