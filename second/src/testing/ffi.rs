//! The C library: its declarations, calls on the caller's own bytes, and calls with guard bytes round every buffer.
//!
//! For the last, a buffer is filled with a pattern and lies between guard bytes; a call gives its code and all of these
//! bytes afterwards, and `after` says what they must be. A drawing or sheet is lent as a copy between guard bytes,
//! which must come back as it was; behind it end records stand, so that reading on past its length shows in the answer.
pub const GUARD: usize = 24;

/// The declarations, for calls with pointers of the caller's own.
pub mod c {
    extern "C" {
        pub fn brentivex_look_over(drawing: *const u8, drawing_len: usize, buffer: *mut u8, buffer_len: usize) -> u32;
        pub fn brentivex_one_constraint(
            drawing: *const u8,
            drawing_len: usize,
            c: u32,
            buffer: *mut u8,
            buffer_len: usize,
        ) -> u32;
        pub fn brentivex_any_dense(
            drawing: *const u8,
            drawing_len: usize,
            k: i32,
            buffer: *mut u8,
            buffer_len: usize,
        ) -> u32;
        pub fn brentivex_sheet(
            drawing: *const u8,
            drawing_len: usize,
            c: u32,
            buffer: *mut u8,
            buffer_len: usize,
        ) -> u32;
        pub fn brentivex_check(
            drawing: *const u8,
            drawing_len: usize,
            c: u32,
            sheet: *const u8,
            sheet_len: usize,
            claim: i32,
        ) -> u32;
    }
}

/// Calls on the caller's own bytes, where they lie: nothing is copied and nothing is looked at afterwards.
pub mod in_place {
    use super::c;

    pub fn look_over(drawing: &[u8], buffer: &mut [u8]) -> u32 {
        // SAFETY: the pointers are good for the lengths passed with them, and no buffer overlaps other bytes.
        unsafe { c::brentivex_look_over(drawing.as_ptr(), drawing.len(), buffer.as_mut_ptr(), buffer.len()) }
    }

    pub fn one_constraint(drawing: &[u8], c: u32, buffer: &mut [u8]) -> u32 {
        // SAFETY: as in look_over.
        unsafe { c::brentivex_one_constraint(drawing.as_ptr(), drawing.len(), c, buffer.as_mut_ptr(), buffer.len()) }
    }

    pub fn any_dense(drawing: &[u8], k: i32, buffer: &mut [u8]) -> u32 {
        // SAFETY: as in look_over.
        unsafe { c::brentivex_any_dense(drawing.as_ptr(), drawing.len(), k, buffer.as_mut_ptr(), buffer.len()) }
    }

    pub fn sheet(drawing: &[u8], c: u32, buffer: &mut [u8]) -> u32 {
        // SAFETY: as in look_over.
        unsafe { c::brentivex_sheet(drawing.as_ptr(), drawing.len(), c, buffer.as_mut_ptr(), buffer.len()) }
    }

    pub fn check(drawing: &[u8], c: u32, sheet: &[u8], claim: i32) -> u32 {
        // SAFETY: as in look_over.
        unsafe { c::brentivex_check(drawing.as_ptr(), drawing.len(), c, sheet.as_ptr(), sheet.len(), claim) }
    }
}

/// The code of a call, and the buffer after it with the guard bytes on both sides.
pub struct Outcome {
    pub code: u32,
    pub bytes: Vec<u8>,
}

impl Outcome {
    /// The buffer without its guard bytes.
    pub fn buffer(&self) -> &[u8] {
        &self.bytes[GUARD..self.bytes.len() - GUARD]
    }

    /// The answer block in the buffer: constraint number, density and set.
    pub fn block(&self) -> (usize, i32, u128) {
        let block = self.buffer();
        let [c, density] = [0, 2].map(|at| [block[at], block[at + 1]]);
        let set = block[4..20].try_into().expect("16 bytes");
        (u16::from_le_bytes(c).into(), i16::from_le_bytes(density).into(), u128::from_le_bytes(set))
    }
}

/// The bytes of a buffer of that room and its guard bytes after a call that wrote `written` at its start.
pub fn after(room: usize, fill: u8, written: &[u8]) -> Vec<u8> {
    let mut bytes = pattern(room, fill);
    bytes[GUARD..GUARD + written.len()].copy_from_slice(written);
    bytes
}

pub fn look_over(drawing: &[u8], room: usize, fill: u8) -> Outcome {
    // SAFETY: both pointers are good for the lengths passed with them, and the bytes do not overlap.
    asked(drawing, room, fill, |d, dn, b, bn| unsafe { c::brentivex_look_over(d, dn, b, bn) })
}

pub fn one_constraint(drawing: &[u8], c: u32, room: usize, fill: u8) -> Outcome {
    // SAFETY: as in look_over.
    asked(drawing, room, fill, |d, dn, b, bn| unsafe { c::brentivex_one_constraint(d, dn, c, b, bn) })
}

pub fn any_dense(drawing: &[u8], k: i32, room: usize, fill: u8) -> Outcome {
    // SAFETY: as in look_over.
    asked(drawing, room, fill, |d, dn, b, bn| unsafe { c::brentivex_any_dense(d, dn, k, b, bn) })
}

pub fn sheet(drawing: &[u8], c: u32, room: usize, fill: u8) -> Outcome {
    // SAFETY: as in look_over.
    asked(drawing, room, fill, |d, dn, b, bn| unsafe { c::brentivex_sheet(d, dn, c, b, bn) })
}

pub fn check(drawing: &[u8], c: u32, sheet: &[u8], claim: i32) -> u32 {
    lend(drawing, |d, dn| {
        // SAFETY: as in look_over.
        lend(sheet, |s, sn| unsafe { c::brentivex_check(d, dn, c, s, sn, claim) })
    })
}

fn asked(drawing: &[u8], room: usize, fill: u8, call: impl FnOnce(*const u8, usize, *mut u8, usize) -> u32) -> Outcome {
    let mut bytes = pattern(room, fill);
    let buffer = bytes[GUARD..GUARD + room].as_mut_ptr();
    let code = lend(drawing, |drawing, len| call(drawing, len, buffer, room));
    Outcome { code, bytes }
}

fn lend(lent: &[u8], call: impl FnOnce(*const u8, usize) -> u32) -> u32 {
    let guarded = || {
        let mut bytes = Vec::with_capacity(lent.len() + 2 * GUARD);
        bytes.extend([0xa5; GUARD]);
        bytes.extend(lent);
        bytes.extend([0, 0, 3, 0].iter().cycle().take(GUARD));
        bytes
    };
    let mut bytes = guarded();
    let code = call(bytes[GUARD..GUARD + lent.len()].as_mut_ptr(), lent.len());
    assert!(bytes == guarded(), "a call wrote to bytes that it was lent to read");
    code
}

fn pattern(room: usize, fill: u8) -> Vec<u8> {
    (0..room + 2 * GUARD).map(|i| fill ^ (i as u8).wrapping_mul(37)).collect()
}
