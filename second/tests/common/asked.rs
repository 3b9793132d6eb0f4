//! The questions beside look over, asked of the library and compared with the second program.
use super::Tally;
use second::codes::ANSWERED;
use second::questions::{Answer, Counter, BLOCK};
use second::sheet::{claim, ROW};
use second::testing::{ffi, random::Random};

pub const NUMBERS_OF_NO_CONSTRAINT: [u32; 4] = [65_536, 1 << 31, u32::MAX, u32::MAX - 65_535];
pub const KS: [i32; 10] = [-65, -64, -4, -3, -2, 0, 8191, 8192, i32::MIN, i32::MAX];

/// A drawing with the second program's count of it.
pub struct Asked<'a> {
    pub bytes: &'a [u8],
    pub counter: Counter,
}

impl Asked<'_> {
    pub fn of(bytes: &[u8]) -> Asked<'_> {
        Asked { bytes, counter: Counter::of(bytes) }
    }

    pub fn one_constraint(&self, tally: &mut Tally, c: u32, room: usize) {
        let fill = tally.calls as u8;
        let found = ffi::one_constraint(self.bytes, c, room, fill);
        let wanted = self.counter.one_constraint(c, room);
        tally.compare(&found, &wanted, room, fill, || format!("constraint {c}, room {room}, {:?}", self.bytes));
    }

    pub fn any_dense(&self, tally: &mut Tally, k: i32, room: usize) {
        let fill = tally.calls as u8;
        let found = ffi::any_dense(self.bytes, k, room, fill);
        let wanted = self.counter.any_dense(k, room);
        tally.compare(&found, &wanted, room, fill, || format!("K {k}, room {room}, {:?}", self.bytes));
    }

    /// Asks for a sheet: it must be sound with the top density as its claim, and the rest of the buffer as it was.
    pub fn sheet(&self, tally: &mut Tally, c: u32, room: usize) -> Option<Vec<u8>> {
        let fill = tally.calls as u8;
        let found = ffi::sheet(self.bytes, c, room, fill);
        let code = self.counter.sheet_code(c, room);
        let rows = if code == ANSWERED { ROW * self.counter.tops.len() } else { 0 };
        let wanted = Answer { code, written: found.buffer()[..rows].to_vec() };
        tally.compare(&found, &wanted, room, fill, || format!("sheet {c}, room {room}, {:?}", self.bytes));
        let net = self.counter.net().filter(|_| code == ANSWERED)?;
        let top = self.counter.tops[c as usize].density;
        assert_eq!(claim(net, c as usize, &wanted.written), Some(top), "sheet {c} of {:?}", self.bytes);
        Some(wanted.written)
    }

    pub fn check(&self, tally: &mut Tally, c: u32, sheet: &[u8], claim: i32) -> u32 {
        let found = ffi::check(self.bytes, c, sheet, claim);
        let wanted = self.counter.check(c, sheet, claim);
        assert_eq!(found, wanted, "check {c}, claim {claim}, sheet {sheet:?}, {:?}", self.bytes);
        tally.count(found);
        found
    }

    /// All five questions, with good and bad numbers and rooms. Of many constraints a few are asked.
    pub fn every_question(&self, tally: &mut Tally, random: &mut Random) {
        let count = self.counter.tops.len();
        tally.look_over(self.bytes, random.one_of(&[0, 3, 4, 4, 4, 9]));
        let mut asked: Vec<u32> = random.order(count).iter().map(|&c| c as u32).take(10).collect();
        asked.push(count as u32);
        asked.push(random.one_of(&NUMBERS_OF_NO_CONSTRAINT) | random.below(count + 1) as u32);
        for c in asked {
            self.one_constraint(tally, c, random.one_of(&[0, 19, 20, 20, 20, 20, 21, 33]));
            let room = ROW * count + random.one_of(&[0, 0, 0, 1, 7]);
            self.sheet(tally, c, room.saturating_sub(random.one_of(&[0, 0, 0, 1, room])));
            let sheet = random.bytes(ROW * count);
            self.check(tally, c, &sheet[random.one_of(&[0, 0, sheet.len().min(1)])..], 0);
        }
        for k in KS {
            self.any_dense(tally, k, BLOCK);
        }
        self.any_dense(tally, random.one_of(&KS), random.one_of(&[0, 19, 21, 40]));
        if count > 0 {
            let near = self.counter.tops[random.below(count)].density as i32;
            (near - 1..=near + 1).for_each(|k| self.any_dense(tally, k, BLOCK));
            let c = random.below(count) as u32;
            self.sheets(tally, random, c);
        }
    }

    /// The library's sheet for c is accepted with its claim. With other claims or altered it is judged as the second
    /// program judges it.
    pub fn sheets(&self, tally: &mut Tally, random: &mut Random, c: u32) {
        let Some(sheet) = self.sheet(tally, c, ROW * self.counter.tops.len()) else { return };
        let top = self.counter.tops[c as usize].density as i32;
        assert_eq!(self.check(tally, c, &sheet, top), ANSWERED);
        assert_eq!(self.check(tally, c, &[&sheet[..], &[255; 9]].concat(), top), ANSWERED);
        for claim in [top - 1, top + 1, top + 65_536, top - 65_536, !top, i32::MIN, i32::MAX] {
            assert_ne!(self.check(tally, c, &sheet, claim), ANSWERED);
        }
        for short in [0, ROW - 1, sheet.len() - 1] {
            self.check(tally, c, &sheet[..short], top);
        }
        self.check(tally, (c + 1) % self.counter.tops.len() as u32, &sheet, top);
        self.altered(tally, random, c, &sheet);
    }

    fn altered(&self, tally: &mut Tally, random: &mut Random, c: u32, sheet: &[u8]) {
        let Some(net) = self.counter.net() else { return };
        let shares = sheet.len() / 2;
        let share = |sheet: &[u8], i: usize| u16::from_le_bytes([sheet[2 * i], sheet[2 * i + 1]]);
        for _ in 0..10 {
            let mut changed = sheet.to_vec();
            let mut put = |i: usize, share: u16| changed[2 * i..2 * i + 2].copy_from_slice(&share.to_le_bytes());
            let i = random.below(shares);
            let (one, other) = (share(sheet, i), share(sheet, i ^ 1));
            match random.below(8) {
                0 => put(i, one.wrapping_add(1)),
                1 => put(i, one.saturating_sub(1)),
                2 => (0..2).for_each(|side| put(2 * c as usize + side, side as u16)),
                3 => [(i, other), (i ^ 1, one)].into_iter().for_each(|(i, share)| put(i, share)),
                4 => [(i, one + other), (i ^ 1, 0)].into_iter().for_each(|(i, share)| put(i, share)),
                5 => [(i, 65_535), (i ^ 1, random.below(3) as u16)].into_iter().for_each(|(i, share)| put(i, share)),
                6 => (0..shares).for_each(|i| put(i, 0)),
                _ => (0..shares).for_each(|i| put(i, u16::from(random.once_in(6)))),
            }
            let top = self.counter.tops[c as usize].density;
            let claimed = claim(net, c as usize, &changed).unwrap_or(top) as i32;
            self.check(tally, c, &changed, claimed);
            self.check(tally, c, &changed, claimed + 1);
        }
    }
}
