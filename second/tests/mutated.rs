//! One million mutated drawings through all five questions, with guard bytes round every buffer. A refused drawing has
//! the second program's code from every question.
//!
//! Of an accepted one a constraint is asked, and any dense near its density. With at most FEW_OBJECTS objects every
//! byte of both answers is the second program's, which tries every set. With more, the constraint's block is that of a
//! minimum cut, but of any dense only this is seen: a constraint that it gives has its own block and a density above K,
//! and is not numbered above the asked one where that is dense; where it gives none, the asked one is not dense.
//!
//! With any number of objects the library's sheet is sound and claims the density of its answer set. That shows that no
//! set that holds the constraint is denser; it does not show that the answer set is the least of that density.
mod common;
use common::Tally;
use second::answers::FEW_OBJECTS;
use second::codes::*;
use second::cut;
use second::net::{members, Net, Top};
use second::questions::{Answer, Counter, BLOCK};
use second::reader::{read, Drawing};
use second::sheet::{claim, ROW};
use second::testing::drawings::*;
use second::testing::ffi::{self, Outcome};
use second::testing::mutants::Source;
use second::testing::random::Random;
use second::testing::samples::{a_to_l, figures};

const MUTANTS: usize = 1_000_000;
const ONE_IN_LARGE: usize = 200;

#[test]
fn a_million_mutated_drawings() {
    let mut random = Random::from_seed(11);
    let mut tally = Tally::default();
    let (small, large) = (small_drawings(&mut random), large_drawings(&mut random));
    let (mut accepted, mut few) = (0, 0);
    for _ in 0..MUTANTS {
        let from = if random.once_in(ONE_IN_LARGE) { &large } else { &small };
        let chosen = random.below(from.len());
        let bytes = from[chosen].mutant(&mut random);
        match read(&bytes) {
            Ok(drawing) => {
                let asked = Accepted::of(&bytes, &drawing);
                accepted += 1;
                few += usize::from(asked.few.is_some());
                asked.every_question(&mut tally, &mut random);
            }
            Err(code) => refused(&mut tally, &mut random, &bytes, code),
        }
    }
    assert!(few > MUTANTS / 10 && accepted - few > MUTANTS / 50, "{accepted} accepted, {few} of few objects");
    tally.assert_codes((0..=12).chain([32, 33]));
}

fn small_drawings(random: &mut Random) -> Vec<Source> {
    let mut drawings: Vec<Drawing> = a_to_l().into_iter().chain(figures()).map(|sample| sample.drawing).collect();
    for size in 2..=20 {
        drawings.push(random_kinds(random, size, 2 * size, 3));
    }
    drawings.iter().map(Source::of).collect()
}

/// Drawings at the limits, so that a record put in is one too many.
fn large_drawings(random: &mut Random) -> Vec<Source> {
    let drawings = [largest(random), random_points(random, 128, 253), distances(128, &[]), repeated_strip()];
    drawings.iter().map(Source::of).collect()
}

/// Every question refuses the bytes with this code, whatever else is wrong with the call, and writes nothing.
fn refused(tally: &mut Tally, random: &mut Random, bytes: &[u8], code: u32) {
    let (c, k, room) = (random.one_of(&[0, 1, 65_536]), random.one_of(&[-3, 8192]), random.one_of(&[0, 4, BLOCK]));
    let fill = random.byte();
    let unwritten = |tally: &mut Tally, found: Outcome| same(tally, bytes, &found, code, &[], room, fill);
    unwritten(tally, ffi::look_over(bytes, room, fill));
    unwritten(tally, ffi::one_constraint(bytes, c, room, fill));
    unwritten(tally, ffi::any_dense(bytes, k, room, fill));
    unwritten(tally, ffi::sheet(bytes, c, room, fill));
    assert_eq!(ffi::check(bytes, c, &[0; BLOCK][..room], 0), code, "check of {bytes:?}");
}

/// The call gave this code and wrote these bytes and no other.
fn same(tally: &mut Tally, bytes: &[u8], found: &Outcome, code: u32, written: &[u8], room: usize, fill: u8) {
    let wanted = Answer { code, written: written.to_vec() };
    tally.compare(found, &wanted, room, fill, || format!("room {room}, {bytes:?}"));
}

/// An accepted drawing, with the second program's count of it where there are few objects.
struct Accepted<'a> {
    bytes: &'a [u8],
    net: Net,
    few: Option<Counter>,
}

impl Accepted<'_> {
    fn of<'a>(bytes: &'a [u8], drawing: &Drawing) -> Accepted<'a> {
        let few = (drawing.objects.len() <= FEW_OBJECTS).then(|| Counter::of(bytes));
        Accepted { bytes, net: Net::of(drawing), few }
    }

    /// The second program's top of c: by trying every set where there are few objects, by a cut where there are many.
    fn top(&self, c: usize) -> Top {
        self.few.as_ref().map_or_else(|| cut::top(&self.net, c), |counter| counter.tops[c])
    }

    fn every_question(&self, tally: &mut Tally, random: &mut Random) {
        let (objects, count) = (self.net.objects.len(), self.net.constraints.len());
        let counts = [(objects as u16).to_le_bytes(), (count as u16).to_le_bytes()].concat();
        self.written(tally, random, &counts, &|room, fill| ffi::look_over(self.bytes, room, fill));
        let none = random.one_of(&[count as u32, 65_536, u32::MAX]);
        let rows = vec![0; ROW * count];
        self.unwritten(tally, NO_SUCH_CONSTRAINT, &|room, fill| ffi::one_constraint(self.bytes, none, room, fill));
        self.unwritten(tally, NO_SUCH_CONSTRAINT, &|room, fill| ffi::sheet(self.bytes, none, room, fill));
        assert_eq!(ffi::check(self.bytes, none, &rows, 0), NO_SUCH_CONSTRAINT, "{:?}", self.bytes);
        self.unwritten(tally, K_RANGE, &|room, fill| ffi::any_dense(self.bytes, 8192, room, fill));
        if count == 0 {
            self.unwritten(tally, NONE_DENSE, &|room, fill| ffi::any_dense(self.bytes, -64, room, fill));
        } else {
            let c = random.below(count);
            let density = self.one_constraint(tally, random, c);
            self.sheet(tally, random, c, density);
            self.any_dense(tally, random, c, density);
        }
    }

    /// The block of c is the second program's, and that of a set that holds c; answers its density.
    fn one_constraint(&self, tally: &mut Tally, random: &mut Random, c: usize) -> i32 {
        let found = self.found(c);
        let (number, density, set) = found.block();
        let block = found.buffer();
        self.written(tally, random, block, &|room, fill| ffi::one_constraint(self.bytes, c as u32, room, fill));
        assert!(self.net.holds(set, c), "the set holds {c} of {:?}", self.bytes);
        assert!(members(set).all(|v| v < self.net.objects.len()), "unused bits of {c} of {:?}", self.bytes);
        let wanted = (c, self.net.density(set));
        assert_eq!((number, i64::from(density)), wanted, "constraint {c} of {:?}", self.bytes);
        assert_eq!(Top { density: density.into(), set }, self.top(c), "constraint {c} of {:?}", self.bytes);
        density
    }

    /// The sheet for c is sound and its claim is the density; the check accepts it so and not with another claim.
    fn sheet(&self, tally: &mut Tally, random: &mut Random, c: usize, density: i32) {
        let room = ROW * self.net.constraints.len();
        let sheet = ffi::sheet(self.bytes, c as u32, room, 0).buffer().to_vec();
        assert_eq!(claim(&self.net, c, &sheet), Some(i64::from(density)), "sheet {c} of {:?}", self.bytes);
        self.written(tally, random, &sheet, &|room, fill| ffi::sheet(self.bytes, c as u32, room, fill));
        let other = density + random.one_of(&[-1, 1, 65_536]);
        for (sheet, claim, code) in
            [(&sheet[..], density, ANSWERED), (&sheet[..], other, NOT_SHOWN), (&sheet[..room - 1], density, TOO_SHORT)]
        {
            assert_eq!(ffi::check(self.bytes, c as u32, sheet, claim), code, "check {c} of {:?}", self.bytes);
            tally.count(code);
        }
    }

    /// Near the density of c: the answer is the second program's where there are few objects; where there are many, a
    /// dense constraint has its own block and is c or lower where c is dense.
    fn any_dense(&self, tally: &mut Tally, random: &mut Random, c: usize, density: i32) {
        let k = density + random.within(0, 2) as i32 - 1;
        let found = ffi::any_dense(self.bytes, k, BLOCK, 0);
        if let Some(counter) = &self.few {
            let wanted = counter.any_dense(k, BLOCK);
            tally.compare(&found, &wanted, BLOCK, 0, || format!("K {k}, {:?}", self.bytes));
        }
        if found.code == NONE_DENSE {
            assert!(density <= k, "none at {k} of {:?}", self.bytes);
            self.unwritten(tally, NONE_DENSE, &|room, fill| ffi::any_dense(self.bytes, k, room, fill));
            return;
        }
        let (dense, _, _) = found.block();
        let own = self.found(dense);
        let (_, top, _) = own.block();
        let first = density <= k || dense <= c;
        assert!(top > k && first && dense < self.net.constraints.len(), "{k} of {:?}", self.bytes);
        self.written(tally, random, own.buffer(), &|room, fill| ffi::any_dense(self.bytes, k, room, fill));
    }

    /// What the library answers for c.
    fn found(&self, c: usize) -> Outcome {
        let found = ffi::one_constraint(self.bytes, c as u32, BLOCK, 0);
        assert_eq!(found.code, ANSWERED, "constraint {c} of {:?}", self.bytes);
        found
    }

    /// The call writes these bytes where there is room for them, and is refused where a byte is missing.
    fn written(&self, tally: &mut Tally, random: &mut Random, bytes: &[u8], call: &dyn Fn(usize, u8) -> Outcome) {
        let (fill, more) = (random.byte(), random.below(3));
        let room = bytes.len() + more;
        same(tally, self.bytes, &call(room, fill), ANSWERED, bytes, room, fill);
        let short = bytes.len() - 1;
        same(tally, self.bytes, &call(short, fill), TOO_SHORT, &[], short, fill);
    }

    fn unwritten(&self, tally: &mut Tally, code: u32, call: &dyn Fn(usize, u8) -> Outcome) {
        same(tally, self.bytes, &call(BLOCK, 0x3c), code, &[], BLOCK, 0x3c);
    }
}
