//! One drawing, one answer: a drawing listed in another way (objects renumbered, constraints reordered, ends exchanged,
//! constraints on one pair joined) gets the same densities, the image of each answer set, and none at the same K.
use second::net::{members, Net};
use second::reader::{Drawing, MOST_WEIGHT};
use second::testing::drawings::*;
use second::testing::random::Random;
use second::testing::samples::{a_to_l, figures};
use second::testing::{ffi, writer};

/// Another listing, and where each object and each constraint stands in it.
struct Listing {
    drawing: Drawing,
    object: Vec<usize>,
    constraint: Vec<usize>,
}

impl Listing {
    fn same(drawing: &Drawing) -> Listing {
        let object = (0..drawing.objects.len()).collect();
        let constraint = (0..drawing.constraints.len()).collect();
        Listing { drawing: drawing.clone(), object, constraint }
    }

    fn renumbered(mut self, random: &mut Random) -> Listing {
        let place = random.order(self.drawing.objects.len());
        let before = self.drawing.objects.clone();
        before.iter().enumerate().for_each(|(i, &object)| self.drawing.objects[place[i]] = object);
        for constraint in &mut self.drawing.constraints {
            constraint.ends = constraint.ends.map(|end| place[usize::from(end)] as u16);
        }
        self.object.iter_mut().for_each(|i| *i = place[*i]);
        self
    }

    fn reordered(mut self, random: &mut Random) -> Listing {
        let place = random.order(self.drawing.constraints.len());
        let before = self.drawing.constraints.clone();
        before.iter().enumerate().for_each(|(c, &constraint)| self.drawing.constraints[place[c]] = constraint);
        self.constraint.iter_mut().for_each(|c| *c = place[*c]);
        self
    }

    fn exchanged(mut self, random: &mut Random) -> Listing {
        self.drawing
            .constraints
            .iter_mut()
            .filter(|_| random.once_in(2))
            .for_each(|constraint| constraint.ends.swap(0, 1));
        self
    }

    /// Joins constraints on one pair while the sum of their weights stays at most 15.
    fn joined(mut self) -> Listing {
        let mut at = 0;
        while at < self.drawing.constraints.len() {
            match self.earlier_partner(at) {
                Some((partner, weight)) => {
                    self.drawing.constraints[partner].stated = weight;
                    self.drawing.constraints.remove(at);
                    for c in &mut self.constraint {
                        *c = if *c == at { partner } else { *c - usize::from(*c > at) };
                    }
                }
                None => at += 1,
            }
        }
        self
    }

    fn earlier_partner(&self, at: usize) -> Option<(usize, u8)> {
        let constraints = Net::of(&self.drawing).constraints;
        let [a, b] = constraints[at].ends;
        let partner = (0..at).find(|&c| {
            let same = constraints[c].ends == [a, b] || constraints[c].ends == [b, a];
            same && constraints[c].weight + constraints[at].weight <= i64::from(MOST_WEIGHT)
        })?;
        Some((partner, (constraints[partner].weight + constraints[at].weight) as u8))
    }
}

/// The library's answers for each constraint of a drawing: density and set.
fn answers(drawing: &[u8], count: usize) -> Vec<(i32, u128)> {
    let answer = |c| {
        let found = ffi::one_constraint(drawing, c as u32, 20, 0);
        assert_eq!(found.code, 0);
        let (_, density, set) = found.block();
        (density, set)
    };
    (0..count).map(answer).collect()
}

fn correspond(drawing: &Drawing, listing: &Listing) {
    let (bytes, other_bytes) = (writer::bytes(drawing), writer::bytes(&listing.drawing));
    let found = answers(&bytes, drawing.constraints.len());
    let other = answers(&other_bytes, listing.drawing.constraints.len());
    for (c, (density, set)) in found.iter().enumerate() {
        let image = members(*set).fold(0u128, |image, i| image | 1 << listing.object[i]);
        assert_eq!(other[listing.constraint[c]], (*density, image), "constraint {c} of {drawing:?}");
    }
    let near = found.iter().flat_map(|(density, _)| [density - 1, *density]);
    for k in near.chain([-64, -4, -3, 8191]) {
        let code = |bytes| ffi::any_dense(bytes, k, 20, 0).code;
        assert_eq!(code(&bytes), code(&other_bytes), "K {k} of {drawing:?}");
    }
}

fn every_listing(random: &mut Random, drawing: &Drawing) {
    let same = || Listing::same(drawing);
    correspond(drawing, &same().renumbered(random));
    correspond(drawing, &same().reordered(random));
    correspond(drawing, &same().exchanged(random));
    correspond(drawing, &same().joined());
    correspond(drawing, &same().renumbered(random).exchanged(random).reordered(random).joined());
}

#[test]
fn listings_of_known_drawings_correspond() {
    let mut random = Random::from_seed(6);
    for sample in a_to_l().iter().chain(&figures()) {
        (0..20).for_each(|_| every_listing(&mut random, &sample.drawing));
    }
}

#[test]
fn listings_of_random_drawings_correspond() {
    let mut random = Random::from_seed(7);
    let mut joined = 0;
    for round in 0..1_500 {
        let (objects, count) = (random.within(2, 14), random.within(1, 24));
        let drawing = match round % 2 {
            0 => random_kinds(&mut random, objects, count, 4),
            _ => random_points(&mut random, objects, count),
        };
        let drawing = with_parallels(&mut random, drawing, 4);
        joined += usize::from(Listing::same(&drawing).joined().drawing != drawing);
        every_listing(&mut random, &drawing);
    }
    assert!(joined > 500, "{joined} drawings with constraints to join");
}

#[test]
fn listings_of_large_drawings_correspond() {
    let mut random = Random::from_seed(8);
    let drawings = [braced_strip(63), long_chain(100, 3, false), loose_tail(6, 122, true), largest(&mut random)];
    for drawing in drawings {
        let all =
            Listing::same(&drawing).renumbered(&mut random).exchanged(&mut random).reordered(&mut random).joined();
        correspond(&drawing, &all);
    }
}
