//! Drawings of known build and drawings at random, all within the limits.
use super::random::Random;
use crate::reader::{Constraint, Drawing, Object, MOST_CONSTRAINTS, MOST_OBJECTS};
use crate::table::constraint_weight;

pub const POINT: u8 = 1;
pub const CLUSTER: u8 = 5;
pub const DISTANCE: u8 = 1;
pub const COINCIDENCE: u8 = 3;
pub const SHARED_POINT: u8 = 6;

pub fn object(kind: u8, stated: u8) -> Object {
    Object { kind, stated }
}

pub fn constraint(first: usize, second: usize, kind: u8, stated: u8) -> Constraint {
    Constraint { ends: [first as u16, second as u16], kind, stated }
}

/// Objects of one kind and constraints of one kind, all of table weight.
pub fn plain(kind: u8, count: usize, constraint_kind: u8, pairs: &[(usize, usize)]) -> Drawing {
    let constraints = pairs.iter().map(|&(a, b)| constraint(a, b, constraint_kind, 0)).collect();
    Drawing { objects: vec![object(kind, 0); count], constraints }
}

/// Points and distances of table weight.
pub fn distances(points: usize, pairs: &[(usize, usize)]) -> Drawing {
    plain(POINT, points, DISTANCE, pairs)
}

/// Every pair of the objects from `from` up to `to`.
pub fn every_pair(from: usize, to: usize) -> Vec<(usize, usize)> {
    (from..to).flat_map(|a| (a + 1..to).map(move |b| (a, b))).collect()
}

pub fn complete_figure(points: usize) -> Drawing {
    distances(points, &every_pair(0, points))
}

/// Two rows of points with a rung, two rails and one brace for each cell.
pub fn braced_strip(cells: usize) -> Drawing {
    let mut pairs = vec![(0, 1)];
    for cell in 0..cells {
        let at = 2 * cell;
        pairs.extend([(at, at + 2), (at + 1, at + 3), (at, at + 3), (at + 2, at + 3)]);
    }
    distances(2 * cells + 2, &pairs)
}

/// The longest braced strip, listed over and over until there are 512 distances, on points of stated weight 4.
pub fn repeated_strip() -> Drawing {
    let mut drawing = braced_strip(MOST_OBJECTS / 2 - 1);
    drawing.objects.fill(object(POINT, 4));
    drawing.constraints = drawing.constraints.iter().copied().cycle().take(MOST_CONSTRAINTS).collect();
    drawing
}

/// Two complete figures and a path of `steps` distances from one to the other.
pub fn joined_parts(first: usize, second: usize, steps: usize) -> Drawing {
    let points = first + second + steps - 1;
    let mut pairs = every_pair(0, first);
    pairs.extend(every_pair(first, first + second));
    let path: Vec<usize> = [0].into_iter().chain(first + second..points).chain([first]).collect();
    pairs.extend(path.windows(2).map(|step| (step[0], step[1])));
    distances(points, &pairs)
}

/// A complete figure with a path of distances that hangs on its first point. `first` says whether the path's
/// constraints come first.
pub fn loose_tail(figure: usize, tail: usize, first: bool) -> Drawing {
    let mut path: Vec<(usize, usize)> = Vec::new();
    for step in 0..tail {
        path.push((if step == 0 { 0 } else { figure + step - 1 }, figure + step));
    }
    let complete = every_pair(0, figure);
    let pairs = if first { [path, complete].concat() } else { [complete, path].concat() };
    distances(figure + tail, &pairs)
}

/// A path of coincidences, each as heavy as a point, and then constraints at its first point: a share for these has
/// to be moved along the whole path to the one point with room.
pub fn long_chain(points: usize, extra: usize, backwards: bool) -> Drawing {
    let place = |i: usize| if backwards { points - 1 - i } else { i };
    let mut drawing = plain(POINT, points, COINCIDENCE, &[]);
    drawing.constraints.extend((1..points).map(|i| constraint(place(i - 1), place(i), COINCIDENCE, 0)));
    drawing.constraints.extend((0..extra).map(|_| constraint(place(0), place(1), DISTANCE, 0)));
    drawing
}

/// Points of stated weight 4 and so many distances at random that nearly every point is full.
pub fn heavy_points(random: &mut Random) -> Drawing {
    let pairs: Vec<_> = (0..MOST_CONSTRAINTS - 2).map(|_| pair(random, MOST_OBJECTS)).collect();
    let mut drawing = distances(MOST_OBJECTS, &pairs);
    drawing.objects.fill(object(POINT, 4));
    drawing
}

/// Points and distances at random, some pairs more than once.
pub fn random_points(random: &mut Random, points: usize, count: usize) -> Drawing {
    let pairs: Vec<_> = (0..count).map(|_| pair(random, points)).collect();
    distances(points, &pairs)
}

/// Objects of all kinds and constraints that the table allows between them, one in `often` with a stated weight.
pub fn random_kinds(random: &mut Random, objects: usize, count: usize, often: usize) -> Drawing {
    let objects = (0..objects).map(|_| object(1 + random.below(5) as u8, stated(random, often))).collect();
    let mut drawing = Drawing { objects, constraints: Vec::new() };
    for _ in 0..count {
        if let Some(constraint) = allowed_constraint(random, &drawing.objects, often) {
            drawing.constraints.push(constraint);
        }
    }
    drawing
}

/// The drawing with constraints repeated at random between the same ends, or with the ends exchanged.
pub fn with_parallels(random: &mut Random, mut drawing: Drawing, count: usize) -> Drawing {
    for _ in 0..count.min(MOST_CONSTRAINTS - drawing.constraints.len()) {
        if drawing.constraints.is_empty() {
            break;
        }
        let mut again = random.one_of(&drawing.constraints);
        if random.once_in(2) {
            again.ends.swap(0, 1);
        }
        again.stated = stated(random, 3);
        let at = random.below(drawing.constraints.len() + 1);
        drawing.constraints.insert(at, again);
    }
    drawing
}

/// The drawing with stated weights put in, one in `often`.
pub fn with_stated(random: &mut Random, mut drawing: Drawing, often: usize) -> Drawing {
    drawing.objects.iter_mut().for_each(|object| object.stated = stated(random, often));
    drawing.constraints.iter_mut().for_each(|constraint| constraint.stated = stated(random, often));
    drawing
}

/// A drawing of 5,892 bytes, the largest there is, with all kinds of objects.
pub fn largest(random: &mut Random) -> Drawing {
    let mut drawing = random_kinds(random, MOST_OBJECTS, 0, 4);
    while drawing.constraints.len() < MOST_CONSTRAINTS {
        drawing.constraints.extend(allowed_constraint(random, &drawing.objects, 4));
    }
    drawing
}

fn allowed_constraint(random: &mut Random, objects: &[Object], often: usize) -> Option<Constraint> {
    if objects.len() < 2 {
        return None;
    }
    let (a, b) = pair(random, objects.len());
    let allowed = |kind: &u8| constraint_weight(*kind, objects[a].kind, objects[b].kind).is_some();
    let kinds: Vec<u8> = (1..=7).filter(allowed).collect();
    (!kinds.is_empty()).then(|| constraint(a, b, random.one_of(&kinds), stated(random, often)))
}

fn pair(random: &mut Random, objects: usize) -> (usize, usize) {
    let a = random.below(objects);
    let b = random.below(objects - 1);
    (a, if b < a { b } else { b + 1 })
}

fn stated(random: &mut Random, often: usize) -> u8 {
    match random.once_in(often) {
        true if random.once_in(4) => random.within(1, 15) as u8,
        true => random.within(1, 4) as u8,
        false => 0,
    }
}
