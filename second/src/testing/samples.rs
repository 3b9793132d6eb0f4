//! Drawings with known results: A to L of document 01, and figures from the documents that it rests on.
use super::drawings::*;
use crate::reader::Drawing;

/// Results: constraint, top density, members; and at a K the dense constraint, or none.
pub struct Sample {
    pub name: &'static str,
    pub drawing: Drawing,
    pub tops: Vec<(usize, i64, Vec<usize>)>,
    pub dense: Vec<(i32, Option<usize>)>,
}

fn sample(name: &'static str, drawing: Drawing) -> Sample {
    Sample { name, drawing, tops: Vec::new(), dense: Vec::new() }
}

impl Sample {
    fn top(mut self, c: usize, density: i64, members: &[usize]) -> Sample {
        self.tops.push((c, density, members.to_vec()));
        self
    }

    /// Every constraint has this density and the same members.
    fn each(self, density: i64, members: &[usize]) -> Sample {
        (0..self.drawing.constraints.len()).fold(self, |sample, c| sample.top(c, density, members))
    }

    /// Every constraint has this density with its own two ends.
    fn each_own(self, density: i64) -> Sample {
        let constraints = self.drawing.constraints.clone();
        constraints.iter().enumerate().fold(self, |sample, (c, constraint)| {
            let mut ends = constraint.ends.map(usize::from);
            ends.sort();
            sample.top(c, density, &ends)
        })
    }

    fn dense(mut self, k: i32, c: usize) -> Sample {
        self.dense.push((k, Some(c)));
        self
    }

    fn none(mut self, k: i32) -> Sample {
        self.dense.push((k, None));
        self
    }
}

pub fn a_to_l() -> Vec<Sample> {
    let d = every_pair(0, 4);
    let with = |more: &[(usize, usize)]| [&d, more].concat();
    let mut l = distances(2, &[(0, 1)]);
    l.constraints[0].stated = 3;
    let triangle = [(0, 1), (1, 2), (0, 2)];
    vec![
        sample("A", distances(0, &[])).none(-3),
        sample("B", distances(2, &[(0, 1)])).top(0, -3, &[0, 1]),
        sample("C", distances(3, &triangle)).each_own(-3).none(-3).dense(-4, 0),
        sample("D", distances(4, &d)).each(-2, &[0, 1, 2, 3]).none(-2),
        sample("E", distances(4, &d[..5])).each_own(-3),
        sample("F", plain(CLUSTER, 3, SHARED_POINT, &triangle)).each(-3, &[0, 1, 2]),
        sample("G", plain(POINT, 2, COINCIDENCE, &[(0, 1)])).top(0, -2, &[0, 1]),
        sample("H", distances(2, &[(0, 1), (0, 1)])).each(-2, &[0, 1]),
        sample("I", distances(6, &with(&[(4, 5)]))).top(6, -3, &[4, 5]).top(0, -2, &[0, 1, 2, 3]),
        sample("J", distances(5, &with(&[(0, 4)]))).top(6, -3, &[0, 4]),
        sample("K", distances(5, &with(&[(0, 4), (1, 4)]))).top(6, -2, &[0, 1, 2, 3, 4]).top(0, -2, &[0, 1, 2, 3]),
        sample("L", l).top(0, -1, &[0, 1]),
    ]
}

pub fn figures() -> Vec<Sample> {
    let ten = [(0, 4), (0, 1), (0, 2), (1, 4), (1, 2), (4, 2), (2, 3), (4, 3), (0, 3), (1, 3)];
    let tailed = [vec![(0, 1)], every_pair(1, 5)].concat();
    let loops = [(0, 1), (1, 2), (2, 3), (0, 4), (3, 4), (3, 5), (0, 5), (4, 5)];
    let octahedron: Vec<_> = every_pair(0, 6).into_iter().filter(|(a, b)| a + b != 5).collect();
    let shared_two = |a: usize, b: usize| (a, b) != (0, 1) && !((2..5).contains(&a) && b >= 5);
    let bananas: Vec<_> = every_pair(0, 8).into_iter().filter(|&(a, b)| shared_two(a, b)).collect();
    let mut stated = distances(3, &[(0, 2), (0, 1), (1, 2)]);
    stated.objects.fill(object(POINT, 2));
    stated.constraints[0].stated = 4;
    stated.constraints[1].stated = 1;
    stated.constraints[2].stated = 1;
    vec![
        sample("ten on five", distances(5, &ten)).each(0, &[0, 1, 2, 3, 4]).dense(-1, 0).none(0),
        sample("nine on five", distances(5, &ten[..9])).each(-1, &[0, 1, 2, 3, 4]).none(-1),
        sample("tailed figure", distances(5, &tailed)).top(0, -3, &[0, 1]).top(1, -2, &[1, 2, 3, 4]).top(
            6,
            -2,
            &[1, 2, 3, 4],
        ),
        sample("two loops", distances(6, &loops)).each_own(-3).none(-3),
        sample("octahedron", distances(6, &octahedron)).each(0, &[0, 1, 2, 3, 4, 5]),
        sample("octahedron in space", in_space(distances(6, &octahedron))).each_own(-5),
        sample("double banana", distances(8, &bananas)).each(2, &[0, 1, 2, 3, 4, 5, 6, 7]),
        sample("double banana in space", in_space(distances(8, &bananas))).each_own(-5),
        sample("stated weights", stated).top(0, 0, &[0, 2]).top(1, 0, &[0, 1, 2]).top(2, 0, &[0, 1, 2]),
    ]
}

/// The drawing with every object at stated weight 3.
fn in_space(mut drawing: Drawing) -> Drawing {
    drawing.objects.iter_mut().for_each(|object| object.stated = 3);
    drawing
}
