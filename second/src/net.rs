//! The net of a drawing: the weights in force and nothing else. A stated weight stands in the place of the table
//! weight. A set of objects is a word of 128 bits, object i at bit i.
use crate::reader::Drawing;
use crate::table::{constraint_weight, object_weight};

/// The two ends of a constraint and its weight in force.
#[derive(Clone, Copy, Debug)]
pub struct Constraint {
    pub ends: [usize; 2],
    pub weight: i64,
}

/// The weight of each object, and the constraints.
#[derive(Clone, Debug, Default)]
pub struct Net {
    pub objects: Vec<i64>,
    pub constraints: Vec<Constraint>,
}

/// The top density of a constraint and its answer set.
#[derive(Clone, Copy, Debug, PartialEq)]
pub struct Top {
    pub density: i64,
    pub set: u128,
}

/// The objects in a set, ascending.
pub fn members(set: u128) -> impl Iterator<Item = usize> {
    (0..128).filter(move |i| set >> i & 1 == 1)
}

impl Net {
    pub fn of(drawing: &Drawing) -> Net {
        let kind = |end: u16| drawing.objects[end as usize].kind;
        let objects = drawing.objects.iter().map(|o| in_force(o.stated, object_weight(o.kind))).collect();
        let constraints = drawing.constraints.iter().map(|c| {
            let table = constraint_weight(c.kind, kind(c.ends[0]), kind(c.ends[1]));
            Constraint { ends: c.ends.map(usize::from), weight: in_force(c.stated, table) }
        });
        Net { objects, constraints: constraints.collect() }
    }

    /// Whether the set holds constraint c: both its ends are in the set.
    pub fn holds(&self, set: u128, c: usize) -> bool {
        self.constraints[c].ends.iter().all(|&end| set >> end & 1 == 1)
    }

    /// The weights of the constraints that the set holds less the weights of its objects.
    pub fn density(&self, set: u128) -> i64 {
        let held = (0..self.constraints.len()).filter(|&c| self.holds(set, c));
        let constraints: i64 = held.map(|c| self.constraints[c].weight).sum();
        let objects: i64 = members(set).map(|i| self.objects[i]).sum();
        constraints - objects
    }

    /// The weight between each pair of objects, over all constraints on the pair.
    pub fn between(&self) -> Vec<Vec<i64>> {
        let mut between = vec![vec![0; self.objects.len()]; self.objects.len()];
        for constraint in &self.constraints {
            let [a, b] = constraint.ends;
            between[a][b] += constraint.weight;
            between[b][a] += constraint.weight;
        }
        between
    }
}

fn in_force(stated: u8, table: Option<u8>) -> i64 {
    let weight = if stated == 0 { table.expect("the reader let it pass") } else { stated };
    i64::from(weight)
}
