//! Shares moved along routes, in plain Rust: the library's own method, for the benchmark to time it against.
//!
//! End 2e is the first end of constraint e, end 2e + 1 its second. The ends at an object form a chain, in which i + 1
//! stands for end i and 0 closes the chain. Marks that a failed search leaves are kept: no later search enters them,
//! and when all is settled the marked objects are the answer set.
use second::net::{Net, Top};

const OBJECTS: usize = 128;
const CONSTRAINTS: usize = 512;

pub struct Chains {
    constraints: usize,
    objects: usize,
    object_weights: [u16; OBJECTS],
    constraint_weights: [u16; CONSTRAINTS],
    ends: [u16; 2 * CONSTRAINTS],
    head: [u16; OBJECTS],
    next: [u16; 2 * CONSTRAINTS],
}

#[derive(Clone, Copy)]
struct Marks {
    objects: [u8; OBJECTS],
    constraints: [u8; CONSTRAINTS],
}

/// A sheet with what each object has received and may receive, and the marks of failed searches.
#[derive(Clone)]
pub struct State {
    shares: [u16; 2 * CONSTRAINTS],
    load: [u16; OBJECTS],
    room: [u16; OBJECTS],
    marks: Marks,
}

impl Chains {
    pub fn of(net: &Net) -> Chains {
        let mut chains = Chains {
            constraints: net.constraints.len(),
            objects: net.objects.len(),
            object_weights: [0; OBJECTS],
            constraint_weights: [0; CONSTRAINTS],
            ends: [0; 2 * CONSTRAINTS],
            head: [0; OBJECTS],
            next: [0; 2 * CONSTRAINTS],
        };
        for (v, &weight) in net.objects.iter().enumerate() {
            chains.object_weights[v] = weight as u16;
        }
        for (e, constraint) in net.constraints.iter().enumerate() {
            chains.constraint_weights[e] = constraint.weight as u16;
            for (side, &v) in constraint.ends.iter().enumerate() {
                let i = 2 * e + side;
                chains.ends[i] = v as u16;
                chains.next[i] = chains.head[v];
                chains.head[v] = i as u16 + 1;
            }
        }
        chains
    }

    /// Nothing shared yet and every object open.
    pub fn nothing(&self) -> State {
        let marks = Marks { objects: [0; OBJECTS], constraints: [0; CONSTRAINTS] };
        State { shares: [0; 2 * CONSTRAINTS], load: [0; OBJECTS], room: self.object_weights, marks }
    }

    /// One distribution of the whole drawing that serves every constraint.
    pub fn base(&self) -> State {
        let mut base = self.nothing();
        self.settle(&mut base);
        base
    }

    /// The answer for c from a start that is settled or empty.
    pub fn top(&self, start: &State, c: usize) -> (Top, State) {
        let mut state = start.clone();
        self.release(&mut state, c);
        self.settle(&mut state);
        let set = (0..self.objects).filter(|&v| state.marks.objects[v] != 0).fold(0, |set, v| set | 1 << v);
        (Top { density: self.density(&state), set }, state)
    }

    /// The lowest-numbered constraint whose top density is above K: the base is settled once.
    pub fn any_dense(&self, k: i64) -> Option<(usize, Top)> {
        let base = self.base();
        (0..self.constraints).map(|c| (c, self.top(&base, c).0)).find(|(_, top)| top.density > k)
    }

    /// The same with every constraint worked from nothing.
    pub fn any_dense_from_nothing(&self, k: i64) -> Option<(usize, Top)> {
        let nothing = self.nothing();
        (0..self.constraints).map(|c| (c, self.top(&nothing, c).0)).find(|(_, top)| top.density > k)
    }

    fn density(&self, state: &State) -> i64 {
        let marked = |v: usize| state.marks.objects[v] != 0;
        let end = |i: usize| marked(self.ends[i] as usize);
        let held = (0..self.constraints).filter(|e| end(2 * e) && end(2 * e + 1));
        let constraints: i64 = held.map(|e| i64::from(self.constraint_weights[e])).sum();
        let inside = (0..self.objects).filter(|&v| marked(v));
        let objects: i64 = inside.map(|v| i64::from(self.object_weights[v])).sum();
        constraints - objects
    }

    /// Shares at c's two ends go back to their constraints, and the ends are full from now on.
    fn release(&self, state: &mut State, c: usize) {
        for side in 0..2 {
            let v = self.ends[2 * c + side] as usize;
            let mut link = self.head[v];
            while link != 0 {
                let i = link as usize - 1;
                state.shares[i] = 0;
                link = self.next[i];
            }
            state.load[v] = 0;
            state.room[v] = 0;
        }
    }

    fn settle(&self, state: &mut State) {
        for e in 0..self.constraints {
            while self.left(state, e) && state.marks.constraints[e] == 0 {
                let mut marks = state.marks;
                if !self.route_from_constraint(state, &mut marks, e) {
                    state.marks = marks;
                }
            }
        }
    }

    fn left(&self, state: &State, e: usize) -> bool {
        state.shares[2 * e] + state.shares[2 * e + 1] < self.constraint_weights[e]
    }

    fn route_from_constraint(&self, state: &mut State, marks: &mut Marks, e: usize) -> bool {
        marks.constraints[e] = 1;
        self.route_from_object(state, marks, 2 * e) || self.route_from_object(state, marks, 2 * e + 1)
    }

    fn route_from_object(&self, state: &mut State, marks: &mut Marks, i: usize) -> bool {
        let v = self.ends[i] as usize;
        if marks.objects[v] != 0 {
            return false;
        }
        if state.load[v] < state.room[v] {
            state.load[v] += 1;
            state.shares[i] += 1;
            return true;
        }
        marks.objects[v] = 1;
        let mut link = self.head[v];
        while link != 0 {
            let j = link as usize - 1;
            if state.shares[j] > 0 && marks.constraints[j / 2] == 0 && self.route_from_constraint(state, marks, j / 2) {
                state.shares[j] -= 1;
                state.shares[i] += 1;
                return true;
            }
            link = self.next[j];
        }
        false
    }
}
