//! Top density and answer set of a constraint by a minimum cut over the objects alone, for any number of objects.
//!
//! Let deg(v) be the weight of all constraints at v. Twice the weight that a set S holds is the sum of deg over S less
//! the weight that crosses its border, so with source arcs of deg(v), sink arcs of twice v's weight and each pair's
//! weight between its two objects, the cut at S costs (sum of all deg) - 2 density(S). Source arcs without limit to c's
//! two ends force them into S. The objects that the source still reaches once the flow is greatest lie inside the
//! source side of every least cut, so they are the answer set.
use crate::net::{Net, Top};
use std::collections::VecDeque;

const NO_LIMIT: i64 = 1 << 40;

pub fn tops(net: &Net) -> Vec<Top> {
    (0..net.constraints.len()).map(|c| top(net, c)).collect()
}

pub fn top(net: &Net, c: usize) -> Top {
    let n = net.objects.len();
    let (source, sink) = (n, n + 1);
    let between = net.between();
    let mut arcs = Arcs::new(n + 2);
    let mut all = 0;
    for (v, weights) in between.iter().enumerate() {
        let degree: i64 = weights.iter().sum();
        all += degree;
        let forced = net.constraints[c].ends.contains(&v);
        arcs.join(source, v, if forced { NO_LIMIT } else { degree }, 0);
        arcs.join(v, sink, 2 * net.objects[v], 0);
        for (u, &weight) in weights.iter().enumerate().take(v).filter(|(_, &weight)| weight > 0) {
            arcs.join(v, u, weight, weight);
        }
    }
    let cost = arcs.greatest_flow(source, sink);
    let levels = arcs.levels(source);
    let set = (0..n).filter(|&v| levels[v].is_some()).fold(0, |set, v| set | 1 << v);
    let density = net.density(set);
    assert_eq!(all - cost, 2 * density, "the cut does not cost what the set's density says");
    Top { density, set }
}

struct Arc {
    to: usize,
    left: i64,
}

/// A flow network with arcs in pairs: arc i and arc i ^ 1 run against each other.
struct Arcs {
    arcs: Vec<Arc>,
    at: Vec<Vec<usize>>,
}

impl Arcs {
    fn new(nodes: usize) -> Arcs {
        Arcs { arcs: Vec::new(), at: vec![Vec::new(); nodes] }
    }

    fn join(&mut self, from: usize, to: usize, there: i64, back: i64) {
        self.at[from].push(self.arcs.len());
        self.arcs.push(Arc { to, left: there });
        self.at[to].push(self.arcs.len());
        self.arcs.push(Arc { to: from, left: back });
    }

    fn greatest_flow(&mut self, source: usize, sink: usize) -> i64 {
        let mut flow = 0;
        loop {
            let levels = self.levels(source);
            if levels[sink].is_none() {
                return flow;
            }
            let mut tried = vec![0; self.at.len()];
            loop {
                let pushed = self.push(source, sink, NO_LIMIT, &levels, &mut tried);
                if pushed == 0 {
                    break;
                }
                flow += pushed;
            }
        }
    }

    /// The distance of each node from the source over arcs with something left, or none where it is not reached.
    fn levels(&self, source: usize) -> Vec<Option<usize>> {
        let mut levels = vec![None; self.at.len()];
        levels[source] = Some(0);
        let mut queue = VecDeque::from([(source, 0)]);
        while let Some((node, level)) = queue.pop_front() {
            for &i in &self.at[node] {
                let arc = &self.arcs[i];
                if arc.left > 0 && levels[arc.to].is_none() {
                    levels[arc.to] = Some(level + 1);
                    queue.push_back((arc.to, level + 1));
                }
            }
        }
        levels
    }

    /// Pushes at most `most` from the node to the sink, each step one level on, and gives what was pushed.
    fn push(&mut self, node: usize, sink: usize, most: i64, levels: &[Option<usize>], tried: &mut [usize]) -> i64 {
        if node == sink {
            return most;
        }
        while tried[node] < self.at[node].len() {
            let i = self.at[node][tried[node]];
            let Arc { to, left } = self.arcs[i];
            if left > 0 && levels[to] == levels[node].map(|level| level + 1) {
                let pushed = self.push(to, sink, most.min(left), levels, tried);
                if pushed > 0 {
                    self.arcs[i].left -= pushed;
                    self.arcs[i ^ 1].left += pushed;
                    return pushed;
                }
            }
            tried[node] += 1;
        }
        0
    }
}
