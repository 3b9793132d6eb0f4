//! Top density and answer set of every constraint by trying every set of objects. For few objects only.
use crate::net::{Net, Top};

pub fn tops(net: &Net) -> Vec<Top> {
    let densities = densities(net);
    (0..net.constraints.len()).map(|c| top(net, &densities, c)).collect()
}

/// The greatest density of a set that holds c, and what all sets of that density that hold c have in common.
/// That this is a set of that density too is seen here each time.
fn top(net: &Net, densities: &[i64], c: usize) -> Top {
    let [a, b] = net.constraints[c].ends;
    let ends = 1 << a | 1 << b;
    let holding = || (0..densities.len()).filter(move |set| set & ends == ends);
    let density = holding().map(|set| densities[set]).max().expect("the set of all objects holds c");
    let common = holding().filter(|&set| densities[set] == density).fold(usize::MAX, |common, set| common & set);
    assert_eq!(densities[common], density, "no least set with top density");
    Top { density, set: common as u128 }
}

/// The density of every set: that of the set without its last object, and what this object adds.
fn densities(net: &Net) -> Vec<i64> {
    let between = net.between();
    let mut densities = vec![0; 1 << net.objects.len()];
    for set in 1..densities.len() {
        let last = set.ilog2() as usize;
        let others = set ^ 1 << last;
        let held: i64 = (0..last).filter(|i| others >> i & 1 == 1).map(|i| between[last][i]).sum();
        densities[set] = densities[others] + held - net.objects[last];
    }
    densities
}
