//! The counting part of the benchmark, on drawings at the limits: any dense at K = 8,191, which works every constraint
//! from one base and finds none; every constraint from nothing; and one constraint. Reading is shown apart and is in
//! none of the other times; those start from the drawing as read, so they include its weights and chains.
use crate::routes::Chains;
use crate::{look_over_time, time};
use second::codes;
use second::net::Net;
use second::reader::{read, Drawing};
use second::testing::drawings::*;
use second::testing::ffi::c::{brentivex_any_dense, brentivex_one_constraint};
use second::testing::random::Random;
use second::testing::writer;
use std::hint::black_box;

const K: i32 = 8191;

pub fn all() {
    let mut random = Random::from_seed(2);
    compare("random, all kinds", &largest(&mut random));
    compare("random points", &random_points(&mut random, 128, 512));
    compare("braced strip", &repeated_strip());
    compare("objects of weight 4", &heavy_points(&mut random));
    compare("chain with long routes", &long_chain(128, 385, true));
}

fn compare(name: &str, drawing: &Drawing) {
    let bytes = writer::bytes(drawing);
    let count = drawing.constraints.len();
    let chains = || Chains::of(&Net::of(black_box(drawing)));
    same_answers(&bytes, &chains(), count);
    println!("{name}, {} objects, {count} constraints", drawing.objects.len());

    let reading = look_over_time(&bytes);
    line("reading", reading, time(|| read(black_box(&bytes))));

    let from_base = time(|| chains().any_dense(i64::from(K)));
    line("any dense", time(|| any_dense(&bytes)) - reading, from_base);
    let from_nothing = time(|| (0..count).all(|c| black_box(one_constraint(&bytes, c)).len() == 20));
    let plain_from_nothing = time(|| chains().any_dense_from_nothing(i64::from(K)));
    line("from nothing", from_nothing - count as f64 * reading, plain_from_nothing);

    let mut asked = (0..count).cycle();
    let mut next = || asked.next().expect("a cycle goes on");
    let library = time(|| one_constraint(&bytes, next())) - reading;
    let plain = time(|| {
        let chains = chains();
        chains.top(&chains.nothing(), next())
    });
    line("one constraint", library, plain);
}

fn line(name: &str, library: f64, plain: f64) {
    let ratio = library / plain;
    println!("  {name:15} library {library:9.0} ns, plain Rust {plain:9.0} ns, ratio {ratio:.2}");
}

/// The two must agree before their times say anything.
fn same_answers(bytes: &[u8], chains: &Chains, count: usize) {
    assert_eq!(any_dense(bytes), codes::NONE_DENSE);
    assert_eq!(chains.any_dense(i64::from(K)), None);
    let base = chains.base();
    for c in 0..count {
        let top = chains.top(&base, c).0;
        let block = one_constraint(bytes, c);
        assert_eq!(block[2..4], (top.density as i16).to_le_bytes());
        assert_eq!(block[4..], top.set.to_le_bytes());
    }
}

fn any_dense(drawing: &[u8]) -> u32 {
    let mut block = [0; 20];
    // SAFETY: both pointers are good for the lengths passed with them, and the bytes do not overlap.
    unsafe { brentivex_any_dense(drawing.as_ptr(), drawing.len(), K, block.as_mut_ptr(), block.len()) }
}

fn one_constraint(drawing: &[u8], c: usize) -> [u8; 20] {
    let mut block = [0; 20];
    // SAFETY: as in any_dense.
    let code =
        unsafe { brentivex_one_constraint(drawing.as_ptr(), drawing.len(), c as u32, block.as_mut_ptr(), block.len()) };
    assert_eq!(code, codes::ANSWERED);
    block
}
