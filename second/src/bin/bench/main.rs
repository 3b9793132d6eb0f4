//! Times the library against plain Rust on the same drawings, in nanoseconds a call (the least of several rounds):
//! `look over` against the second program's reader, and the counting questions against the same method in plain Rust.
//! Run it with --release. Buffers are not cleared between calls.
mod counting;
mod routes;

use second::reader;
use second::testing::drawings::largest;
use second::testing::ffi::c::brentivex_look_over;
use second::testing::random::Random;
use second::testing::writer;
use std::hint::black_box;
use std::time::{Duration, Instant};

const ROUNDS: usize = 7;
const ROUND: Duration = Duration::from_millis(40);

fn main() {
    let largest = writer::bytes(&largest(&mut Random::from_seed(1)));
    let library = look_over_time(&largest);
    let plain = time(|| reader::read(black_box(&largest)));
    println!(
        "look over, {} bytes: library {library:.0} ns, plain Rust {plain:.0} ns, ratio {:.2}",
        largest.len(),
        library / plain
    );
    counting::all();
}

fn look_over_time(drawing: &[u8]) -> f64 {
    let mut buffer = [0; 4];
    time(|| {
        // SAFETY: both pointers are good for the lengths passed with them, and the bytes do not overlap.
        let code = unsafe { brentivex_look_over(drawing.as_ptr(), drawing.len(), buffer.as_mut_ptr(), buffer.len()) };
        assert_eq!(code, 0);
    })
}

/// The least time of a call over several rounds, in nanoseconds.
fn time<T>(mut call: impl FnMut() -> T) -> f64 {
    let mut least = f64::INFINITY;
    for _ in 0..ROUNDS {
        let (start, mut calls) = (Instant::now(), 0);
        while start.elapsed() < ROUND {
            black_box(call());
            calls += 1;
        }
        least = least.min(start.elapsed().as_nanos() as f64 / f64::from(calls));
    }
    least
}
