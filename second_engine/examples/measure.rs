//! Prints how long a large stream of each kind takes, the best of some runs.

#![forbid(unsafe_code)]

use second_engine::generate::{Load, load};
use second_engine::run::settle;
use std::env;
use std::hint::black_box;
use std::time::Instant;

fn main() {
    let count = env::args()
        .nth(1)
        .and_then(|word| word.parse().ok())
        .unwrap_or(100_000);
    for kind in [Load::Posts, Load::Corrections, Load::Closings] {
        for seed in 1..=3 {
            let input = load(kind, count, seed);
            let best = (0..15)
                .map(|_| {
                    let start = Instant::now();
                    black_box(settle(black_box(&input)));
                    start.elapsed()
                })
                .min()
                .expect("there are runs");
            let each = best.as_nanos() / count.max(1) as u128;
            println!("{kind:?}, seed {seed}: {count} slips in {best:.1?}, {each} ns each");
        }
    }
}
