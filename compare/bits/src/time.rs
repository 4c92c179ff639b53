//! The count, both sides in turns, by the length of padding and pattern; the least of 60 turns of each.
use crate::ber::xor_popcount_and_max_burst;
use crate::play::{padding, Random};
use ambrulicciu::bit_errors;
use std::{hint::black_box, time::Instant};

const LENGTHS: [usize; 19] = [1, 2, 7, 8, 64, 65, 71, 100, 127, 200, 255, 256, 300, 509, 511, 512, 519, 767, 1000];
const MANNERS: [(u64, &str); 5] = [(0, "all equal"), (1, "all different"), (3, "1 in 1,000"), (4, "1 in 100"), (2, "random")];

// The time of as many calls as make up some 65,535 bytes, as a short one is below what the clock shows.
fn turn<T>(calls: usize, call: impl Fn() -> T) -> u128 {
    let start = Instant::now();
    for _ in 0..calls {
        black_box(call());
    }
    start.elapsed().as_nanos()
}

fn ratio(padding: &[u8], pattern: &[u8]) -> f64 {
    let calls = 65535 / padding.len();
    let (mut ours, mut theirs) = (u128::MAX, u128::MAX);
    for _ in 0..60 {
        ours = ours.min(turn(calls, || bit_errors(black_box(padding), black_box(pattern))));
        theirs = theirs.min(turn(calls, || xor_popcount_and_max_burst(black_box(padding), black_box(pattern))));
    }
    ours as f64 / theirs as f64
}

pub fn run() {
    println!("padding pattern {}", MANNERS.map(|(_, name)| format!("{name:>14}")).join(""));
    for size in [65535, 1400, 64] {
        for length in LENGTHS {
            let mut random = Random(5);
            let pattern = random.bytes(length);
            let row = MANNERS.map(|(manner, _)| format!("{:>14.2}", ratio(&padding(&mut random, &pattern, size, manner), &pattern)));
            println!("{size:7} {length:7} {}", row.join(""));
        }
    }
}
