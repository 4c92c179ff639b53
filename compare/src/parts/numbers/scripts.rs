//! Scripts for estimates and clock quality.
use super::{
    super::COUNT_BOUND, packed, FRESH, LOAD_ENDS, LOAD_QUALITY, NEW, QUALITY, UNSYNCHRONIZED, WIRE,
    WITH_FORMAT,
};
use crate::{
    part::{call, Call, Script},
    random::Random,
};

fn fresh() -> Call {
    call(FRESH, &[])
}

pub fn scripts(random: &mut Random, long: bool) -> Vec<Script> {
    let mut all = vec![every_wire(), constructors()];
    let rounds = if long { 60 } else { 12 };
    for _ in 0..rounds {
        all.push(qualities(random, 400));
        all.push(quality_limits(random));
        all.push(dense_qualities(random));
    }
    all
}

/// What the repository keeps of these answers: every 97th wire, and a few of each of the others.
pub fn sample(random: &mut Random) -> Vec<Script> {
    let mut wires = vec![fresh()];
    wires.extend((0..65_536).step_by(97).map(|w| call(WIRE, &[w])));
    let mut all = vec![wires];
    let mut made = constructors();
    made.truncate(200);
    all.push(made);
    all.push(qualities(random, 150));
    all.push(quality_limits(random));
    all
}

fn every_wire() -> Script {
    let mut script = vec![fresh()];
    script.extend((0..65_536).map(|w| call(WIRE, &[w])));
    script
}

fn constructors() -> Script {
    let mut script = vec![fresh()];
    script.extend((0..3).map(|which| call(UNSYNCHRONIZED, &[which])));
    let scales = [0, 1, 31, 32, 33, 62, 63, 64, 65, 127, 128, 200, 254, 255];
    let multipliers = [0, 1, 2, 127, 128, 254, 255];
    for operation in [NEW, WITH_FORMAT] {
        for flags in 0..4 {
            for scale in scales {
                for multiplier in multipliers {
                    script.push(call(operation, &[flags & 1, flags >> 1, scale, multiplier]));
                }
            }
        }
    }
    script
}

fn some_estimate(random: &mut Random) -> u64 {
    let scale = match random.below(20) {
        0 => random.of(&[64, 65, 128, 255]),
        1..=5 => random.of(&[0, 1, 31, 32, 33, 62, 63]),
        _ => random.below(64) as u8,
    };
    let multiplier = match random.below(6) {
        0 => 0,
        1 => random.of(&[1, 255, 128, 127]),
        _ => random.below(256) as u8,
    };
    packed(random.chance(500), random.chance(500), scale, multiplier)
}

fn qualities(random: &mut Random, calls: usize) -> Script {
    let mut script = vec![fresh()];
    for _ in 0..calls {
        let pair = u64::from(!random.chance(100));
        let told = [pair, some_estimate(random), some_estimate(random)];
        script.push(call(QUALITY, &told));
    }
    script
}

/// Few scales and multipliers, so that errors are equal, and nearly so.
fn dense_qualities(random: &mut Random) -> Script {
    let mut script = vec![fresh()];
    for _ in 0..200 {
        let mut one = || {
            let scale = random.of(&[31, 32, 33, 0, 60]);
            let multiplier = random.of(&[0, 1, 2, 3, 4]);
            packed(random.chance(800), random.chance(500), scale, multiplier)
        };
        let told = [1, one(), one()];
        script.push(call(QUALITY, &told));
    }
    script
}

/// Each count at its bound, one short of it, and beyond.
fn quality_limits(random: &mut Random) -> Script {
    let mut script = vec![fresh()];
    for which in 0..8 {
        for value in [COUNT_BOUND - 1, COUNT_BOUND, COUNT_BOUND + 1, u64::MAX] {
            let mut counts = [0; 7];
            for count in &mut counts[..5] {
                *count = random.below(1000);
            }
            let mut ends = [0; 3].map(|_: u64| random.below(1000));
            match which {
                0..5 => counts[which] = value,
                _ => ends[which - 5] = value,
            }
            if random.chance(500) {
                counts[5] = 1;
                counts[6] = (random.below(1 << 40) as f64).to_bits();
            }
            script.push(call(LOAD_QUALITY, &counts));
            script.push(call(LOAD_ENDS, &ends));
            for _ in 0..3 {
                let told = [
                    u64::from(!random.chance(300)),
                    some_estimate(random),
                    some_estimate(random),
                ];
                script.push(call(QUALITY, &told));
            }
        }
    }
    script
}
