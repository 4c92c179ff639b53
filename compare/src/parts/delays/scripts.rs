//! Scripts for sums of delays.
use super::{super::COUNT_BOUND, DELAY, FRESH, LOAD, ROUND_TRIP};
use crate::{
    part::{call, Call, Script},
    random::Random,
};

fn fresh() -> Call {
    call(FRESH, &[])
}

pub fn scripts(random: &mut Random, long: bool) -> Vec<Script> {
    let rounds = if long { 60 } else { 12 };
    let mut all = Vec::new();
    for _ in 0..rounds {
        all.push(sums(random, 300, false));
        all.push(sums(random, 300, true));
        all.push(sum_limits(random));
    }
    all
}

pub fn sample(random: &mut Random) -> Vec<Script> {
    vec![
        sums(random, 100, false),
        sums(random, 100, true),
        sum_limits(random),
    ]
}

fn sums(random: &mut Random, calls: usize, signed: bool) -> Script {
    let mut script = vec![fresh()];
    let narrow = random.below(64) as u32;
    for _ in 0..calls {
        let mut value = match random.below(4) {
            0 => random.sized(),
            1 => random.edge(),
            2 => random.word() >> narrow,
            _ => random.below(1 << 34),
        };
        if !signed {
            script.push(call(ROUND_TRIP, &[value]));
            continue;
        }
        if random.chance(500) {
            value = value.wrapping_neg();
        }
        script.push(call(DELAY, &[value]));
    }
    script
}

/// Sums at 2^53, 2^64 and 2^126, and counts at 2^63.
fn sum_limits(random: &mut Random) -> Script {
    let mut script = vec![fresh()];
    for _ in 0..80 {
        let power = random.of(&[52, 53, 54, 63, 64, 65, 84, 107, 117, 125, 126, 126]);
        let far = i128::from(random.word() >> 8);
        let beside = random.of(&[-2, -1, 0, 1, 2, far]);
        let mut sum = (1i128 << power) + beside;
        if random.chance(500) {
            sum = -sum;
        }
        let count = match random.below(4) {
            0 => random.of(&[COUNT_BOUND - 1, COUNT_BOUND, u64::MAX]),
            1 => random.below(1000) + 1,
            _ => (random.sized() >> 1).max(1),
        };
        let ends = [random.word() >> 2, random.word() >> 2];
        let (min, max) = (ends[0].min(ends[1]), ends[0].max(ends[1]));
        let magnitude = sum.unsigned_abs();
        let words = [
            count,
            u64::from(sum < 0),
            (magnitude >> 64) as u64,
            magnitude as u64,
            min.wrapping_neg(),
            max,
        ];
        script.push(call(LOAD, &words));
        for _ in 0..3 {
            let value = random.edge() as i64;
            script.push(call(DELAY, &[value as u64]));
        }
    }
    script
}
