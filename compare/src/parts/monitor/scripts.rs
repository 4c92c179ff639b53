//! Scripts for the monitor.
use super::{
    super::{CAPACITY, COUNT_BOUND},
    ADVANCE, DIGEST, FRESH, IDLE, LOAD, REPLY, SENT, SHOW,
};
use crate::{
    part::{call, Call, Script},
    random::Random,
};

pub fn scripts(random: &mut Random, long: bool) -> Vec<Script> {
    let mut all = Vec::new();
    let rounds = if long { 40 } else { 9 };
    for _ in 0..rounds {
        all.push(typical(random, 150));
        all.push(dense(random, 300));
        all.push(limits(random));
    }
    all.push(full(random, if long { 21_000 } else { 4_000 }));
    all
}

fn with_digest(mut call: Call) -> Call {
    call[DIGEST] = 1;
    call
}

/// A believable link: a probe each 100 ms, a timeout of 1 s, some replies lost, some late.
fn typical(random: &mut Random, calls: usize) -> Script {
    let timeout = random.of(&[1_000_000_000, 250_000_000, 2_000_000_000]);
    let threshold = random.of(&[1, 2, 3, 5, 10]);
    let mut script = vec![call(FRESH, &[threshold, timeout])];
    let (mut sequence, mut now) = (random.below(1 << 32), random.below(1 << 50));
    let loss = random.of(&[0, 20, 300, 900]);
    while script.len() < calls {
        now += 100_000_000 + random.below(1_000_000);
        sequence = (sequence + 1) % (1 << 32);
        script.push(with_digest(call(SENT, &[sequence, now])));
        if !random.chance(loss) {
            let back = random.below(3);
            script.push(with_digest(call(REPLY, &[sequence.saturating_sub(back)])));
        }
        script.push(with_digest(call(ADVANCE, &[now])));
        if random.chance(5) {
            script.push(with_digest(call(IDLE, &[])));
        }
    }
    script
}

/// Tiny ranges, so that everything collides. Times go back too.
fn dense(random: &mut Random, calls: usize) -> Script {
    let threshold = random.below(4);
    let timeout = random.of(&[0, 1, 1, 3, 10]);
    let mut script = vec![call(FRESH, &[threshold, timeout])];
    let many = random.of(&[2, 5, 9]);
    let idles = random.of(&[5, 40, 150]);
    for _ in 0..calls {
        let told = random.below(many);
        let time = random.below(12);
        script.push(with_digest(match random.below(10) {
            _ if random.chance(idles) => call(IDLE, &[]),
            0..=4 => call(SENT, &[told, time]),
            5..=7 => call(REPLY, &[told]),
            _ => call(ADVANCE, &[time]),
        }));
    }
    script
}

/// Thresholds, timeouts, times and counts on and one past each bound.
fn limits(random: &mut Random) -> Script {
    let threshold = random.of(&[0, 1, 2, 65_534, 65_535]);
    let timeout = random.of(&[0, 1, 1 << 63, u64::MAX - 1, u64::MAX]);
    let mut script = vec![call(FRESH, &[threshold, timeout])];
    for _ in 0..60 {
        if random.chance(200) {
            script.push(with_digest(load(random, threshold)));
        }
        let sequence = random.of(&[0, 1, u64::from(u32::MAX), 1 << 31]);
        let beside = random.below(3);
        let last = u64::MAX - timeout;
        let time = random.of(&[
            0,
            last,
            last.saturating_sub(1),
            last.saturating_add(1),
            beside,
        ]);
        script.push(with_digest(match random.below(8) {
            0..=3 => call(SENT, &[sequence, time]),
            4 => call(REPLY, &[sequence]),
            5 => call(IDLE, &[]),
            _ => call(ADVANCE, &[random.of(&[0, timeout, u64::MAX, u64::MAX - 1])]),
        }));
    }
    script
}

fn load(random: &mut Random, threshold: u64) -> Call {
    let losses = random.of(&[
        0,
        threshold.saturating_sub(1),
        threshold,
        u64::from(u32::MAX) - 1,
        u64::from(u32::MAX),
    ]);
    let mut count = || match random.below(6) {
        0 => random.of(&[COUNT_BOUND, COUNT_BOUND + 1, u64::MAX]),
        1 => COUNT_BOUND - 1,
        _ => random.below(10),
    };
    call(LOAD, &[losses, count(), count(), count()])
}

/// Fills the queue to its end, asks for more, and empties it by replies and by time.
fn full(random: &mut Random, calls: usize) -> Script {
    let timeout = 1_000_000;
    let mut script = vec![call(FRESH, &[3, timeout])];
    let mut sequence = 0;
    let mut now = 5;
    while script.len() < calls {
        for _ in 0..CAPACITY + 3 {
            now += 1;
            sequence += 1;
            let resent = if random.chance(3) {
                sequence / 2
            } else {
                sequence
            };
            script.push(call(SENT, &[resent, now]));
        }
        script.push(with_digest(call(SENT, &[1, u64::MAX])));
        script.push(call(LOAD, &[0, COUNT_BOUND, 0, 0]));
        script.push(with_digest(call(SENT, &[1, now])));
        script.push(call(LOAD, &[0, 7, 0, 0]));
        for place in [0, 1, 2, 2048, 4094, 4095, 4096] {
            script.push(call(SHOW, &[place]));
        }
        for _ in 0..40 {
            let back = random.below(4200);
            script.push(with_digest(call(REPLY, &[sequence - back.min(sequence)])));
            script.push(with_digest(call(
                ADVANCE,
                &[now + timeout - random.below(4200)],
            )));
        }
        script.push(with_digest(call(ADVANCE, &[now + timeout])));
    }
    script
}
