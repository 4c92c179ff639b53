//! Scripts for the quantiles.
use super::{
    BLOCK, BUCKET, DIGEST, FRESH, LOAD, PERCENTILE, PERCENTILE_SHORT, RECORD, RECORD_SHORT, SPOILT,
    TOTAL,
};
use crate::{
    part::{call, Call, Script},
    random::Random,
    stats::quantiles::Series,
};

/// A way to draw a series' values.
#[derive(Clone, Copy)]
enum Kind {
    Sized,
    Narrow,
    Rising,
    Falling,
    Constant,
    Edges,
    Three,
    Sawtooth,
    Outliers,
    NearlyRising,
}

const KINDS: [Kind; 6] = [
    Kind::Sized,
    Kind::Narrow,
    Kind::Rising,
    Kind::Falling,
    Kind::Constant,
    Kind::Edges,
];

/// What a full exact room is searched in besides: each is a shape of bench/shapes.rs.
const SHAPES: [Kind; 4] = [
    Kind::Three,
    Kind::Sawtooth,
    Kind::Outliers,
    Kind::NearlyRising,
];

fn drawn(random: &mut Random, kind: Kind, i: u64, base: u64) -> u64 {
    match kind {
        Kind::Sized => random.sized(),
        Kind::Narrow => (base >> 20).wrapping_add(random.below(5000)),
        Kind::Rising => (base >> 8).wrapping_add(i * 977),
        Kind::Falling => (base >> 8).wrapping_sub(i * 977),
        Kind::Constant => base,
        Kind::Edges => random.edge(),
        Kind::Three => (base >> 8).wrapping_add(random.below(3) * 1_250_000),
        Kind::Sawtooth => (base >> 8).wrapping_add(i % 128 * 7_919),
        Kind::Outliers if i % 455 == 13 => (base >> 8).wrapping_add(5_000_000_000 + random.below(1_000_000_000)),
        Kind::Outliers => (base >> 8).wrapping_add(random.below(1_000_000)),
        Kind::NearlyRising if i % 205 == 7 => (base >> 8).wrapping_add(random.below(4096) * 977),
        Kind::NearlyRising => (base >> 8).wrapping_add(i * 977),
    }
}

fn with_digest(mut call: Call) -> Call {
    call[DIGEST] = 1;
    call
}

fn percentiles(random: &mut Random, many: usize) -> Vec<Call> {
    let named = [
        f64::NAN,
        -f64::NAN,
        f64::INFINITY,
        f64::NEG_INFINITY,
        -1.0,
        -0.0,
        0.0,
        f64::MIN_POSITIVE / 4.0,
        -f64::MIN_POSITIVE / 4.0,
        f64::from_bits(1),
        50.0,
        25.0,
        99.0,
        99.9,
        100.0,
        100.000_000_1,
        1e300,
        1e18,
        33.333_333_333,
        0.012,
    ];
    let mut all: Vec<Call> = named
        .iter()
        .map(|p| call(PERCENTILE, &[p.to_bits()]))
        .collect();
    for _ in 0..many {
        let p = match random.below(4) {
            0 => f64::from_bits(random.word()),
            1 => random.below(101) as f64,
            2 => random.below(100_000) as f64 / 1000.0,
            _ => random.below(1 << 30) as f64 / 10_737_418.24,
        };
        all.push(call(PERCENTILE, &[p.to_bits()]));
    }
    all
}

fn series(random: &mut Random, signed: bool, kind: Kind, length: u64, asked: usize) -> Script {
    let mut script = vec![call(FRESH, &[u64::from(signed)])];
    let base = random.word();
    let flips = signed && random.chance(700);
    for i in 0..length {
        let mut value = drawn(random, kind, i, base);
        if flips && random.chance(500) {
            value = value.wrapping_neg();
        }
        script.push(call(RECORD, &[value]));
    }
    if let Some(last) = script.last_mut() {
        *last = with_digest(*last);
    }
    script.extend(percentiles(random, asked));
    script.push(call(RECORD_SHORT, &[7, random.of(&[1, 4096, 7000])]));
    script.push(call(PERCENTILE_SHORT, &[50f64.to_bits(), 1]));
    script.push(with_digest(call(RECORD, &[base])));
    script
}

pub fn scripts(random: &mut Random, long: bool) -> Vec<Script> {
    let mut all = Vec::new();
    for signed in [false, true] {
        for kind in KINDS {
            for length in [0, 1, 2, 3, 5, 100] {
                all.push(series(random, signed, kind, length, 10));
            }
        }
        for length in [4095, 4096, 4097, 4098] {
            let kind = random.of(&KINDS);
            all.push(series(random, signed, kind, length, 4));
        }
        for kind in KINDS.into_iter().chain(SHAPES) {
            all.push(series(random, signed, kind, 4096, 10));
        }
        let kinds = if long { &KINDS[..] } else { &KINDS[..2] };
        for kind in kinds {
            let length = if long { 100_000 } else { 6000 };
            all.push(series(random, signed, *kind, length, 20));
        }
        all.push(near_the_end(random, signed));
        all.push(clamped(random, signed));
        all.push(hostile(signed));
        all.push(damaged(random, signed));
        all.push(borders(random, signed, if long { 40_000 } else { 5000 }));
    }
    all
}

pub fn sample(random: &mut Random) -> Vec<Script> {
    let mut all = Vec::new();
    for signed in [false, true] {
        for kind in KINDS {
            all.push(series(random, signed, kind, 40, 3));
        }
        all.push(near_the_end(random, signed));
        all.push(hostile(signed));
        all.push(damaged(random, signed));
    }
    all.push(series(random, true, Kind::Narrow, 4098, 4));
    all
}

/// Counts up to 2^64-1, which no run could reach.
fn near_the_end(random: &mut Random, signed: bool) -> Script {
    let mut script = vec![call(FRESH, &[u64::from(signed)])];
    let bucket = if signed { 7296 + 300 } else { 300 };
    let value = Series::<u64>::shown(300);
    for count in [
        u64::MAX - 2,
        u64::MAX - 1,
        u64::MAX,
        1 << 53,
        (1 << 53) + 1,
        1 << 63,
    ] {
        script.push(call(LOAD, &[count, value, value]));
        script.push(with_digest(call(BUCKET, &[bucket, count])));
        script.extend(percentiles(random, 3));
        // Into the full bucket, into another of its block, and into others.
        let beside = Series::<u64>::shown(301);
        for told in [value, value, beside, beside, 5, 6] {
            script.push(with_digest(call(RECORD, &[told])));
        }
        script.extend(percentiles(random, 2));
    }
    script
}

/// Values that share a bucket with the minimum, or of negative ones with the maximum.
fn clamped(random: &mut Random, signed: bool) -> Script {
    let mut script = vec![call(FRESH, &[u64::from(signed)])];
    for i in 0..4200u64 {
        let value = 1_000_003 + i % 3;
        let value = if signed { value.wrapping_neg() } else { value };
        script.push(call(RECORD, &[value]));
    }
    script.extend(percentiles(random, 4));
    script
}

/// States that no call leaves: each is refused, and stays as it is.
fn hostile(signed: bool) -> Script {
    let mut script = vec![call(FRESH, &[u64::from(signed)])];
    let half = 50f64.to_bits();
    script.push(call(LOAD, &[5000, 9, 8]));
    script.push(with_digest(call(RECORD, &[8])));
    script.push(with_digest(call(PERCENTILE, &[half])));
    script.push(call(LOAD, &[5000, 8, 9]));
    script.push(with_digest(call(PERCENTILE, &[half])));
    script.push(call(BUCKET, &[7400, 4999]));
    script.push(call(PERCENTILE, &[half]));
    script.push(call(BUCKET, &[7400, 5001]));
    script.push(call(PERCENTILE, &[half]));
    script.push(call(BUCKET, &[7400, u64::MAX]));
    script.push(call(BUCKET, &[7401, 5001]));
    script.push(with_digest(call(PERCENTILE, &[half])));
    if signed {
        script.push(call(LOAD, &[5000, 0, 9]));
        script.push(call(BUCKET, &[14_592, 5000]));
        script.push(with_digest(call(PERCENTILE, &[half])));
        script.push(with_digest(call(RECORD, &[4])));
    }
    script
}

/// The percentile that has a rank among so many.
fn of_rank(rank: u64, count: u64) -> Call {
    call(PERCENTILE, &[(rank as f64 * 100.0 / (count - 1) as f64).to_bits()])
}

/// A series over many blocks: each rank at and beside a block's border.
fn borders(random: &mut Random, signed: bool, length: u64) -> Script {
    let mut script = vec![call(FRESH, &[u64::from(signed)])];
    let mut blocks = Vec::new();
    for _ in 0..length {
        let value = random.sized();
        let value = if random.chance(500) { value.wrapping_neg() } else { value };
        script.push(call(RECORD, &[value]));
        let bucket = if signed {
            Series::<i64>::bucket_of(value as i64)
        } else {
            Series::<u64>::bucket_of(value)
        };
        blocks.push(bucket / BLOCK);
    }
    blocks.sort_unstable();
    let border = |r: &u64| *r == 0 || blocks[*r as usize] != blocks[*r as usize - 1];
    for r in (0..length).filter(border) {
        for rank in r.saturating_sub(2)..(r + 2).min(length) {
            script.push(of_rank(rank, length));
        }
    }
    script.push(of_rank(length - 1, length));
    script
}

/// A histogram of three blocks, 10,000 samples: 2,000 in the first block, 3,000, 5,000; then totals and buckets are damaged, one by one.
fn damaged(random: &mut Random, signed: bool) -> Script {
    let mut script = vec![call(FRESH, &[u64::from(signed)])];
    let first = if signed { 7296 / 128 + 5 } else { 5 };
    let ranks = [0, 1, 1999, 2000, 2001, 4999, 5000, 9998, 9999];
    let (low, high) = if signed { (1u64.wrapping_neg(), 1 << 40) } else { (1, 1 << 40) };
    let at = |block: u64, i: u64| (first + block) * 128 + i;
    let loaded = |script: &mut Script| {
        script.push(call(LOAD, &[10_000, low, high]));
        for (block, buckets) in [[0, 900, 1100], [1, 1, 2999], [2, 4999, 1]].map(|[b, x, y]| (b, [x, y])) {
            script.push(call(BUCKET, &[at(block, 0), buckets[0]]));
            script.push(call(BUCKET, &[at(block, 127), buckets[1]]));
        }
    };
    let asked = |script: &mut Script| script.extend(ranks.map(|r| of_rank(r, 10_000)));
    loaded(&mut script);
    asked(&mut script);
    let wide = if signed { 114 } else { 57 };
    let mut changes: Vec<Vec<Call>> = vec![
        // One sample more or less in a block than its total says: served where no rank reads it.
        vec![call(SPOILT, &[at(0, 0), 901])],
        vec![call(SPOILT, &[at(1, 127), 2998])],
        vec![call(SPOILT, &[at(2, 64), 1])],
        // Two that are even add up.
        vec![call(SPOILT, &[at(1, 5), 1]), call(SPOILT, &[at(1, 0), 0])],
        // A block whose buckets add up modulo 2^64 only.
        vec![call(SPOILT, &[at(1, 5), u64::MAX]), call(SPOILT, &[at(1, 6), 1])],
        // Totals that do not add up, that do modulo 2^64 only, and that do with each other's samples.
        vec![call(TOTAL, &[first + 1, 3001])],
        vec![call(TOTAL, &[first + 1, 2999])],
        vec![call(TOTAL, &[first + 3, u64::MAX]), call(TOTAL, &[first + 4, 1])],
        vec![call(TOTAL, &[first, 2001]), call(TOTAL, &[first + 1, 2999])],
        // A total without samples, and the last block's.
        vec![call(TOTAL, &[first, 1999]), call(TOTAL, &[first + 3, 1])],
        vec![call(TOTAL, &[first, 1999]), call(TOTAL, &[wide, 1])],
        // The last bucket alone: it counts where its block is read.
        vec![call(SPOILT, &[wide * 128, 1])],
        vec![call(BUCKET, &[wide * 128, 1]), call(BUCKET, &[at(2, 127), 0])],
    ];
    for _ in 0..12 {
        let bucket = call(SPOILT, &[at(random.below(4), random.below(128)), random.below(3000)]);
        let total = call(TOTAL, &[first + random.below(4), random.below(3000)]);
        changes.push(if random.chance(500) { vec![bucket] } else { vec![bucket, total] });
    }
    for change in changes {
        loaded(&mut script);
        script.extend(change);
        asked(&mut script);
        script.push(with_digest(call(RECORD, &[1 << 20])));
        script.push(of_rank(5000, 10_001));
    }
    // A block's total is full, its buckets are not.
    loaded(&mut script);
    script.push(call(TOTAL, &[first, u64::MAX]));
    let value = Series::<u64>::shown((at(0, 3) - if signed { 7296 } else { 0 }) as usize);
    script.push(with_digest(call(RECORD, &[value])));
    script
}
