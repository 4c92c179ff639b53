//! Spread, jitter and both directions: the library that hosts link against src/stats.rs, in one process.
//!
//!     spread play SERIES SEED     compares every word after every sample, and what is shown after each series
//!     spread long SAMPLES         one series of each kind, compared at every 1,000th sample and at the end
//!     spread time                 times both sides of `record`, in turns
use ambrulicciu::calls;
use std::{hint::black_box, time::Instant};

#[allow(dead_code)]
#[path = "../target/texts/quantiles.rs"]
mod quantiles;
#[allow(dead_code)]
#[path = "../target/texts/stats.rs"]
mod stats;

use stats::{OwdDirection, RttCollector, RttSample};

const ROOM: usize = 11578;
const PART: usize = 18804;

struct Random(u64);

impl Random {
    fn next(&mut self) -> u64 {
        self.0 ^= self.0 << 13;
        self.0 ^= self.0 >> 7;
        self.0 ^= self.0 << 17;
        self.0.wrapping_mul(0x2545_f491_4f6c_dd1d)
    }
}

/// The kinds of series: round trips of a link; a large baseline with a small spread; any words; the ends of the range; one value; few values.
const KINDS: u64 = 7;

fn sample(kind: u64, random: &mut Random) -> u64 {
    let x = random.next();
    match kind {
        0 => 20_000_000 + x % 5_000_000,
        1 => (1 << 62) + x % 100,
        2 => x,
        3 => [0, u64::MAX, 1 << 63, (1 << 63) - 1, 1, u64::MAX - 1][(x % 6) as usize],
        4 => 1 << 63,
        5 => x % 3,
        _ => x >> (random.next() % 64),
    }
}

fn show_delays(shown: &ambrulicciu::Delays, min: Option<f64>, average: Option<f64>, max: Option<f64>) {
    for (ours, theirs) in [(shown.minimum.get(), min), (shown.average.get(), average), (shown.maximum.get(), max)] {
        assert_eq!(ours.map(f64::to_bits), theirs.map(f64::to_bits));
    }
}

struct Both {
    words: [u64; 12],
    room: Vec<u64>,
    theirs: RttCollector,
    ways: [u64; 12],
    slice: Vec<u64>,
    directions: [OwdDirection; 2],
}

impl Both {
    fn new(random: &mut Random) -> Both {
        let (mut words, mut ways) = ([random.next(); 12], [random.next(); 12]);
        assert_eq!(calls::spread_fresh(&mut words), 0);
        assert_eq!(calls::directions_fresh(&mut ways), 0);
        let slice = (0..2 * PART + 5).map(|i| i as u64).collect();
        let both = Both { words, room: vec![7; ROOM], theirs: RttCollector::new(), ways, slice, directions: [OwdDirection::default(), OwdDirection::default()] };
        both.compare();
        both
    }

    fn record(&mut self, value: u64, reverse: usize) {
        let mut recorded = [9];
        assert_eq!(calls::spread_record(&mut self.words, &mut self.room, value, &mut recorded), 0);
        assert_eq!(recorded, [1]);
        self.theirs.record(RttSample { seq: 0, rtt_ns: value, ttl: 0 });
        assert_eq!(calls::directions_record(&mut self.ways, &mut self.slice, reverse as u32, value, &mut recorded), 0);
        assert_eq!(recorded, [1]);
        self.directions[reverse].note(value as i64);
    }

    fn compare(&self) {
        assert_eq!(self.words, self.theirs.words());
        assert_eq!(self.ways[..6], self.directions[0].words());
        assert_eq!(self.ways[6..], self.directions[1].words());
    }

    fn shown(&self) {
        self.compare();
        let ms = |ns: u64| ns as f64 / 1_000_000.0;
        let some = self.words[0] > 0;
        let mut shown = ambrulicciu::Delays::default();
        assert_eq!(calls::spread_show(&self.words, &mut shown), 0);
        assert_eq!(shown.samples, self.words[0]);
        show_delays(&shown, some.then(|| ms(self.words[1])), self.theirs.average_ms(), some.then(|| ms(self.words[2])));
        // The header's words on jitter and deviation.
        let sum = (self.words[8] as u128) << 64 | self.words[9] as u128;
        assert_eq!((self.words[10] > 0).then(|| (sum / self.words[10] as u128) as u64), self.theirs.jitter_ns());
        let deviation = (self.words[0] >= 2).then(|| (f64::from_bits(self.words[7]) / self.words[0] as f64).max(0.0).sqrt());
        assert_eq!(deviation.map(f64::to_bits), self.theirs.std_dev_ns().map(f64::to_bits));
        assert!(f64::from_bits(self.words[7]) >= 0.0, "m2 below 0, or a NaN");
        for percent in [0.0, 50.0, 95.0, 99.0, 100.0] {
            let (mut value, mut present) = ([0], [0]);
            let state = [0, self.words[0], self.words[1], self.words[2]];
            assert_eq!(calls::quantiles_percentiles(&state, &self.room, &[percent], &mut value, &mut present), 0);
            assert_eq!((present[0] != 0).then_some(value[0]), self.theirs.percentile_ns(percent));
        }
        for (way, direction) in self.directions.iter().enumerate() {
            let at = 6 * way;
            let ms = |ns: u64| ns as i64 as f64 / 1_000_000.0;
            let some = self.ways[at] > 0;
            assert_eq!(calls::directions_show(&self.ways, way as u32, &mut shown), 0);
            assert_eq!(shown.samples, self.ways[at]);
            show_delays(&shown, some.then(|| ms(self.ways[at + 1])), direction.average_ms(), some.then(|| ms(self.ways[at + 2])));
            let (mut value, mut present) = ([0], [0]);
            let state = [1, self.ways[at], self.ways[at + 1], self.ways[at + 2]];
            let part = &self.slice[way * PART..(way + 1) * PART];
            assert_eq!(calls::quantiles_percentiles(&state, part, &[50.0], &mut value, &mut present), 0);
            assert_eq!((present[0] != 0).then_some(value[0] as i64), direction.middle());
        }
        assert!((2 * PART..2 * PART + 5).all(|i| self.slice[i] == i as u64), "a word behind both parts was written");
    }
}

fn play(series: u64, seed: u64) {
    let mut random = Random(seed | 1 << 40);
    let mut samples = 0u64;
    for kind in 0..KINDS {
        for _ in 0..series {
            let mut both = Both::new(&mut random);
            let length = if random.next() % 2 == 0 { random.next() % 40 } else { 4080 + random.next() % 400 };
            for i in 0..length {
                let reverse = if i % 5 == 0 { 1 } else { 0 };
                let before = both.slice.clone();
                let value = sample(kind, &mut random);
                both.record(value, reverse);
                let other = if reverse == 1 { 0..PART } else { PART..2 * PART };
                assert_eq!(before[other.clone()], both.slice[other]);
                both.compare();
                samples += 1;
            }
            both.shown();
        }
    }
    println!("spread: {} series, {samples} samples, equal", KINDS * series);
}

fn long(length: u64) {
    let mut random = Random(77);
    for kind in 0..KINDS {
        let mut both = Both::new(&mut random);
        for i in 0..length {
            let value = sample(kind, &mut random);
            both.record(value, (i % 3 == 0) as usize);
            if i % 1000 == 0 {
                both.compare();
            }
        }
        both.shown();
    }
    println!("spread: {KINDS} series of {length} samples, equal");
}

/// The original as a function of its own, as the core's calls are: else it is compiled into the loop that times it.
#[inline(never)]
fn trip_called(trips: &mut RttCollector, v: u64) {
    trips.record(RttSample { seq: 0, rtt_ns: v, ttl: 0 });
}

#[inline(never)]
fn way_called(way: &mut OwdDirection, v: i64) {
    way.note(v);
}

/// Nanoseconds of these calls, one for each value.
fn nanos(values: &[u64], mut call: impl FnMut(u64)) -> u128 {
    let start = Instant::now();
    for v in values {
        call(black_box(*v));
    }
    start.elapsed().as_nanos()
}

/// Nanoseconds a sample of both sides, the least of 40 turns of 4,000 samples each; the original compiled into the loop, and called.
fn time() {
    let mut random = Random(5);
    let values: Vec<u64> = (0..4000).map(|_| sample(0, &mut random)).collect();
    for (name, before) in [("exact", 0usize), ("histogram", 5000)] {
        // Ours; the original in the loop; the original called, in turns of their own, so that both find memory alike.
        let mut trips = [u128::MAX; 3];
        let mut ways = [u128::MAX; 3];
        for turn in 0..80 {
            let mut both = Both::new(&mut random);
            for i in 0..before {
                both.record(values[i % 4000], 0);
            }
            let mut recorded = [0];
            let called = turn % 2;
            let ours = nanos(&values, |v| { calls::spread_record(&mut both.words, &mut both.room, v, &mut recorded); });
            let theirs = if called == 1 {
                nanos(&values, |v| trip_called(&mut both.theirs, v))
            } else {
                nanos(&values, |v| both.theirs.record(RttSample { seq: 0, rtt_ns: v, ttl: 0 }))
            };
            trips[0] = trips[0].min(ours);
            trips[1 + called] = trips[1 + called].min(theirs);
            let ours = nanos(&values, |v| { calls::directions_record(&mut both.ways, &mut both.slice, 0, v, &mut recorded); });
            let theirs = if called == 1 {
                nanos(&values, |v| way_called(&mut both.directions[0], v as i64))
            } else {
                nanos(&values, |v| both.directions[0].note(v as i64))
            };
            ways[0] = ways[0].min(ours);
            ways[1 + called] = ways[1 + called].min(theirs);
            both.compare();
        }
        for (what, least) in [("round trips", trips), ("a direction", ways)] {
            let [ours, inlined, called] = least.map(|t| t as f64 / 4000.0);
            println!("{name:>10}, {what}: {ours:.1} ns; the original in the loop {inlined:.1}, {:.2}; called {called:.1}, {:.2}", ours / inlined, ours / called);
        }
    }
}

fn main() {
    let told: Vec<String> = std::env::args().skip(1).collect();
    match told.iter().map(String::as_str).collect::<Vec<_>>()[..] {
        ["play", series, seed] => play(series.parse().unwrap(), seed.parse().unwrap()),
        ["long", samples] => long(samples.parse().unwrap()),
        ["time"] => time(),
        _ => panic!("usage: spread play SERIES SEED | spread long SAMPLES | spread time"),
    }
}
