//! Sums of delays (`Delays` of measurements.rs).
mod scripts;

use super::{COUNTS_FULL, COUNT_BOUND, SUM_BOUND};
use crate::{
    cover::Cover,
    part::{answer, Answer, Call, Original, Part},
    sender::measurements::Sums,
};

/// No samples.
const FRESH: u64 = 0;
/// A round trip in ns.
const ROUND_TRIP: u64 = 1;
/// A signed delay in ns.
const DELAY: u64 = 2;
/// Count, the sum's sign and two words, minimum, maximum: a state as a host could hand it over.
const LOAD: u64 = 3;

pub const PART: Part = Part {
    name: "delays",
    program: "play_delays",
    here: None,
    call_words: 8,
    answer_words: 16,
    lines: &LINES,
    fresh: || Box::new(Delayed::default()),
    scripts: scripts::scripts,
    sample: scripts::sample,
    show,
    answer: &[
        "refusal",
        "samples",
        "1 for a sum below 0",
        "its magnitude, high word",
        "low word",
        "1 if there is a minimum and a maximum",
        "1 for a minimum below 0",
        "its magnitude",
        "1 for a maximum below 0",
        "its magnitude",
        "which of the three in ms there are",
        "minimum in ms",
        "average in ms",
        "maximum in ms",
    ],
};

const LINES: [&str; 11] = [
    "first sample",
    "lower minimum",
    "higher maximum",
    "between the two",
    "negative sample",
    "negative sum",
    "sum beyond 64 bits",
    "sum that f64 cannot hold",
    "refused 4 for the count",
    "refused 4 for a positive sum",
    "refused 4 for a negative sum",
];

#[derive(Default)]
struct Delayed {
    sums: Sums,
}

impl Original for Delayed {
    fn play(&mut self, call: &mut Call, cover: &mut Cover) -> Answer {
        match call[0] {
            ROUND_TRIP => self.delay(i128::from(call[1]), cover),
            DELAY => self.delay(i128::from(call[1] as i64), cover),
            LOAD => self.load(call),
            _ => {
                *self = Self::default();
                self.shown(0)
            }
        }
    }
}

impl Delayed {
    fn shown(&self, refusal: u64) -> Answer {
        let (count, sum, min, max) = self.sums.state();
        let shown = self.sums.summary();
        let known = [shown.min_ms, shown.avg_ms, shown.max_ms].map(|x| u64::from(x.is_some()));
        let bits = |x: Option<f64>| x.map_or(0, f64::to_bits);
        let [low, least] = signed(min);
        let [high, most] = signed(max);
        let magnitude = sum.unsigned_abs();
        answer(&[
            refusal,
            count,
            u64::from(sum < 0),
            (magnitude >> 64) as u64,
            magnitude as u64,
            u64::from(min.is_some()),
            low,
            least,
            high,
            most,
            known[0] | known[1] << 1 | known[2] << 2,
            bits(shown.min_ms),
            bits(shown.avg_ms),
            bits(shown.max_ms),
        ])
    }

    fn delay(&mut self, ns: i128, cover: &mut Cover) -> Answer {
        let (count, sum, min, max) = self.sums.state();
        if count >= COUNT_BOUND || sum.unsigned_abs() >= SUM_BOUND {
            cover.reached_if(count >= COUNT_BOUND, "refused 4 for the count");
            let large = count < COUNT_BOUND;
            cover.reached_if(large && sum > 0, "refused 4 for a positive sum");
            cover.reached_if(large && sum < 0, "refused 4 for a negative sum");
            return self.shown(COUNTS_FULL);
        }
        self.sums.record(ns);
        let sum = self.sums.state().1;
        cover.reached_if(min.is_none(), "first sample");
        cover.reached_if(min.is_some_and(|m| ns < m), "lower minimum");
        cover.reached_if(max.is_some_and(|m| ns > m), "higher maximum");
        let between = min.zip(max).is_some_and(|(a, b)| a <= ns && ns <= b);
        cover.reached_if(between, "between the two");
        cover.reached_if(ns < 0, "negative sample");
        cover.reached_if(sum < 0, "negative sum");
        cover.reached_if(sum.unsigned_abs() >= 1 << 64, "sum beyond 64 bits");
        let inexact = sum as f64 as i128 != sum;
        cover.reached_if(inexact, "sum that f64 cannot hold");
        self.shown(0)
    }

    fn load(&mut self, call: &Call) -> Answer {
        let magnitude = (i128::from(call[3]) << 64) | i128::from(call[4]);
        let sum = if call[2] != 0 { -magnitude } else { magnitude };
        // Minimum and maximum are signed words.
        let (min, max) = (call[5] as i64, call[6] as i64);
        self.sums
            .load(call[1], sum, i128::from(min), i128::from(max));
        self.shown(0)
    }
}

/// A sign and a magnitude.
fn signed(ns: Option<i128>) -> [u64; 2] {
    ns.map_or([0, 0], |x| [u64::from(x < 0), x.unsigned_abs() as u64])
}

fn show(call: &Call) -> String {
    match call[0] {
        FRESH => "fresh".into(),
        ROUND_TRIP => format!("round trip {}", call[1]),
        DELAY => format!("delay {}", call[1] as i64),
        _ => format!(
            "load count {} sum {} {:x} {:x} minimum {} maximum {}",
            call[1], call[2], call[3], call[4], call[5] as i64, call[6] as i64
        ),
    }
}
