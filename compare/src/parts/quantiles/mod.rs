//! Quantiles (quantiles.rs), unsigned and signed.
#[cfg(feature = "host")]
pub mod hosted;
mod scripts;

use super::WRONG_ROOM;
use crate::{
    cover::Cover,
    digest::Digest,
    part::{answer, Answer, Call, Original, Part},
    stats::quantiles::Series,
};

/// 0 unsigned, 1 signed.
const FRESH: u64 = 0;
/// Value.
const RECORD: u64 = 1;
/// The percentile's bits.
const PERCENTILE: u64 = 2;
/// Count, minimum, maximum: a histogram as a host could hand it over, its buckets empty.
const LOAD: u64 = 3;
/// Bucket, count; the total of its block goes with it.
const BUCKET: u64 = 4;
/// Value or percentile, and by how many words the room is short.
const RECORD_SHORT: u64 = 5;
const PERCENTILE_SHORT: u64 = 6;
/// Block, count: its total alone, whatever its buckets hold.
const TOTAL: u64 = 7;
/// Bucket, count: alone, whatever the total of its block is.
const SPOILT: u64 = 8;
/// A call whose last word is 1 answers with the digests of samples or buckets too.
const DIGEST: usize = 7;

pub const PART: Part = Part {
    name: "quantiles",
    program: "play_quantiles",
    here: None,
    call_words: 8,
    answer_words: 8,
    lines: &LINES,
    fresh: || Box::new(Played::fresh(false)),
    scripts: scripts::scripts,
    sample: scripts::sample,
    show,
    answer: &[
        "refusal",
        "1 if recorded or a value is shown",
        "value",
        "count",
        "minimum",
        "maximum",
        "first digest",
        "second digest",
    ],
};

const LINES: [&str; 40] = [
    "fresh: unsigned",
    "fresh: signed",
    "record: exact",
    "record: sample 4,097 makes the histogram",
    "record: histogram",
    "record: lower minimum",
    "record: higher maximum",
    "record: between the two",
    "record: negative",
    "record: a bucket shared by unequal values",
    "record: largest value of its width",
    "record: smallest value of its width",
    "record: false at count 2^64-1",
    "record: refused 5, minimum above maximum",
    "record: refused 5, a bucket would pass u64",
    "record: refused 5, a block total would pass u64",
    "record: refused 5, room short",
    "percentile: empty",
    "percentile: exact",
    "percentile: histogram, rank 0",
    "percentile: histogram, last rank",
    "percentile: histogram, bucket value",
    "percentile: histogram, clamped to the minimum",
    "percentile: histogram, clamped to the maximum",
    "percentile: NaN",
    "percentile: negative",
    "percentile: above 100",
    "percentile: infinite",
    "percentile: subnormal",
    "percentile: rank exactly between two",
    "percentile: refused 5, minimum above maximum",
    "percentile: refused 5, totals do not add up to the count",
    "percentile: refused 5, totals add up to the count modulo 2^64 only",
    "percentile: refused 5, buckets of the block do not add up to its total",
    "percentile: refused 5, signed bucket 14,592",
    "percentile: served, a block that no rank reads lies",
    "percentile: first or last rank of a block",
    "percentile: refused 5, room short",
    "percentile: signed histogram",
    "percentile: unsigned histogram",
];

enum Both {
    Unsigned(Series<u64>),
    Signed(Series<i64>),
}

/// The original, and the totals of the blocks, which it does not have: kept here by plain sums.
struct Played {
    series: Both,
    totals: Vec<u64>,
}

/// Buckets of a block.
const BLOCK: usize = 128;

/// What both widths have, with values as words.
macro_rules! each {
    ($both:expr, $series:ident => $body:expr) => {
        match $both {
            Both::Unsigned($series) => $body,
            Both::Signed($series) => $body,
        }
    };
}

impl Original for Played {
    fn play(&mut self, call: &mut Call, cover: &mut Cover) -> Answer {
        match call[0] {
            FRESH => {
                let signed = call[1] != 0;
                *self = Played::fresh(signed);
                cover.reached_if(signed, "fresh: signed");
                cover.reached_if(!signed, "fresh: unsigned");
            }
            RECORD => return self.record(call, cover),
            PERCENTILE => return self.percentile(call, cover),
            LOAD => {
                match &mut self.series {
                    Both::Unsigned(s) => s.load(call[1], call[2], call[3]),
                    Both::Signed(s) => s.load(call[1], call[2] as i64, call[3] as i64),
                }
                self.totals.fill(0);
            }
            BUCKET => {
                let bucket = call[1] as usize;
                let was = self.series.buckets().map_or(0, |b| b[bucket]);
                let total = &mut self.totals[bucket / BLOCK];
                *total = total.wrapping_add(call[2].wrapping_sub(was));
                self.series.load_bucket(bucket, call[2]);
            }
            TOTAL => self.totals[call[1] as usize] = call[2],
            SPOILT => self.series.load_bucket(call[1] as usize, call[2]),
            RECORD_SHORT => {
                cover.reached("record: refused 5, room short");
                return self.shown(WRONG_ROOM, false, 0, call);
            }
            _ => {
                cover.reached("percentile: refused 5, room short");
                return self.shown(WRONG_ROOM, false, 0, call);
            }
        }
        self.shown(0, false, 0, call)
    }
}

impl Both {
    fn ends(&self) -> (u64, u64) {
        match self {
            Both::Unsigned(s) => (s.ends().0.unwrap_or(0), s.ends().1.unwrap_or(0)),
            Both::Signed(s) => (
                s.ends().0.unwrap_or(0) as u64,
                s.ends().1.unwrap_or(0) as u64,
            ),
        }
    }
    fn count(&self) -> u64 {
        each!(self, s => s.count())
    }
    fn buckets(&self) -> Option<&[u64]> {
        each!(self, s => s.buckets())
    }
    /// Minimum above maximum at a count above 0.
    fn crossed(&self) -> bool {
        let crossed = match self {
            Both::Unsigned(s) => s.ends().0 > s.ends().1,
            Both::Signed(s) => s.ends().0 > s.ends().1,
        };
        self.count() > 0 && crossed
    }
    fn bucket_of(&self, value: u64) -> usize {
        match self {
            Both::Unsigned(_) => Series::<u64>::bucket_of(value),
            Both::Signed(_) => Series::<i64>::bucket_of(value as i64),
        }
    }
    fn less(&self, a: u64, b: u64) -> bool {
        match self {
            Both::Unsigned(_) => a < b,
            Both::Signed(_) => (a as i64) < (b as i64),
        }
    }

    fn load_bucket(&mut self, bucket: usize, count: u64) {
        each!(self, s => s.load_bucket(bucket, count))
    }
    fn percentile(&self, p: f64) -> Option<u64> {
        match self {
            Both::Unsigned(s) => s.percentile(p),
            Both::Signed(s) => s.percentile(p).map(|v| v as u64),
        }
    }

    /// One sample more, and what it reached; `at` is what its bucket holds.
    fn record(&mut self, value: u64, at: Option<u64>, bucket: usize, cover: &mut Cover) -> bool {
        let (min, max) = self.ends();
        let some = self.count() > 0;
        let was_exact = self.buckets().is_none();
        let recorded = match self {
            Both::Unsigned(s) => s.record(value),
            Both::Signed(s) => s.record(value as i64),
        };
        if !recorded {
            cover.reached("record: false at count 2^64-1");
            return false;
        }
        let (lower, higher) = (self.less(value, min), self.less(max, value));
        cover.reached_if(some && lower, "record: lower minimum");
        cover.reached_if(some && higher, "record: higher maximum");
        cover.reached_if(some && !lower && !higher, "record: between the two");
        let signed = matches!(self, Both::Signed(_));
        cover.reached_if(signed && (value as i64) < 0, "record: negative");
        let (least, most) = if signed {
            (i64::MIN as u64, i64::MAX as u64)
        } else {
            (0, u64::MAX)
        };
        cover.reached_if(value == least, "record: smallest value of its width");
        cover.reached_if(value == most, "record: largest value of its width");
        let shared = at.is_some_and(|n| n > 0) && self.shown_of(bucket) != value;
        cover.reached_if(shared, "record: a bucket shared by unequal values");
        cover.reached(match (was_exact, self.buckets().is_none()) {
            (true, true) => "record: exact",
            (true, false) => "record: sample 4,097 makes the histogram",
            _ => "record: histogram",
        });
        true
    }

    fn shown_of(&self, bucket: usize) -> u64 {
        match self {
            Both::Unsigned(_) => Series::<u64>::shown(bucket),
            Both::Signed(_) => Series::<i64>::shown(bucket) as u64,
        }
    }

    /// What a histogram shows for a rank whose bucket is known.
    fn shown_at(&self, bucket: usize, rank: u64) -> u64 {
        let (min, max) = self.ends();
        let value = self.shown_of(bucket);
        if rank == 0 || rank != self.count() - 1 && self.less(value, min) {
            min
        } else if rank == self.count() - 1 || self.less(max, value) {
            max
        } else {
            value
        }
    }

    fn reached_by_percentile(&self, p: f64, value: Option<u64>, cover: &mut Cover) {
        cover.reached_if(p.is_nan(), "percentile: NaN");
        cover.reached_if(p < 0.0, "percentile: negative");
        cover.reached_if(p > 100.0, "percentile: above 100");
        cover.reached_if(p.is_infinite(), "percentile: infinite");
        cover.reached_if(p.is_subnormal(), "percentile: subnormal");
        let Some(value) = value else {
            cover.reached("percentile: empty");
            return;
        };
        let place = (p / 100.0) * (self.count() - 1) as f64;
        cover.reached_if(
            place > 0.0 && place.fract() == 0.5,
            "percentile: rank exactly between two",
        );
        if self.buckets().is_none() {
            cover.reached("percentile: exact");
            return;
        }
        cover.reached(match self {
            Both::Unsigned(_) => "percentile: unsigned histogram",
            Both::Signed(_) => "percentile: signed histogram",
        });
        let rank = (place.round() as u64).min(self.count() - 1);
        let (min, max) = self.ends();
        let bare = self.shown_of(self.bucket_of(value));
        if rank == 0 {
            cover.reached("percentile: histogram, rank 0");
        } else if rank == self.count() - 1 {
            cover.reached("percentile: histogram, last rank");
        } else if bare != value && value == min {
            cover.reached("percentile: histogram, clamped to the minimum");
        } else if bare != value && value == max {
            cover.reached("percentile: histogram, clamped to the maximum");
        } else {
            cover.reached("percentile: histogram, bucket value");
        }
    }
}

impl Played {
    fn fresh(signed: bool) -> Self {
        let (series, blocks) = if signed {
            (Both::Signed(Series::fresh()), 115)
        } else {
            (Both::Unsigned(Series::fresh()), 58)
        };
        let totals = vec![0; blocks];
        Self { series, totals }
    }

    fn record(&mut self, call: &Call, cover: &mut Cover) -> Answer {
        let value = call[1];
        let bucket = self.series.bucket_of(value);
        let at = self.series.buckets().map(|b| b[bucket]);
        let total = self.series.buckets().map(|_| self.totals[bucket / BLOCK]);
        if self.series.crossed() || at == Some(u64::MAX) || total == Some(u64::MAX) {
            cover.reached(if self.series.crossed() {
                "record: refused 5, minimum above maximum"
            } else if at == Some(u64::MAX) {
                "record: refused 5, a bucket would pass u64"
            } else {
                "record: refused 5, a block total would pass u64"
            });
            return self.shown(WRONG_ROOM, false, 0, call);
        }
        let was_exact = at.is_none();
        let recorded = self.series.record(value, at, bucket, cover);
        match self.series.buckets() {
            Some(buckets) if was_exact => {
                let sums = buckets.chunks(BLOCK).map(|block| block.iter().sum());
                self.totals = sums.collect();
            }
            Some(_) if recorded => self.totals[bucket / BLOCK] += 1,
            _ => {}
        }
        self.shown(0, recorded, 0, call)
    }

    fn percentile(&mut self, call: &Call, cover: &mut Cover) -> Answer {
        let p = f64::from_bits(call[1]);
        if self.series.crossed() {
            cover.reached("percentile: refused 5, minimum above maximum");
            return self.shown(WRONG_ROOM, false, 0, call);
        }
        let Some(buckets) = self.series.buckets() else {
            let value = self.series.percentile(p);
            self.series.reached_by_percentile(p, value, cover);
            return self.shown(0, value.is_some(), value.unwrap_or(0), call);
        };
        match self.searched(buckets, p, cover) {
            Err(line) => {
                cover.reached(line);
                self.shown(WRONG_ROOM, false, 0, call)
            }
            Ok(place) => {
                let sum = |b: &[u64]| b.iter().map(|n| u128::from(*n)).sum::<u128>();
                let sums = buckets.chunks(BLOCK).map(sum);
                let value = if sums.eq(self.totals.iter().map(|n| u128::from(*n))) {
                    // Nothing lies: the original's own walk over all buckets.
                    let value = self.series.percentile(p);
                    self.series.reached_by_percentile(p, value, cover);
                    value
                } else {
                    cover.reached("percentile: served, a block that no rank reads lies");
                    Some(self.series.shown_at(place, self.rank(p)))
                };
                self.shown(0, value.is_some(), value.unwrap_or(0), call)
            }
        }
    }

    fn rank(&self, p: f64) -> u64 {
        let last = self.series.count() - 1;
        (((p / 100.0) * last as f64).round() as u64).min(last)
    }

    /// The bucket of a percentile's rank by the totals, or why it is refused. Plain sums, in 128 bits.
    fn searched(&self, buckets: &[u64], p: f64, cover: &mut Cover) -> Result<usize, &'static str> {
        let count = self.series.count();
        let sum: u128 = self.totals.iter().map(|n| u128::from(*n)).sum();
        if sum != u128::from(count) {
            return Err(if sum as u64 == count {
                "percentile: refused 5, totals add up to the count modulo 2^64 only"
            } else {
                "percentile: refused 5, totals do not add up to the count"
            });
        }
        let rank = self.rank(p);
        let mut before = 0;
        let held = |n: &u64| {
            before += n;
            rank < before
        };
        let block = self.totals.iter().position(held).unwrap();
        let left = rank - (before - self.totals[block]);
        let inside = buckets.chunks(BLOCK).nth(block).unwrap();
        let sum: u128 = inside.iter().map(|n| u128::from(*n)).sum();
        if sum != u128::from(self.totals[block]) {
            return Err("percentile: refused 5, buckets of the block do not add up to its total");
        }
        if matches!(self.series, Both::Signed(_)) && block == 114 && inside[0] != 0 {
            return Err("percentile: refused 5, signed bucket 14,592");
        }
        let border = left == 0 || left == self.totals[block] - 1;
        cover.reached_if(border, "percentile: first or last rank of a block");
        let mut passed = 0;
        let here = |n: &u64| {
            passed += n;
            left < passed
        };
        Ok(block * BLOCK + inside.iter().position(here).unwrap())
    }

    fn shown(&self, refusal: u64, flag: bool, value: u64, call: &Call) -> Answer {
        let (min, max) = self.series.ends();
        let d = if call[DIGEST] == 1 {
            self.digest()
        } else {
            Digest::default()
        };
        let flag = u64::from(flag);
        let count = self.series.count();
        answer(&[refusal, flag, value, count, min, max, d.first, d.second])
    }

    /// Of the samples in their order, or of each bucket and each total that is not empty with its place.
    fn digest(&self) -> Digest {
        if let Some(buckets) = self.series.buckets() {
            let all = buckets.iter().chain(&self.totals).enumerate();
            let filled = all.filter(|(_, n)| **n > 0);
            return filled.fold(Digest::default(), |d, (i, n)| d.then(i as u64).then(*n));
        }
        match &self.series {
            Both::Unsigned(s) => s.samples().unwrap_or(&[]).iter().copied().collect(),
            Both::Signed(s) => s
                .samples()
                .unwrap_or(&[])
                .iter()
                .map(|v| *v as u64)
                .collect(),
        }
    }
}

impl FromIterator<u64> for Digest {
    fn from_iter<I: IntoIterator<Item = u64>>(words: I) -> Self {
        words.into_iter().fold(Digest::default(), Digest::then)
    }
}

fn show(call: &Call) -> String {
    match call[0] {
        FRESH => format!("fresh, signed {}", call[1]),
        RECORD => format!("record {} ({})", call[1], call[1] as i64),
        PERCENTILE => format!("percentile {:?} (0x{:x})", f64::from_bits(call[1]), call[1]),
        LOAD => format!(
            "load count {} minimum {} maximum {}",
            call[1], call[2], call[3]
        ),
        BUCKET => format!(
            "bucket {} holds {}, and its total with it",
            call[1], call[2]
        ),
        TOTAL => format!("total {} holds {}", call[1], call[2]),
        SPOILT => format!("bucket {} alone holds {}", call[1], call[2]),
        RECORD_SHORT => format!("record {} in a room {} words short", call[1], call[2]),
        _ => format!("percentile in a room {} words short", call[2]),
    }
}
