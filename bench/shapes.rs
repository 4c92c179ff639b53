// Percentiles of an exact room of 4,096 samples, by the shape of the series: one, two, three and four at once. The original clones the
// samples and sorts the clone, so what its sort knows of a shape is held against what the search does with it.
use crate::{original_quantiles, table::Table};
use ambrulicciu::{calls, Quantiles};
use std::hint::black_box;

const COUNT: usize = 4096;

struct Draw(u64);

impl Draw {
    fn word(&mut self) -> u64 {
        self.0 ^= self.0 << 13;
        self.0 ^= self.0 >> 7;
        self.0 ^= self.0 << 17;
        self.0.wrapping_mul(2685821657736338717)
    }

    fn unit(&mut self) -> f64 {
        (self.word() >> 11) as f64 / (1u64 << 53) as f64
    }

    // the sum of twelve draws: mean 0, deviation 1
    fn bell(&mut self) -> f64 {
        (0..12).map(|_| self.unit()).sum::<f64>() - 6.0
    }

    fn series(&mut self, mut sample: impl FnMut(&mut Draw, usize) -> u64) -> Vec<u64> {
        (0..COUNT).map(|i| sample(self, i)).collect()
    }
}

// Round trips in ns where a link gives them.
fn shapes() -> Vec<(&'static str, Vec<u64>)> {
    let mut draw = Draw(88172645463325252);
    let random = draw.series(|d, _| d.word());
    let mut sorted = random.clone();
    sorted.sort();
    let descending: Vec<u64> = sorted.iter().rev().copied().collect();
    let bell = draw.series(|d, _| (20_500_000.0 + 150_000.0 * d.bell()) as u64);
    let mut outliers = bell.clone();
    for k in 0..9 {
        outliers[(k * 449 + 13) % COUNT] = 5_000_000_000 + draw.word() % 1_000_000_000;
    }
    let mut nearly = sorted.clone();
    for _ in 0..20 {
        nearly.swap(draw.word() as usize % COUNT, draw.word() as usize % COUNT);
    }
    vec![
        ("random", random),
        ("sorted", sorted),
        ("descending", descending),
        ("constant", vec![20_000_000; COUNT]),
        ("three distinct values", draw.series(|d, _| 19_000_000 + 1_250_000 * (d.word() % 3))),
        ("20 ms, 0 to 1 ms of jitter", draw.series(|d, _| 20_000_000 + d.word() % 1_000_000)),
        ("a bell", bell),
        ("an exponential tail", draw.series(|d, _| (20_000_000.0 - 200_000.0 * (1.0 - d.unit()).ln()) as u64)),
        ("a bell, nine outliers of 5 to 6 s", outliers),
        ("all bit lengths", draw.series(|d, _| { let short = d.word() % 64; d.word() >> short })),
        ("sawtooth", draw.series(|_, i| 20_000_000 + i as u64 % 128 * 7_919)),
        ("two plateaus", draw.series(|d, i| if i / 512 % 2 == 0 { 20_000_000 } else { 35_000_000 } + d.word() % 100_000)),
        ("nearly sorted", nearly),
        ("a clock of 1 ms", draw.series(|d, _| (20.5 + 1.5 * d.bell()) as u64 * 1_000_000)),
    ]
}

fn row<const N: usize>(table: &mut Table, shape: &str, ours: &Quantiles<u64>, original: &original_quantiles::Quantiles<u64>, percents: [f64; N]) {
    let expected = original.percentiles(percents).map(Option::unwrap);
    assert_eq!(ours.percentiles(percents), Ok(Some(expected)), "the two must show the same");
    let (mut shown, mut present) = ([0; N], [0]);
    table.row(
        &format!("`quantiles_percentiles`, exact, {shape}, {N}"),
        20,
        1,
        || {
            calls::quantiles_percentiles(&ours.words, &ours.room, black_box(&percents), black_box(&mut shown), &mut present);
        },
        || {
            black_box(black_box(original).percentiles(black_box(percents)));
        },
    );
}

pub fn rows(table: &mut Table) {
    for (shape, samples) in shapes() {
        let mut ours = Quantiles::<u64>::new();
        let mut original = original_quantiles::Quantiles::<u64>::default();
        for &v in &samples {
            assert_eq!(ours.record(v), Ok(true));
            assert!(original.record(v));
        }
        row(table, shape, &ours, &original, [50.0]);
        row(table, shape, &ours, &original, [50.0, 90.0]);
        row(table, shape, &ours, &original, [50.0, 90.0, 99.0]);
        row(table, shape, &ours, &original, [50.0, 90.0, 95.0, 99.0]);
    }
}
