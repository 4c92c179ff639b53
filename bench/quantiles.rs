// src/stats/quantiles.rs: `record` and `percentiles`, exact and as a histogram, unsigned and signed.
use crate::{original_quantiles, table::Table};
use ambrulicciu::{calls, Quantiles, Value};
use std::hint::black_box;

const PERCENTS: [f64; 4] = [50.0, 90.0, 95.0, 99.0];

// Round trips in ns: a spread of some ms, as a link has.
fn samples(n: usize) -> Vec<u64> {
    let mut x: u64 = 88172645463325252;
    (0..n)
        .map(|_| {
            x ^= x << 13;
            x ^= x >> 7;
            x ^= x << 17;
            2_000_000 + x % 9_000_000
        })
        .collect()
}

#[inline(never)]
fn original_record<T: original_quantiles::QuantileValue>(series: &mut original_quantiles::Quantiles<T>, value: T) -> bool {
    series.record(value)
}

pub fn rows(table: &mut Table) {
    one::<u64>(table, "unsigned", |v| v);
    one::<i64>(table, "signed", |v| v as i64 - 6_000_000);
}

fn one<T: Value + PartialEq + std::fmt::Debug + original_quantiles::QuantileValue>(table: &mut Table, kind: &str, of: fn(u64) -> T) {
    let many: Vec<T> = samples(100_000).into_iter().map(of).collect();
    let mut words = [0; 4];
    table.alone(&format!("`quantiles_fresh`, {kind}"), 1000, || {
        calls::quantiles_fresh(black_box(&mut words), T::SIGNED.into());
    });
    for (count, mode) in [(4096usize, "exact"), (100_000, "histogram")] {
        let mut ours = Quantiles::<T>::new();
        let mut original = original_quantiles::Quantiles::<T>::default();
        for &v in &many[..count] {
            assert_eq!(ours.record(v), Ok(true));
            assert!(original.record(v));
        }
        let expected = original.percentiles(PERCENTS).map(Option::unwrap);
        assert_eq!(ours.percentiles(PERCENTS), Ok(Some(expected)), "the two must show the same");
        let (mut shown, mut present) = ([0; 4], [0]);
        table.row(
            &format!("`quantiles_percentiles`, four, {mode}, {kind}"),
            20,
            1,
            || {
                calls::quantiles_percentiles(&ours.words, &ours.room, black_box(&PERCENTS), black_box(&mut shown), &mut present);
            },
            || {
                black_box(black_box(&original).percentiles(black_box(PERCENTS)));
            },
        );
        if mode == "histogram" {
            let one = [PERCENTS[3]];
            table.row(
                &format!("`quantiles_percentiles`, one, {mode}, {kind}"),
                20,
                1,
                || {
                    calls::quantiles_percentiles(&ours.words, &ours.room, black_box(&one), black_box(&mut shown[..1]), &mut present);
                },
                || {
                    black_box(black_box(&original).percentiles(black_box(one)));
                },
            );
        }
    }
    let mut ours = Quantiles::<T>::new();
    let mut original = original_quantiles::Quantiles::<T>::default();
    table.row(
        &format!("`quantiles_record`, {kind}, of 20,000 from fresh"),
        1,
        20_000,
        || {
            calls::quantiles_fresh(&mut ours.words, T::SIGNED.into());
            let mut recorded = [0];
            for &v in &many[..20_000] {
                calls::quantiles_record(&mut ours.words, &mut ours.room, black_box(v).word(), black_box(&mut recorded));
            }
        },
        || {
            original = Default::default();
            for &v in &many[..20_000] {
                black_box(original_record(&mut original, black_box(v)));
            }
        },
    );
}
