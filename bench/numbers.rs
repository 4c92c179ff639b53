// src/error_estimate.rs and src/stats/clock_quality.rs.
use crate::{error_estimate::ErrorEstimate, stats::clock_quality::ClockQuality as Original, table::Table};
use ambrulicciu::{calls, ClockQuality, Quality};
use std::hint::black_box;

pub fn rows(table: &mut Table) {
    let mut wire = [0];
    table.row(
        "`estimate_new`",
        20_000,
        1,
        || {
            calls::estimate_new(black_box(1), black_box(0), black_box(12), black_box(7), black_box(&mut wire));
        },
        || {
            let made = ErrorEstimate::new(black_box(true), black_box(false), black_box(12), black_box(7));
            black_box(made.map(|e| e.to_wire()).unwrap_or(0));
        },
    );
    let mut seconds = [0.0];
    table.row(
        "`estimate_seconds`",
        20_000,
        1,
        || {
            calls::estimate_seconds(black_box(0x8c07), black_box(&mut seconds));
        },
        || {
            black_box(ErrorEstimate::from_wire(black_box(0x8c07)).error_seconds());
        },
    );
    let (mut known, mut received) = ([0], [0]);
    table.alone("`estimate_error`", 20_000, || {
        calls::estimate_error(black_box(0x8c07), black_box(&mut known), black_box(&mut seconds), black_box(&mut received));
    });
    let (mut ours, mut original) = (ClockQuality::new(), Original::default());
    table.row(
        "`clock_quality_record`",
        20_000,
        1,
        || {
            calls::clock_quality_record(black_box(&mut ours.words), 1, black_box(0xca07), black_box(0xcb09));
        },
        || {
            let pair = (ErrorEstimate::from_wire(black_box(0xca07)), ErrorEstimate::from_wire(black_box(0xcb09)));
            black_box(&mut original).told(Some(pair));
        },
    );
    assert_eq!((ours.summary().samples, ours.summary().largest.get()), (original.samples, original.max_combined_error_ms));
    let mut shown = Quality::default();
    table.row(
        "`clock_quality_summary`",
        20_000,
        1,
        || {
            calls::clock_quality_summary(black_box(&ours.words), black_box(&mut shown));
        },
        || {
            black_box(black_box(&original).clone());
        },
    );
}
