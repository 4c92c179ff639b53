//! What the example hosts print of a link, worked out by the original from the log that the host kept.
use super::{
    original::Link,
    record::{self, ESTIMATES, OBSERVE},
};
use crate::{
    error_estimate::ErrorEstimate,
    sender::measurements::MeasurementSummary,
    stats::{quantiles::Series, ClockQuality},
};
use std::fmt::Write;

/// What the original makes of a log, by its own conversion.
struct Shown {
    link: Link,
    round_trips: Series<u64>,
    clocks: ClockQuality,
}

impl Shown {
    fn of(log: &[u8]) -> Option<Shown> {
        let (settings, records) = record::read(log).ok()?;
        let mut shown = Shown {
            link: Link::fresh(settings),
            round_trips: Series::fresh(),
            clocks: ClockQuality::default(),
        };
        for r in &records {
            if shown.link.play(r) != 0 || r.kind() != OBSERVE {
                continue;
            }
            shown.round_trips.record(r.number(20, 8));
            let wire = |at: usize| ErrorEstimate::from_wire(r.number(at, 2) as u16);
            shown
                .clocks
                .told(r.has(ESTIMATES).then(|| (wire(84), wire(86))));
        }
        Some(shown)
    }

    fn ms(&self, percent: f64) -> Option<f64> {
        let ns = self.round_trips.percentile(percent)?;
        Some(ns as f64 / 1_000_000.0)
    }
}

/// The loss as both hosts print it: a link that has requested nothing has none.
fn loss(s: &MeasurementSummary) -> String {
    (1000 * s.unobserved_requested_replies)
        .checked_div(s.requested_replies)
        .map_or("- (nothing was requested)".into(), |n| {
            format!("{n} of 1,000")
        })
}

/// The line of host/c.
pub fn host(log: &[u8]) -> Option<String> {
    let shown = Shown::of(log)?;
    let s = shown.link.snapshot();
    let (played, turned_away) = shown.link.calls();
    let loss = loss(&s);
    let f = &s.follow_up;
    let mut line = format!(
        "{played:3} records, {turned_away} turned away; loss {loss}, {} follow-ups matched",
        f.matched
    );
    if let Some(average) = f.reverse_delay.avg_ms {
        write!(line, ", average delay {average:.3} ms").ok()?;
    }
    if let Some(largest) = f.clock_quality.max_combined_error_ms {
        write!(line, ", clocks within {largest:.3} ms").ok()?;
    }
    if let (Some(a), Some(b), Some(c), Some(d)) = (
        shown.ms(50.0),
        shown.ms(90.0),
        shown.ms(99.0),
        shown.ms(100.0),
    ) {
        write!(
            line,
            "; round trips 50 % {a:.1}, 90 % {b:.1}, 99 % {c:.1}, most {d:.1} ms"
        )
        .ok()?;
    }
    Some(line + "\n")
}

/// The lines of host/rust/src/bin/yard.rs below the report.
pub fn yard(log: &[u8]) -> Option<String> {
    let shown = Shown::of(log)?;
    let s = shown.link.snapshot();
    let mut lines = format!("loss: {}\n", loss(&s));
    let f = s.follow_up;
    if let (Some(half), Some(all)) = (shown.ms(50.0), shown.ms(100.0)) {
        lines += &format!("round trips: half within {half:.3} ms, all within {all:.3} ms\n");
    }
    if let Some(delay) = f.reverse_delay.avg_ms {
        let samples = f.reverse_delay.samples;
        lines += &format!("delay from the reflector: {delay:.3} ms on average of {samples}\n");
    }
    if let Some(error) = shown.clocks.max_combined_error_ms {
        lines += &format!("both clocks together within {error:.6} ms by their own account\n");
    }
    Some(lines)
}
