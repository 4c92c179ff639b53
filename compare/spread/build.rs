//! Puts the original's texts into target/texts: quantiles.rs unchanged, and of stats.rs the two parts that have `RttCollector` down to
//! `std_dev_ns` and `OwdDirection`, each unchanged from its first line to its last, with what reads their fields after them.
include!("../common/texts.rs");

const PARTS: [(&str, &str, &str); 2] = [
    ("/// A single RTT measurement sample.", "    /// Builds a snapshot of current statistics.", "}\n"),
    ("/// Accumulates the samples for one OWD direction", "/// Collects per-packet one-way-delay samples", ""),
];

const READERS: &str = "
impl RttCollector {
    pub fn words(&self) -> [u64; 12] {
        [self.quantiles.count(), self.min_ns.unwrap_or(0), self.max_ns.unwrap_or(0), (self.sum_ns >> 64) as u64, self.sum_ns as u64,
         self.variance_origin.unwrap_or(0), self.centered_mean_ns.to_bits(), self.m2_ns.to_bits(),
         (self.jitter_sum_ns >> 64) as u64, self.jitter_sum_ns as u64, self.jitter_count, self.last_rtt_ns.unwrap_or(0)]
    }
    pub fn average_ms(&self) -> Option<f64> {
        let n = self.quantiles.count();
        (n > 0).then(|| self.sum_ns as f64 / n as f64 / 1_000_000.0)
    }
}
impl OwdDirection {
    pub fn words(&self) -> [u64; 6] {
        let size = self.sum_ns.unsigned_abs();
        [self.quantiles.count(), self.min_ns.unwrap_or(0) as u64, self.max_ns.unwrap_or(0) as u64, (self.sum_ns < 0) as u64, (size >> 64) as u64, size as u64]
    }
    pub fn note(&mut self, v: i64) {
        self.record(v)
    }
    pub fn average_ms(&self) -> Option<f64> {
        self.mean_ns().map(|ns| ns / 1_000_000.0)
    }
    pub fn middle(&self) -> Option<i64> {
        self.median_ns()
    }
}
";

fn main() {
    fs::write(place().join("quantiles.rs"), text("src--src--stats--quantiles.rs.txt")).unwrap();
    let stats = text("src--src--stats.rs.txt");
    let mut kept = String::from("use super::quantiles::Quantiles;\n");
    for (first, end, closing) in PARTS {
        let from = stats.find(first).expect(first);
        let to = from + stats[from..].find(end).expect(end);
        kept += &stats[from..to];
        kept += closing;
    }
    fs::write(place().join("stats.rs"), kept.replace("\nstruct OwdDirection", "\npub struct OwdDirection") + READERS).unwrap();
}
