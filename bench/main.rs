// The benchmark: each call of the library, as a host links it, beside the original's in one process.
#![allow(dead_code)]

mod ledger;
mod links;
mod monitor;
mod numbers;
mod quantiles;
mod shapes;
mod stopwatch;
mod table;
mod texts;

// The original's own modules, under the names that its texts use: compare/ has put them there.
#[path = "../compare/target/texts/clock_format.rs"]
pub mod clock_format;
pub mod configuration {
    pub use crate::clock_format::ClockFormat;
}
#[path = "../compare/target/texts/error_estimate.rs"]
pub mod error_estimate;
#[path = "../compare/target/texts/quantiles.rs"]
mod original_quantiles;
#[path = "../compare/src/sender/mod.rs"]
pub mod sender;
#[path = "../compare/src/stats/mod.rs"]
pub mod stats;
#[path = "../compare/target/texts/time.rs"]
pub mod time;
#[path = "../compare/src/tlv/mod.rs"]
pub mod tlv;

fn main() {
    let mut table = table::Table::new();
    let told: Vec<String> = std::env::args().skip(1).collect();
    let number = |otherwise| told.get(1).and_then(|n| n.parse().ok()).unwrap_or(otherwise);
    match told.first().map(String::as_str) {
        Some("lines") => return links::lines(number(16)),
        Some("links") => {
            links::rows(&mut table, number(1000));
            return table.print();
        }
        Some("shapes") => {
            shapes::rows(&mut table);
            return table.print();
        }
        _ => {}
    }
    ledger::rows(&mut table);
    monitor::rows(&mut table);
    numbers::rows(&mut table);
    quantiles::rows(&mut table);
    shapes::rows(&mut table);
    texts::rows(&mut table);
    table.print();
}
