//! Puts the original's texts into target/texts, each unchanged from its first byte to its last, with what ber.rs leans on after it.
include!("../common/texts.rs");

const TEXTS: [(&str, &str, &str); 4] = [
    ("src--src--ber.rs.txt", "ber.rs", "use crate::{hex, log};\nimpl DirectionSummary {\n    pub fn note(&mut self, bits: u64, errors: u32, burst: Option<u32>) {\n        self.record(bits, errors, burst)\n    }\n    pub fn burst_total(&self) -> u64 {\n        self.burst_sum\n    }\n}\n"),
    ("src--src--tlv--core.rs.txt", "core.rs", ""),
    ("src--src--tlv--typed--ber_count.rs.txt", "ber_count.rs", ""),
    ("src--src--tlv--typed--ber_burst.rs.txt", "ber_burst.rs", ""),
];

fn main() {
    for (name, file, added) in TEXTS {
        fs::write(place().join(file), text(name) + "\n" + added).unwrap();
    }
}
