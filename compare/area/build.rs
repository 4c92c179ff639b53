//! Puts the original's texts into target/texts, each unchanged from its first byte to its last.
include!("../common/texts.rs");

const TEXTS: [(&str, &str); 3] = [
    ("src--src--tlv--core.rs.txt", "core.rs"),
    ("src--src--tlv--typed--direct_measurement.rs.txt", "direct_measurement.rs"),
    ("src--src--tlv--typed--follow_up_telemetry.rs.txt", "follow_up_telemetry.rs"),
];

fn main() {
    for (name, file) in TEXTS {
        fs::write(place().join(file), text(name)).unwrap();
    }
}
