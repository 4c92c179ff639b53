//! Puts the original's texts into target/texts, each unchanged from its first byte to its last, with our accessors after it.
use std::{env, fs, path::Path};

/// The texts, and the file that each becomes.
const TEXTS: [(&str, &str); 9] = [
    ("src--src--clock_format.rs.txt", "clock_format.rs"),
    ("src--src--error_estimate.rs.txt", "error_estimate.rs"),
    ("src--src--stats--clock_quality.rs.txt", "clock_quality.rs"),
    ("src--src--stats--quantiles.rs.txt", "quantiles.rs"),
    ("src--src--sender--session_state.rs.txt", "session_state.rs"),
    ("src--src--sender--measurements.rs.txt", "measurements.rs"),
    ("src--src--time.rs.txt", "time.rs"),
    (
        "src--src--tlv--typed--direct_measurement.rs.txt",
        "direct_measurement.rs",
    ),
    (
        "src--src--tlv--typed--follow_up_telemetry.rs.txt",
        "follow_up_telemetry.rs",
    ),
];

fn main() {
    let here = env::var("CARGO_MANIFEST_DIR").unwrap();
    let docs = env::var("ORIGINAL_DOCS").unwrap_or(format!("{here}/../../shared/docs"));
    println!("cargo:rerun-if-env-changed=ORIGINAL_DOCS");
    let place = Path::new(&here).join("target/texts");
    fs::create_dir_all(&place).unwrap();
    for (text, file) in TEXTS {
        let from = Path::new(&docs).join(text);
        let accessors = Path::new(&here).join("accessors").join(file);
        println!("cargo:rerun-if-changed={}", from.display());
        println!("cargo:rerun-if-changed={}", accessors.display());
        let mut whole = fs::read(&from).unwrap_or_else(|e| panic!("{}: {e}", from.display()));
        if let Ok(added) = fs::read(&accessors) {
            whole.extend_from_slice(b"\n");
            whole.extend_from_slice(&added);
        }
        write_if_new(&place.join(file), &whole);
    }
    let sender = fs::read_to_string(Path::new(&docs).join("src--src--sender.rs.txt")).unwrap();
    write_if_new(
        &place.join("pending_packet.rs"),
        pending_packet(&sender).as_bytes(),
    );
}

/// `PendingPacket` as it stands in sender.rs, whose other parts need a network.
fn pending_packet(sender: &str) -> String {
    let start = sender
        .find("struct PendingPacket {")
        .expect("PendingPacket");
    let end = start + sender[start..].find("\n}\n").expect("its end") + 3;
    format!("#[derive(Clone, Copy)]\n{}", &sender[start..end])
}

/// Leaves a file that is right already alone, so that nothing is built anew.
fn write_if_new(file: &Path, bytes: &[u8]) {
    if fs::read(file).ok().as_deref() != Some(bytes) {
        fs::write(file, bytes).unwrap();
    }
}
