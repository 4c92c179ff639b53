//! Extension areas: the library that hosts link against the original's `RawTlv::parse` and its typed values, in one process.
//!
//!     area play ROUNDS SEED     compares: items, refusals, values, what an observation is told, what is written
//!     area time                 times both sides, in turns
mod play;
mod time;
#[allow(dead_code, unused_imports)]
mod tlv;

fn main() {
    let told: Vec<String> = std::env::args().skip(1).collect();
    match told.iter().map(String::as_str).collect::<Vec<_>>()[..] {
        ["play", rounds, seed] => play::run(rounds.parse().unwrap(), seed.parse().unwrap()),
        ["time"] => time::run(),
        _ => panic!("usage: area play ROUNDS SEED | area time"),
    }
}
