//! Bit errors: the library that hosts link against src/ber.rs, in one process.
//!
//!     bits play ROUNDS SEED     compares: patterns' texts, counts, observations, summaries
//!     bits time                 times both sides of the count, in turns
mod play;
mod time;
#[allow(dead_code, unused_imports)]
mod tlv;

#[allow(dead_code, unused_imports)]
#[path = "../target/texts/ber.rs"]
mod ber;

/// Stands in for the crate `hex`, whose `decode` takes an even number of digits of either case.
pub mod hex {
    pub fn decode(text: &str) -> Result<Vec<u8>, &'static str> {
        if text.len() % 2 != 0 {
            return Err("odd");
        }
        let digit = |b: u8| (b as char).to_digit(16).map(|d| d as u8).ok_or("digit");
        text.as_bytes().chunks(2).map(|two| Ok(digit(two[0])? * 16 + digit(two[1])?)).collect()
    }
}

/// Stands in for the crate `log`.
pub mod log {
    macro_rules! warn_ {
        ($($told:tt)*) => {{}};
    }
    pub(crate) use warn_ as warn;
}

fn main() {
    let told: Vec<String> = std::env::args().skip(1).collect();
    match told.iter().map(String::as_str).collect::<Vec<_>>()[..] {
        ["play", rounds, seed] => play::run(rounds.parse().unwrap(), seed.parse().unwrap()),
        ["time"] => time::run(),
        _ => panic!("usage: bits play ROUNDS SEED | bits time"),
    }
}
