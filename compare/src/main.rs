//! Holds the port against the original: plays the same scripts of calls on both and compares every answer and state.
#![allow(dead_code)]

mod cover;
mod digest;
mod part;
mod parts;
mod port;
mod random;

// The original's own modules, under the names that its texts use.
#[path = "../target/texts/clock_format.rs"]
pub mod clock_format;
pub mod configuration {
    pub use crate::clock_format::ClockFormat;
}
#[path = "../target/texts/error_estimate.rs"]
pub mod error_estimate;
pub mod sender;
pub mod stats;
pub mod time;
pub mod tlv;

use std::{
    env, fs,
    io::{self, Read},
    process::exit,
    time::{Duration, Instant},
};

use cover::Cover;
use part::{Part, Script};
use random::Random;

/// The seed of the fixed list that the repository keeps.
const SAMPLE_SEED: u64 = 20_261_027;

const USAGE: &str = "usage: compare play START SEED SECONDS PART..   compare sample CRATES PART..   compare round CRATES SEED PART..   compare reach SEED PART..   compare logs START SEED SECONDS LEAST   compare shipped START FOLDER   compare files START FOLDER   compare host_logs SEED SECONDS   compare trim START FOLDER SEED one|all   compare recount START FOLDER SEED one|all   compare bursts SEED LINKS   compare conversions SEED COUNT   compare report|list|host|yard < LOG   compare parts";

fn main() {
    let args: Vec<String> = env::args().collect();
    match args.get(1).map(String::as_str) {
        Some("parts") => parts::ALL
            .iter()
            .for_each(|p| println!("{} {}", p.name, p.program)),
        Some("reach") if args.len() > 3 => {
            let seed = args[2].parse().expect(USAGE);
            chosen(&args[3..]).for_each(|part| reach(part, seed));
            if args[3..].iter().any(|name| name == "logs") {
                parts::logs::reach(seed);
            }
        }
        Some("sample") if args.len() > 3 => {
            let made = |part: &Part| (part.sample)(&mut Random::new(SAMPLE_SEED));
            chosen(&args[3..]).for_each(|part| keep(part, made(part), &args[2]));
            if args[3..].iter().any(|name| name == "logs") {
                parts::logs::keep(&mut Random::new(SAMPLE_SEED), &args[2]);
            }
        }
        Some("round") if args.len() > 4 => {
            let seed = args[3].parse().expect(USAGE);
            let made = |part: &Part| (part.scripts)(&mut Random::new(seed), false);
            chosen(&args[4..]).for_each(|part| keep(part, made(part), &args[2]));
        }
        Some("play") if args.len() > 5 => {
            let seed = args[3].parse().expect(USAGE);
            let seconds = args[4].parse().expect(USAGE);
            if !play(&args[2], seed, seconds, &args[5..]) {
                exit(1);
            }
        }
        Some("logs") if args.len() == 6 => {
            let number = |i: usize| args[i].parse().expect(USAGE);
            if !parts::logs::play(&args[2], number(3), number(4), number(5)) {
                exit(1);
            }
        }
        Some("shipped") if args.len() == 4 => {
            if !parts::logs::shipped(&args[2], &args[3], 20_000) {
                exit(1);
            }
        }
        Some("files") if args.len() == 4 => {
            if !parts::logs::files(&args[2], &args[3]) {
                exit(1);
            }
        }
        #[cfg(feature = "host")]
        Some("host_logs") if args.len() == 4 => {
            let number = |i: usize| args[i].parse().expect(USAGE);
            if !parts::logs::hosted::play(number(2), number(3)) {
                exit(1);
            }
        }
        #[cfg(feature = "host")]
        Some("trim") if args.len() == 6 => {
            let seed = args[4].parse().expect(USAGE);
            if !parts::logs::trim::play(&args[2], &args[3], seed, args[5] == "all") {
                exit(1);
            }
        }
        #[cfg(feature = "host")]
        Some("bursts") if args.len() == 4 => {
            let number = |i: usize| args[i].parse().expect(USAGE);
            if !parts::ledger::bursts::play(number(2), number(3)) {
                exit(1);
            }
        }
        #[cfg(feature = "host")]
        Some("recount") if args.len() == 6 => {
            let seed = args[4].parse().expect(USAGE);
            if !parts::logs::recount::play(&args[2], &args[3], seed, args[5] == "all") {
                exit(1);
            }
        }
        #[cfg(feature = "host")]
        Some("conversions") if args.len() == 4 => {
            let number = |i: usize| args[i].parse().expect(USAGE);
            if !parts::ledger::conversions::play(number(2), number(3)) {
                exit(1);
            }
        }
        Some(asked @ ("report" | "list" | "host" | "yard")) => {
            let mut log = Vec::new();
            io::stdin().read_to_end(&mut log).expect("a log");
            let text = match asked {
                "report" => Some(parts::logs::example(&log)),
                "list" => parts::logs::list(&log),
                "host" => parts::logs::host(&log),
                _ => parts::logs::yard(&log),
            };
            match text {
                Some(text) => print!("{text}"),
                None => exit(1),
            }
        }
        _ => {
            eprintln!("{USAGE}");
            exit(2);
        }
    }
}

fn chosen(names: &[String]) -> impl Iterator<Item = &'static Part> + '_ {
    parts::ALL
        .iter()
        .filter(move |p| names.iter().any(|n| n == p.name))
}

/// Plays one round of each part, and further rounds with other seeds until the time is over. 0 seconds: one short round.
fn play(start: &str, seed: u64, seconds: u64, names: &[String]) -> bool {
    let began = Instant::now();
    let mut all_well = true;
    let mut totals: Vec<(&Part, Cover, u64, u64)> = chosen(names)
        .map(|p| (p, Cover::new(p.lines), 0, 0))
        .collect();
    let mut round = 0;
    // What is played and how far it is, on standard error: each part of a short run, and a line each ten seconds of a long one.
    let mut said = Instant::now();
    loop {
        for (part, cover, scripts_played, calls_played) in &mut totals {
            let mut random = Random::new(seed.wrapping_add(round));
            let scripts = (part.scripts)(&mut random, seconds > 0);
            // A program is started once for all scripts; what plays in this process takes them one by one, up to a difference.
            let at_once = part.here.map_or(scripts.len(), |_| 1);
            for some in scripts.chunks(at_once.max(1)) {
                let played = port::play(part, some, cover);
                let written = port::port(start, part, &played.given);
                *scripts_played += some.len() as u64;
                *calls_played += played.calls;
                if let Some(d) = port::compare(part, some, &played.expected, &written) {
                    println!("seed {}", seed.wrapping_add(round));
                    port::report(start, part, some, &d);
                    all_well = false;
                    break;
                }
            }
            if seconds == 0 || said.elapsed() >= Duration::from_secs(10) {
                let (at, name) = (began.elapsed().as_secs(), part.name);
                let of = (seconds > 0).then(|| format!(" of {seconds}"));
                let of = of.unwrap_or_default();
                eprintln!("compare: {name}: {calls_played} calls, {at}{of} s");
                said = Instant::now();
            }
        }
        round += 1;
        if !all_well || began.elapsed() >= Duration::from_secs(seconds) {
            break;
        }
    }
    println!("reached:");
    for (part, cover, ..) in &totals {
        cover.print(part.name);
    }
    for (part, cover, scripts, calls) in &totals {
        for line in cover.missing() {
            println!("NOT REACHED in {}: {line}", part.name);
            all_well = false;
        }
        println!(
            "{}: {scripts} scripts, {calls} calls, {round} rounds from seed {seed}",
            part.name
        );
    }
    all_well
}

/// Plays one short round on the original alone and says what it reached.
fn reach(part: &Part, seed: u64) {
    let scripts = (part.scripts)(&mut Random::new(seed), false);
    let mut cover = Cover::new(part.lines);
    let played = port::play(part, &scripts, &mut cover);
    cover.print(part.name);
    println!(
        "{}: {} scripts, {} calls",
        part.name,
        scripts.len(),
        played.calls
    );
    for line in cover.missing() {
        println!("NOT REACHED in {}: {line}", part.name);
    }
}

/// Writes scripts as files: what a part's program is given, and what the original answers.
fn keep(part: &Part, scripts: Vec<Script>, crates: &str) {
    let played = port::play(part, &scripts, &mut Cover::nothing());
    let folder = format!("{crates}/{}", part.program);
    fs::write(format!("{folder}/stdin"), &played.given).expect("stdin");
    fs::write(format!("{folder}/stdout"), &played.expected).expect("stdout");
    println!(
        "{folder}: {} scripts, {} calls",
        scripts.len(),
        played.calls
    );
}
