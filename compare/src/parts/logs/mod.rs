//! Whole logs (document 01, 'Log and program'): the text that `linkreport` prints, byte for byte.
//!
//! A program of the emulator takes long to start, so `play_logs` plays many logs in one run, by the same function as
//! `linkreport`; `linkreport` itself is run on some of them.
mod figures;
#[cfg(feature = "host")]
pub mod hosted;
mod kinds;
mod original;
mod record;
#[cfg(feature = "host")]
pub mod recount;
mod shipped;
#[cfg(feature = "host")]
pub mod trim;

use std::{
    collections::BTreeMap,
    fs,
    io::{Read, Write},
    process::{Command, Stdio},
    thread,
    time::{Duration, Instant},
};

use crate::{cover::Cover, random::Random};
pub use figures::{host, yard};
use kinds::Made;
use original::LINES;
pub use shipped::{files, play as shipped};

/// Logs in, reports out: each log's length in eight bytes, lowest first, and its bytes; each report ends in a 0 byte.
const PLAYER: &str = "play_logs";
/// The program itself: one log in, its report out.
const PROGRAM: &str = "linkreport";
/// Makes a log from its list.
const MAKER: &str = "tools/make-log";
const FAILING: &str = "compare/target/failing";

/// Plays rounds until the time is over and at least `least` logs were played. 0 seconds: one short round.
pub fn play(start: &str, seed: u64, seconds: u64, least: u64) -> bool {
    let began = Instant::now();
    let mut played = Played::new(start);
    let mut round = 0;
    let every = if seconds > 0 { 500 } else { 40 };
    loop {
        let mut random = Random::new(seed.wrapping_add(round));
        kinds::round(&mut random, seconds > 0, &mut |kind, logs| {
            if !played.failed {
                played.batch(kind, &logs, every);
            }
        });
        round += 1;
        let enough = seconds == 0 || played.total >= least;
        if played.failed || (enough && began.elapsed() >= Duration::from_secs(seconds)) {
            break;
        }
    }
    played.print(round, seed)
}

/// Plays one short round on the original alone and says what it reached.
pub fn reach(seed: u64) {
    let mut cover = Cover::new(&LINES);
    kinds::round(&mut Random::new(seed), false, &mut |kind, logs| {
        for made in &logs {
            original::report(&made.bytes, &mut cover);
        }
        println!("  {:>10}  logs: kind '{kind}'", logs.len());
    });
    cover.print("logs");
    for line in cover.missing() {
        println!("NOT REACHED in logs: {line}");
    }
}

struct Played<'a> {
    start: &'a str,
    cover: Cover,
    kinds: BTreeMap<&'static str, u64>,
    total: u64,
    /// How many of them were played by `linkreport` itself too.
    alone: u64,
    /// How many were made again by `tools/make-log`.
    lists: u64,
    python: bool,
    failed: bool,
    began: Instant,
    said: Instant,
}

impl<'a> Played<'a> {
    fn new(start: &'a str) -> Self {
        Self {
            start,
            cover: Cover::new(&LINES),
            kinds: BTreeMap::new(),
            total: 0,
            alone: 0,
            lists: 0,
            python: Command::new("python3").arg("--version").output().is_ok(),
            failed: false,
            began: Instant::now(),
            said: Instant::now(),
        }
    }

    /// How far it is, on standard error, each ten seconds.
    fn say(&mut self) {
        if self.said.elapsed() >= Duration::from_secs(10) {
            let at = self.began.elapsed().as_secs();
            eprintln!("compare: {} logs, {at} s", self.total);
            self.said = Instant::now();
        }
    }

    /// Plays these logs on both sides, and one of `every` by the program itself. Answers the original's texts.
    fn batch(&mut self, kind: &'static str, logs: &[Made], every: usize) -> Vec<String> {
        let expected: Vec<String> = logs
            .iter()
            .map(|made| original::report(&made.bytes, &mut self.cover))
            .collect();
        let reports = play_all(self.start, logs);
        *self.kinds.entry(kind).or_default() += logs.len() as u64;
        self.total += logs.len() as u64;
        self.say();
        for (i, (made, text)) in logs.iter().zip(&expected).enumerate() {
            let same = reports.get(i).is_some_and(|r| r == text.as_bytes());
            let alone = (self.total as usize + i) % every == 0;
            self.alone += u64::from(alone);
            if alone && !self.made_again(&made.bytes) {
                println!("DIFFERENCE in logs: {MAKER} makes another log from the list of log {i}");
                fs::write(format!("{FAILING}.log"), &made.bytes).expect(FAILING);
                self.failed = true;
                return expected;
            }
            if !same || (alone && play_one(self.start, &made.bytes) != text.as_bytes()) {
                println!("DIFFERENCE in logs: {kind}, log {i} of {}", logs.len());
                self.failed = true;
                report_difference(self.start, made);
                return expected;
            }
        }
        if reports.len() != logs.len() {
            println!(
                "DIFFERENCE in logs: {kind}, {} reports for {} logs",
                reports.len(),
                logs.len()
            );
            self.failed = true;
        }
        expected
    }

    /// Whether the tool makes a good log again from its list. Where there is no python3, no list is counted.
    fn made_again(&mut self, bytes: &[u8]) -> bool {
        let list = record::list(bytes).filter(|_| self.python);
        let Some(list) = list else {
            return true;
        };
        self.lists += 1;
        run(MAKER, &[], list.as_bytes()) == bytes
    }

    fn print(&self, rounds: u64, seed: u64) -> bool {
        if self.failed {
            return false;
        }
        println!("reached:");
        self.cover.print("logs");
        for (kind, count) in &self.kinds {
            println!("  {count:>10}  logs: kind '{kind}'");
        }
        let missing = self.cover.missing();
        for line in &missing {
            println!("NOT REACHED in logs: {line}");
        }
        println!(
            "logs: {} logs, {} of them by {PROGRAM} itself, {} made again from their lists, {rounds} rounds from seed {seed}",
            self.total, self.alone, self.lists
        );
        missing.is_empty()
    }
}

/// What a program writes that is given these bytes.
fn run(start: &str, program: &[&str], given: &[u8]) -> Vec<u8> {
    let mut child = Command::new(start)
        .args(program)
        .stdin(Stdio::piped())
        .stdout(Stdio::piped())
        .spawn()
        .unwrap_or_else(|e| panic!("{start} {program:?}: {e}"));
    let mut stdin = child.stdin.take().unwrap();
    let mut written = Vec::new();
    thread::scope(|s| {
        // A program that stops early shows in what it wrote.
        s.spawn(move || {
            let _ = stdin.write_all(given);
        });
        let mut stdout = child.stdout.take().unwrap();
        stdout.read_to_end(&mut written).unwrap();
    });
    let status = child.wait().unwrap();
    if !status.success() {
        written.extend_from_slice(format!("{start} {program:?}: {status}").as_bytes());
    }
    written
}

fn play_one(start: &str, log: &[u8]) -> Vec<u8> {
    run(start, &[PROGRAM], log)
}

/// What the player is given for these logs.
fn given(logs: &[Made]) -> Vec<u8> {
    let mut given = Vec::new();
    for made in logs {
        given.extend_from_slice(&(made.bytes.len() as u64).to_le_bytes());
        given.extend_from_slice(&made.bytes);
    }
    given
}

fn play_all(start: &str, logs: &[Made]) -> Vec<Vec<u8>> {
    let written = run(start, &[PLAYER], &given(logs));
    let mut reports: Vec<Vec<u8>> = written.split(|b| *b == 0).map(<[u8]>::to_vec).collect();
    // What stands after the last 0 byte is no report, and nothing where all went well.
    if reports.last().is_some_and(Vec::is_empty) {
        reports.pop();
    }
    reports
}

/// Whether `linkreport` prints another text than the original's, and both texts.
fn differ(start: &str, made: &Made) -> Option<(String, Vec<u8>)> {
    let text = original::report(&made.bytes, &mut Cover::nothing());
    let printed = play_one(start, &made.bytes);
    (printed != text.as_bytes()).then_some((text, printed))
}

/// Cuts a failing log down: ever smaller runs of records are taken out as long as the two sides still differ.
fn smallest(start: &str, made: Made) -> Made {
    let Ok((settings, mut records)) = record::read(&made.bytes) else {
        return made;
    };
    let whole = |records: &[record::Record]| Made {
        bytes: record::log(&[], records, settings),
    };
    if differ(start, &whole(&records)).is_none() {
        return made;
    }
    let mut piece = records.len().div_ceil(2);
    while piece > 0 {
        let mut at = 0;
        while at < records.len() {
            let mut cut = records.clone();
            cut.drain(at..(at + piece).min(records.len()));
            if differ(start, &whole(&cut)).is_some() {
                records = cut;
            } else {
                at += piece;
            }
        }
        piece /= 2;
    }
    whole(&records)
}

/// Writes the smallest failing log out, with its list for tools/make-log where it is one.
fn report_difference(start: &str, made: &Made) {
    let small = smallest(start, made.clone());
    fs::write(format!("{FAILING}.log"), &small.bytes).expect(FAILING);
    println!(
        "  smallest failing log: {FAILING}.log, {} bytes",
        small.bytes.len()
    );
    if let Some(list) = record::list(&small.bytes) {
        print!("{list}");
        fs::write(format!("{FAILING}.txt"), list).expect(FAILING);
    }
    match differ(start, &small) {
        Some((text, printed)) => {
            println!(
                "original:\n{text}port:\n{}",
                String::from_utf8_lossy(&printed)
            );
        }
        None => println!("  {PROGRAM} itself prints the original's text: only {PLAYER} differs"),
    }
}

/// The list of a good log.
pub fn list(bytes: &[u8]) -> Option<String> {
    record::list(bytes)
}

/// The original's report of a log that was given on standard input, for the examples.
pub fn example(bytes: &[u8]) -> String {
    original::report(bytes, &mut Cover::nothing())
}

/// Writes the fixed list that the player replays, and what the original answers.
pub fn keep(random: &mut Random, crates: &str) {
    let logs = kinds::sample(random);
    let mut expected = Vec::new();
    for made in &logs {
        let text = original::report(&made.bytes, &mut Cover::nothing());
        expected.extend_from_slice(text.as_bytes());
        expected.push(0);
    }
    let folder = format!("{crates}/{PLAYER}");
    fs::write(format!("{folder}/stdin"), given(&logs)).expect("stdin");
    fs::write(format!("{folder}/stdout"), expected).expect("stdout");
    println!("{folder}: {} logs", logs.len());
}
