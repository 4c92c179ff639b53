// Times two calls in turns, and keeps the least of each: what the machine did besides is not the call's.
use crate::stopwatch::Stopwatch;
use std::time::Instant;

pub struct Table {
    rows: Vec<(String, f64, Option<f64>)>,
    notes: Vec<String>,
}

const TURNS: usize = 40;

fn once(times: usize, call: &mut dyn FnMut()) -> f64 {
    let start = Instant::now();
    for _ in 0..times {
        call();
    }
    start.elapsed().as_nanos() as f64 / times as f64
}

fn machine() -> String {
    let cpu = std::fs::read_to_string("/proc/cpuinfo").unwrap_or_default();
    let named = |l: &&str| l.starts_with("model name") || l.starts_with("CPU part");
    let model = cpu.lines().find(named).and_then(|l| l.split(':').nth(1)).unwrap_or("").trim().to_string();
    format!("{} {model}", std::env::consts::ARCH)
}

impl Table {
    pub fn new() -> Table {
        Table { rows: Vec::new(), notes: Vec::new() }
    }

    // A row: ns on either side. How far it is stands on standard error.
    pub fn keep(&mut self, name: &str, ours: f64, original: Option<f64>) {
        self.rows.push((name.to_string(), ours, original));
        eprintln!("bench: {} rows: {name}", self.rows.len());
    }

    // A line behind the rows.
    pub fn note(&mut self, text: String) {
        self.notes.push(text);
    }

    // `times` calls a turn, the two in turns; `each` calls of the work are inside one call.
    pub fn row(&mut self, name: &str, times: usize, each: usize, mut ours: impl FnMut(), mut original: impl FnMut()) {
        let (mut a, mut b) = (f64::MAX, f64::MAX);
        for _ in 0..TURNS {
            a = a.min(once(times, &mut ours));
            b = b.min(once(times, &mut original));
        }
        self.keep(name, a / each as f64, Some(b / each as f64));
    }

    // A call that the original has not.
    pub fn alone(&mut self, name: &str, times: usize, mut ours: impl FnMut()) {
        let least = (0..TURNS).map(|_| once(times, &mut ours)).fold(f64::MAX, f64::min);
        self.keep(name, least, None);
    }

    // A call that stands among others: each turn of `times` goes by the stopwatch that runs around the one call. What an empty pair of
    // stamps takes is taken off on both sides. Such a call starts when all before it is done, so it takes longer than in a row of its own.
    pub fn stamped(&mut self, name: &str, times: usize, mut ours: impl FnMut(&mut Stopwatch), mut original: Option<&mut dyn FnMut(&mut Stopwatch)>) {
        let (mut a, mut b, mut empty) = (f64::MAX, f64::MAX, f64::MAX);
        let turn = |call: &mut dyn FnMut(&mut Stopwatch)| {
            let mut watch = Stopwatch::new();
            for _ in 0..times {
                call(&mut watch);
            }
            watch.nanoseconds() / times as f64
        };
        for _ in 0..TURNS {
            a = a.min(turn(&mut ours));
            if let Some(original) = &mut original {
                b = b.min(turn(original));
            }
            empty = empty.min(turn(&mut |watch| watch.around(|| {})));
        }
        self.keep(name, a - empty, original.map(|_| b - empty));
    }

    pub fn print(&self) {
        println!("machine: {}", machine());
        println!("| Call | ns | Original's ns | Ratio |\n|---|---|---|---|");
        for (name, a, b) in &self.rows {
            match b {
                Some(b) => println!("| {name} | {} | {} | {:.2} |", shown(*a), shown(*b), a / b),
                None => println!("| {name} | {} | it has none | |", shown(*a)),
            }
        }
        for note in &self.notes {
            println!("{note}");
        }
    }
}

// Three digits are enough; thousands are set apart.
fn shown(ns: f64) -> String {
    if ns < 99.95 {
        return format!("{ns:.1}");
    }
    thousands(ns.round() as u64)
}

fn thousands(whole: u64) -> String {
    if whole < 1000 {
        return whole.to_string();
    }
    format!("{},{:03}", thousands(whole / 1000), whole % 1000)
}
