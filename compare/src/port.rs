//! Plays scripts on both sides and compares what they write, byte by byte.
use std::{
    io::{Read, Write},
    process::{Command, Stdio},
    thread,
    time::{Duration, Instant},
};

use crate::{
    cover::Cover,
    part::{Part, Script},
};

/// The first place where the two sides differ.
pub struct Difference {
    pub script: usize,
    pub call: usize,
    pub word: usize,
    pub original: Option<u64>,
    pub port: Option<u64>,
}

/// The original's side of some scripts: what the port is given, and what it has to write.
pub struct Played {
    pub given: Vec<u8>,
    pub expected: Vec<u8>,
    pub calls: u64,
}

pub fn play(part: &Part, scripts: &[Script], cover: &mut Cover) -> Played {
    let mut played = Played {
        given: Vec::new(),
        expected: Vec::new(),
        calls: 0,
    };
    for script in scripts {
        let mut original = (part.fresh)();
        for call in script {
            let mut call = *call;
            let answer = original.play(&mut call, cover);
            for word in &call[..part.call_words] {
                played.given.extend_from_slice(&word.to_le_bytes());
            }
            for word in &answer[..part.answer_words] {
                played.expected.extend_from_slice(&word.to_le_bytes());
            }
            played.calls += 1;
        }
    }
    played
}

/// What the port's program writes. `start` runs a program by its name.
pub fn port(start: &str, part: &Part, given: &[u8]) -> Vec<u8> {
    if let Some(here) = part.here {
        return here(given);
    }
    let mut child = Command::new(start)
        .arg(part.program)
        .stdin(Stdio::piped())
        .stdout(Stdio::piped())
        .spawn()
        .unwrap_or_else(|e| panic!("{start} {}: {e}", part.program));
    let mut stdin = child.stdin.take().unwrap();
    let mut written = Vec::new();
    thread::scope(|s| {
        // A program that stops early shows in what it wrote.
        s.spawn(move || {
            let _ = stdin.write_all(given);
        });
        child
            .stdout
            .take()
            .unwrap()
            .read_to_end(&mut written)
            .unwrap();
    });
    let status = child.wait().unwrap();
    if !status.success() {
        eprintln!("{}: {status}", part.program);
        written.truncate(written.len().saturating_sub(8));
    }
    written
}

fn word_at(bytes: &[u8], word: usize) -> Option<u64> {
    let bytes = bytes.get(word * 8..word * 8 + 8)?;
    Some(u64::from_le_bytes(bytes.try_into().unwrap()))
}

pub fn compare(
    part: &Part,
    scripts: &[Script],
    expected: &[u8],
    written: &[u8],
) -> Option<Difference> {
    if expected == written {
        return None;
    }
    let same = expected.iter().zip(written).take_while(|(a, b)| a == b);
    let word = same.count() / 8;
    let (mut script, mut call) = (0, word / part.answer_words);
    while script < scripts.len() && call >= scripts[script].len() {
        call -= scripts[script].len();
        script += 1;
    }
    Some(Difference {
        script,
        call,
        word: word % part.answer_words,
        original: word_at(expected, word),
        port: word_at(written, word),
    })
}

/// Whether the two sides still differ on this one script.
fn fails(start: &str, part: &Part, script: &Script) -> Option<Difference> {
    let scripts = [script.clone()];
    let played = play(part, &scripts, &mut Cover::nothing());
    let written = port(start, part, &played.given);
    compare(part, &scripts, &played.expected, &written)
}

/// How long a failing script is cut down; CUT names another number of seconds.
fn cutting() -> Duration {
    let told = std::env::var("CUT").ok().and_then(|s| s.parse().ok());
    Duration::from_secs(told.unwrap_or(60))
}

/// Cuts a failing script down: ever smaller pieces are taken out as long as the two sides still differ, and as long as there is time.
/// The first call, which makes the part fresh, stays.
pub fn smallest(start: &str, part: &Part, script: &Script) -> Script {
    let began = Instant::now();
    let most = cutting();
    let goes_on = |tries: u32| tries < 400 && began.elapsed() < most;
    let mut script = script.clone();
    if let Some(d) = fails(start, part, &script) {
        script.truncate(d.call + 1);
    }
    let mut piece = script.len() / 2;
    let mut tries = 0;
    while piece > 0 && goes_on(tries) {
        let mut at = 1;
        let mut shorter = false;
        while at < script.len() && goes_on(tries) {
            let mut cut = script.clone();
            cut.drain(at..(at + piece).min(script.len()));
            tries += 1;
            if let Some(d) = fails(start, part, &cut) {
                cut.truncate(d.call + 1);
                script = cut;
                shorter = true;
            } else {
                at += piece;
            }
        }
        if !shorter {
            piece /= 2;
        }
    }
    script
}

pub fn report(start: &str, part: &Part, scripts: &[Script], d: &Difference) {
    println!(
        "DIFFERENCE in {}: script {}, call {}",
        part.name, d.script, d.call
    );
    let Some(script) = scripts.get(d.script) else {
        println!("  the port wrote more than it was asked");
        return;
    };
    let script = smallest(start, part, script);
    println!("  smallest script found ({} calls):", script.len());
    for call in script.iter().take(100) {
        println!("    {}", (part.show)(call));
    }
    let Some(d) = fails(start, part, &script) else {
        println!("  and this one passes: what differs depends on the scripts before it");
        return;
    };
    let name = part.answer.get(d.word).unwrap_or(&"?");
    println!("  at its call {}, word {} ({name}):", d.call, d.word);
    println!("    original {}", shown(d.original));
    println!("    port     {}", shown(d.port));
}

fn shown(word: Option<u64>) -> String {
    word.map_or("nothing".into(), |w| format!("{w} (0x{w:x})"))
}
