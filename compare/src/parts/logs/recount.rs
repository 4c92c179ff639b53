//! A log counted a second time (document 02, Q-13): the text of `recount_log` against that of `report_log`, both of the library that hosts link, in this
//! process; on some logs what `linkrecount` prints against what `linkreport` prints, and both against the original.
use super::{
    kinds, original,
    shipped::{logs, Ends},
};
use crate::{cover::Cover, random::Random};
use ambrulicciu::{calls, report_of_log, Rooms, RECORDS};
use std::{
    fs,
    time::{Duration, Instant},
};

const SECRET: [u32; 8] = [2, 3, 5, 7, 11, 13, 17, 19];

/// What was compared. The rooms may hold anything: here, what the log before left.
struct Held {
    rooms: Rooms,
    queue: Vec<calls::Queued>,
    marks: Vec<u8>,
    fronts: Vec<u32>,
    logs: u64,
    ends: Ends,
    said: Instant,
}

impl Held {
    /// The two counts of one log: the same text, or the same number.
    fn hold(&mut self, bytes: &[u8]) -> Result<(), String> {
        let first =
            report_of_log(bytes, &SECRET, &mut self.rooms, &mut self.queue).map_err(|r| r as u8);
        let (mut text, mut length) = ([0x5a; 1024], [0]);
        let number = calls::recount_log(
            bytes,
            &mut self.marks,
            &mut self.fronts,
            &mut text,
            &mut length,
        );
        let shown = || String::from_utf8_lossy(&text[..length[0] as usize]).into_owned();
        let second = if number == 0 {
            Ok(shown())
        } else {
            Err(number)
        };
        self.logs += 1;
        if first != second {
            return Err(format!(
                "the first count is {first:?}, the second {second:?}"
            ));
        }
        self.ends
            .count(&first.unwrap_or_else(|number| format!("refused {number}")));
        if self.said.elapsed() >= Duration::from_secs(10) {
            eprintln!("compare: recount: {} logs", self.logs);
            self.said = Instant::now();
        }
        Ok(())
    }
}

/// What both programs print of a log, and the original.
fn by_programs(start: &str, bytes: &[u8]) -> Result<(), String> {
    let first = super::play_one(start, bytes);
    let second = super::run(start, &["linkrecount"], bytes);
    if first != second {
        let text = |bytes: &[u8]| String::from_utf8_lossy(bytes).into_owned();
        return Err(format!(
            "linkreport prints {:?}, and linkrecount {:?}",
            text(&first),
            text(&second)
        ));
    }
    if second != original::report(bytes, &mut Cover::nothing()).into_bytes() {
        return Err("both programs print another text than the original".into());
    }
    Ok(())
}

/// Each log of a folder as it is, by the programs too; every byte of it changed, to one other value or (`all`) to each; logs of every drawn kind.
pub fn play(start: &str, folder: &str, seed: u64, all: bool) -> bool {
    let mut held = Held {
        rooms: Rooms::new(),
        queue: vec![calls::Queued::default(); ambrulicciu::ROWS],
        marks: vec![0xa5; RECORDS],
        fronts: vec![0xa5a5_a5a5; RECORDS],
        logs: 0,
        ends: Ends::default(),
        said: Instant::now(),
    };
    let mut programs = 0;
    let mut changed = 0;
    let done = (|| -> Result<(), String> {
        for path in logs(folder) {
            let mut bytes = fs::read(&path).expect("a log");
            let what = |e: String| format!("{}: {e}", path.display());
            by_programs(start, &bytes).map_err(what)?;
            programs += 1;
            held.hold(&bytes).map_err(what)?;
            for at in 0..bytes.len() {
                let own = bytes[at];
                let one = 1 + ((seed as usize + at) % 255) as u8;
                for value in if all { 1..=255 } else { one..=one } {
                    bytes[at] = own ^ value;
                    held.hold(&bytes).map_err(|e| {
                        format!(
                            "{}, byte {at} changed to {}: {e}",
                            path.display(),
                            bytes[at]
                        )
                    })?;
                    changed += 1;
                }
                bytes[at] = own;
            }
        }
        let mut failed = None;
        kinds::round(&mut Random::new(seed), all, &mut |kind, made| {
            for (i, log) in made.iter().enumerate() {
                if failed.is_some() {
                    return;
                }
                let mut held_here = held.hold(&log.bytes);
                if held_here.is_ok() && i == 0 {
                    held_here = by_programs(start, &log.bytes);
                    programs += 1;
                }
                failed = held_here.err().map(|e| format!("{kind}: {e}"));
            }
        });
        failed.map_or(Ok(()), Err)
    })();
    if let Err(what) = done {
        let what: String = what.chars().take(2000).collect();
        println!("DIFFERENCE in recount: {what}");
        return false;
    }
    println!(
        "recount: {} logs, {changed} of them an example with a byte changed: {} good, {} refused 9, {} refused 7, {} refused 8, each with the same text or \
         number twice; {programs} logs by both programs, seed {seed}",
        held.logs, held.ends.good, held.ends.too_long, held.ends.bad_trailer, held.ends.bad_record
    );
    held.ends.good > 0 && held.ends.bad_trailer > 0 && held.ends.bad_record > 0
}
