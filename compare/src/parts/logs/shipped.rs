//! Every single byte of each example's log changed to every other value.
use std::{fs, path::PathBuf};

use super::{
    kinds::{changes, Made},
    Played,
};

/// How many bytes are changed in one run of the player, each to 255 other values.
const PLACES: usize = 32;

/// What became of the logs of one example.
#[derive(Default)]
pub struct Ends {
    pub good: u64,
    pub too_long: u64,
    pub bad_trailer: u64,
    pub bad_record: u64,
}

impl Ends {
    pub fn count(&mut self, text: &str) {
        match text {
            _ if text.starts_with("refused 9") => self.too_long += 1,
            _ if text.starts_with("refused 7") => self.bad_trailer += 1,
            _ if text.starts_with("refused 8") => self.bad_record += 1,
            _ => self.good += 1,
        }
    }
}

/// The logs of a folder, by name.
pub fn logs(folder: &str) -> Vec<PathBuf> {
    let entries = fs::read_dir(folder).unwrap_or_else(|e| panic!("{folder}: {e}"));
    let mut paths: Vec<PathBuf> = entries.map(|e| e.unwrap().path()).collect();
    paths.retain(|path| path.extension().is_some_and(|e| e == "log"));
    paths.sort();
    assert!(!paths.is_empty(), "no log in {folder}");
    paths
}

/// Plays all changes of all logs of a folder.
pub fn play(start: &str, folder: &str, every: usize) -> bool {
    let mut played = Played::new(start);
    let values: Vec<u8> = (1..=255).collect();
    for path in logs(folder) {
        let bytes = fs::read(&path).expect("a log");
        let mut ends = Ends::default();
        for from in (0..bytes.len()).step_by(PLACES) {
            let places = from..(from + PLACES).min(bytes.len());
            let logs: Vec<Made> = changes(&bytes, places, &values);
            let texts = played.batch("a byte of an example changed", &logs, every);
            if played.failed {
                println!("  {}, a byte from {from} on changed", path.display());
                return false;
            }
            texts.iter().for_each(|text| ends.count(text));
        }
        println!(
            "shipped: {}: {} bytes, {} logs: {} good, {} refused 7, {} refused 8",
            path.display(),
            bytes.len(),
            bytes.len() * values.len(),
            ends.good,
            ends.bad_trailer,
            ends.bad_record
        );
    }
    println!(
        "shipped: {} logs, {} of them by linkreport itself, {} made again from their lists",
        played.total, played.alone, played.lists
    );
    true
}

/// Plays each file of a folder, whatever it holds, as a log.
pub fn files(start: &str, folder: &str) -> bool {
    let mut played = Played::new(start);
    let entries = fs::read_dir(folder).unwrap_or_else(|e| panic!("{folder}: {e}"));
    let mut paths: Vec<PathBuf> = entries.map(|e| e.unwrap().path()).collect();
    paths.sort();
    let mut ends = Ends::default();
    for part in paths.chunks(500) {
        let made = |path: &PathBuf| Made {
            bytes: fs::read(path).expect("a file"),
        };
        let logs: Vec<Made> = part.iter().map(made).collect();
        let texts = played.batch("a file", &logs, 500);
        if played.failed {
            return false;
        }
        texts.iter().for_each(|text| ends.count(text));
    }
    println!(
        "files: {} logs of {folder}: {} good, {} refused 9, {} refused 7, {} refused 8",
        played.total, ends.good, ends.too_long, ends.bad_trailer, ends.bad_record
    );
    played.total > 0
}
