//! Logs that were cut short on the way (document 02, Q-11): what is left of one, worked out here from the words, against `log_trim` of the library that
//! hosts link, in this process, and on some logs against the program `linktrim` and then `linkreport`.
use super::{
    kinds,
    original,
    record::{self, Record, Settings, MOST_BYTES, RECORD, TRAILER},
    shipped::logs,
};
use crate::{cover::Cover, random::Random};
use ambrulicciu::{calls, report_of_log, Log, Rooms};
use std::{
    collections::{hash_map::DefaultHasher, HashSet},
    fs::{self, File},
    hash::{Hash, Hasher},
    process::{self, Command, Stdio},
};

const TOO_LONG: u8 = 9;
const SHORT_ROOM: u8 = 12;
const SECRET: [u32; 8] = [2, 3, 5, 7, 11, 13, 17, 19];
/// What the lent bytes and words hold before.
const BEFORE: u8 = 0x5a;
const WORD: u64 = 0x5a5a;

/// What is left of a log.
#[derive(Debug, PartialEq)]
struct Left {
    log: Vec<u8>,
    kept: u64,
    stop: u64,
    dropped: u64,
}

/// "It keeps records from byte 0 up to the first that is bad or incomplete, and writes them with a new trailer." None: refused with 9.
fn left_of(bytes: &[u8], settings: Settings) -> Option<Left> {
    if bytes.len() > MOST_BYTES {
        return None;
    }
    // "A log that `linkreport` accepts, with no leading matter, is given back as it is"
    if let Ok((_, records)) = record::read(bytes) {
        let stop = bytes.len() - TRAILER;
        if stop == RECORD * records.len() {
            let (kept, stop) = (records.len() as u64, stop as u64);
            return Some(Left {
                log: bytes.to_vec(),
                kept,
                stop,
                dropped: 0,
            });
        }
    }
    let whole = bytes
        .chunks_exact(RECORD)
        .map(|r| Record(r.try_into().unwrap()));
    let records: Vec<Record> = whole.take_while(Record::good).collect();
    let stop = RECORD * records.len();
    Some(Left {
        log: record::log(&[], &records, settings),
        kept: records.len() as u64,
        stop: stop as u64,
        dropped: (bytes.len() - stop) as u64,
    })
}

fn same<T: PartialEq + std::fmt::Debug>(what: &str, expected: T, shown: T) -> Result<(), String> {
    if expected == shown {
        return Ok(());
    }
    Err(format!(
        "{what}: {expected:?} is expected, and it is {shown:?}"
    ))
}

/// What was compared.
struct Held {
    rooms: Rooms,
    queue: Vec<calls::Queued>,
    /// The hashes of logs that were written: each is reported once.
    reported: HashSet<u64>,
    logs: u64,
    whole: u64,
    none: u64,
    refused: u64,
}

/// The answer's number, its words, and the lent bytes, in a room of this size.
fn trim(bytes: &[u8], settings: Settings, room: usize) -> (u8, [u64; 3], Vec<u8>) {
    let (mut log, mut answer) = (vec![BEFORE; room], [WORD; 3]);
    let Settings {
        copies,
        threshold,
        timeout,
    } = settings;
    let number = calls::log_trim(bytes, copies, threshold, timeout, &mut log, &mut answer);
    (number, answer, log)
}

impl Held {
    fn new() -> Self {
        Self {
            rooms: Rooms::new(),
            queue: vec![calls::Queued::default(); ambrulicciu::ROWS],
            reported: HashSet::new(),
            logs: 0,
            whole: 0,
            none: 0,
            refused: 0,
        }
    }

    /// One log: its answer and every lent byte, in rooms that are longer, of the exact size and too short; and the report of what was written.
    fn hold(&mut self, bytes: &[u8], settings: Settings) -> Result<(), String> {
        self.logs += 1;
        let untouched = |number, room| (number, [WORD; 3], vec![BEFORE; room]);
        let Some(left) = left_of(bytes, settings) else {
            self.refused += 1;
            same("too long", untouched(TOO_LONG, 9), trim(bytes, settings, 9))?;
            return same(
                "too long",
                untouched(TOO_LONG, MOST_BYTES),
                trim(bytes, settings, MOST_BYTES),
            );
        };
        let size = left.log.len();
        let words = [left.kept, left.stop, left.dropped];
        for room in [size, size + 7] {
            let mut log = left.log.clone();
            log.resize(room, BEFORE);
            same("log_trim", (0, words, log), trim(bytes, settings, room))?;
        }
        for room in [size - 1, size / 2, 0] {
            same(
                "a short room",
                untouched(SHORT_ROOM, room),
                trim(bytes, settings, room),
            )?;
        }
        self.whole += u64::from(left.log == bytes);
        self.none += u64::from(left.kept == 0);
        let mut hash = DefaultHasher::new();
        left.log.hash(&mut hash);
        if !self.reported.insert(hash.finish()) {
            return Ok(());
        }
        self.report(&left, settings)
    }

    /// What was written is accepted, is reported as the original does, and is given back as it is, whatever the settings.
    fn report(&mut self, left: &Left, settings: Settings) -> Result<(), String> {
        let text = original::report(&left.log, &mut Cover::nothing());
        let shown = report_of_log(&left.log, &SECRET, &mut self.rooms, &mut self.queue);
        same(
            "the report",
            Ok(text.clone()),
            shown.map_err(|r| r.to_string()),
        )?;
        same("accepted", false, text.starts_with("refused"))?;
        let other = ambrulicciu::Settings {
            copies: !settings.copies,
            threshold: 7,
            timeout: 11,
        };
        let (again, cut) = Log::trim(&left.log, other).map_err(|r| r.to_string())?;
        same("again", &left.log, &again)?;
        same(
            "again",
            (left.kept, left.stop, 0),
            (cut.kept, cut.stop, cut.dropped),
        )
    }
}

/// The same by the programs: what `linktrim` writes and says, and what `linkreport` prints of it.
fn by_programs(start: &str, bytes: &[u8], settings: Settings) -> Result<(), String> {
    // Of each process its own: several may run at a time.
    let cut = format!("compare/target/cut-{}.log", process::id());
    fs::write(&cut, bytes).expect(&cut);
    let words = [
        settings.copies.to_string(),
        settings.threshold.to_string(),
        settings.timeout.to_string(),
    ];
    let run = Command::new(start)
        .arg("linktrim")
        .args(words)
        .stdin(Stdio::from(File::open(&cut).expect(&cut)))
        .output()
        .unwrap_or_else(|e| panic!("{start}: {e}"));
    fs::remove_file(&cut).expect(&cut);
    let (line, log) = match left_of(bytes, settings) {
        Some(left) => (
            format!(
                "kept {} stop {} dropped {}\n",
                left.kept, left.stop, left.dropped
            ),
            left.log,
        ),
        None => ("refused 9\n".into(), Vec::new()),
    };
    same(
        "linktrim says",
        line.as_str(),
        &String::from_utf8_lossy(&run.stderr),
    )?;
    same("linktrim writes", &log, &run.stdout)?;
    if log.is_empty() {
        return Ok(());
    }
    let text = original::report(&log, &mut Cover::nothing());
    same(
        "linkreport prints",
        text.as_bytes(),
        &super::play_one(start, &log),
    )
}

/// Words that are wrong: a message, and nothing written.
fn wrong_words(start: &str) -> Result<u64, String> {
    let usage = "usage: linktrim COPIES THRESHOLD TIMEOUT < cut.log > whole.log\n";
    let copies = "linktrim: COPIES is a number from 0 to 65535\n";
    let threshold = "linktrim: THRESHOLD is a number from 0 to 65535\n";
    let timeout = "linktrim: TIMEOUT is a number from 0 to 18446744073709551615\n";
    let long = "0".repeat(65);
    let tries: [(&[&str], &str); 14] = [
        (&[], usage),
        (&["1", "2"], usage),
        (&["1", "2", "3", "4"], usage),
        (&["", "2", "3"], copies),
        (&["65536", "2", "3"], copies),
        (&["-1", "2", "3"], copies),
        (&["1 ", "2", "3"], copies),
        (&["0x1", "2", "3"], copies),
        (&[&long, "2", "3"], copies),
        (&["1", "2:", "3"], threshold),
        (&["1", "99999999999999999999999", "3"], threshold),
        (&["1", "2", "18446744073709551616"], timeout),
        (&["1", "2", "3/"], timeout),
        (&["x", "y", "z"], copies),
    ];
    for (words, message) in tries {
        let run = Command::new(start)
            .arg("linktrim")
            .args(words)
            .stdin(Stdio::null())
            .output()
            .unwrap_or_else(|e| panic!("{start}: {e}"));
        same(
            &format!("linktrim {words:?}"),
            (message, ""),
            (
                &String::from_utf8_lossy(&run.stderr),
                &String::from_utf8_lossy(&run.stdout),
            ),
        )?;
    }
    Ok(tries.len() as u64)
}

const OPERATOR: Settings = Settings {
    copies: 3,
    threshold: 2,
    timeout: 1_000_000,
};

/// Every cut of each log of a folder; every byte of it changed, to one other value or (`all`) to each; logs of every drawn kind, cut somewhere, and two of
/// them one after the other; and some cuts by the programs.
pub fn play(start: &str, folder: &str, seed: u64, all: bool) -> bool {
    let mut held = Held::new();
    let mut programs = 0;
    let done = (|| -> Result<(), String> {
        for path in logs(folder) {
            let bytes = fs::read(&path).expect("a log");
            let what = |e: String| format!("{}: {e}", path.display());
            for end in 0..=bytes.len() {
                held.hold(&bytes[..end], OPERATOR).map_err(what)?;
            }
            for at in 0..bytes.len() {
                let mut changed = bytes.clone();
                let values = if all {
                    1..=255
                } else {
                    let one = 1 + ((seed as usize + at) % 255) as u8;
                    one..=one
                };
                for value in values {
                    changed[at] = bytes[at] ^ value;
                    held.hold(&changed, OPERATOR).map_err(what)?;
                }
            }
            held.hold(&[&bytes[..], &bytes[..]].concat(), OPERATOR)
                .map_err(what)?;
            let middle = RECORD * (bytes.len() / RECORD / 2);
            for end in [
                bytes.len(),
                bytes.len() - 1,
                bytes.len() - TRAILER,
                middle,
                middle + 50,
                23,
                0,
            ] {
                by_programs(start, &bytes[..end], OPERATOR).map_err(what)?;
                programs += 1;
            }
            println!("trim: {}: {} bytes", path.display(), bytes.len());
        }
        let mut random = Random::new(seed);
        let mut failed = None;
        let mut before: Vec<u8> = Vec::new();
        kinds::round(&mut Random::new(seed), all, &mut |kind, logs| {
            for made in &logs {
                let bytes = &made.bytes;
                let settings = Settings {
                    copies: random.word() as u16,
                    threshold: random.word() as u16 % 3,
                    timeout: random.word(),
                };
                let end = random.word() as usize % (bytes.len() + 1);
                let both = [&before[..], bytes].concat();
                for log in [bytes, &bytes[..end], &both] {
                    if failed.is_none() {
                        failed = held
                            .hold(log, settings)
                            .err()
                            .map(|e| format!("{kind}: {e}"));
                    }
                }
                before.clone_from(bytes);
            }
        });
        failed.map_or(Ok(()), Err)?;
        by_programs(start, &vec![4; MOST_BYTES + 1], OPERATOR)?;
        by_programs(start, &vec![0; MOST_BYTES], OPERATOR)?;
        programs += 2 + wrong_words(start)?;
        Ok(())
    })();
    if let Err(what) = done {
        let what: String = what.chars().take(2000).collect();
        println!("DIFFERENCE in trim: {what}");
        return false;
    }
    println!(
        "trim: {} logs, of which {} were given back as they are, of {} no record was kept and {} were refused with 9; {} logs that were written \
         reported as by the original; {programs} runs of linktrim, seed {seed}",
        held.logs,
        held.whole,
        held.none,
        held.refused,
        held.reported.len()
    );
    held.whole > 0 && held.none > 0 && held.refused > 0
}
