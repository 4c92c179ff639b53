//! Logs through the library that hosts link, in this process: written, read and reported, by the plain calls into memory that holds something
//! else before, and by the wrapper. What a log says is worked out in record.rs, its report by the original.
use super::{
    kinds,
    kinds::Made,
    original,
    record::{
        self, Record, Refused, Settings, ACCEPT, ADVANCE, CONVERTED, OBSERVE, PENDING, RECORD, SENT,
    },
};
use crate::{cover::Cover, random::Random};
use ambrulicciu::{
    calls, recount_of_log, report_of_log, Counters, FollowUp, Format, Key, Link, Log, Observation,
    Packet, Rooms,
};
use std::time::{Duration, Instant};

const SECRET: [u32; 8] = [2, 3, 5, 7, 11, 13, 17, 19];
const BAD_TRAILER: u8 = 7;
const BAD_RECORD: u8 = 8;
const TOO_LONG: u8 = 9;

/// What was compared, and the first difference.
#[derive(Default)]
struct Held {
    logs: u64,
    records: u64,
    played: u64,
    failed: Option<String>,
}

/// Plays rounds until the time is over. 0 seconds: one short round.
pub fn play(seed: u64, seconds: u64) -> bool {
    let began = Instant::now();
    let mut held = Held::default();
    // The rooms of a report and its queue may hold anything: here, what the log before left.
    let mut rooms = Rooms::new();
    let mut queue = vec![calls::Queued::default(); ambrulicciu::ROWS];
    let mut round = 0;
    let mut said = Instant::now();
    while held.failed.is_none() && (round == 0 || began.elapsed() < Duration::from_secs(seconds)) {
        let mut random = Random::new(seed.wrapping_add(round));
        kinds::round(&mut random, seconds > 0, &mut |kind, logs| {
            for made in &logs {
                if held.failed.is_none() {
                    held.failed = held.hold(made, &mut rooms, &mut queue).err();
                    if said.elapsed() >= Duration::from_secs(10) {
                        let (logs, at) = (held.logs, began.elapsed().as_secs());
                        eprintln!("compare: host_logs: {logs} logs, {at} s");
                        said = Instant::now();
                    }
                    if let Some(what) = &held.failed {
                        println!("DIFFERENCE in host_logs: {kind}: {what}");
                    }
                }
            }
        });
        round += 1;
    }
    println!(
        "host_logs: {} logs, {} records read and written, {} played on a link, {round} rounds from seed {seed}",
        held.logs, held.records, held.played
    );
    held.failed.is_none()
}

fn same<T: PartialEq + std::fmt::Debug>(what: &str, expected: T, shown: T) -> Result<(), String> {
    if expected == shown {
        return Ok(());
    }
    Err(format!(
        "{what}: {expected:?} is expected, and it is {shown:?}"
    ))
}

fn number(refused: Refused) -> u8 {
    match refused {
        Refused::TooLong => TOO_LONG,
        Refused::BadTrailer => BAD_TRAILER,
        Refused::BadRecord(_) => BAD_RECORD,
    }
}

impl Held {
    fn hold(
        &mut self,
        made: &Made,
        rooms: &mut Rooms,
        queue: &mut [calls::Queued],
    ) -> Result<(), String> {
        let bytes = &made.bytes[..];
        let read = record::read(bytes);
        checked(bytes, &read)?;
        self.each_record(bytes)?;
        let text = original::report(bytes, &mut Cover::nothing());
        // The number of a log that is refused; the program prints it as the text.
        let expected = match &read {
            Ok(_) => Ok(text.clone()),
            Err(refused) => Err(number(*refused)),
        };
        let shown = report_of_log(bytes, &SECRET, rooms, queue);
        same("report_log", expected.clone(), shown.map_err(|r| r as u8))?;
        let again = recount_of_log(bytes);
        same("recount_log", expected, again.map_err(|r| r as u8))?;
        if let Ok((settings, records)) = read {
            written(settings, &records)?;
            played(settings, &records, &text)?;
            self.played += 1;
        }
        self.logs += 1;
        Ok(())
    }

    /// Every record where a log's trailer says it stands, and the places behind the last. The others are not looked at.
    fn each_record(&mut self, bytes: &[u8]) -> Result<(), String> {
        let trailed = match record::placed(bytes) {
            Ok(records) => records,
            Err(refused) => return read_at(bytes, 0, Err(number(refused))),
        };
        for (at, r) in trailed.iter().enumerate() {
            let expected = if r.good() {
                Ok(call_of(r))
            } else {
                Err(BAD_RECORD)
            };
            read_at(bytes, at as u32, expected)?;
            self.records += 1;
        }
        read_at(bytes, trailed.len() as u32, Err(BAD_RECORD))?;
        read_at(bytes, u32::MAX, Err(BAD_RECORD))
    }
}

/// `log_check` and `log_first_bad`.
fn checked(bytes: &[u8], read: &Result<(Settings, Vec<Record>), Refused>) -> Result<(), String> {
    let (mut settings, mut bad) = ([u64::MAX; 4], [u64::MAX]);
    let (check, first) = (
        calls::log_check(bytes, &mut settings),
        calls::log_first_bad(bytes, &mut bad),
    );
    let wrapped = Log::check(bytes);
    match read {
        Ok((s, records)) => {
            let (count, threshold) = (records.len() as u64, u64::from(s.threshold));
            let expected = [count, s.copies.into(), threshold, s.timeout];
            same("log_check", (0, expected), (check, settings))?;
            same("log_first_bad", (0, count), (first, bad[0]))?;
            same("Log::check", Ok((wrapped_settings(*s), count)), wrapped)
        }
        Err(refused) => {
            same(
                "log_check",
                (number(*refused), [u64::MAX; 4]),
                (check, settings),
            )?;
            same(
                "Log::check",
                Err(number(*refused)),
                wrapped.map_err(|r| r as u8),
            )?;
            let (answer, at) = match refused {
                Refused::BadRecord(at) => (0, *at as u64),
                _ => (number(*refused), u64::MAX),
            };
            same("log_first_bad", (answer, at), (first, bad[0]))
        }
    }
}

fn wrapped_settings(s: Settings) -> ambrulicciu::Settings {
    ambrulicciu::Settings {
        copies: s.copies,
        threshold: s.threshold,
        timeout: s.timeout,
    }
}

fn read_at(bytes: &[u8], at: u32, expected: Result<calls::Call, u8>) -> Result<(), String> {
    let mut call = junk();
    let answer = calls::log_read(bytes, at, &mut call);
    let what = format!("log_read of record {at}");
    match expected {
        Ok(read) => same(&what, (0, read), (answer, call))?,
        // A refusal leaves the answer as it was.
        Err(refusal) => same(&what, (refusal, junk()), (answer, call))?,
    }
    same(
        "Log::read",
        expected,
        Log::read(bytes, at).map_err(|r| r as u8),
    )
}

const UNSET: u64 = 0x5a5a_5a5a_5a5a_5a5a;

fn junk() -> calls::Call {
    let half = UNSET as u32;
    calls::Call {
        kind: half,
        train: half,
        sent: calls::SentCall {
            time: UNSET,
            tag: UNSET,
            sequence: half,
            ordinal: half,
        },
        accept: calls::AcceptCall {
            t3: UNSET,
            time: UNSET,
            tag: UNSET,
            sender: half,
            reflector: half,
            pending: half,
            unused: half,
        },
        observation: calls::Observation {
            t3: UNSET,
            round_trip: UNSET,
            t4: UNSET as i64,
            reference: UNSET as i64,
            reserved: [UNSET as u32; 2],
            follow_up_timestamp: UNSET,
            sender: half,
            reflector: half,
            ordinal: half,
            s_txc: half,
            r_rxc: half,
            r_txc: half,
            follow_up_sequence: half,
            offset: half as i32,
            sender_estimate: half as u16,
            reflector_estimate: half as u16,
            flags: half,
            unused: [half; 2],
        },
        now: UNSET,
    }
}

/// What a good record says: its kind, and the fields of that kind; all others are 0.
fn call_of(r: &Record) -> calls::Call {
    let n = |at: usize| r.number(at, 4) as u32;
    let mut call = calls::Call {
        kind: r.kind().into(),
        ..calls::Call::default()
    };
    match r.kind() {
        SENT => {
            call.train = n(28);
            call.sent = calls::SentCall {
                time: r.number(12, 8),
                tag: r.number(20, 8),
                sequence: n(4),
                ordinal: n(8),
            }
        }
        ACCEPT => {
            call.accept = calls::AcceptCall {
                t3: r.number(12, 8),
                time: r.number(20, 8),
                tag: r.number(28, 8),
                sender: n(4),
                reflector: n(8),
                pending: r.has(PENDING).into(),
                unused: 0,
            }
        }
        OBSERVE => {
            call.observation = calls::Observation {
                t3: r.number(12, 8),
                round_trip: r.number(20, 8),
                t4: r.number(28, 8) as i64,
                reference: r.number(36, 8) as i64,
                reserved: [0; 2],
                follow_up_timestamp: r.number(68, 8),
                sender: n(4),
                reflector: n(8),
                ordinal: n(48),
                s_txc: n(52),
                r_rxc: n(56),
                r_txc: n(60),
                follow_up_sequence: n(64),
                offset: n(44) as i32,
                sender_estimate: r.number(84, 2) as u16,
                reflector_estimate: r.number(86, 2) as u16,
                flags: (r.0[1] & !CONVERTED).into(),
                unused: [0; 2],
            }
        }
        ADVANCE => call.now = r.number(4, 8),
        _ => {}
    }
    call
}

/// The records written by the library's calls, and the whole log by the wrapper.
fn written(settings: Settings, records: &[Record]) -> Result<(), String> {
    let mut log = Log::new(wrapped_settings(settings));
    for r in records {
        let call = call_of(r);
        let mut bytes = [0x5a; RECORD];
        let (s, a) = (&call.sent, &call.accept);
        let answer = match r.kind() {
            SENT => calls::log_write_sent(&mut bytes, s.sequence, s.ordinal, call.train, s.time, s.tag),
            ACCEPT => {
                let t3 = a.t3;
                calls::log_write_accept(
                    &mut bytes,
                    a.sender,
                    a.reflector,
                    t3,
                    3 * a.pending,
                    a.time,
                    a.tag,
                )
            }
            OBSERVE => calls::log_write_observe(&mut bytes, &with_junk(call.observation)),
            ADVANCE => calls::log_write_advance(&mut bytes, call.now),
            _ => calls::log_write_idle(&mut bytes),
        };
        same("a record written", (0, rewritten(r).0), (answer, bytes))?;
        tell(&mut log, &call);
    }
    let records: Vec<Record> = records.iter().map(rewritten).collect();
    same("Log::records", records.len() as u32, log.records())?;
    same(
        "Log::bytes",
        Ok(record::log(&[], &records, settings)),
        log.bytes(),
    )
}

/// What is written of the call that a record makes: the record, without the field of flag 16.
fn rewritten(r: &Record) -> Record {
    let mut bytes = r.0;
    if r.kind() == OBSERVE && r.has(CONVERTED) {
        bytes[1] &= !CONVERTED;
        bytes[76..84].fill(0);
    }
    Record(bytes)
}

/// A field that is not there is not looked at, nor are bit 16 of the flags and those above 255.
fn with_junk(mut o: calls::Observation) -> calls::Observation {
    let (all, half) = (o, UNSET as u32);
    o = junk().observation;
    (o.t3, o.sender, o.reflector) = (all.t3, all.sender, all.reflector);
    (o.round_trip, o.reference, o.offset) = (all.round_trip, all.reference, all.offset);
    o.flags = all.flags | half & !255 | half & 16;
    let has = |flag: u32| all.flags & flag != 0;
    if has(calls::T4) {
        o.t4 = all.t4;
    }
    if has(calls::ORDINAL) {
        o.ordinal = all.ordinal;
    }
    if has(calls::COUNTERS) {
        (o.s_txc, o.r_rxc, o.r_txc) = (all.s_txc, all.r_rxc, all.r_txc);
    }
    if has(calls::FOLLOW_UP) {
        o.follow_up_sequence = all.follow_up_sequence;
        o.follow_up_timestamp = all.follow_up_timestamp;
    }
    if has(calls::ESTIMATES) {
        o.sender_estimate = all.sender_estimate;
        o.reflector_estimate = all.reflector_estimate;
    }
    o
}

fn key(sender: u32, reflector: u32, t3: u64) -> Key {
    Key {
        sender,
        reflector,
        t3,
    }
}

fn observation(o: &calls::Observation) -> Observation {
    let has = |flag: u32| o.flags & flag != 0;
    Observation {
        key: key(o.sender, o.reflector, o.t3),
        round_trip: o.round_trip,
        t4: has(calls::T4).then_some(o.t4),
        format: if has(calls::PTP) {
            Format::Ptp
        } else {
            Format::Ntp
        },
        reference: o.reference,
        offset: o.offset,
        ordinal: has(calls::ORDINAL).then_some(o.ordinal),
        counters: has(calls::COUNTERS).then_some(Counters {
            sender: o.s_txc,
            received: o.r_rxc,
            transmitted: o.r_txc,
        }),
        follow_up: has(calls::FOLLOW_UP).then_some(FollowUp {
            sequence: o.follow_up_sequence,
            timestamp: o.follow_up_timestamp,
            unknown_mode: has(calls::UNKNOWN_MODE),
        }),
        estimates: has(calls::ESTIMATES).then_some((o.sender_estimate, o.reflector_estimate)),
    }
}

fn packet(a: &calls::AcceptCall) -> Option<Packet> {
    let (time, tag) = (a.time, a.tag);
    (a.pending != 0).then_some(Packet { time, tag })
}

fn tell(log: &mut Log, call: &calls::Call) {
    let (s, a) = (&call.sent, &call.accept);
    let (time, tag) = (s.time, s.tag);
    match call.kind as u8 {
        SENT => log.sent(s.sequence, s.ordinal, call.train, Packet { time, tag }),
        ACCEPT => log.accept(key(a.sender, a.reflector, a.t3), packet(a)),
        OBSERVE => log.observe(&observation(&call.observation)),
        ADVANCE => log.advance(call.now),
        _ => log.idle(),
    }
}

/// A log's calls, made on a link of the wrapper's: each refusal, and the report of the link.
fn played(settings: Settings, records: &[Record], text: &str) -> Result<(), String> {
    let Settings {
        copies,
        threshold,
        timeout,
    } = settings;
    let mut link = match threshold {
        0 => Link::new(copies, &SECRET),
        _ => Link::watched(copies, &SECRET, threshold, timeout),
    };
    let mut theirs = original::Link::fresh(settings);
    let mut turned_away = 0;
    for (at, r) in records.iter().enumerate() {
        let call = call_of(r);
        let (s, a) = (&call.sent, &call.accept);
        let (time, tag) = (s.time, s.tag);
        let answer = match r.kind() {
            SENT => link.sent(s.sequence, s.ordinal, call.train, Packet { time, tag }),
            ACCEPT => link
                .accept(key(a.sender, a.reflector, a.t3), packet(a))
                .map(|_| ()),
            OBSERVE => link.observe(&observation(&call.observation)),
            ADVANCE => link.advance(call.now),
            _ => link.idle(),
        };
        let refusal = answer.err().map_or(0, |r| r as u64);
        same(&format!("the call of record {at}"), theirs.play(r), refusal)?;
        turned_away += u64::from(refusal != 0);
    }
    let records = records.len() as u64;
    same("Link::report", text, &link.report(records, turned_away).expect("rings in place"))?;
    let none = [UNSET; 12];
    let monitor = link.watch.as_ref().map_or(&none, |w| &w.monitor);
    let (mut bytes, mut length) = ([0x5a; 1024], [UNSET]);
    let watched = u32::from(threshold != 0) << 9;
    let answer = calls::report_link(
        &link.ledger,
        monitor,
        watched,
        records,
        turned_away,
        &mut bytes,
        &mut length,
    );
    same("report_link", (0, text.len() as u64), (answer, length[0]))?;
    same("report_link", text.as_bytes(), &bytes[..text.len()])?;
    same(
        "behind a report",
        true,
        bytes[text.len()..].iter().all(|b| *b == 0x5a),
    )
}
