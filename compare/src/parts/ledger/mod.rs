//! The ledger (`Measurements` of measurements.rs), with its monitor.
#[cfg(feature = "host")]
pub mod bursts;
#[cfg(feature = "host")]
pub mod conversions;
#[cfg(feature = "host")]
pub mod hosted;
mod reached;
mod scripts;
mod shown;

use super::{
    numbers::Ends, trains::{oldest, Trains},
    CAPACITY, COUNTS_FULL, COUNT_BOUND, DEADLINE_PASSES, NOT_AWAITING, OUT_OF_RANGE,
    QUEUE_FULL, SUM_BOUND, WRONG_ROOM,
};
use crate::{
    cover::Cover,
    error_estimate::ErrorEstimate,
    part::{Answer, Call, Original, Part},
    sender::measurements::{Follow, Ledger, Told},
    time,
};
use reached::{reached_by_loss, reached_by_step, LINES};
use shown::{flagged, WORDS};

/// Copies, 0 or 1 for a monitor, its threshold, its timeout, four words of the port's hash.
pub const FRESH: u64 = 0;
/// Sequence, time, tag, ordinal, train.
pub const SENT: u64 = 1;
/// Sender and reflector, T3, 0 or 1 for a pending packet, its time, its tag.
pub const ACCEPT: u64 = 2;
/// See `told`.
pub const OBSERVE: u64 = 3;
/// Now.
pub const ADVANCE: u64 = 4;
pub const IDLE: u64 = 5;
/// A count, by its number, and its value: a state as a host could hand it over. 0 is the number of calls served so far.
pub const LOAD: u64 = 6;
/// Which ring of the port's state is out of bounds in this call alone, and above 8 bits what it is replaced by: head and length of
/// the keys, head and length of the probes, the number of seen offsets.
pub const SPOIL: usize = 12;
/// Which room is lent to the port in another size, and above 3 bits how many rows it has.
pub const ROOM: usize = 14;
/// A call whose last word is 1 answers with the digests of the rooms too.
pub const DIGEST: usize = 15;

/// Flags of an observe, in its first word above the operation, as in the log.
pub const T4: u64 = 1;
pub const ORDINAL: u64 = 2;
pub const COUNTERS: u64 = 4;
pub const FOLLOW: u64 = 8;
pub const QUALITY: u64 = 32;
pub const PTP: u64 = 64;
pub const UNKNOWN_MODE: u64 = 128;
/// Word 13 goes to the port in the reserved words of the observation, with bit 16 of its flags. It must not matter.
pub const ANYWAY: u64 = 256;

/// The rooms, by their numbers.
pub const KEYS: u64 = 1;
pub const SLOTS: u64 = 2;
pub const PROBES: u64 = 3;
pub const OFFSETS: u64 = 4;
pub const LINKS: u64 = 5;
/// The monitor's.
pub const QUEUE: u64 = 6;

/// Document 01's ranges.
pub const TIME_LIMIT: i64 = 4_000_000_000_000_000_000;
pub const REFERENCE_LIMIT: i64 = 4_000_000_000;
pub const OFFSET_LIMIT: i32 = 86_400;
pub const MOST_CALLS: u64 = 4_294_967_295;

/// The original's side; hosted.rs has the port's, in this process.
pub const PART: Part = Part {
    name: "host",
    program: "-",
    here: None,
    call_words: 16,
    answer_words: 120,
    lines: &LINES,
    fresh: || Box::new(Booked::fresh(1, None)),
    scripts: scripts::scripts,
    sample: |_| vec![],
    show,
    answer: &WORDS,
};

/// What a call answers besides the state.
#[derive(Default)]
struct Reply {
    refusal: u64,
    class: u64,
    time: u64,
    tag: u64,
    ordinal: u64,
    train: u64,
}

fn refused(refusal: u64) -> Reply {
    Reply {
        refusal,
        ..Reply::default()
    }
}

struct Booked {
    ledger: Ledger,
    monitor: Option<(u16, u64)>,
    calls: u64,
    trains: Trains,
    freed: std::collections::HashSet<u32>,
    unobserved: std::collections::HashSet<(u32, u32, u64)>,
    broken: bool,
    ends: Ends,
}

pub fn halves(low: u32, high: u32) -> u64 {
    u64::from(low) | u64::from(high) << 32
}

/// What an observe is told, out of its words.
fn told(call: &Call) -> Told {
    let flags = call[0] >> 8;
    let has = |flag: u64| flags & flag != 0;
    Told {
        key: key(call),
        rtt: call[3],
        t4: has(T4).then_some(call[4] as i64),
        ptp: has(PTP),
        reference: call[5] as i64,
        offset: call[6] as u32 as i32,
        ordinal: has(ORDINAL).then_some((call[6] >> 32) as u32),
        counters: has(COUNTERS).then_some((call[7] as u32, (call[7] >> 32) as u32, call[8] as u32)),
        follow: has(FOLLOW).then_some(Follow {
            sequence: (call[8] >> 32) as u32,
            timestamp: call[9],
            unknown: has(UNKNOWN_MODE),
        }),
        quality: has(QUALITY).then_some((wire(call[11] as u32), wire((call[11] >> 32) as u32))),
    }
}

/// An estimate as its fields (S, Z, scale, multiplier) to its 16 bits, which have no scale above 63: no refusal 1 for a scale.
fn wire(fields: u32) -> u16 {
    let scale = (fields >> 8 & 0x3f) as u16;
    let multiplier = (fields >> 16 & 0xff) as u16;
    (fields as u16 & 1) << 15 | (fields as u16 >> 1 & 1) << 14 | scale << 8 | multiplier
}

fn key(call: &Call) -> (u32, u32, u64) {
    (call[1] as u32, (call[1] >> 32) as u32, call[2])
}

impl Booked {
    fn fresh(copies: u16, monitor: Option<(u16, u64)>) -> Self {
        Self {
            ledger: Ledger::fresh(copies, monitor),
            monitor,
            calls: 0,
            trains: Trains::default(),
            freed: Default::default(),
            unobserved: Default::default(),
            broken: false,
            ends: Ends::default(),
        }
    }
}

impl Original for Booked {
    fn play(&mut self, call: &mut Call, cover: &mut Cover) -> Answer {
        let answer = match call[0] & 0xff {
            FRESH => {
                let monitor = (call[2] != 0).then_some((call[3] as u16, call[4]));
                *self = Self::fresh(call[1] as u16, monitor);
                cover.reached_if(call[1] == 0, "fresh: copies 0 counts as 1");
                cover.reached_if(call[1] > 1, "fresh: copies above 1");
                cover.reached_if(monitor.is_some(), "fresh: with a monitor");
                cover.reached_if(monitor.is_none(), "fresh: without a monitor");
                self.shown(Reply::default(), call)
            }
            SENT => self.sent(call, cover),
            ACCEPT => self.accept(call, cover),
            OBSERVE => self.observe(call, cover),
            ADVANCE => {
                cover.reached_if(self.monitor.is_some(), "monitor: advance");
                self.ledger.advance(call[1]);
                self.shown(Reply::default(), call)
            }
            IDLE => {
                cover.reached_if(self.monitor.is_some(), "monitor: idle");
                self.ledger.idle();
                self.shown(Reply::default(), call)
            }
            _ => {
                match call[1] {
                    0 => self.calls = call[2],
                    34..=36 => {
                        self.ends.counts[call[1] as usize - 34] = call[2];
                        self.ends = self.ends.loaded(self.invalid());
                    }
                    37 => self.trains.unanswered = call[2],
                    count => {
                        self.ledger.load(count, call[2]);
                        self.ends = self.ends.loaded(self.invalid());
                    }
                }
                self.shown(Reply::default(), call)
            }
        };
        reached_by_loss(&answer, cover);
        answer
    }
}

impl Booked {
    /// Whether a room that the call is lent has another size, or a ring of the state that it is handed is out of bounds.
    fn wrong_room(&self, call: &Call, rooms: &[u64]) -> bool {
        call[SPOIL] != 0 || rooms.contains(&(call[ROOM] % 8))
    }

    /// Whether the monitor that the call drives is lent a queue of another size.
    fn wrong_queue(&self, call: &Call) -> bool {
        self.monitor.is_some() && call[ROOM] % 8 == QUEUE
    }

    /// The refusal of a call that only reads.
    fn refused_reading(&self, call: &Call, rooms: &[u64]) -> u64 {
        if self.wrong_room(call, rooms) {
            WRONG_ROOM
        } else {
            0
        }
    }

    fn invalid(&self) -> u64 {
        self.ledger
            .snapshot()
            .follow_up
            .clock_quality
            .invalid_estimate
    }

    /// Whether the calls, a count or a sum is at its bound.
    fn full(&self) -> bool {
        let counts = self.ledger.counts();
        let sums = self.ledger.sums();
        self.calls >= MOST_CALLS
            || self.trains.unanswered >= COUNT_BOUND
            || counts.iter().any(|c| *c >= COUNT_BOUND)
            || self.ends.counts.iter().any(|c| *c >= COUNT_BOUND)
            || sums
                .iter()
                .any(|s| s.0 >= COUNT_BOUND || s.1.unsigned_abs() >= SUM_BOUND)
    }

    fn sent_refusal(&self, call: &Call) -> (u64, &'static str) {
        let timeout = self.monitor.map(|m| m.1);
        if self.wrong_room(call, &[PROBES, LINKS]) {
            return (WRONG_ROOM, "sent: refused 5");
        }
        if self.wrong_queue(call) {
            return (WRONG_ROOM, "sent: refused 5 for the queue");
        }
        if timeout.is_some_and(|t| call[2].checked_add(t).is_none()) {
            return (DEADLINE_PASSES, "sent: refused 6");
        }
        if self.full() {
            return (COUNTS_FULL, "sent: refused 4");
        }
        if timeout.is_some_and(|t| t > 0) && self.ledger.queued() == CAPACITY {
            return (QUEUE_FULL, "sent: refused 3");
        }
        (0, "")
    }

    fn sent(&mut self, call: &Call, cover: &mut Cover) -> Answer {
        let (sequence, time) = (call[1] as u32, call[2]);
        let (refusal, line) = self.sent_refusal(call);
        if refusal != 0 {
            cover.reached(line);
            return self.shown(refused(refusal), call);
        }
        let held = self.ledger.holds(sequence);
        let evicted = self.ledger.snapshot().probes_evicted;
        let first = oldest(&self.ledger);
        self.ledger.sent(sequence, time, call[3], call[4] as u32);
        self.calls += 1;
        self.trains.remembered(sequence, call[5] as u32);
        let gone = self.trains.gone(first, &self.ledger);
        let evicts = self.ledger.snapshot().probes_evicted > evicted;
        cover.reached_if(held, "sent: a held sequence again");
        cover.reached_if(!held, "sent: a new sequence");
        cover.reached_if(evicts, "sent: evicts a probe");
        cover.reached_if(gone == Some(false), "sent: evicts an unanswered probe");
        cover.reached_if(gone == Some(true), "sent: evicts an answered probe");
        self.shown(Reply::default(), call)
    }

    fn accept(&mut self, call: &Call, cover: &mut Cover) -> Answer {
        if self.wrong_room(call, &[KEYS, SLOTS, PROBES, LINKS]) || self.wrong_queue(call) {
            cover.reached("accept: refused 5");
            return self.shown(refused(WRONG_ROOM), call);
        }
        if self.full() {
            cover.reached("accept: refused 4");
            return self.shown(refused(COUNTS_FULL), call);
        }
        let key = key(call);
        let pending = (call[3] != 0).then_some((call[4], call[5]));
        let before = self.ledger.snapshot();
        let held = self.ledger.probe(key.0);
        let highest = self.ledger.highest();
        let awaited = self.ledger.awaiting();
        let evicted = (self.ledger.key_count() == CAPACITY)
            .then(|| self.ledger.keys().next())
            .flatten();
        let slot = evicted.and_then(|k| self.ledger.slot(k.1));
        let oldest = oldest(&self.ledger);
        self.calls += 1;
        let Some((time, tag, ordinal)) = self.ledger.accept(key, pending) else {
            let after = self.ledger.snapshot();
            let duplicate = after.duplicate_replies > before.duplicate_replies;
            cover.reached_if(duplicate, "accept: duplicate");
            cover.reached_if(!duplicate, "accept: unknown");
            let reply = Reply {
                class: u64::from(duplicate),
                ..Reply::default()
            };
            return self.shown(reply, call);
        };
        let after = self.ledger.snapshot();
        if held.is_none() {
            self.trains.remembered(key.0, 0);
        }
        let gone = self.trains.gone(oldest, &self.ledger);
        let train = self.trains.of(key.0);
        self.unobserved.insert(key);
        cover.reached_if(held.is_none(), "accept: unheld probe with a pending packet");
        let evicts = after.probes_evicted > before.probes_evicted;
        cover.reached_if(evicts, "accept: that evicts a probe");
        cover.reached_if(gone == Some(false), "accept: that evicts an unanswered probe");
        cover.reached_if(train != 0, "accept: a train");
        let replaces = held.zip(pending).is_some_and(|(h, p)| (h.1, h.2) != p);
        cover.reached_if(replaces, "accept: pending packet replaces the stored one");
        let first = after.answered_probes > before.answered_probes;
        cover.reached_if(first, "accept: first reply");
        let late = after.late_replies > before.late_replies;
        cover.reached_if(late, "accept: first reply, late");
        cover.reached_if(!first, "accept: additional reply");
        let beyond = held.is_some_and(|h| h.5 >= self.ledger.copies());
        cover.reached_if(beyond, "accept: reply beyond the copies");
        cover.reached_if(key.0 != key.1, "accept: independent reflector");
        reached_by_step(highest, key.1, cover);
        cover.reached_if(ordinal.is_none(), "accept: no ordinal");
        cover.reached_if(
            awaited.is_some(),
            "accept: takes the place of a key that awaits",
        );
        if let Some(old) = evicted {
            self.reached_by_eviction(old, slot.map(|s| s.0), cover);
        }
        let reply = Reply {
            class: 2,
            time,
            tag,
            ordinal: flagged(ordinal),
            train: train.into(),
            ..Reply::default()
        };
        self.shown(reply, call)
    }

    fn observe(&mut self, call: &mut Call, cover: &mut Cover) -> Answer {
        let told = told(call);
        let refusal = self.observe_refusal(&told, call, cover);
        let reply = refused(refusal);
        if refusal != 0 {
            return self.shown(reply, call);
        }
        self.reached_by_direct(&told, cover);
        let before = self.ledger.snapshot();
        let open = told
            .follow
            .and_then(|f| self.ledger.open(told.key, f).map(|o| (f, o)));
        let closed = self.follow_line(&told, open.is_some());
        let slot = self.ledger.slot(told.key.1);
        let before_sum = self.ledger.sums()[1].1;
        let corrected = told.follow.and_then(|f| self.ledger.slot(f.sequence));
        self.ledger.observe(told);
        self.calls += 1;
        self.unobserved.remove(&told.key);
        let after = self.ledger.snapshot();
        if after.follow_up.matched > before.follow_up.matched {
            let pair = corrected
                .and_then(|slot| slot.2)
                .and_then(|record| record.3);
            let wires = |(s, r)| (ErrorEstimate::from_wire(s), ErrorEstimate::from_wire(r));
            self.ends.told(pair.map(wires));
        }
        self.ends.held_against(self.invalid());
        self.reached_by_direct_after(&told, &before, &after, cover);
        if let Some(line) = closed {
            cover.reached(line);
        }
        if let Some((follow, (ptp, reference))) = open {
            let matched = after.follow_up.matched > before.follow_up.matched;
            let delay = self.ledger.sums()[1].1 - before_sum;
            cover.reached_if(matched, "follow-up: matched");
            cover.reached_if(matched && delay < 0, "follow-up: matched, negative delay");
            let [within, own] = time::converted(follow.timestamp, ptp, reference, told.offset);
            cover.reached_if(own.is_none(), "follow-up: unavailable, T3 not converted");
            let beyond = own.is_some() && within.is_none();
            cover.reached_if(beyond, "follow-up: unavailable, T3 out of range");
            let absent = !matched && within.is_some();
            cover.reached_if(absent, "follow-up: unavailable, T4 absent");
        }
        let made = self.ledger.slot(told.key.1);
        let record = made.is_some_and(|m| m.2.is_some());
        match slot {
            Some(_) => cover.reached("slot: count rises, record dropped"),
            None if record => cover.reached("slot: made with a record"),
            None => cover.reached("slot: made, record withheld"),
        }
        let anew = slot.is_none() && self.freed.contains(&told.key.1);
        cover.reached_if(anew, "slot: made anew for a freed number");
        self.shown(reply, call)
    }

    fn observe_refusal(&self, told: &Told, call: &Call, cover: &mut Cover) -> u64 {
        if self.wrong_room(call, &[KEYS, SLOTS, OFFSETS, LINKS]) {
            cover.reached("observe: refused 5");
            return WRONG_ROOM;
        }
        let beyond = |t: i64| t.unsigned_abs() > TIME_LIMIT.unsigned_abs();
        let range = [
            (told.t4.is_some_and(beyond), "observe: refused 1 for T4"),
            (
                told.reference.unsigned_abs() > REFERENCE_LIMIT.unsigned_abs(),
                "observe: refused 1 for the reference",
            ),
            (
                told.offset.unsigned_abs() > OFFSET_LIMIT.unsigned_abs(),
                "observe: refused 1 for the offset",
            ),
        ];
        let awaits = self.ledger.awaits(told.key);
        let mut outside = false;
        for (holds, line) in range {
            cover.reached_if(holds, line);
            outside |= holds;
        }
        if outside {
            cover.reached_if(!awaits, "observe: refused 1 before 2");
            return OUT_OF_RANGE;
        }
        if self.full() {
            cover.reached("observe: refused 4");
            return COUNTS_FULL;
        }
        cover.reached_if(!awaits, "observe: refused 2");
        if awaits {
            0
        } else {
            NOT_AWAITING
        }
    }
}

fn show(call: &Call) -> String {
    match call[0] & 0xff {
        FRESH => format!(
            "fresh copies {} monitor {} threshold {} timeout {}",
            call[1], call[2], call[3], call[4]
        ),
        SENT => format!(
            "sent {} at {} tag {} ordinal {} train {}",
            call[1], call[2], call[3], call[4], call[5]
        ),
        ACCEPT => format!("accept {:?} pending {:?}", key(call), &call[3..6]),
        OBSERVE => {
            let t = told(call);
            let follow = t.follow.map(|f| (f.sequence, f.timestamp, f.unknown));
            format!(
                "observe {:?} rtt {} T4 {:?} PTP {} reference {} offset {} ordinal {:?} counters {:?} follow {:?} quality {:?} anyway {}",
                t.key, t.rtt, t.t4, t.ptp, t.reference, t.offset, t.ordinal, t.counters, follow, t.quality, call[13]
            )
        }
        ADVANCE => format!("advance {}", call[1]),
        IDLE => "idle".into(),
        _ => format!("load calls {}", call[1]),
    }
}
