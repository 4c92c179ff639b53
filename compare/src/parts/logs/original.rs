//! A log played on the original, with document 01's refusals around it, and the report of what it then shows.
use super::{
    super::{
        ledger::{OFFSET_LIMIT, REFERENCE_LIMIT, TIME_LIMIT},
        trains::{oldest, Trains},
        CAPACITY, DEADLINE_PASSES, NOT_AWAITING, OUT_OF_RANGE, QUEUE_FULL,
    },
    record::{
        read, Record, Refused, Settings, ACCEPT, ADVANCE, COUNTERS, ESTIMATES, FOLLOW, IDLE,
        OBSERVE, ORDINAL, PENDING, PTP, SENT, T4, UNKNOWN_MODE,
    },
};
use crate::{
    cover::Cover,
    sender::{
        measurements::{Follow, Ledger, MeasurementSummary, Told},
        session_state::State,
    },
};

pub struct Link {
    ledger: Ledger,
    monitor: Option<u64>,
    played: u64,
    turned_away: u64,
    trains: Trains,
}

impl Link {
    pub fn fresh(settings: Settings) -> Self {
        let monitor = (settings.threshold != 0).then_some((settings.threshold, settings.timeout));
        Self {
            ledger: Ledger::fresh(settings.copies, monitor),
            monitor: monitor.map(|m| m.1),
            played: 0,
            turned_away: 0,
            trains: Trains::default(),
        }
    }

    /// Plays a record, or leaves the original alone where document 01 refuses the call. Answers the refusal, or 0.
    pub fn play(&mut self, r: &Record) -> u64 {
        let refusal = match r.kind() {
            SENT => self.sent(r),
            ACCEPT => self.accept(r),
            OBSERVE => self.observe(r),
            ADVANCE => {
                self.ledger.advance(r.number(4, 8));
                0
            }
            IDLE => {
                self.ledger.idle();
                0
            }
            kind => panic!("kind {kind} in a good log"),
        };
        self.played += 1;
        self.turned_away += u64::from(refusal != 0);
        refusal
    }

    fn sent(&mut self, r: &Record) -> u64 {
        let time = r.number(12, 8);
        if self.monitor.is_some_and(|t| time.checked_add(t).is_none()) {
            return DEADLINE_PASSES;
        }
        if self.monitor.is_some_and(|t| t > 0) && self.ledger.queued() == CAPACITY {
            return QUEUE_FULL;
        }
        let (sequence, ordinal) = (r.number(4, 4) as u32, r.number(8, 4) as u32);
        let first = oldest(&self.ledger);
        self.ledger.sent(sequence, time, r.number(20, 8), ordinal);
        self.trains.gone(first, &self.ledger);
        0
    }

    fn accept(&mut self, r: &Record) -> u64 {
        let pending = r.has(PENDING);
        let pending = pending.then(|| (r.number(20, 8), r.number(28, 8)));
        let first = oldest(&self.ledger);
        self.ledger.accept(key(r), pending);
        self.trains.gone(first, &self.ledger);
        0
    }

    /// The field of flag 16 is not looked at.
    fn observe(&mut self, r: &Record) -> u64 {
        let told = told(r);
        let beyond = |t: i64| t.unsigned_abs() > TIME_LIMIT.unsigned_abs();
        let outside = told.t4.is_some_and(beyond)
            || told.reference.unsigned_abs() > REFERENCE_LIMIT.unsigned_abs()
            || told.offset.unsigned_abs() > OFFSET_LIMIT.unsigned_abs();
        if outside {
            return OUT_OF_RANGE;
        }
        if !self.ledger.awaits(told.key) {
            return NOT_AWAITING;
        }
        self.ledger.observe(told);
        0
    }

    pub fn snapshot(&self) -> MeasurementSummary {
        self.ledger.snapshot()
    }

    /// How many calls were played, and how many of them refused.
    pub fn calls(&self) -> (u64, u64) {
        (self.played, self.turned_away)
    }

    fn report(&self) -> String {
        let s = self.ledger.snapshot();
        let (f, d) = (&s.follow_up, &s.direct_measurement);
        let loss = (s.requested_replies, s.unobserved_requested_replies);
        let shown = |v: Option<i128>| v.map_or("-".into(), |v| v.to_string());
        let missing = |v: Option<u64>| shown(v.map(i128::from));
        let thousandths = missing((1000 * loss.1).checked_div(loss.0));
        let state = match (self.monitor, s.session_state.state) {
            (None, _) => "none",
            (_, State::Idle) => "idle",
            (_, State::Active) => "active",
            (_, State::Failed) => "failed",
        };
        let losses = s.session_state.consecutive_losses;
        let (samples, _, min, max) = self.ledger.sums()[0];
        let lines = [
            format!("records {} turned away {}", self.played, self.turned_away),
            format!(
                "requested {} unobserved {} thousandths {thousandths}",
                loss.0, loss.1
            ),
            format!(
                "unique {} duplicate {} unknown {}",
                s.unique_replies, s.duplicate_replies, s.unknown_replies
            ),
            format!(
                "answered {} additional {} late {}",
                s.answered_probes, s.additional_replies, s.late_replies
            ),
            format!(
                "reordered {} independent {}",
                s.reordered_replies, s.independent_sequence_observations
            ),
            format!(
                "followup {} matched {} repeated {} unmatched {} ambiguous {} unavailable {}",
                f.observations, f.matched, f.repeated, f.unmatched, f.ambiguous, f.unavailable
            ),
            format!(
                "direct {} unavailable {} discontinuities {} reordered {}",
                d.observations, d.unavailable, d.discontinuities, d.reordered
            ),
            format!(
                "missing forward {} reverse {}",
                missing(d.forward_missing),
                missing(d.reverse_missing)
            ),
            format!("state {state} losses {losses}"),
            format!(
                "rtt samples {samples} min {} max {}",
                shown(min),
                shown(max)
            ),
            format!("evicted unanswered {}", self.trains.unanswered),
        ];
        lines.map(|line| line + "\n").concat()
    }
}

fn key(r: &Record) -> (u32, u32, u64) {
    (
        r.number(4, 4) as u32,
        r.number(8, 4) as u32,
        r.number(12, 8),
    )
}

/// What an observe is told.
fn told(r: &Record) -> Told {
    let n = |at: usize| r.number(at, 4) as u32;
    Told {
        key: key(r),
        rtt: r.number(20, 8),
        t4: r.has(T4).then_some(r.number(28, 8) as i64),
        ptp: r.has(PTP),
        reference: r.number(36, 8) as i64,
        offset: n(44) as i32,
        ordinal: r.has(ORDINAL).then_some(n(48)),
        counters: r.has(COUNTERS).then_some((n(52), n(56), n(60))),
        follow: r.has(FOLLOW).then_some(Follow {
            sequence: n(64),
            timestamp: r.number(68, 8),
            unknown: r.has(UNKNOWN_MODE),
        }),
        quality: r
            .has(ESTIMATES)
            .then_some((r.number(84, 2) as u16, r.number(86, 2) as u16)),
    }
}

/// What `linkreport` has to print for these bytes.
pub fn report(bytes: &[u8], cover: &mut Cover) -> String {
    match read(bytes) {
        Err(refused) => {
            cover.reached(match refused {
                Refused::TooLong => "refused 9",
                Refused::BadTrailer => "refused 7",
                Refused::BadRecord(0) => "refused 8 at 0",
                Refused::BadRecord(_) => "refused 8 further on",
            });
            match refused {
                Refused::TooLong => "refused 9\n".into(),
                Refused::BadTrailer => "refused 7\n".into(),
                Refused::BadRecord(at) => format!("refused 8 at {at}\n"),
            }
        }
        Ok((settings, records)) => {
            let mut link = Link::fresh(settings);
            for record in &records {
                reached_by(record, link.play(record), settings, cover);
            }
            reached_at_end(&link, &records, settings, cover);
            link.report()
        }
    }
}

/// Lines of the table of what was reached.
pub const LINES: [&str; 33] = [
    "refused 9",
    "refused 7",
    "refused 8 at 0",
    "refused 8 further on",
    "played: no record",
    "played: 682 records",
    "played: copies 0",
    "played: no monitor",
    "played: monitor without timeout",
    "sent: served",
    "sent: refused 6",
    "accept: with a pending packet",
    "accept: without",
    "observe: served",
    "observe: refused 1",
    "observe: refused 2",
    "advance: with a monitor",
    "advance: without",
    "idle: with a monitor",
    "idle: without",
    "report: duplicate, unknown, additional and late",
    "report: reordered and independent",
    "report: matched and repeated",
    "report: unmatched, ambiguous and unavailable",
    "report: direct unavailable, discontinuity, reordered",
    "report: forward and reverse missing above 0",
    "report: forward absent, reverse shown",
    "report: no estimate",
    "report: no round trip",
    "report: idle",
    "report: active",
    "report: failed",
    "report: losses below the threshold",
];

fn reached_by(r: &Record, refusal: u64, settings: Settings, cover: &mut Cover) {
    let monitor = settings.threshold != 0;
    cover.reached(match (r.kind(), refusal) {
        (SENT, 0) => "sent: served",
        (SENT, _) => "sent: refused 6",
        (ACCEPT, _) if r.has(PENDING) => "accept: with a pending packet",
        (ACCEPT, _) => "accept: without",
        (OBSERVE, 0) => "observe: served",
        (OBSERVE, OUT_OF_RANGE) => "observe: refused 1",
        (OBSERVE, _) => "observe: refused 2",
        (ADVANCE, _) if monitor => "advance: with a monitor",
        (ADVANCE, _) => "advance: without",
        _ if monitor => "idle: with a monitor",
        _ => "idle: without",
    });
}

fn reached_at_end(link: &Link, records: &[Record], settings: Settings, cover: &mut Cover) {
    let s = link.ledger.snapshot();
    let (f, d, m) = (&s.follow_up, &s.direct_measurement, &s.session_state);
    let all = |counts: &[u64]| counts.iter().all(|c| *c > 0);
    let some = link.monitor.is_some();
    for (holds, line) in [
        (records.is_empty(), "played: no record"),
        (records.len() == 682, "played: 682 records"),
        (settings.copies == 0, "played: copies 0"),
        (!some, "played: no monitor"),
        (link.monitor == Some(0), "played: monitor without timeout"),
        (
            all(&[
                s.duplicate_replies,
                s.unknown_replies,
                s.additional_replies,
                s.late_replies,
            ]),
            "report: duplicate, unknown, additional and late",
        ),
        (
            all(&[s.reordered_replies, s.independent_sequence_observations]),
            "report: reordered and independent",
        ),
        (
            all(&[f.matched, f.repeated]),
            "report: matched and repeated",
        ),
        (
            all(&[f.unmatched, f.ambiguous, f.unavailable]),
            "report: unmatched, ambiguous and unavailable",
        ),
        (
            all(&[d.unavailable, d.discontinuities, d.reordered]),
            "report: direct unavailable, discontinuity, reordered",
        ),
        (
            all(&[
                d.forward_missing.unwrap_or(0),
                d.reverse_missing.unwrap_or(0),
            ]),
            "report: forward and reverse missing above 0",
        ),
        (
            d.forward_missing.is_none() && d.reverse_missing.is_some(),
            "report: forward absent, reverse shown",
        ),
        (d.reverse_missing.is_none(), "report: no estimate"),
        (s.reply_rtt.samples == 0, "report: no round trip"),
        (some && m.state == State::Idle, "report: idle"),
        (some && m.state == State::Active, "report: active"),
        (some && m.state == State::Failed, "report: failed"),
        (
            m.state != State::Failed && m.consecutive_losses > 0,
            "report: losses below the threshold",
        ),
    ] {
        cover.reached_if(holds, line);
    }
}
