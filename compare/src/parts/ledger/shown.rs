//! An answer's words: the call's own answer, every field of the snapshot, and all that can be seen of the rest of the original's state.
use super::{
    super::{monitor::digest, numbers::received},
    halves, Booked, Reply, DIGEST,
};
use crate::{
    clock_format::ClockFormat,
    digest::Digest,
    part::{Answer, Call},
    sender::{
        measurements::{CounterPoint, DelaySummary, HeldProbe, MeasurementSummary},
        session_state::State,
    },
    stats::clock_quality::ClockEstimate,
};

pub const WORDS: [&str; 120] = [
    "refusal",
    "accept: 0 unknown, 1 duplicate, 2 unique",
    "accept: send time",
    "accept: tag",
    "accept: ordinal",
    "answered",
    "copies",
    "calls served",
    "awaiting",
    "needs_burst_wait",
    "accept: train",
    "probes evicted unanswered",
    "1 if the wrapper's deadline is another",
    "",
    "",
    "",
    "requested",
    "unique",
    "duplicate",
    "unknown",
    "answered probes",
    "additional",
    "late",
    "satisfied",
    "reordered",
    "independent",
    "highest reflector",
    "last reflector",
    "probes evicted",
    "replies evicted",
    "unobserved",
    "thousandths",
    "round trips",
    "their sum, sign",
    "their sum, high",
    "their sum, low",
    "their minimum",
    "their maximum",
    "their samples",
    "their values in ms that there are",
    "follow-up delays",
    "their sum, sign",
    "their sum, high",
    "their sum, low",
    "their minimum",
    "their maximum",
    "their samples",
    "their values in ms that there are",
    "round trips: minimum in ms",
    "round trips: average in ms",
    "round trips: maximum in ms",
    "follow-up delays: minimum in ms",
    "follow-up delays: average in ms",
    "follow-up delays: maximum in ms",
    "accepted keys",
    "held probes",
    "follow-up observations",
    "matched",
    "repeated",
    "unmatched",
    "ambiguous",
    "unavailable",
    "1 if there is a largest combined error",
    "largest combined error",
    "clock samples",
    "both synchronized",
    "unsynchronized",
    "invalid",
    "unknown estimates",
    "last sender estimate",
    "last reflector estimate",
    "the 16 bits of invalid last estimates",
    "error of the last sender estimate",
    "error of the last reflector estimate",
    "direct observations",
    "direct unavailable",
    "discontinuities",
    "direct reordered",
    "direct values that there are",
    "seen offsets",
    "anchor S_TxC and R_RxC",
    "anchor R_TxC",
    "latest S_TxC and R_RxC",
    "latest R_TxC",
    "sender packets",
    "reflector received",
    "forward missing",
    "reflector transmitted",
    "replies received",
    "reverse missing",
    "oldest key, sender and reflector",
    "oldest key, T3",
    "oldest probe",
    "its replies",
    "its ordinal",
    "its send time",
    "its tag",
    "the call's probe",
    "its replies",
    "its ordinal",
    "its send time",
    "its tag",
    "slot of the call's reflector: count",
    "its flags and estimates",
    "its T4",
    "its reference",
    "slots, with the digests",
    "first digest",
    "second digest",
    "",
    "",
    "",
    "monitor",
    "notifications",
    "queued probes",
    "first digest of the queue",
    "second digest of the queue",
    "invalid at the sender alone",
    "invalid at the reflector alone",
    "invalid at both",
];

/// The words of an answer, one after the other.
struct Words(Vec<u64>);

impl Words {
    fn add(&mut self, words: &[u64]) {
        self.0.extend_from_slice(words);
    }
    fn at(&self, word: usize) {
        assert_eq!(self.0.len(), word);
    }
}

impl Booked {
    /// What a call answered, and the whole state.
    pub fn shown(&self, reply: Reply, call: &Call) -> Answer {
        let s = self.ledger.snapshot();
        let mut words = Words(Vec::with_capacity(120));
        self.shown_answer(&reply, call, &mut words);
        self.shown_replies(&s, &mut words);
        self.shown_delays(&s, &mut words);
        self.shown_follow(&s, &mut words);
        self.shown_direct(&s, &mut words);
        self.shown_rooms(call, &mut words);
        words.0.resize(112, 0);
        self.shown_monitor(&s, call, &mut words);
        words.0.resize(117, 0);
        words.add(&self.ends.counts);
        words.0.try_into().expect("120 words")
    }

    fn shown_answer(&self, r: &Reply, call: &Call, words: &mut Words) {
        words.add(&[r.refusal, r.class, r.time, r.tag, r.ordinal]);
        let answered = match self.refused_reading(call, &[super::PROBES, super::LINKS]) {
            0 => u64::from(self.ledger.answered(call[1] as u32)),
            number => 256 + number,
        };
        words.add(&[answered, u64::from(self.ledger.copies()), self.calls]);
        words.add(&[u64::from(self.ledger.awaiting().is_some())]);
        words.add(&[u64::from(self.ledger.needs_burst_wait())]);
        words.add(&[r.train, self.trains.unanswered, 0, 0, 0, 0]);
        words.at(16);
    }

    fn shown_replies(&self, s: &MeasurementSummary, words: &mut Words) {
        words.add(&[
            s.requested_replies,
            s.unique_replies,
            s.duplicate_replies,
            s.unknown_replies,
            s.answered_probes,
            s.additional_replies,
            s.late_replies,
            self.ledger.satisfied(),
            s.reordered_replies,
            s.independent_sequence_observations,
            flagged(self.ledger.highest()),
            flagged(s.last_reflector_sequence),
            s.probes_evicted,
            s.replies_evicted,
            s.unobserved_requested_replies,
            flagged(thousandths(
                s.unobserved_requested_replies,
                s.requested_replies,
            )),
        ]);
        words.at(32);
    }

    fn shown_delays(&self, s: &MeasurementSummary, words: &mut Words) {
        let shown = [&s.reply_rtt, &s.follow_up.reverse_delay];
        let word = |x: Option<i128>| x.map_or(0, |x| x as u64);
        for ((count, sum, min, max), summary) in self.ledger.sums().iter().zip(shown) {
            let magnitude = sum.unsigned_abs();
            words.add(&[*count, u64::from(*sum < 0)]);
            words.add(&[(magnitude >> 64) as u64, magnitude as u64]);
            words.add(&[word(*min), word(*max), summary.samples, known(summary)]);
        }
        for summary in shown {
            let ms = [summary.min_ms, summary.avg_ms, summary.max_ms];
            words.add(&ms.map(bits));
        }
        words.add(&[self.ledger.key_count() as u64]);
        words.add(&[self.ledger.probe_count() as u64]);
        words.at(56);
    }

    fn shown_follow(&self, s: &MeasurementSummary, words: &mut Words) {
        let f = &s.follow_up;
        let q = &f.clock_quality;
        words.add(&[
            f.observations,
            f.matched,
            f.repeated,
            f.unmatched,
            f.ambiguous,
            f.unavailable,
            u64::from(q.max_combined_error_ms.is_some()),
            bits(q.max_combined_error_ms),
            q.samples,
            q.both_synchronized,
            q.unsynchronized,
            q.invalid_estimate,
            q.unknown,
            estimate(q.last_sender),
            estimate(q.last_reflector),
            received(q.last_sender) | received(q.last_reflector) << 16,
            bits(q.last_sender.and_then(|e| e.error_ms)),
            bits(q.last_reflector.and_then(|e| e.error_ms)),
        ]);
        words.at(74);
    }

    fn shown_direct(&self, s: &MeasurementSummary, words: &mut Words) {
        let d = &s.direct_measurement;
        let spans = [
            d.sender_packets,
            d.reflector_received,
            d.forward_missing,
            d.reflector_transmitted,
            d.replies_received,
            d.reverse_missing,
        ];
        let mut present = u64::from(d.history_exceeded);
        present |= u64::from(d.anchor.is_some()) << 1;
        present |= u64::from(d.latest_transmit.is_some()) << 2;
        for (place, span) in spans.iter().enumerate() {
            present |= u64::from(span.is_some()) << (3 + place);
        }
        words.add(&[d.observations, d.unavailable, d.discontinuities]);
        words.add(&[d.reordered, present, self.ledger.seen_count() as u64]);
        words.add(&point(d.anchor));
        words.add(&point(d.latest_transmit));
        words.add(&spans.map(|span| span.unwrap_or(0)));
        words.at(90);
        self.assert_direct(s);
    }

    /// What the original keeps of the counters beside its summary says no more than the summary does.
    fn assert_direct(&self, s: &MeasurementSummary) {
        let d = &s.direct_measurement;
        let (high, sender, received) = self.ledger.direct();
        if let Some(latest) = d.latest_transmit {
            assert_eq!(latest.reflector_tx, high);
        }
        if let Some(packets) = d.sender_packets {
            assert_eq!(packets, u64::from(sender));
            assert_eq!(d.reflector_received, Some(u64::from(received)));
        }
    }

    fn shown_rooms(&self, call: &Call, words: &mut Words) {
        let l = &self.ledger;
        let key = l.keys().next();
        words.add(&key.map_or([0, 0], |k| [halves(k.1, k.0), k.2]));
        words.add(&probe(l.probes().next()));
        words.add(&probe(l.probe(call[1] as u32)));
        let slot = self.slot_words((call[1] >> 32) as u32);
        words.add(&slot.unwrap_or([0; 4]));
        words.at(106);
        if call[DIGEST] == 1 {
            let d = self.digest();
            words.add(&[l.slot_count() as u64, d.first, d.second]);
        }
    }

    fn shown_monitor(&self, s: &MeasurementSummary, call: &Call, words: &mut Words) {
        let Some((_, transmitting, queue)) = self.ledger.monitor() else {
            return;
        };
        let m = &s.session_state;
        let state = match m.state {
            State::Idle => 0,
            State::Active => 1,
            State::Failed => 2,
        };
        let monitor = state
            | u64::from(m.loss_threshold) << 8
            | u64::from(transmitting) << 24
            | u64::from(m.consecutive_losses) << 32;
        let notices =
            m.active_notifications << 40 | m.failed_notifications << 20 | m.idle_notifications;
        words.add(&[monitor, notices, queue.len() as u64]);
        if call[DIGEST] == 1 {
            let d = digest(queue.into_iter());
            words.add(&[d.first, d.second]);
        }
    }

    /// Held probes and accepted keys in their order; slots and seen offsets in none.
    fn digest(&self) -> Digest {
        let l = &self.ledger;
        let mut d = Digest::default();
        for (sequence, time, tag, ordinal, answered, replies) in l.probes() {
            assert!(answered == (replies > 0));
            d = d.then(halves(sequence, u32::from(replies)));
            d = d.then(flagged(ordinal)).then(time).then(tag);
        }
        for (sender, reflector, t3) in l.keys() {
            d = d.then(halves(reflector, sender)).then(t3);
        }
        let slots = l.slots().map(|number| self.slot_digest(number));
        d = d.with(slots.fold(Digest::default(), Digest::with));
        let seen = l.seen().map(|o| Digest::default().then(u64::from(o)));
        d.with(seen.fold(Digest::default(), Digest::with))
    }

    fn slot_digest(&self, number: u32) -> Digest {
        let [count, flags, t4, reference] = self.slot_words(number).expect("a slot");
        let d = Digest::default().then(halves(number, count as u32));
        d.then(flags).then(t4).then(reference)
    }

    /// A slot's count, its flags with the estimates, T4 and reference.
    fn slot_words(&self, number: u32) -> Option<[u64; 4]> {
        let (count, corrected, record) = self.ledger.slot(number)?;
        let Some((t4, ptp, reference, quality)) = record else {
            return Some([count as u64, u64::from(corrected) << 32, 0, 0]);
        };
        let (sender, reflector) = quality.unwrap_or((0, 0));
        let flags = u64::from(corrected)
            | u64::from(ptp) << 1
            | u64::from(t4.is_some()) << 2
            | u64::from(quality.is_some()) << 3
            | 1 << 4;
        Some([
            count as u64,
            flags << 32 | u64::from(sender) << 16 | u64::from(reflector),
            t4.map_or(0, |t| t as u64),
            reference as u64,
        ])
    }
}

pub fn flagged(value: Option<u32>) -> u64 {
    value.map_or(0, |v| 1 << 32 | u64::from(v))
}

fn bits(x: Option<f64>) -> u64 {
    x.map_or(0, f64::to_bits)
}

/// Which values of a summary there are.
fn known(d: &DelaySummary) -> u64 {
    let there = [d.min_ms, d.avg_ms, d.max_ms].map(|x| u64::from(x.is_some()));
    there[0] | there[1] << 1 | there[2] << 2
}

/// Document 01: 1,000 times unobserved by requested, rounded down; none with nothing requested (document 02, Q-5). The original has no
/// such figure.
fn thousandths(unobserved: u64, requested: u64) -> Option<u32> {
    let product = 1_000 * u128::from(unobserved);
    product.checked_div(u128::from(requested)).map(|n| n as u32)
}

fn point(p: Option<CounterPoint>) -> [u64; 2] {
    p.map_or([0, 0], |p| {
        [
            halves(p.sender_tx, p.reflector_rx),
            u64::from(p.reflector_tx),
        ]
    })
}

fn probe(p: Option<HeldProbe>) -> [u64; 5] {
    p.map_or([0; 5], |(sequence, time, tag, ordinal, _, replies)| {
        let replies = u64::from(replies);
        [
            flagged(Some(sequence)),
            replies,
            flagged(ordinal),
            time,
            tag,
        ]
    })
}

/// A shown estimate: 1, known, S, Z, scale, multiplier in one word.
fn estimate(e: Option<ClockEstimate>) -> u64 {
    e.map_or(0, |e| {
        1 << 24
            | u64::from(e.error_ms.is_some()) << 25
            | u64::from(e.synchronized)
            | u64::from(e.format == ClockFormat::PTP) << 1
            | u64::from(e.scale) << 8
            | u64::from(e.multiplier) << 16
    })
}
