// Accessors for the comparison. All that stands above this line is the original's text.
use std::time::{Duration, Instant};

/// `Delays` of the original with its whole state in reach.
#[derive(Default)]
pub struct Sums(Delays);

impl Sums {
    pub fn record(&mut self, ns: i128) {
        self.0.record(ns);
    }
    pub fn load(&mut self, count: u64, sum: i128, min: i128, max: i128) {
        self.0 = Delays {
            count,
            sum,
            min: (count != 0).then_some(min),
            max: (count != 0).then_some(max),
        };
    }
    pub fn state(&self) -> (u64, i128, Option<i128>, Option<i128>) {
        (self.0.count, self.0.sum, self.0.min, self.0.max)
    }
    pub fn summary(&self) -> DelaySummary {
        self.0.summary()
    }
}

/// A reply's follow-up, as a host reads it from the packet.
#[derive(Clone, Copy)]
pub struct Follow {
    pub sequence: u32,
    pub timestamp: u64,
    pub unknown: bool,
}

/// What one `observe` is told.
#[derive(Clone, Copy)]
pub struct Told {
    pub key: (u32, u32, u64),
    pub rtt: u64,
    pub t4: Option<i64>,
    pub ptp: bool,
    pub reference: i64,
    pub offset: i32,
    pub ordinal: Option<u32>,
    pub counters: Option<(u32, u32, u32)>,
    pub follow: Option<Follow>,
    pub quality: Option<(u16, u16)>,
}

/// A held probe: sequence, send time, tag, ordinal, answered, replies.
pub type HeldProbe = (u32, u64, u64, Option<u32>, bool, u16);

/// A slot's record: T4, PTP, reference, estimates.
pub type SlotRecord = (Option<i128>, bool, i64, Option<(u16, u16)>);

/// A ledger of the original with its whole state in reach. Its clock starts at `base`.
pub struct Ledger {
    inner: Measurements,
    base: Instant,
    awaiting: Option<ReplyKey>,
}

impl Ledger {
    /// `monitor` is a threshold and a timeout.
    pub fn fresh(copies: u16, monitor: Option<(u16, u64)>) -> Self {
        let mut inner = Measurements::new(copies);
        inner.monitor = monitor.map(|(threshold, timeout)| {
            super::session_state::Monitor::new(threshold, Duration::from_nanos(timeout))
        });
        Self {
            inner,
            base: Instant::now(),
            awaiting: None,
        }
    }
    fn packet(&self, time: u64, tag: u64) -> PendingPacket {
        PendingPacket::new(self.base + Duration::from_nanos(time), tag)
    }
    fn parts(&self, packet: PendingPacket) -> (u64, u64) {
        let (time, tag) = packet.parts();
        (time.duration_since(self.base).as_nanos() as u64, tag)
    }
    pub fn sent(&mut self, sequence: u32, time: u64, tag: u64, ordinal: u32) {
        let packet = self.packet(time, tag);
        self.inner.sent(sequence, packet, ordinal);
    }
    pub fn advance(&mut self, time: u64) {
        let now = self.base + Duration::from_nanos(time);
        if let Some(m) = self.inner.monitor.as_mut() {
            m.advance(now);
        }
    }
    pub fn idle(&mut self) {
        if let Some(m) = self.inner.monitor.as_mut() {
            m.idle();
        }
    }
    pub fn accept(
        &mut self,
        (sender, reflector, t3): (u32, u32, u64),
        pending: Option<(u64, u64)>,
    ) -> Option<(u64, u64, Option<u32>)> {
        let key = ReplyKey {
            sender,
            reflector,
            t3,
        };
        let pending = pending.map(|(time, tag)| self.packet(time, tag));
        let (packet, ordinal) = self.inner.accept(key, pending)?;
        self.awaiting = Some(key);
        let (time, tag) = self.parts(packet);
        Some((time, tag, ordinal))
    }
    pub fn observe(&mut self, told: Told) {
        self.awaiting = None;
        self.inner.observe(ReplyObservation {
            key: ReplyKey {
                sender: told.key.0,
                reflector: told.key.1,
                t3: told.key.2,
            },
            rtt_ns: told.rtt,
            t4_ns: told.t4.map(i128::from),
            format: format_of(told.ptp),
            reference: told.reference,
            offset: told.offset,
            ordinal: told.ordinal,
            dm: told.counters.map(|(sender, rx, tx)| DirectMeasurementTlv {
                sender_tx_count: sender,
                reflector_rx_count: rx,
                reflector_tx_count: tx,
            }),
            follow: told.follow.map(|f| FollowUpTelemetryTlv {
                sequence_number: f.sequence,
                follow_up_timestamp: f.timestamp,
                timestamp_mode: if f.unknown {
                    TimestampMethod::Unknown(0)
                } else {
                    TimestampMethod::HardwareAssist
                },
            }),
            quality: told
                .quality
                .map(|(s, r)| (ErrorEstimate::from_wire(s), ErrorEstimate::from_wire(r))),
        });
    }
    /// The format and the reference that this follow-up's time is converted by, where the original comes so far as to
    /// convert it.
    pub fn open(&self, key: (u32, u32, u64), follow: Follow) -> Option<(bool, i64)> {
        if follow.unknown || follow.timestamp == 0 || follow.sequence == key.1 {
            return None;
        }
        let slot = self.inner.correlations.get(&follow.sequence)?;
        let previous = slot.unique.filter(|_| slot.count == 1 && !slot.corrected)?;
        Some((previous.format == ClockFormat::PTP, previous.reference))
    }
    /// Document 01: the accepted key awaits one observe. The original leaves that to its caller.
    pub fn awaits(&self, (sender, reflector, t3): (u32, u32, u64)) -> bool {
        self.awaiting
            == Some(ReplyKey {
                sender,
                reflector,
                t3,
            })
    }
    pub fn awaiting(&self) -> Option<(u32, u32, u64)> {
        self.awaiting.map(|k| (k.sender, k.reflector, k.t3))
    }
    /// Every u64 count but those of the two sums.
    pub fn counts(&self) -> [u64; 27] {
        let s = &self.inner.summary;
        let d = &self.inner.direct.summary;
        let f = &s.follow_up;
        let q = &f.clock_quality;
        [
            s.requested_replies,
            s.unique_replies,
            s.duplicate_replies,
            s.unknown_replies,
            s.answered_probes,
            s.additional_replies,
            s.late_replies,
            self.inner.satisfied,
            s.reordered_replies,
            s.independent_sequence_observations,
            s.probes_evicted,
            s.replies_evicted,
            d.observations,
            d.unavailable,
            d.discontinuities,
            d.reordered,
            f.observations,
            f.matched,
            f.repeated,
            f.unmatched,
            f.ambiguous,
            f.unavailable,
            q.samples,
            q.both_synchronized,
            q.unsynchronized,
            q.invalid_estimate,
            q.unknown,
        ]
    }
    /// Loads a count, by its number, or the high word of a sum with its sign.
    pub fn load(&mut self, which: u64, value: u64) {
        let s = &mut self.inner.summary;
        let d = &mut self.inner.direct.summary;
        let f = &mut s.follow_up;
        let q = &mut f.clock_quality;
        let sum = (i128::from(value) << 64) + 1;
        match which {
            1 => s.requested_replies = value,
            2 => s.unique_replies = value,
            3 => s.duplicate_replies = value,
            4 => s.unknown_replies = value,
            5 => s.answered_probes = value,
            6 => s.additional_replies = value,
            7 => s.late_replies = value,
            8 => self.inner.satisfied = value,
            9 => s.reordered_replies = value,
            10 => s.independent_sequence_observations = value,
            11 => s.probes_evicted = value,
            12 => s.replies_evicted = value,
            13 => d.observations = value,
            14 => d.unavailable = value,
            15 => d.discontinuities = value,
            16 => d.reordered = value,
            17 => f.observations = value,
            18 => f.matched = value,
            19 => f.repeated = value,
            20 => f.unmatched = value,
            21 => f.ambiguous = value,
            22 => f.unavailable = value,
            23 => q.samples = value,
            24 => q.both_synchronized = value,
            25 => q.unsynchronized = value,
            26 => q.invalid_estimate = value,
            27 => q.unknown = value,
            28 => self.inner.rtt.count = value,
            29 => self.inner.rtt.sum = sum,
            30 => self.inner.rtt.sum = -sum,
            31 => self.inner.follow_delay.count = value,
            32 => self.inner.follow_delay.sum = sum,
            33 => self.inner.follow_delay.sum = -sum,
            _ => panic!("no count {which}"),
        }
    }
    pub fn snapshot(&self) -> MeasurementSummary {
        self.inner.snapshot()
    }
    pub fn needs_burst_wait(&self) -> bool {
        self.inner.needs_burst_wait()
    }
    pub fn answered(&self, sequence: u32) -> bool {
        self.inner.answered(sequence)
    }
    pub fn copies(&self) -> u16 {
        self.inner.copies
    }
    pub fn satisfied(&self) -> u64 {
        self.inner.satisfied
    }
    pub fn highest(&self) -> Option<u32> {
        self.inner.highest_reflector
    }
    pub fn holds(&self, sequence: u32) -> bool {
        self.inner.probes.contains_key(&sequence)
    }
    pub fn is_known(&self, (sender, reflector, t3): (u32, u32, u64)) -> bool {
        self.inner.replies.contains(&ReplyKey {
            sender,
            reflector,
            t3,
        })
    }
    pub fn probe(&self, sequence: u32) -> Option<HeldProbe> {
        let p = self.inner.probes.get(&sequence)?;
        let (time, tag) = self.parts(p.packet);
        Some((sequence, time, tag, p.ordinal, p.answered, p.replies))
    }
    /// The held probes, least recently remembered first.
    pub fn probes(&self) -> impl Iterator<Item = HeldProbe> + '_ {
        self.inner.probe_order.iter().filter_map(|s| self.probe(*s))
    }
    pub fn probe_count(&self) -> usize {
        self.inner.probe_order.len()
    }
    /// The accepted keys, oldest first.
    pub fn keys(&self) -> impl Iterator<Item = (u32, u32, u64)> + '_ {
        self.inner
            .reply_order
            .iter()
            .map(|k| (k.sender, k.reflector, k.t3))
    }
    pub fn key_count(&self) -> usize {
        self.inner.reply_order.len()
    }
    /// A slot: its count, whether it was corrected, and its record.
    pub fn slot(&self, reflector: u32) -> Option<(usize, bool, Option<SlotRecord>)> {
        let slot = self.inner.correlations.get(&reflector)?;
        let record = slot.unique.map(|r| {
            let quality = r.quality.map(|(s, r)| (s.to_wire(), r.to_wire()));
            (r.t4_ns, r.format == ClockFormat::PTP, r.reference, quality)
        });
        Some((slot.count, slot.corrected, record))
    }
    /// The reflector numbers that have a slot, in no order.
    pub fn slots(&self) -> impl Iterator<Item = u32> + '_ {
        self.inner.correlations.keys().copied()
    }
    pub fn slot_count(&self) -> usize {
        self.inner.correlations.len()
    }
    /// Two sums: round trips, follow-up delays.
    pub fn sums(&self) -> [(u64, i128, Option<i128>, Option<i128>); 2] {
        [&self.inner.rtt, &self.inner.follow_delay].map(|d| (d.count, d.sum, d.min, d.max))
    }
    /// Highest transmit count, sender maximum, received maximum.
    pub fn direct(&self) -> (u32, u32, u32) {
        let d = &self.inner.direct;
        (d.high_tx, d.max_sender, d.max_rx)
    }
    pub fn seen(&self) -> impl Iterator<Item = u32> + '_ {
        self.inner.direct.seen.iter().copied()
    }
    pub fn seen_count(&self) -> usize {
        self.inner.direct.seen.len()
    }
    pub fn has_seen(&self, offset: u32) -> bool {
        self.inner.direct.seen.contains(&offset)
    }
    pub fn monitor(
        &self,
    ) -> Option<(super::session_state::Summary, bool, Vec<(u32, u64, bool)>)> {
        let monitor = self.inner.monitor.as_ref()?;
        Some(super::session_state::watched(monitor, self.base))
    }
    pub fn queued(&self) -> usize {
        self.monitor().map_or(0, |m| m.2.len())
    }
}

fn format_of(ptp: bool) -> ClockFormat {
    if ptp {
        ClockFormat::PTP
    } else {
        ClockFormat::NTP
    }
}

/// A ledger of the original for bench/: a call is told plain words, and nothing stands between them and the original.
pub struct Timed {
    inner: Measurements,
    base: Instant,
}

impl Timed {
    pub fn new(copies: u16) -> Self {
        Self {
            inner: Measurements::new(copies),
            base: Instant::now(),
        }
    }
    /// With a monitor that waits for a second.
    pub fn watched(copies: u16) -> Self {
        let mut timed = Self::new(copies);
        let monitor = super::session_state::Monitor::new(3, Duration::from_secs(1));
        timed.inner.monitor = Some(monitor);
        timed
    }
    #[inline(never)]
    pub fn fresh(&mut self, copies: u16) {
        self.inner = Measurements::new(copies);
    }
    #[inline(never)]
    pub fn sent(&mut self, sequence: u32, ordinal: u32, tag: u64) {
        let packet = PendingPacket::new(self.base, tag);
        self.inner.sent(sequence, packet, ordinal);
    }
    #[inline(never)]
    pub fn answered(&self, sequence: u32) -> bool {
        self.inner.answered(sequence)
    }
    #[inline(never)]
    pub fn needs_burst_wait(&self) -> bool {
        self.inner.needs_burst_wait()
    }
    /// Whether the reply is unique.
    #[inline(never)]
    pub fn accept(&mut self, sender: u32, reflector: u32, t3: u64) -> bool {
        let key = ReplyKey {
            sender,
            reflector,
            t3,
        };
        self.inner.accept(key, None).is_some()
    }
    /// The words of bench/ledger.rs.
    #[inline(never)]
    pub fn observe(&mut self, w: &[u64; 12]) {
        let wires = w[11];
        self.inner.observe(ReplyObservation {
            key: ReplyKey {
                sender: w[0] as u32,
                reflector: (w[0] >> 32) as u32,
                t3: w[1],
            },
            rtt_ns: w[2],
            t4_ns: Some(i128::from(w[3] as i64)),
            format: ClockFormat::PTP,
            reference: w[4] as i64,
            offset: 0,
            ordinal: Some(w[5] as u32),
            dm: (w[10] == 0).then_some(DirectMeasurementTlv {
                sender_tx_count: w[6] as u32,
                reflector_rx_count: (w[6] >> 32) as u32,
                reflector_tx_count: w[7] as u32,
            }),
            follow: (w[10] == 0).then_some(FollowUpTelemetryTlv {
                sequence_number: w[8] as u32,
                follow_up_timestamp: w[9],
                timestamp_mode: TimestampMethod::HardwareAssist,
            }),
            quality: Some((
                ErrorEstimate::from_wire(wires as u16),
                ErrorEstimate::from_wire((wires >> 16) as u16),
            )),
        });
    }
    #[inline(never)]
    pub fn snapshot(&self) -> MeasurementSummary {
        self.inner.snapshot()
    }
}
