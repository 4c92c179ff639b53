// Accessors for the comparison. All that stands above this line is the original's text.

/// A monitor of the original with its whole state in reach. Its clock starts at `base`: a time is the nanoseconds since then.
pub struct Watch {
    monitor: Monitor,
    base: Instant,
}

impl Watch {
    pub fn fresh(threshold: u16, timeout: u64) -> Self {
        Self {
            monitor: Monitor::new(threshold, Duration::from_nanos(timeout)),
            base: Instant::now(),
        }
    }
    fn at(&self, time: u64) -> Instant {
        self.base + Duration::from_nanos(time)
    }
    pub fn sent(&mut self, seq: u32, time: u64) {
        let now = self.at(time);
        self.monitor.sent(seq, now);
    }
    pub fn reply(&mut self, seq: u32) {
        self.monitor.reply(seq, self.base);
    }
    pub fn advance(&mut self, time: u64) {
        let now = self.at(time);
        self.monitor.advance(now);
    }
    pub fn idle(&mut self) {
        self.monitor.idle();
    }
    pub fn deadline(&self) -> Option<u64> {
        let front = self.monitor.deadline()?;
        Some(front.duration_since(self.base).as_nanos() as u64)
    }
    pub fn summary(&self) -> Summary {
        self.monitor.summary()
    }
    pub fn transmitting(&self) -> bool {
        self.monitor.transmitting
    }
    pub fn timeout(&self) -> u64 {
        self.monitor.timeout.as_nanos() as u64
    }
    pub fn queued(&self) -> usize {
        self.monitor.probes.len()
    }
    /// Each queued probe, oldest first: its sequence, its deadline, and whether the sequence is marked.
    pub fn queue(&self) -> impl Iterator<Item = (u32, u64, bool)> + '_ {
        self.monitor.probes.iter().map(|p| {
            let deadline = p.deadline.duration_since(self.base).as_nanos() as u64;
            (p.seq, deadline, self.monitor.received.contains(&p.seq))
        })
    }
    pub fn marked(&self, seq: u32) -> bool {
        self.monitor.received.contains(&seq)
    }
    pub fn marks(&self) -> usize {
        self.monitor.received.len()
    }
    /// The losses and the three notification counts as a host could hand them over.
    pub fn load(&mut self, losses: u32, active: u64, failed: u64, idle: u64) {
        self.monitor.summary.consecutive_losses = losses;
        self.monitor.summary.active_notifications = active;
        self.monitor.summary.failed_notifications = failed;
        self.monitor.summary.idle_notifications = idle;
    }
}

/// A monitor that goes away is made idle, which counts once more: loaded counts have no room for it.
impl Drop for Watch {
    fn drop(&mut self) {
        self.load(0, 0, 0, 0);
    }
}

/// For the ledger's monitor: the whole state of one that stands inside other state.
pub(super) fn watched(monitor: &Monitor, base: Instant) -> (Summary, bool, Vec<(u32, u64, bool)>) {
    let queue = monitor.probes.iter().map(|p| {
        let deadline = p.deadline.duration_since(base).as_nanos() as u64;
        (p.seq, deadline, monitor.received.contains(&p.seq))
    });
    (monitor.summary(), monitor.transmitting, queue.collect())
}

/// A monitor of the original for bench/, with a moment at hand so that none is made inside a call: `early` and what comes after it.
pub struct Timing {
    monitor: Monitor,
    base: Instant,
    later: Instant,
}

impl Timing {
    #[allow(clippy::new_without_default)]
    pub fn new() -> Self {
        let base = Instant::now();
        Self {
            monitor: Monitor::new(3, Duration::from_secs(1)),
            base,
            later: base + Duration::from_nanos(1),
        }
    }
    #[inline(never)]
    pub fn fresh(&mut self) {
        self.monitor = Monitor::new(3, Duration::from_secs(1));
    }
    /// A probe is due 1 ns after it was sent.
    pub fn at_once(&mut self) {
        self.monitor = Monitor::new(3, Duration::from_nanos(1));
    }
    #[inline(never)]
    pub fn sent(&mut self, seq: u32, _: u64) {
        self.monitor.sent(seq, self.base);
    }
    #[inline(never)]
    pub fn reply(&mut self, seq: u32) {
        self.monitor.reply(seq, self.base);
    }
    #[inline(never)]
    pub fn advance(&mut self, _: u64) {
        self.monitor.advance(self.later);
    }
    #[inline(never)]
    pub fn idle(&mut self) {
        self.monitor.idle();
    }
    #[inline(never)]
    pub fn deadline(&self) -> Option<Instant> {
        self.monitor.deadline()
    }
    #[inline(never)]
    pub fn summary(&self) -> Summary {
        self.monitor.summary()
    }
    /// The state, and how often it became active.
    pub fn shown(&self) -> (u64, u64) {
        let s = self.monitor.summary();
        (s.state as u64, s.active_notifications)
    }
}
