//! An example host: it sends probes over a simulated link, hands every event to the library, keeps a log, and prints the report.
//!
//! `yard SEED [LOG]`: the link is drawn from the seed; LOG is a file that the log is written to, for linkreport. Nothing is checked before a
//! call: the library refuses what it cannot serve, and the host only counts that.
#![forbid(unsafe_code)]

use ambrulicciu::{
    calls, recount_of_log, report_of_log, Accepted, ClockQuality, Counters, Estimate, FollowUp, Format, Key, Link, Log, Observation, Packet,
    Parts, Quantiles, Refusal, Rooms, Settings, ROWS,
};
use std::{
    collections::{HashMap, VecDeque},
    env, fs,
    process::exit,
};

const MS: u64 = 1_000_000;
/// When the host's clock started, in seconds since 1970.
const START: i64 = 1_790_000_000;

/// SplitMix64.
struct Random(u64);

impl Random {
    fn word(&mut self) -> u64 {
        self.0 = self.0.wrapping_add(0x9e37_79b9_7f4a_7c15);
        let mut z = self.0;
        z = (z ^ z >> 30).wrapping_mul(0xbf58_476d_1ce4_e5b9);
        z = (z ^ z >> 27).wrapping_mul(0x94d0_49bb_1331_11eb);
        z ^ z >> 31
    }
    fn below(&mut self, bound: u64) -> u64 {
        self.word() % bound
    }
    fn happens(&mut self, per_thousand: u64) -> bool {
        self.below(1000) < per_thousand
    }
}

/// What a reply carries.
#[derive(Clone, Copy)]
struct Reply {
    arrives: u64,
    key: Key,
    counters: Counters,
    /// The reply before this one, and when it really went out.
    before: (u32, u64),
}

/// A reflector behind a network that loses, delays and repeats packets.
struct Network {
    random: Random,
    lost: u64,
    repeated: u64,
    received: u32,
    transmitted: u32,
    before: (u32, u64),
    flying: VecDeque<Reply>,
}

/// A moment of the host's clock as a PTP timestamp of 64 bits.
fn timestamp(now: u64) -> u64 {
    ((START as u64 + now / 1_000_000_000) << 32) | (now % 1_000_000_000)
}

impl Network {
    fn send(&mut self, now: u64, sequence: u32, ordinal: u32) {
        let silent = (100..112).contains(&ordinal);
        if silent || self.random.happens(self.lost) {
            return;
        }
        let there = now + 8 * MS + self.random.below(4 * MS);
        self.received += 1;
        self.transmitted += 1;
        let key = Key { sender: sequence, reflector: self.transmitted, t3: timestamp(there) };
        let counters = Counters { sender: ordinal, received: self.received, transmitted: self.transmitted };
        let before = std::mem::replace(&mut self.before, (self.transmitted, timestamp(there + 3_000)));
        if self.random.happens(self.lost) {
            return;
        }
        let arrives = there + 8 * MS + self.random.below(4 * MS);
        let reply = Reply { arrives, key, counters, before };
        self.flying.push_back(reply);
        if self.random.happens(self.repeated) {
            self.flying.push_back(Reply { arrives: arrives + MS, ..reply });
        }
    }
}

/// The host: a link, its log, its own round trips and what the reflector's clock declared.
struct Host {
    link: Link,
    log: Log,
    round_trips: Quantiles<u64>,
    clocks: ClockQuality,
    estimate: Estimate,
    /// Packets whose reply has not come.
    waiting: HashMap<u32, Packet>,
    turned_away: u64,
}

impl Host {
    fn count(&mut self, result: Result<(), Refusal>) {
        self.turned_away += u64::from(result.is_err());
    }

    fn sent(&mut self, sequence: u32, ordinal: u32, now: u64) {
        let packet = Packet { time: now, tag: u64::from(ordinal) };
        // A train passes during each ten probes out of thirty.
        let train = if ordinal % 30 < 10 { 4000 + ordinal / 30 } else { 0 };
        self.waiting.insert(sequence, packet);
        self.log.sent(sequence, ordinal, train, packet);
        let result = self.link.sent(sequence, ordinal, train, packet);
        self.count(result);
    }

    fn received(&mut self, reply: Reply) {
        let pending = self.waiting.remove(&reply.key.sender);
        self.log.accept(reply.key, pending);
        match self.link.accept(reply.key, pending) {
            Ok(Accepted::Unique(packet, ordinal, _)) => self.observed(reply, packet, ordinal),
            Ok(_) => {}
            Err(_) => self.turned_away += 1,
        }
    }

    fn observed(&mut self, reply: Reply, packet: Packet, ordinal: Option<u32>) {
        let (sequence, timestamp) = reply.before;
        let observation = Observation {
            t4: Some(START * 1_000_000_000 + reply.arrives as i64),
            format: Format::Ptp,
            reference: START + (reply.arrives / 1_000_000_000) as i64,
            ordinal,
            counters: Some(reply.counters),
            follow_up: Some(FollowUp { sequence, timestamp, unknown_mode: false }),
            estimates: Some((self.estimate.0, self.estimate.0)),
            ..Observation::of(reply.key, reply.arrives - packet.time)
        };
        self.log.observe(&observation);
        let result = self.link.observe(&observation);
        self.count(result);
        let result = self.round_trips.record(observation.round_trip).map(|_| ());
        self.count(result);
        let result = self.clocks.record(observation.estimates);
        self.count(result);
    }

    fn timer(&mut self, now: u64) {
        self.log.advance(now);
        let result = self.link.advance(now);
        self.count(result);
    }
}

fn main() {
    let args: Vec<String> = env::args().collect();
    let Some(Ok(seed)) = args.get(1).map(|s| s.parse()) else {
        eprintln!("usage: yard SEED [LOG]");
        exit(2);
    };
    let mut random = Random(seed);
    let secret = std::array::from_fn(|_| random.word() as u32);
    let settings = Settings { copies: 1, threshold: 3, timeout: 100 * MS };
    let parts = Parts { synchronized: true, ptp: true, scale: 12, multiplier: 1 };
    let mut host = Host {
        link: Link::watched(settings.copies, &secret, settings.threshold, settings.timeout),
        log: Log::new(settings),
        round_trips: Quantiles::new(),
        clocks: ClockQuality::new(),
        estimate: Estimate::new(parts).expect("a scale below 64"),
        waiting: HashMap::new(),
        turned_away: 0,
    };
    let lost = 20 * random.below(5);
    let mut network = Network { random, lost, repeated: 60, received: 0, transmitted: 0, before: (0, 0), flying: VecDeque::new() };
    // A probe each 20 ms; as many as a log has room for.
    for ordinal in 1..=130u32 {
        let now = u64::from(ordinal) * 20 * MS;
        host.sent(ordinal, ordinal, now);
        network.send(now, ordinal, ordinal);
        while network.flying.front().is_some_and(|r| r.arrives <= now) {
            let reply = network.flying.pop_front().expect("a reply");
            host.received(reply);
        }
        host.timer(now);
    }
    show(&host, &secret, args.get(2));
}

fn show(host: &Host, secret: &[u32; 8], file: Option<&String>) {
    let records = u64::from(host.log.records());
    let report = host.link.report(records, host.turned_away).expect("a link that only calls have written");
    print!("{report}");
    let figures = host.link.snapshot();
    match figures.thousandths.get() {
        Some(lost) => println!("loss: {lost} of 1,000"),
        None => println!("loss: - (nothing was requested)"),
    }
    let ms = |ns: u64| ns as f64 / MS as f64;
    if let Ok(Some([middle, most])) = host.round_trips.percentiles([50.0, 100.0]) {
        println!("round trips: half within {:.3} ms, all within {:.3} ms", ms(middle), ms(most));
    }
    if let Some(delay) = figures.follow_up.delay.average.get() {
        println!("delay from the reflector: {delay:.3} ms on average of {}", figures.follow_up.delay.samples);
    }
    if let Some(error) = host.clocks.summary().largest.get() {
        println!("both clocks together within {error:.6} ms by their own account");
    }
    let log = host.log.bytes().expect("at most 682 records");
    let again = report_of_log(&log, secret, &mut Rooms::new(), &mut vec![calls::Queued::default(); ROWS]).expect("a good log");
    assert_eq!(again, recount_of_log(&log).expect("a good log"), "the second count of the log");
    assert_eq!(again, report, "the report of the log must be the report of the link");
    if let Some(file) = file {
        fs::write(file, log).expect("the log written");
    }
}
