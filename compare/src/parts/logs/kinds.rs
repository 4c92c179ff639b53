//! The logs of a round, kind by kind.
use super::{
    super::ledger::{OFFSET_LIMIT, REFERENCE_LIMIT, TIME_LIMIT},
    original::Link,
    record::{
        log, trailer, Record, Settings, ACCEPT, ADVANCE, CONVERTED, COUNTERS, ESTIMATES, FOLLOW,
        IDLE, MOST_BYTES, MOST_RECORDS, OBSERVE, ORDINAL, PENDING, PTP, RECORD, SENT, T4, TRAILER,
        UNKNOWN_MODE,
    },
};
use crate::random::Random;
use std::ops::Range;

/// A log.
#[derive(Clone)]
pub struct Made {
    pub bytes: Vec<u8>,
}

fn of(bytes: Vec<u8>) -> Made {
    Made { bytes }
}

/// How many logs of a drawn kind stand in one round.
struct Sizes {
    drawn: usize,
    full: usize,
    damaged: usize,
}

/// Hands the logs of a round to `each`, kind by kind. A short round takes one change of each byte, a long one all of them.
pub fn round(random: &mut Random, long: bool, each: &mut dyn FnMut(&'static str, Vec<Made>)) {
    let sizes = if long {
        Sizes {
            drawn: 2_000,
            full: 10,
            damaged: 10_000,
        }
    } else {
        Sizes {
            drawn: 40,
            full: 1,
            damaged: 150,
        }
    };
    let many = |n: usize, random: &mut Random, draw: fn(&mut Random) -> Made| {
        (0..n).map(|_| draw(random)).collect::<Vec<Made>>()
    };
    each("typical", many(sizes.drawn, random, typical));
    each("dense", many(sizes.drawn, random, dense));
    each("limits", many(sizes.drawn, random, limits));
    each("as long as can be", many(sizes.full, random, longest));
    each("any bytes before", many(sizes.drawn, random, any_before));
    each("one record damaged", many(sizes.damaged, random, damaged));
    each("any bytes", many(sizes.damaged, random, any_bytes));
    each(
        "any bytes and a good trailer",
        many(sizes.damaged, random, any_records),
    );
    each("trailer at its bounds", trailers(random));
    each("every length around a bound", lengths(random, long));
    let small = small_log(random);
    each(
        "every single bit changed",
        bits(&small, if long { 1 } else { 7 }),
    );
    let values: Vec<u8> = if long {
        (1..=255).collect()
    } else {
        vec![random.below(255) as u8 + 1]
    };
    for part in values.chunks(16) {
        let all = changes(&small, 0..small.len(), part);
        each("every single byte changed", all);
    }
}

/// The fixed list: some of each kind that is short.
pub fn sample(random: &mut Random) -> Vec<Made> {
    let draws = [
        typical,
        dense,
        limits,
        any_before,
        damaged,
        any_records,
        any_bytes,
    ];
    let mut all: Vec<Made> = draws
        .iter()
        .flat_map(|draw| (0..8).map(|_| draw(random)).collect::<Vec<Made>>())
        .collect();
    all.push(of(small_log(random)));
    all.extend(trailers(random).into_iter().step_by(5));
    all.push(of(vec![0; MOST_BYTES + 1]));
    all
}

// ---- drawn call by call

/// Draws records, and plays them on the original at once: what a host works out between two calls is then known.
struct Draw<'a> {
    random: &'a mut Random,
    settings: Settings,
    link: Link,
    records: Vec<Record>,
    /// Keys that were accepted, the last one last.
    keys: Vec<(u32, u32, u64)>,
    now: u64,
}

/// An observe, before its bytes are laid out.
struct Observe {
    key: (u32, u32, u64),
    rtt: u64,
    t4: Option<i64>,
    reference: i64,
    offset: i32,
    ordinal: Option<u32>,
    counters: Option<(u32, u32, u32)>,
    follow: Option<(u32, u64)>,
    unknown: bool,
    ptp: bool,
    estimates: Option<(u16, u16)>,
    converted: Option<i64>,
}

impl Observe {
    fn record(&self) -> Record {
        let c = self.counters.unwrap_or_default();
        let f = self.follow.unwrap_or_default();
        let e = self.estimates.unwrap_or_default();
        let flags = [
            (self.t4.is_some(), T4),
            (self.ordinal.is_some(), ORDINAL),
            (self.counters.is_some(), COUNTERS),
            (self.follow.is_some(), FOLLOW),
            (self.follow.is_some() && self.converted.is_some(), CONVERTED),
            (self.estimates.is_some(), ESTIMATES),
            (self.ptp, PTP),
            (self.follow.is_some() && self.unknown, UNKNOWN_MODE),
        ];
        let flags = flags.iter().filter(|f| f.0).fold(0, |all, f| all | f.1);
        let values = [
            u64::from(self.key.0),
            u64::from(self.key.1),
            self.key.2,
            self.rtt,
            self.t4.unwrap_or(0) as u64,
            self.reference as u64,
            u64::from(self.offset as u32),
            u64::from(self.ordinal.unwrap_or(0)),
            u64::from(c.0),
            u64::from(c.1),
            u64::from(c.2),
            u64::from(f.0),
            f.1,
            self.converted.unwrap_or(0) as u64,
            u64::from(e.0),
            u64::from(e.1),
        ];
        Record::new(OBSERVE, flags, &values)
    }
}

impl<'a> Draw<'a> {
    fn new(random: &'a mut Random, settings: Settings) -> Self {
        Self {
            random,
            settings,
            link: Link::fresh(settings),
            records: Vec::new(),
            keys: Vec::new(),
            now: 1_000,
        }
    }
    fn push(&mut self, record: Record) {
        self.link.play(&record);
        self.records.push(record);
    }
    fn sent(&mut self, sequence: u32, ordinal: u32) {
        // A third of the probes have no train.
        let train = sequence.wrapping_mul(0x9e37_79b9) ^ ordinal.wrapping_add(1);
        let train = if train % 3 == 0 { 0 } else { train };
        let values = [
            sequence.into(),
            ordinal.into(),
            self.now,
            self.now ^ 0x5a5a,
            train.into(),
        ];
        self.push(Record::new(SENT, 0, &values));
    }
    fn accept(&mut self, key: (u32, u32, u64), pending: bool) {
        self.keys.push(key);
        let values = [key.0.into(), key.1.into(), key.2, self.now, self.now ^ 0x77];
        let flags = if pending { PENDING } else { 0 };
        self.push(Record::new(ACCEPT, flags, &values));
    }
    /// The field of flag 16 is some time or none: it does not matter.
    fn observe(&mut self, mut o: Observe) {
        let time = self.random.sized() as i64;
        o.converted = self.random.chance(500).then_some(time);
        self.push(o.record());
    }
    fn last(&self) -> (u32, u32, u64) {
        self.keys.last().copied().unwrap_or_default()
    }
    fn made(self) -> Made {
        of(log(&[], &self.records, self.settings))
    }
}

/// A timestamp of 2026 in either format, some ms around `seconds`.
fn timestamp(random: &mut Random, seconds: i64, ptp: bool) -> u64 {
    let epoch = if ptp { 0 } else { 2_208_988_800 };
    let part = if ptp {
        random.below(1_050_000_000) as u32
    } else {
        random.word() as u32
    };
    u64::from((seconds + epoch) as u32) << 32 | u64::from(part)
}

fn estimates(random: &mut Random) -> Option<(u16, u16)> {
    random
        .chance(700)
        .then(|| (random.word() as u16, random.word() as u16))
}

/// A believable link: a probe each 100 ms, some loss, some reordering, counters and follow-ups.
fn typical(random: &mut Random) -> Made {
    let turns = random.of(&[3, 10, 30]);
    typical_turns(random, turns).made()
}

fn typical_turns(random: &mut Random, turns: u32) -> Draw<'_> {
    let settings = Settings {
        copies: random.of(&[0, 1, 1, 2, 3]),
        threshold: random.of(&[0, 1, 2, 5]),
        timeout: random.of(&[0, 250_000_000, 1_000_000_000]),
    };
    let loss = random.of(&[10, 100, 500, 900, 1_000]);
    let (stateless, ptp) = (random.chance(300), random.chance(400));
    let mut draw = Draw::new(random, settings);
    let (mut reflector, mut received, mut previous) = (77u32, 500u32, 0u32);
    for sequence in 1..=turns {
        draw.now += 100_000_000;
        draw.sent(sequence, sequence);
        received += u32::from(!draw.random.chance(loss / 2));
        for _ in 0..settings.copies.max(1) {
            reflector += 1;
            if draw.random.chance(loss) {
                continue;
            }
            let back = if draw.random.chance(80) {
                draw.random.below(5) as u32
            } else {
                0
            };
            let answered = sequence.saturating_sub(back);
            let number = if stateless {
                answered
            } else {
                reflector - back
            };
            let seconds = 1_790_000_000 + (draw.now / 1_000_000_000) as i64;
            let t3 = timestamp(draw.random, seconds, ptp);
            let pending = draw.random.chance(800);
            draw.accept((answered, number, t3), pending);
            if draw.random.chance(50) {
                draw.accept((answered, number, t3), pending);
            }
            let key = draw.last();
            let r = &mut draw.random;
            let part = r.below(2_000_000_000) as i64;
            let observe = Observe {
                key,
                rtt: r.below(50_000_000),
                t4: (!r.chance(50)).then_some(seconds * 1_000_000_000 + part),
                reference: seconds,
                offset: r.of(&[0, 0, 37, -37]),
                ordinal: Some(answered),
                counters: r.chance(700).then_some((answered, received, number)),
                follow: r
                    .chance(700)
                    .then(|| (previous, timestamp(r, seconds, ptp))),
                unknown: r.chance(20),
                ptp,
                estimates: estimates(r),
                converted: None,
            };
            draw.observe(observe);
            previous = number;
        }
        let now = draw.now;
        draw.push(Record::new(ADVANCE, 0, &[now]));
        if draw.random.chance(10) {
            draw.push(Record::new(IDLE, 0, &[]));
        }
    }
    if draw.random.chance(500) {
        let late = draw.now + settings.timeout;
        draw.push(Record::new(ADVANCE, 0, &[late]));
    }
    draw
}

/// Tiny ranges, so that everything collides.
fn dense(random: &mut Random) -> Made {
    let calls = random.of(&[4, 20, 60, 150]);
    dense_calls(random, calls).made()
}

fn dense_calls(random: &mut Random, calls: usize) -> Draw<'_> {
    let settings = Settings {
        copies: random.of(&[0, 1, 2, 3]),
        threshold: random.below(4) as u16,
        timeout: random.of(&[0, 3, 1]),
    };
    let many = random.of(&[2, 4, 8]);
    let mut draw = Draw::new(random, settings);
    while draw.records.len() < calls {
        draw.now = draw.random.below(12);
        let number = draw.random.below(many) as u32;
        match draw.random.below(20) {
            0..=3 => {
                let ordinal = draw.random.below(4) as u32;
                draw.sent(number, ordinal);
            }
            4..=9 => {
                let reflector = draw.random.below(many) as u32;
                let key = (number, reflector, draw.random.below(40));
                let pending = draw.random.chance(400);
                draw.accept(key, pending);
                if draw.random.chance(850) {
                    let observe = small_observe(&mut draw, many);
                    draw.observe(observe);
                }
            }
            10..=13 => {
                let observe = small_observe(&mut draw, many);
                draw.observe(observe);
            }
            16 => {
                let steps = [0, 1 << 31, (1 << 31) - 1, (1 << 31) + 1, u32::MAX];
                let reflector = draw.last().1.wrapping_add(draw.random.of(&steps));
                let key = (number, reflector, draw.random.below(40));
                draw.accept(key, true);
                let observe = small_observe(&mut draw, many);
                draw.observe(observe);
            }
            14 | 15 | 17 | 18 => {
                let now = draw.now;
                draw.push(Record::new(ADVANCE, 0, &[now]));
            }
            _ if draw.random.chance(300) => draw.push(Record::new(IDLE, 0, &[])),
            _ => {}
        }
    }
    draw
}

/// An observe with tiny numbers, mostly of the key that awaits.
fn small_observe(draw: &mut Draw, many: u64) -> Observe {
    let key = if draw.random.chance(950) || draw.keys.is_empty() {
        draw.last()
    } else {
        draw.random.of(&draw.keys)
    };
    let r = &mut draw.random;
    let ordinal = r.chance(850).then(|| r.below(3) as u32);
    let counters = r.chance(600).then(|| {
        let same = ordinal.filter(|_| r.chance(900));
        let start = r.of(&[0u32, 0, 0, 0, 0, 0, 1 << 31, u32::MAX]);
        let sent = same.unwrap_or(r.below(6) as u32);
        let transmitted = r
            .of(&[0u32, 0, 0, 0, 0, 0, 1 << 31])
            .wrapping_add(r.below(9) as u32);
        (sent, start.wrapping_add(r.below(6) as u32), transmitted)
    });
    let times = [
        0,
        1,
        1 << 32,
        5 << 32 | 999_999_999,
        5 << 32 | 1_000_000_000,
    ];
    Observe {
        key,
        rtt: r.below(5),
        t4: (!r.chance(150)).then(|| r.below(5_000_000_000) as i64),
        reference: r.below(6) as i64,
        offset: r.below(5) as i32 - 2,
        ordinal,
        counters,
        follow: r.chance(700).then(|| (r.below(many) as u32, r.of(&times))),
        unknown: r.chance(50),
        ptp: r.chance(500),
        estimates: estimates(r),
        converted: None,
    }
}

/// Every value on its bound, one short of it and one past it. The field of flag 16 is any.
fn limits(random: &mut Random) -> Made {
    let settings = Settings {
        copies: random.of(&[0, 1, 2, 65_535]),
        threshold: random.of(&[0, 1, 2, 65_535]),
        timeout: random.of(&[0, 1, 1 << 63, u64::MAX]),
    };
    let turns = random.of(&[1, 4, 20]);
    let mut draw = Draw::new(random, settings);
    for i in 0..turns {
        let last = u64::MAX - settings.timeout;
        let times = [0, 1, last, last.saturating_add(1), last.saturating_sub(1)];
        draw.now = draw.random.of(&times);
        let number = draw.random.of(&[0, 1, 1 << 31, u32::MAX, i]);
        let ordinal = draw.random.of(&[i, 0, u32::MAX]);
        draw.sent(number, ordinal);
        let reflector = draw.random.of(&[i, u32::MAX - i, 1 << 31, 0, number]);
        let key = (number, reflector, draw.random.edge());
        let pending = draw.random.chance(700);
        draw.accept(key, pending);
        let observe = edge_observe(&mut draw, i, ordinal);
        draw.push(observe.record());
        if draw.random.chance(100) {
            let mut other = observe.record();
            other.0[19] ^= 1;
            draw.push(other);
        }
        if draw.random.chance(300) {
            let now = draw.random.edge();
            draw.push(Record::new(ADVANCE, 0, &[now]));
        }
        if draw.random.chance(30) {
            draw.push(Record::new(IDLE, 0, &[]));
        }
    }
    draw.made()
}

fn edge_observe(draw: &mut Draw, i: u32, ordinal: u32) -> Observe {
    let times = [
        0,
        TIME_LIMIT,
        TIME_LIMIT + 1,
        -TIME_LIMIT,
        -TIME_LIMIT - 1,
        i64::MAX,
        i64::MIN,
        -1,
    ];
    let within = [0, TIME_LIMIT, -TIME_LIMIT, 1_790_000_000_000_000_000];
    let key = draw.last();
    let earlier = draw.random.of(&draw.keys).1;
    let r = &mut draw.random;
    let time = |r: &mut Random| {
        if r.chance(150) {
            r.of(&times)
        } else {
            r.of(&within)
        }
    };
    let (t4, converted) = (time(r), time(r));
    let most = REFERENCE_LIMIT;
    let reference = if r.chance(100) {
        r.of(&[most + 1, -most - 1, i64::MAX, i64::MIN])
    } else {
        r.of(&[0, 1_790_000_000, most, -most])
    };
    let offset = if r.chance(100) {
        r.of(&[OFFSET_LIMIT + 1, -OFFSET_LIMIT - 1, i32::MAX, i32::MIN])
    } else {
        r.of(&[0, OFFSET_LIMIT, -OFFSET_LIMIT, 1])
    };
    let counters = r.chance(500).then(|| {
        let step = r.of(&[0u32, 0, 0, 0, 1 << 31, (1 << 31) - 1]);
        (ordinal, 5u32.wrapping_add(step), 9 + i)
    });
    Observe {
        key,
        rtt: r.of(&[0, 1, u64::MAX, 1 << 63, 1 << 53]),
        t4: r.chance(900).then_some(t4),
        reference,
        offset,
        ordinal: r.chance(900).then_some(ordinal),
        counters,
        follow: r.chance(800).then(|| (earlier, r.of(&[0, 1, u64::MAX]))),
        unknown: r.chance(30),
        ptp: r.chance(500),
        estimates: estimates(r),
        converted: r.chance(800).then_some(converted),
    }
}

/// 682 records: no log has more.
fn longest(random: &mut Random) -> Made {
    let mut draw = if random.chance(500) {
        typical_turns(random, 690)
    } else {
        dense_calls(random, 700)
    };
    draw.records.truncate(MOST_RECORDS);
    draw.made()
}

// ---- whole logs, changed

/// A short log with a record of each kind, all of it good.
fn small_log(random: &mut Random) -> Vec<u8> {
    let settings = Settings {
        copies: 2,
        threshold: 2,
        timeout: 1_000,
    };
    let mut draw = Draw::new(random, settings);
    draw.sent(7, 1);
    draw.accept((7, 70, 5), true);
    let observe = Observe {
        key: (7, 70, 5),
        rtt: draw.random.below(1_000),
        t4: Some(1_790_000_000_000_000_000),
        reference: 1_790_000_000,
        offset: 37,
        ordinal: Some(1),
        counters: Some((1, 1, 1)),
        follow: Some((69, 1_790_000_000 << 32)),
        unknown: false,
        ptp: true,
        estimates: Some((0x8101, 0x4203)),
        converted: None,
    };
    draw.push(observe.record());
    draw.push(Record::new(ADVANCE, 0, &[2_000]));
    draw.push(Record::new(IDLE, 0, &[]));
    draw.made().bytes
}

fn bits(small: &[u8], step: usize) -> Vec<Made> {
    let places = (0..small.len() * 8).step_by(step);
    places
        .map(|at| {
            let mut bytes = small.to_vec();
            bytes[at / 8] ^= 1 << (at % 8);
            of(bytes)
        })
        .collect()
}

/// Each of these bytes of a log changed by each of these values.
pub fn changes(log: &[u8], places: Range<usize>, values: &[u8]) -> Vec<Made> {
    let places = places.flat_map(|at| values.iter().map(move |v| (at, *v)));
    places
        .map(|(at, value)| {
            let mut bytes = log.to_vec();
            bytes[at] ^= value;
            of(bytes)
        })
        .collect()
}

fn any(random: &mut Random, length: usize) -> Vec<u8> {
    (0..length).map(|_| random.word() as u8).collect()
}

/// Anything may stand before the first record: bytes, and a whole other log.
fn any_before(random: &mut Random) -> Made {
    let calls = random.of(&[0, 1, 5, 20]);
    let draw = dense_calls(random, calls);
    let (records, settings) = (draw.records, draw.settings);
    let before = if random.chance(300) {
        dense(random).bytes
    } else {
        let length = random.of(&[1, 23, 24, 95, 96, 97, 500]);
        any(random, length)
    };
    of(log(&before, &records, settings))
}

/// A good log in which one byte or bit of one record, or of the trailer, is another.
fn damaged(random: &mut Random) -> Made {
    let calls = random.of(&[1, 4, 20]);
    let mut bytes = dense_calls(random, calls).made().bytes;
    let at = random.below(bytes.len() as u64) as usize;
    let marked = at - at % RECORD + random.of(&[0, 1, 2, 3, 94, 95]);
    let at = if random.chance(500) && marked < bytes.len() {
        marked
    } else {
        at
    };
    bytes[at] = if random.chance(500) {
        random.of(&[0, 1, 2, 3, 4, 5, 251, 255])
    } else {
        bytes[at] ^ 1 << random.below(8)
    };
    of(bytes)
}

fn any_bytes(random: &mut Random) -> Made {
    let length = random.below(400) as usize;
    let mut bytes = any(random, length);
    if random.chance(500) {
        bytes.extend_from_slice(b"STLG");
    }
    of(bytes)
}

/// Records of any bytes, or good in all but their fields and flags, in a good frame.
fn any_records(random: &mut Random) -> Made {
    let count = random.below(5) as usize;
    let records: Vec<Record> = (0..count)
        .map(|_| {
            let mut bytes = [0; RECORD];
            let kind = random.below(5) as u8;
            let end = [28, 36, 88, 12, 4][usize::from(kind)];
            let flags = random.word() as u8;
            if random.chance(50) {
                bytes.fill_with(|| random.word() as u8);
            } else {
                bytes[4..end].fill_with(|| random.word() as u8);
            }
            bytes[0] = kind;
            bytes[95] = 255 - kind;
            bytes[1] = match kind {
                ACCEPT => random.below(3) as u8,
                OBSERVE => random.of(&[255, 255, 127, 239, 63, flags]),
                _ => u8::from(random.chance(100)),
            };
            Record(bytes)
        })
        .collect();
    let settings = Settings {
        copies: random.edge() as u16,
        threshold: random.edge() as u16,
        timeout: random.edge(),
    };
    of(log(&[], &records, settings))
}

/// Distances and counts around what is right, and where 24+96·count passes 32 bits.
fn trailers(random: &mut Random) -> Vec<Made> {
    let draw = dense_calls(random, 3);
    let (records, settings) = (draw.records, draw.settings);
    let bytes: Vec<u8> = records.iter().flat_map(|r| r.0).collect();
    let passes = (1u64 << 32).div_ceil(96) as u32;
    let counts = [
        0,
        1,
        2,
        3,
        4,
        682,
        683,
        passes - 1,
        passes,
        passes + 1,
        1 << 31,
        u32::MAX,
    ];
    let mut all = Vec::new();
    for count in counts {
        let right = 24u32.wrapping_add(96u32.wrapping_mul(count));
        for off in [
            0u32,
            1,
            u32::MAX,
            96,
            96u32.wrapping_neg(),
            24u32.wrapping_neg(),
        ] {
            let distance = right.wrapping_add(off);
            let mut whole = bytes.clone();
            whole.extend(trailer(distance, count, settings, b"STLG"));
            all.push(of(whole));
        }
    }
    for mark in [b"STLF", b"sTLG", b"GLTS", b"\0\0\0\0", b"STL\0", b"TLGS"] {
        let mut whole = bytes.clone();
        whole.extend(trailer(312, 3, settings, mark));
        all.push(of(whole));
    }
    all
}

/// The lengths around each bound. A log whose last record is bad shows that all before it were read, and is not played.
fn lengths(random: &mut Random, long: bool) -> Vec<Made> {
    let mut draw = dense_calls(random, MOST_RECORDS);
    draw.records.truncate(MOST_RECORDS);
    let (records, settings) = (draw.records, draw.settings);
    let ends = |k: usize| k < 4 || k > MOST_RECORDS - 2;
    let mut all = Vec::new();
    for k in (0..=MOST_RECORDS).filter(|k| long || ends(*k) || k % 97 == 0) {
        let good = log(&[], &records[..k], settings);
        all.push(of(good[1..].to_vec()));
        if ends(k) || k % 40 == 0 {
            all.push(of(log(b"S", &records[..k], settings)));
            all.push(of(good));
        }
        if k > 0 {
            let mut spoiled = records[..k].to_vec();
            spoiled[k - 1].0[95] ^= 1;
            all.push(of(log(b"S", &spoiled, settings)));
            all.push(of(log(&[], &spoiled, settings)));
        }
    }
    let whole = log(&any(random, 600), &records, settings);
    let most = [MOST_BYTES - 1, MOST_BYTES, MOST_BYTES + 1, MOST_BYTES + 2];
    for size in (0..=30)
        .chain(most)
        .chain([MOST_BYTES + 96, MOST_BYTES + 400])
    {
        // As many records as fit, with other bytes before them; the end of a longer log; its beginning.
        if size >= TRAILER {
            let count = ((size - TRAILER) / RECORD).min(MOST_RECORDS);
            let before = vec![0x53; size - TRAILER - RECORD * count];
            all.push(of(log(&before, &records[..count], settings)));
        }
        all.push(of(whole[whole.len() - size..].to_vec()));
        all.push(of(whole[..size].to_vec()));
    }
    all
}
