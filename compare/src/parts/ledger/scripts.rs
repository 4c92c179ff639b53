//! Scripts for the ledger.
use super::{
    super::{CAPACITY, COUNT_BOUND, SUM_BOUND},
    halves, ACCEPT, ADVANCE, ANYWAY, COUNTERS, DIGEST, FOLLOW, FRESH, IDLE, LOAD, MOST_CALLS,
    OBSERVE, OFFSET_LIMIT, ORDINAL, PTP, QUALITY, REFERENCE_LIMIT, ROOM, SENT, SPOIL, T4,
    TIME_LIMIT, UNKNOWN_MODE,
};
use crate::{
    part::{call, Call, Script},
    random::Random,
};

/// What a script is drawn with.
struct Draw<'a> {
    random: &'a mut Random,
    script: Script,
    digests: bool,
    /// The key that was accepted last, as far as the generator can tell.
    last: (u32, u32, u64),
    recent: Vec<(u32, u32, u64)>,
    now: u64,
    sent: u32,
    /// How many calls in a thousand are first played in a way that refusal 5 is for.
    spoilt: u64,
}

impl<'a> Draw<'a> {
    fn new(random: &'a mut Random, fresh: Call, digests: bool) -> Self {
        Self {
            random,
            script: vec![fresh],
            digests,
            last: (0, 0, 0),
            recent: Vec::new(),
            now: 1_000,
            sent: 0,
            spoilt: 20,
        }
    }
    fn push(&mut self, call: Call) {
        if call[0] & 0xff <= OBSERVE && self.random.chance(self.spoilt) {
            let spoilt = spoilt(self.random, call);
            self.keep(spoilt);
        }
        self.keep(call);
    }
    fn keep(&mut self, mut call: Call) {
        call[DIGEST] = u64::from(self.digests || self.script.len() % 500 == 0);
        self.script.push(call);
    }
    fn sent(&mut self, sequence: u32, ordinal: u32) {
        // A third of the probes have no train.
        let train = sequence.wrapping_mul(0x9e37_79b9) ^ ordinal.wrapping_add(1);
        let told = [
            u64::from(sequence),
            self.now,
            self.now ^ 0x5a5a,
            u64::from(ordinal),
            u64::from(if train % 3 == 0 { 0 } else { train }),
        ];
        self.push(call(SENT, &told));
    }
    fn accept(&mut self, key: (u32, u32, u64), pending: bool) {
        self.last = key;
        self.recent.push(key);
        if self.recent.len() > 64 {
            self.recent.remove(0);
        }
        let told = [
            halves(key.0, key.1),
            key.2,
            u64::from(pending),
            self.now * u64::from(pending),
            (self.now ^ 0x77) * u64::from(pending),
        ];
        self.push(call(ACCEPT, &told));
    }
}

/// A call with a room of another size, or on a state with a ring out of bounds. Not every call is lent every room.
fn spoilt(random: &mut Random, mut call: Call) -> Call {
    if random.chance(500) {
        call[ROOM] = 1 + random.below(6) + 8 * random.of(&[4_095, 4_097, 0, 1]);
        return call;
    }
    let beyond = random.of(&[4_097, 4_098, 65_536, 1 << 32, (1 << 40) + 5]);
    call[SPOIL] = match random.below(6) {
        0 => 1 | 4_096 << 8,
        1 => 3 | 4_096 << 8,
        field => field | beyond << 8,
    };
    call
}

/// A ledger made fresh, with the words of the port's hash: drawn ones, or ones that make all keys hash alike.
fn fresh(random: &mut Random, copies: u64, monitor: [u64; 3]) -> Call {
    let mut told = vec![copies, monitor[0], monitor[1], monitor[2]];
    let alike = random.chance(250);
    for _ in 0..4 {
        told.push(if alike { 0 } else { random.word() });
    }
    call(FRESH, &told)
}

/// An observe, before its words are laid out.
#[derive(Clone, Copy)]
struct Drawn {
    key: (u32, u32, u64),
    rtt: u64,
    t4: Option<i64>,
    ptp: bool,
    reference: i64,
    offset: i32,
    ordinal: Option<u32>,
    counters: Option<(u32, u32, u32)>,
    follow: Option<(u32, u64, bool)>,
    quality: Option<(u32, u32)>,
    anyway: Option<i64>,
}

impl Drawn {
    fn call(self) -> Call {
        let mut flags = 0;
        let mut raise = |holds: bool, flag: u64| {
            if holds {
                flags |= flag;
            }
        };
        raise(self.t4.is_some(), T4);
        raise(self.ordinal.is_some(), ORDINAL);
        raise(self.counters.is_some(), COUNTERS);
        raise(self.follow.is_some(), FOLLOW);
        raise(self.quality.is_some(), QUALITY);
        raise(self.ptp, PTP);
        raise(self.follow.is_some_and(|f| f.2), UNKNOWN_MODE);
        raise(self.anyway.is_some(), ANYWAY);
        let counters = self.counters.unwrap_or((0, 0, 0));
        let follow = self.follow.unwrap_or((0, 0, false));
        let quality = self.quality.unwrap_or((0, 0));
        call(
            OBSERVE | flags << 8,
            &[
                halves(self.key.0, self.key.1),
                self.key.2,
                self.rtt,
                self.t4.unwrap_or(0) as u64,
                self.reference as u64,
                halves(self.offset as u32, self.ordinal.unwrap_or(0)),
                halves(counters.0, counters.1),
                halves(counters.2, follow.0),
                follow.1,
                0,
                halves(quality.0, quality.1),
                0,
                self.anyway.unwrap_or(0) as u64,
            ],
        )
    }
}

fn estimate(random: &mut Random) -> u32 {
    let scale = random.below(40) as u32;
    let multiplier = random.of(&[0, 1, 7, 255]);
    random.below(4) as u32 | scale << 8 | multiplier << 16
}

/// A timestamp of 2026 in either format, some ms around `seconds`.
fn timestamp(random: &mut Random, seconds: i64, ptp: bool) -> u64 {
    let epoch = if ptp { 0 } else { 2_208_988_800 };
    let whole = (seconds + epoch) as u32;
    let part = if ptp {
        random.below(1_050_000_000) as u32
    } else {
        random.word() as u32
    };
    u64::from(whole) << 32 | u64::from(part)
}

pub fn scripts(random: &mut Random, long: bool) -> Vec<Script> {
    let mut all = Vec::new();
    let rounds = if long { 60 } else { 14 };
    for _ in 0..rounds {
        all.push(typical(random, 600, true));
        all.push(dense(random, 600));
        all.push(limits(random, 120));
    }
    all.push(bounds(random));
    let turns = if long { 9_000 } else { 6_000 };
    all.push(past_every_ring(random, turns, 4_400, 1));
    all.push(past_every_ring(random, turns, 60, 0));
    all.push(full_queue(random));
    all
}

/// A believable link: a probe each 100 ms, 1 to 3 copies, some loss, some reordering, counters and follow-ups.
fn typical(random: &mut Random, calls: usize, digests: bool) -> Script {
    let copies = random.of(&[0, 1, 1, 2, 3]);
    let monitor = u64::from(random.chance(600));
    let threshold = random.of(&[1, 3, 5]);
    let stateless = random.chance(300);
    let ptp = random.chance(400);
    let loss = random.of(&[10, 100, 500]);
    let fresh = fresh(random, copies, [monitor, threshold, 1_000_000_000]);
    let mut draw = Draw::new(random, fresh, digests);
    let (mut reflector, mut received) = (77u32, 500u32);
    let mut previous = 0u32;
    while draw.script.len() < calls {
        draw.now += 100_000_000;
        draw.sent += 1;
        let sequence = draw.sent;
        draw.sent(sequence, sequence);
        received += 1;
        for _ in 0..copies.max(1) {
            reflector += 1;
            if draw.random.chance(loss) {
                continue;
            }
            let answered = if draw.random.chance(50) {
                sequence.saturating_sub(draw.random.below(5) as u32)
            } else {
                sequence
            };
            let number = if stateless { answered } else { reflector };
            let seconds = 1_790_000_000 + (draw.now / 1_000_000_000) as i64;
            let t3 = timestamp(draw.random, seconds, ptp);
            let pending = draw.random.chance(800);
            draw.accept((answered, number, t3), pending);
            if draw.random.chance(50) {
                draw.accept((answered, number, t3), pending);
            }
            let follow = draw.random.chance(700).then(|| {
                let unknown = draw.random.chance(20);
                (previous, timestamp(draw.random, seconds, ptp), unknown)
            });
            let whole = draw.random.below(2_000_000_000) as i64;
            // Some replies come late: their number was passed over, or was seen.
            let back = if draw.random.chance(60) {
                draw.random.below(4) as u32
            } else {
                0
            };
            let drawn = Drawn {
                key: draw.last,
                rtt: draw.random.below(50_000_000),
                t4: (!draw.random.chance(50)).then_some(seconds * 1_000_000_000 + whole),
                ptp,
                reference: seconds,
                offset: draw.random.of(&[0, 0, 37, -37]),
                ordinal: Some(answered),
                counters: draw
                    .random
                    .chance(700)
                    .then_some((answered, received, reflector - back)),
                follow,
                quality: draw
                    .random
                    .chance(800)
                    .then(|| (estimate(draw.random), estimate(draw.random))),
                anyway: None,
            };
            draw.push(drawn.call());
            previous = number;
        }
        if monitor == 1 {
            let now = draw.now;
            draw.push(call(ADVANCE, &[now]));
        }
    }
    draw.script
}

/// Tiny ranges, so that everything collides.
fn dense(random: &mut Random, calls: usize) -> Script {
    let copies = random.of(&[0, 1, 2, 3]);
    let monitor = random.below(2);
    let timeout = random.of(&[0, 3, 1]);
    let many = random.of(&[2, 4, 8]);
    let threshold = random.below(3);
    let fresh = fresh(random, copies, [monitor, threshold, timeout]);
    let mut draw = Draw::new(random, fresh, true);
    while draw.script.len() < calls {
        draw.now = draw.random.below(12);
        let number = draw.random.below(many) as u32;
        match draw.random.below(20) {
            0..=3 => {
                let ordinal = draw.random.below(4) as u32;
                draw.sent(number, ordinal);
            }
            4..=11 => {
                let key = (
                    number,
                    draw.random.below(many) as u32,
                    draw.random.below(40),
                );
                let pending = draw.random.chance(400);
                draw.accept(key, pending);
                if draw.random.chance(850) {
                    let drawn = small(&mut draw, many);
                    draw.push(drawn.call());
                }
            }
            12..=15 => {
                let drawn = small(&mut draw, many);
                draw.push(drawn.call());
            }
            16 => {
                let step = draw
                    .random
                    .of(&[0, 1 << 31, (1 << 31) - 1, (1 << 31) + 1, u32::MAX]);
                let key = (
                    number,
                    draw.last.1.wrapping_add(step),
                    draw.random.below(40),
                );
                draw.accept(key, true);
                let drawn = small(&mut draw, many);
                draw.push(drawn.call());
            }
            17 | 18 => {
                let now = draw.now;
                draw.push(call(ADVANCE, &[now]));
            }
            _ => {
                if draw.random.chance(300) {
                    draw.push(call(IDLE, &[]));
                }
            }
        }
    }
    draw.script
}

/// An observe with tiny numbers, mostly of the key that awaits.
fn small(draw: &mut Draw, many: u64) -> Drawn {
    let key = if draw.random.chance(950) || draw.recent.is_empty() {
        draw.last
    } else {
        draw.random.of(&draw.recent)
    };
    let r = &mut draw.random;
    let ordinal = r.chance(850).then(|| r.below(3) as u32);
    let start = r.of(&[0u32, 0, 0, 1 << 31, u32::MAX]);
    let counters = r.chance(600).then(|| {
        let same = ordinal.filter(|_| r.chance(900));
        (
            same.unwrap_or(r.below(6) as u32),
            start.wrapping_add(r.below(6) as u32),
            r.of(&[0u32, 0, 0, 1 << 31]).wrapping_add(r.below(9) as u32),
        )
    });
    let follow = r.chance(700).then(|| {
        let time = r.of(&[
            0,
            1,
            1 << 32,
            (5 << 32) | 999_999_999,
            (5 << 32) | 1_000_000_000,
        ]);
        (r.below(many) as u32, time, r.chance(50))
    });
    Drawn {
        key,
        rtt: r.below(5),
        t4: (!r.chance(150)).then(|| r.below(5_000_000_000) as i64),
        ptp: r.chance(500),
        reference: r.below(6) as i64,
        offset: r.below(5) as i32 - 2,
        ordinal,
        counters,
        follow,
        quality: r.chance(700).then(|| (estimate(r), estimate(r))),
        anyway: r.chance(200).then(|| r.below(100) as i64 - 50),
    }
}

/// Every value on its bound, one short of it and one past it.
fn limits(random: &mut Random, turns: u32) -> Script {
    let timeout = random.of(&[0, 1, 1 << 63, u64::MAX]);
    let monitor = random.below(2);
    let copies = random.of(&[0, 1, 2, 65_535]);
    let threshold = random.of(&[0, 65_535]);
    let fresh = fresh(random, copies, [monitor, threshold, timeout]);
    let mut draw = Draw::new(random, fresh, true);
    for i in 0..turns {
        let last = u64::MAX - timeout;
        draw.now = draw
            .random
            .of(&[0, 1, last, last.saturating_add(1), last.saturating_sub(1)]);
        let number = draw.random.of(&[0, 1, 1 << 31, u32::MAX, i]);
        draw.sent(number, i);
        if draw.random.chance(50) {
            let calls = draw
                .random
                .of(&[MOST_CALLS - 2, MOST_CALLS - 1, MOST_CALLS]);
            draw.push(call(LOAD, &[0, calls]));
        } else if draw.random.chance(100) {
            draw.push(call(LOAD, &[0, 5]));
        }
        let reflector = draw.random.of(&[i, u32::MAX - i, 1 << 31, 0]);
        let t3 = draw.random.edge();
        draw.accept((number, reflector, t3), true);
        let r = &mut draw.random;
        let time = r.of(&[
            0,
            TIME_LIMIT,
            TIME_LIMIT + 1,
            -TIME_LIMIT,
            -TIME_LIMIT - 1,
            i64::MAX,
            i64::MIN,
            1_790_000_000_000_000_000,
        ]);
        let near = r.of(&[TIME_LIMIT, -TIME_LIMIT, 5, 1_790_000_000_000_000_000]);
        let t4 = if r.chance(250) { time } else { near };
        let edge = r.of(&[
            REFERENCE_LIMIT,
            -REFERENCE_LIMIT,
            REFERENCE_LIMIT + 1,
            -REFERENCE_LIMIT - 1,
            i64::MAX,
            i64::MIN,
        ]);
        let reference = if r.chance(150) {
            edge
        } else {
            r.of(&[
                0,
                1_790_000_000,
                3_000_000_000,
                REFERENCE_LIMIT,
                -REFERENCE_LIMIT,
            ])
        };
        let edge = r.of(&[OFFSET_LIMIT + 1, -OFFSET_LIMIT - 1, i32::MAX, i32::MIN]);
        let offset = if r.chance(100) {
            edge
        } else {
            r.of(&[0, OFFSET_LIMIT, -OFFSET_LIMIT, 1])
        };
        let scale = r.of(&[0, 32, 63]);
        let earlier = draw.recent[draw.random.below(draw.recent.len() as u64) as usize].1;
        let r = &mut draw.random;
        let drawn = Drawn {
            key: draw.last,
            rtt: r.of(&[0, 1, u64::MAX, 1 << 63, 1 << 53, (1 << 53) + 1]),
            t4: r.chance(900).then_some(t4),
            ptp: r.chance(500),
            reference,
            offset,
            ordinal: Some(i),
            counters: r.chance(500).then(|| {
                let break_at = r.of(&[0u32, 0, 0, 0, 1 << 31, (1 << 31) - 1]);
                (i, 5u32.wrapping_add(break_at), 9 + i)
            }),
            follow: r.chance(800).then(|| (earlier, r.edge().max(1), false)),
            quality: r
                .chance(700)
                .then(|| (estimate(r) & !0xff00 | scale << 8, estimate(r))),
            anyway: r
                .chance(100)
                .then(|| r.of(&[TIME_LIMIT, TIME_LIMIT + 1, i64::MIN])),
        };
        draw.push(drawn.call());
        if draw.random.chance(100) {
            let mut other = drawn;
            other.key.2 ^= 1;
            draw.push(other.call());
        }
    }
    draw.script
}

/// Every count and sum one short of its bound, at it and past it, each under all three calls.
fn bounds(random: &mut Random) -> Script {
    let monitor = random.below(2);
    let fresh = fresh(random, 3, [monitor, 2, 5]);
    let mut draw = Draw::new(random, fresh, true);
    let mut i = 0;
    for which in 0..=37 {
        let sum = matches!(which, 29 | 30 | 32 | 33);
        let bound = match which {
            0 => MOST_CALLS,
            _ if sum => (SUM_BOUND >> 64) as u64,
            _ => COUNT_BOUND,
        };
        let past = if sum { i64::MAX as u64 } else { u64::MAX };
        for value in [bound - 1, bound, past, draw.random.below(1_000)] {
            draw.push(call(LOAD, &[which, value]));
            i += 1;
            three_calls(&mut draw, i);
            three_calls(&mut draw, i);
        }
    }
    draw.script
}

/// A probe, a reply to it or to one of the last few, and its observation.
fn three_calls(draw: &mut Draw, i: u32) {
    let back = draw.random.below(3) as u32;
    draw.sent(i, i);
    let pending = draw.random.chance(500);
    let sender = if draw.random.chance(100) {
        i + 500
    } else {
        i.saturating_sub(back)
    };
    let reflector = i.wrapping_add(draw.random.of(&[0, 0, 1, u32::MAX - 3]));
    let t3 = draw.random.below(3);
    draw.accept((sender, reflector, t3), pending);
    let drawn = small(draw, u64::from(i) + 2);
    draw.push(drawn.call());
}

/// Past the end of every ring: probes, keys and offsets are evicted, slots are freed and made anew, the history of
/// offsets is exceeded, and held probes are sent again. There are `numbers` reflector numbers: more than the ring has keys, so
/// that one comes back when its slot is free, or few, so that slots have counts far above 1.
fn past_every_ring(random: &mut Random, turns: u32, numbers: u32, monitor: u64) -> Script {
    let copies = random.of(&[1, 2]);
    let fresh = fresh(random, copies, [monitor, 3, 1_000_000]);
    let mut draw = Draw::new(random, fresh, false);
    draw.spoilt = 3;
    for i in 0..turns {
        draw.now += 1_000;
        draw.sent = i;
        draw.sent(i, i);
        if draw.random.chance(50) {
            let again = i.saturating_sub(draw.random.below(4_090) as u32);
            draw.sent(again, i);
        }
        // Some numbers come a second time while the first is still held.
        let reflector = if draw.random.chance(120) {
            i / 2
        } else {
            i % numbers
        };
        // Some replies are to probes that were sent long before.
        let unheld = draw.random.chance(20);
        let back = if draw.random.chance(200) {
            draw.random.below(4_090) as u32
        } else {
            0
        };
        let sender = if unheld {
            i + (1 << 20)
        } else {
            i.saturating_sub(back)
        };
        let pending = unheld || draw.random.chance(500);
        draw.accept((sender, reflector, u64::from(i)), pending);
        if draw.random.chance(30) {
            let again = draw.recent[draw.random.below(draw.recent.len() as u64) as usize];
            let last = draw.last;
            draw.accept(again, pending);
            draw.last = last;
        }
        if draw.random.chance(30) {
            let now = draw.now;
            draw.push(call(ADVANCE, &[now]));
        }
        if draw.random.chance(60) {
            continue;
        }
        let drawn = long_observe(&mut draw, i, numbers);
        draw.push(drawn.call());
    }
    draw.digests = true;
    let now = draw.now;
    draw.push(call(ADVANCE, &[now]));
    draw.push(call(IDLE, &[]));
    draw.script
}

/// An observe in a long run: each reply has counters, and half of them a follow-up for one of the last 4,200 replies.
fn long_observe(draw: &mut Draw, i: u32, numbers: u32) -> Drawn {
    let r = &mut draw.random;
    // Offsets leave gaps, which late replies fill.
    let late = if r.chance(100) && i > 5 { 5 } else { 0 };
    Drawn {
        key: draw.last,
        rtt: r.below(1 << 40),
        t4: Some(i64::from(i) * 1_000),
        ptp: true,
        reference: i64::from(i),
        offset: 0,
        ordinal: Some(i),
        counters: Some((i, i + 7, 2 * i + 9 - late)),
        follow: r.chance(500).then(|| {
            let back = r.below(4_200) as u32;
            (
                i.saturating_sub(back) % numbers,
                u64::from(i) << 32 | 5,
                false,
            )
        }),
        quality: r.chance(300).then(|| (estimate(r), estimate(r))),
        anyway: None,
    }
}

/// The monitor's queue full, with the ledger's own calls.
fn full_queue(random: &mut Random) -> Script {
    let fresh = fresh(random, 1, [1, 2, 1_000_000_000]);
    let mut draw = Draw::new(random, fresh, false);
    draw.spoilt = 0;
    for i in 0..CAPACITY as u32 + 3 {
        draw.now += 1;
        draw.sent(i % 4_000, i);
    }
    draw.digests = true;
    draw.sent(5, 5);
    draw.accept((9, 9, 9), false);
    draw.sent(5, 5);
    let now = draw.now + 1_000_000_000;
    draw.push(call(ADVANCE, &[now]));
    draw.push(call(IDLE, &[]));
    draw.script
}
