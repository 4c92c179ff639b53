//! The conversion of a follow-up's timestamp, one by one: through `observe` of the library that hosts link, against time.rs, called as
//! measurements.rs calls it. Each reply carries the follow-up of the one before, whose format and reference it is converted by; the T3 that
//! was converted to is worked out of the delay.
use super::{OFFSET_LIMIT, REFERENCE_LIMIT};
use crate::{random::Random, time};
use ambrulicciu::{FollowUp, Format, Key, Link, Observation, Packet};

/// Words of the ledger: the delays of follow-ups.
const FOLLOW_DELAYS: usize = 50;
/// Words of the hash: equal ones would put many keys into one chain.
const SECRET: [u32; 8] = [
    2654435761, 2246822519, 3266489917, 668265263, 374761393, 2166136261, 16777619, 2747636419,
];
const ERA: i64 = 1 << 32;
const HALF: i64 = 1 << 31;
const BILLION: i128 = 1_000_000_000;

/// What one conversion is told.
#[derive(Clone, Copy, Debug, PartialEq, Eq, PartialOrd, Ord)]
struct Told {
    reference: i64,
    offset: i32,
    ptp: bool,
    timestamp: u64,
}

#[derive(Default)]
struct Counted {
    times: u64,
    none: u64,
    beyond: u64,
    other: u64,
    least: [Option<Told>; 2],
}

/// Converts by `observe`; the link's last reply is the one that the follow-up is about.
struct Port {
    link: Link,
    number: u32,
}

impl Port {
    fn next(&mut self, told: Told, follow_up: Option<FollowUp>) {
        self.number = self.number.wrapping_add(1);
        let key = Key {
            sender: self.number,
            reflector: self.number,
            t3: 0,
        };
        self.link
            .accept(key, Some(Packet { time: 0, tag: 0 }))
            .expect("an accept");
        let observation = Observation {
            t4: Some(0),
            format: if told.ptp { Format::Ptp } else { Format::Ntp },
            reference: told.reference,
            offset: told.offset,
            follow_up,
            ..Observation::of(key, 0)
        };
        self.link.observe(&observation).expect("an observe");
    }

    fn convert(&mut self, told: Told) -> Option<i128> {
        self.next(told, None);
        let follow_up = FollowUp {
            sequence: self.number,
            timestamp: told.timestamp,
            unknown_mode: false,
        };
        self.link.ledger[FOLLOW_DELAYS..FOLLOW_DELAYS + 8].fill(0);
        self.next(told, Some(follow_up));
        let words = &self.link.ledger[FOLLOW_DELAYS..FOLLOW_DELAYS + 8];
        let delay = match words[4] {
            0 => return None,
            1 => i128::from(words[5]),
            _ => -i128::from(words[5]),
        };
        Some(i128::from(told.offset) * BILLION - delay)
    }
}

fn one(port: &mut Port, told: Told, counted: &mut Counted) {
    let ours = port.convert(told);
    let [within, own] = time::converted(told.timestamp, told.ptp, told.reference, told.offset);
    if ours != within {
        counted.other += 1;
        println!("{told:?}: the library {ours:?}, the original {own:?}");
    } else if ours != own {
        counted.beyond += 1;
        let least = &mut counted.least[usize::from(told.ptp)];
        let near = |t: &Told| (t.reference.abs(), t.offset.abs(), t.timestamp);
        if least.is_none_or(|l| near(&told) < near(&l)) {
            *least = Some(told);
        }
    } else if ours.is_some() {
        counted.times += 1;
    } else {
        counted.none += 1;
    }
}

/// Seconds and parts of a second at every edge, near this reference and offset.
fn edges(reference: i64, offset: i32) -> impl Iterator<Item = (bool, u64)> {
    let r = reference + i64::from(offset);
    let seconds = [0, HALF, -HALF, 4_000_000_000 - r, -4_000_000_000 - r];
    let parts = [0, 1, 4, 5, 1 << 31, 999_999_999, 1_000_000_000, u32::MAX];
    let near = seconds
        .into_iter()
        .flat_map(|s| (-2..=2).map(move |d| s + d));
    near.flat_map(move |s| {
        parts.into_iter().flat_map(move |part| {
            [(false, 2_208_988_800), (true, 0)].map(move |(ptp, epoch)| {
                let second = (r + s + epoch).rem_euclid(ERA) as u64;
                (ptp, second << 32 | u64::from(part))
            })
        })
    })
}

/// Every edge with every edge, then `count` random ones. A timestamp of 0 is no timestamp: the class comes before the conversion.
pub fn play(seed: u64, count: u64) -> bool {
    let mut port = Port {
        link: Link::new(1, &SECRET),
        number: 0,
    };
    let mut counted = Counted::default();
    let mut all = 0;
    let mut next = |told: Told, counted: &mut Counted| {
        if told.timestamp != 0 {
            one(&mut port, told, counted);
            all += 1;
            // A link serves 2^32 - 1 calls.
            if all % 500_000_000 == 0 {
                port.link = Link::new(1, &SECRET);
            }
        }
    };
    let limit = REFERENCE_LIMIT;
    for base in [
        0,
        HALF,
        ERA - limit,
        limit - HALF,
        limit,
        2_085_978_496,
        1_700_000_000,
    ] {
        for reference in (-3..=3).flat_map(|d| [base + d, -base + d]) {
            for offset in [0, 1, -1, 37, -37, OFFSET_LIMIT, -OFFSET_LIMIT] {
                for (ptp, timestamp) in edges(reference, offset) {
                    if reference.abs() <= limit {
                        let told = Told {
                            reference,
                            offset,
                            ptp,
                            timestamp,
                        };
                        next(told, &mut counted);
                    }
                }
            }
        }
    }
    let random = &mut Random::new(seed);
    for _ in 0..count {
        let ptp = random.chance(500);
        let reference = match random.below(4) {
            0 | 1 => random.below(2 * limit as u64 + 1) as i64 - limit,
            2 => 1_790_000_000 + random.below(1_000_000) as i64,
            _ => random.of(&[limit, -limit, limit - HALF]) - random.below(100_000) as i64,
        };
        let reference = reference.clamp(-limit, limit);
        let any = random.below(172_801) as i32 - 86_400;
        let offset = random.of(&[0, 37, any]);
        let second = match random.below(3) {
            0 => random.word() as u32,
            1 => (reference + random.below(2_000) as i64 - 1_000) as u32,
            _ => (reference + HALF + random.below(9) as i64 - 4) as u32,
        };
        let epoch = if ptp { 0 } else { 2_208_988_800u32 };
        let part = if ptp {
            random.below(1_050_000_000) as u32
        } else {
            random.word() as u32
        };
        let timestamp = u64::from(second.wrapping_add(epoch)) << 32 | u64::from(part);
        next(
            Told {
                reference,
                offset,
                ptp,
                timestamp,
            },
            &mut counted,
        );
    }
    let Counted {
        times,
        none,
        beyond,
        other,
        least,
    } = counted;
    println!("{all} conversions: {times} times, {none} without a time, {beyond} with a time of the original's outside T3's range and none of the library's, {other} other");
    println!("nearest to 1970 outside the range: {least:?}");
    other == 0
}
