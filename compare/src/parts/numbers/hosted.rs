//! The same scripts through the library that hosts link, in this process: the port's side of part `host_numbers`.
//!
//! Each call is made twice: by the plain call, into memory that holds something else before, and by the wrapper. Where the two say different
//! things, the answer is made a difference.
use super::{scripts, FRESH, LINES, LOAD_ENDS, LOAD_QUALITY, PART, QUALITY, UNSYNCHRONIZED, WIRE};
use crate::part::{Part, Script};
use ambrulicciu::{
    calls::{self, QUALITY_WORDS},
    served, ClockQuality, Estimate, Invalid, LastEstimate, Maybe, Parts, Quality,
};

pub const HOSTED: Part = Part {
    name: "host_numbers",
    program: "-",
    here: Some(play),
    lines: &REACHED,
    scripts: |random, long| carried(scripts::scripts(random, long)),
    ..PART
};

/// A host hands estimates over as 16 bits of the wire, which have no scale above 63.
const REACHED: [&str; LINES.len() - 2] = {
    let mut kept = [""; LINES.len() - 2];
    let (mut from, mut to) = (0, 0);
    while from < LINES.len() {
        if !above_63(LINES[from]) {
            kept[to] = LINES[from];
            to += 1;
        }
        from += 1;
    }
    kept
};

const fn above_63(line: &str) -> bool {
    let (line, start) = (line.as_bytes(), b"quality: a scale above 63");
    let mut i = 0;
    while i < start.len() && i < line.len() && line[i] == start[i] {
        i += 1;
    }
    i == start.len()
}

/// The scripts with scales that the wire carries.
fn carried(mut scripts: Vec<Script>) -> Vec<Script> {
    let records = scripts.iter_mut().flatten().filter(|c| c[0] == QUALITY);
    for call in records {
        call[2] &= 0xff_3fff;
        call[3] &= 0xff_3fff;
    }
    scripts
}

fn play(given: &[u8]) -> Vec<u8> {
    let mut both = Both::fresh();
    let mut written = Vec::with_capacity(2 * given.len());
    for bytes in given.chunks_exact(64) {
        let words = bytes.chunks_exact(8);
        let call: Vec<u64> = words
            .map(|b| u64::from_le_bytes(b.try_into().unwrap()))
            .collect();
        for word in both.play(&call) {
            written.extend_from_slice(&word.to_le_bytes());
        }
    }
    written
}

/// What differs from every answer: the plain call and the wrapper do not agree.
const UNLIKE: [u64; 16] = [u64::MAX; 16];

/// The 16 bits of an estimate that a script has as S, Z, scale, multiplier in one word.
fn wire(word: u64) -> u16 {
    let (s, z) = (word & 1, word >> 1 & 1);
    (s << 15 | z << 14 | (word >> 8 & 63) << 8 | word >> 16 & 255) as u16
}

/// A clock quality by the plain calls, and one by the wrapper.
struct Both {
    words: [u64; QUALITY_WORDS],
    wrapped: ClockQuality,
}

impl Both {
    fn fresh() -> Self {
        let mut words = [u64::MAX; QUALITY_WORDS];
        // The last two words are no part of it, and stay as they were.
        assert_eq!(calls::clock_quality_fresh(&mut words), 0);
        let wrapped = ClockQuality::new();
        Self { words, wrapped }
    }

    fn play(&mut self, call: &[u64]) -> [u64; 16] {
        match call[0] {
            FRESH => {
                *self = Self::fresh();
                [0; 16]
            }
            WIRE => estimate(0, call[1] as u16),
            UNSYNCHRONIZED => unsynchronized(call[1] == 2),
            QUALITY => self.record(call),
            LOAD_QUALITY => {
                self.words = [0; QUALITY_WORDS];
                self.words[..5].copy_from_slice(&call[1..6]);
                self.words[8..10].copy_from_slice(&call[6..8]);
                self.wrapped.words = self.words;
                self.shown(0)
            }
            LOAD_ENDS => {
                self.words[5..8].copy_from_slice(&call[1..4]);
                self.wrapped.words = self.words;
                self.shown(0)
            }
            // NEW, and WITH_FORMAT, whose format is the flag Z.
            _ => new(call),
        }
    }

    /// A flag is 0 for no and anything else for yes. What is not there is not looked at.
    fn record(&mut self, call: &[u64]) -> [u64; 16] {
        let (sender, reflector) = (wire(call[2]), wire(call[3]));
        let there = call[1] != 0;
        let estimated = if there { 1 + sender as u32 % 5 } else { 0 };
        let refusal = calls::clock_quality_record(&mut self.words, estimated, sender, reflector);
        if self.wrapped.record(there.then_some((sender, reflector))) != served(refusal) {
            return UNLIKE;
        }
        self.shown(refusal)
    }

    fn shown(&self, refusal: u8) -> [u64; 16] {
        let mut shown = JUNK;
        assert_eq!(calls::clock_quality_summary(&self.words, &mut shown), 0);
        if self.words[..14] != self.wrapped.words[..14] || shown != self.wrapped.summary() {
            return UNLIKE;
        }
        let (sender, reflector) = (last(shown.sender), last(shown.reflector));
        let mut words = [0; 16];
        words.copy_from_slice(&[
            refusal.into(),
            shown.samples,
            shown.both,
            shown.unsynchronized,
            shown.invalid,
            shown.unknown,
            sender[0],
            sender[1],
            reflector[0],
            reflector[1],
            u64::from(shown.largest.get().is_some()),
            bits(shown.largest),
            shown.invalid_sender,
            shown.invalid_reflector,
            shown.invalid_both,
            received(shown.sender) | received(shown.reflector) << 16,
        ]);
        words
    }
}

/// A summary that says something else than any.
const JUNK: Quality = {
    let last = LastEstimate {
        synchronized: 7,
        ptp: 7,
        scale: 7,
        multiplier: 7,
        error: Maybe::of(7.0),
        received: 7,
    };
    Quality {
        samples: u64::MAX,
        both: u64::MAX,
        unsynchronized: u64::MAX,
        invalid: u64::MAX,
        unknown: u64::MAX,
        invalid_sender: u64::MAX,
        invalid_reflector: u64::MAX,
        invalid_both: u64::MAX,
        sender: Maybe::of(last),
        reflector: Maybe::of(last),
        largest: Maybe::of(7.0),
    }
};

fn bits(value: Maybe<f64>) -> u64 {
    value.get().map_or(0, f64::to_bits)
}

fn received(estimate: Maybe<LastEstimate>) -> u64 {
    estimate.get().map_or(0, |e| e.received)
}

fn last(estimate: Maybe<LastEstimate>) -> [u64; 2] {
    estimate.get().map_or([0, 0], |e| {
        let known = u64::from(e.error.get().is_some()) << 25;
        let fields = e.synchronized | e.ptp << 1 | e.scale << 8 | e.multiplier << 16;
        [1 << 24 | known | fields, bits(e.error)]
    })
}

fn new(call: &[u64]) -> [u64; 16] {
    let (scale, multiplier) = (call[3] as u8, call[4] as u8);
    let parts = Parts {
        synchronized: call[1] != 0,
        ptp: call[2] != 0,
        scale,
        multiplier,
    };
    // A flag is 0 for no and anything else for yes.
    let flag = |set: bool| u32::from(set) * (1 + u32::from(multiplier));
    let mut wire = [0xa5a5];
    let refusal = calls::estimate_new(
        flag(parts.synchronized),
        flag(parts.ptp),
        scale,
        multiplier,
        &mut wire,
    );
    let made = Estimate::new(parts);
    if made.map(|e| e.0) != served(refusal).map(|()| wire[0]) {
        return UNLIKE;
    }
    if refusal != 0 {
        let mut words = [0; 16];
        words[0] = refusal.into();
        // A refusal changes nothing.
        return if wire[0] == 0xa5a5 { words } else { UNLIKE };
    }
    estimate(refusal, wire[0])
}

fn unsynchronized(ptp: bool) -> [u64; 16] {
    let mut wire = [0xa5a5];
    assert_eq!(
        calls::estimate_unsynchronized(5 * u32::from(ptp), &mut wire),
        0
    );
    if Estimate::unsynchronized(ptp) != Estimate(wire[0]) {
        return UNLIKE;
    }
    estimate(0, wire[0])
}

/// All that 16 bits say.
fn estimate(refusal: u8, wire: u16) -> [u64; 16] {
    let (mut parts, mut seconds) = ([u64::MAX; 4], [7.0]);
    let (mut known, mut error, mut received) = ([u64::MAX], [7.0], [0xa5a5]);
    let mut numbers = calls::estimate_parts(wire, &mut parts);
    numbers |= calls::estimate_seconds(wire, &mut seconds);
    numbers |= calls::estimate_error(wire, &mut known, &mut error, &mut received);
    let [synchronized, ptp, scale, multiplier] = parts;
    let wrapped = Estimate(wire);
    let same = wrapped.parts()
        == Parts {
            synchronized: synchronized == 1,
            ptp: ptp == 1,
            scale: scale as u8,
            multiplier: multiplier as u8,
        }
        && wrapped.seconds() == seconds[0]
        && wrapped.error() == (known[0] == 1).then_some(error[0])
        && wrapped.reading().err() == (known[0] == 0).then_some(Invalid(received[0]));
    if numbers != 0 || !same {
        return UNLIKE;
    }
    let mut words = [0; 16];
    words[..11].copy_from_slice(&[
        refusal.into(),
        synchronized,
        ptp,
        scale,
        multiplier,
        wire.into(),
        seconds[0].to_bits(),
        known[0],
        error[0].to_bits(),
        ptp,
        received[0].into(),
    ]);
    words
}
