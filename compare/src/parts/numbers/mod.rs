//! Estimates (error_estimate.rs) and clock quality (clock_quality.rs).
#[cfg(feature = "host")]
pub mod hosted;
mod scripts;

use super::{COUNTS_FULL, COUNT_BOUND, OUT_OF_RANGE};
use crate::{
    clock_format::ClockFormat,
    cover::Cover,
    error_estimate::ErrorEstimate,
    part::{answer, Answer, Call, Original, Part},
    stats::{clock_quality::ClockEstimate, ClockQuality},
};

/// The clock quality is made fresh.
const FRESH: u64 = 0;
/// wire: the estimate of 16 bits.
const WIRE: u64 = 1;
/// S, Z, scale, multiplier: `new`.
const NEW: u64 = 2;
/// S, format, scale, multiplier: `with_clock_format`.
const WITH_FORMAT: u64 = 3;
/// 0 `unsynchronized`, 1 `unsynchronized_with_format(NTP)`, 2 of PTP.
const UNSYNCHRONIZED: u64 = 4;
/// 0 absent or 1, then two estimates: `ClockQuality::record`.
const QUALITY: u64 = 5;
/// The five counts, 0 or 1, the largest error: a state as a host could hand it over.
const LOAD_QUALITY: u64 = 6;
/// The three counts of whose estimate was invalid (document 02, Q-8), which the original has not.
const LOAD_ENDS: u64 = 7;

pub const PART: Part = Part {
    name: "numbers",
    program: "play_numbers",
    here: None,
    call_words: 8,
    answer_words: 16,
    lines: &LINES,
    fresh: || Box::new(Numbers::default()),
    scripts: scripts::scripts,
    sample: scripts::sample,
    show,
    answer: &[
        "refusal",
        "samples, or S",
        "both synchronized, or Z",
        "unsynchronized, or scale",
        "invalid, or multiplier",
        "unknown, or 16 bits",
        "last sender, or seconds",
        "its error, or 1 if there is an error in ms",
        "last reflector, or the error in ms",
        "its error, or the format",
        "1 if there is a largest error, or the 16 bits of an invalid estimate",
        "largest error",
        "invalid at the sender alone",
        "invalid at the reflector alone",
        "invalid at both",
        "the 16 bits of invalid last estimates",
    ],
};

const LINES: [&str; 40] = [
    "estimate: every u16",
    "estimate: S set",
    "estimate: S clear",
    "estimate: Z set, PTP",
    "estimate: Z clear, NTP",
    "estimate: multiplier 0 has seconds 0 and no error in ms",
    "estimate: new served",
    "estimate: new refused 1",
    "estimate: with_clock_format NTP",
    "estimate: with_clock_format PTP",
    "estimate: with_clock_format refused 1",
    "estimate: unsynchronized",
    "estimate: unsynchronized with NTP",
    "estimate: unsynchronized with PTP",
    "quality: unknown",
    "quality: both synchronized",
    "quality: sender alone synchronized",
    "quality: reflector alone synchronized",
    "quality: neither synchronized",
    "quality: invalid at the sender alone",
    "quality: invalid at the reflector alone",
    "quality: invalid at both",
    "quality: first combined error",
    "quality: larger combined error",
    "quality: combined error not larger",
    "quality: combined error was rounded",
    "quality: unknown after a pair clears both estimates",
    "quality: a scale above 63 is invalid at the sender",
    "quality: a scale above 63 is invalid at the reflector",
    "quality: refused 4 for samples",
    "quality: refused 4 for both synchronized",
    "quality: refused 4 for unsynchronized",
    "quality: refused 4 for invalid",
    "quality: refused 4 for unknown",
    "quality: refused 4 for invalid at the sender alone",
    "quality: refused 4 for invalid at the reflector alone",
    "quality: refused 4 for invalid at both",
    "quality: invalid beside an unsynchronized clock",
    "quality: invalid beside a synchronized clock",
    "quality: unknown raises none of the three",
];

#[derive(Default)]
struct Numbers {
    quality: ClockQuality,
    ends: Ends,
}

/// Document 02, Q-8, from the estimates that the script hands over: invalid at the sender alone, at the reflector alone, at both. The
/// original has their sum alone, which each call holds them against; `loaded` is how far a load set them apart.
#[derive(Clone, Copy, Default)]
pub struct Ends {
    pub counts: [u64; 3],
    loaded: u64,
}

impl Ends {
    /// A sample: the estimates are invalid by their fields alone, whatever their clocks say.
    pub fn told(&mut self, pair: Option<(ErrorEstimate, ErrorEstimate)>) {
        let invalid = |e: ErrorEstimate| e.multiplier == 0 || e.scale > 63;
        let which = match pair.map(|(s, r)| (invalid(s), invalid(r))) {
            Some((true, false)) => 0,
            Some((false, true)) => 1,
            Some((true, true)) => 2,
            Some((false, false)) | None => return,
        };
        self.counts[which] += 1;
    }

    fn sum(&self) -> u64 {
        self.counts.iter().fold(0, |sum, n| sum.wrapping_add(*n))
    }

    /// The three after a load of them or of the original's count.
    pub fn loaded(self, invalid: u64) -> Self {
        Self {
            loaded: invalid.wrapping_sub(self.sum()),
            ..self
        }
    }

    /// The three are the original's one.
    pub fn held_against(&self, invalid: u64) {
        assert_eq!(self.sum().wrapping_add(self.loaded), invalid);
    }
}

/// The 16 bits of an estimate that has no error.
pub fn received(e: Option<ClockEstimate>) -> u64 {
    e.filter(|e| e.error_ms.is_none()).map_or(0, |e| {
        let fields = ErrorEstimate {
            synchronized: e.synchronized,
            z_flag: e.format == ClockFormat::PTP,
            scale: e.scale,
            multiplier: e.multiplier,
        };
        fields.to_wire().into()
    })
}

/// An estimate in one word: S, Z, scale, multiplier.
fn packed(s: bool, z: bool, scale: u8, multiplier: u8) -> u64 {
    u64::from(s) | u64::from(z) << 1 | u64::from(scale) << 8 | u64::from(multiplier) << 16
}

fn unpacked(word: u64) -> ErrorEstimate {
    ErrorEstimate {
        synchronized: word & 1 == 1,
        z_flag: word >> 1 & 1 == 1,
        scale: (word >> 8) as u8,
        multiplier: (word >> 16) as u8,
    }
}

impl Original for Numbers {
    fn play(&mut self, call: &mut Call, cover: &mut Cover) -> Answer {
        match call[0] {
            WIRE | NEW | WITH_FORMAT | UNSYNCHRONIZED => estimate(call, cover),
            QUALITY => self.quality(call, cover),
            LOAD_QUALITY => self.load_quality(call),
            LOAD_ENDS => {
                self.ends.counts.copy_from_slice(&call[1..4]);
                self.ends = self.ends.loaded(self.quality.invalid_estimate);
                self.shown_quality(0)
            }
            _ => {
                *self = Self::default();
                answer(&[])
            }
        }
    }
}

fn estimate(call: &Call, cover: &mut Cover) -> Answer {
    let (first, second) = (call[1], call[2]);
    let (scale, multiplier) = (call[3] as u8, call[4] as u8);
    let format = [ClockFormat::NTP, ClockFormat::PTP][usize::from(second != 0)];
    let made = match call[0] {
        WIRE => {
            cover.reached("estimate: every u16");
            Ok(ErrorEstimate::from_wire(first as u16))
        }
        NEW => {
            let made = ErrorEstimate::new(first != 0, second != 0, scale, multiplier);
            cover.reached_if(made.is_ok(), "estimate: new served");
            cover.reached_if(made.is_err(), "estimate: new refused 1");
            made
        }
        WITH_FORMAT => {
            let ptp = format == ClockFormat::PTP;
            let made = ErrorEstimate::with_clock_format(first != 0, format, scale, multiplier);
            cover.reached_if(made.is_ok() && !ptp, "estimate: with_clock_format NTP");
            cover.reached_if(made.is_ok() && ptp, "estimate: with_clock_format PTP");
            cover.reached_if(made.is_err(), "estimate: with_clock_format refused 1");
            made
        }
        _ => Ok(unsynchronized(first, cover)),
    };
    let Ok(e) = made else {
        return answer(&[OUT_OF_RANGE]);
    };
    cover.reached_if(e.synchronized, "estimate: S set");
    cover.reached_if(!e.synchronized, "estimate: S clear");
    cover.reached_if(e.z_flag, "estimate: Z set, PTP");
    cover.reached_if(!e.z_flag, "estimate: Z clear, NTP");
    cover.reached_if(
        e.multiplier == 0,
        "estimate: multiplier 0 has seconds 0 and no error in ms",
    );
    let ms = ClockEstimate::from(e).error_ms;
    answer(&[
        0,
        u64::from(e.synchronized),
        u64::from(e.z_flag),
        u64::from(e.scale),
        u64::from(e.multiplier),
        u64::from(e.to_wire()),
        e.error_seconds().to_bits(),
        u64::from(ms.is_some()),
        ms.map_or(0, f64::to_bits),
        u64::from(e.clock_format() == ClockFormat::PTP),
        received(Some(ClockEstimate::from(e))),
    ])
}

fn unsynchronized(which: u64, cover: &mut Cover) -> ErrorEstimate {
    match which {
        0 => {
            cover.reached("estimate: unsynchronized");
            ErrorEstimate::unsynchronized()
        }
        1 => {
            cover.reached("estimate: unsynchronized with NTP");
            ErrorEstimate::unsynchronized_with_format(ClockFormat::NTP)
        }
        _ => {
            cover.reached("estimate: unsynchronized with PTP");
            ErrorEstimate::unsynchronized_with_format(ClockFormat::PTP)
        }
    }
}

/// A shown estimate: 0, or 1 and its fields, then its error in ms or 0.
fn shown_estimate(e: Option<ClockEstimate>) -> [u64; 2] {
    e.map_or([0, 0], |e| {
        let fields = packed(
            e.synchronized,
            e.format == ClockFormat::PTP,
            e.scale,
            e.multiplier,
        );
        let known = u64::from(e.error_ms.is_some()) << 25;
        [1 << 24 | known | fields, e.error_ms.map_or(0, f64::to_bits)]
    })
}

impl Numbers {
    fn shown_quality(&self, refusal: u64) -> Answer {
        let q = &self.quality;
        let (sender, reflector) = (
            shown_estimate(q.last_sender),
            shown_estimate(q.last_reflector),
        );
        answer(&[
            refusal,
            q.samples,
            q.both_synchronized,
            q.unsynchronized,
            q.invalid_estimate,
            q.unknown,
            sender[0],
            sender[1],
            reflector[0],
            reflector[1],
            u64::from(q.max_combined_error_ms.is_some()),
            q.max_combined_error_ms.map_or(0, f64::to_bits),
            self.ends.counts[0],
            self.ends.counts[1],
            self.ends.counts[2],
            received(q.last_sender) | received(q.last_reflector) << 16,
        ])
    }

    fn quality(&mut self, call: &Call, cover: &mut Cover) -> Answer {
        let pair = (call[1] != 0).then(|| (unpacked(call[2]), unpacked(call[3])));
        let refusal = self.quality_refusal(cover);
        if refusal != 0 {
            return self.shown_quality(refusal);
        }
        let before = self.quality.clone();
        let ends = self.ends.counts;
        self.quality.told(pair);
        self.ends.told(pair);
        self.ends.held_against(self.quality.invalid_estimate);
        cover.reached_if(
            pair.is_none() && ends == self.ends.counts,
            "quality: unknown raises none of the three",
        );
        self.reached_by_quality(&before, pair, cover);
        self.shown_quality(0)
    }

    fn quality_refusal(&self, cover: &mut Cover) -> u64 {
        let q = &self.quality;
        let counts = [
            (q.samples, "quality: refused 4 for samples"),
            (
                q.both_synchronized,
                "quality: refused 4 for both synchronized",
            ),
            (q.unsynchronized, "quality: refused 4 for unsynchronized"),
            (q.invalid_estimate, "quality: refused 4 for invalid"),
            (q.unknown, "quality: refused 4 for unknown"),
            (
                self.ends.counts[0],
                "quality: refused 4 for invalid at the sender alone",
            ),
            (
                self.ends.counts[1],
                "quality: refused 4 for invalid at the reflector alone",
            ),
            (
                self.ends.counts[2],
                "quality: refused 4 for invalid at both",
            ),
        ];
        for (count, line) in counts {
            if count >= COUNT_BOUND {
                cover.reached(line);
                return COUNTS_FULL;
            }
        }
        0
    }

    fn reached_by_quality(
        &self,
        before: &ClockQuality,
        pair: Option<(ErrorEstimate, ErrorEstimate)>,
        cover: &mut Cover,
    ) {
        let Some((s, r)) = pair else {
            cover.reached("quality: unknown");
            cover.reached_if(
                before.last_sender.is_some(),
                "quality: unknown after a pair clears both estimates",
            );
            return;
        };
        cover.reached_if(
            s.scale > 63,
            "quality: a scale above 63 is invalid at the sender",
        );
        cover.reached_if(
            r.scale > 63,
            "quality: a scale above 63 is invalid at the reflector",
        );
        let valid = |e: ErrorEstimate| e.multiplier != 0 && e.scale <= 63;
        let beside = if valid(s) { s } else { r };
        let alone = valid(s) != valid(r);
        cover.reached_if(
            alone && !beside.synchronized,
            "quality: invalid beside an unsynchronized clock",
        );
        cover.reached_if(
            alone && beside.synchronized,
            "quality: invalid beside a synchronized clock",
        );
        match (valid(s), valid(r)) {
            (false, false) => cover.reached("quality: invalid at both"),
            (false, true) => cover.reached("quality: invalid at the sender alone"),
            (true, false) => cover.reached("quality: invalid at the reflector alone"),
            (true, true) => match (s.synchronized, r.synchronized) {
                (true, true) => cover.reached("quality: both synchronized"),
                (true, false) => cover.reached("quality: sender alone synchronized"),
                (false, true) => cover.reached("quality: reflector alone synchronized"),
                (false, false) => cover.reached("quality: neither synchronized"),
            },
        }
        let (Some(x), Some(y)) = (
            ClockEstimate::from(s).error_ms,
            ClockEstimate::from(r).error_ms,
        ) else {
            return;
        };
        let small = x.min(y);
        cover.reached_if(
            (x + y) - x.max(y) != small,
            "quality: combined error was rounded",
        );
        match before.max_combined_error_ms {
            None => cover.reached("quality: first combined error"),
            Some(m) if x + y > m => cover.reached("quality: larger combined error"),
            Some(_) => cover.reached("quality: combined error not larger"),
        }
    }

    fn load_quality(&mut self, call: &Call) -> Answer {
        self.quality = ClockQuality {
            samples: call[1],
            both_synchronized: call[2],
            unsynchronized: call[3],
            invalid_estimate: call[4],
            unknown: call[5],
            last_sender: None,
            last_reflector: None,
            max_combined_error_ms: (call[6] != 0).then(|| f64::from_bits(call[7])),
        };
        self.ends = Ends::default().loaded(call[4]);
        self.shown_quality(0)
    }
}

fn show(call: &Call) -> String {
    let name = match call[0] {
        FRESH => "fresh",
        WIRE => "from_wire",
        NEW => "new",
        WITH_FORMAT => "with_clock_format",
        UNSYNCHRONIZED => "unsynchronized",
        QUALITY => "quality record",
        LOAD_ENDS => "quality load of the three",
        _ => "quality load",
    };
    format!("{name} {:?}", &call[1..8])
}
