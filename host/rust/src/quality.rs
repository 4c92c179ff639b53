//! Declared clock quality, for hosts that keep one beside the link's own.
use crate::{
    calls::{self, QUALITY_WORDS},
    refusal::{served, Refusal},
    shown::Quality,
};

#[derive(Clone, Debug)]
pub struct ClockQuality {
    pub words: [u64; QUALITY_WORDS],
}

impl ClockQuality {
    #[allow(clippy::new_without_default)]
    pub fn new() -> ClockQuality {
        let mut words = [0; QUALITY_WORDS];
        calls::clock_quality_fresh(&mut words);
        ClockQuality { words }
    }

    /// One sample: the sender's and the reflector's estimate as on the wire, or none.
    pub fn record(&mut self, estimates: Option<(u16, u16)>) -> Result<(), Refusal> {
        let (sender, reflector) = estimates.unwrap_or((0, 0));
        served(calls::clock_quality_record(&mut self.words, estimates.is_some().into(), sender, reflector))
    }

    pub fn summary(&self) -> Quality {
        let mut shown = Quality::default();
        calls::clock_quality_summary(&self.words, &mut shown);
        shown
    }
}
