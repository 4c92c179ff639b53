//! An error estimate: 16 bits of the wire (RFC 8762, 4.2.1; RFC 4656, 4.1.2).
use crate::{
    calls,
    refusal::{served, Refusal},
};

/// An estimate as on the wire.
#[derive(Clone, Copy, Debug, PartialEq, Eq)]
pub struct Estimate(pub u16);

/// What an estimate without an error is: its 16 bits.
#[derive(Clone, Copy, Debug, PartialEq, Eq)]
pub struct Invalid(pub u16);

/// What the 16 bits say.
#[derive(Clone, Copy, Debug, PartialEq, Eq)]
pub struct Parts {
    pub synchronized: bool,
    pub ptp: bool,
    pub scale: u8,
    pub multiplier: u8,
}

impl Estimate {
    /// Refused with `OutOfRange` for a scale above 63.
    pub fn new(parts: Parts) -> Result<Estimate, Refusal> {
        let mut wire = [0];
        let Parts { synchronized, ptp, scale, multiplier } = parts;
        served(calls::estimate_new(synchronized.into(), ptp.into(), scale, multiplier, &mut wire))?;
        Ok(Estimate(wire[0]))
    }

    /// That of a clock that is not synchronized.
    pub fn unsynchronized(ptp: bool) -> Estimate {
        let mut wire = [0];
        calls::estimate_unsynchronized(ptp.into(), &mut wire);
        Estimate(wire[0])
    }

    pub fn parts(self) -> Parts {
        let mut parts = [0; 4];
        calls::estimate_parts(self.0, &mut parts);
        let [synchronized, ptp, scale, multiplier] = parts;
        Parts { synchronized: synchronized != 0, ptp: ptp != 0, scale: scale as u8, multiplier: multiplier as u8 }
    }

    pub fn seconds(self) -> f64 {
        let mut seconds = [0.0];
        calls::estimate_seconds(self.0, &mut seconds);
        seconds[0]
    }

    /// The error in ms; or the 16 bits at multiplier 0, which is no error of zero.
    pub fn reading(self) -> Result<f64, Invalid> {
        let (mut known, mut error, mut received) = ([0], [0.0], [0]);
        calls::estimate_error(self.0, &mut known, &mut error, &mut received);
        if known[0] != 0 {
            return Ok(error[0]);
        }
        Err(Invalid(received[0]))
    }

    /// In ms. None at multiplier 0.
    pub fn error(self) -> Option<f64> {
        self.reading().ok()
    }
}
