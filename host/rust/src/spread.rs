//! A series of round trips with its spread and jitter, and one-way delays in both directions.
use crate::{calls, served, Delays, Refusal};

/// Words of the room of a series of round trips.
const ROOM: usize = 11578;
/// Words of the slice of both directions: the forward room, then the reverse one.
const SLICE: usize = 2 * 18804;

/// A series of round trips in ns. Its words are those of `ambrulicciu_spread` in the header.
#[derive(Clone, Debug)]
pub struct Spread {
    pub words: [u64; 12],
    pub room: Vec<u64>,
}

impl Spread {
    #[allow(clippy::new_without_default)]
    pub fn new() -> Spread {
        let mut words = [0; 12];
        calls::spread_fresh(&mut words);
        Spread { words, room: vec![0; ROOM] }
    }

    /// Whether the sample was recorded: not at a count of 2^64-1.
    pub fn record(&mut self, ns: u64) -> Result<bool, Refusal> {
        let mut recorded = [0];
        served(calls::spread_record(&mut self.words, &mut self.room, ns, &mut recorded))?;
        Ok(recorded[0] != 0)
    }

    /// Minimum, average and maximum in ms.
    pub fn show(&self) -> Delays {
        let mut shown = Delays::default();
        calls::spread_show(&self.words, &mut shown);
        shown
    }

    /// The mean absolute successive difference in ns, rounded down, as the header says to take it from the words.
    pub fn jitter_ns(&self) -> Option<u64> {
        let sum = (self.words[8] as u128) << 64 | self.words[9] as u128;
        (self.words[10] > 0).then(|| (sum / self.words[10] as u128) as u64)
    }

    /// The population standard deviation in ns, as the header says to take it from the words.
    pub fn std_dev_ns(&self) -> Option<f64> {
        (self.words[0] >= 2).then(|| (f64::from_bits(self.words[7]) / self.words[0] as f64).max(0.0).sqrt())
    }
}

/// One-way delays in ns, forward and reverse.
#[derive(Clone, Debug)]
pub struct Directions {
    pub words: [u64; 12],
    pub slice: Vec<u64>,
}

impl Directions {
    #[allow(clippy::new_without_default)]
    pub fn new() -> Directions {
        let mut words = [0; 12];
        calls::directions_fresh(&mut words);
        Directions { words, slice: vec![0; SLICE] }
    }

    /// Whether the sample was recorded: not at a count of 2^64-1.
    pub fn record(&mut self, reverse: bool, ns: i64) -> Result<bool, Refusal> {
        let mut recorded = [0];
        served(calls::directions_record(&mut self.words, &mut self.slice, reverse.into(), ns as u64, &mut recorded))?;
        Ok(recorded[0] != 0)
    }

    /// Minimum, average and maximum of a direction in ms.
    pub fn show(&self, reverse: bool) -> Delays {
        let mut shown = Delays::default();
        calls::directions_show(&self.words, reverse.into(), &mut shown);
        shown
    }
}
