//! A series of values and its percentiles.
use crate::{
    calls,
    refusal::{served, Refusal},
};
use std::marker::PhantomData;

/// What a series can be of: u64, or i64 as its two's complement word.
pub trait Value: Copy {
    const SIGNED: bool;
    const ROOM: usize;
    fn word(self) -> u64;
    fn of(word: u64) -> Self;
}

impl Value for u64 {
    const SIGNED: bool = false;
    const ROOM: usize = 11578;
    fn word(self) -> u64 {
        self
    }
    fn of(word: u64) -> u64 {
        word
    }
}

impl Value for i64 {
    const SIGNED: bool = true;
    const ROOM: usize = 18804;
    fn word(self) -> u64 {
        self as u64
    }
    fn of(word: u64) -> i64 {
        word as i64
    }
}

/// Up to 4,096 samples percentiles are exact; beyond, they are those of a histogram.
#[derive(Clone, Debug)]
pub struct Quantiles<T> {
    pub words: [u64; 4],
    pub room: Vec<u64>,
    of: PhantomData<T>,
}

impl<T: Value> Quantiles<T> {
    #[allow(clippy::new_without_default)]
    pub fn new() -> Quantiles<T> {
        let mut words = [0; 4];
        calls::quantiles_fresh(&mut words, T::SIGNED.into());
        Quantiles { words, room: vec![0; T::ROOM], of: PhantomData }
    }

    /// Whether the sample was recorded: not at a count of 2^64-1.
    pub fn record(&mut self, value: T) -> Result<bool, Refusal> {
        let mut recorded = [0];
        served(calls::quantiles_record(&mut self.words, &mut self.room, value.word(), &mut recorded))?;
        Ok(recorded[0] != 0)
    }

    /// The value of each percentile, or none where there is no sample.
    pub fn percentiles<const N: usize>(&self, percents: [f64; N]) -> Result<Option<[T; N]>, Refusal> {
        let (mut shown, mut present) = ([0; N], [0]);
        served(calls::quantiles_percentiles(&self.words, &self.room, &percents, &mut shown, &mut present))?;
        Ok((present[0] != 0).then(|| shown.map(T::of)))
    }
}
