//! Bit errors on a link: the pattern, the count over a padding, what a reply's items make, and the summary of one direction.
use crate::calls::{self, BitFigures};
use crate::refusal::{served, Refusal};

/// The bytes of a pattern's text: hexadecimal digits, with or without one leading `0x`.
pub fn pattern_of(text: &[u8]) -> Result<Vec<u8>, Refusal> {
    let mut room = vec![0; text.len() / 2];
    let mut length = [0];
    served(calls::parse_pattern(text, &mut room, &mut length))?;
    room.truncate(length[0] as usize);
    Ok(room)
}

/// How many bits of a padding differ from the pattern, repeated, and the longest run of them.
#[derive(Clone, Copy, Debug, PartialEq, Eq)]
pub struct BitErrors {
    pub errors: u32,
    pub longest: u32,
}

pub fn bit_errors(padding: &[u8], pattern: &[u8]) -> Result<BitErrors, Refusal> {
    let mut counts = [0; 2];
    served(calls::bit_errors(padding, pattern, &mut counts))?;
    Ok(BitErrors { errors: counts[0] as u32, longest: counts[1] as u32 })
}

/// An item of the extension area: its header, and where its value begins in the bytes.
#[derive(Clone, Copy, Debug, PartialEq, Eq)]
pub struct Item {
    pub flags: u8,
    pub kind: u8,
    pub length: u16,
    pub start: u32,
}

impl Item {
    pub fn of(word: u64) -> Item {
        Item { flags: (word >> 56) as u8, kind: (word >> 48) as u8, length: (word >> 32) as u16, start: word as u32 }
    }

    pub fn word(self) -> u64 {
        u64::from(self.flags) << 56 | u64::from(self.kind) << 48 | u64::from(self.length) << 32 | u64::from(self.start)
    }
}

/// What a reply's items make.
#[derive(Clone, Copy, Debug, PartialEq, Eq)]
pub enum BitObservation {
    Unusable,
    Unsupported,
    Sample { bits: u64, forward_errors: u32, forward_burst: Option<u32>, reverse_errors: u32, reverse_burst: u32 },
}

/// `items` are the words of [`Item`]s, `size` the padding that is sent.
pub fn bit_observation(items: &[u64], bytes: &[u8], pattern: &[u8], size: usize, intact: bool, wanted: bool) -> Result<BitObservation, Refusal> {
    let mut answer = [0; 7];
    served(calls::bit_observation(items, bytes, pattern, size, intact as u32, wanted as u32, &mut answer))?;
    Ok(match answer[0] {
        0 => BitObservation::Unusable,
        1 => BitObservation::Unsupported,
        _ => BitObservation::Sample {
            bits: answer[1],
            forward_errors: answer[2] as u32,
            forward_burst: (answer[3] != 0).then_some(answer[4] as u32),
            reverse_errors: answer[5] as u32,
            reverse_burst: answer[6] as u32,
        },
    })
}

/// One direction's counts.
#[derive(Clone, Debug, PartialEq, Eq)]
pub struct BitSummary {
    words: [u64; 8],
}

impl BitSummary {
    pub fn new() -> Self {
        let mut words = [0; 8];
        served(calls::bit_summary_fresh(&mut words)).expect("fresh refuses nothing");
        Self { words }
    }

    /// A summary of any words, as a host that kept them hands over.
    pub fn from_words(words: [u64; 8]) -> Self {
        Self { words }
    }

    pub fn words(&self) -> [u64; 8] {
        self.words
    }

    pub fn record(&mut self, bits: u64, errors: u32, burst: Option<u32>) -> Result<(), Refusal> {
        served(calls::bit_summary_record(&mut self.words, bits, errors, burst.is_some() as u32, burst.unwrap_or(0)))
    }

    pub fn show(&self) -> BitFigures {
        let mut shown = BitFigures::default();
        served(calls::bit_summary_show(&self.words, &mut shown)).expect("show refuses nothing");
        shown
    }
}

impl Default for BitSummary {
    fn default() -> Self {
        Self::new()
    }
}
