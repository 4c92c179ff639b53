//! The same scripts through the library that hosts link, in this process: the port's side of part `host_quantiles`.
use super::{
    BLOCK, BUCKET, DIGEST, FRESH, LOAD, PART, PERCENTILE, PERCENTILE_SHORT, RECORD, RECORD_SHORT,
    SPOILT, TOTAL,
};
use crate::{digest::Digest, part::Part};
use ambrulicciu::{calls, Value};

pub const HOSTED: Part = Part {
    name: "host_quantiles",
    program: "-",
    here: Some(play),
    ..PART
};

/// What an answer's word holds before the call.
const JUNK: u64 = 0x5a5a_5a5a_5a5a_5a5a;

/// The words of a series (signed, count, minimum, maximum) and its room.
struct Series {
    words: [u64; 4],
    room: Vec<u64>,
}

impl Series {
    fn fresh(signed: bool) -> Self {
        let size = if signed {
            <i64 as Value>::ROOM
        } else {
            <u64 as Value>::ROOM
        };
        let mut words = [u64::MAX; 4];
        calls::quantiles_fresh(&mut words, signed.into());
        // A room may hold anything.
        let room = vec![u64::MAX; size];
        Self { words, room }
    }

    /// The refusal, whether it was recorded or shows a value, and the value.
    fn play(&mut self, call: &[u64]) -> [u64; 3] {
        let lent = self.room.len()
            - if matches!(call[0], RECORD_SHORT | PERCENTILE_SHORT) {
                call[2] as usize
            } else {
                0
            };
        match call[0] {
            FRESH => *self = Self::fresh(call[1] != 0),
            RECORD | RECORD_SHORT => {
                let mut recorded = [0];
                let room = &mut self.room[..lent];
                let number = calls::quantiles_record(&mut self.words, room, call[1], &mut recorded);
                return [number.into(), recorded[0], 0];
            }
            PERCENTILE | PERCENTILE_SHORT => {
                let asked = f64::from_bits(call[1]);
                // Several at once, as many as the last digit says, are each as alone, and all are refused where one is; what is not so is
                // made a difference.
                let percents = [asked, 50.0, 99.0, 0.0, asked, 100.0, 12.5, 99.9, 50.0];
                let percents = &percents[..1 + (call[1] ^ self.words[1]) as usize % 9];
                let (number, present, shown) = self.percentiles(lent, percents);
                let alone: Vec<_> = percents
                    .iter()
                    .map(|p| self.percentiles(lent, &[*p]))
                    .collect();
                let refused = alone.iter().map(|a| a.0).max().unwrap();
                let as_alone = || {
                    alone
                        .iter()
                        .zip(&shown)
                        .all(|(a, v)| (present, vec![*v]) == (a.1, a.2.clone()))
                };
                let untouched = present == 0 && shown.iter().all(|v| *v == JUNK);
                if number != refused || !(if refused == 0 { as_alone() } else { untouched }) {
                    return [u64::MAX; 3];
                }
                let (number, present, shown) = alone[0].clone();
                // What has no value is left as it was, and shown as 0.
                let first = if present == 1 {
                    shown[0]
                } else {
                    shown[0] ^ JUNK
                };
                return [number, present, first];
            }
            LOAD => {
                self.room[4096..].fill(0);
                self.words[1..].copy_from_slice(&call[1..4]);
            }
            BUCKET => {
                let (bucket, totals) = (call[1] as usize, self.totals());
                let more = call[2].wrapping_sub(self.room[4096 + bucket]);
                let total = &mut self.room[totals + bucket / BLOCK];
                *total = total.wrapping_add(more);
                self.room[4096 + bucket] = call[2];
            }
            TOTAL => {
                let at = self.totals() + call[1] as usize;
                self.room[at] = call[2];
            }
            SPOILT => self.room[4096 + call[1] as usize] = call[2],
            _ => panic!("no operation {}", call[0]),
        }
        [0; 3]
    }

    /// Where the totals begin: behind 7,424 buckets, or 14,593.
    fn totals(&self) -> usize {
        4096 + if self.words[0] != 0 { 14_593 } else { 7424 }
    }

    /// The refusal, whether there are values, and the values.
    fn percentiles(&self, lent: usize, percents: &[f64]) -> (u64, u64, Vec<u64>) {
        let (mut shown, mut present) = (vec![JUNK; percents.len()], [JUNK]);
        let number = calls::quantiles_percentiles(
            &self.words,
            &self.room[..lent],
            percents,
            &mut shown,
            &mut present,
        );
        // A refusal leaves the answer as it was.
        if number != 0 && present[0] == JUNK {
            present[0] = 0;
        }
        (number.into(), present[0], shown)
    }

    /// Of the samples in their order, or of each bucket and each total that is not empty with its place.
    fn digest(&self) -> Digest {
        let count = self.words[1] as usize;
        if self.words[1] <= 4096 {
            return self.room[..count].iter().copied().collect();
        }
        let filled = self.room[4096..].iter().enumerate();
        filled
            .filter(|(_, n)| **n > 0)
            .fold(Digest::default(), |d, (i, n)| d.then(i as u64).then(*n))
    }
}

fn play(given: &[u8]) -> Vec<u8> {
    let mut series = Series::fresh(false);
    let mut written = Vec::with_capacity(given.len());
    for bytes in given.chunks_exact(64) {
        let words = bytes.chunks_exact(8);
        let call: Vec<u64> = words
            .map(|b| u64::from_le_bytes(b.try_into().unwrap()))
            .collect();
        let [refusal, flag, value] = series.play(&call);
        let d = if call[DIGEST] == 1 {
            series.digest()
        } else {
            Digest::default()
        };
        let [_, count, min, max] = series.words;
        for word in [refusal, flag, value, count, min, max, d.first, d.second] {
            written.extend_from_slice(&word.to_le_bytes());
        }
    }
    written
}
