//! What a part of the port is to the rig: the original's side of it, its scripts, and the program that plays it on the port.
use crate::{cover::Cover, random::Random};

/// One call: an operation and what it is told. A part's program reads the first `call_words` of them.
pub type Call = [u64; 16];
/// What a call answered and the state that it left. A part's program writes the first `answer_words` of them.
pub type Answer = [u64; 120];
/// Calls from fresh: the first one makes the part fresh.
pub type Script = Vec<Call>;

/// The original's side.
pub trait Original {
    /// Plays a call, or leaves the original alone where document 01 refuses the call. What a host works out between two
    /// calls is filled into the call, for the port.
    fn play(&mut self, call: &mut Call, cover: &mut Cover) -> Answer;
}

pub struct Part {
    pub name: &'static str,
    /// The Rattle program, a crate of the repository; `-` where the part is played in this process.
    pub program: &'static str,
    /// What plays the part in this process, where it needs no program: given a script's words, it writes the answers' words.
    pub here: Option<fn(&[u8]) -> Vec<u8>>,
    pub call_words: usize,
    pub answer_words: usize,
    pub lines: &'static [&'static str],
    pub fresh: fn() -> Box<dyn Original>,
    /// The scripts of one round. Those that cost much are made only where `long`.
    pub scripts: fn(&mut Random, long: bool) -> Vec<Script>,
    /// The scripts of the fixed list that the program's crate replays; none where there is no program.
    pub sample: fn(&mut Random) -> Vec<Script>,
    pub show: fn(&Call) -> String,
    /// The names of the answer's words.
    pub answer: &'static [&'static str],
}

/// A call of an operation with what it is told.
pub fn call(operation: u64, told: &[u64]) -> Call {
    let mut whole = [0; 16];
    whole[0] = operation;
    whole[1..=told.len()].copy_from_slice(told);
    whole
}

/// An answer of these words.
pub fn answer(words: &[u64]) -> Answer {
    let mut whole = [0; 120];
    whole[..words.len()].copy_from_slice(words);
    whole
}

/// An absent value and a present one are told apart by a word of their own.
pub fn maybe(value: Option<u64>) -> [u64; 2] {
    value.map_or([0, 0], |v| [1, v])
}
