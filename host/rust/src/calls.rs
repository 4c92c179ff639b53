//! The calls of `ambrulicciu.h`, one by one: the only module that calls foreign code. Each function hands on what it is lent and returns
//! the call's number: 0 served, else document 01's refusal.
//!
//! Why each is safe: a reference is memory of its type's size, a slice of its length, and mutable ones do not overlap. That is all that the
//! library asks of its caller; every content is allowed, and it keeps nothing after the call.
#![allow(clippy::too_many_arguments)]

use crate::shown::{Delays, Figures, Quality};

/// How many words a ledger has.
pub const LEDGER_WORDS: usize = 80;
/// How many words a clock quality has.
pub const QUALITY_WORDS: usize = 16;

/// Flags of an [`Observation`]: which of its fields are there.
pub const T4: u32 = 1;
pub const ORDINAL: u32 = 2;
pub const COUNTERS: u32 = 4;
pub const FOLLOW_UP: u32 = 8;
pub const ESTIMATES: u32 = 32;
pub const PTP: u32 = 64;
pub const UNKNOWN_MODE: u32 = 128;

/// What one observe is told, field by field as the library reads it.
#[repr(C)]
#[derive(Clone, Copy, Debug, Default, PartialEq, Eq)]
pub struct Observation {
    pub t3: u64,
    pub round_trip: u64,
    pub t4: i64,
    pub reference: i64,
    pub reserved: [u32; 2],
    pub follow_up_timestamp: u64,
    pub sender: u32,
    pub reflector: u32,
    pub ordinal: u32,
    pub s_txc: u32,
    pub r_rxc: u32,
    pub r_txc: u32,
    pub follow_up_sequence: u32,
    pub offset: i32,
    pub sender_estimate: u16,
    pub reflector_estimate: u16,
    pub flags: u32,
    pub unused: [u32; 2],
}

const _: () = assert!(std::mem::size_of::<Observation>() == 24 * 4);

/// What a summary of bit errors shows; a value is 0 where its `_known` is.
#[repr(C)]
#[derive(Clone, Copy, Debug, Default, PartialEq)]
pub struct BitFigures {
    pub packets_received: u64,
    pub packets_with_errors: u64,
    pub padding_bits: u64,
    pub bit_errors: u64,
    pub burst_samples: u64,
    pub max_burst_known: u64,
    pub max_burst_bits: u64,
    pub bit_error_ratio_known: u64,
    pub bit_error_ratio: f64,
    pub bit_errors_per_million_known: u64,
    pub bit_errors_per_million: f64,
    pub packets_with_errors_per_million_known: u64,
    pub packets_with_errors_per_million: f64,
    pub average_max_burst_known: u64,
    pub average_max_burst_bits: f64,
}

const _: () = assert!(std::mem::size_of::<BitFigures>() == 15 * 8);

/// A probe in the monitor's queue; mark 0: its sequence is not marked.
#[repr(C)]
#[derive(Clone, Copy, Debug, Default, PartialEq, Eq)]
pub struct Queued {
    pub sequence: u32,
    pub deadline: u64,
    pub mark: u32,
}

const _: () = assert!(std::mem::size_of::<Queued>() == 24);

/// An entry of a burst: a reply's key, and its pending packet where `pending` is not 0.
#[repr(C)]
#[derive(Clone, Copy, Debug, Default, PartialEq, Eq)]
pub struct Entry {
    pub t3: u64,
    pub sender: u32,
    pub reflector: u32,
    pub pending: u64,
    pub time: u64,
    pub tag: u64,
}

const _: () = assert!(std::mem::size_of::<Entry>() == 5 * 8);

/// What became of an entry: 0 or the number that `accept` refuses it with, and what `accept` answers.
#[repr(C)]
#[derive(Clone, Copy, Debug, Default, PartialEq, Eq)]
pub struct EntryAnswer {
    pub number: u64,
    pub accepted: [u64; 6],
}

const _: () = assert!(std::mem::size_of::<EntryAnswer>() == 7 * 8);

/// What a record of a log says was told to `sent`.
#[repr(C)]
#[derive(Clone, Copy, Debug, Default, PartialEq, Eq)]
pub struct SentCall {
    pub time: u64,
    pub tag: u64,
    pub sequence: u32,
    pub ordinal: u32,
}

/// And to `accept`.
#[repr(C)]
#[derive(Clone, Copy, Debug, Default, PartialEq, Eq)]
pub struct AcceptCall {
    pub t3: u64,
    pub time: u64,
    pub tag: u64,
    pub sender: u32,
    pub reflector: u32,
    pub pending: u32,
    pub unused: u32,
}

/// A record of a log: its kind (0 sent, 1 accept, 2 observe, 3 advance, 4 idle) and what that call was told; the others are zeros.
#[repr(C)]
#[derive(Clone, Copy, Debug, Default, PartialEq, Eq)]
pub struct Call {
    pub kind: u32,
    pub train: u32,
    pub sent: SentCall,
    pub accept: AcceptCall,
    pub observation: Observation,
    pub now: u64,
}

const _: () = assert!(std::mem::size_of::<Call>() == 44 * 4);

extern "C" {
    fn ambrulicciu_version(version: &mut [u32; 1]) -> u8;
    fn ambrulicciu_ledger_fresh(ledger: &mut [u64; LEDGER_WORDS], copies: u16, secret: &[u32; 8]) -> u8;
    fn ambrulicciu_sent(
        ledger: &mut [u64; LEDGER_WORDS],
        probes: *mut [u64; 4],
        probes_length: usize,
        links: *mut [u16; 8],
        links_length: usize,
        sequence: u32,
        ordinal: u32,
        train: u32,
        time: u64,
        tag: u64,
    ) -> u8;
    fn ambrulicciu_accept(
        ledger: &mut [u64; LEDGER_WORDS],
        keys: *mut [u64; 2],
        keys_length: usize,
        slots: *mut [u64; 3],
        slots_length: usize,
        probes: *mut [u64; 4],
        probes_length: usize,
        links: *mut [u16; 8],
        links_length: usize,
        sender: u32,
        reflector: u32,
        t3: u64,
        pending: u32,
        time: u64,
        tag: u64,
        answer: &mut [u64; 6],
    ) -> u8;
    fn ambrulicciu_accept_burst(
        ledger: &mut [u64; LEDGER_WORDS],
        keys: *mut [u64; 2],
        keys_length: usize,
        slots: *mut [u64; 3],
        slots_length: usize,
        probes: *mut [u64; 4],
        probes_length: usize,
        links: *mut [u16; 8],
        links_length: usize,
        entries: *const Entry,
        entries_length: usize,
        answers: *mut EntryAnswer,
        answers_length: usize,
    ) -> u8;
    fn ambrulicciu_observe(
        ledger: &mut [u64; LEDGER_WORDS],
        keys: *const [u64; 2],
        keys_length: usize,
        slots: *mut [u64; 3],
        slots_length: usize,
        offsets: *mut u32,
        offsets_length: usize,
        links: *mut [u16; 8],
        links_length: usize,
        observation: &Observation,
    ) -> u8;
    fn ambrulicciu_answered(
        ledger: &[u64; LEDGER_WORDS],
        probes: *const [u64; 4],
        probes_length: usize,
        links: *const [u16; 8],
        links_length: usize,
        sequence: u32,
        answer: &mut [u64; 1],
    ) -> u8;
    fn ambrulicciu_needs_burst_wait(ledger: &[u64; LEDGER_WORDS], answer: &mut [u64; 1]) -> u8;
    fn ambrulicciu_snapshot(ledger: &[u64; LEDGER_WORDS], shown: &mut Figures) -> u8;
    fn ambrulicciu_watched_sent(
        ledger: &mut [u64; LEDGER_WORDS],
        monitor: &mut [u64; 12],
        probes: *mut [u64; 4],
        probes_length: usize,
        links: *mut [u16; 8],
        links_length: usize,
        queue: *mut Queued,
        queue_length: usize,
        sequence: u32,
        ordinal: u32,
        train: u32,
        time: u64,
        tag: u64,
    ) -> u8;
    fn ambrulicciu_watched_accept(
        ledger: &mut [u64; LEDGER_WORDS],
        monitor: &mut [u64; 12],
        keys: *mut [u64; 2],
        keys_length: usize,
        slots: *mut [u64; 3],
        slots_length: usize,
        probes: *mut [u64; 4],
        probes_length: usize,
        links: *mut [u16; 8],
        links_length: usize,
        queue: *mut Queued,
        queue_length: usize,
        sender: u32,
        reflector: u32,
        t3: u64,
        pending: u32,
        time: u64,
        tag: u64,
        answer: &mut [u64; 6],
    ) -> u8;
    fn ambrulicciu_watched_accept_burst(
        ledger: &mut [u64; LEDGER_WORDS],
        monitor: &mut [u64; 12],
        keys: *mut [u64; 2],
        keys_length: usize,
        slots: *mut [u64; 3],
        slots_length: usize,
        probes: *mut [u64; 4],
        probes_length: usize,
        links: *mut [u16; 8],
        links_length: usize,
        queue: *mut Queued,
        queue_length: usize,
        entries: *const Entry,
        entries_length: usize,
        answers: *mut EntryAnswer,
        answers_length: usize,
    ) -> u8;
    fn ambrulicciu_monitor_fresh(monitor: &mut [u64; 12], threshold: u16, timeout: u64) -> u8;
    fn ambrulicciu_monitor_sent(monitor: &mut [u64; 12], queue: *mut Queued, queue_length: usize, sequence: u32, time: u64) -> u8;
    fn ambrulicciu_monitor_reply(monitor: &mut [u64; 12], queue: *mut Queued, queue_length: usize, sequence: u32) -> u8;
    fn ambrulicciu_monitor_advance(monitor: &mut [u64; 12], queue: *mut Queued, queue_length: usize, time: u64) -> u8;
    fn ambrulicciu_monitor_idle(monitor: &mut [u64; 12]) -> u8;
    fn ambrulicciu_monitor_deadline(monitor: &[u64; 12], queue: *const Queued, queue_length: usize, answer: &mut [u64; 2]) -> u8;
    fn ambrulicciu_monitor_summary(monitor: &[u64; 12], shown: &mut [u64; 6]) -> u8;
    fn ambrulicciu_estimate_new(synchronized: u32, ptp: u32, scale: u8, multiplier: u8, wire: &mut [u16; 1]) -> u8;
    fn ambrulicciu_estimate_unsynchronized(ptp: u32, wire: &mut [u16; 1]) -> u8;
    fn ambrulicciu_estimate_parts(wire: u16, parts: &mut [u64; 4]) -> u8;
    fn ambrulicciu_estimate_seconds(wire: u16, seconds: &mut [f64; 1]) -> u8;
    fn ambrulicciu_estimate_error(wire: u16, known: &mut [u64; 1], milliseconds: &mut [f64; 1], received: &mut [u16; 1]) -> u8;
    fn ambrulicciu_clock_quality_fresh(quality: &mut [u64; QUALITY_WORDS]) -> u8;
    fn ambrulicciu_clock_quality_record(quality: &mut [u64; QUALITY_WORDS], estimated: u32, sender: u16, reflector: u16) -> u8;
    fn ambrulicciu_clock_quality_summary(quality: &[u64; QUALITY_WORDS], shown: &mut Quality) -> u8;
    fn ambrulicciu_parse_pattern(
        text: *const u8,
        text_length: usize,
        room: *mut u8,
        room_length: usize,
        length: &mut [u64; 1],
    ) -> u8;
    fn ambrulicciu_bit_errors(
        padding: *const u8,
        padding_length: usize,
        pattern: *const u8,
        pattern_length: usize,
        counts: &mut [u64; 2],
    ) -> u8;
    fn ambrulicciu_bit_observation(
        items: *const u64,
        items_length: usize,
        bytes: *const u8,
        bytes_length: usize,
        pattern: *const u8,
        pattern_length: usize,
        size: usize,
        intact: u32,
        wanted: u32,
        answer: &mut [u64; 7],
    ) -> u8;
    fn ambrulicciu_area_read(bytes: *const u8, bytes_length: usize, items: *mut u64, items_length: usize, count: &mut [u64; 1]) -> u8;
    fn ambrulicciu_area_write(
        items: *const u64,
        items_length: usize,
        values: *const u8,
        values_length: usize,
        bytes: *mut u8,
        bytes_length: usize,
        length: &mut [u64; 1],
    ) -> u8;
    fn ambrulicciu_counters_read(value: *const u8, value_length: usize, counters: &mut [u32; 3]) -> u8;
    fn ambrulicciu_follow_up_read(value: *const u8, value_length: usize, follow: &mut [u64; 3]) -> u8;
    fn ambrulicciu_counters_write(bytes: *mut u8, bytes_length: usize, sender: u32, received: u32, transmitted: u32) -> u8;
    fn ambrulicciu_follow_up_write(bytes: *mut u8, bytes_length: usize, sequence: u32, timestamp: u64, mode: u8) -> u8;
    fn ambrulicciu_area_observation(bytes: *const u8, bytes_length: usize, observation: &mut Observation) -> u8;
    fn ambrulicciu_bit_summary_fresh(summary: &mut [u64; 8]) -> u8;
    fn ambrulicciu_bit_summary_record(summary: &mut [u64; 8], bits: u64, errors: u32, known: u32, burst: u32) -> u8;
    fn ambrulicciu_bit_summary_show(summary: &[u64; 8], shown: &mut BitFigures) -> u8;
    fn ambrulicciu_spread_fresh(spread: &mut [u64; 12]) -> u8;
    fn ambrulicciu_spread_record(
        spread: &mut [u64; 12],
        room: *mut u64,
        room_length: usize,
        value: u64,
        recorded: &mut [u64; 1],
    ) -> u8;
    fn ambrulicciu_spread_show(spread: &[u64; 12], shown: &mut Delays) -> u8;
    fn ambrulicciu_directions_fresh(directions: &mut [u64; 12]) -> u8;
    fn ambrulicciu_directions_record(
        directions: &mut [u64; 12],
        slice: *mut u64,
        slice_length: usize,
        reverse: u32,
        value: u64,
        recorded: &mut [u64; 1],
    ) -> u8;
    fn ambrulicciu_directions_show(directions: &[u64; 12], reverse: u32, shown: &mut Delays) -> u8;
    fn ambrulicciu_quantiles_fresh(quantiles: &mut [u64; 4], signed: u32) -> u8;
    fn ambrulicciu_quantiles_record(
        quantiles: &mut [u64; 4],
        room: *mut u64,
        room_length: usize,
        value: u64,
        recorded: &mut [u64; 1],
    ) -> u8;
    fn ambrulicciu_quantiles_percentiles(
        quantiles: &[u64; 4],
        room: *const u64,
        room_length: usize,
        percents: *const f64,
        percents_length: usize,
        shown: *mut u64,
        shown_length: usize,
        present: &mut [u64; 1],
    ) -> u8;
    fn ambrulicciu_log_write_sent(bytes: *mut u8, bytes_length: usize, sequence: u32, ordinal: u32, train: u32, time: u64, tag: u64) -> u8;
    fn ambrulicciu_log_write_accept(
        bytes: *mut u8,
        bytes_length: usize,
        sender: u32,
        reflector: u32,
        t3: u64,
        pending: u32,
        time: u64,
        tag: u64,
    ) -> u8;
    fn ambrulicciu_log_write_observe(bytes: *mut u8, bytes_length: usize, observation: &Observation) -> u8;
    fn ambrulicciu_log_write_advance(bytes: *mut u8, bytes_length: usize, time: u64) -> u8;
    fn ambrulicciu_log_write_idle(bytes: *mut u8, bytes_length: usize) -> u8;
    fn ambrulicciu_log_write_trailer(bytes: *mut u8, bytes_length: usize, count: u32, copies: u16, threshold: u16, timeout: u64) -> u8;
    fn ambrulicciu_log_check(log: *const u8, log_length: usize, answer: &mut [u64; 4]) -> u8;
    fn ambrulicciu_log_first_bad(log: *const u8, log_length: usize, answer: &mut [u64; 1]) -> u8;
    fn ambrulicciu_log_read(log: *const u8, log_length: usize, at: u32, call: &mut Call) -> u8;
    fn ambrulicciu_log_trim(
        log: *const u8,
        log_length: usize,
        copies: u16,
        threshold: u16,
        timeout: u64,
        bytes: *mut u8,
        bytes_length: usize,
        answer: &mut [u64; 3],
    ) -> u8;
    fn ambrulicciu_report_log(
        log: *const u8,
        log_length: usize,
        secret: &[u32; 8],
        keys: *mut [u64; 2],
        keys_length: usize,
        slots: *mut [u64; 3],
        slots_length: usize,
        probes: *mut [u64; 4],
        probes_length: usize,
        offsets: *mut u32,
        offsets_length: usize,
        links: *mut [u16; 8],
        links_length: usize,
        queue: *mut Queued,
        queue_length: usize,
        text: *mut u8,
        text_length: usize,
        length: &mut [u64; 1],
    ) -> u8;
    fn ambrulicciu_recount_log(
        log: *const u8,
        log_length: usize,
        marks: *mut u8,
        marks_length: usize,
        fronts: *mut u32,
        fronts_length: usize,
        text: *mut u8,
        text_length: usize,
        length: &mut [u64; 1],
    ) -> u8;
    fn ambrulicciu_report_link(
        ledger: &[u64; LEDGER_WORDS],
        monitor: &[u64; 12],
        watched: u32,
        records: u64,
        turned_away: u64,
        text: *mut u8,
        text_length: usize,
        length: &mut [u64; 1],
    ) -> u8;
}

/// The library's version: 1,000,000 times the first part, 1,000 times the second, and the third.
pub fn version(version: &mut [u32; 1]) -> u8 {
    unsafe { ambrulicciu_version(version) }
}

/// Makes a ledger fresh; its rooms may hold anything.
pub fn ledger_fresh(ledger: &mut [u64; LEDGER_WORDS], copies: u16, secret: &[u32; 8]) -> u8 {
    unsafe { ambrulicciu_ledger_fresh(ledger, copies, secret) }
}

pub fn sent(
    ledger: &mut [u64; LEDGER_WORDS],
    probes: &mut [[u64; 4]],
    links: &mut [[u16; 8]],
    sequence: u32,
    ordinal: u32,
    train: u32,
    time: u64,
    tag: u64,
) -> u8 {
    unsafe { ambrulicciu_sent(ledger, probes.as_mut_ptr(), probes.len(), links.as_mut_ptr(), links.len(), sequence, ordinal, train, time, tag) }
}

/// Answer: class (0 unknown, 1 duplicate, 2 unique), time, tag, 1 if there is an ordinal, ordinal, train.
pub fn accept(
    ledger: &mut [u64; LEDGER_WORDS],
    keys: &mut [[u64; 2]],
    slots: &mut [[u64; 3]],
    probes: &mut [[u64; 4]],
    links: &mut [[u16; 8]],
    sender: u32,
    reflector: u32,
    t3: u64,
    pending: u32,
    time: u64,
    tag: u64,
    answer: &mut [u64; 6],
) -> u8 {
    unsafe {
        ambrulicciu_accept(
            ledger,
            keys.as_mut_ptr(),
            keys.len(),
            slots.as_mut_ptr(),
            slots.len(),
            probes.as_mut_ptr(),
            probes.len(),
            links.as_mut_ptr(),
            links.len(),
            sender,
            reflector,
            t3,
            pending,
            time,
            tag,
            answer,
        )
    }
}

/// `accept` for each entry; answers: a row for each, the entry's number and what `accept` answers.
pub fn accept_burst(
    ledger: &mut [u64; LEDGER_WORDS],
    keys: &mut [[u64; 2]],
    slots: &mut [[u64; 3]],
    probes: &mut [[u64; 4]],
    links: &mut [[u16; 8]],
    entries: &[Entry],
    answers: &mut [EntryAnswer],
) -> u8 {
    unsafe {
        ambrulicciu_accept_burst(
            ledger,
            keys.as_mut_ptr(),
            keys.len(),
            slots.as_mut_ptr(),
            slots.len(),
            probes.as_mut_ptr(),
            probes.len(),
            links.as_mut_ptr(),
            links.len(),
            entries.as_ptr(),
            entries.len(),
            answers.as_mut_ptr(),
            answers.len(),
        )
    }
}

pub fn observe(
    ledger: &mut [u64; LEDGER_WORDS],
    keys: &[[u64; 2]],
    slots: &mut [[u64; 3]],
    offsets: &mut [u32],
    links: &mut [[u16; 8]],
    observation: &Observation,
) -> u8 {
    unsafe {
        ambrulicciu_observe(
            ledger,
            keys.as_ptr(),
            keys.len(),
            slots.as_mut_ptr(),
            slots.len(),
            offsets.as_mut_ptr(),
            offsets.len(),
            links.as_mut_ptr(),
            links.len(),
            observation,
        )
    }
}

pub fn answered(ledger: &[u64; LEDGER_WORDS], probes: &[[u64; 4]], links: &[[u16; 8]], sequence: u32, answer: &mut [u64; 1]) -> u8 {
    unsafe { ambrulicciu_answered(ledger, probes.as_ptr(), probes.len(), links.as_ptr(), links.len(), sequence, answer) }
}

pub fn needs_burst_wait(ledger: &[u64; LEDGER_WORDS], answer: &mut [u64; 1]) -> u8 {
    unsafe { ambrulicciu_needs_burst_wait(ledger, answer) }
}

pub fn snapshot(ledger: &[u64; LEDGER_WORDS], shown: &mut Figures) -> u8 {
    unsafe { ambrulicciu_snapshot(ledger, shown) }
}

pub fn watched_sent(
    ledger: &mut [u64; LEDGER_WORDS],
    monitor: &mut [u64; 12],
    probes: &mut [[u64; 4]],
    links: &mut [[u16; 8]],
    queue: &mut [Queued],
    sequence: u32,
    ordinal: u32,
    train: u32,
    time: u64,
    tag: u64,
) -> u8 {
    unsafe {
        ambrulicciu_watched_sent(
            ledger,
            monitor,
            probes.as_mut_ptr(),
            probes.len(),
            links.as_mut_ptr(),
            links.len(),
            queue.as_mut_ptr(),
            queue.len(),
            sequence,
            ordinal,
            train,
            time,
            tag,
        )
    }
}

pub fn watched_accept(
    ledger: &mut [u64; LEDGER_WORDS],
    monitor: &mut [u64; 12],
    keys: &mut [[u64; 2]],
    slots: &mut [[u64; 3]],
    probes: &mut [[u64; 4]],
    links: &mut [[u16; 8]],
    queue: &mut [Queued],
    sender: u32,
    reflector: u32,
    t3: u64,
    pending: u32,
    time: u64,
    tag: u64,
    answer: &mut [u64; 6],
) -> u8 {
    unsafe {
        ambrulicciu_watched_accept(
            ledger,
            monitor,
            keys.as_mut_ptr(),
            keys.len(),
            slots.as_mut_ptr(),
            slots.len(),
            probes.as_mut_ptr(),
            probes.len(),
            links.as_mut_ptr(),
            links.len(),
            queue.as_mut_ptr(),
            queue.len(),
            sender,
            reflector,
            t3,
            pending,
            time,
            tag,
            answer,
        )
    }
}

pub fn watched_accept_burst(
    ledger: &mut [u64; LEDGER_WORDS],
    monitor: &mut [u64; 12],
    keys: &mut [[u64; 2]],
    slots: &mut [[u64; 3]],
    probes: &mut [[u64; 4]],
    links: &mut [[u16; 8]],
    queue: &mut [Queued],
    entries: &[Entry],
    answers: &mut [EntryAnswer],
) -> u8 {
    unsafe {
        ambrulicciu_watched_accept_burst(
            ledger,
            monitor,
            keys.as_mut_ptr(),
            keys.len(),
            slots.as_mut_ptr(),
            slots.len(),
            probes.as_mut_ptr(),
            probes.len(),
            links.as_mut_ptr(),
            links.len(),
            queue.as_mut_ptr(),
            queue.len(),
            entries.as_ptr(),
            entries.len(),
            answers.as_mut_ptr(),
            answers.len(),
        )
    }
}

pub fn monitor_fresh(monitor: &mut [u64; 12], threshold: u16, timeout: u64) -> u8 {
    unsafe { ambrulicciu_monitor_fresh(monitor, threshold, timeout) }
}

pub fn monitor_sent(monitor: &mut [u64; 12], queue: &mut [Queued], sequence: u32, time: u64) -> u8 {
    unsafe { ambrulicciu_monitor_sent(monitor, queue.as_mut_ptr(), queue.len(), sequence, time) }
}

pub fn monitor_reply(monitor: &mut [u64; 12], queue: &mut [Queued], sequence: u32) -> u8 {
    unsafe { ambrulicciu_monitor_reply(monitor, queue.as_mut_ptr(), queue.len(), sequence) }
}

pub fn monitor_advance(monitor: &mut [u64; 12], queue: &mut [Queued], time: u64) -> u8 {
    unsafe { ambrulicciu_monitor_advance(monitor, queue.as_mut_ptr(), queue.len(), time) }
}

pub fn monitor_idle(monitor: &mut [u64; 12]) -> u8 {
    unsafe { ambrulicciu_monitor_idle(monitor) }
}

/// Answer: 1 if there is one, the deadline.
pub fn monitor_deadline(monitor: &[u64; 12], queue: &[Queued], answer: &mut [u64; 2]) -> u8 {
    unsafe { ambrulicciu_monitor_deadline(monitor, queue.as_ptr(), queue.len(), answer) }
}

/// Shown: state (0 idle, 1 active, 2 failed), threshold, losses in a row, and how often it became active, failed, idle.
pub fn monitor_summary(monitor: &[u64; 12], shown: &mut [u64; 6]) -> u8 {
    unsafe { ambrulicciu_monitor_summary(monitor, shown) }
}

pub fn estimate_new(synchronized: u32, ptp: u32, scale: u8, multiplier: u8, wire: &mut [u16; 1]) -> u8 {
    unsafe { ambrulicciu_estimate_new(synchronized, ptp, scale, multiplier, wire) }
}

pub fn estimate_unsynchronized(ptp: u32, wire: &mut [u16; 1]) -> u8 {
    unsafe { ambrulicciu_estimate_unsynchronized(ptp, wire) }
}

/// Parts: synchronized, PTP, scale, multiplier.
pub fn estimate_parts(wire: u16, parts: &mut [u64; 4]) -> u8 {
    unsafe { ambrulicciu_estimate_parts(wire, parts) }
}

pub fn estimate_seconds(wire: u16, seconds: &mut [f64; 1]) -> u8 {
    unsafe { ambrulicciu_estimate_seconds(wire, seconds) }
}

pub fn estimate_error(wire: u16, known: &mut [u64; 1], milliseconds: &mut [f64; 1], received: &mut [u16; 1]) -> u8 {
    unsafe { ambrulicciu_estimate_error(wire, known, milliseconds, received) }
}

pub fn clock_quality_fresh(quality: &mut [u64; QUALITY_WORDS]) -> u8 {
    unsafe { ambrulicciu_clock_quality_fresh(quality) }
}

pub fn clock_quality_record(quality: &mut [u64; QUALITY_WORDS], estimated: u32, sender: u16, reflector: u16) -> u8 {
    unsafe { ambrulicciu_clock_quality_record(quality, estimated, sender, reflector) }
}

pub fn clock_quality_summary(quality: &[u64; QUALITY_WORDS], shown: &mut Quality) -> u8 {
    unsafe { ambrulicciu_clock_quality_summary(quality, shown) }
}

pub fn parse_pattern(text: &[u8], room: &mut [u8], length: &mut [u64; 1]) -> u8 {
    unsafe { ambrulicciu_parse_pattern(text.as_ptr(), text.len(), room.as_mut_ptr(), room.len(), length) }
}

pub fn area_read(bytes: &[u8], items: &mut [u64], count: &mut [u64; 1]) -> u8 {
    unsafe { ambrulicciu_area_read(bytes.as_ptr(), bytes.len(), items.as_mut_ptr(), items.len(), count) }
}

pub fn area_write(items: &[u64], values: &[u8], bytes: &mut [u8], length: &mut [u64; 1]) -> u8 {
    unsafe { ambrulicciu_area_write(items.as_ptr(), items.len(), values.as_ptr(), values.len(), bytes.as_mut_ptr(), bytes.len(), length) }
}

pub fn counters_read(value: &[u8], counters: &mut [u32; 3]) -> u8 {
    unsafe { ambrulicciu_counters_read(value.as_ptr(), value.len(), counters) }
}

pub fn follow_up_read(value: &[u8], follow: &mut [u64; 3]) -> u8 {
    unsafe { ambrulicciu_follow_up_read(value.as_ptr(), value.len(), follow) }
}

pub fn counters_write(bytes: &mut [u8], sender: u32, received: u32, transmitted: u32) -> u8 {
    unsafe { ambrulicciu_counters_write(bytes.as_mut_ptr(), bytes.len(), sender, received, transmitted) }
}

pub fn follow_up_write(bytes: &mut [u8], sequence: u32, timestamp: u64, mode: u8) -> u8 {
    unsafe { ambrulicciu_follow_up_write(bytes.as_mut_ptr(), bytes.len(), sequence, timestamp, mode) }
}

pub fn area_observation(bytes: &[u8], observation: &mut Observation) -> u8 {
    unsafe { ambrulicciu_area_observation(bytes.as_ptr(), bytes.len(), observation) }
}

pub fn bit_errors(padding: &[u8], pattern: &[u8], counts: &mut [u64; 2]) -> u8 {
    unsafe { ambrulicciu_bit_errors(padding.as_ptr(), padding.len(), pattern.as_ptr(), pattern.len(), counts) }
}

pub fn bit_observation(items: &[u64], bytes: &[u8], pattern: &[u8], size: usize, intact: u32, wanted: u32, answer: &mut [u64; 7]) -> u8 {
    unsafe {
        ambrulicciu_bit_observation(
            items.as_ptr(),
            items.len(),
            bytes.as_ptr(),
            bytes.len(),
            pattern.as_ptr(),
            pattern.len(),
            size,
            intact,
            wanted,
            answer,
        )
    }
}

pub fn bit_summary_fresh(summary: &mut [u64; 8]) -> u8 {
    unsafe { ambrulicciu_bit_summary_fresh(summary) }
}

pub fn bit_summary_record(summary: &mut [u64; 8], bits: u64, errors: u32, known: u32, burst: u32) -> u8 {
    unsafe { ambrulicciu_bit_summary_record(summary, bits, errors, known, burst) }
}

pub fn bit_summary_show(summary: &[u64; 8], shown: &mut BitFigures) -> u8 {
    unsafe { ambrulicciu_bit_summary_show(summary, shown) }
}

pub fn spread_fresh(spread: &mut [u64; 12]) -> u8 {
    unsafe { ambrulicciu_spread_fresh(spread) }
}

pub fn spread_record(spread: &mut [u64; 12], room: &mut [u64], value: u64, recorded: &mut [u64; 1]) -> u8 {
    unsafe { ambrulicciu_spread_record(spread, room.as_mut_ptr(), room.len(), value, recorded) }
}

pub fn spread_show(spread: &[u64; 12], shown: &mut Delays) -> u8 {
    unsafe { ambrulicciu_spread_show(spread, shown) }
}

pub fn directions_fresh(directions: &mut [u64; 12]) -> u8 {
    unsafe { ambrulicciu_directions_fresh(directions) }
}

pub fn directions_record(directions: &mut [u64; 12], slice: &mut [u64], reverse: u32, value: u64, recorded: &mut [u64; 1]) -> u8 {
    unsafe { ambrulicciu_directions_record(directions, slice.as_mut_ptr(), slice.len(), reverse, value, recorded) }
}

pub fn directions_show(directions: &[u64; 12], reverse: u32, shown: &mut Delays) -> u8 {
    unsafe { ambrulicciu_directions_show(directions, reverse, shown) }
}

pub fn quantiles_fresh(quantiles: &mut [u64; 4], signed: u32) -> u8 {
    unsafe { ambrulicciu_quantiles_fresh(quantiles, signed) }
}

pub fn quantiles_record(quantiles: &mut [u64; 4], room: &mut [u64], value: u64, recorded: &mut [u64; 1]) -> u8 {
    unsafe { ambrulicciu_quantiles_record(quantiles, room.as_mut_ptr(), room.len(), value, recorded) }
}

pub fn quantiles_percentiles(quantiles: &[u64; 4], room: &[u64], percents: &[f64], shown: &mut [u64], present: &mut [u64; 1]) -> u8 {
    unsafe {
        ambrulicciu_quantiles_percentiles(
            quantiles,
            room.as_ptr(),
            room.len(),
            percents.as_ptr(),
            percents.len(),
            shown.as_mut_ptr(),
            shown.len(),
            present,
        )
    }
}

pub fn log_write_sent(bytes: &mut [u8], sequence: u32, ordinal: u32, train: u32, time: u64, tag: u64) -> u8 {
    unsafe { ambrulicciu_log_write_sent(bytes.as_mut_ptr(), bytes.len(), sequence, ordinal, train, time, tag) }
}

pub fn log_write_accept(bytes: &mut [u8], sender: u32, reflector: u32, t3: u64, pending: u32, time: u64, tag: u64) -> u8 {
    unsafe { ambrulicciu_log_write_accept(bytes.as_mut_ptr(), bytes.len(), sender, reflector, t3, pending, time, tag) }
}

pub fn log_write_observe(bytes: &mut [u8], observation: &Observation) -> u8 {
    unsafe { ambrulicciu_log_write_observe(bytes.as_mut_ptr(), bytes.len(), observation) }
}

pub fn log_write_advance(bytes: &mut [u8], time: u64) -> u8 {
    unsafe { ambrulicciu_log_write_advance(bytes.as_mut_ptr(), bytes.len(), time) }
}

pub fn log_write_idle(bytes: &mut [u8]) -> u8 {
    unsafe { ambrulicciu_log_write_idle(bytes.as_mut_ptr(), bytes.len()) }
}

pub fn log_write_trailer(bytes: &mut [u8], count: u32, copies: u16, threshold: u16, timeout: u64) -> u8 {
    unsafe { ambrulicciu_log_write_trailer(bytes.as_mut_ptr(), bytes.len(), count, copies, threshold, timeout) }
}

/// Answer: count, copies, threshold, timeout.
pub fn log_check(log: &[u8], answer: &mut [u64; 4]) -> u8 {
    unsafe { ambrulicciu_log_check(log.as_ptr(), log.len(), answer) }
}

pub fn log_first_bad(log: &[u8], answer: &mut [u64; 1]) -> u8 {
    unsafe { ambrulicciu_log_first_bad(log.as_ptr(), log.len(), answer) }
}

pub fn log_read(log: &[u8], at: u32, call: &mut Call) -> u8 {
    unsafe { ambrulicciu_log_read(log.as_ptr(), log.len(), at, call) }
}

/// Answer: kept, stop, dropped.
pub fn log_trim(log: &[u8], copies: u16, threshold: u16, timeout: u64, bytes: &mut [u8], answer: &mut [u64; 3]) -> u8 {
    unsafe { ambrulicciu_log_trim(log.as_ptr(), log.len(), copies, threshold, timeout, bytes.as_mut_ptr(), bytes.len(), answer) }
}

pub fn report_log(
    log: &[u8],
    secret: &[u32; 8],
    keys: &mut [[u64; 2]],
    slots: &mut [[u64; 3]],
    probes: &mut [[u64; 4]],
    offsets: &mut [u32],
    links: &mut [[u16; 8]],
    queue: &mut [Queued],
    text: &mut [u8],
    length: &mut [u64; 1],
) -> u8 {
    unsafe {
        ambrulicciu_report_log(
            log.as_ptr(),
            log.len(),
            secret,
            keys.as_mut_ptr(),
            keys.len(),
            slots.as_mut_ptr(),
            slots.len(),
            probes.as_mut_ptr(),
            probes.len(),
            offsets.as_mut_ptr(),
            offsets.len(),
            links.as_mut_ptr(),
            links.len(),
            queue.as_mut_ptr(),
            queue.len(),
            text.as_mut_ptr(),
            text.len(),
            length,
        )
    }
}

pub fn recount_log(log: &[u8], marks: &mut [u8], fronts: &mut [u32], text: &mut [u8], length: &mut [u64; 1]) -> u8 {
    unsafe {
        ambrulicciu_recount_log(
            log.as_ptr(),
            log.len(),
            marks.as_mut_ptr(),
            marks.len(),
            fronts.as_mut_ptr(),
            fronts.len(),
            text.as_mut_ptr(),
            text.len(),
            length,
        )
    }
}

pub fn report_link(
    ledger: &[u64; LEDGER_WORDS],
    monitor: &[u64; 12],
    watched: u32,
    records: u64,
    turned_away: u64,
    text: &mut [u8],
    length: &mut [u64; 1],
) -> u8 {
    unsafe { ambrulicciu_report_link(ledger, monitor, watched, records, turned_away, text.as_mut_ptr(), text.len(), length) }
}
