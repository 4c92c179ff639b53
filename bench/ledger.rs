// src/sender/measurements.rs: the calls of a link. Two kinds of tables: full ones, and few entries: a link from fresh, made fresh again after
// 500 probes. The stream is an ordinary one: each probe has one reply, each reply is observed, with counters and a follow-up for the reply
// before. Both sides must show the same figures in the end.
use crate::{
    sender::measurements::Timed,
    stopwatch::Stopwatch,
    table::Table,
};
use ambrulicciu::{
    calls::{self, Entry, EntryAnswer, Observation, LEDGER_WORDS},
    Figures, Link, ROWS,
};
use std::hint::black_box;

const SECRET: [u32; 8] = [2654435761, 2246822519, 3266489917, 668265263, 374761393, 2166136261, 16777619, 2747636419];
const FEW: u64 = 500;
pub const FULL: u64 = 5000;

pub struct Ours {
    link: Link,
    answer: [u64; 6],
}

impl Ours {
    fn new() -> Ours {
        Ours { link: Link::new(1, &SECRET), answer: [0; 6] }
    }

    pub fn watched() -> Ours {
        Ours { link: Link::watched(1, &SECRET, 3, 1_000_000_000), ..Ours::new() }
    }

    pub fn sent(&mut self, sequence: u32, ordinal: u32, tag: u64) {
        let Link { ledger, rooms, watch } = &mut self.link;
        let number = match watch {
            None => calls::sent(ledger, &mut rooms.probes, &mut rooms.links, sequence, ordinal, 0, tag, tag),
            Some(w) => {
                calls::watched_sent(ledger, &mut w.monitor, &mut rooms.probes, &mut rooms.links, &mut w.queue, sequence, ordinal, 0, tag, tag)
            }
        };
        assert_eq!(number, 0);
    }

    pub fn accept(&mut self, sender: u32, reflector: u32, t3: u64) -> bool {
        let Link { ledger, rooms: r, watch } = &mut self.link;
        let (keys, slots, probes, links) = (&mut r.keys, &mut r.slots, &mut r.probes, &mut r.links);
        let answer = &mut self.answer;
        let number = match watch {
            None => calls::accept(ledger, keys, slots, probes, links, sender, reflector, t3, 0, 0, 0, answer),
            Some(w) => {
                let (monitor, queue) = (&mut w.monitor, &mut w.queue);
                calls::watched_accept(ledger, monitor, keys, slots, probes, links, queue, sender, reflector, t3, 0, 0, 0, answer)
            }
        };
        assert_eq!(number, 0);
        self.answer[0] == 2
    }

    fn hand_over(&mut self, told: &Observation) {
        let Link { ledger, rooms: r, .. } = &mut self.link;
        assert_eq!(calls::observe(ledger, &r.keys, &mut r.slots, &mut r.offsets, &mut r.links, told), 0);
    }

    pub fn observe(&mut self, words: &[u64; 12]) {
        self.hand_over(black_box(&told_of(words)));
    }

    fn answered(&self, sequence: u32) -> bool {
        let mut answer = [0];
        assert_eq!(calls::answered(&self.link.ledger, &self.link.rooms.probes, &self.link.rooms.links, sequence, &mut answer), 0);
        answer[0] == 1
    }
}

// T3 of reply i: a second later each, and up to a millisecond as good as drawn. Keys whose T3 came in a regular order would be spread evenly over
// the chains, and a walk's length be guessed right, which no wire's timestamps give.
#[inline(always)]
pub fn t3(i: u64) -> u64 {
    (i << 32) + (i.wrapping_mul(0x9E37_79B9_7F4A_7C15) >> 44)
}

// What the observe of reply i is told, in plain words: numbers, T3, round trip, T4, reference, ordinal, counters in two words, the follow-up's
// sequence and timestamp, 1 if there are no counters and no follow-up, the estimates as on the wire.
pub fn words(sender: u32, i: u64, bare: bool) -> [u64; 12] {
    let n = u64::from(i as u32);
    let timestamp = (1_790_000_000 << 32) + i % 1000;
    let (numbers, rtt, before) = (u64::from(sender) | n << 32, 20_000_000 + i % 1000, u64::from((i as u32).wrapping_sub(1)));
    [numbers, t3(i), rtt, 1_790_000_000_000_000_000, 1_790_000_000, n, n | n << 32, n, before, timestamp, u64::from(bare), 0xcb09_ca07]
}

fn told_of(w: &[u64; 12]) -> Observation {
    let there = if w[10] == 0 { calls::COUNTERS | calls::FOLLOW_UP } else { 0 };
    Observation {
        t3: w[1],
        round_trip: w[2],
        t4: w[3] as i64,
        reference: w[4] as i64,
        follow_up_timestamp: w[9],
        sender: w[0] as u32,
        reflector: (w[0] >> 32) as u32,
        ordinal: w[5] as u32,
        s_txc: w[6] as u32,
        r_rxc: (w[6] >> 32) as u32,
        r_txc: w[7] as u32,
        follow_up_sequence: w[8] as u32,
        sender_estimate: w[11] as u16,
        reflector_estimate: (w[11] >> 16) as u16,
        flags: calls::T4 | calls::ORDINAL | calls::ESTIMATES | calls::PTP | there,
        ..Observation::default()
    }
}

// What is called, on either side, at full tables.
#[derive(Clone, Copy, PartialEq)]
enum Stream {
    Unique,
    Duplicate,
    Unknown,
    New,
    Held(u64),
    Observed,
    Three,
}

// One turn of a stream; i counts the turns from 1.
macro_rules! turn {
    ($ledger:expr, $stream:expr, $i:expr) => {{
        let n = $i as u32;
        let held = 3000 + n % 2000;
        match $stream {
            Stream::Unique => assert!($ledger.accept(held, n, t3($i))),
            Stream::Duplicate => assert!(!$ledger.accept(held, held, t3(u64::from(held)))),
            Stream::Unknown => assert!(!$ledger.accept(n + 1_000_000, n, t3($i))),
            Stream::New => $ledger.sent(n, n, $i),
            Stream::Held(distance) => $ledger.sent((FULL - $i % distance) as u32, n, $i),
            Stream::Observed => {
                assert!($ledger.accept(held, n, t3($i)));
                $ledger.observe(black_box(&words(held, $i, false)));
            }
            Stream::Three => {
                $ledger.sent(n, n, $i);
                assert!($ledger.accept(n, n, t3($i)));
                $ledger.observe(black_box(&words(n, $i, false)));
            }
        }
    }};
}

pub fn rows(table: &mut Table) {
    fresh(table);
    for few in [true, false] {
        alone(table, few);
    }
    full(table);
    bursts(table);
    watched(table);
    readers(table);
}

fn fresh(table: &mut Table) {
    let mut ledger = [0; LEDGER_WORDS];
    let mut original = Timed::new(1);
    table.row(
        "`ledger_fresh`",
        1000,
        1,
        || {
            calls::ledger_fresh(black_box(&mut ledger), 1, &SECRET);
        },
        || {
            black_box(&mut original).fresh(black_box(1));
        },
    );
}

// Each call of an ordinary turn between stamps.
fn alone(table: &mut Table, few: bool) {
    for (which, name) in ["`sent`", "`accept`, unique", "`observe`, all that it can be told", "`observe`, a round trip"].iter().enumerate() {
        let (mut ours, mut original) = (Ours::new(), Timed::new(1));
        let (mut i, mut j) = (0u64, 0u64);
        let mut ours_turn = |watch: &mut Stopwatch| {
            i += 1;
            if few && i % FEW == 0 {
                calls::ledger_fresh(&mut ours.link.ledger, 1, &SECRET);
            }
            let (n, i) = (i as u32, i);
            let told = told_of(&words(n, i, which == 3));
            timed(watch, which == 0, || ours.sent(black_box(n), n, i));
            assert!(timed(watch, which == 1, || ours.accept(black_box(n), n, t3(i))));
            timed(watch, which > 1, || ours.hand_over(black_box(&told)));
        };
        let mut original_turn = |watch: &mut Stopwatch| {
            j += 1;
            if few && j % FEW == 0 {
                original.fresh(1);
            }
            let (n, j) = (j as u32, j);
            let told = words(n, j, which == 3);
            timed(watch, which == 0, || original.sent(black_box(n), n, j));
            assert!(timed(watch, which == 1, || original.accept(black_box(n), n, t3(j))));
            timed(watch, which > 1, || original.observe(black_box(&told)));
        };
        let mut idle = Stopwatch::new();
        for _ in 0..if few { 1 } else { FULL } {
            ours_turn(&mut idle);
            original_turn(&mut idle);
        }
        let name = format!("{name}; {}", if few { "few entries" } else { "full tables" });
        table.stamped(&name, 10_000, ours_turn, Some(&mut original_turn));
    }
}

fn timed<T>(watch: &mut Stopwatch, is: bool, call: impl FnOnce() -> T) -> T {
    if is {
        watch.around(call)
    } else {
        call()
    }
}

// Calls one after the other, so that one starts while the one before is still at work.
fn full(table: &mut Table) {
    let streams = [
        ("`sent` of a new sequence", Stream::New, 20_000),
        ("`sent` of a held sequence, the newest", Stream::Held(1), 300),
        ("`sent` of a held sequence, in the middle", Stream::Held(2048), 300),
        ("`sent` of a held sequence, the oldest", Stream::Held(4096), 300),
        ("`accept`, unique, none observed", Stream::Unique, 20_000),
        ("`accept`, duplicate", Stream::Duplicate, 20_000),
        ("`accept`, unknown", Stream::Unknown, 20_000),
        ("`accept`, `observe`", Stream::Observed, 20_000),
        ("`sent` and these", Stream::Three, 20_000),
    ];
    for (name, stream, times) in streams {
        let (mut ours, mut original) = (Ours::new(), Timed::new(1));
        // No reply of the stream of unique ones is observed, so none of its start is.
        let start = if stream == Stream::Unique { Stream::New } else { Stream::Three };
        for i in 1..=FULL {
            turn!(ours, start, i);
            turn!(original, start, i);
        }
        let (mut i, mut j) = (FULL, FULL);
        if let Stream::Held(distance) = stream {
            // Once round, so that each sequence stands where it was sent so many calls before.
            for _ in 0..distance {
                i += 1;
                j += 1;
                turn!(ours, stream, i);
                turn!(original, stream, j);
            }
        }
        table.row(
            &format!("{name}, in a row; full tables"),
            times,
            1,
            || {
                i += 1;
                turn!(ours, stream, black_box(i));
            },
            || {
                j += 1;
                turn!(original, stream, black_box(j));
            },
        );
        same(&ours, &original);
    }
}

// The stream of unique replies by lists: the entries are filled in the time that is measured, and a list's time is shared by its entries.
fn bursts(table: &mut Table) {
    for count in [1, 8, 64, 256] {
        let (mut ours, mut original) = (Ours::new(), Timed::new(1));
        for i in 1..=FULL {
            turn!(ours, Stream::New, i);
            turn!(original, Stream::New, i);
        }
        let (mut i, mut j) = (FULL, FULL);
        let (mut entries, mut answers) = (vec![Entry::default(); count], vec![EntryAnswer::default(); count]);
        table.row(
            &format!("`accept_burst` of {count}, unique, none observed, each; full tables"),
            20_000 / count,
            count,
            || {
                for entry in &mut entries {
                    i += 1;
                    let n = i as u32;
                    *entry = Entry { t3: t3(i), sender: 3000 + n % 2000, reflector: n, ..Entry::default() };
                }
                let Link { ledger, rooms: r, .. } = &mut ours.link;
                let entries = black_box(&entries);
                assert_eq!(calls::accept_burst(ledger, &mut r.keys, &mut r.slots, &mut r.probes, &mut r.links, entries, &mut answers), 0);
                assert!(answers.iter().all(|a| a.number == 0 && a.accepted[0] == 2));
            },
            || {
                for _ in 0..count {
                    j += 1;
                    turn!(original, Stream::Unique, black_box(j));
                }
            },
        );
        same(&ours, &original);
    }
}

// With a monitor, whose queue the probe of the turn is in.
fn watched(table: &mut Table) {
    let (mut ours, mut original) = (Ours::watched(), Timed::watched(1));
    let (mut i, mut j) = (0u64, 0u64);
    let mut ours_turn = || {
        i += 1;
        turn!(ours, Stream::Three, black_box(i));
    };
    let mut original_turn = || {
        j += 1;
        turn!(original, Stream::Three, black_box(j));
    };
    for _ in 0..FULL {
        ours_turn();
        original_turn();
    }
    table.row("`watched_sent`, `watched_accept`, `observe`, in a row; full tables", 20_000, 1, ours_turn, original_turn);
    same(&ours, &original);
}

fn readers(table: &mut Table) {
    let (mut ours, mut original) = (Ours::new(), Timed::new(1));
    for i in 1..=FULL {
        turn!(ours, Stream::Three, i);
        turn!(original, Stream::Three, i);
    }
    let (mut i, mut j) = (0u32, 0u32);
    table.row(
        "`answered`; full tables",
        20_000,
        1,
        || {
            i = i.wrapping_add(7);
            black_box(ours.answered(black_box(2000 + i % 3000)));
        },
        || {
            j = j.wrapping_add(7);
            black_box(original.answered(black_box(2000 + j % 3000)));
        },
    );
    let mut answer = [0];
    table.row(
        "`needs_burst_wait`",
        20_000,
        1,
        || {
            calls::needs_burst_wait(black_box(&ours.link.ledger), black_box(&mut answer));
        },
        || {
            black_box(black_box(&original).needs_burst_wait());
        },
    );
    let mut shown = Figures::default();
    table.row(
        "`snapshot`",
        20_000,
        1,
        || {
            calls::snapshot(black_box(&ours.link.ledger), black_box(&mut shown));
        },
        || {
            black_box(black_box(&original).snapshot());
        },
    );
}

pub fn same(ours: &Ours, original: &Timed) {
    let (f, s) = (ours.link.snapshot(), original.snapshot());
    let counts = [s.requested_replies, s.unique_replies, s.duplicate_replies, s.unknown_replies, s.probes_evicted, s.replies_evicted, s.follow_up.matched];
    let shown = [f.requested, f.unique, f.duplicate, f.unknown, f.probes_evicted, f.replies_evicted, f.follow_up.matched];
    assert_eq!(shown, counts, "the two must show the same");
    assert_eq!(ours.link.rooms.keys.len(), ROWS);
}
