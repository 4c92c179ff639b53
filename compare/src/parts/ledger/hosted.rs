//! The port's side of part `host`: the scripts through the library that hosts link, in this process.
//!
//! What a call answers, every figure and the session come from the library's own calls; what else can be seen of the state is read off its
//! words and rooms (crates/host_ledger, specs/Words.antt; crates host_monitor_words, probe_ring, key_ring and correlation for the rows).
use super::{
    super::CAPACITY, flagged, halves, key, told, wire, ACCEPT, ADVANCE, ANYWAY, DIGEST, FOLLOW,
    FRESH, IDLE, KEYS, LINKS, LOAD, OBSERVE, OFFSETS, PART, PROBES, QUALITY, QUEUE, ROOM, SENT,
    SLOTS, SPOIL,
};
use crate::{
    digest::Digest,
    part::{Answer, Call, Part},
};
use ambrulicciu::{
    calls::{self, Queued, LEDGER_WORDS},
    Accepted, Counters, Delays, Figures, FollowUp, Format, Key, LastEstimate, Link, Maybe,
    Observation, Packet, Point, Refusal, State, Watch,
};
use std::collections::{HashMap, HashSet};

pub const HOSTED: Part = Part {
    here: Some(play),
    ..PART
};

/// Words of the ledger.
const COPIES: usize = 0;
const CALLS: usize = 5;
const KEY_RING: usize = 6;
const PROBE_RING: usize = 8;
const AWAITS: usize = 10;
const ROUND_TRIPS: usize = 25;
const WINDOW: usize = 38;
const SEEN: usize = 43;
const FOLLOW_DELAYS: usize = 50;
const UNANSWERED: usize = 72;
/// Words of the monitor.
const TRANSMITTING: usize = 7;
const QUEUE_RING: usize = 8;

/// The word of a count, by its number in compare/accessors/measurements.rs.
fn count_word(which: u64) -> usize {
    let which = which as usize;
    match which {
        0 => CALLS,
        1..=8 => 10 + which,
        9..=12 => 12 + which,
        13..=16 => 20 + which,
        17..=22 => 27 + which,
        23..=27 => 35 + which,
        34..=36 => 29 + which,
        28 => ROUND_TRIPS,
        31 => FOLLOW_DELAYS,
        37 => UNANSWERED,
        _ => panic!("no count {which}"),
    }
}

fn load(ledger: &mut [u64; LEDGER_WORDS], which: u64, value: u64) {
    let delays = match which {
        29 | 30 => ROUND_TRIPS,
        32 | 33 => FOLLOW_DELAYS,
        _ => {
            ledger[count_word(which)] = value;
            return;
        }
    };
    ledger[delays + 1] = u64::from(which == 30 || which == 33);
    ledger[delays + 2] = value;
    ledger[delays + 3] = 1;
}

fn play(given: &[u8]) -> Vec<u8> {
    let mut link = Link::new(1, &[0; 8]);
    let mut written = Vec::with_capacity(given.len() / 128 * 960);
    for bytes in given.chunks_exact(128) {
        let mut words = bytes
            .chunks_exact(8)
            .map(|b| u64::from_le_bytes(b.try_into().unwrap()));
        let call: Call = std::array::from_fn(|_| words.next().unwrap());
        for word in one(&mut link, &call) {
            written.extend_from_slice(&word.to_le_bytes());
        }
    }
    written
}

/// What a call answers besides the state.
#[derive(Default)]
struct Reply {
    refusal: u64,
    accepted: Option<Accepted>,
    answered: u64,
}

fn number<T>(result: &Result<T, Refusal>) -> u64 {
    result.as_ref().err().map_or(0, |refusal| *refusal as u64)
}

fn one(link: &mut Link, call: &Call) -> Answer {
    let before = spoil(link, call);
    let mut reply = made(link, call);
    reply.answered = match link.answered(call[1] as u32) {
        Ok(answered) => u64::from(answered),
        Err(refusal) => 256 + refusal as u64,
    };
    before.mend(link);
    shown(link, call, &reply)
}

fn made(link: &mut Link, call: &Call) -> Reply {
    let mut reply = Reply::default();
    match call[0] & 0xff {
        FRESH => *link = fresh(call),
        SENT => {
            let packet = Packet {
                time: call[2],
                tag: call[3],
            };
            reply.refusal = number(&link.sent(call[1] as u32, call[4] as u32, call[5] as u32, packet));
        }
        ACCEPT => {
            let pending = (call[3] != 0).then_some(Packet {
                time: call[4],
                tag: call[5],
            });
            let accepted = link.accept(key_of(call), pending);
            reply.refusal = number(&accepted);
            reply.accepted = accepted.ok();
        }
        OBSERVE => {
            let mut told = observation(call).told();
            if call[0] >> 8 & ANYWAY != 0 {
                told.flags |= 16;
                told.reserved = [call[13] as u32, (call[13] >> 32) as u32];
            }
            let rooms = &mut link.rooms;
            let (keys, slots) = (&rooms.keys, &mut rooms.slots);
            let (offsets, links) = (&mut rooms.offsets, &mut rooms.links);
            let number = calls::observe(&mut link.ledger, keys, slots, offsets, links, &told);
            reply.refusal = u64::from(number);
        }
        ADVANCE => reply.refusal = number(&link.advance(call[1])),
        IDLE => reply.refusal = number(&link.idle()),
        LOAD => load(&mut link.ledger, call[1], call[2]),
        _ => panic!("no operation {}", call[0]),
    }
    reply
}

fn fresh(call: &Call) -> Link {
    let secret = std::array::from_fn(|i| (call[5 + i / 2] >> (32 * (i % 2))) as u32);
    match call[2] {
        0 => Link::new(call[1] as u16, &secret),
        _ => Link::watched(call[1] as u16, &secret, call[3] as u16, call[4]),
    }
}

fn key_of(call: &Call) -> Key {
    let (sender, reflector, t3) = key(call);
    Key {
        sender,
        reflector,
        t3,
    }
}

fn observation(call: &Call) -> Observation {
    let t = told(call);
    let has = |flag: u64| call[0] >> 8 & flag != 0;
    Observation {
        key: key_of(call),
        round_trip: t.rtt,
        t4: t.t4,
        format: if t.ptp { Format::Ptp } else { Format::Ntp },
        reference: t.reference,
        offset: t.offset,
        ordinal: t.ordinal,
        counters: t.counters.map(|(sender, received, transmitted)| Counters {
            sender,
            received,
            transmitted,
        }),
        follow_up: has(FOLLOW).then_some(FollowUp {
            sequence: (call[8] >> 32) as u32,
            timestamp: call[9],
            unknown_mode: t.follow.is_some_and(|f| f.unknown),
        }),
        estimates: has(QUALITY).then_some((wire(call[11] as u32), wire((call[11] >> 32) as u32))),
    }
}

/// What a call is lent otherwise than it stands: words of the state, and a room of another size.
struct Mend {
    words: Vec<(usize, u64)>,
    room: Option<Box<dyn FnOnce(&mut Link)>>,
}

fn spoil(link: &mut Link, call: &Call) -> Mend {
    let which = (call[SPOIL] & 0xff) as usize;
    let value = (call[SPOIL] >> 8) % (1 << 48);
    let new = match which {
        0 => vec![],
        5 => vec![(WINDOW, 1), (SEEN, value)],
        _ => vec![(KEY_RING + which - 1, value)],
    };
    let words = new
        .iter()
        .map(|(word, _)| (*word, link.ledger[*word]))
        .collect();
    new.iter()
        .for_each(|(word, value)| link.ledger[*word] = *value);
    Mend {
        words,
        room: resize(link, call[ROOM] % 8, (call[ROOM] / 8) as usize),
    }
}

fn resize(link: &mut Link, room: u64, rows: usize) -> Option<Box<dyn FnOnce(&mut Link)>> {
    macro_rules! resized {
        ($room:ident, $row:expr) => {{
            let mut other = link.rooms.$room.clone();
            other.resize(rows, $row);
            let kept = std::mem::replace(&mut link.rooms.$room, other);
            Some(Box::new(move |link: &mut Link| link.rooms.$room = kept))
        }};
    }
    match room {
        KEYS => resized!(keys, [0; 2]),
        SLOTS => resized!(slots, [0; 3]),
        PROBES => resized!(probes, [0; 4]),
        OFFSETS => resized!(offsets, 0),
        LINKS => resized!(links, [0; 8]),
        QUEUE => {
            let watch = link.watch.as_mut()?;
            let mut other = watch.queue.clone();
            other.resize(rows, Queued::default());
            let kept = std::mem::replace(&mut watch.queue, other);
            Some(Box::new(move |link: &mut Link| {
                link.watch.as_mut().unwrap().queue = kept
            }))
        }
        _ => None,
    }
}

impl Mend {
    fn mend(self, link: &mut Link) {
        self.words
            .iter()
            .for_each(|(word, value)| link.ledger[*word] = *value);
        if let Some(room) = self.room {
            room(link);
        }
    }
}

// ---- what is shown, in the words of shown.rs

fn shown(link: &Link, call: &Call, reply: &Reply) -> Answer {
    let figures = link.snapshot();
    let mut words = Vec::with_capacity(120);
    shown_answer(link, reply, &figures, &mut words);
    shown_replies(&figures, &mut words);
    shown_delays(link, &figures, &mut words);
    shown_follow(&figures, &mut words);
    shown_direct(link, &figures, &mut words);
    shown_rooms(link, call, &mut words);
    words.resize(112, 0);
    if let Some(watch) = &link.watch {
        shown_monitor(link, watch, call, &mut words);
    }
    words.resize(117, 0);
    let q = &figures.follow_up.quality;
    words.extend([q.invalid_sender, q.invalid_reflector, q.invalid_both]);
    words.try_into().expect("120 words")
}

fn shown_answer(link: &Link, reply: &Reply, figures: &Figures, words: &mut Vec<u64>) {
    let (class, packet, ordinal, train) = match reply.accepted {
        None | Some(Accepted::Unknown) => (0, Packet::default(), None, 0),
        Some(Accepted::Duplicate) => (1, Packet::default(), None, 0),
        Some(Accepted::Unique(packet, ordinal, train)) => (2, packet, ordinal, train),
    };
    words.extend([
        reply.refusal,
        class,
        packet.time,
        packet.tag,
        flagged(ordinal),
        reply.answered,
    ]);
    words.extend([link.ledger[COPIES], link.ledger[CALLS]]);
    words.extend([link.ledger[AWAITS], u64::from(link.needs_burst_wait().expect("rings in place"))]);
    words.extend([train.into(), figures.evicted_unanswered]);
    words.extend([0; 4]);
}

fn number_of(value: Maybe<u64>) -> u64 {
    flagged(value.get().map(|v| v as u32))
}

fn shown_replies(f: &Figures, words: &mut Vec<u64>) {
    words.extend([
        f.requested,
        f.unique,
        f.duplicate,
        f.unknown,
        f.answered,
        f.additional,
        f.late,
        f.satisfied,
    ]);
    words.extend([
        f.reordered,
        f.independent,
        number_of(f.highest),
        number_of(f.last),
    ]);
    words.extend([
        f.probes_evicted,
        f.replies_evicted,
        f.unobserved,
        number_of(f.thousandths),
    ]);
}

fn bits(value: Maybe<f64>) -> u64 {
    value.get().map_or(0, f64::to_bits)
}

fn there<T: Copy>(value: Maybe<T>) -> u64 {
    u64::from(value.get().is_some())
}

/// The count, the sum and the two extremes in ns; an extreme is a kind (0 none, 1 a sample, 2 a negative one) and a magnitude.
fn sums(link: &Link, at: usize) -> [u64; 6] {
    let w = &link.ledger[at..at + 8];
    let extreme = |kind: u64, magnitude: u64| match kind {
        0 => 0,
        1 => magnitude,
        _ => magnitude.wrapping_neg(),
    };
    [
        w[0],
        w[1],
        w[2],
        w[3],
        extreme(w[4], w[5]),
        extreme(w[6], w[7]),
    ]
}

fn shown_delays(link: &Link, f: &Figures, words: &mut Vec<u64>) {
    let shown: [(usize, &Delays); 2] = [
        (ROUND_TRIPS, &f.round_trip),
        (FOLLOW_DELAYS, &f.follow_up.delay),
    ];
    for (at, d) in shown {
        words.extend(sums(link, at));
        words.extend([
            d.samples,
            there(d.minimum) | there(d.average) << 1 | there(d.maximum) << 2,
        ]);
    }
    for (_, d) in shown {
        words.extend([d.minimum, d.average, d.maximum].map(bits));
    }
    words.extend([link.ledger[KEY_RING + 1], link.ledger[PROBE_RING + 1]]);
}

fn estimate(e: Option<LastEstimate>) -> u64 {
    e.map_or(0, |e| {
        1 << 24
            | there(e.error) << 25
            | e.synchronized
            | e.ptp << 1
            | e.scale << 8
            | e.multiplier << 16
    })
}

fn shown_follow(f: &Figures, words: &mut Vec<u64>) {
    let f = &f.follow_up;
    let q = &f.quality;
    words.extend([
        f.observations,
        f.matched,
        f.repeated,
        f.unmatched,
        f.ambiguous,
        f.unavailable,
    ]);
    words.extend([
        there(q.largest),
        bits(q.largest),
        q.samples,
        q.both,
        q.unsynchronized,
        q.invalid,
        q.unknown,
    ]);
    let last = [q.sender.get(), q.reflector.get()];
    words.extend(last.map(estimate));
    let received = last.map(|e| e.map_or(0, |e| e.received));
    words.push(received[0] | received[1] << 16);
    words.extend(last.map(|e| e.map_or(0, |e| bits(e.error))));
}

fn point(p: Maybe<Point>) -> [u64; 2] {
    p.get().map_or([0, 0], |[sender, received, transmitted]| {
        [halves(sender as u32, received as u32), transmitted]
    })
}

fn shown_direct(link: &Link, f: &Figures, words: &mut Vec<u64>) {
    let d = &f.direct;
    let spans = [
        d.sent,
        d.received,
        d.forward_missing,
        d.transmitted,
        d.replies,
        d.reverse_missing,
    ];
    let mut present = d.exceeded | there(d.anchor) << 1 | there(d.latest) << 2;
    for (place, span) in spans.iter().enumerate() {
        present |= there(*span) << (3 + place);
    }
    words.extend([
        d.observations,
        d.unavailable,
        d.discontinuities,
        d.reordered,
        present,
        seen(link),
    ]);
    words.extend(point(d.anchor));
    words.extend(point(d.latest));
    words.extend(spans.map(|span| span.get().unwrap_or(0)));
}

fn seen(link: &Link) -> u64 {
    if link.ledger[WINDOW] == 0 {
        0
    } else {
        link.ledger[SEEN]
    }
}

/// The rows of a ring, oldest first.
fn ring(words: &[u64], at: usize) -> impl DoubleEndedIterator<Item = usize> {
    let (head, len) = (words[at] as usize, words[at + 1] as usize);
    (0..len).map(move |place| (head + place) % CAPACITY)
}

fn probe_words(row: &[u64; 4]) -> [u64; 5] {
    let ordinal = (row[0] >> 48 != 0).then_some(row[1] as u32);
    [
        flagged(Some(row[0] as u32)),
        row[0] >> 32 & 0xffff,
        flagged(ordinal),
        row[2],
        row[3],
    ]
}

/// The row that holds the slot of each reflector number: that of its newest observed key.
fn holders(link: &Link) -> HashMap<u32, usize> {
    let mut holders = HashMap::new();
    for at in ring(&link.ledger, KEY_RING)
        .rev()
        .filter(|at| link.rooms.slots[*at][0] >> 16 & 1 == 1)
    {
        holders.entry(link.rooms.keys[at][0] as u32).or_insert(at);
    }
    holders
}

/// A slot's count, its flags with the estimates, T4 and reference; none for a count of 0.
fn slot_words(row: &[u64; 3]) -> Option<[u64; 4]> {
    let [word, t4, reference] = *row;
    let flag = |bit: u32| word >> bit & 1;
    let count = word & 0xffff;
    if count == 0 {
        return None;
    }
    if flag(18) == 0 {
        return Some([count, flag(17) << 32, 0, 0]);
    }
    let flags = flag(17) | flag(20) << 1 | flag(19) << 2 | flag(21) << 3 | 1 << 4;
    let estimates = if flag(21) == 1 {
        (word >> 32 & 0xffff) << 16 | word >> 48
    } else {
        0
    };
    Some([
        count,
        flags << 32 | estimates,
        if flag(19) == 1 { t4 } else { 0 },
        reference,
    ])
}

fn shown_rooms(link: &Link, call: &Call, words: &mut Vec<u64>) {
    let rooms = &link.rooms;
    words.extend(
        ring(&link.ledger, KEY_RING)
            .next()
            .map_or([0; 2], |at| rooms.keys[at]),
    );
    words.extend(
        ring(&link.ledger, PROBE_RING)
            .next()
            .map_or([0; 5], |at| probe_words(&rooms.probes[at])),
    );
    let own = ring(&link.ledger, PROBE_RING)
        .rev()
        .find(|at| rooms.probes[*at][0] as u32 == call[1] as u32);
    words.extend(own.map_or([0; 5], |at| probe_words(&rooms.probes[at])));
    let number = (call[1] >> 32) as u32;
    let observed =
        |at: &usize| rooms.slots[*at][0] >> 16 & 1 == 1 && rooms.keys[*at][0] as u32 == number;
    let holder = ring(&link.ledger, KEY_RING).rev().find(observed);
    words.extend(
        holder
            .and_then(|at| slot_words(&rooms.slots[at]))
            .unwrap_or([0; 4]),
    );
    if call[DIGEST] == 1 {
        digest(link, words);
    }
}

/// Held probes and accepted keys in their order; slots and seen offsets in none.
fn digest(link: &Link, words: &mut Vec<u64>) {
    let rooms = &link.rooms;
    let mut d = Digest::default();
    for at in ring(&link.ledger, PROBE_RING) {
        let [_, replies, ordinal, time, tag] = probe_words(&rooms.probes[at]);
        d = d
            .then(halves(rooms.probes[at][0] as u32, replies as u32))
            .then(ordinal)
            .then(time)
            .then(tag);
    }
    for at in ring(&link.ledger, KEY_RING) {
        d = d.then(rooms.keys[at][0]).then(rooms.keys[at][1]);
    }
    let (mut slots, mut all) = (0, Digest::default());
    for (number, at) in holders(link) {
        if let Some([count, flags, t4, reference]) = slot_words(&rooms.slots[at]) {
            let one = Digest::default().then(halves(number, count as u32));
            all = all.with(one.then(flags).then(t4).then(reference));
            slots += 1;
        }
    }
    let seen = rooms.offsets[..seen(link) as usize]
        .iter()
        .map(|o| Digest::default().then(u64::from(*o)));
    let d = d.with(all).with(seen.fold(Digest::default(), Digest::with));
    words.extend([slots, d.first, d.second]);
}

/// The word that says that the wrapper's deadline is another; the original's is 0.
const DEADLINE: usize = 12;

fn shown_monitor(link: &Link, watch: &Watch, call: &Call, words: &mut Vec<u64>) {
    let s = watch.session().expect("a ring in place");
    let state = match s.state {
        State::Idle => 0,
        State::Active => 1,
        State::Failed => 2,
    };
    let queue: Vec<&Queued> = ring(&watch.monitor, QUEUE_RING)
        .map(|at| &watch.queue[at])
        .collect();
    words.push(state | s.threshold << 8 | watch.monitor[TRANSMITTING] << 24 | s.losses << 32);
    words.extend([s.active << 40 | s.failed << 20 | s.idle, queue.len() as u64]);
    let (mut first, mut second) = (0, 0);
    if call[DIGEST] == 1 {
        let marked: HashSet<u32> = queue
            .iter()
            .filter(|p| p.mark != 0)
            .map(|p| p.sequence)
            .collect();
        let mark = |p: &Queued| u64::from(marked.contains(&p.sequence)) << 32;
        let d = queue.iter().fold(Digest::default(), |d, p| {
            d.then(mark(p) | u64::from(p.sequence)).then(p.deadline)
        });
        (first, second) = (d.first, d.second);
    }
    // The original's deadline is that of its front probe.
    let front = queue.first().map(|p| p.deadline);
    words.extend([first, second]);
    words[DEADLINE] = u64::from(link.deadline() != Ok(front));
}
