//! Whole bursts (document 02, Q-2): the same replies to the library's call for a list, to its single calls and to the original. After each
//! list each row is held against the single call's answer and the original's, all memory of the two links against each other, and the
//! counts, the keys that are held and the key that awaits against the original's.
use super::{CAPACITY, COUNTS_FULL, MOST_CALLS, WRONG_ROOM};
use crate::{random::Random, sender::measurements::Ledger};
use ambrulicciu::{
    calls::{self, Entry, EntryAnswer},
    Accepted, Key, Link, Observation, Packet, Refusal, ENTRIES,
};

/// The word of a ledger that has the number of calls served.
const CALLS: usize = 5;
/// The lengths that document 02 names, and their neighbours.
const LENGTHS: [usize; 6] = [0, 1, 2, 255, 256, 257];

type Reply = (Key, Option<Packet>);

struct Played {
    burst: Link,
    single: Link,
    original: Ledger,
    sequence: u32,
}

#[derive(Default)]
struct Counted {
    lists: u64,
    entries: u64,
    classes: [u64; 3],
    within: u64,
    full: u64,
    wrong: u64,
    refused: u64,
    different: u64,
}

impl Counted {
    fn differs(&mut self, what: &str) {
        self.different += 1;
        println!("bursts: {what}");
    }
}

fn fresh(random: &mut Random) -> Played {
    let secret: [u32; 8] = std::array::from_fn(|_| random.word() as u32);
    let copies = random.of(&[1, 1, 2, 3]);
    let watch = random.chance(500).then(|| (random.of(&[1, 3]), random.of(&[0, 1000])));
    let link = match watch {
        None => Link::new(copies, &secret),
        Some((threshold, timeout)) => Link::watched(copies, &secret, threshold, timeout),
    };
    Played {
        burst: link.clone(),
        single: link,
        original: Ledger::fresh(copies, watch),
        sequence: 0,
    }
}

impl Played {
    fn send(&mut self, count: u64, random: &mut Random) {
        for _ in 0..count {
            let (sequence, time, tag) = (self.sequence, random.below(1 << 40), random.word());
            let packet = Packet { time, tag };
            let answers = [&mut self.burst, &mut self.single].map(|link| link.sent(sequence, sequence, 0, packet));
            if answers[0].is_ok() {
                self.original.sent(sequence, time, tag, sequence);
            }
            self.sequence = self.sequence.wrapping_add(1);
        }
    }

    /// A reply: to a probe that was sent, or not; the same key again now and then, within the list and from lists before.
    fn draw(&self, list: &[Reply], random: &mut Random) -> Reply {
        if !list.is_empty() && random.chance(150) {
            return (list[random.below(list.len() as u64) as usize].0, None);
        }
        let near = self.sequence.wrapping_sub(random.below(5000) as u32);
        let sender = if random.chance(100) { random.word() as u32 } else { near };
        let reflector = if random.chance(100) { random.word() as u32 } else { sender };
        let packet = Packet { time: random.below(1 << 40), tag: random.word() };
        let t3 = random.below(3);
        (Key { sender, reflector, t3 }, random.chance(400).then_some(packet))
    }

    fn list(&mut self, length: usize, random: &mut Random, counted: &mut Counted) {
        let mut list: Vec<Reply> = Vec::with_capacity(length);
        for _ in 0..length {
            list.push(self.draw(&list, random));
        }
        counted.lists += 1;
        if length > ENTRIES {
            let before = self.burst.clone();
            let answer = self.burst.accept_burst(&list);
            counted.refused += 1;
            if answer != Err(Refusal::WrongRoom) || !same(&before, &self.burst) {
                counted.differs("a list that is too long");
            }
            return;
        }
        let Ok(rows) = self.burst.accept_burst(&list) else {
            return counted.differs("a list was refused");
        };
        for (at, ((key, pending), row)) in list.iter().zip(&rows).enumerate() {
            counted.entries += 1;
            let again = list[..at].iter().any(|(k, _)| k == key);
            counted.within += u64::from(again && *row == Ok(Accepted::Duplicate));
            if self.single.accept(*key, *pending) != *row {
                counted.differs("a row is not the single call's answer");
            }
            match row {
                Err(refusal) => {
                    counted.full += u64::from(*refusal as u64 == COUNTS_FULL);
                    if *refusal as u64 != COUNTS_FULL {
                        counted.differs("an entry was refused");
                    }
                }
                Ok(accepted) => self.original_is(*key, *pending, *accepted, counted),
            }
        }
        self.stands(&list, &rows, counted);
    }

    fn original_is(&mut self, key: Key, pending: Option<Packet>, accepted: Accepted, counted: &mut Counted) {
        let parts = (key.sender, key.reflector, key.t3);
        let known = self.original.is_known(parts);
        let answer = match self.original.accept(parts, pending.map(|p| (p.time, p.tag))) {
            Some((time, tag, ordinal)) => Accepted::Unique(Packet { time, tag }, ordinal, 0),
            None if known => Accepted::Duplicate,
            None => Accepted::Unknown,
        };
        counted.classes[match answer {
            Accepted::Unknown => 0,
            Accepted::Duplicate => 1,
            Accepted::Unique(..) => 2,
        }] += 1;
        if answer != accepted {
            counted.differs("a row is not the original's answer");
        }
    }

    /// All memory of both links, the original's counts, and which key awaits.
    fn stands(&self, list: &[Reply], rows: &[Result<Accepted, Refusal>], counted: &mut Counted) {
        if !same(&self.burst, &self.single) {
            counted.differs("the list and the single calls left other bytes");
        }
        let (ours, own) = (self.burst.snapshot(), self.original.snapshot());
        let counts = [ours.requested, ours.unique, ours.duplicate, ours.unknown, ours.answered, ours.additional, ours.late];
        let theirs = [
            own.requested_replies,
            own.unique_replies,
            own.duplicate_replies,
            own.unknown_replies,
            own.answered_probes,
            own.additional_replies,
            own.late_replies,
        ];
        if counts != theirs {
            counted.differs("the counts are not the original's");
        }
        let unique = list.iter().zip(rows).filter(|(_, row)| matches!(row, Ok(Accepted::Unique(..))));
        for ((key, _), _) in unique.rev().take(2) {
            let served = self.burst.clone().observe(&Observation::of(*key, 0)).is_ok();
            let full = self.burst.ledger[CALLS] == MOST_CALLS;
            if !full && served != self.original.awaits((key.sender, key.reflector, key.t3)) {
                counted.differs("another key awaits than the original's");
            }
        }
    }

    /// A room of the ledger of another size: each entry is refused with 5, the call for the list is served, and nothing else changes.
    fn wrong(&mut self, random: &mut Random, counted: &mut Counted) {
        let mut list = vec![];
        for _ in 0..random.below(20) {
            list.push(self.draw(&list, random));
        }
        let entry = |(key, _): &Reply| Entry { t3: key.t3, sender: key.sender, reflector: key.reflector, ..Entry::default() };
        let entries: Vec<Entry> = list.iter().map(entry).collect();
        let mut answers = vec![EntryAnswer { number: 77, accepted: [7; 6] }; entries.len()];
        let before = self.burst.clone();
        let Link { ledger, rooms, .. } = &mut self.burst;
        let short = &mut rooms.keys[..CAPACITY - 1];
        let number = calls::accept_burst(ledger, short, &mut rooms.slots, &mut rooms.probes, &mut rooms.links, &entries, &mut answers);
        let row = EntryAnswer { number: WRONG_ROOM, accepted: [7; 6] };
        counted.wrong += entries.len() as u64;
        if number != 0 || answers.iter().any(|a| *a != row) || !same(&before, &self.burst) {
            counted.differs("entries with a room of the wrong size");
        }
        answers.push(row);
        let number = calls::accept_burst(ledger_of(&mut self.burst), &mut [], &mut [], &mut [], &mut [], &entries, &mut answers);
        counted.refused += 1;
        if u64::from(number) != WRONG_ROOM || answers.iter().any(|a| *a != row) || !same(&before, &self.burst) {
            counted.differs("a room for one answer more");
        }
    }
}

fn ledger_of(link: &mut Link) -> &mut [u64; calls::LEDGER_WORDS] {
    &mut link.ledger
}

/// Every word of the state and of all rooms.
fn same(a: &Link, b: &Link) -> bool {
    let rooms = a.rooms.keys == b.rooms.keys
        && a.rooms.slots == b.rooms.slots
        && a.rooms.probes == b.rooms.probes
        && a.rooms.offsets == b.rooms.offsets
        && a.rooms.links == b.rooms.links;
    let watch = match (&a.watch, &b.watch) {
        (None, None) => true,
        (Some(a), Some(b)) => a.monitor == b.monitor && a.queue == b.queue,
        _ => false,
    };
    a.ledger == b.ledger && rooms && watch
}

pub fn play(seed: u64, links: u64) -> bool {
    let random = &mut Random::new(seed);
    let mut counted = Counted::default();
    for _ in 0..links {
        let mut played = fresh(random);
        let probes = random.of(&[0, 10, 300, 5000]);
        played.send(probes, random);
        for length in LENGTHS {
            played.list(length, random, &mut counted);
        }
        for _ in 0..20 {
            let probes = random.below(40);
            played.send(probes, random);
            let length = if random.chance(300) { random.of(&LENGTHS) } else { random.below(257) as usize };
            played.list(length, random, &mut counted);
            played.wrong(random, &mut counted);
        }
        // the list crosses the last call that can be counted
        let left = random.of(&[0, 1, 2, 100]);
        played.burst.ledger[CALLS] = MOST_CALLS - left;
        played.single.ledger[CALLS] = MOST_CALLS - left;
        let before = counted.full;
        played.list(256, random, &mut counted);
        if counted.full - before != 256 - left {
            counted.differs("another number of entries was refused at the last call");
        }
    }
    let Counted { lists, entries, classes, within, full, wrong, refused, different } = counted;
    let [unknown, duplicate, unique] = classes;
    println!("bursts: {lists} lists, {entries} entries: {unique} unique, {duplicate} duplicates ({within} within their list), {unknown} unknown, {full} refused with 4, {wrong} with 5; {refused} whole lists refused; {different} differences");
    different == 0
}
