//! A link: the ledger with its rooms, and its monitor if it is watched.
use crate::{
    calls::{self, Entry, EntryAnswer, Queued, LEDGER_WORDS},
    observation::Observation,
    refusal::{served, Refusal},
    shown::Figures,
    RECORDS, ROWS,
};

/// What tells replies apart: the sender's and the reflector's number, and the reflector's timestamp.
#[derive(Clone, Copy, Debug, PartialEq, Eq)]
pub struct Key {
    pub sender: u32,
    pub reflector: u32,
    pub t3: u64,
}

/// A packet of the host's: its send time in ns, and a tag that is handed back untouched.
#[derive(Clone, Copy, Debug, Default, PartialEq, Eq)]
pub struct Packet {
    pub time: u64,
    pub tag: u64,
}

/// What became of a reply.
#[derive(Clone, Copy, Debug, PartialEq, Eq)]
pub enum Accepted {
    Unknown,
    Duplicate,
    Unique(Packet, Option<u32>, u32),
}

/// The words of an answer.
fn accepted_of([class, time, tag, known, ordinal, train]: [u64; 6]) -> Accepted {
    match class {
        0 => Accepted::Unknown,
        1 => Accepted::Duplicate,
        _ => Accepted::Unique(Packet { time, tag }, (known != 0).then_some(ordinal as u32), train as u32),
    }
}

/// The words of a reply in a burst.
fn entry_of(key: Key, pending: Option<Packet>) -> Entry {
    let Key { sender, reflector, t3 } = key;
    let Packet { time, tag } = pending.unwrap_or_default();
    Entry { t3, sender, reflector, pending: pending.is_some().into(), time, tag }
}

/// The ledger's rooms.
#[derive(Clone, Debug)]
pub struct Rooms {
    pub keys: Vec<[u64; 2]>,
    pub slots: Vec<[u64; 3]>,
    pub probes: Vec<[u64; 4]>,
    pub offsets: Vec<u32>,
    pub links: Vec<[u16; 8]>,
}

impl Rooms {
    #[allow(clippy::new_without_default)]
    pub fn new() -> Rooms {
        Rooms {
            keys: vec![[0; 2]; ROWS],
            slots: vec![[0; 3]; ROWS],
            probes: vec![[0; 4]; ROWS],
            offsets: vec![0; ROWS],
            links: vec![[0; 8]; ROWS],
        }
    }
}

/// The monitor with its queue.
#[derive(Clone, Debug)]
pub struct Watch {
    pub monitor: [u64; 12],
    pub queue: Vec<Queued>,
}

impl Watch {
    /// `threshold` losses in a row mean failed, 0 counts as 1; `timeout` in ns, 0: no probe is ever lost.
    pub fn new(threshold: u16, timeout: u64) -> Watch {
        let mut monitor = [0; 12];
        calls::monitor_fresh(&mut monitor, threshold, timeout);
        Watch { monitor, queue: vec![Queued::default(); ROWS] }
    }

    pub fn session(&self) -> Result<Session, Refusal> {
        let mut shown = [0; 6];
        served(calls::monitor_summary(&self.monitor, &mut shown))?;
        let [state, threshold, losses, active, failed, idle] = shown;
        let state = match state {
            0 => State::Idle,
            1 => State::Active,
            _ => State::Failed,
        };
        Ok(Session { state, threshold, losses, active, failed, idle })
    }
}

#[derive(Clone, Copy, Debug, PartialEq, Eq)]
pub enum State {
    Idle,
    Active,
    Failed,
}

/// The session as the monitor sees it: its state, losses in a row, how often it became active, failed, idle.
#[derive(Clone, Copy, Debug, PartialEq, Eq)]
pub struct Session {
    pub state: State,
    pub threshold: u64,
    pub losses: u64,
    pub active: u64,
    pub failed: u64,
    pub idle: u64,
}

/// A link with all its memory. The parts are open to hosts that keep them elsewhere: no content of them can break a call.
#[derive(Clone, Debug)]
pub struct Link {
    pub ledger: [u64; LEDGER_WORDS],
    pub rooms: Rooms,
    pub watch: Option<Watch>,
}

impl Link {
    /// `secret` are words that a reflector cannot know: they keep searches short and decide nothing.
    pub fn new(copies: u16, secret: &[u32; 8]) -> Link {
        let mut ledger = [0; LEDGER_WORDS];
        calls::ledger_fresh(&mut ledger, copies, secret);
        Link { ledger, rooms: Rooms::new(), watch: None }
    }

    /// The same with a monitor.
    pub fn watched(copies: u16, secret: &[u32; 8], threshold: u16, timeout: u64) -> Link {
        Link { watch: Some(Watch::new(threshold, timeout)), ..Link::new(copies, secret) }
    }

    /// A probe was sent.
    pub fn sent(&mut self, sequence: u32, ordinal: u32, train: u32, packet: Packet) -> Result<(), Refusal> {
        let Packet { time, tag } = packet;
        let Rooms { probes, links, .. } = &mut self.rooms;
        served(match &mut self.watch {
            None => calls::sent(&mut self.ledger, probes, links, sequence, ordinal, train, time, tag),
            Some(w) => calls::watched_sent(&mut self.ledger, &mut w.monitor, probes, links, &mut w.queue, sequence, ordinal, train, time, tag),
        })
    }

    /// A reply came; `pending` is the packet that the host holds for its probe.
    pub fn accept(&mut self, key: Key, pending: Option<Packet>) -> Result<Accepted, Refusal> {
        let Key { sender, reflector, t3 } = key;
        let Packet { time, tag } = pending.unwrap_or_default();
        let held = pending.is_some().into();
        let Rooms { keys, slots, probes, links, .. } = &mut self.rooms;
        let ledger = &mut self.ledger;
        let mut answer = [0; 6];
        served(match &mut self.watch {
            None => calls::accept(ledger, keys, slots, probes, links, sender, reflector, t3, held, time, tag, &mut answer),
            Some(w) => {
                let Watch { monitor, queue } = w;
                calls::watched_accept(
                    ledger,
                    monitor,
                    keys,
                    slots,
                    probes,
                    links,
                    queue,
                    sender,
                    reflector,
                    t3,
                    held,
                    time,
                    tag,
                    &mut answer,
                )
            }
        })?;
        Ok(accepted_of(answer))
    }

    /// A burst of replies, at most [`ENTRIES`](crate::ENTRIES): [`accept`](Link::accept) for each in list order. One that is refused has its
    /// refusal, and the rest go on; a longer list is refused as a whole, and then nothing was changed.
    pub fn accept_burst(&mut self, replies: &[(Key, Option<Packet>)]) -> Result<Vec<Result<Accepted, Refusal>>, Refusal> {
        let entries: Vec<Entry> = replies.iter().map(|(key, pending)| entry_of(*key, *pending)).collect();
        let mut answers = vec![EntryAnswer::default(); entries.len()];
        let Rooms { keys, slots, probes, links, .. } = &mut self.rooms;
        let ledger = &mut self.ledger;
        served(match &mut self.watch {
            None => calls::accept_burst(ledger, keys, slots, probes, links, &entries, &mut answers),
            Some(Watch { monitor, queue }) => {
                calls::watched_accept_burst(ledger, monitor, keys, slots, probes, links, queue, &entries, &mut answers)
            }
        })?;
        Ok(answers.iter().map(|row| served(row.number as u8).map(|()| accepted_of(row.accepted))).collect())
    }

    /// What the unique reply that was accepted last brought.
    pub fn observe(&mut self, observation: &Observation) -> Result<(), Refusal> {
        let Rooms { keys, slots, offsets, links, .. } = &mut self.rooms;
        served(calls::observe(&mut self.ledger, keys, slots, offsets, links, &observation.told()))
    }

    /// Whether a held probe has a reply.
    pub fn answered(&self, sequence: u32) -> Result<bool, Refusal> {
        let mut answer = [0];
        served(calls::answered(&self.ledger, &self.rooms.probes, &self.rooms.links, sequence, &mut answer))?;
        Ok(answer[0] != 0)
    }

    pub fn needs_burst_wait(&self) -> Result<bool, Refusal> {
        let mut answer = [0];
        served(calls::needs_burst_wait(&self.ledger, &mut answer))?;
        Ok(answer[0] != 0)
    }

    pub fn snapshot(&self) -> Figures {
        let mut shown = Figures::default();
        calls::snapshot(&self.ledger, &mut shown);
        shown
    }

    /// The clock is at `now`: probes past their deadline are losses. Nothing for a link without a monitor.
    pub fn advance(&mut self, now: u64) -> Result<(), Refusal> {
        self.watch.as_mut().map_or(Ok(()), |w| served(calls::monitor_advance(&mut w.monitor, &mut w.queue, now)))
    }

    /// The session stops.
    pub fn idle(&mut self) -> Result<(), Refusal> {
        self.watch.as_mut().map_or(Ok(()), |w| served(calls::monitor_idle(&mut w.monitor)))
    }

    /// When `advance` has something to do.
    pub fn deadline(&self) -> Result<Option<u64>, Refusal> {
        let Some(w) = &self.watch else {
            return Ok(None);
        };
        let mut answer = [0; 2];
        served(calls::monitor_deadline(&w.monitor, &w.queue, &mut answer))?;
        Ok((answer[0] != 0).then_some(answer[1]))
    }

    pub fn session(&self) -> Result<Option<Session>, Refusal> {
        self.watch.as_ref().map(Watch::session).transpose()
    }

    /// The report of the link as it stands; the numbers of calls made and refused are those of its first line.
    pub fn report(&self, records: u64, turned_away: u64) -> Result<String, Refusal> {
        let none = [0; 12];
        let monitor = self.watch.as_ref().map_or(&none, |w| &w.monitor);
        text_of(|text, length| calls::report_link(&self.ledger, monitor, self.watch.is_some().into(), records, turned_away, text, length))
    }
}

/// The report of a log, as the program linkreport prints it, or why the log is refused; the rooms and the queue may hold anything.
pub fn report_of_log(log: &[u8], secret: &[u32; 8], rooms: &mut Rooms, queue: &mut [Queued]) -> Result<String, Refusal> {
    let Rooms { keys, slots, probes, offsets, links } = rooms;
    text_of(|text, length| calls::report_log(log, secret, keys, slots, probes, offsets, links, queue, text, length))
}

/// The same report, counted a second time, straight from the records, as the program linkrecount prints it.
pub fn recount_of_log(log: &[u8]) -> Result<String, Refusal> {
    let (mut marks, mut fronts) = ([0; RECORDS], [0; RECORDS]);
    text_of(|text, length| calls::recount_log(log, &mut marks, &mut fronts, text, length))
}

fn text_of(write: impl FnOnce(&mut [u8], &mut [u64; 1]) -> u8) -> Result<String, Refusal> {
    let (mut text, mut length) = ([0; 1024], [0]);
    served(write(&mut text, &mut length))?;
    Ok(String::from_utf8_lossy(&text[..length[0] as usize]).into_owned())
}
