//! The monitor (session_state.rs).
#[cfg(feature = "host")]
pub mod hosted;
mod scripts;

use super::{CAPACITY, COUNTS_FULL, COUNT_BOUND, DEADLINE_PASSES, QUEUE_FULL};
use crate::{
    cover::Cover,
    digest::Digest,
    part::{answer, maybe, Answer, Call, Original, Part},
    sender::session_state::{State, Summary, Watch},
};

/// Threshold, timeout.
const FRESH: u64 = 0;
/// Sequence, time.
const SENT: u64 = 1;
/// Sequence.
const REPLY: u64 = 2;
/// Now.
const ADVANCE: u64 = 3;
const IDLE: u64 = 4;
/// Losses and the three notification counts, as a host could hand them over.
const LOAD: u64 = 5;
/// Place in the queue: the probe there is shown.
const SHOW: u64 = 6;
/// A call whose last word is 1 answers with the queue's digests too.
const DIGEST: usize = 7;

/// The original's side; hosted.rs has the port's, in this process.
pub const PART: Part = Part {
    name: "host_monitor",
    program: "-",
    here: None,
    call_words: 8,
    answer_words: 16,
    lines: &LINES,
    fresh: || Box::new(Watched(Watch::fresh(1, 0))),
    scripts: scripts::scripts,
    sample: |_| vec![],
    show,
    answer: &[
        "refusal",
        "notified",
        "state",
        "threshold",
        "losses",
        "active notifications",
        "failed notifications",
        "idle notifications",
        "transmitting",
        "queued",
        "1 if there is a deadline",
        "deadline",
        "first digest, or sequence",
        "second digest, or deadline",
        "timeout, or mark",
    ],
};

const LINES: [&str; 40] = [
    "fresh: threshold 0 counts as 1",
    "fresh: threshold above 0",
    "sent: timeout 0 queues nothing",
    "sent: queued",
    "sent: a second copy is queued",
    "sent: marks a queued copy again",
    "sent: deadline 2^64-1",
    "sent: deadline before the one in front",
    "sent: queue becomes full",
    "sent: refused 6",
    "sent: refused 4",
    "sent: refused 3",
    "sent: refused 6 before 4",
    "sent: refused 6 before 3",
    "sent: refused 4 before 3",
    "reply: not transmitting",
    "reply: marked, alone popped",
    "reply: marked, earlier probes popped",
    "reply: marked, a second copy stays unmarked",
    "reply: queued and not marked",
    "reply: not queued",
    "reply: Idle to Active",
    "reply: Failed to Active",
    "reply: Active stays",
    "reply: ends a run of losses",
    "reply: refused 4",
    "advance: nothing queued",
    "advance: front is not due",
    "advance: a due probe waits behind the front",
    "advance: deadline is now",
    "advance: several due",
    "advance: losses below the threshold",
    "advance: Failed at the threshold",
    "advance: Failed stays",
    "advance: losses saturate",
    "advance: refused 4",
    "idle: transmitting in Idle notifies, losses kept",
    "idle: Active or Failed to Idle",
    "idle: nothing to stop",
    "idle: refused 4",
];

struct Watched(Watch);

fn number(state: State) -> u64 {
    match state {
        State::Idle => 0,
        State::Active => 1,
        State::Failed => 2,
    }
}

/// 0, or 1 for Active, 2 for Failed, 3 for Idle.
pub fn notified(before: &Summary, after: &Summary) -> u64 {
    let active = after.active_notifications - before.active_notifications;
    let failed = after.failed_notifications - before.failed_notifications;
    let idle = after.idle_notifications - before.idle_notifications;
    assert!(active + failed + idle <= 1, "two notifications in one call");
    active + 2 * failed + 3 * idle
}

/// The queue's digests: each probe's sequence, deadline and whether its sequence is marked.
pub fn digest(queue: impl Iterator<Item = (u32, u64, bool)>) -> Digest {
    queue.fold(Digest::default(), |d, (sequence, deadline, mark)| {
        d.then(u64::from(sequence) | u64::from(mark) << 32)
            .then(deadline)
    })
}

impl Original for Watched {
    fn play(&mut self, call: &mut Call, cover: &mut Cover) -> Answer {
        match call[0] {
            FRESH => {
                let threshold = call[1] as u16;
                self.0 = Watch::fresh(threshold, call[2]);
                cover.reached_if(threshold == 0, "fresh: threshold 0 counts as 1");
                cover.reached_if(threshold > 0, "fresh: threshold above 0");
                return self.shown(0, 0, call);
            }
            LOAD => {
                self.0.load(call[1] as u32, call[2], call[3], call[4]);
                return self.shown(0, 0, call);
            }
            SHOW => return self.probe(call),
            _ => {}
        }
        let refusal = self.refusal(call, cover);
        if refusal != 0 {
            return self.shown(refusal, 0, call);
        }
        let before = self.0.summary();
        match call[0] {
            SENT => self.sent(call[1] as u32, call[2], cover),
            REPLY => self.reply(call[1] as u32, cover),
            ADVANCE => self.advance(call[1], cover),
            _ => self.idle(cover),
        }
        let notified = notified(&before, &self.0.summary());
        self.shown(0, notified, call)
    }
}

impl Watched {
    fn refusal(&self, call: &Call, cover: &mut Cover) -> u64 {
        let w = &self.0;
        let s = w.summary();
        let counts = [
            s.active_notifications,
            s.failed_notifications,
            s.idle_notifications,
        ];
        let full = counts.iter().any(|c| *c >= COUNT_BOUND);
        let sent = call[0] == SENT;
        let passes = sent && call[2].checked_add(w.timeout()).is_none();
        let queue_full = sent && w.timeout() > 0 && w.queued() == CAPACITY;
        cover.reached_if(passes, "sent: refused 6");
        cover.reached_if(passes && full, "sent: refused 6 before 4");
        cover.reached_if(passes && queue_full, "sent: refused 6 before 3");
        if passes {
            return DEADLINE_PASSES;
        }
        if full {
            cover.reached_if(queue_full, "sent: refused 4 before 3");
            cover.reached(match call[0] {
                SENT => "sent: refused 4",
                REPLY => "reply: refused 4",
                ADVANCE => "advance: refused 4",
                _ => "idle: refused 4",
            });
            return COUNTS_FULL;
        }
        cover.reached_if(queue_full, "sent: refused 3");
        if queue_full {
            QUEUE_FULL
        } else {
            0
        }
    }

    fn sent(&mut self, sequence: u32, time: u64, cover: &mut Cover) {
        let queued = self.0.queued();
        if self.0.timeout() == 0 {
            cover.reached("sent: timeout 0 queues nothing");
        } else {
            let copy = self.0.queue().find(|p| p.0 == sequence);
            let deadline = time + self.0.timeout();
            cover.reached("sent: queued");
            cover.reached_if(copy.is_some(), "sent: a second copy is queued");
            cover.reached_if(
                copy.is_some_and(|p| !p.2),
                "sent: marks a queued copy again",
            );
            cover.reached_if(deadline == u64::MAX, "sent: deadline 2^64-1");
            let front = self.0.deadline();
            cover.reached_if(
                front.is_some_and(|f| deadline < f),
                "sent: deadline before the one in front",
            );
            cover.reached_if(queued + 1 == CAPACITY, "sent: queue becomes full");
        }
        self.0.sent(sequence, time);
    }

    fn reply(&mut self, sequence: u32, cover: &mut Cover) {
        let state = self.0.summary().state;
        let place = self.0.queue().position(|p| p.0 == sequence);
        let marked = self.0.marked(sequence);
        let copies = self.0.queue().filter(|p| p.0 == sequence).count();
        if !self.0.transmitting() {
            cover.reached("reply: not transmitting");
        } else {
            let losses = self.0.summary().consecutive_losses;
            cover.reached_if(marked && place == Some(0), "reply: marked, alone popped");
            cover.reached_if(
                marked && place > Some(0),
                "reply: marked, earlier probes popped",
            );
            cover.reached_if(
                marked && copies > 1,
                "reply: marked, a second copy stays unmarked",
            );
            cover.reached_if(place.is_some() && !marked, "reply: queued and not marked");
            cover.reached_if(place.is_none(), "reply: not queued");
            cover.reached_if(losses > 0, "reply: ends a run of losses");
            cover.reached(match state {
                State::Idle => "reply: Idle to Active",
                State::Failed => "reply: Failed to Active",
                State::Active => "reply: Active stays",
            });
        }
        self.0.reply(sequence);
    }

    fn advance(&mut self, now: u64, cover: &mut Cover) {
        let before = self.0.summary();
        let front = self.0.deadline();
        let queued = self.0.queued();
        cover.reached_if(front.is_none(), "advance: nothing queued");
        cover.reached_if(front.is_some_and(|f| f > now), "advance: front is not due");
        let due = front.is_some_and(|f| f > now) && self.0.queue().any(|p| p.1 <= now);
        cover.reached_if(due, "advance: a due probe waits behind the front");
        cover.reached_if(front == Some(now), "advance: deadline is now");
        self.0.advance(now);
        let popped = queued - self.0.queued();
        let after = self.0.summary();
        cover.reached_if(popped > 1, "advance: several due");
        if popped == 0 {
            return;
        }
        let full = u64::from(before.consecutive_losses) + popped as u64 > u64::from(u32::MAX);
        cover.reached_if(full, "advance: losses saturate");
        match (before.state, after.state) {
            (State::Failed, _) => cover.reached("advance: Failed stays"),
            (_, State::Failed) => cover.reached("advance: Failed at the threshold"),
            _ => cover.reached("advance: losses below the threshold"),
        }
    }

    fn idle(&mut self, cover: &mut Cover) {
        let before = self.0.summary();
        let transmitting = self.0.transmitting();
        if before.state != State::Idle {
            cover.reached("idle: Active or Failed to Idle");
        } else if transmitting {
            cover.reached_if(
                before.consecutive_losses > 0,
                "idle: transmitting in Idle notifies, losses kept",
            );
        } else {
            cover.reached("idle: nothing to stop");
        }
        self.0.idle();
    }

    fn shown(&self, refusal: u64, notified: u64, call: &Call) -> Answer {
        let w = &self.0;
        let s = w.summary();
        let deadline = maybe(w.deadline());
        let d = if call[DIGEST] == 1 {
            digest(w.queue())
        } else {
            Digest::default()
        };
        answer(&[
            refusal,
            notified,
            number(s.state),
            u64::from(s.loss_threshold),
            u64::from(s.consecutive_losses),
            s.active_notifications,
            s.failed_notifications,
            s.idle_notifications,
            u64::from(w.transmitting()),
            w.queued() as u64,
            deadline[0],
            deadline[1],
            d.first,
            d.second,
            w.timeout(),
        ])
    }

    fn probe(&self, call: &Call) -> Answer {
        let mut whole = self.shown(0, 0, &[0; 16]);
        let probe = self
            .0
            .queue()
            .nth(call[1] as usize)
            .unwrap_or((0, 0, false));
        whole[12] = u64::from(probe.0);
        whole[13] = probe.1;
        whole[14] = u64::from(probe.2);
        whole
    }
}

fn show(call: &Call) -> String {
    match call[0] {
        FRESH => format!("fresh threshold {} timeout {}", call[1], call[2]),
        SENT => format!("sent {} at {}", call[1], call[2]),
        REPLY => format!("reply {}", call[1]),
        ADVANCE => format!("advance {}", call[1]),
        IDLE => "idle".into(),
        LOAD => format!("load losses {} counts {:?}", call[1], &call[2..5]),
        _ => format!("show place {}", call[1]),
    }
}
