//! What a call on the ledger reached, worked out from the original's state before and after it.
use super::{super::CAPACITY, Booked};
use crate::{
    cover::Cover,
    part::Answer,
    sender::measurements::{MeasurementSummary, Told},
};

pub const LINES: [&str; 85] = [
    "fresh: copies 0 counts as 1",
    "fresh: copies above 1",
    "fresh: with a monitor",
    "fresh: without a monitor",
    "sent: a new sequence",
    "sent: a held sequence again",
    "sent: evicts a probe",
    "sent: evicts an unanswered probe",
    "sent: evicts an answered probe",
    "sent: refused 5",
    "sent: refused 5 for the queue",
    "sent: refused 6",
    "sent: refused 4",
    "sent: refused 3",
    "accept: duplicate",
    "accept: unknown",
    "accept: unheld probe with a pending packet",
    "accept: that evicts a probe",
    "accept: that evicts an unanswered probe",
    "accept: a train",
    "accept: pending packet replaces the stored one",
    "accept: first reply",
    "accept: first reply, late",
    "accept: additional reply",
    "accept: reply beyond the copies",
    "accept: independent reflector",
    "accept: first reflector number",
    "accept: reflector step 0",
    "accept: reflector step 2^31-1",
    "accept: reflector step 2^31",
    "accept: new highest reflector",
    "accept: reordered",
    "accept: evicts a key",
    "accept: evicts a key, slot count falls",
    "accept: evicts a key, slot freed",
    "accept: evicts a key that was not observed and lowers a slot",
    "accept: evicts a key without a slot",
    "accept: takes the place of a key that awaits",
    "accept: no ordinal",
    "accept: refused 5",
    "accept: refused 4",
    "observe: refused 5",
    "observe: refused 1 for T4",
    "observe: refused 1 for the reference",
    "observe: refused 1 for the offset",
    "observe: refused 4",
    "observe: refused 2",
    "observe: refused 1 before 2",
    "observe: counters without an ordinal",
    "direct: sender count other than the ordinal",
    "direct: both reflector counts 0",
    "direct: becomes the anchor",
    "direct: discontinuity by R_TxC",
    "direct: discontinuity by S_TxC",
    "direct: discontinuity by R_RxC",
    "direct: seen offset",
    "direct: history exceeded",
    "direct: reordered",
    "direct: a new highest",
    "direct: received maximum moves",
    "direct: sender maximum moves",
    "direct: forward missing negative",
    "direct: anchor anew after a break",
    "follow-up: unavailable, unknown mode",
    "follow-up: unavailable, timestamp 0",
    "follow-up: ambiguous, its own reflector",
    "follow-up: unmatched",
    "follow-up: ambiguous, count not 1",
    "follow-up: ambiguous, no record",
    "follow-up: repeated",
    "follow-up: unavailable, T4 absent",
    "follow-up: unavailable, T3 not converted",
    "follow-up: unavailable, T3 out of range",
    "follow-up: matched",
    "follow-up: matched, negative delay",
    "slot: made with a record",
    "slot: made, record withheld",
    "slot: count rises, record dropped",
    "slot: made anew for a freed number",
    "monitor: advance",
    "monitor: idle",
    "shown: no figure of loss",
    "shown: no figure of loss, and replies",
    "shown: a loss of 0",
    "shown: a loss above 0",
];

impl Booked {
    pub fn reached_by_eviction(
        &mut self,
        old: (u32, u32, u64),
        slot: Option<usize>,
        cover: &mut Cover,
    ) {
        let unobserved = self.unobserved.remove(&old);
        cover.reached("accept: evicts a key");
        match slot {
            None => cover.reached("accept: evicts a key without a slot"),
            Some(1) => {
                self.freed.insert(old.1);
                cover.reached("accept: evicts a key, slot freed");
            }
            Some(_) => cover.reached("accept: evicts a key, slot count falls"),
        }
        cover.reached_if(
            unobserved && slot.is_some(),
            "accept: evicts a key that was not observed and lowers a slot",
        );
    }

    /// The class of a follow-up whose timestamp is not come to.
    pub fn follow_line(&self, told: &Told, open: bool) -> Option<&'static str> {
        let follow = told.follow.filter(|_| !open)?;
        if follow.unknown {
            return Some("follow-up: unavailable, unknown mode");
        }
        if follow.timestamp == 0 {
            return Some("follow-up: unavailable, timestamp 0");
        }
        if follow.sequence == told.key.1 {
            return Some("follow-up: ambiguous, its own reflector");
        }
        Some(match self.ledger.slot(follow.sequence) {
            None => "follow-up: unmatched",
            Some((1, _, None)) => "follow-up: ambiguous, no record",
            Some((1, ..)) => "follow-up: repeated",
            Some(_) => "follow-up: ambiguous, count not 1",
        })
    }

    pub fn reached_by_direct(&mut self, told: &Told, cover: &mut Cover) {
        let Some((sender, rx, tx)) = told.counters else {
            return;
        };
        let Some(ordinal) = told.ordinal else {
            cover.reached("observe: counters without an ordinal");
            return;
        };
        if sender != ordinal {
            cover.reached("direct: sender count other than the ordinal");
            return;
        }
        let Some(anchor) = self.ledger.snapshot().direct_measurement.anchor else {
            cover.reached_if(rx == 0 && tx == 0, "direct: both reflector counts 0");
            if rx != 0 || tx != 0 {
                cover.reached("direct: becomes the anchor");
                cover.reached_if(self.broken, "direct: anchor anew after a break");
            }
            return;
        };
        let back = |count: u32, from: u32| count.wrapping_sub(from) >= 1 << 31;
        let breaks = [
            (
                back(tx, anchor.reflector_tx),
                "direct: discontinuity by R_TxC",
            ),
            (
                back(sender, anchor.sender_tx),
                "direct: discontinuity by S_TxC",
            ),
            (
                back(rx, anchor.reflector_rx),
                "direct: discontinuity by R_RxC",
            ),
        ];
        for (holds, line) in breaks {
            cover.reached_if(holds, line);
        }
        let broken = breaks.iter().any(|b| b.0);
        self.broken |= broken;
        let seen = self.ledger.has_seen(tx.wrapping_sub(anchor.reflector_tx));
        cover.reached_if(!broken && seen, "direct: seen offset");
        let exceeded = !broken && !seen && self.ledger.seen_count() == CAPACITY;
        cover.reached_if(exceeded, "direct: history exceeded");
        if broken || seen || exceeded {
            return;
        }
        let high = self.ledger.direct().0.wrapping_sub(anchor.reflector_tx);
        let offset = tx.wrapping_sub(anchor.reflector_tx);
        cover.reached_if(offset < high, "direct: reordered");
        cover.reached_if(offset > high, "direct: a new highest");
    }

    pub fn reached_by_direct_after(
        &self,
        told: &Told,
        before: &MeasurementSummary,
        after: &MeasurementSummary,
        cover: &mut Cover,
    ) {
        let (b, a) = (&before.direct_measurement, &after.direct_measurement);
        if told.counters.is_none() || a.anchor.is_none() {
            return;
        }
        let rx = b.reflector_received.is_some() && a.reflector_received > b.reflector_received;
        cover.reached_if(rx, "direct: received maximum moves");
        let sender = b.sender_packets.is_some() && a.sender_packets > b.sender_packets;
        cover.reached_if(sender, "direct: sender maximum moves");
        let negative = a.sender_packets.is_some() && a.forward_missing.is_none();
        cover.reached_if(negative, "direct: forward missing negative");
    }
}

/// The words of the snapshot's first two groups: unique replies and thousandths, 0 where these are absent.
pub fn reached_by_loss(answer: &Answer, cover: &mut Cover) {
    let (unique, thousandths) = (answer[17], answer[31]);
    cover.reached_if(thousandths == 0, "shown: no figure of loss");
    let replies = thousandths == 0 && unique > 0;
    cover.reached_if(replies, "shown: no figure of loss, and replies");
    cover.reached_if(thousandths == 1 << 32, "shown: a loss of 0");
    cover.reached_if(thousandths > 1 << 32, "shown: a loss above 0");
}

pub fn reached_by_step(highest: Option<u32>, reflector: u32, cover: &mut Cover) {
    let Some(highest) = highest else {
        cover.reached("accept: first reflector number");
        return;
    };
    let step = reflector.wrapping_sub(highest);
    cover.reached_if(step == 0, "accept: reflector step 0");
    cover.reached_if(step == (1 << 31) - 1, "accept: reflector step 2^31-1");
    cover.reached_if(step == 1 << 31, "accept: reflector step 2^31");
    let ahead = step != 0 && step < 1 << 31;
    cover.reached_if(ahead, "accept: new highest reflector");
    cover.reached_if(step >= 1 << 31, "accept: reordered");
}
