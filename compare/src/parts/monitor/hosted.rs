//! The port's side of part `host_monitor`: the scripts through the library that hosts link, in this process.
use super::{digest, ADVANCE, DIGEST, FRESH, IDLE, LOAD, PART, REPLY, SENT, SHOW};
use crate::part::Part;
use ambrulicciu::{calls, calls::Queued, Watch};
use std::collections::HashSet;

pub const HOSTED: Part = Part {
    here: Some(play),
    ..PART
};

/// Words of the monitor.
const LOSSES: usize = 2;
const TIMEOUT: usize = 6;
const TRANSMITTING: usize = 7;
const HEAD: usize = 8;
const QUEUED: usize = 9;

fn play(given: &[u8]) -> Vec<u8> {
    let mut watch = Watch::new(1, 0);
    let mut written = Vec::with_capacity(2 * given.len());
    for bytes in given.chunks_exact(64) {
        let words = bytes.chunks_exact(8);
        let call: Vec<u64> = words
            .map(|b| u64::from_le_bytes(b.try_into().unwrap()))
            .collect();
        for word in one(&mut watch, &call) {
            written.extend_from_slice(&word.to_le_bytes());
        }
    }
    written
}

fn summary(watch: &Watch) -> [u64; 6] {
    let mut shown = [u64::MAX; 6];
    calls::monitor_summary(&watch.monitor, &mut shown);
    shown
}

fn made(watch: &mut Watch, call: &[u64]) -> u8 {
    let Watch { monitor, queue } = watch;
    match call[0] {
        SENT => calls::monitor_sent(monitor, queue, call[1] as u32, call[2]),
        REPLY => calls::monitor_reply(monitor, queue, call[1] as u32),
        ADVANCE => calls::monitor_advance(monitor, queue, call[1]),
        IDLE => calls::monitor_idle(monitor),
        FRESH => {
            *watch = Watch::new(call[1] as u16, call[2]);
            // A queue may hold anything.
            watch.queue.fill(Queued {
                sequence: 5,
                deadline: 5,
                mark: u32::MAX,
            });
            0
        }
        LOAD => {
            monitor[LOSSES..LOSSES + 4].copy_from_slice(&call[1..5]);
            0
        }
        SHOW => 0,
        operation => panic!("no operation {operation}"),
    }
}

fn one(watch: &mut Watch, call: &[u64]) -> [u64; 16] {
    let before = summary(watch);
    let refusal = made(watch, call);
    let after = summary(watch);
    let rose = |count: usize| u64::from(after[count] > before[count]);
    let changed = [FRESH, LOAD].contains(&call[0]);
    let notified = if changed {
        0
    } else {
        rose(3) + 2 * rose(4) + 3 * rose(5)
    };
    let mut deadline = [u64::MAX; 2];
    calls::monitor_deadline(&watch.monitor, &watch.queue, &mut deadline);
    let (mut first, mut second, mut third) = (0, 0, watch.monitor[TIMEOUT]);
    if call[0] == SHOW {
        let probe = queue(watch).into_iter().nth(call[1] as usize);
        let (sequence, at, marked) = probe.unwrap_or((0, 0, false));
        (first, second, third) = (sequence.into(), at, marked.into());
    } else if call[DIGEST] == 1 {
        let d = digest(queue(watch).into_iter());
        (first, second) = (d.first, d.second);
    }
    let [state, threshold, losses, active, failed, idle] = after;
    let m = &watch.monitor;
    [
        refusal.into(),
        notified,
        state,
        threshold,
        losses,
        active,
        failed,
        idle,
        m[TRANSMITTING],
        m[QUEUED],
        deadline[0],
        deadline[1],
        first,
        second,
        third,
        0,
    ]
}

/// Each queued probe, oldest first: its sequence, its deadline, and whether the sequence is marked.
fn queue(watch: &Watch) -> Vec<(u32, u64, bool)> {
    let (head, len) = (watch.monitor[HEAD] as usize, watch.monitor[QUEUED] as usize);
    let rows: Vec<&Queued> = (0..len)
        .map(|place| &watch.queue[(head + place) % 4096])
        .collect();
    let marked: HashSet<u32> = rows
        .iter()
        .filter(|p| p.mark != 0)
        .map(|p| p.sequence)
        .collect();
    rows.iter()
        .map(|p| (p.sequence, p.deadline, marked.contains(&p.sequence)))
        .collect()
}
