// src/sender/session_state.rs: the monitor on its own. The original is told moments as its `Instant`.
use crate::{sender::session_state::Timing, table::Table};
use ambrulicciu::{calls, Watch};
use std::hint::black_box;

const FLYING: u32 = 16;
const SECOND: u64 = 1_000_000_000;

pub fn rows(table: &mut Table) {
    let mut monitor = [0; 12];
    let mut timing = Timing::new();
    table.row(
        "`monitor_fresh`",
        1000,
        1,
        || {
            calls::monitor_fresh(black_box(&mut monitor), 3, SECOND);
        },
        || black_box(&mut timing).fresh(),
    );
    stream(table);
    drain(table);
    readers(table);
}

// A probe is sent, and the reply to the probe 16 before it comes; nothing is ever due.
fn stream(table: &mut Table) {
    let (mut ours, mut original) = (Watch::new(3, SECOND), Timing::new());
    let (mut i, mut j) = (0u32, 0u32);
    table.row(
        "`monitor_sent`, `monitor_reply` and `monitor_advance` with nothing due, 16 probes queued",
        20_000,
        1,
        || {
            i += 1;
            let Watch { monitor, queue } = &mut ours;
            assert_eq!(calls::monitor_sent(monitor, queue, black_box(i), 5), 0);
            assert_eq!(calls::monitor_advance(monitor, queue, black_box(6)), 0);
            assert_eq!(calls::monitor_reply(monitor, queue, black_box(i.wrapping_sub(FLYING))), 0);
        },
        || {
            j += 1;
            original.sent(black_box(j), 5);
            original.advance(black_box(6));
            original.reply(black_box(j.wrapping_sub(FLYING)));
        },
    );
    let shown = ours.session().expect("a session");
    assert_eq!((shown.state as u64, shown.active), original.shown());
}

// 4,096 probes are sent and then are all due at once; the figure is that of the one call.
fn drain(table: &mut Table) {
    let (mut ours, mut original) = (Watch::new(3, 1), Timing::new());
    original.at_once();
    table.stamped(
        "`monitor_advance`, 4,096 probes due at once",
        20,
        |watch| {
            let Watch { monitor, queue } = &mut ours;
            for i in 0..4096 {
                assert_eq!(calls::monitor_sent(monitor, queue, i, 5), 0);
            }
            watch.around(|| assert_eq!(calls::monitor_advance(monitor, queue, black_box(6)), 0));
        },
        Some(&mut |watch| {
            for i in 0..4096 {
                original.sent(i, 5);
            }
            watch.around(|| original.advance(black_box(6)));
        }),
    );
}

fn readers(table: &mut Table) {
    let (mut ours, mut original) = (Watch::new(3, SECOND), Timing::new());
    assert_eq!(calls::monitor_sent(&mut ours.monitor, &mut ours.queue, 1, 5), 0);
    original.sent(1, 5);
    let mut answer = [0; 2];
    table.row(
        "`monitor_deadline`",
        20_000,
        1,
        || {
            calls::monitor_deadline(black_box(&ours.monitor), &ours.queue, black_box(&mut answer));
        },
        || {
            black_box(black_box(&original).deadline());
        },
    );
    let mut shown = [0; 6];
    table.row(
        "`monitor_summary`",
        20_000,
        1,
        || {
            calls::monitor_summary(black_box(&ours.monitor), black_box(&mut shown));
        },
        || {
            black_box(black_box(&original).summary());
        },
    );
    table.row(
        "`monitor_idle`, after one `monitor_sent`: both",
        20_000,
        1,
        || {
            let Watch { monitor, queue } = &mut ours;
            calls::monitor_sent(monitor, queue, black_box(1), 5);
            calls::monitor_idle(black_box(monitor));
        },
        || {
            original.sent(black_box(1), 5);
            black_box(&mut original).idle();
        },
    );
}
