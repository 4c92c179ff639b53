// The log and the report, which the original has not.
use crate::table::Table;
use ambrulicciu::{calls, calls::Queued, Accepted, Key, Link, Log, Observation, Packet, Rooms, Settings, RECORDS, ROWS};
use std::hint::black_box;

pub fn rows(table: &mut Table) {
    let mut record = [0; 96];
    let told = Observation::of(Key { sender: 7, reflector: 7, t3: 5 }, 50).told();
    table.alone("`log_write_sent`", 20_000, || {
        calls::log_write_sent(black_box(&mut record), black_box(7), 1, 0, 100, 5);
    });
    table.alone("`log_write_accept`", 20_000, || {
        calls::log_write_accept(black_box(&mut record), black_box(7), 7, 5, 1, 100, 5);
    });
    table.alone("`log_write_observe`", 20_000, || {
        calls::log_write_observe(black_box(&mut record), black_box(&told));
    });
    let (log, link) = made();
    let mut settings = [0; 4];
    table.alone("`log_check`, 681 records", 20, || {
        calls::log_check(black_box(&log), black_box(&mut settings));
    });
    let (mut room, mut cut) = (vec![0; 65536], [0; 3]);
    table.alone("`log_trim`, 681 records and a whole trailer", 20, || {
        calls::log_trim(black_box(&log), 1, 0, 0, black_box(&mut room), &mut cut);
    });
    table.alone("`log_trim`, 681 records, the trailer cut off", 20, || {
        calls::log_trim(black_box(&log[..log.len() - 1]), 1, 0, 0, black_box(&mut room), &mut cut);
    });
    let (mut text, mut length, mut rooms, mut queue) = ([0; 1024], [0], Rooms::new(), vec![Queued::default(); ROWS]);
    let Rooms { keys, slots, probes, offsets, links } = &mut rooms;
    table.alone("`report_log`, 681 records", 5, || {
        calls::report_log(black_box(&log), &[1; 8], keys, slots, probes, offsets, links, &mut queue, black_box(&mut text), &mut length);
    });
    let (mut marks, mut fronts) = ([0; RECORDS], [0; RECORDS]);
    table.alone("`recount_log`, 681 records", 1, || {
        calls::recount_log(black_box(&log), &mut marks, &mut fronts, black_box(&mut text), &mut length);
    });
    table.alone("`report_link`", 2000, || {
        calls::report_link(black_box(&link.ledger), &[0; 12], 0, 681, 0, black_box(&mut text), &mut length);
    });
}

// A log of sent, accept and observe in turn, and the link after it.
fn made() -> (Vec<u8>, Link) {
    let mut log = Log::new(Settings { copies: 1, threshold: 0, timeout: 0 });
    let mut link = Link::new(1, &[1; 8]);
    for n in 1..=227u32 {
        let (key, packet) = (Key { sender: n, reflector: n, t3: n.into() }, Packet { time: n.into(), tag: 0 });
        log.sent(n, n, 0, packet);
        link.sent(n, n, 0, packet).expect("served");
        log.accept(key, Some(packet));
        assert!(matches!(link.accept(key, Some(packet)), Ok(Accepted::Unique(..))));
        let observation = Observation::of(key, 20_000_000);
        log.observe(&observation);
        link.observe(&observation).expect("served");
    }
    (log.bytes().expect("a log"), link)
}
