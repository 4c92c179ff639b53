// Many watched links at once, as a yard has them: each call goes to the next link, so that it finds little of its link in the caches. All tables are full, and no
// two neighbours stand at the same place of their rings. Each side has all its links at the same time; both must show the same figures in the end.
use crate::{
    ledger::{same, t3, words, Ours, FULL},
    sender::measurements::Timed,
    table::Table,
};
use std::{fs, hint::black_box, time::Instant};

// What a link is told, on either side.
trait Told {
    fn new() -> Self;
    fn sent(&mut self, n: u64);
    fn accept(&mut self, n: u64);
    fn observe(&mut self, n: u64);
}

macro_rules! told {
    ($side:ty, $fresh:expr) => {
        impl Told for $side {
            fn new() -> Self {
                $fresh
            }
            fn sent(&mut self, n: u64) {
                self.sent(n as u32, n as u32, n);
            }
            fn accept(&mut self, n: u64) {
                assert!(self.accept(n as u32, n as u32, t3(n)));
            }
            fn observe(&mut self, n: u64) {
                self.observe(black_box(&words(n as u32, n, false)));
            }
        }
    };
}
told!(Ours, Ours::watched());
told!(Timed, Timed::watched(1));

// A link, and how many turns it has had.
struct One<T> {
    link: T,
    turns: u64,
}

const ROUNDS: usize = 40;
const CALLS: [&str; 4] = ["`watched_sent`", "`watched_accept`, unique", "`observe`, all that it can be told", "these three, one link after the other"];

// Links with full tables, and the bytes of memory that each took.
fn yard<T: Told>(count: usize) -> (Vec<One<T>>, u64) {
    let before = resident();
    let mut links: Vec<_> = (0..count).map(|_| One { link: T::new(), turns: 0 }).collect();
    for (k, one) in links.iter_mut().enumerate() {
        for _ in 0..FULL + (61 * k as u64) % 4096 {
            turn(one);
        }
    }
    (links, (resident() - before) / count as u64)
}

fn turn<T: Told>(one: &mut One<T>) {
    one.turns += 1;
    let n = black_box(one.turns);
    one.link.sent(n);
    one.link.accept(n);
    one.link.observe(n);
}

// One call to each link.
fn each<T: Told>(links: &mut [One<T>], call: impl Fn(&mut One<T>)) -> f64 {
    let start = Instant::now();
    links.iter_mut().for_each(call);
    start.elapsed().as_nanos() as f64 / links.len() as f64
}

// A round of each kind of call to each link, then all three to each link; ns a call, and a turn.
fn round<T: Told>(links: &mut [One<T>]) -> [f64; 4] {
    let sent = each(links, |one| {
        one.turns += 1;
        one.link.sent(black_box(one.turns));
    });
    let accept = each(links, |one| one.link.accept(black_box(one.turns)));
    let observe = each(links, |one| one.link.observe(black_box(one.turns)));
    [sent, accept, observe, each(links, turn)]
}

pub fn rows(table: &mut Table, count: usize) {
    let (mut ours, our_bytes) = yard::<Ours>(count);
    eprintln!("bench: {count} links of this core, {our_bytes} bytes of memory each");
    let (mut originals, original_bytes) = yard::<Timed>(count);
    eprintln!("bench: {count} links of the original, {original_bytes} bytes of memory each");
    let (mut a, mut b) = ([f64::MAX; 4], [f64::MAX; 4]);
    for _ in 0..ROUNDS {
        for (least, now) in a.iter_mut().zip(round(&mut ours)).chain(b.iter_mut().zip(round(&mut originals))) {
            *least = least.min(now);
        }
    }
    for (k, name) in CALLS.iter().enumerate() {
        table.keep(&format!("{name}; {count} links in turn, full tables"), a[k], Some(b[k]));
    }
    table.note(format!("memory of a link with full tables, bytes: {our_bytes}; the original's {original_bytes}"));
    for (one, original) in ours.iter().zip(&originals) {
        same(&one.link, &original.link);
    }
}

// Bytes of memory that this process has, as the system counts pages of 4,096; 0 where it does not say.
fn resident() -> u64 {
    let pages = fs::read_to_string("/proc/self/statm").unwrap_or_default();
    pages.split(' ').nth(1).and_then(|n| n.parse::<u64>().ok()).unwrap_or(0) * 4096
}

// For bench/lines, which reads a trace of all memory that this touches: one link of each side at full tables, and a line on standard output around each call.
pub fn lines(turns: usize) {
    traced::<Ours>("ours", turns);
    traced::<Timed>("original", turns);
}

fn traced<T: Told>(side: &str, turns: usize) {
    let (mut links, _) = yard::<T>(1);
    let One { link, turns: n } = &mut links[0];
    let local = 0u8;
    println!("== stack {:p}", &local);
    for _ in 0..turns {
        *n += 1;
        around(side, "nothing", || {});
        around(side, "watched_sent", || link.sent(black_box(*n)));
        around(side, "watched_accept", || link.accept(black_box(*n)));
        around(side, "observe", || link.observe(black_box(*n)));
    }
}

fn around(side: &str, name: &str, call: impl FnOnce()) {
    println!("== begin {side} {name}");
    call();
    println!("== end");
}
