// A stopwatch for one call among others. On x86-64 it is the processor's time stamp, with fences so that no call runs outside its pair of
// stamps; elsewhere the system's clock.
use std::time::Instant;

pub struct Stopwatch {
    began: (Instant, u64),
    ticks: u64,
}

#[cfg(target_arch = "x86_64")]
fn stamp(_: Instant) -> u64 {
    use std::arch::x86_64::{_mm_lfence, _rdtsc};
    // Both are there on every x86-64 machine and touch no memory.
    unsafe {
        _mm_lfence();
        let now = _rdtsc();
        _mm_lfence();
        now
    }
}

#[cfg(not(target_arch = "x86_64"))]
fn stamp(began: Instant) -> u64 {
    began.elapsed().as_nanos() as u64
}

impl Stopwatch {
    pub fn new() -> Stopwatch {
        let began = Instant::now();
        Stopwatch { began: (began, stamp(began)), ticks: 0 }
    }

    #[inline(always)]
    pub fn around<T>(&mut self, call: impl FnOnce() -> T) -> T {
        let start = stamp(self.began.0);
        let answer = call();
        self.ticks += stamp(self.began.0) - start;
        answer
    }

    // What passed inside the pairs; the stamps' own unit is read off the time since the start.
    pub fn nanoseconds(&self) -> f64 {
        let passed = stamp(self.began.0) - self.began.1;
        self.ticks as f64 * self.began.0.elapsed().as_nanos() as f64 / passed as f64
    }
}
