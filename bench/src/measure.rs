//! Measuring by turns: in each round every way of every line works for about a fifth of a second of CPU time, the ways of a
//! line one right after the other, so that what slows the machine slows all of them.

use std::ffi::{c_int, c_long};
use std::hint::black_box;

#[repr(C)]
struct TimeSpec {
    seconds: c_long,
    nanoseconds: c_long,
}

extern "C" {
    fn clock_gettime(clock: c_int, time: *mut TimeSpec) -> c_int;
}

const CLOCK_PROCESS_CPUTIME_ID: c_int = 2;
const SAMPLE_SECONDS: f64 = 0.2;

/// The CPU time of this process so far.
fn cpu_seconds() -> f64 {
    let mut time = TimeSpec { seconds: 0, nanoseconds: 0 };
    // SAFETY: the pointer is to a timespec of Linux on x86-64.
    let failed = unsafe { clock_gettime(CLOCK_PROCESS_CPUTIME_ID, &mut time) };
    assert_eq!(failed, 0, "no clock of CPU time");
    time.seconds as f64 + time.nanoseconds as f64 / 1e9
}

/// One way to do a line's work.
pub struct Way<'a> {
    pub name: String,
    work: Box<dyn FnMut() + 'a>,
    calls: u32,
    /// What was done in a second, a figure for each round.
    pub rates: Vec<f64>,
}

impl<'a> Way<'a> {
    pub fn new<T>(name: &str, mut work: impl FnMut() -> T + 'a) -> Way<'a> {
        let work = move || {
            black_box(work());
        };
        Way { name: name.into(), work: Box::new(work), calls: 0, rates: Vec::new() }
    }

    fn seconds(&mut self, calls: u32) -> f64 {
        let begin = cpu_seconds();
        for _ in 0..calls {
            (self.work)();
        }
        cpu_seconds() - begin
    }

    /// Doubles the calls until a sample is long enough, then makes it about as long as it should be.
    fn calibrate(&mut self) {
        let mut calls = 1;
        let mut seconds = self.seconds(calls);
        while seconds < SAMPLE_SECONDS / 4.0 {
            calls *= 2;
            seconds = self.seconds(calls);
        }
        self.calls = (f64::from(calls) * SAMPLE_SECONDS / seconds).ceil() as u32;
    }
}

/// A line of the table. The library's way is the first.
pub struct Line<'a> {
    pub what: &'static str,
    /// How much of the line's unit the work does each time.
    pub amount: f64,
    pub ways: Vec<Way<'a>>,
}

pub fn measure(lines: &mut [Line], rounds: usize) {
    for way in lines.iter_mut().flat_map(|line| &mut line.ways) {
        way.calibrate();
    }
    for _ in 0..rounds {
        for line in lines.iter_mut() {
            for way in &mut line.ways {
                let rate = line.amount * f64::from(way.calls) / way.seconds(way.calls);
                way.rates.push(rate);
            }
        }
    }
}
