//! Times a call of the library beside its twins, all in one run.

use std::iter::once;
use std::time::Duration;

/// How much a run spends on a figure.
#[derive(Clone, Copy)]
pub struct Pace {
    /// How many turns the contestants take; the median counts.
    turns: usize,
    /// In a turn each call runs often enough to take about this long.
    sample: Duration,
    /// Where the turns would take longer than this, fewer are taken, but not too few.
    patience: Duration,
}

const LEAST_TURNS: usize = 3;

impl Pace {
    pub const FULL: Pace =
        Pace { turns: 101, sample: Duration::from_millis(2), patience: Duration::from_secs(12) };
    pub const QUICK: Pace =
        Pace { turns: 21, sample: Duration::from_millis(2), patience: Duration::from_secs(2) };
}

/// One contestant's call.
pub type Call<'a> = Box<dyn FnMut() + 'a>;

/// One twin: its name and the call.
pub type Entry<'a> = (&'a str, Call<'a>);

/// The C library's `struct timespec` on 64-bit Linux.
#[repr(C)]
struct Timespec {
    seconds: i64,
    nanoseconds: i64,
}

extern "C" {
    fn clock_gettime(clock: i32, time: *mut Timespec) -> i32;
}

/// The processor time of this thread: what other programs take is left out.
fn now() -> Duration {
    const THREAD_CPU_TIME: i32 = 3;
    let mut time = Timespec { seconds: 0, nanoseconds: 0 };
    let answer = unsafe { clock_gettime(THREAD_CPU_TIME, &mut time) };
    assert_eq!(answer, 0, "this system has no clock for one thread");
    Duration::new(time.seconds as u64, time.nanoseconds as u32)
}

fn time(call: &mut dyn FnMut(), calls: u32) -> Duration {
    let start = now();
    for _ in 0..calls {
        call();
    }
    now() - start
}

/// How many calls fill a sample.
fn calls_for(call: &mut dyn FnMut(), sample: Duration) -> u32 {
    let mut calls = 1;
    while time(call, calls) < sample {
        calls *= 2;
    }
    calls
}

fn each(taken: Duration, calls: u32) -> f64 {
    taken.as_secs_f64() / f64::from(calls)
}

fn median(mut ratios: Vec<f64>) -> f64 {
    ratios.sort_unstable_by(f64::total_cmp);
    ratios[ratios.len() / 2]
}

/// The times of several calls in each of several turns.
pub struct Turns {
    times: Vec<Vec<f64>>,
}

impl Turns {
    /// Times all the calls, one after the other, in turns.
    pub fn take(pace: Pace, mut calls: Vec<Call>) -> Self {
        let counts: Vec<u32> = calls.iter_mut().map(|call| calls_for(call, pace.sample)).collect();
        let start = now();
        let mut times = Vec::new();
        while times.len() < LEAST_TURNS || times.len() < pace.turns && now() - start < pace.patience
        {
            let turn =
                calls.iter_mut().zip(&counts).map(|(call, count)| each(time(call, *count), *count));
            times.push(turn.collect());
        }
        Turns { times }
    }

    /// The median of one call's time divided by another's. Each turn gives one ratio,
    /// so that a slower spell of the machine meets both sides.
    pub fn ratio(&self, one: usize, other: usize) -> f64 {
        median(self.times.iter().map(|turn| turn[one] / turn[other]).collect())
    }
}

/// A call that is timed under a name; nothing is built for it before it is run.
pub struct Case {
    pub name: String,
    hold: Box<dyn FnOnce(&Contest)>,
}

impl Case {
    pub fn new(name: impl Into<String>, hold: impl FnOnce(&Contest) + 'static) -> Self {
        Case { name: name.into(), hold: Box::new(hold) }
    }

    pub fn run(self, pace: Pace) {
        (self.hold)(&Contest { name: self.name, pace });
    }
}

/// Where the contestants of a case meet.
pub struct Contest {
    name: String,
    pace: Pace,
}

impl Contest {
    /// Prints the library's time divided by that of each twin.
    pub fn run<'a>(&self, library: impl FnMut() + 'a, twins: Vec<Entry<'a>>) {
        let (names, calls): (Vec<&str>, Vec<Call>) = twins.into_iter().unzip();
        let library: Call = Box::new(library);
        let turns = Turns::take(self.pace, once(library).chain(calls).collect());
        for (i, twin) in names.iter().enumerate() {
            println!("{}: library / {twin} = {:.2}", self.name, turns.ratio(0, i + 1));
        }
    }
}
