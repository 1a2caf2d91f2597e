//! What is timed, and how.

use std::fmt::{self, Display, Formatter};
use std::hint::black_box;
use std::time::Duration;

/// Of so many runs the best counts.
const RUNS: usize = 5;

/// The time of a run.
const RUN: Duration = Duration::from_secs(1);

unsafe extern "C" {
    safe fn clock() -> i64;
}

/// The processor time of the program so far: POSIX has `clock` count microseconds.
fn processor_time() -> Duration {
    Duration::from_micros(clock().unsigned_abs())
}

/// Some work, how much of it one call does, and the least processor time that the calls of a run took.
pub struct Measurement<'a> {
    what: &'static str,
    side: &'static str,
    octets: usize,
    steps: usize,
    calls: u32,
    best: Duration,
    work: Box<dyn FnMut(u32) -> Duration + 'a>,
}

impl<'a> Measurement<'a> {
    /// Work that was not timed yet.
    pub fn new<T>(
        what: &'static str,
        side: &'static str,
        mut work: impl FnMut() -> T + 'a,
    ) -> Measurement<'a> {
        Measurement {
            what,
            side,
            octets: 0,
            steps: 0,
            calls: 1,
            best: Duration::MAX,
            // The loop stands beside the call, so that a boxed call is made once for a whole run.
            work: Box::new(move |calls| {
                let start = processor_time();
                for _ in 0..calls {
                    black_box(work());
                }
                processor_time() - start
            }),
        }
    }

    /// The same, where a call works on so many octets.
    pub fn of_octets(self, octets: usize) -> Measurement<'a> {
        Measurement { octets, ..self }
    }

    /// The same, where a call takes so many steps.
    pub fn of_steps(self, steps: usize) -> Measurement<'a> {
        Measurement { steps, ..self }
    }

    /// Finds how many calls make a run.
    fn prepare(&mut self) {
        let mut taken = (self.work)(self.calls);
        while taken < RUN / 10 {
            self.calls *= 2;
            taken = (self.work)(self.calls);
        }
        let calls = f64::from(self.calls) * RUN.as_secs_f64() / taken.as_secs_f64();
        self.calls = calls.ceil() as u32;
    }

    fn run(&mut self) {
        self.best = self.best.min((self.work)(self.calls));
    }

    /// How many millions a second, where a call does so many.
    fn millions(&self, amount: usize) -> f64 {
        amount as f64 * f64::from(self.calls) / self.best.as_secs_f64() / 1e6
    }
}

impl Display for Measurement<'_> {
    fn fmt(&self, f: &mut Formatter<'_>) -> fmt::Result {
        let octets = self.millions(self.octets);
        write!(
            f,
            "{:5} {:18} {octets:6.0} million octets a second",
            self.what, self.side
        )?;
        if self.steps > 0 {
            write!(
                f,
                ", {:.2} million steps a second",
                self.millions(self.steps)
            )?;
        }
        Ok(())
    }
}

/// Times each of them, in turn for each run: so what else the machine does for a while slows a run of each, and not all runs of one.
pub fn time(measurements: &mut [Measurement<'_>]) {
    measurements.iter_mut().for_each(Measurement::prepare);
    for _ in 0..RUNS {
        measurements.iter_mut().for_each(Measurement::run);
    }
}
