//! Times and medians.

use std::fmt;
use std::time::{Duration, Instant};

const RUNS: usize = 7;
const LIMIT: Duration = Duration::from_millis(1_000);

/// Milliseconds; infinite where a method was given up.
#[derive(Clone, Copy, PartialEq)]
pub struct Time(f64);

impl Time {
    pub const ZERO: Time = Time(0.0);

    fn since(begin: Instant) -> Self {
        Time(begin.elapsed().as_secs_f64() * 1_000.0)
    }

    pub fn worse(self, other: Self) -> Self {
        Time(self.0.max(other.0))
    }

    pub fn over(self, other: Self) -> f64 {
        self.0 / other.0
    }
}

impl fmt::Display for Time {
    fn fmt(&self, f: &mut fmt::Formatter) -> fmt::Result {
        if self.0.is_infinite() {
            return write!(f, "> {}", LIMIT.as_millis());
        }
        write!(f, "{:.*}", f.precision().unwrap_or(2), self.0)
    }
}

fn middle(mut times: Vec<Time>) -> Time {
    times.sort_by(|a, b| a.0.total_cmp(&b.0));
    times[times.len() / 2]
}

/// The median time of a call on something that is made ready before each run, outside the time.
pub fn median<T>(
    on: &mut T,
    make_ready: fn(&mut T),
    mut call: impl FnMut(&mut T) -> Result<(), String>,
) -> Result<Time, String> {
    let mut times = Vec::new();
    for _ in 0..RUNS {
        make_ready(on);
        let begin = Instant::now();
        call(on)?;
        times.push(Time::since(begin));
    }
    Ok(middle(times))
}

/// The median time of a method that is told when to give up, and says whether it came to an end;
/// one that gives up is not tried again.
pub fn median_within(mut method: impl FnMut(&dyn Fn() -> bool) -> bool) -> Time {
    let mut times = Vec::new();
    for _ in 0..RUNS {
        let begin = Instant::now();
        if !method(&|| begin.elapsed() > LIMIT) {
            return Time(f64::INFINITY);
        }
        times.push(Time::since(begin));
    }
    middle(times)
}
