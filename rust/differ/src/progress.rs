//! Says every ten seconds how far the run is, on standard error.

use std::sync::atomic::{AtomicU64, Ordering::Relaxed};
use std::sync::Mutex;
use std::thread;
use std::time::{Duration, Instant};

/// The time between two lines.
const EVERY: Duration = Duration::from_secs(10);

/// What is being compared, and how much of it there is; 0 when that is not known.
static STAGE: Mutex<(&str, u64)> = Mutex::new(("", 0));
/// How many of these are done.
static DONE: AtomicU64 = AtomicU64::new(0);

/// Begins to say how far the run is.
pub fn begin() {
    let start = Instant::now();
    thread::spawn(move || loop {
        thread::sleep(EVERY);
        let seconds = start.elapsed().as_secs();
        eprintln!("differ: {} ({seconds} s)", line());
    });
}

/// A stage begins, with this many steps; 0 when that is not known.
pub fn stage(name: &'static str, steps: u64) {
    *STAGE.lock().expect("no holder panics") = (name, steps);
    DONE.store(0, Relaxed);
}

/// A step of the stage is done.
pub fn step() {
    DONE.fetch_add(1, Relaxed);
}

/// How far the stage is.
fn line() -> String {
    let (name, steps) = *STAGE.lock().expect("no holder panics");
    let done = DONE.load(Relaxed);
    match steps {
        0 => format!("{name} {done}"),
        steps => format!("{name} {done} of {steps}"),
    }
}

#[cfg(test)]
mod tests {
    #[test]
    fn a_stage_is_counted() {
        super::stage("cases", 3);
        super::step();
        assert_eq!(super::line(), "cases 1 of 3");
        super::stage("changed samples", 0);
        assert_eq!(super::line(), "changed samples 0");
    }
}
