//! How long work takes, and word of work that takes long.

use std::io::{self, Write};
use std::sync::{Mutex, MutexGuard, Once, PoisonError};
use std::thread;
use std::time::{Duration, Instant};

use trials::clock::processor_time;

/// When standard error first hears of work, how long until it hears again, and how often that
/// is looked after.
const FIRST: Duration = Duration::from_secs(1);
const THEN: Duration = Duration::from_secs(5);
const LOOK: Duration = Duration::from_millis(200);

/// Nanoseconds within which work is done again: the first time, what it reads is far away.
const SHORT: f64 = 1e6;

struct Work {
    what: &'static str,
    start: Instant,
    next: Duration,
}

/// What is at work, on any thread.
fn at_work() -> MutexGuard<'static, Vec<Work>> {
    static AT_WORK: Mutex<Vec<Work>> = Mutex::new(Vec::new());
    AT_WORK.lock().unwrap_or_else(PoisonError::into_inner)
}

fn look() {
    loop {
        thread::sleep(LOOK);
        for work in at_work().iter_mut() {
            let so_far = work.start.elapsed();
            if so_far >= work.next {
                // Where nobody hears of it, the work goes on.
                let (what, seconds) = (work.what, so_far.as_secs());
                _ = writeln!(io::stderr(), "hall: {what}, {seconds} s so far");
                work.next = so_far + THEN;
            }
        }
    }
}

/// Does the work. Standard error has a line once it takes more than a second.
pub fn watched<T>(what: &'static str, work: impl FnOnce() -> T) -> T {
    static LOOKING: Once = Once::new();
    LOOKING.call_once(|| _ = thread::spawn(look));
    at_work().push(Work {
        what,
        start: Instant::now(),
        next: FIRST,
    });
    let made = work();
    at_work().retain(|work| work.what != what);
    made
}

/// The same with the nanoseconds that the processor had for it, the least of the times that it
/// was done.
pub fn timed<T>(what: &'static str, mut work: impl FnMut() -> T) -> (T, f64) {
    watched(what, || {
        let start = processor_time();
        let mut least = f64::INFINITY;
        loop {
            let before = processor_time();
            let made = work();
            let after = processor_time();
            least = least.min(after - before);
            if after - start >= SHORT {
                return (made, least);
            }
        }
    })
}
