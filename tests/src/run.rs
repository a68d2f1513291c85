//! Runs the tests, as many at once as there are processors: each has a caller of its own, and takes
//! the next test that nobody has taken. What a test says is printed when it is done.

use crate::library::caller::Caller;
use crate::library::session::Session;
use crate::suites::Test;
use std::sync::atomic::{AtomicUsize, Ordering};
use std::sync::Mutex;
use std::thread;

/// What came of the tests so far.
#[derive(Default)]
pub struct Sum {
    pub passed: u32,
    pub failed: u32,
    pub comparisons: u64,
}

/// Runs all these tests. The command starts a caller.
pub fn all(tests: &[Test], command: &[String]) -> Result<Sum, String> {
    let count = thread::available_parallelism().map_or(1, |count| count.get());
    let start = |_| Caller::start(command);
    let callers = (0..count).map(start).collect::<Result<Vec<_>, _>>()?;
    let next = AtomicUsize::new(0);
    let sum = Mutex::new(Sum::default());
    thread::scope(|scope| {
        for caller in callers {
            scope.spawn(|| work(Session::new(caller), tests, &next, &sum));
        }
    });
    sum.into_inner().map_err(|error| error.to_string())
}

/// Runs the tests that nobody else has taken, one after the other.
fn work(mut session: Session, tests: &[Test], next: &AtomicUsize, sum: &Mutex<Sum>) {
    while let Some(test) = tests.get(next.fetch_add(1, Ordering::Relaxed)) {
        let outcome = (test.run)(&mut session);
        let comparisons = session.take_count();
        let mut sum = sum.lock().expect("the sum");
        sum.comparisons += comparisons;
        match outcome {
            Ok(()) => {
                sum.passed += 1;
                println!("ok {} ({comparisons} comparisons)", test.name);
            }
            Err(what) => {
                sum.failed += 1;
                println!("FAILED {}: {what}", test.name);
            }
        }
    }
}
