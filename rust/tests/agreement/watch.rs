//! Ends the run where a call does not: a test that waits for ever says nothing.

use std::process;
use std::sync::atomic::{AtomicU64, Ordering};
use std::thread;
use std::time::Duration;

/// Far longer than any call takes, and than all that lies between two calls.
const PATIENCE: Duration = Duration::from_secs(30);

static ENDED: AtomicU64 = AtomicU64::new(0);

/// Says that a call has ended.
pub fn call_ended() {
    ENDED.fetch_add(1, Ordering::Relaxed);
}

/// Watches from now on.
pub fn start() {
    thread::spawn(|| loop {
        let before = ENDED.load(Ordering::Relaxed);
        thread::sleep(PATIENCE);
        if ENDED.load(Ordering::Relaxed) == before {
            println!("agreement: FAILED: after call {before} none has ended for {PATIENCE:?}");
            process::exit(1);
        }
    });
}
