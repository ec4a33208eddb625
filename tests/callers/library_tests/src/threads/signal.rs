//! Something that happens once, and a wait for it. Nothing flows in or out but that it has happened.

use std::sync::{Condvar, CondvarTimeouts, Mutex, Wait};
use std::time::{Clock, Duration};

/// What has happened or not.
#[derive(Drop)]
pub struct Signal {
    has_come: Mutex<bool>,
    changed: Condvar,
}

impl Signal {
    pub fn new() -> Signal {
        Signal {
            has_come: Mutex::new(false),
            changed: Condvar::new(),
        }
    }

    /// It happens.
    pub fn give<R: Wait>(&self, rt: &R) {
        *self.has_come.lock(rt) = true;
        self.changed.notify_all();
    }

    pub fn has_come<R: Wait>(&self, rt: &R) -> bool {
        *self.has_come.lock(rt)
    }

    /// Waits for it, so long at most; whether it has come.
    pub fn wait<R: Wait + Clock>(&self, rt: &R, limit: Duration) -> bool {
        let (come, _) = self
            .changed
            .wait_timeout_while(rt, self.has_come.lock(rt), limit, |come| !*come);
        *come
    }
}
