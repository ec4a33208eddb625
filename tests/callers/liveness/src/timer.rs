//! The clock of a replica by the rule that a run is of.

use crate::watch::Watch;
use replica_clock::{Due, ReplicaClock, Sign, Times};
use vr_state::words::Status;

/// How often a replica repeats itself, and how long it waits for its primary, in microseconds: what the program does where it isn't told otherwise.
pub const BEAT: u64 = 500_000;

pub const SUSPECT: u64 = 3_000_000;

/// The clock of a replica. The real one never looks at a time of its own, so it is told the same.
#[derive(Drop)]
pub enum Timer {
    Real { clock: ReplicaClock },
    Old { watch: Watch },
}

impl Timer {
    pub fn new(
        is_old: bool,
        index: u64,
        count: u64,
        view_number: u64,
        status: Status,
        now: u64,
    ) -> Timer {
        if is_old {
            let times = (BEAT, SUSPECT);
            Timer::Old {
                watch: Watch::new(times, index, count, view_number, status, now),
            }
        } else {
            let times = Times::new(BEAT, SUSPECT);
            Timer::Real {
                clock: ReplicaClock::new(times, index, count, view_number, status, now),
            }
        }
    }

    pub fn ask_at(&self) -> u64 {
        match self {
            Timer::Real { clock } => clock.ask_at(),
            Timer::Old { watch } => watch.ask_at(),
        }
    }

    pub fn note(&mut self, view_number: u64, status: Status, now: u64) {
        match self {
            Timer::Real { clock } => clock.note(view_number, status, now),
            Timer::Old { watch } => watch.note(view_number, status),
        }
    }

    pub fn hear(&mut self, from: u64, sign: Sign, now: u64) {
        match self {
            Timer::Real { clock } => clock.hear(from, sign, now),
            Timer::Old { watch } => watch.hear(from),
        }
    }

    pub fn ask(&mut self, now: u64) -> Due {
        match self {
            Timer::Real { clock } => clock.ask(now).due,
            Timer::Old { watch } => watch.ask(now),
        }
    }
}
