//! The rule by which replicas moved by themselves before they had `replica_clock`. It is kept to show that the simulation finds what was wrong with it: any
//! message of the primary was a sign of life, a primary that had lost its state was waited for, and a clock that was asked late suspected at once.

use replica_clock::Due;
use vr_state::words::Status;

/// Views that don't begin are given up ever later, up to so many times as late.
const LATEST: u64 = 8;

/// The old clock of a replica.
#[derive(Clone, Copy)]
pub struct Watch {
    beat: u64,
    suspect: u64,
    index: u64,
    count: u64,
    view_number: u64,
    status: Status,
    /// How often something was heard, and what of it was taken note of.
    heard: u64,
    noted: (u64, Status, u64),
    /// When something was taken note of last.
    since: u64,
    /// How many views in a row did not begin.
    tries: u64,
    ask_at: u64,
}

impl Watch {
    pub fn new(
        times: (u64, u64),
        index: u64,
        count: u64,
        view_number: u64,
        status: Status,
        now: u64,
    ) -> Watch {
        let (beat, suspect) = times;
        Watch {
            beat,
            suspect,
            index,
            count,
            view_number,
            status,
            heard: 0,
            noted: (view_number, status, 0),
            since: now,
            tries: 0,
            ask_at: now + beat,
        }
    }

    pub fn ask_at(&self) -> u64 {
        self.ask_at
    }

    /// The replica does this after an event.
    pub fn note(&mut self, view_number: u64, status: Status) {
        if self.view_number != view_number || self.status != status {
            self.view_number = view_number;
            self.status = status;
            self.heard += 1;
        }
    }

    /// The event was a message of this replica.
    pub fn hear(&mut self, from: u64) {
        let primary = self.view_number % self.count;
        if self.status == Status::Normal && primary != self.index && from == primary {
            self.heard += 1;
        }
    }

    /// How long it waits: the next primary first, and each further replica a little later.
    fn patience(&self) -> u64 {
        let next = (self.view_number + 1) % self.count;
        let distance = (self.index + self.count - next) % self.count;
        self.suspect + self.suspect / 8 * distance.min(7)
    }

    /// The clock is asked, once a beat.
    pub fn ask(&mut self, now: u64) -> Due {
        self.ask_at = now + self.beat;
        let pulse = (self.view_number, self.status, self.heard);
        if pulse != self.noted {
            if self.status != Status::ViewChange {
                self.tries = 0;
            }
            self.since = now;
            self.noted = pulse;
        }
        self.due(now - self.since)
    }

    fn due(&mut self, silent: u64) -> Due {
        match self.status {
            Status::Recovering => Due::Beat,
            Status::Normal => {
                if self.view_number % self.count == self.index {
                    Due::Beat
                } else if silent >= self.patience() {
                    Due::Suspect
                } else {
                    Due::Nothing
                }
            }
            Status::ViewChange => {
                if silent < self.patience() * (self.tries + 1).min(LATEST) {
                    return Due::Beat;
                }
                self.tries += 1;
                Due::Suspect
            }
        }
    }
}
