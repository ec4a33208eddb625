//! Whether all is well, and what isn't.

use crate::agenda::What;
use crate::world::World;
use std::alloc::AllocError;
use vr_state::words::Status;

/// How often it is looked, in microseconds.
const EVERY: u64 = 200_000;

/// What is wrong at the end of a run.
#[derive(Clone, Copy, PartialEq, Eq, Debug)]
pub enum Wrong {
    Nothing,
    /// Two replicas committed different records at one place, or a reply was of another record.
    Unsafe,
    /// A replica recovers whose view is above those of all others.
    StuckRecovery,
    /// A replica recovers whose view is not.
    LongRecovery,
    /// A replica waits for its view to begin.
    ViewChange,
    /// All are normal, and not in one view.
    ViewsDiffer,
    /// A request isn't answered.
    Request,
    /// All is in one view, and not all have committed the same.
    Commits,
    /// A replica that went on from its journal serves no clients.
    Gate,
    /// All is well, but wasn't at the deadline.
    Late,
}

/// What may be wrong, by the names that the command line has for it.
pub const WRONGS: [(&str, Wrong); 9] = [
    ("Unsafe", Wrong::Unsafe),
    ("StuckRecovery", Wrong::StuckRecovery),
    ("LongRecovery", Wrong::LongRecovery),
    ("ViewChange", Wrong::ViewChange),
    ("ViewsDiffer", Wrong::ViewsDiffer),
    ("Request", Wrong::Request),
    ("Commits", Wrong::Commits),
    ("Late", Wrong::Late),
    ("Gate", Wrong::Gate),
];

impl Wrong {
    /// Whether its bit is among these.
    pub fn is_in(self, bits: u64) -> bool {
        for place in 0..WRONGS.len() {
            if WRONGS[place].1 == self && (bits >> place) & 1 == 1 {
                return true;
            }
        }
        false
    }
}

impl World {
    /// It is looked whether all is well.
    pub fn on_judge(&mut self) -> Result<(), AllocError> {
        if self.wrong_now() != Wrong::Nothing {
            self.well_since = None;
        } else if self.well_since.is_none() {
            self.well_since = Some(self.now);
            if self.setting.traces {
                self.tell("all is well")?;
            }
        }
        self.agenda.put(self.now + EVERY, What::Judge)
    }

    /// What is wrong at this moment.
    fn wrong_now(&self) -> Wrong {
        match self.wrong_status() {
            Wrong::Nothing => self.wrong_in_one_view(),
            wrong => wrong,
        }
    }

    /// What is wrong with the statuses and views.
    fn wrong_status(&self) -> Wrong {
        let mut latest = 0;
        let mut view = 0;
        for machine in self.machines.iter() {
            if machine.is_hung() {
                continue;
            }
            view = machine.view();
            if machine.status() != Some(Status::Recovering) {
                latest = machine.view().max(latest);
            }
        }
        let mut wrong = Wrong::Nothing;
        for machine in self.machines.iter() {
            if machine.is_hung() {
                continue;
            }
            match machine.status() {
                None => return Wrong::LongRecovery,
                Some(Status::Recovering) => {
                    if machine.view() > latest {
                        return Wrong::StuckRecovery;
                    }
                    return Wrong::LongRecovery;
                }
                Some(Status::ViewChange) => wrong = Wrong::ViewChange,
                Some(Status::Normal) => {
                    if machine.view() != view && wrong == Wrong::Nothing {
                        wrong = Wrong::ViewsDiffer;
                    }
                }
            }
        }
        wrong
    }

    /// What is wrong where all are normal in one view.
    fn wrong_in_one_view(&self) -> Wrong {
        for caller in self.callers.iter() {
            if caller.is_waiting {
                return Wrong::Request;
            }
        }
        let mut commit = 0;
        for machine in self.machines.iter() {
            if !machine.is_hung() {
                commit = commit_of(machine).max(commit);
            }
        }
        for machine in self.machines.iter() {
            if machine.is_hung() {
                continue;
            }
            if commit_of(machine) != commit {
                return Wrong::Commits;
            }
            if machine.catch_up > 0 {
                return Wrong::Gate;
            }
        }
        Wrong::Nothing
    }

    /// What is wrong at the end of the run.
    pub fn wrong(&self) -> Wrong {
        if self.is_unsafe || !self.agrees() {
            return Wrong::Unsafe;
        }
        match (self.wrong_now(), self.well_since) {
            (Wrong::Nothing, Some(since)) => {
                if since <= self.deadline() {
                    Wrong::Nothing
                } else {
                    Wrong::Late
                }
            }
            (Wrong::Nothing, None) => Wrong::Late,
            (wrong, _) => wrong,
        }
    }

    /// Whether each replica's committed records are those that were ever committed, and each client's requests are there once, in their order.
    fn agrees(&self) -> bool {
        for machine in self.machines.iter() {
            let Some(replica) = machine.replica.as_ref() else {
                continue;
            };
            for place in 0..replica.commit_number as usize {
                let Some(entry) = replica.log.as_slice().get(place) else {
                    return false;
                };
                if self.committed[place] != (entry.client.number, entry.request_number) {
                    return false;
                }
            }
        }
        for client in 0..self.callers.len() {
            let mut last = 0;
            for name in self.committed.iter() {
                if name.0 == client as u64 {
                    if name.1 <= last {
                        return false;
                    }
                    last = name.1;
                }
            }
            let caller = &self.callers[client];
            if !caller.is_waiting && last != caller.number {
                return false;
            }
        }
        true
    }
}

fn commit_of(machine: &crate::machine::Machine) -> u64 {
    match &machine.replica {
        Some(replica) => replica.commit_number,
        None => 0,
    }
}
