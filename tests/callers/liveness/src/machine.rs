//! A machine: a replica, which a crash takes away, its clock, and what survives on its disk.

use crate::mark::Mark;
use crate::timer::Timer;
use replica_clock::Steps;
use vr_state::message::{Change, PeerMessage};
use vr_state::replica::Replica;
use vr_state::words::Status;

/// A machine with its replica.
#[derive(Drop)]
pub struct Machine {
    /// None while it is crashed.
    pub replica: Option<Replica<Mark>>,
    pub timer: Timer,
    /// On its disk: the view, and how often it has started.
    pub stored_view: u64,
    pub starts: u64,
    /// Whether its log is on its disk too, and what of it a crash left; none while it's up, or where it was recovering.
    pub has_journal: bool,
    pub kept: Option<Change<Mark>>,
    /// How much is to be committed before clients are served: as much as its log had when it went on from its journal.
    pub catch_up: u64,
    /// Whether it has crashed and isn't normal again.
    pub is_down: bool,
    /// Its clock goes so many thousandths as fast as the true time, from this moment on.
    pub speed: u64,
    pub offset: u64,
    /// It does nothing before this time.
    pub busy_until: u64,
    /// How the step goes at which its disk hangs, where it does; and what it sent with its last beat.
    pub hung: Option<Steps>,
    pub beat: Option<(u64, u64)>,
    /// Which asking of its clock is still wanted, and when by its clock.
    pub ask_turn: u64,
    pub ask_at: u64,
    /// How many of its records were compared with what is committed.
    pub compared: u64,
    /// What was told of it last.
    pub told: (u64, Status),
    /// Whether it crashes as it stores its next view, before it sends.
    pub is_doomed: bool,
    /// When it began to recover, or last asked for a view change in vain, by its clock.
    pub recovering_since: u64,
    /// When it last heard that the primary of its view leads it, by its clock.
    pub led_at: u64,
}

impl Machine {
    /// Takes note of what is committed, where clients wait for it.
    pub fn look_back(&mut self) {
        if let Some(replica) = &self.replica {
            let most = self.catch_up.min(replica.log.len() as u64);
            self.catch_up = if most <= replica.commit_number {
                0
            } else {
                most
            };
        }
    }

    /// Whether its disk hangs.
    pub fn is_hung(&self) -> bool {
        self.hung.is_some()
    }

    /// Whether all that it has promised is on its disk or in its memory, and outlives a crash.
    pub fn outlives(&self) -> bool {
        match &self.replica {
            Some(replica) => self.has_journal && replica.status != Status::Recovering,
            None => self.kept.is_some(),
        }
    }

    /// What its clock shows at this time.
    pub fn local(&self, time: u64) -> u64 {
        self.offset + time * self.speed / 1000
    }

    /// The first time at which its clock shows as much.
    pub fn time_of(&self, local: u64) -> u64 {
        (local.saturating_sub(self.offset) * 1000).div_ceil(self.speed)
    }

    pub fn status(&self) -> Option<Status> {
        match &self.replica {
            Some(replica) => Some(replica.status),
            None => None,
        }
    }

    pub fn is_normal(&self) -> bool {
        self.status() == Some(Status::Normal)
    }

    /// Whether a message is one at which the replica's step changes and sends nothing, since it says what is known already or comes to one that can't answer.
    /// Most messages are, and take no step, but the clock hears them.
    pub fn knows(&self, from: u64, message: &PeerMessage<Mark>) -> bool {
        let Some(replica) = &self.replica else {
            return true;
        };
        let is_normal = replica.status == Status::Normal;
        match message {
            PeerMessage::Commit {
                view_number,
                commit_number,
            } => {
                is_normal
                    && replica.view_number == *view_number
                    && replica.commit_number == *commit_number
            }
            PeerMessage::StartViewChange { view_number } => {
                replica.status == Status::Recovering
                    || *view_number < replica.view_number
                    || (*view_number == replica.view_number
                        && (is_normal || replica.start_view_changes.as_slice().contains(&from)))
            }
            PeerMessage::Recovery { .. } => !is_normal,
            _ => false,
        }
    }

    /// Whether it is the normal primary of its view.
    pub fn leads(&self) -> bool {
        match &self.replica {
            Some(replica) => {
                replica.status == Status::Normal
                    && replica.view_number % replica.count == replica.index
            }
            None => false,
        }
    }

    /// Its view; the stored one while it is crashed.
    pub fn view(&self) -> u64 {
        match &self.replica {
            Some(replica) => replica.view_number,
            None => self.stored_view,
        }
    }
}
