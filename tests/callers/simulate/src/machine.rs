//! A machine: a node over its disks with seats and sessions while its process runs, and its disks alone while it doesn't.
//! Its clock has a speed of its own, and its disk may hang.

use crate::disk::Disk;
use crate::gates::{Here, Noted};
use dir_node::{Event, Node, Op, PeerMessage, Standing};
use dir_seats::{Publisher, Seat, Teller};
use ldap_session::Conversation;
use replica_clock::{Pace, ReplicaClock, Steps};
use std::sync::Wait;
use vr_state::words::Status;
use vr_wire::Gathering;

/// A session, and the twin that is one message ahead of it.
#[derive(Drop)]
pub struct Served {
    pub number: u64,
    pub caller: usize,
    /// How many of its messages are answered.
    pub answered: usize,
    pub own: Conversation,
    pub twin: Conversation,
    /// What its next message has asked for, once it was given to the node, and the role at that moment.
    pub noted: Option<Noted>,
    pub standing: Standing,
    /// Whether a growth was refused in one of its answers.
    pub lacked_memory: bool,
}

/// A disk that hangs: the node stays inside of a step, while the other threads go on.
#[derive(Drop)]
pub struct Hang {
    /// When it ends.
    pub until: u64,
    pub steps: Steps,
    pub pace: Pace,
}

/// A process.
#[derive(Drop)]
pub struct Running<'a, R: Wait> {
    pub node: Node<Disk, Disk>,
    pub publisher: Publisher<Here, &'a R>,
    pub teller: Teller<Here>,
    pub seat: Seat<Here>,
    pub clock: ReplicaClock,
    pub sessions: Vec<Served>,
    pub next_session: u64,
    /// What comes from each other replica, as far as it has come.
    pub gatherings: Vec<Gathering>,
    /// Events that wait for the thread that drives the node.
    pub inbox: Vec<Event<Op>>,
    /// The messages of the node's last beat, which the clock repeats while a step lasts, and the view that they are of.
    pub beat: Vec<(usize, PeerMessage<Op>)>,
    pub beat_view: u64,
    /// How many of its executed records were compared with what is committed.
    pub compared: usize,
}

#[derive(Drop)]
pub struct Machine<'a, R: Wait> {
    pub running: Option<Running<'a, R>>,
    /// Its disks while it doesn't run.
    pub views: Option<Disk>,
    pub journal: Option<Disk>,
    pub has_journal: bool,
    pub was_born: bool,
    /// It does nothing before this moment.
    pub busy_until: u64,
    /// How its disk hangs.
    pub hang: Option<Hang>,
    /// How fast its clock goes, in thousandths of true time.
    pub speed: u64,
    /// Whether it lacks its state: it has ended without a journal, or with one that can't be gone on from, and isn't normal again.
    pub lacks_state: bool,
    pub starts: u64,
    /// Whether one of its disks fails soon, which ends its process.
    pub is_doomed: bool,
}

impl<'a, R: Wait> Machine<'a, R> {
    /// What its clock shows at a moment.
    pub fn local(&self, moment: u64) -> u64 {
        moment * self.speed / 1000
    }

    /// Whether its disk hangs at a moment.
    pub fn is_hung(&self, moment: u64) -> bool {
        match &self.hang {
            Some(hang) => moment < hang.until,
            None => false,
        }
    }
}

/// A replica's status, where it stands so.
pub fn status_of(standing: Standing) -> Status {
    match standing {
        Standing::Primary | Standing::Backup { .. } => Status::Normal,
        Standing::Changing => Status::ViewChange,
        Standing::Recovering => Status::Recovering,
    }
}

impl<'a, R: Wait> Running<'a, R> {
    /// How the node stands to sessions.
    pub fn standing(&self) -> Standing {
        if self.node.is_caught_up() {
            self.node.standing()
        } else {
            Standing::Recovering
        }
    }

    pub fn is_normal(&self) -> bool {
        status_of(self.node.standing()) == Status::Normal
    }
}
