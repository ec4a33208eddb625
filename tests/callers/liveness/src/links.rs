//! The network: a link from each replica to each other, with the messages that wait in it, and the messages under way.

use crate::mark::Mark;
use std::alloc::{AllocError, Global};
use std::collections::VecDeque;
use vr_state::message::PeerMessage;

/// So many messages wait in a link at most; one more makes room by forgetting the oldest.
const MOST_WAITING: usize = 1024;

/// A message under way.
#[derive(Drop)]
pub struct Flight {
    pub from: usize,
    pub to: usize,
    /// Which stream of the link carries it; a message of an earlier stream than the link's is lost.
    pub stream: u64,
    /// When it arrives, of a long message: its parts come all the time before.
    pub long_until: u64,
    pub message: PeerMessage<Mark>,
}

/// The messages under way, each in a slot.
#[derive(Drop)]
pub struct Flights {
    slots: Vec<Option<Flight>>,
    free: Vec<usize>,
}

impl Flights {
    pub fn new(alloc: Global) -> Flights {
        Flights {
            slots: Vec::new(alloc),
            free: Vec::new(alloc),
        }
    }

    pub fn put(&mut self, flight: Flight) -> Result<usize, AllocError> {
        match self.free.pop() {
            Some(slot) => {
                self.slots[slot] = Some(flight);
                Ok(slot)
            }
            None => {
                self.slots.push(Some(flight))?;
                Ok(self.slots.len() - 1)
            }
        }
    }

    pub fn look(&self, slot: usize) -> Option<&Flight> {
        self.slots[slot].as_ref()
    }

    /// Lets go of the message in a slot.
    pub fn forget(&mut self, slot: usize) -> Result<(), AllocError> {
        self.slots[slot] = None;
        self.free.push(slot)?;
        Ok(())
    }

    pub fn take(&mut self, slot: usize) -> Result<Option<Flight>, AllocError> {
        self.free.push(slot)?;
        Ok(self.slots[slot].take())
    }
}

/// A link from one replica to another.
#[derive(Drop)]
pub struct Link {
    /// Nothing passes before this time.
    pub closed_until: u64,
    /// Whether messages wait while nothing passes; else they are lost.
    pub is_patient: bool,
    pub waiting: VecDeque<PeerMessage<Mark>>,
    /// When the last message of an ordered link arrives.
    pub last: u64,
    pub stream: u64,
    /// The stream of which nothing passes any more, though it isn't closed.
    pub forgotten: Option<u64>,
    /// The view of the DOVIEWCHANGE that is being sent, and until when.
    pub changing: (u64, u64),
}

impl Link {
    pub fn new(alloc: Global) -> Link {
        Link {
            closed_until: 0,
            is_patient: false,
            waiting: VecDeque::new(alloc),
            last: 0,
            stream: 0,
            forgotten: None,
            changing: (0, 0),
        }
    }

    /// A new stream: what was on the old one is lost, and nothing waits behind it.
    pub fn renew(&mut self) {
        self.stream += 1;
        self.last = 0;
        self.changing = (0, 0);
    }

    /// Whether what is under way on this stream of the link is lost.
    pub fn loses(&self, stream: u64) -> bool {
        stream != self.stream || self.forgotten == Some(stream)
    }

    pub fn hold(&mut self, message: PeerMessage<Mark>) -> Result<(), AllocError> {
        if self.waiting.len() >= MOST_WAITING {
            let _oldest = self.waiting.pop_front();
        }
        self.waiting.push_back(message)?;
        Ok(())
    }
}
