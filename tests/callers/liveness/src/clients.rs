//! Clients: each sends one request after another to the replica that it takes for the primary, and tries the next one where no reply comes.

use crate::agenda::What;
use crate::mark::Mark;
use crate::world::World;
use std::alloc::AllocError;
use vr_state::event::Event;
use vr_state::words::{Client, LogEntry, Reply};

/// A client.
#[derive(Clone, Copy)]
pub struct Caller {
    /// The number of its latest request.
    pub number: u64,
    pub is_waiting: bool,
    /// Which replica it takes for the primary.
    pub believed: usize,
    pub turn: u64,
    /// How long it thinks at most between requests.
    pub thinks: u64,
}

/// Who asks, in the words of the log.
fn name_of(client: usize) -> Client {
    Client {
        home: 0,
        life: 0,
        number: client as u64,
    }
}

impl World {
    /// It is a client's turn: it sends its next request, or the one that isn't answered to the next replica.
    pub fn on_client(&mut self, client: usize, turn: u64) -> Result<(), AllocError> {
        let mut caller = self.callers[client];
        if caller.turn != turn {
            return Ok(());
        }
        if caller.is_waiting {
            caller.believed = (caller.believed + 1) % self.machines.len();
        } else if self.is_healed {
            return Ok(());
        } else {
            caller.number += 1;
            caller.is_waiting = true;
        }
        caller.turn += 1;
        self.callers[client] = caller;
        let arrival = self.now + self.chance.between(1_000, 20_000);
        self.agenda.put(
            arrival,
            What::Request {
                client,
                number: caller.number,
                to: caller.believed,
            },
        )?;
        let patience = self.chance.between(500_000, 1_500_000);
        self.agenda.put(
            self.now + patience,
            What::Client {
                client,
                turn: caller.turn,
            },
        )
    }

    /// A request comes to a replica.
    pub fn on_request(&mut self, client: usize, number: u64, to: usize) -> Result<(), AllocError> {
        if self.is_busy(to) {
            let until = self.machines[to].busy_until;
            return self.agenda.put(until, What::Request { client, number, to });
        }
        // One that went on from its journal serves nobody before it knows as much as it may have shown.
        if self.machines[to].catch_up > 0 {
            return Ok(());
        }
        let entry = LogEntry {
            client: name_of(client),
            request_number: number,
            payload: Mark {
                number: client as u64 * 1_000_000 + number,
            },
        };
        self.act(to, Event::Request { entry }, None)
    }

    /// A replica has answered a client.
    pub fn on_reply(&mut self, from: usize, reply: &Reply) -> Result<(), AllocError> {
        let client = reply.client.number as usize;
        let place = reply.op_number as usize;
        if place == 0
            || place > self.committed.len()
            || self.committed[place - 1] != (reply.client.number, reply.request_number)
        {
            self.is_unsafe = true;
        }
        let mut caller = self.callers[client];
        if !caller.is_waiting || caller.number != reply.request_number {
            return Ok(());
        }
        caller.is_waiting = false;
        caller.believed = from;
        caller.turn += 1;
        self.callers[client] = caller;
        self.answered += 1;
        let thinks = self.chance.below(caller.thinks);
        self.agenda.put(
            self.now + thinks,
            What::Client {
                client,
                turn: caller.turn,
            },
        )
    }
}
