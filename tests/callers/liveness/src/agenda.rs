//! What is still to happen, by time; what is due at the same moment happens in the order in which it was put down.

use std::alloc::{AllocError, Global};

/// Something that happens.
#[derive(Clone, Copy)]
pub enum What {
    /// The message in this slot comes to its receiver.
    Deliver {
        slot: usize,
    },
    /// A part of the long message in this slot comes to its receiver.
    Part {
        slot: usize,
        arrival: u64,
    },
    /// The clock of a replica is asked, if nothing has changed its turn since.
    Ask {
        machine: usize,
        turn: u64,
    },
    /// A link tries to send what waits in it.
    Reopen {
        link: usize,
    },
    /// A client sends, or sends again.
    Client {
        client: usize,
        turn: u64,
    },
    /// A request comes to a replica.
    Request {
        client: usize,
        number: u64,
        to: usize,
    },
    /// A replica starts again, if it hasn't since.
    Restart {
        machine: usize,
        life: u64,
    },
    /// The next fault.
    Fault,
    /// All replicas crash at once.
    PowerCut,
    /// A replica's disk hangs, for good.
    Hang,
    /// A replica whose disk hangs repeats its last beat.
    Again {
        machine: usize,
        life: u64,
    },
    /// The network forgets all streams, or those of one replica.
    Forget {
        whom: usize,
    },
    /// The sender of a stream takes it for dead, if it is still the link's.
    Gone {
        link: usize,
        stream: u64,
    },
    /// The slow time of the network ends.
    Calm {
        turn: u64,
    },
    /// All faults end.
    Heal,
    /// It is looked whether all is well.
    Judge,
}

/// So many bits of an item's key are its order, and those above its time.
const ORDER_BITS: u64 = 30;

#[derive(Clone, Copy)]
struct Item {
    /// The time, and then the order in which it was put down.
    key: u64,
    what: What,
}

/// What is still to happen: a heap, the next at its top. Its code goes over slices, and calls as little as may be, since it is most of what a run takes.
#[derive(Drop)]
pub struct Agenda {
    items: Vec<Item>,
    order: u64,
}

impl Agenda {
    pub fn new(alloc: Global) -> Agenda {
        Agenda {
            items: Vec::new(alloc),
            order: 0,
        }
    }

    /// Puts down what happens at this time.
    pub fn put(&mut self, time: u64, what: What) -> Result<(), AllocError> {
        self.order += 1;
        let key = (time << ORDER_BITS) | self.order;
        let item = Item { key, what };
        self.items.push(item)?;
        let items = self.items.as_mut_slice();
        let mut at = items.len() - 1;
        while at > 0 {
            let above = (at - 1) / 2;
            if items[above].key < key {
                break;
            }
            items[at] = items[above];
            at = above;
        }
        items[at] = item;
        Ok(())
    }

    /// Takes out what happens next, and when.
    pub fn take(&mut self) -> Option<(u64, What)> {
        let last = self.items.pop()?;
        let items = self.items.as_mut_slice();
        let count = items.len();
        if count == 0 {
            return Some((last.key >> ORDER_BITS, last.what));
        }
        let first = items[0];
        let mut at = 0;
        loop {
            let mut below = 2 * at + 1;
            if below >= count {
                break;
            }
            if below + 1 < count && items[below + 1].key < items[below].key {
                below += 1;
            }
            if last.key < items[below].key {
                break;
            }
            items[at] = items[below];
            at = below;
        }
        items[at] = last;
        Some((first.key >> ORDER_BITS, first.what))
    }
}
