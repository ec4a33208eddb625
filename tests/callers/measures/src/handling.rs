//! How long an event takes at a node that has a log of so many records. The number of records flows in; times flow out, and how many records were
//! executed. How a node handles an event is not here.
ghost use Rattle.std.specs.Prelude.{◌≡◌, ◌<◌, IfOk};

use crate::fault::Fault;
use crate::printing::{print_events, print_executed};
use dir_node::{
    Client, Cluster, Device, Event, Handled, Indexes, LogEntry, Name, Node, NodeConfig, NodeError,
    Op, PeerMessage,
};
use dir_store::Update;
use journal::MemoryDevice as Log;
use schema_reader::built_in_schema;
use std::alloc::Global;
use std::io::{Eprint, Print};
use std::sync::Arc;
use std::time::{Clock, Instant};
use view_store::{Fault as DeviceFault, MemoryDevice};

/// How many clients ask in turn.
const CLIENTS: u64 = 1000;

/// How many updates are timed together.
const WINDOW: u64 = 100;

/// How many such windows there are at each length of the log; the middle one counts.
const WINDOWS: usize = 21;

/// For how many calls the device has room. A first start takes a few, and no later event here calls it.
const ROOM: usize = 100;

/// Replica 0 of three, over an empty directory.
fn config(alloc: Global) -> Result<NodeConfig, Fault>
    ensures index { IfOk result (λ c. c.index ≡ 0) }
    ensures count { IfOk result (λ c. c.count ≡ 3) }
{
    let schema = built_in_schema(alloc)?;
    let suffix = Name::read(alloc, &schema, "dc=example,dc=com")?;
    let schema = Arc::new(alloc, schema)?;
    let Some(cluster) = Cluster::new(1) else {
        return Err(Fault::BadText);
    };
    Ok(NodeConfig {
        schema,
        indexes: Indexes::none(alloc),
        suffix,
        cluster,
        index: 0,
        count: 3,
    })
}

/// The node of that replica at its first start, over a device in memory: the primary of view 0.
fn begun(alloc: Global) -> Result<Node<MemoryDevice, Log>, Fault> {
    let config = config(alloc)?;
    let device = MemoryDevice::new(alloc, Vec::new(alloc), ROOM, DeviceFault::None)?;
    match Node::fresh(alloc, device, None, config) {
        Ok((node, _)) => Ok(node),
        Err(_) => Err(Fault::NoNode),
    }
}

/// Hands an event to a node.
fn handle<D: Device>(
    alloc: Global,
    node: &mut Node<D, Log>,
    event: Event<Op>,
) -> Result<Handled, NodeError> {
    node.handle(alloc, event)
}

/// Hands an event to a node; how many replies it gives out.
fn replies<D: Device>(
    alloc: Global,
    node: &mut Node<D, Log>,
    event: Event<Op>,
) -> Result<usize, Fault> {
    match handle(alloc, node, event) {
        Ok(handled) => Ok(handled.outputs.replies.len()),
        Err(_) => Err(Fault::NoNode),
    }
}

/// The request of this number, of the client whose turn it is.
fn request(op: &Op, number: u64) -> Result<Event<Op>, Fault> {
    let client = Client {
        home: 1,
        life: 1,
        number: number % CLIENTS,
    };
    let entry = LogEntry {
        client,
        request_number: number,
        payload: op.copy()?,
    };
    Ok(Event::Request { entry })
}

/// Replica 1 says that it has so many records.
fn acknowledgement(number: u64) -> Event<Op> {
    let message = PeerMessage::PrepareOk {
        view_number: 0,
        op_number: number,
    };
    Event::Message { from: 1, message }
}

/// An update is asked for, acknowledged by one backup, committed, executed and answered: two events.
fn update<D: Device>(
    alloc: Global,
    node: &mut Node<D, Log>,
    op: &Op,
    number: u64,
) -> Result<(), Fault> {
    let event = request(op, number)?;
    let before = replies(alloc, node, event)?;
    let after = replies(alloc, node, acknowledgement(number))?;
    if before == 0 && after == 1 {
        Ok(())
    } else {
        Err(Fault::NoNode)
    }
}

/// The updates from this number to before that one.
fn updates<D: Device>(
    alloc: Global,
    node: &mut Node<D, Log>,
    op: &Op,
    from: u64,
    to: u64,
) -> Result<(), Fault> {
    for number in from..to {
        update(alloc, node, op, number)?;
    }
    Ok(())
}

/// How many nanoseconds each event of a window took that begins with this number.
fn window<D: Device>(
    clock: &impl Clock,
    alloc: Global,
    node: &mut Node<D, Log>,
    op: &Op,
    from: u64,
) -> Result<u64, Fault> {
    let began = Instant::now(clock)?;
    updates(alloc, node, op, from, from.saturating_add(WINDOW))?;
    let took = began.elapsed(clock)?.as_nanos();
    Ok(u64::try_from(took / (2 * WINDOW as u128)).unwrap_or(u64::MAX))
}

/// The same of so many windows one after the other, in the order of their lengths.
fn windows<D: Device>(
    clock: &impl Clock,
    alloc: Global,
    node: &mut Node<D, Log>,
    op: &Op,
    from: u64,
) -> Result<Vec<u64>, Fault> {
    let mut took = Vec::new(alloc);
    for index in 0..WINDOWS {
        let first = from.saturating_add(WINDOW * index as u64);
        took.push(window(clock, alloc, node, op, first)?)?;
    }
    took.sort()?;
    Ok(took)
}

/// Times the events of a node whose log has so many records, and prints the middle window's, the shortest's and the longest's.
fn measure_at<D: Device>(
    rt: &(impl Clock + Eprint),
    alloc: Global,
    node: &mut Node<D, Log>,
    op: &Op,
    records: u64,
) -> Result<(), Fault> {
    let took = windows(rt, alloc, node, op, records.saturating_add(1))?;
    match (took.first(), took.get(WINDOWS / 2), took.last()) {
        (Some(least), Some(middle), Some(most)) => {
            print_events(rt, records, *middle, *least, *most)
        }
        _ => Err(Fault::NoNode),
    }
}

/// The same at each tenfold number of records up to this one, from a thousand on.
fn measure_all<D: Device>(
    rt: &(impl Clock + Eprint),
    alloc: Global,
    node: &mut Node<D, Log>,
    op: &Op,
    most: u64,
) -> Result<(), Fault> {
    let mut next = 1;
    for records in [1_000, 10_000, 100_000, 1_000_000, 10_000_000] {
        if records <= most {
            updates(alloc, node, op, next, records + 1)?;
            measure_at(rt, alloc, node, op, records)?;
            next = records + 1 + WINDOW * WINDOWS as u64;
        }
    }
    Ok(())
}

/// Times events over logs of up to so many records.
pub fn measure_events(
    rt: &(impl Clock + Print + Eprint),
    alloc: Global,
    most: u64,
) -> Result<(), Fault> {
    let mut node = begun(alloc)?;
    let op = Op::new(alloc, Update::Noop)?;
    measure_all(rt, alloc, &mut node, &op, most)?;
    print_executed(rt, node.executed_len())
}
