//! Three replicas in one room: an event at one, and the frames that it sends to the others, which may be lost. Every event and every message of the protocol
//! occurs. Frames and where the replicas stand are printed. Devices, clocks and sockets are not here.
use crate::again::{again, print_octets};
use crate::stop::Stop;
use ldap_op::{Op, read_op};
use std::alloc::Global;
use std::io::Print;
use vr_recover::{recover, step};
use vr_state::event::Event;
use vr_state::message::Outputs;
use vr_state::replica::Replica;
use vr_state::words::{Client, LogEntry, Status};
use vr_wire::{Cluster, read, write};

/// The removal of a name, as an update by itself.
const DELETE: &str = "4a1164633d6578616d706c652c64633d636f6d";

/// A frame on its way: to whom, and its octets.
#[derive(Drop)]
struct Mail {
    to: u64,
    frame: Vec<u8>,
}

/// What is given to a replica.
#[derive(Drop)]
enum Given<'a> {
    Frame(&'a [u8]),
    Request(u64),
    Suspect,
    Beat,
}

/// Three replicas, and the frames that are on their way.
#[derive(Drop)]
struct Room {
    replicas: Vec<Replica<Op>>,
    mails: Vec<Mail>,
}

/// How many replicas there are.
const COUNT: u64 = 3;

/// No replica: every frame arrives.
const NOBODY: u64 = 9;

/// How many frames are handed over in a row at most.
const MOST: usize = 1_000;

/// For how many frames there is room.
const ROOM: usize = 64;

fn cluster() -> Result<Cluster, Stop> {
    Cluster::new(9).ok_or(Stop::Other)
}

/// The word for a status.
fn word(status: Status) -> &'static str {
    match status {
        Status::Normal => "normal",
        Status::ViewChange => "changing",
        Status::Recovering => "recovering",
    }
}

/// The event that something given is.
fn event_of(alloc: Global, given: &Given<'_>) -> Result<Event<Op>, Stop> {
    match given {
        Given::Frame(frame) => {
            let cluster = cluster()?;
            let (from, message) = again!(read(alloc, frame, cluster));
            Ok(Event::Message {
                from: from as u64,
                message,
            })
        }
        Given::Request(number) => {
            let octets = again!(hex::decode(alloc, DELETE));
            let client = Client {
                home: 0,
                life: 0,
                number: 7,
            };
            Ok(Event::Request {
                entry: LogEntry {
                    client,
                    request_number: *number,
                    payload: again!(read_op(alloc, &octets)),
                },
            })
        }
        Given::Suspect => Ok(Event::Suspect),
        Given::Beat => Ok(Event::Beat),
    }
}

/// Prints where a replica stands.
fn print_standing(rt: &impl Print, replica: &Replica<Op>) -> Result<(), Stop> {
    let shown = format_args!(
        "replica {} is {} in view {} with {} of {}\n",
        replica.index,
        word(replica.status),
        replica.view_number,
        replica.commit_number,
        replica.log.len()
    );
    rt.print(shown)?;
    Ok(())
}

/// Puts what a replica sends on its way.
fn send_all(
    rt: &impl Print,
    alloc: Global,
    room: &mut Room,
    from: u64,
    out: Outputs<Op>,
) -> Result<(), Stop> {
    let cluster = cluster()?;
    for send in out.sends {
        let Ok(sender) = u8::try_from(from) else {
            return Err(Stop::Other);
        };
        let frame = again!(write(alloc, cluster, sender, &send.message));
        print_octets(rt, "frame", &frame)?;
        room.mails.push(Mail { to: send.to, frame })?;
    }
    Ok(())
}

/// The same step once more.
fn step_again(
    alloc: Global,
    replica: &mut Replica<Op>,
    given: &Given<'_>,
) -> Result<Outputs<Op>, Stop> {
    let event = event_of(alloc, given)?;
    match step(alloc, replica, event) {
        Ok(out) => Ok(out),
        Err(_) => Err(Stop::Twice),
    }
}

/// Makes a replica's step at what is given to it.
fn give(
    rt: &impl Print,
    alloc: Global,
    room: &mut Room,
    to: u64,
    given: &Given<'_>,
) -> Result<(), Stop> {
    let event = event_of(alloc, given)?;
    let Some(replica) = room.replicas.get_mut(to as usize) else {
        return Err(Stop::Other);
    };
    let out = match step(alloc, replica, event) {
        Ok(out) => out,
        Err(_) => step_again(alloc, replica, given)?,
    };
    print_standing(rt, replica)?;
    send_all(rt, alloc, room, to, out)
}

/// Hands over all frames that are on their way, and those that come of them, but for those to one replica.
fn hand_over(rt: &impl Print, alloc: Global, room: &mut Room, lost: u64) -> Result<(), Stop> {
    for _ in 0..MOST {
        if room.mails.is_empty() {
            return Ok(());
        }
        let mail = room.mails.remove(0);
        if mail.to != lost {
            give(rt, alloc, room, mail.to, &Given::Frame(&mail.frame))?;
        }
    }
    Err(Stop::Other)
}

/// Gives a replica something, and then hands over what comes of it.
fn happen(
    rt: &impl Print,
    alloc: Global,
    room: &mut Room,
    to: u64,
    given: &Given<'_>,
    lost: u64,
) -> Result<(), Stop> {
    give(rt, alloc, room, to, given)?;
    hand_over(rt, alloc, room, lost)
}

/// A replica comes back after a crash, in view 1.
fn come_back(rt: &impl Print, alloc: Global, room: &mut Room, index: u64) -> Result<(), Stop> {
    if COUNT <= index {
        return Err(Stop::Other);
    }
    let (replica, out) = again!(recover(alloc, index, COUNT, 1, 5));
    match room.replicas.get_mut(index as usize) {
        Some(place) => *place = replica,
        None => return Err(Stop::Other),
    }
    send_all(rt, alloc, room, index, out)?;
    give(rt, alloc, room, index, &Given::Suspect)?;
    give(rt, alloc, room, index, &Given::Beat)?;
    hand_over(rt, alloc, room, NOBODY)
}

/// Three replicas at the start of their cluster.
fn begun(alloc: Global) -> Result<Room, Stop> {
    let mut replicas = Vec::with_capacity(alloc, COUNT as usize)?;
    for index in 0..COUNT {
        let replica = again!(Replica::first(alloc, index, COUNT));
        replicas.push(replica)?;
    }
    let mails = Vec::with_capacity(alloc, ROOM)?;
    Ok(Room { replicas, mails })
}

/// Two requests, of which replica 2 misses the second and fetches it; then a change of the view, a request in the new one, and a crash of replica 2.
pub fn play(rt: &impl Print, alloc: Global) -> Result<(), Stop> {
    let mut room = begun(alloc)?;
    happen(rt, alloc, &mut room, 0, &Given::Request(1), NOBODY)?;
    happen(rt, alloc, &mut room, 0, &Given::Request(2), 2)?;
    happen(rt, alloc, &mut room, 0, &Given::Beat, NOBODY)?;
    happen(rt, alloc, &mut room, 1, &Given::Suspect, NOBODY)?;
    happen(rt, alloc, &mut room, 1, &Given::Request(3), NOBODY)?;
    come_back(rt, alloc, &mut room, 2)
}
