//! One message that is written and read again. A message flows in; the length of its frame, how many records are read, and the times flow
//! out. How logs are made is not here.
use crate::fault::Fault;
use ldap_op::Op;
use std::alloc::Global;
use std::time::{Clock, Instant};
use vr_state::message::PeerMessage;
use vr_wire::{Cluster, read, write};

/// What writing a message and reading it again took.
#[derive(Clone, Copy, Debug)]
pub struct Framed {
    pub octets: usize,
    /// How many records were read.
    pub records: usize,
    pub writing: u128,
    pub reading: u128,
}

/// How many records a STARTVIEW has.
fn records(message: &PeerMessage<Op>) -> usize {
    match message {
        PeerMessage::StartView { held, .. } => held.log.len(),
        _ => 0,
    }
}

/// Writes a message of a cluster, and reads the frame; times are in microseconds.
pub fn frame(
    clock: &impl Clock,
    alloc: Global,
    cluster: Cluster,
    message: &PeerMessage<Op>,
) -> Result<Framed, Fault> {
    let began = Instant::now(clock)?;
    let octets = write(alloc, cluster, 0, message)?;
    let writing = began.elapsed(clock)?.as_micros();
    let began = Instant::now(clock)?;
    let (_sender, again) = read(alloc, &octets, cluster)?;
    let reading = began.elapsed(clock)?.as_micros();
    Ok(Framed {
        octets: octets.len(),
        records: records(&again),
        writing,
        reading,
    })
}
