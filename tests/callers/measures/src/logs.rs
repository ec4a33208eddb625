//! Logs that are measured. A number of records and their kind flow in; a message that carries them flows out. Frames and times are not here.
use crate::fault::Fault;
use ldap_op::{Op, Update};
use std::alloc::Global;
use vr_state::log::Log;
use vr_state::message::{PeerMessage, Snapshot};
use vr_state::words::{Client, LogEntry};

/// What the records of a log ask.
#[derive(Clone, Copy, Debug, PartialEq, Eq)]
pub enum Kind {
    /// Nothing: the smallest records, of 29 octets.
    Noops,
    /// Deletes of names of 39 to 48 octets.
    Deletes,
}

impl Kind {
    pub fn name(&self) -> &'static str {
        match self {
            Kind::Noops => "no-ops",
            Kind::Deletes => "deletes",
        }
    }
}

fn update(alloc: Global, kind: Kind, number: u32) -> Result<Update, Fault> {
    match kind {
        Kind::Noops => Ok(Update::Noop),
        Kind::Deletes => {
            let name = format!(in alloc; "cn=Person {number},ou=People,dc=example,dc=com")?;
            Ok(Update::Delete(name))
        }
    }
}

fn entry(alloc: Global, kind: Kind, number: u32) -> Result<LogEntry<Op>, Fault> {
    let payload = Op::new(alloc, update(alloc, kind, number)?)?;
    let client = Client {
        home: 1,
        life: 1,
        number: number as u64,
    };
    Ok(LogEntry {
        client,
        request_number: 1,
        payload,
    })
}

fn log(alloc: Global, kind: Kind, count: u32) -> Result<Log<Op>, Fault> {
    let mut log = Log::new(alloc);
    for number in 0..count {
        let entry = entry(alloc, kind, number)?;
        log.push(entry)?;
    }
    Ok(log)
}

/// The STARTVIEW of a log of so many records.
pub fn start_view(alloc: Global, kind: Kind, count: u32) -> Result<PeerMessage<Op>, Fault> {
    let log = log(alloc, kind, count)?;
    let held = Snapshot {
        log,
        commit_number: count as u64,
    };
    Ok(PeerMessage::StartView {
        view_number: 1,
        held,
    })
}
