//! A replica that leads, appends, changes its view and adopts a log, with its journal on a device in memory.

use journal::{Fault, MemoryDevice, open};
use ldap_op::{Op, Update, write_op};
use log_journal::{Batch, Journal, Told, keep_events, put_begin, put_start, settle, tell};
use std::alloc::Global;
use std::test::*;
use vr_state::event::Event;
use vr_state::log::Log;
use vr_state::message::{PeerMessage, Snapshot};
use vr_state::replica::Replica;
use vr_state::words::{Client, LogEntry};

/// How many octets the device has.
const ROOM: usize = 4096;

/// A record: this client's request of this number, a delete.
pub fn entry(alloc: Global, client: u64, number: u64) -> Result<LogEntry<Op>, Fail> {
    let name = format!(in alloc; "cn={client}-{number},dc=example,dc=com")?;
    Ok(LogEntry {
        client: Client {
            home: 1,
            life: 1,
            number: client,
        },
        request_number: number,
        payload: Op::new(alloc, Update::Delete(name))?,
    })
}

fn request(alloc: Global, client: u64, number: u64) -> Result<Event<Op>, Fail> {
    Ok(Event::Request {
        entry: entry(alloc, client, number)?,
    })
}

/// The primary of view 1 begins it with a log of which the first two records are the replica's own.
fn start_view(alloc: Global) -> Result<Event<Op>, Fail> {
    let mut log = Log::new(alloc);
    for (client, number) in [(7, 1), (7, 2), (8, 1), (8, 2)] {
        log.push(entry(alloc, client, number)?)?;
    }
    Ok(Event::Message {
        from: 1,
        message: PeerMessage::StartView {
            view_number: 1,
            held: Snapshot {
                log,
                commit_number: 2,
            },
        },
    })
}

/// The batches of events: records, a view that is given up, another log, a record behind that.
pub fn batches(alloc: Global) -> Result<Vec<Vec<Event<Op>>>, Fail> {
    let mut all = Vec::new(alloc);
    let mut first = Vec::new(alloc);
    first.push(request(alloc, 7, 1)?)?;
    all.push(first)?;
    let mut second = Vec::new(alloc);
    second.push(request(alloc, 7, 2)?)?;
    second.push(request(alloc, 9, 1)?)?;
    all.push(second)?;
    let mut third = Vec::new(alloc);
    third.push(Event::Suspect)?;
    third.push(start_view(alloc)?)?;
    all.push(third)?;
    let mut last = Vec::new(alloc);
    for number in [3, 4] {
        last.push(Event::Message {
            from: 1,
            message: PeerMessage::Prepare {
                view_number: 1,
                op_number: number + 2,
                entry: entry(alloc, 8, number)?,
                commit_number: 3,
            },
        })?;
    }
    all.push(last)?;
    Ok(all)
}

/// What a journal holds: its octets, and where those of the last batch begin and end.
#[derive(Drop)]
pub struct Sample {
    pub octets: Vec<u8>,
    pub last: usize,
    pub end: usize,
}

/// The octets of a device after all batches.
pub fn make_sample(alloc: Global) -> Result<Sample, Fail> {
    let mut device = MemoryDevice::new(alloc, vec![in alloc; 0u8; ROOM]?, 1000, Fault::None)?;
    let found = open(alloc, &mut device)?;
    let mut journal = Journal {
        device,
        end: found.end,
    };
    let mut batch = Batch::new(alloc);
    put_begin(alloc, &mut batch, 9, 0, 3)?;
    put_start(alloc, &mut batch, 1, 0, true)?;
    settle(&mut journal, &batch)?;
    let mut replica = Replica::first(alloc, 0, 3)?;
    let mut last = 0;
    for events in batches(alloc)? {
        last = journal.end as usize;
        let _outputs = keep_events(alloc, &mut replica, &mut journal, events)?;
    }
    Ok(Sample {
        octets: journal.device.bytes().to_vec(alloc)?,
        last,
        end: journal.end as usize,
    })
}

/// The records of a log, one after another.
fn records(alloc: Global, log: &Log<Op>) -> Result<String, Fail> {
    let mut told = String::new(alloc);
    for entry in log.as_slice() {
        let octets = write_op(alloc, &entry.payload)?;
        let one = format!(in alloc;
            " {}/{}:{octets:?}",
            entry.client.number, entry.request_number
        )?;
        told.push_str(one.as_str())?;
    }
    Ok(told)
}

/// All that is told, as a text.
pub fn text_of(alloc: Global, told: &Told) -> Result<String, Fail> {
    let log = records(alloc, &told.log)?;
    let staged = records(alloc, &told.staged)?;
    Ok(format!(in alloc;
        "cluster {} index {} of {}, start {}, view {} after {}, {} committed, whole {}, log{log}, staged{staged}",
        told.cluster,
        told.index,
        told.count,
        told.restarts,
        told.view_number,
        told.last_normal_view,
        told.commit_number,
        told.is_whole
    )?)
}

/// What each first part of the strings in these octets tells.
pub fn texts(alloc: Global, octets: &[u8]) -> Result<Vec<String>, Fail> {
    let mut device = MemoryDevice::new(alloc, octets.to_vec(alloc)?, 100, Fault::None)?;
    let found = open(alloc, &mut device)?;
    let mut all = Vec::new(alloc);
    for count in 0..=found.strings.len() {
        let told = tell(alloc, &found.strings.as_slice()[..count])?;
        all.push(text_of(alloc, &told)?)?;
    }
    Ok(all)
}
