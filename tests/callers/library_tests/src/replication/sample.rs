// What the tests of replication share: records of some octets, logs of them, and messages in numbers.
// In: octets and numbers. Out: records, and whether what a step gave out is what was worked out by hand.
// What must not be here: expected values that the program made.

use std::alloc::{AllocError, Global};
use std::marker::Model;
use vr_state::log::Log;
use vr_state::message::{Outputs, PeerMessage, Send, Snapshot};
use vr_state::payload::Payload;
use vr_state::words::{Client, LogEntry};

/// What the records of these tests ask for: some octets, in memory of their own.
#[derive(Drop)]
pub struct Text {
    pub octets: Vec<u8>,
}

impl Model for Text {
    ghost use Rattle.std.specs.Prelude.{ℕ, List};

    ghost Value = { List ℕ };

    ghost view = { λ text. text.octets.items };
}

impl Payload for Text {
    fn copy(&self, alloc: Global) -> Result<Self, AllocError> {
        let octets = Vec::from_slice(alloc, self.octets.as_slice())?;
        Ok(Text { octets })
    }
}

pub const SEVEN: Client = Client {
    home: 0,
    life: 0,
    number: 7,
};

pub const EIGHT: Client = Client {
    home: 2,
    life: 1,
    number: 8,
};

/// The numbers that stand for each kind of message in `numbers`.
pub const PREPARE: u64 = 101;

pub const PREPARE_OK: u64 = 102;

pub const COMMIT: u64 = 103;

pub const START_VIEW_CHANGE: u64 = 104;

pub const DO_VIEW_CHANGE: u64 = 105;

pub const START_VIEW: u64 = 106;

pub const GET_STATE: u64 = 107;

pub const NEW_STATE: u64 = 108;

pub const RECOVERY: u64 = 109;

pub const RECOVERY_RESPONSE: u64 = 110;

pub fn record(
    alloc: Global,
    client: Client,
    request_number: u64,
    octets: &[u8],
) -> Result<LogEntry<Text>, AllocError> {
    let octets = Vec::from_slice(alloc, octets)?;
    Ok(LogEntry {
        client,
        request_number,
        payload: Text { octets },
    })
}

/// Two records, client 7's request 1, `a`, and client 8's request 5, `bc`; the first is committed.
pub fn held(alloc: Global) -> Result<Snapshot<Text>, AllocError> {
    let mut log = Log::new(alloc);
    log.push(record(alloc, SEVEN, 1, b"a")?)?;
    log.push(record(alloc, EIGHT, 5, b"bc")?)?;
    Ok(Snapshot {
        log,
        commit_number: 1,
    })
}

/// A record in numbers: home, life and number of its client, its request number, its octets.
fn add_record(numbers: &mut Vec<u64>, entry: &LogEntry<Text>) -> Result<(), AllocError> {
    let client = entry.client;
    numbers.extend_from_slice(&[
        client.home as u64,
        client.life,
        client.number,
        entry.request_number,
    ])?;
    for octet in &entry.payload.octets {
        numbers.push(*octet as u64)?;
    }
    Ok(())
}

/// A log in numbers: how many records it has, and each of them.
fn add_log(numbers: &mut Vec<u64>, log: &Log<Text>) -> Result<(), AllocError> {
    numbers.push(log.len() as u64)?;
    for entry in log.as_slice() {
        add_record(numbers, entry)?;
    }
    Ok(())
}

/// Some numbers, a record in numbers, and some numbers.
fn with_record(
    alloc: Global,
    first: &[u64],
    entry: &LogEntry<Text>,
    last: &[u64],
) -> Result<Vec<u64>, AllocError> {
    let mut all = Vec::from_slice(alloc, first)?;
    add_record(&mut all, entry)?;
    all.extend_from_slice(last)?;
    Ok(all)
}

/// Some numbers, a log in numbers, and some numbers.
fn with_log(
    alloc: Global,
    first: &[u64],
    log: &Log<Text>,
    last: &[u64],
) -> Result<Vec<u64>, AllocError> {
    let mut all = Vec::from_slice(alloc, first)?;
    add_log(&mut all, log)?;
    all.extend_from_slice(last)?;
    Ok(all)
}

/// Some numbers, and what is held in numbers, where something is.
fn with_held(
    alloc: Global,
    first: &[u64],
    held: Option<&Snapshot<Text>>,
) -> Result<Vec<u64>, AllocError> {
    match held {
        Some(held) => with_log(alloc, first, &held.log, &[held.commit_number]),
        None => Vec::from_slice(alloc, first),
    }
}

/// A message in numbers: its kind, and its fields in their order.
fn numbers(alloc: Global, message: &PeerMessage<Text>) -> Result<Vec<u64>, AllocError> {
    match message {
        PeerMessage::Prepare {
            view_number,
            entry,
            op_number,
            commit_number,
        } => with_record(
            alloc,
            &[PREPARE, *view_number],
            entry,
            &[*op_number, *commit_number],
        ),
        PeerMessage::PrepareOk {
            view_number,
            op_number,
        } => Vec::from_slice(alloc, &[PREPARE_OK, *view_number, *op_number]),
        PeerMessage::Commit {
            view_number,
            commit_number,
        } => Vec::from_slice(alloc, &[COMMIT, *view_number, *commit_number]),
        PeerMessage::StartViewChange { view_number } => {
            Vec::from_slice(alloc, &[START_VIEW_CHANGE, *view_number])
        }
        PeerMessage::DoViewChange {
            view_number,
            change,
        } => with_log(
            alloc,
            &[DO_VIEW_CHANGE, *view_number],
            &change.log,
            &[change.last_normal_view, change.commit_number],
        ),
        PeerMessage::StartView { view_number, held } => {
            with_held(alloc, &[START_VIEW, *view_number], Some(held))
        }
        PeerMessage::GetState {
            view_number,
            commit_number,
        } => Vec::from_slice(alloc, &[GET_STATE, *view_number, *commit_number]),
        PeerMessage::NewState {
            view_number,
            base,
            tail,
        } => with_held(alloc, &[NEW_STATE, *view_number, *base], Some(tail)),
        PeerMessage::Recovery { nonce } => Vec::from_slice(alloc, &[RECOVERY, *nonce]),
        PeerMessage::RecoveryResponse { nonce, response } => with_held(
            alloc,
            &[RECOVERY_RESPONSE, *nonce, response.view_number],
            response.held.as_ref(),
        ),
    }
}

/// Whether a log has these numbers.
pub fn is_log(alloc: Global, log: &Log<Text>, want: &[u64]) -> Result<bool, AllocError> {
    Ok(with_log(alloc, &[], log, &[])?.as_slice() == want)
}

/// Whether a message has these numbers.
pub fn is_message(
    alloc: Global,
    message: &PeerMessage<Text>,
    want: &[u64],
) -> Result<bool, AllocError> {
    Ok(numbers(alloc, message)?.as_slice() == want)
}

/// Whether this message is sent to this replica.
fn is_send(alloc: Global, send: &Send<Text>, to: u64, message: &[u64]) -> Result<bool, AllocError> {
    Ok(send.to == to && is_message(alloc, &send.message, message)?)
}

/// Whether these messages are sent to these replicas, in this order and no others.
pub fn are_sends(
    alloc: Global,
    sends: &[Send<Text>],
    wanted: &[(u64, &[u64])],
) -> Result<bool, AllocError> {
    for (send, (to, message)) in sends.iter().zip(wanted) {
        if !is_send(alloc, send, *to, message)? {
            return Ok(false);
        }
    }
    Ok(sends.len() == wanted.len())
}

/// Whether a step stores nothing, answers nobody, and sends these messages.
pub fn sends(
    alloc: Global,
    out: Outputs<Text>,
    wanted: &[(u64, &[u64])],
) -> Result<bool, AllocError> {
    Ok(out.store.is_none() && out.replies.is_empty() && are_sends(alloc, &out.sends, wanted)?)
}
