//! Messages to a replica that has told how much it has committed: they leave that out, behind a note. Frames are made, read back and filled.

use crate::threads::reports::{parts_under, terms_under};
use ldap_op::Update;
use peer_link::{Claim, Framing};
use server_threads::{MessageFrames, SharedParts};
use std::alloc::{AllocError, Global};
use std::test::*;
use vr_short::{fill, note};
use vr_state::log::Log;
use vr_state::message::Snapshot;
use vr_state::words::{Client, LogEntry};
use vr_state::message::Response;
use vr_wire::{Came, Cluster, Gathering, Op, PeerMessage};

/// A log of so many removals.
fn log_of(alloc: Global, count: u64) -> Result<Log<Op>, AllocError> {
    let mut log = Log::new(alloc);
    for number in 0..count {
        let mut name = String::new(alloc);
        name.push_str("dc=x")?;
        log.push(LogEntry {
            client: Client {
                home: 0,
                life: 0,
                number,
            },
            request_number: 1,
            payload: Op::new(alloc, Update::Delete(name))?,
        })?;
    }
    Ok(log)
}

/// What a start says of itself.
fn claim() -> Claim {
    Claim {
        start: 3,
        mark: 77,
        remembers: true,
        view: 5,
        last_normal: 4,
        length: 12,
    }
}

/// The answer to a RECOVERY of this nonce, with so many removals of names of a million octets.
fn long_answer(alloc: Global, nonce: u64, count: u64) -> Result<PeerMessage<Op>, AllocError> {
    let mut log = Log::new(alloc);
    for number in 0..count {
        let mut name = String::new(alloc);
        name.push_str("dc=")?;
        for _ in 0..100_000 {
            name.push_str("xxxxxxxxxx")?;
        }
        log.push(LogEntry {
            client: Client {
                home: 0,
                life: 0,
                number,
            },
            request_number: 1,
            payload: Op::new(alloc, Update::Delete(name))?,
        })?;
    }
    Ok(PeerMessage::RecoveryResponse {
        nonce,
        response: Response {
            view_number: 3,
            held: Some(Snapshot {
                log,
                commit_number: 0,
            }),
        },
    })
}

#[test]
fn one_copy_of_a_long_log_is_made_at_a_time(rt: HostRuntime) -> Result<(), Fail> {
    let alloc = rt.alloc();
    let cluster = Cluster::new(9).expect(&rt, "9 is the number of a cluster");
    let shared_parts = parts_under(&rt, terms_under("dc=example,dc=com")).expect(&rt, "there are ports");
    let mut first = MessageFrames::new(&rt, alloc, shared_parts.peer_parts(), cluster, claim(), 1);
    let mut second = MessageFrames::new(&rt, alloc, shared_parts.peer_parts(), cluster, claim(), 2);
    first.begin(long_answer(alloc, 5, 17)?);
    assert!(rt; first.next_frame().is_some());
    // The other gets none meanwhile, but a short one; and the same isn't made again for the first.
    second.begin(long_answer(alloc, 6, 17)?);
    assert!(rt; second.next_frame().is_none());
    second.begin(long_answer(alloc, 6, 1)?);
    assert!(rt; second.next_frame().is_some());
    let again = long_answer(alloc, 5, 1)?;
    assert!(rt; shared_parts.progress.is_sending(&rt, 1, &again));
    let other = long_answer(alloc, 7, 1)?;
    assert!(rt; !shared_parts.progress.is_sending(&rt, 1, &other));
    // Its stream fails: the other's turn has come.
    first.fail();
    assert!(rt; first.next_frame().is_none());
    assert!(rt; !shared_parts.progress.is_sending(&rt, 1, &again));
    second.begin(long_answer(alloc, 6, 17)?);
    let mut frames = 0;
    for _ in 0..100 {
        if second.next_frame().is_none() {
            break;
        }
        frames += 1;
    }
    assert!(rt; frames == 17);
    first.begin(long_answer(alloc, 5, 17)?);
    assert!(rt; first.next_frame().is_some());
    Ok(())
}

/// A STARTVIEW of six records, of which five are committed.
fn six(alloc: Global) -> Result<PeerMessage<Op>, AllocError> {
    Ok(PeerMessage::StartView {
        view_number: 3,
        held: Snapshot {
            log: log_of(alloc, 6)?,
            commit_number: 5,
        },
    })
}

/// How many records a frame tells, where it is one of a STARTVIEW.
fn records_in(alloc: Global, cluster: Cluster, frame: &[u8]) -> Option<(usize, PeerMessage<Op>)> {
    match Gathering::new().take(alloc, frame, cluster) {
        Ok(Came::Message(_, message)) => {
            let count = match &message {
                PeerMessage::StartView { held, .. } => held.log.len(),
                _ => 0,
            };
            Some((count, message))
        }
        _ => None,
    }
}

/// Has the other replica ask whether it is heard, and tell that it has committed four.
fn tell_four(shared_parts: &SharedParts) {
    shared_parts.progress.read_notes(1);
    let message: PeerMessage<Op> = PeerMessage::StartViewChange { view_number: 3 };
    shared_parts.progress.hear(1, &message, Some(4));
}

#[test]
fn what_both_have_is_left_out(rt: HostRuntime) -> Result<(), Fail> {
    let alloc = rt.alloc();
    let cluster = Cluster::new(9).expect(&rt, "9 is the number of a cluster");
    let terms = terms_under("dc=example,dc=com");
    let shared_parts = parts_under(&rt, terms).expect(&rt, "there are ports");
    let mut frames = MessageFrames::new(&rt, alloc, shared_parts.peer_parts(), cluster, claim(), 1);

    // Nothing is known of the other: it may be of an earlier version.
    frames.begin(six(alloc)?);
    let whole = frames.next_frame().expect(&rt, "there is a frame");
    let (count, _) = records_in(alloc, cluster, whole.as_slice()).expect(&rt, "it is a message's");
    assert!(rt; count == 6);
    assert!(rt; frames.next_frame().is_none());

    tell_four(&shared_parts);
    frames.begin(six(alloc)?);
    let first = frames.next_frame().expect(&rt, "there is a note");
    assert!(rt; first.as_slice() == note(cluster, 0, 4).as_slice());
    let second = frames.next_frame().expect(&rt, "there is a frame");
    let (count, short) = records_in(alloc, cluster, second.as_slice()).expect(&rt, "it is a message's");
    assert!(rt; count == 2);
    assert!(rt; frames.next_frame().is_none());

    // Who has committed four fills it; who has committed three doesn't.
    let own = log_of(alloc, 5)?;
    let lacking = fill(alloc, own.as_slice(), 3, 4, six(alloc)?)?;
    assert!(rt; lacking.is_none());
    let filled = fill(alloc, own.as_slice(), 4, 4, short)?.expect(&rt, "it has all four");
    let is_whole = match &filled {
        PeerMessage::StartView { held, .. } => {
            held.log.len() == 6 && held.log.as_slice()[5].client.number == 5
        }
        _ => false,
    };
    assert!(rt; is_whole);
    Ok(())
}
