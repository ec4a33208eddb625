// What no script of the lab reaches: copies of logs of records that ask for something, the last record that is taken out again, messages that no
// other replica sent. Records flow in; what was worked out by hand is compared. What must not be here: expected values that the program made.

use crate::replication::sample::{
    EIGHT, GET_STATE, NEW_STATE, PREPARE_OK, SEVEN, Text, held, is_log, record, sends,
};
use std::alloc::{AllocError, Global};
use std::test::*;
use vr_recover::step;
use vr_state::event::Event;
use vr_state::log::Log;
use vr_state::message::{PeerMessage, Snapshot};
use vr_state::payload::Payload;
use vr_state::replica::Replica;

/// A copy of a log, by way of its records.
fn copied(alloc: Global, log: &Log<Text>) -> Result<Log<Text>, AllocError> {
    Ok(Log::from_vec(log.copy(alloc)?.into_vec()))
}

#[test]
fn a_log_is_copied(rt: HostRuntime) -> Result<(), AllocError> {
    let log = copied(rt.alloc(), &held(rt.alloc())?.log)?;
    assert!(rt; is_log(rt.alloc(), &log, &[2, 0, 0, 7, 1, 97, 2, 1, 8, 5, 98, 99])?);
    Ok(())
}

/// The octets of the last record of a log, which is taken out, and how many are left.
fn popped(alloc: Global, mut log: Log<Text>) -> Result<Option<(Text, usize)>, AllocError> {
    match log.pop() {
        Some(last) => Ok(Some((last.copy(alloc)?.payload, log.len()))),
        None => Ok(None),
    }
}

#[test]
fn a_log_gives_its_last_record(rt: HostRuntime) -> Result<(), AllocError> {
    match popped(rt.alloc(), held(rt.alloc())?.log)? {
        Some((text, left)) => {
            assert!(rt; text.octets.as_slice() == b"bc".as_slice() && left == 1)
        }
        None => assert!(rt; false),
    }
    Ok(())
}

#[test]
fn a_new_log_is_empty(rt: HostRuntime) {
    let empty: Log<Text> = Log::new(rt.alloc());
    assert!(rt; empty.is_empty());
    vr_state::each_step::<Text>();
    vr_world::one_committed_list::<Text>();
}

/// Whether the primary of view 0 drops a message that comes as from this replica.
fn is_dropped(alloc: Global, from: u64) -> Result<bool, AllocError> {
    let mut zero = Replica::first(alloc, 0, 3)?;
    let message = PeerMessage::GetState {
        view_number: 0,
        commit_number: 0,
    };
    let out = step(alloc, &mut zero, Event::Message { from, message })?;
    sends(alloc, out, &[])
}

#[test]
fn a_message_of_no_other_is_dropped(rt: HostRuntime) -> Result<(), AllocError> {
    // Of the replica itself, and of no replica.
    assert!(rt; is_dropped(rt.alloc(), 0)?);
    assert!(rt; is_dropped(rt.alloc(), 3)?);
    Ok(())
}

/// Whether a first replica that gets the end of a log, from replica 0 and after one record, keeps what it has and asks for all.
fn asks_for_all(alloc: Global) -> Result<bool, AllocError> {
    let mut two = Replica::first(alloc, 2, 3)?;
    let mut log = Log::new(alloc);
    log.push(record(alloc, EIGHT, 5, b"bc")?)?;
    let message = PeerMessage::NewState {
        view_number: 0,
        base: 1,
        tail: Snapshot {
            log,
            commit_number: 1,
        },
    };
    let out = step(alloc, &mut two, Event::Message { from: 0, message })?;
    let unchanged = two.log.is_empty() && two.commit_number == 0 && two.view_number == 0;
    Ok(unchanged && sends(alloc, out, &[(0, &[GET_STATE, 0, 0])])?)
}

#[test]
fn a_tail_that_cannot_be_joined_is_asked_for_again(rt: HostRuntime) -> Result<(), AllocError> {
    assert!(rt; asks_for_all(rt.alloc())?);
    Ok(())
}

/// Whether a replica with both records of `held`, one of them committed, answers a request from its commit-number on with the
/// second alone, and one from past its end not at all.
fn sends_the_rest(alloc: Global) -> Result<bool, AllocError> {
    let mut zero = Replica::first(alloc, 0, 3)?;
    zero.adopt(alloc, 0, held(alloc)?)?;
    let message = PeerMessage::GetState {
        view_number: 0,
        commit_number: 1,
    };
    let out = step(alloc, &mut zero, Event::Message { from: 2, message })?;
    let want = [NEW_STATE, 0, 1, 1, 2, 1, 8, 5, 98, 99, 1];
    let rest = sends(alloc, out, &[(2, want.as_slice())])?;
    let message = PeerMessage::GetState {
        view_number: 0,
        commit_number: 3,
    };
    let out = step(alloc, &mut zero, Event::Message { from: 2, message })?;
    Ok(rest && sends(alloc, out, &[])?)
}

#[test]
fn the_rest_of_a_log_is_sent(rt: HostRuntime) -> Result<(), AllocError> {
    assert!(rt; sends_the_rest(rt.alloc())?);
    Ok(())
}

/// Whether a backup with both records of `held`, one of them committed, has three once a tail of two comes after its first, and says
/// so to the primary.
fn joins(alloc: Global) -> Result<bool, AllocError> {
    let mut two = Replica::first(alloc, 2, 3)?;
    two.adopt(alloc, 0, held(alloc)?)?;
    let mut log = Log::new(alloc);
    log.push(record(alloc, EIGHT, 5, b"bc")?)?;
    log.push(record(alloc, SEVEN, 2, b"d")?)?;
    let message = PeerMessage::NewState {
        view_number: 0,
        base: 1,
        tail: Snapshot {
            log,
            commit_number: 2,
        },
    };
    let out = step(alloc, &mut two, Event::Message { from: 1, message })?;
    let want = [3, 0, 0, 7, 1, 97, 2, 1, 8, 5, 98, 99, 0, 0, 7, 2, 100];
    let joined = is_log(alloc, &two.log, want.as_slice())? && two.commit_number == 2;
    Ok(joined && sends(alloc, out, &[(0, &[PREPARE_OK, 0, 3])])?)
}

#[test]
fn a_tail_is_joined(rt: HostRuntime) -> Result<(), AllocError> {
    assert!(rt; joins(rt.alloc())?);
    Ok(())
}
