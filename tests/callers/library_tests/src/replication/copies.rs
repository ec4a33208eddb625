// Copies of each kind of message. Messages flow in; the numbers of their copies, written by hand, are compared.
// What must not be here: steps.

use crate::replication::sample::{
    COMMIT, DO_VIEW_CHANGE, EIGHT, GET_STATE, NEW_STATE, PREPARE, PREPARE_OK, RECOVERY,
    RECOVERY_RESPONSE, START_VIEW, START_VIEW_CHANGE, Text, held, is_message, record,
};
use std::alloc::{AllocError, Global};
use std::test::*;
use vr_state::message::{Change, PeerMessage, Response};
use vr_state::sending::copy_message;

/// Whether a copy of the message has these numbers.
fn is_copied(alloc: Global, message: PeerMessage<Text>, want: &[u64]) -> Result<bool, AllocError> {
    is_message(alloc, &copy_message(alloc, &message)?, want)
}

/// Whether a copy of a message of one number has that and its kind.
fn is_short(alloc: Global, message: PeerMessage<Text>, want: [u64; 2]) -> Result<bool, AllocError> {
    is_copied(alloc, message, want.as_slice())
}

#[test]
fn a_prepare_is_copied(rt: HostRuntime) -> Result<(), AllocError> {
    let alloc = rt.alloc();
    let message = PeerMessage::Prepare {
        view_number: 3,
        entry: record(alloc, EIGHT, 5, b"bc")?,
        op_number: 4,
        commit_number: 2,
    };
    assert!(rt; is_copied(alloc, message, &[PREPARE, 3, 2, 1, 8, 5, 98, 99, 4, 2])?);
    Ok(())
}

#[test]
fn messages_of_two_numbers_are_copied(rt: HostRuntime) -> Result<(), AllocError> {
    let message = PeerMessage::PrepareOk {
        view_number: 3,
        op_number: 4,
    };
    assert!(rt; is_copied(rt.alloc(), message, &[PREPARE_OK, 3, 4])?);
    let message = PeerMessage::Commit {
        view_number: 3,
        commit_number: 2,
    };
    assert!(rt; is_copied(rt.alloc(), message, &[COMMIT, 3, 2])?);
    let message = PeerMessage::GetState {
        view_number: 3,
        commit_number: 2,
    };
    assert!(rt; is_copied(rt.alloc(), message, &[GET_STATE, 3, 2])?);
    Ok(())
}

#[test]
fn messages_of_one_number_are_copied(rt: HostRuntime) -> Result<(), AllocError> {
    let alloc = rt.alloc();
    let message = PeerMessage::StartViewChange { view_number: 4 };
    assert!(rt; is_short(alloc, message, [START_VIEW_CHANGE, 4])?);
    let message = PeerMessage::Recovery { nonce: 6 };
    assert!(rt; is_short(alloc, message, [RECOVERY, 6])?);
    Ok(())
}

#[test]
fn a_start_of_a_view_is_copied(rt: HostRuntime) -> Result<(), AllocError> {
    let alloc = rt.alloc();
    let message = PeerMessage::StartView {
        view_number: 4,
        held: held(alloc)?,
    };
    let want = [START_VIEW, 4, 2, 0, 0, 7, 1, 97, 2, 1, 8, 5, 98, 99, 1];
    assert!(rt; is_copied(alloc, message, want.as_slice())?);
    Ok(())
}

#[test]
fn a_state_is_copied(rt: HostRuntime) -> Result<(), AllocError> {
    let alloc = rt.alloc();
    let message = PeerMessage::NewState {
        view_number: 3,
        base: 6,
        tail: held(alloc)?,
    };
    let want = [NEW_STATE, 3, 6, 2, 0, 0, 7, 1, 97, 2, 1, 8, 5, 98, 99, 1];
    assert!(rt; is_copied(alloc, message, want.as_slice())?);
    Ok(())
}

#[test]
fn what_a_replica_brings_into_a_view_is_copied(rt: HostRuntime) -> Result<(), AllocError> {
    let alloc = rt.alloc();
    let change = Change {
        log: held(alloc)?.log,
        last_normal_view: 3,
        commit_number: 0,
    };
    let message = PeerMessage::DoViewChange {
        view_number: 4,
        change,
    };
    let want = [
        DO_VIEW_CHANGE,
        4,
        2,
        0,
        0,
        7,
        1,
        97,
        2,
        1,
        8,
        5,
        98,
        99,
        3,
        0,
    ];
    assert!(rt; is_copied(alloc, message, want.as_slice())?);
    Ok(())
}

#[test]
fn an_answer_to_a_recovery_is_copied(rt: HostRuntime) -> Result<(), AllocError> {
    let alloc = rt.alloc();
    let response = Response {
        view_number: 4,
        held: Some(held(alloc)?),
    };
    let message = PeerMessage::RecoveryResponse { nonce: 6, response };
    let want = [
        RECOVERY_RESPONSE,
        6,
        4,
        2,
        0,
        0,
        7,
        1,
        97,
        2,
        1,
        8,
        5,
        98,
        99,
        1,
    ];
    assert!(rt; is_copied(alloc, message, want.as_slice())?);
    Ok(())
}
