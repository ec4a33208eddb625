//! Each device call of an event that must store fails, and stops, in turn; then comes a crash, and the replica recovers. Events flow in; what it gives
//! out is compared.

use crate::nodes::frames::{
    CHANGE_OF_1, LATER_BY_0, LATER_BY_2, RECOVERY_OF_1, TOLD_BY_0, TOLD_BY_2,
};
use crate::nodes::player::{Given, Row, joined, play};
use crate::nodes::sample::{ADD, Log, ROOM, device, fresh, octets, reopen};
use crate::nodes::telling::words_of;
use dir_node::Node;
use std::alloc::Global;
use std::process::Abort;
use std::test::*;
use view_store::{Fate, Fault, MemoryDevice};

/// How many device calls the store of a pair takes.
const CALLS: usize = 6;

/// Which of them opens the gate.
const OPENING: usize = 5;

const FATES: [Fate; 5] = [
    Fate::Lost,
    Fate::Done,
    Fate::Filled(0xa5),
    Fate::Filled(0),
    Fate::Filled(0x5a),
];

/// The device fails where a view is to be stored: nothing is given out, and all that comes then is refused.
const HALTED: &[Row] = &[
    (Given::Suspect, &["E21: the device failed"]),
    (Given::Stand, &["Recovering 1 1 0"]),
    (Given::Beat, &["the node has stopped"]),
    (Given::Suspect, &["the node has stopped"]),
    (Given::Request(5, ADD), &["the node has stopped"]),
    (Given::Frame(TOLD_BY_0), &["the node has stopped"]),
    (Given::Outcome(5), &["lost"]),
];

/// A view is stored and sent to both others; a beat sends it again, and stores nothing.
const CHANGED: &[Row] = &[
    (
        Given::Suspect,
        &["store 1", "0", CHANGE_OF_1, "2", CHANGE_OF_1],
    ),
    (Given::Stand, &["Changing 1 1 0"]),
    (Given::Beat, &["0", CHANGE_OF_1, "2", CHANGE_OF_1]),
];

/// Where view 0 was kept, the replica recovers in it.
const IN_VIEW_0: &[Row] = &[
    (Given::Stand, &["Recovering 0 2 0"]),
    (Given::Beat, &["0", RECOVERY_OF_1, "2", RECOVERY_OF_1]),
    (Given::Frame(TOLD_BY_2), &[]),
    (Given::Stand, &["Recovering 0 2 0"]),
    (Given::Frame(TOLD_BY_0), &[]),
    (Given::Stand, &["Backup { primary: 0 } 0 2 1"]),
    (Given::Outcome(5), &["done 1 0"]),
];

/// Where view 1 was kept, it doesn't recover in view 0, but in a later one.
const IN_VIEW_1: &[Row] = &[
    (Given::Stand, &["Recovering 1 2 0"]),
    (Given::Frame(TOLD_BY_0), &[]),
    (Given::Frame(TOLD_BY_2), &[]),
    (Given::Stand, &["Recovering 1 2 0"]),
    (Given::Frame(LATER_BY_0), &[]),
    (Given::Frame(LATER_BY_2), &["store 2"]),
    (Given::Stand, &["Backup { primary: 2 } 2 2 1"]),
    (Given::Outcome(5), &["done 1 0"]),
];

/// Replica 1 at its first start, over an empty device to which this is to happen.
fn started(rt: &impl Abort, alloc: Global, fault: Fault) -> Result<Node<MemoryDevice, Log>, Fail> {
    let (node, _) = fresh(rt, alloc, 1, device(alloc, "", fault)?)?;
    Ok(node)
}

/// How many device calls a first start takes.
fn calls_of_a_start(rt: &impl Abort, alloc: Global) -> Result<usize, Fail> {
    let device = started(rt, alloc, Fault::None)?.into_device();
    Ok(device.count_of_calls())
}

/// Replica 1 at its second start, over what a crash of this fate leaves.
fn crashed(
    rt: &impl Abort,
    alloc: Global,
    device: &MemoryDevice,
    fate: Fate,
) -> Result<Node<MemoryDevice, Log>, Fail> {
    let left = device.left_by_crash(alloc, fate)?;
    let left = MemoryDevice::new(alloc, left, ROOM, Fault::None)?;
    let (node, outputs) = reopen(rt, alloc, 1, left)?;
    let want = joined(alloc, &["0", RECOVERY_OF_1, "2", RECOVERY_OF_1])?;
    assert!(rt; words_of(rt, alloc, 1, &outputs)?.as_str() == want.as_str());
    Ok(node)
}

/// After crashes of every fate the replica has kept a view in this range, and recovers.
fn check_crashes(
    rt: &impl Abort,
    alloc: Global,
    device: &MemoryDevice,
    least: u64,
    most: u64,
) -> Result<(), Fail> {
    for fate in FATES {
        let mut node = crashed(rt, alloc, device, fate)?;
        let kept = node.view_number();
        assert!(rt; least <= kept && kept <= most);
        let rows = if kept == 0 { IN_VIEW_0 } else { IN_VIEW_1 };
        play(rt, alloc, &mut node, rows)?;
    }
    Ok(())
}

/// This happens to the device; these rows are played, and then comes a crash.
fn check(
    rt: &impl Abort,
    alloc: Global,
    fault: Fault,
    rows: &[Row],
    least: u64,
    most: u64,
) -> Result<(), Fail> {
    let mut node = started(rt, alloc, fault)?;
    play(rt, alloc, &mut node, rows)?;
    check_crashes(rt, alloc, &node.into_device(), least, most)
}

#[test]
fn a_device_that_fails_stops_the_node(rt: HostRuntime) -> Result<(), Fail> {
    let alloc = rt.alloc();
    let before = calls_of_a_start(&rt, alloc)?;
    for at in 1..CALLS.saturating_add(1) {
        let most = if at < OPENING { 0 } else { 1 };
        let call = before.saturating_add(at);
        check(&rt, alloc, Fault::FailAt(call), HALTED, 0, most)?;
        check(&rt, alloc, Fault::StopAt(call), HALTED, 0, most)?;
    }
    Ok(())
}

#[test]
fn a_view_is_stored_before_it_is_sent(rt: HostRuntime) -> Result<(), Fail> {
    let alloc = rt.alloc();
    let before = calls_of_a_start(&rt, alloc)?;
    let next = before.saturating_add(CALLS).saturating_add(1);
    check(&rt, alloc, Fault::StopAt(next), CHANGED, 1, 1)
}

/// A pair whose sequence is the last but one, and the same after the start that comes next.
const BEFORE_LAST: &str =
    "0000000000000000000000000000000000000000000000000000000000000000a5027ffffffffffffffe00000000000000000000000000000001000000000009";

const LAST: &str =
    "a5027fffffffffffffff00000000000000000000000000000002000000000009a5027ffffffffffffffe00000000000000000000000000000001000000000009";

/// A view that has no place among the sequences of pairs stops the node. What is executed stays.
const NO_PLACE: &[Row] = &[
    (Given::Frame(TOLD_BY_0), &[]),
    (Given::Frame(TOLD_BY_2), &[]),
    (Given::Stand, &["Backup { primary: 0 } 0 2 1"]),
    (Given::Suspect, &["E22: no pair"]),
    (Given::Stand, &["Recovering 1 2 1"]),
    (Given::Beat, &["the node has stopped"]),
    (Given::Outcome(5), &["done 1 0"]),
];

#[test]
fn a_view_that_cannot_be_stored_stops_the_node(rt: HostRuntime) -> Result<(), Fail> {
    let alloc = rt.alloc();
    let (mut node, _) = reopen(&rt, alloc, 1, device(alloc, BEFORE_LAST, Fault::None)?)?;
    play(&rt, alloc, &mut node, NO_PLACE)?;
    assert!(rt; octets(alloc, &node.into_device())?.as_str() == LAST);
    Ok(())
}
