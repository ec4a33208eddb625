//! Requests in a cluster of three: where one is told to be done, and where not. Events at one replica flow in; what it gives out is compared.

ghost use Rattle.std.specs.Prelude.{◌<◌};

use crate::nodes::frames::{
    CHANGE_OF_0, COMMIT, COMMIT_1, OK_1, OK_2, OK_3, OK_4, PREPARE_ADD, PREPARE_AGAIN,
    PREPARE_DELETE, PREPARE_LATER, PREPARE_NOOP,
};
use crate::nodes::player::{Given, Row, play};
use crate::nodes::sample::{ADD, DELETE, NOOP, device, fresh};
use std::alloc::Global;
use std::process::Abort;
use std::test::*;
use view_store::Fault;

/// The primary of view 0: each request is pending until another replica has it, and then done with a code of its own, as the record of its place. One
/// that comes again is answered again, and is no new record. The last is pending, and no longer so where the view changes.
const PRIMARY: &[Row] = &[
    (Given::Stand, &["Primary 0 1 0"]),
    (Given::Outcome(5), &["lost"]),
    (
        Given::Request(5, ADD),
        &["1", PREPARE_ADD, "2", PREPARE_ADD],
    ),
    (Given::Outcome(5), &["pending"]),
    (Given::Request(5, ADD), &[]),
    (Given::Frame(OK_1), &["reply 7 5 1"]),
    (Given::Outcome(5), &["done 1 0"]),
    (Given::Request(5, ADD), &["reply 7 5 1"]),
    (Given::Request(4, ADD), &[]),
    (Given::Outcome(4), &["stale"]),
    (Given::Outcome(6), &["lost"]),
    (
        Given::Request(6, DELETE),
        &["1", PREPARE_DELETE, "2", PREPARE_DELETE],
    ),
    (Given::Outcome(5), &["stale"]),
    (Given::Frame(OK_2), &["reply 7 6 2"]),
    (Given::Outcome(6), &["done 2 0"]),
    (
        Given::Request(7, DELETE),
        &["1", PREPARE_AGAIN, "2", PREPARE_AGAIN],
    ),
    (Given::Frame(OK_3), &["reply 7 7 3"]),
    (Given::Outcome(7), &["done 3 32"]),
    (
        Given::Request(8, NOOP),
        &["1", PREPARE_NOOP, "2", PREPARE_NOOP],
    ),
    (Given::Beat, &["1", PREPARE_NOOP, "2", PREPARE_NOOP]),
    (Given::Frame(OK_4), &["reply 7 8 4"]),
    (Given::Outcome(8), &["done 4 0"]),
    (Given::Stand, &["Primary 0 1 4"]),
    (Given::Beat, &["1", COMMIT, "2", COMMIT]),
    (
        Given::Request(9, NOOP),
        &["1", PREPARE_LATER, "2", PREPARE_LATER],
    ),
    (Given::Outcome(9), &["pending"]),
    (
        Given::Suspect,
        &["store 1", "1", CHANGE_OF_0, "2", CHANGE_OF_0],
    ),
    (Given::Outcome(9), &["lost"]),
    (Given::Stand, &["Changing 1 1 4"]),
];

/// A backup: what is committed elsewhere is done here once it is heard of, and nothing is ever pending.
const BACKUP: &[Row] = &[
    (Given::Stand, &["Backup { primary: 0 } 0 1 0"]),
    (Given::Request(5, ADD), &[]),
    (Given::Outcome(5), &["lost"]),
    (Given::Frame(PREPARE_ADD), &["0", OK_1]),
    (Given::Outcome(5), &["lost"]),
    (Given::Stand, &["Backup { primary: 0 } 0 1 0"]),
    (Given::Frame(COMMIT_1), &[]),
    (Given::Outcome(5), &["done 1 0"]),
    (Given::Stand, &["Backup { primary: 0 } 0 1 1"]),
    (Given::Beat, &[]),
];

/// Plays rows at a replica that is started for the first time.
fn check(rt: &impl Abort, alloc: Global, index: u64, rows: &[Row]) -> Result<(), Fail>
    requires { index < 3 }
{
    let (mut node, _) = fresh(rt, alloc, index, device(alloc, "", Fault::None)?)?;
    play(rt, alloc, &mut node, rows)
}

#[test]
fn a_request_is_done_where_it_is_executed(rt: HostRuntime) -> Result<(), Fail> {
    check(&rt, rt.alloc(), 0, PRIMARY)?;
    check(&rt, rt.alloc(), 1, BACKUP)
}
