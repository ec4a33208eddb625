//! Starts: what a node sends first, what its device then holds, and which starts are refused. Octets of devices flow in; octets and frames are
//! compared.
ghost use Rattle.std.specs.Prelude.{◌<◌};

use crate::nodes::frames::{RECOVERY_2, RECOVERY_3, RECOVERY_4};
use crate::nodes::player::{Given, joined, said};
use crate::nodes::sample::{
    FIRST, Log, Made, begin, begin_again, device, fresh, nine, octets, reopen,
};
use crate::nodes::telling::words_of;
use dir_node::{Cluster, NodeError, Refused, ViewStoreError};
use std::alloc::Global;
use std::process::Abort;
use std::test::*;
use view_store::{Fault, MemoryDevice};

/// What a first start of version 1 left: the same pair, and no cluster.
const VERSION_1: &str =
    "a5010000000000000001000000000000000000000000000000010000000000000000000000000000000000000000000000000000000000000000000000000000";

/// The same after cluster 9 stored (0, 2).
const MIGRATED: &str =
    "a501000000000000000100000000000000000000000000000001000000000000a502000000000000000200000000000000000000000000000002000000000009";

/// A first start of cluster 9, and a second, a third and a fourth.
const SECOND: &str =
    "a502000000000000000100000000000000000000000000000001000000000009a502000000000000000200000000000000000000000000000002000000000009";

const THIRD: &str =
    "a502000000000000000300000000000000000000000000000003000000000009a502000000000000000200000000000000000000000000000002000000000009";

const FOURTH: &str =
    "a502000000000000000300000000000000000000000000000003000000000009a502000000000000000400000000000000000000000000000004000000000009";

/// A pair whose restarts are at the greatest number, of cluster 9.
const LAST_RESTART: &str =
    "a502000000000000000100000000000000007fffffffffffffff0000000000090000000000000000000000000000000000000000000000000000000000000000";

/// A pair whose sequence is at the greatest number, of cluster 9.
const LAST_SEQUENCE: &str =
    "a5027fffffffffffffff000000000000000000000000000000010000000000090000000000000000000000000000000000000000000000000000000000000000";

/// 65 octets.
const LONG: &str =
    "0000000000000000000000000000000000000000000000000000000000000000000000000000000000000000000000000000000000000000000000000000000000";

/// What a device of replica 0 holds before a later start, the frame that goes to both others, where the replica stands then, and what the device holds.
const STARTS: &[(&str, &str, &str, &str)] = &[
    (FIRST, RECOVERY_2, "Recovering 0 2 0", SECOND),
    (VERSION_1, RECOVERY_2, "Recovering 0 2 0", MIGRATED),
    (SECOND, RECOVERY_3, "Recovering 0 3 0", THIRD),
    (THIRD, RECOVERY_4, "Recovering 0 4 0", FOURTH),
];

/// What a device holds, the cluster whose replica starts again over it, and why it doesn't.
const REFUSED: &[(&str, u64, ViewStoreError)] = &[
    (FIRST, 8, ViewStoreError::ForeignCluster),
    (MIGRATED, 10, ViewStoreError::ForeignCluster),
    ("", 9, ViewStoreError::NoPair),
    (LONG, 9, ViewStoreError::NoPair),
    (LAST_RESTART, 9, ViewStoreError::NoPair),
    (LAST_SEQUENCE, 9, ViewStoreError::NoPair),
];

/// The first start of the replica of this index: it sends nothing, and its device holds the first pair.
fn check_first(rt: &impl Abort, alloc: Global, index: u64, standing: &str) -> Result<(), Fail>
    requires { index < 3 }
{
    let (mut node, outputs) = fresh(rt, alloc, index, device(alloc, "", Fault::None)?)?;
    assert!(rt; words_of(rt, alloc, 0, &outputs)?.is_empty());
    assert!(rt; said(rt, alloc, &mut node, Given::Stand)?.as_str() == standing);
    assert!(rt; octets(alloc, &node.into_device())?.as_str() == FIRST);
    Ok(())
}

#[test]
fn a_first_start_stores_its_pair(rt: HostRuntime) -> Result<(), Fail> {
    let alloc = rt.alloc();
    check_first(&rt, alloc, 0, "Primary 0 1 0 ")?;
    check_first(&rt, alloc, 1, "Backup { primary: 0 } 0 1 0 ")?;
    check_first(&rt, alloc, 2, "Backup { primary: 0 } 0 1 0 ")
}

/// A later start of replica 0: it sends this frame to both others, and stands so; its device then holds these octets.
fn check_start(
    rt: &impl Abort,
    alloc: Global,
    before: &str,
    frame: &str,
    standing: &str,
    after: &str,
) -> Result<(), Fail> {
    let (mut node, outputs) = reopen(rt, alloc, 0, device(alloc, before, Fault::None)?)?;
    let want = joined(alloc, &["1", frame, "2", frame])?;
    assert!(rt; words_of(rt, alloc, 0, &outputs)?.as_str() == want.as_str());
    let stands = said(rt, alloc, &mut node, Given::Stand)?;
    assert!(rt; stands.as_str() == joined(alloc, &[standing])?.as_str());
    assert!(rt; octets(alloc, &node.into_device())?.as_str() == after);
    Ok(())
}

#[test]
fn a_later_start_asks_with_a_new_nonce(rt: HostRuntime) -> Result<(), Fail> {
    for (before, frame, standing, after) in STARTS {
        check_start(&rt, rt.alloc(), before, frame, standing, after)?;
    }
    Ok(())
}

/// A start is refused with this error, and the device holds what it held.
fn check_refused(
    rt: &impl Abort,
    alloc: Global,
    made: Result<Made, Refused<MemoryDevice, Log>>,
    error: ViewStoreError,
    text: &str,
) -> Result<(), Fail> {
    match made {
        Ok(_) => assert!(rt; false, "{error}"),
        Err(refused) => {
            assert_eq!(rt; refused.error, NodeError::Store(error));
            assert!(rt; octets(alloc, &refused.device)?.as_str() == text);
        }
    }
    Ok(())
}

/// A later start of replica 0 of this cluster is so refused.
fn check_other(
    rt: &impl Abort,
    alloc: Global,
    text: &str,
    cluster: u64,
    error: ViewStoreError,
) -> Result<(), Fail> {
    let cluster = Cluster::new(cluster).expect(rt, "the number of a cluster");
    let made = begin_again(alloc, cluster, 0, device(alloc, text, Fault::None)?)?;
    check_refused(rt, alloc, made, error, text)
}

#[test]
fn a_start_over_another_pair_is_refused(rt: HostRuntime) -> Result<(), Fail> {
    for (text, cluster, error) in REFUSED {
        check_other(&rt, rt.alloc(), text, *cluster, *error)?;
    }
    Ok(())
}

#[test]
fn a_first_start_over_a_long_device_is_refused(rt: HostRuntime) -> Result<(), Fail> {
    let alloc = rt.alloc();
    let made = begin(alloc, nine(&rt), 0, device(alloc, LONG, Fault::None)?)?;
    check_refused(&rt, alloc, made, ViewStoreError::NoPair, LONG)
}
